// An office over SQLite: a row of one table for each parcel, found by its key. A call reads by one prepared statement and
// changes one row by another, which is a transaction: nobody else has the database, so nothing comes between the two. How many
// parcels are here and what was collected are kept beside the table as running numbers: an office that opened an old file would
// count them once.
#include "contender.h"

#include <sqlite3.h>
#include <stdbool.h>
#include <stdlib.h>
#include <string.h>
#include <unistd.h>

// In the folder in which the benchmark runs.
static const char FILE_NAME[] = "office.db";

static const char SETTINGS[] =
    // nobody else opens the file, so it need not be locked anew by each transaction
    "PRAGMA locking_mode = EXCLUSIVE;"
    // 64 MB, so that the whole book is kept in memory
    "PRAGMA cache_size = -65536;"
    "CREATE TABLE parcel (key INTEGER PRIMARY KEY, step INTEGER NOT NULL, kind INTEGER NOT NULL, sent_to INTEGER NOT NULL,"
    " dest INTEGER NOT NULL, amount INTEGER NOT NULL)";

// Kinds of step.
enum kind { ACCEPTED, SENT_ON, COME_IN, HANDED_OUT };

enum statement { ADD, FIND, STEP, COME_AGAIN, FIRST_HERE, STATEMENTS };

static const char *const TEXTS[STATEMENTS] = {
    [ADD] = "INSERT INTO parcel VALUES (?1, ?2, ?3, ?4, ?5, ?6) ON CONFLICT (key) DO NOTHING",
    [FIND] = "SELECT step, kind, sent_to, dest, amount FROM parcel WHERE key = ?1",
    [STEP] = "UPDATE parcel SET step = ?2, kind = ?3, sent_to = ?4 WHERE key = ?1",
    [COME_AGAIN] = "UPDATE parcel SET step = ?2, kind = ?3, sent_to = ?4, dest = ?5, amount = ?6 WHERE key = ?1",
    [FIRST_HERE] = "SELECT key FROM parcel WHERE key >= ?1 AND kind IN (0, 2) ORDER BY key LIMIT 1",
};

struct office {
    struct limits limits;
    sqlite3 *database;
    sqlite3_stmt *statements[STATEMENTS];
    uint32_t parcels;
    uint32_t accepted;
    uint32_t here;
    uint64_t collected;
};

static void run(const struct office *office, const char *text)
{
    if (sqlite3_exec(office->database, text, NULL, NULL, NULL) != SQLITE_OK)
        fail(text, sqlite3_errmsg(office->database));
}

static struct office *open_database(struct limits limits, const char *name)
{
    struct office *office = calloc(1, sizeof *office);
    if (office == NULL)
        fail("SQLite", "no memory left");
    office->limits = limits;
    int flags = SQLITE_OPEN_READWRITE | SQLITE_OPEN_CREATE | SQLITE_OPEN_NOMUTEX;
    if (sqlite3_open_v2(name, &office->database, flags, NULL) != SQLITE_OK)
        fail(name, sqlite3_errmsg(office->database));
    run(office, SETTINGS);
    for (int i = 0; i < STATEMENTS; i++)
        if (sqlite3_prepare_v3(office->database, TEXTS[i], -1, SQLITE_PREPARE_PERSISTENT, &office->statements[i], NULL)
            != SQLITE_OK)
            fail(TEXTS[i], sqlite3_errmsg(office->database));
    return office;
}

static void *open_in_memory(struct limits limits)
{
    return open_database(limits, ":memory:");
}

static void *open_in_file(struct limits limits)
{
    unlink(FILE_NAME);
    return open_database(limits, FILE_NAME);
}

static void close_database(void *opened)
{
    struct office *office = opened;
    for (int i = 0; i < STATEMENTS; i++)
        sqlite3_finalize(office->statements[i]);
    sqlite3_close(office->database);
    free(office);
}

static void close_in_file(void *office)
{
    close_database(office);
    unlink(FILE_NAME);
}

static void begin(void *office)
{
    run(office, "BEGIN");
}

static void commit(void *office)
{
    run(office, "COMMIT");
}

// The statement with these values, ready to be stepped through.
static sqlite3_stmt *bound(struct office *office, enum statement which, int count, const int64_t *values)
{
    sqlite3_stmt *statement = office->statements[which];
    for (int i = 0; i < count; i++)
        if (sqlite3_bind_int64(statement, i + 1, values[i]) != SQLITE_OK)
            fail(TEXTS[which], sqlite3_errmsg(office->database));
    return statement;
}

// Runs a statement that gives one row at most; whether it gave one, with its first numbers.
static bool one_row(struct office *office, enum statement which, int count, const int64_t *values, int columns, int64_t *row)
{
    sqlite3_stmt *statement = bound(office, which, count, values);
    int status = sqlite3_step(statement);
    bool found = status == SQLITE_ROW;
    if (found) {
        for (int i = 0; i < columns; i++)
            row[i] = sqlite3_column_int64(statement, i);
        status = sqlite3_step(statement);
    }
    if (status != SQLITE_DONE || sqlite3_reset(statement) != SQLITE_OK)
        fail(TEXTS[which], sqlite3_errmsg(office->database));
    return found;
}

// Runs a statement that gives no rows; whether it changed one of the table.
static bool changes(struct office *office, enum statement which, int count, const int64_t *values)
{
    one_row(office, which, count, values, 0, NULL);
    return sqlite3_changes(office->database) == 1;
}

static uint32_t field(const uint8_t *call, int index)
{
    const uint8_t *bytes = call + 1 + 4 * index;
    return bytes[0] | (uint32_t)bytes[1] << 8 | (uint32_t)bytes[2] << 16 | (uint32_t)bytes[3] << 24;
}

static size_t write_answer(uint8_t *answer, uint8_t number, int count, const uint64_t *values)
{
    answer[0] = number;
    for (int i = 0; i < count; i++)
        for (int byte = 0; byte < 8; byte++)
            answer[1 + 8 * i + byte] = (uint8_t)(values[i] >> 8 * byte);
    return 1 + 8 * (size_t)count;
}

static size_t refused(uint8_t *answer, uint64_t reason, uint64_t place)
{
    return write_answer(answer, 0, 2, (uint64_t[]){reason, place});
}

static size_t number(uint8_t *answer, uint64_t n)
{
    return write_answer(answer, 1, 1, &n);
}

// A row of the table.
struct parcel {
    int64_t step, kind, to, dest, amount;
};

static bool find(struct office *office, uint32_t key, struct parcel *parcel)
{
    int64_t row[5];
    if (!one_row(office, FIND, 1, (int64_t[]){key}, 5, row))
        return false;
    *parcel = (struct parcel){row[0], row[1], row[2], row[3], row[4]};
    return true;
}

static bool is_here(const struct parcel *parcel)
{
    return parcel->kind == ACCEPTED || parcel->kind == COME_IN;
}

// The next step of a parcel that is here, by which it leaves.
static void leave(struct office *office, uint32_t key, struct parcel *parcel, enum kind kind, uint32_t to)
{
    parcel->step++;
    parcel->kind = kind;
    parcel->to = to;
    if (!changes(office, STEP, 4, (int64_t[]){key, parcel->step, kind, to}))
        fail("SQLite", "a parcel that was found is gone");
    office->here--;
}

static size_t slip(const struct office *office, uint8_t *answer, uint32_t key, const struct parcel *parcel)
{
    uint64_t values[] = {key,
                         (uint64_t)parcel->step,
                         office->limits.own,
                         (uint64_t)parcel->to,
                         (uint64_t)parcel->dest,
                         (uint64_t)parcel->amount};
    return write_answer(answer, 2, 6, values);
}

static const uint32_t MAX_AMOUNT = 1000000;

static size_t accept(struct office *office, uint32_t dest, uint32_t amount, uint8_t *answer)
{
    if (dest >= office->limits.offices || amount > MAX_AMOUNT)
        return refused(answer, 2, 0);
    if (office->parcels >= office->limits.parcels)
        return refused(answer, 9, 0);
    uint32_t key = 65536 * office->limits.own + office->accepted;
    if (!changes(office, ADD, 6, (int64_t[]){key, 0, ACCEPTED, office->limits.own, dest, amount}))
        fail("SQLite", "a key stands in the table before it is given out");
    office->parcels++;
    office->accepted++;
    office->here++;
    return number(answer, key);
}

static size_t send(struct office *office, uint32_t key, uint32_t to, uint8_t *answer)
{
    if (to >= office->limits.offices || to == office->limits.own)
        return refused(answer, 2, 1);
    struct parcel parcel;
    if (!find(office, key, &parcel) || !is_here(&parcel))
        return refused(answer, 4, 0);
    leave(office, key, &parcel, SENT_ON, to);
    return slip(office, answer, key, &parcel);
}

static size_t slip_again(struct office *office, uint32_t key, uint8_t *answer)
{
    struct parcel parcel;
    if (!find(office, key, &parcel) || parcel.kind != SENT_ON)
        return refused(answer, 4, 0);
    return slip(office, answer, key, &parcel);
}

static size_t take_in(struct office *office, const uint8_t *call, uint8_t *answer)
{
    uint32_t key = field(call, 0), step = field(call, 1), from = field(call, 2), to = field(call, 3), dest = field(call, 4),
             amount = field(call, 5);
    uint32_t offices = office->limits.offices;
    if (from >= offices || to >= offices || dest >= offices || amount > MAX_AMOUNT)
        return refused(answer, 2, 0);
    if (to != office->limits.own)
        return refused(answer, 5, 0);
    const int64_t values[] = {key, (int64_t)step + 1, COME_IN, to, dest, amount};
    // most parcels are new here, so they are added without a look for them
    bool has_room = office->parcels < office->limits.parcels;
    if (has_room && changes(office, ADD, 6, values)) {
        office->parcels++;
        office->here++;
        return number(answer, dest);
    }
    struct parcel known;
    if (!find(office, key, &known))
        return refused(answer, 9, 0);
    if (known.step >= step)
        return refused(answer, 5, 0);
    if (!changes(office, COME_AGAIN, 6, values))
        fail("SQLite", "a parcel that was found is gone");
    office->here += !is_here(&known);
    // sums are of the parcels that were handed out last
    if (known.kind == HANDED_OUT)
        office->collected -= (uint64_t)known.amount;
    return number(answer, dest);
}

static size_t hand_out(struct office *office, uint32_t key, uint8_t *answer)
{
    struct parcel parcel;
    if (!find(office, key, &parcel) || !is_here(&parcel))
        return refused(answer, 4, 0);
    if (parcel.dest != office->limits.own)
        return refused(answer, 6, 0);
    leave(office, key, &parcel, HANDED_OUT, office->limits.own);
    office->collected += (uint64_t)parcel.amount;
    return number(answer, (uint64_t)parcel.amount);
}

static size_t here(struct office *office, uint32_t from, uint8_t *answer)
{
    int64_t key;
    bool found = one_row(office, FIRST_HERE, 1, (int64_t[]){from}, 1, &key);
    return write_answer(answer, 5, 2, (uint64_t[]){office->here, found ? (uint64_t)key + 1 : 0});
}

static uint64_t call(void *opened, const uint8_t *call, size_t call_bytes, uint8_t *answer, size_t answer_bytes,
                     uint8_t *letters, size_t letters_bytes)
{
    static const uint8_t LENGTHS[] = {9, 9, 5, 25, 5, 5, 5, 5, 1};
    struct office *office = opened;
    (void)letters;
    if (answer_bytes < OFFICE_ANSWER_BYTES || letters_bytes < (size_t)OFFICE_LETTER_BYTES * office->limits.offices)
        return 0;
    if (call_bytes == 0 || call[0] >= sizeof LENGTHS)
        return refused(answer, 1, 0);
    size_t wanted = LENGTHS[call[0]];
    if (call_bytes != wanted)
        return refused(answer, 1, call_bytes < wanted ? call_bytes : wanted);
    switch (call[0]) {
    case 0:
        return accept(office, field(call, 0), field(call, 1), answer);
    case 1:
        return send(office, field(call, 0), field(call, 1), answer);
    case 2:
        return slip_again(office, field(call, 0), answer);
    case 3:
        return take_in(office, call, answer);
    case 4:
        return hand_out(office, field(call, 0), answer);
    case 7:
        return here(office, field(call, 0), answer);
    case 8:
        return write_answer(answer, 5, 2, (uint64_t[]){office->collected, 0});
    default: // paying, and where a parcel is, can't be done
        return refused(answer, 2, 0);
    }
}

const struct contender sqlite_in_memory = {
    .name = "SQLite memory",
    .open = open_in_memory,
    .call = call,
    .close = close_database,
    .begin = begin,
    .commit = commit,
};

const struct contender sqlite_in_file = {
    .name = "SQLite file",
    .open = open_in_file,
    .call = call,
    .close = close_in_file,
    .begin = begin,
    .commit = commit,
};
