// Measures the office beside SQLite and beside an office in plain Rust, by the same calls, in one run. What the
// numbers say: docs/BENCH.md. Every answer is compared, outside of the time that is measured.
#include "contender.h"

#include <malloc.h>
#include <sqlite3.h>
#include <stdbool.h>
#include <stdio.h>
#include <stdlib.h>
#include <string.h>
#include <time.h>

void *plain_open(uint32_t offices, uint32_t own, uint32_t parcels);
uint64_t plain_call(void *office, const uint8_t *call, size_t call_bytes, uint8_t *answer, size_t answer_bytes,
                    uint8_t *letters, size_t letters_bytes);
void plain_close(void *office);

enum { OFFICES = 16, LETTERS_BYTES = OFFICES * OFFICE_LETTER_BYTES, KEYS_OF_AN_OFFICE = 65536, MOST_AMOUNT = 1000000 };

_Noreturn void fail(const char *what, const char *why)
{
    fprintf(stderr, "bench: %s: %s\n", what, why);
    exit(1);
}

static void *get(size_t count, size_t size)
{
    void *memory = calloc(count, size);
    if (memory == NULL)
        fail("memory", "none left");
    return memory;
}

// The contenders.

// The office that is measured: its memory is lent to it for each call.
struct lent {
    struct limits limits;
    size_t words;
    uint32_t *memory;
};

static void *ours_open(struct limits limits)
{
    struct lent *lent = get(1, sizeof *lent);
    lent->limits = limits;
    lent->words = office_words(limits.offices, limits.own, limits.parcels);
    size_t bytes = (4 * lent->words + 63) / 64 * 64;
    lent->memory = aligned_alloc(64, bytes);
    if (lent->memory == NULL)
        fail("memory", "none left");
    if (office_open(limits.offices, limits.own, limits.parcels, lent->memory, lent->words) != 0)
        fail("office", "not opened");
    return lent;
}

static uint64_t ours_call(void *office, const uint8_t *call, size_t call_bytes, uint8_t *answer, size_t answer_bytes,
                          uint8_t *letters, size_t letters_bytes)
{
    const struct lent *lent = office;
    return office_call(lent->limits.offices, lent->limits.own, lent->limits.parcels, lent->memory, lent->words, call,
                       call_bytes, answer, answer_bytes, letters, letters_bytes);
}

static void ours_close(void *office)
{
    struct lent *lent = office;
    free(lent->memory);
    free(lent);
}

static void *plain_opened(struct limits limits)
{
    void *office = plain_open(limits.offices, limits.own, limits.parcels);
    if (office == NULL)
        fail("plain Rust", "not opened");
    return office;
}

static const struct contender OURS = {.name = "office", .open = ours_open, .call = ours_call, .close = ours_close};

static const struct contender PLAIN = {
    .name = "plain Rust", .open = plain_opened, .call = plain_call, .close = plain_close};

enum who { OFFICE, PLAIN_RUST, SQLITE_MEMORY, SQLITE_FILE, CONTENDERS };

static const struct contender *contenders[CONTENDERS];

// A day's calls.

// The kinds of call that are measured; each one's number, and how many of a day's 100 calls it has.
enum kind { ACCEPT, SEND, SLIP, TAKE_IN, HAND_OUT, HERE, SUMS, KINDS };

static const struct {
    const char *name;
    uint8_t number;
    int share;
} KIND[KINDS] = {
    [ACCEPT] = {"accept", 0, 23},     [SEND] = {"send", 1, 23}, [SLIP] = {"slip", 2, 6}, [TAKE_IN] = {"take in", 3, 23},
    [HAND_OUT] = {"hand out", 4, 23}, [HERE] = {"here", 7, 1},  [SUMS] = {"sums", 8, 1},
};

struct call {
    uint8_t length;
    uint8_t bytes[25];
};

// What was answered: the bytes lent for it, and what the call returned.
struct answer {
    uint8_t bytes[OFFICE_ANSWER_BYTES];
    uint64_t returned;
};

// Calls of one kind that are done one behind the other, so that one look at the clock covers them all.
struct chunk {
    enum kind kind;
    size_t round, first, count;
};

struct day {
    struct limits limits;
    // the first round that is measured; those before it fill the book
    size_t rounds, measured;
    struct chunk *chunks;
    size_t chunk_count;
    struct call *calls;
    size_t call_count;
    // what the first office that played the day answered
    struct answer *answers;
};

static uint64_t seed = 20;

// SplitMix64.
static uint64_t next_random(void)
{
    uint64_t z = seed += 0x9e3779b97f4a7c15;
    z = (z ^ z >> 30) * 0xbf58476d1ce4e5b9;
    z = (z ^ z >> 27) * 0x94d049bb133111eb;
    return z ^ z >> 31;
}

static uint32_t below(uint32_t end)
{
    return (uint32_t)((next_random() >> 32) * end >> 32);
}

static uint32_t other_office(void)
{
    return 1 + below(OFFICES - 1);
}

// Keys, of which one is drawn by chance.
struct pool {
    uint32_t *keys;
    size_t count;
};

static uint32_t draw(struct pool *pool)
{
    uint32_t at = below((uint32_t)pool->count);
    uint32_t key = pool->keys[at];
    pool->keys[at] = pool->keys[--pool->count];
    return key;
}

static uint32_t look(const struct pool *pool)
{
    return pool->keys[below((uint32_t)pool->count)];
}

static void add(struct pool *pool, uint32_t key)
{
    pool->keys[pool->count++] = key;
}

static struct call make_call(uint8_t number, size_t count, const uint32_t *fields)
{
    struct call call = {.length = (uint8_t)(1 + 4 * count), .bytes = {number}};
    for (size_t i = 0; i < count; i++)
        for (size_t byte = 0; byte < 4; byte++)
            call.bytes[1 + 4 * i + byte] = (uint8_t)(fields[i] >> 8 * byte);
    return call;
}

// What the office has while the day is made up.
struct shelves {
    uint32_t accepted;
    // keys of other offices that are still to come; accepted here and not sent on; sent on; come in and not handed out; all
    struct pool to_come, accepted_here, sent, come_in, all;
};

// A call of a kind that will be done, and not turned away.
static struct call good_call(enum kind kind, struct shelves *shelves)
{
    uint8_t number = KIND[kind].number;
    uint32_t key;
    switch (kind) {
    case ACCEPT:
        key = shelves->accepted++;
        add(&shelves->accepted_here, key);
        add(&shelves->all, key);
        return make_call(number, 2, (uint32_t[]){other_office(), below(MOST_AMOUNT + 1)});
    case SEND:
        key = draw(&shelves->accepted_here);
        add(&shelves->sent, key);
        return make_call(number, 2, (uint32_t[]){key, other_office()});
    case SLIP:
        return make_call(number, 1, (uint32_t[]){look(&shelves->sent)});
    case TAKE_IN:
        key = draw(&shelves->to_come);
        add(&shelves->come_in, key);
        add(&shelves->all, key);
        return make_call(number, 6, (uint32_t[]){key, 1, key / KEYS_OF_AN_OFFICE, 0, 0, below(MOST_AMOUNT + 1)});
    case HAND_OUT:
        return make_call(number, 1, (uint32_t[]){draw(&shelves->come_in)});
    case HERE:
        return make_call(number, 1, (uint32_t[]){look(&shelves->all)});
    default:
        return make_call(number, 0, NULL);
    }
}

static void add_chunk(struct day *day, enum kind kind, size_t round, size_t count, struct shelves *shelves)
{
    day->chunks[day->chunk_count++] = (struct chunk){kind, round, day->call_count, count};
    for (size_t i = 0; i < count; i++)
        day->calls[day->call_count++] = good_call(kind, shelves);
}

static size_t least(size_t a, size_t b)
{
    return a < b ? a : b;
}

static size_t most(size_t a, size_t b)
{
    return a > b ? a : b;
}

// A day at office 0 of 16 that fills its book: half of the parcels are accepted here for other offices, half come in for this
// one. In its first half, in which nothing is measured, half of them are sent on or handed out; in its second half, as many
// as come. So at its end all places of the book are taken, and a quarter of the parcels is here.
static struct day make_day(uint32_t parcels)
{
    size_t chunk = least(256, parcels / 4), few = 16;
    struct day day = {.limits = {OFFICES, 0, parcels}, .rounds = parcels / 2 / chunk};
    day.measured = day.rounds / 2;
    day.chunks = get(day.rounds * KINDS, sizeof *day.chunks);
    day.calls = get(day.rounds * (5 * chunk + 3 * few), sizeof *day.calls);

    uint32_t half = parcels / 2;
    struct shelves shelves = {
        .to_come.keys = get((size_t)(OFFICES - 1) * half, sizeof(uint32_t)),
        .accepted_here.keys = get(half, sizeof(uint32_t)),
        .sent.keys = get(half, sizeof(uint32_t)),
        .come_in.keys = get(half, sizeof(uint32_t)),
        .all.keys = get(parcels, sizeof(uint32_t)),
    };
    for (uint32_t office = 1; office < OFFICES; office++)
        for (uint32_t before = 0; before < half; before++)
            add(&shelves.to_come, KEYS_OF_AN_OFFICE * office + before);
    for (size_t round = 0; round < day.rounds; round++) {
        bool measured = round >= day.measured;
        size_t leave = measured ? chunk : chunk / 2;
        add_chunk(&day, ACCEPT, round, chunk, &shelves);
        add_chunk(&day, TAKE_IN, round, chunk, &shelves);
        add_chunk(&day, SEND, round, leave, &shelves);
        add_chunk(&day, HAND_OUT, round, leave, &shelves);
        if (measured) {
            add_chunk(&day, SLIP, round, most(chunk / 4, few), &shelves);
            add_chunk(&day, HERE, round, few, &shelves);
            add_chunk(&day, SUMS, round, few, &shelves);
        }
    }
    free(shelves.to_come.keys);
    free(shelves.accepted_here.keys);
    free(shelves.sent.keys);
    free(shelves.come_in.keys);
    free(shelves.all.keys);
    day.answers = get(day.call_count, sizeof *day.answers);
    return day;
}

static void free_day(struct day *day)
{
    free(day->chunks);
    free(day->calls);
    free(day->answers);
}

// Playing a day.

static uint64_t nanoseconds(void)
{
    struct timespec time;
    clock_gettime(CLOCK_MONOTONIC, &time);
    return (uint64_t)time.tv_sec * 1000000000 + (uint64_t)time.tv_nsec;
}

// What two looks at the clock cost, which is taken off each chunk.
static uint64_t clock_cost;

static int by_size(const void *a, const void *b)
{
    double x = *(const double *)a, y = *(const double *)b;
    return (x > y) - (x < y);
}

static double median(size_t count, double *numbers)
{
    qsort(numbers, count, sizeof *numbers, by_size);
    return numbers[count / 2];
}

static void measure_clock(void)
{
    static double costs[10001];
    size_t count = sizeof costs / sizeof *costs;
    for (size_t i = 0; i < count; i++) {
        uint64_t before = nanoseconds();
        costs[i] = (double)(nanoseconds() - before);
    }
    clock_cost = (uint64_t)median(count, costs);
}

// An answer that differs from the first office's ends the program.
static void compare(const struct contender *contender, const struct call *call, const struct answer *first,
                    const struct answer *answer)
{
    if (answer->returned == first->returned && memcmp(answer->bytes, first->bytes, OFFICE_ANSWER_BYTES) == 0)
        return;
    fprintf(stderr, "bench: an answer of %s differs from that of %s\ncall:", contender->name, contenders[PLAIN_RUST]->name);
    for (size_t i = 0; i < call->length; i++)
        fprintf(stderr, " %d", call->bytes[i]);
    const struct answer *both[] = {first, answer};
    for (size_t which = 0; which < 2; which++) {
        fprintf(stderr, "\n%s: returned %llu,", which == 0 ? contenders[PLAIN_RUST]->name : contender->name,
                (unsigned long long)both[which]->returned);
        for (size_t i = 0; i < OFFICE_ANSWER_BYTES; i++)
            fprintf(stderr, " %d", both[which]->bytes[i]);
    }
    fputc('\n', stderr);
    exit(1);
}

// Bytes behind an answer have to stay as they were; these are put there.
enum { UNTOUCHED = 0xa5 };

// Plays a day, and compares its answers, or keeps them where there is nothing to compare them with yet. What is done before
// the first round that is measured is one transaction. For each chunk that is measured, the fastest play so far is kept.
static void play(const struct contender *contender, const struct day *day, size_t measured, bool keep, uint64_t *fastest)
{
    static struct answer answers[256];
    static uint8_t letters[LETTERS_BYTES];
    void *office = contender->open(day->limits);
    bool filling = contender->begin != NULL;
    if (filling)
        contender->begin(office);
    for (const struct chunk *chunk = day->chunks; chunk < day->chunks + day->chunk_count; chunk++) {
        if (filling && chunk->round == measured) {
            contender->commit(office);
            filling = false;
        }
        const struct call *calls = day->calls + chunk->first;
        memset(answers, UNTOUCHED, chunk->count * sizeof *answers);
        uint64_t before = nanoseconds();
        for (size_t i = 0; i < chunk->count; i++)
            answers[i].returned = contender->call(office, calls[i].bytes, calls[i].length, answers[i].bytes, OFFICE_ANSWER_BYTES,
                                                  letters, LETTERS_BYTES);
        uint64_t took = nanoseconds() - before;
        uint64_t *best = &fastest[chunk - day->chunks];
        if (chunk->round >= measured && (*best == 0 || took < *best))
            *best = took;
        for (size_t i = 0; i < chunk->count; i++) {
            struct answer *first = &day->answers[chunk->first + i];
            if (keep)
                *first = answers[i];
            compare(contender, &calls[i], first, &answers[i]);
            if (answers[i].bytes[0] == 0)
                fail(contender->name, "a call of the day was turned away");
        }
    }
    contender->close(office);
}

// Answers to calls that may be turned away.

// A field below an end, or now and then any four bytes.
static uint32_t odd_field(uint32_t end)
{
    return below(50) == 0 ? (uint32_t)next_random() : below(end);
}

// Any call, or bytes that are none. No slip brings a key that office 0 has yet to give out: none that is given out does.
static struct call odd_call(uint32_t accepted)
{
    uint32_t key = below(3) == 0 ? odd_field(70) : KEYS_OF_AN_OFFICE * (1 + below(2)) + odd_field(30);
    uint32_t office = odd_field(OFFICES + 1), amount = below(10) == 0 ? MOST_AMOUNT + below(2) : odd_field(MOST_AMOUNT);
    struct call call;
    switch (below(10)) {
    case 0:
        call = make_call(0, 2, (uint32_t[]){office, amount});
        break;
    case 1:
    case 2:
        call = make_call(1, 2, (uint32_t[]){key, office});
        break;
    case 3:
        call = make_call(2, 1, (uint32_t[]){key});
        break;
    case 4:
    case 5:
    case 6:
        if (key < KEYS_OF_AN_OFFICE && key >= accepted)
            key += KEYS_OF_AN_OFFICE;
        call = make_call(3, 6, (uint32_t[]){key, odd_field(6), office, below(4) == 0 ? odd_field(OFFICES + 1) : 0,
                                            below(2) == 0 ? odd_field(OFFICES + 1) : 0, amount});
        break;
    case 7:
        call = make_call(4, 1, (uint32_t[]){key});
        break;
    case 8:
        call = make_call(7, 1, (uint32_t[]){below(2) == 0 ? key : odd_field(2)});
        break;
    default:
        call = make_call((uint8_t)(5 + below(5)), below(2), (uint32_t[]){key});
        break;
    }
    if (below(20) == 0)
        call.length = (uint8_t)below(sizeof call.bytes + 1);
    return call;
}

// Asks all offices so many calls of that kind, at a limit that is reached, and compares their answers.
static void compare_odd(size_t calls)
{
    static uint8_t letters[LETTERS_BYTES];
    const struct limits limits = {OFFICES, 0, 64};
    void *offices[CONTENDERS] = {0};
    uint32_t accepted = 0;
    size_t turned_away = 0;
    for (size_t i = 0; i < calls; i++) {
        if (i % 1000 == 0) {
            for (size_t who = 0; who < CONTENDERS; who++) {
                const struct contender *contender = contenders[who];
                if (offices[who] != NULL)
                    contender->close(offices[who]);
                offices[who] = contender->open(limits);
                if (contender->begin != NULL)
                    contender->begin(offices[who]);
            }
            accepted = 0;
        }
        struct call call = odd_call(accepted);
        struct answer answers[CONTENDERS];
        memset(answers, UNTOUCHED, sizeof answers);
        for (size_t who = 0; who < CONTENDERS; who++)
            answers[who].returned = contenders[who]->call(offices[who], call.bytes, call.length, answers[who].bytes,
                                                          OFFICE_ANSWER_BYTES, letters, LETTERS_BYTES);
        for (size_t who = 0; who < CONTENDERS; who++)
            compare(contenders[who], &call, &answers[PLAIN_RUST], &answers[who]);
        bool refused = answers[0].bytes[0] == 0;
        turned_away += refused;
        accepted += call.bytes[0] == 0 && !refused;
    }
    for (size_t who = 0; who < CONTENDERS; who++)
        contenders[who]->close(offices[who]);
    printf("The %d gave the same answers to %zu calls made up by chance, of which %zu were turned away.\n\n",
           CONTENDERS, calls, turned_away);
}

// Measuring, and what is said of it.

// A number of parcels at which all are measured: how many days are played one behind the other in each pass, and how many
// by SQLite in a file, where a call takes milliseconds.
static const struct {
    uint32_t parcels;
    size_t days, file_days;
} SIZES[] = {{64, 100, 3}, {4096, 5, 1}, {65536, 1, 1}};

enum { SIZE_COUNT = 3 };

// What a call of each kind costs, and on the whole: in a day's mix, and in that of the calls that change or show one parcel
// (all but here and sums).
enum row { MIX = KINDS, OF_ONE, ROWS };
typedef double table[CONTENDERS][ROWS];

// What a call took, by the fastest play of each chunk.
static void find_costs(const struct day *day, const uint64_t *fastest, double *costs)
{
    double took[KINDS] = {0}, calls[KINDS] = {0};
    for (size_t i = 0; i < day->chunk_count; i++)
        if (fastest[i] != 0) {
            took[day->chunks[i].kind] += fastest[i] > clock_cost ? (double)(fastest[i] - clock_cost) : 0;
            calls[day->chunks[i].kind] += (double)day->chunks[i].count;
        }
    costs[MIX] = costs[OF_ONE] = 0;
    int share_of_one = 0;
    for (size_t kind = 0; kind < KINDS; kind++) {
        costs[kind] = took[kind] / calls[kind];
        costs[MIX] += costs[kind] * KIND[kind].share / 100;
        if (kind <= HAND_OUT) {
            costs[OF_ONE] += costs[kind] * KIND[kind].share;
            share_of_one += KIND[kind].share;
        }
    }
    costs[OF_ONE] /= share_of_one;
}

// The contenders take turns, so that whatever else the machine does comes in the way of each.
static void measure(size_t size, size_t passes, table costs)
{
    struct day day = make_day(SIZES[size].parcels);
    uint64_t *fastest[CONTENDERS];
    for (size_t who = 0; who < CONTENDERS; who++)
        fastest[who] = get(day.chunk_count, sizeof *fastest[who]);
    // plain Rust's answers are kept, for all to be compared with; that play isn't measured
    play(contenders[PLAIN_RUST], &day, day.rounds, true, fastest[PLAIN_RUST]);
    for (size_t pass = 0; pass < passes; pass++)
        for (size_t turn = 0; turn <= SQLITE_MEMORY; turn++) {
            size_t who = (pass + turn) % (SQLITE_MEMORY + 1);
            for (size_t i = 0; i < SIZES[size].days; i++)
                play(contenders[who], &day, day.measured, false, fastest[who]);
        }
    // a sample: the last round alone
    for (size_t i = 0; i < SIZES[size].file_days; i++)
        play(contenders[SQLITE_FILE], &day, day.rounds - 1, false, fastest[SQLITE_FILE]);
    for (size_t who = 0; who < CONTENDERS; who++) {
        find_costs(&day, fastest[who], costs[who]);
        free(fastest[who]);
    }
    free_day(&day);
}

static const char *row_name(size_t kind)
{
    return kind == MIX ? "a day's mix" : kind == OF_ONE ? "one parcel's" : KIND[kind].name;
}

static int share_of(size_t kind)
{
    int share = 0;
    if (kind < KINDS)
        return KIND[kind].share;
    for (size_t k = 0; k < KINDS; k++)
        if (kind == MIX || k <= HAND_OUT)
            share += KIND[k].share;
    return share;
}

static void print_costs(uint32_t parcels, table costs)
{
    printf("%u parcels, nanoseconds a call:\n\n", parcels);
    printf("| of 100 | call         |  office | plain Rust | SQLite memory | SQLite file | office / plain | SQLite memory / office | SQLite file / office |\n");
    printf("|-------:|--------------|--------:|-----------:|--------------:|------------:|---------------:|-----------------------:|---------------------:|\n");
    for (size_t kind = 0; kind < ROWS; kind++)
        printf("| %6d | %-12s | %7.0f | %10.0f | %13.0f | %11.0f | %14.2f | %22.1f | %20.0f |\n",
               share_of(kind), row_name(kind), costs[OFFICE][kind], costs[PLAIN_RUST][kind],
               costs[SQLITE_MEMORY][kind], costs[SQLITE_FILE][kind], costs[OFFICE][kind] / costs[PLAIN_RUST][kind],
               costs[SQLITE_MEMORY][kind] / costs[OFFICE][kind], costs[SQLITE_FILE][kind] / costs[OFFICE][kind]);
    printf("\n");
}

static void print_growth(table *costs)
{
    printf("%u parcels over %u, how many times the cost:\n\n", SIZES[SIZE_COUNT - 1].parcels, SIZES[0].parcels);
    printf("| call         | office | plain Rust | SQLite memory |\n");
    printf("|--------------|-------:|-----------:|--------------:|\n");
    for (size_t kind = 0; kind < ROWS; kind++) {
        printf("| %-12s |", row_name(kind));
        for (size_t who = 0; who <= SQLITE_MEMORY; who++)
            printf(" %*.1f |", who == OFFICE ? 6 : who == PLAIN_RUST ? 10 : 13,
                   costs[SIZE_COUNT - 1][who][kind] / costs[0][who][kind]);
        printf("\n");
    }
    printf("\n");
}

static const char *verdict(bool met)
{
    return met ? "met" : "missed";
}

// The goals against SQLite and plain Rust, for a day's mix or the calls of one parcel.
static void print_ratios(table *costs, size_t row)
{
    bool met = true;
    printf("- %s: at least 20 times as fast as SQLite in memory:", row_name(row));
    for (size_t size = 0; size < SIZE_COUNT; size++) {
        double ratio = costs[size][SQLITE_MEMORY][row] / costs[size][OFFICE][row];
        met = met && ratio >= 20;
        printf(" %.1f at %u%s", ratio, SIZES[size].parcels, size + 1 < SIZE_COUNT ? "," : "");
    }
    printf(": %s\n- %s: at most 1.25 times what plain Rust takes:", verdict(met), row_name(row));
    met = true;
    for (size_t size = 0; size < SIZE_COUNT; size++) {
        double ratio = costs[size][OFFICE][row] / costs[size][PLAIN_RUST][row];
        met = met && ratio <= 1.25;
        printf(" %.2f at %u%s", ratio, SIZES[size].parcels, size + 1 < SIZE_COUNT ? "," : "");
    }
    printf(": %s\n", verdict(met));
}

static void print_goals(table *costs)
{
    printf("Goals, for a day's mix, and for the calls of one parcel (all but here and sums):\n\n");
    print_ratios(costs, MIX);
    print_ratios(costs, OF_ONE);
    printf("- accept, send, slip, take in and hand out at %u parcels at most 4 times what they take at %u:",
           SIZES[SIZE_COUNT - 1].parcels, SIZES[0].parcels);
    bool met = true;
    for (size_t kind = ACCEPT; kind <= HAND_OUT; kind++) {
        double ratio = costs[SIZE_COUNT - 1][OFFICE][kind] / costs[0][OFFICE][kind];
        met = met && ratio <= 4;
        printf(" %s %.1f%s", KIND[kind].name, ratio, kind < HAND_OUT ? "," : "");
    }
    printf(": %s\n", verdict(met));
}

// Plays days by one contender alone, for whoever looks where its time goes.
static void play_alone(const char *name, uint32_t parcels, size_t days)
{
    size_t who = 0;
    while (who < CONTENDERS && strcmp(contenders[who]->name, name) != 0)
        who++;
    if (who == CONTENDERS || parcels < 4 || parcels > KEYS_OF_AN_OFFICE || days < 1)
        fail("usage", "bench CONTENDER PARCELS DAYS: CONTENDER is 'office', 'plain Rust', 'SQLite memory' or 'SQLite file', PARCELS 4 to 65536");
    struct day day = make_day(parcels);
    uint64_t *fastest = get(day.chunk_count, sizeof *fastest);
    play(contenders[PLAIN_RUST], &day, day.rounds, true, fastest);
    for (size_t i = 0; i < days; i++)
        play(contenders[who], &day, day.measured, false, fastest);
    double costs[ROWS];
    find_costs(&day, fastest, costs);
    for (size_t kind = 0; kind < ROWS; kind++)
        printf("%-12s %8.1f\n", row_name(kind), costs[kind]);
    free(fastest);
    free_day(&day);
}

int main(int count, char **arguments)
{
    contenders[OFFICE] = &OURS;
    contenders[PLAIN_RUST] = &PLAIN;
    contenders[SQLITE_MEMORY] = &sqlite_in_memory;
    contenders[SQLITE_FILE] = &sqlite_in_file;
    // what is given back stays with the process, so that no office pays for fresh pages more often than another
    mallopt(M_MMAP_THRESHOLD, 32 << 20);
    mallopt(M_TRIM_THRESHOLD, 32 << 20);
    measure_clock();
    if (count == 4) {
        play_alone(arguments[1], (uint32_t)atoi(arguments[2]), (size_t)atoi(arguments[3]));
        return 0;
    }
    size_t passes = count == 2 ? (size_t)atoi(arguments[1]) : 21;
    if (count > 2 || passes < 1)
        fail("usage", "bench [PASSES], or bench CONTENDER PARCELS DAYS");
    printf("SQLite %s. Each row of calls counts by its fastest play: of %zu at %u parcels, %zu at %u, %zu at %u;\n"
           "of SQLite in a file the last round of a day is measured, %zu times at %u parcels and else once.\n\n",
           sqlite3_libversion(), passes * SIZES[2].days, SIZES[2].parcels, passes * SIZES[1].days, SIZES[1].parcels,
           passes * SIZES[0].days, SIZES[0].parcels, SIZES[0].file_days, SIZES[0].parcels);
    compare_odd(30000);
    static table costs[SIZE_COUNT];
    for (size_t size = 0; size < SIZE_COUNT; size++) {
        measure(size, passes, costs[size]);
        print_costs(SIZES[size].parcels, costs[size]);
        fflush(stdout);
    }
    printf("The %d gave the same answers to every call that was measured.\n\n", CONTENDERS);
    print_growth(costs);
    print_goals(costs);
    return 0;
}
