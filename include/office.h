/* One post office, proved, for programs in C.
 *
 * `rt lib` in the folder crates/office builds it as crates/office/out/liboffice.a. The contracts in
 * crates/office/src/lib.rt say what stands here, and are proved. docs/FORMATS.md has the bytes of calls, answers and
 * letters, docs/NUMBERS.md what each call is answered and the numbers of refusals.
 *
 * An office keeps nothing but the memory that is lent to it, so each call comes with its limits:
 *
 *   offices   how many offices there are, 2 to 16
 *   own       this office's number, below offices
 *   parcels   how many parcels it ever has to do with, at most 65,536
 *
 * What each function asks of its caller, for nothing checks it:
 *
 *   - `memory` is what office_open opened (it told 0) with the same own and parcels, as that or a later call with these left
 *     it; nobody else has written into it. Lend the same offices, too: another number is safe, but what is promised of a post
 *     is promised of one number. office_open and office_words ask for nothing of the kind: what lies in memory before, and in
 *     the bytes that are lent for answers and letters, may be anything. Words beyond office_words stay as they were.
 *   - A pointer and the length behind it tell of memory that is there: as many uint32_t, or bytes, as the length says. No
 *     pointer is null, also where its length is 0; a uint32_t is aligned to 4.
 *   - What one call may write into (memory, answer, letters) doesn't overlap with anything else that it is lent.
 *   - One call at a time: no two threads lend the same memory at once.
 *
 * No function allocates, waits, or calls anything outside the library.
 */
#ifndef OFFICE_H
#define OFFICE_H

#include <stddef.h>
#include <stdint.h>

#ifdef __cplusplus
extern "C" {
#endif

enum {
    /* bytes to lend for an answer; no answer takes more */
    OFFICE_ANSWER_BYTES = 64,
    /* bytes to lend for each letter */
    OFFICE_LETTER_BYTES = 80
};

/* How many uint32_t an office with these limits asks for; 0 where they are out of range. */
size_t office_words(uint32_t offices, uint32_t own, uint32_t parcels);

/* Opens an office with an empty book in the memory, of `words` uint32_t.
 * Tells 0 where it opened. Else nothing was written, and it tells a refusal: its number (3) in the lowest byte, and its
 * place above that: 1 where limits are out of range (256 + 3), 0 where the memory is too small (3). */
uint64_t office_open(uint32_t offices, uint32_t own, uint32_t parcels,
                     uint32_t *memory, size_t words);

/* Answers a call that comes as bytes; any bytes may come. The answer is written into the first bytes of `answer`, the
 * letters that the call sends into the first envelopes of `letters`. Lend at least OFFICE_ANSWER_BYTES for the answer, and
 * OFFICE_LETTER_BYTES * offices for the letters.
 * Tells 0 where less was lent, or the limits are out of range: then nothing was done or written. Else the lowest byte is how
 * many bytes the answer took, and what stands above it how many letters were sent. */
uint64_t office_call(uint32_t offices, uint32_t own, uint32_t parcels,
                     uint32_t *memory, size_t words,
                     const uint8_t *call, size_t call_bytes,
                     uint8_t *answer, size_t answer_bytes,
                     uint8_t *letters, size_t letters_bytes);

/* Hears a letter; any bytes may come. Lend at least OFFICE_LETTER_BYTES * offices for the letters that it sends for it.
 * Tells 0 where less was lent, or the limits are out of range: then nothing was done or written. Else one more than the
 * letters that were sent. */
uint64_t office_hear(uint32_t offices, uint32_t own, uint32_t parcels,
                     uint32_t *memory, size_t words,
                     const uint8_t *letter, size_t letter_bytes,
                     uint8_t *letters, size_t letters_bytes);

/* The clock ticks. Lend at least OFFICE_LETTER_BYTES * parcels for the letters that it sends.
 * Tells as office_hear does. */
uint64_t office_tick(uint32_t offices, uint32_t own, uint32_t parcels,
                     uint32_t *memory, size_t words,
                     uint8_t *letters, size_t letters_bytes);

#ifdef __cplusplus
}
#endif

#endif
