// The programs that are measured, as the driver sees them: each is an office that takes calls as bytes and answers them as
// docs/FORMATS.md of the repository says.
#ifndef CONTENDER_H
#define CONTENDER_H

#include <stddef.h>
#include <stdint.h>

#include "../include/office.h"

struct limits {
    uint32_t offices;
    uint32_t own;
    uint32_t parcels;
};

struct contender {
    const char *name;
    // A new office, with an empty book. What can't be opened ends the program.
    void *(*open)(struct limits limits);
    // Answers a call: 256 times how many letters it sent, plus the bytes of its answer; 0 where nothing was done.
    uint64_t (*call)(void *office, const uint8_t *call, size_t call_bytes, uint8_t *answer, size_t answer_bytes,
                     uint8_t *letters, size_t letters_bytes);
    void (*close)(void *office);
    // Between these two, calls are one transaction. Null for an office that has no transactions.
    void (*begin)(void *office);
    void (*commit)(void *office);
};

extern const struct contender sqlite_in_memory;
extern const struct contender sqlite_in_file;

// Ends the program with this said.
_Noreturn void fail(const char *what, const char *why);

#endif
