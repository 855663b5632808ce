/* What a call of the library was given and what it left, beside what the reference says; and the first
   difference, told so that a person can act on it. */
#ifndef TESTS_REPORT_H
#define TESTS_REPORT_H

#include <stddef.h>
#include <stdint.h>

#include "../include/z8.h"

/* What stands in a number before a call that may leave it alone. No call can give it: ends and cycles are
   smaller. */
#define UNTOUCHED 0xA5A5A5A5u

struct given {
    const char *call;           /* the function's name, and of which part of the test the case is */
    unsigned long seed, number; /* which case it is */
    uint8_t saved[Z8_SAVED_LEN];
    const uint8_t *image;
    size_t image_length;
    const uint8_t *data; /* as it was before */
    size_t data_length;
    uint8_t pins[4];
    uint32_t amount; /* the budget of a run, the span of a span */
};

struct outcome {
    uint32_t answer;
    uint8_t saved[Z8_SAVED_LEN];
    const uint8_t *data; /* as it is after, also past what was lent */
    size_t data_size;
    uint32_t cycles, ends0, ends1;
    uint32_t p37;             /* the level on P37 after a call that wasn't refused */
    unsigned written_outside; /* bytes around the saved machine that didn't stay */
};

/* The name that 01 or z8-requests.h gives to a byte of the saved machine. */
const char *name_of_saved_byte(size_t at);

/* 1 where both are equal in every byte and number; else 0, and the first difference is printed. */
int same_outcome(const struct given *given, const struct outcome *expected, const struct outcome *found);

#endif
