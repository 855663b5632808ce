/* The same call made of the library and of the reference, each on its own copy of what was given. */
#ifndef TESTS_BOTH_H
#define TESTS_BOTH_H

#include "report.h"

#define MEMORY 65536u
#define GUARD 32u
#define GUARD_BYTE 0x5Au

/* A data memory with room around it that has to stay as it is. */
struct memory {
    uint8_t before[GUARD];
    uint8_t bytes[MEMORY];
    uint8_t after[GUARD];
};

/* The library's, and the reference's. Whoever draws the cases sees that both are equal before a call. */
extern struct memory found_memory, expected_memory;

/* Makes the call; outcome's data is one of the memories above, its data_size is left 0. */
typedef void caller(const struct given *given, struct outcome *outcome);

caller step_of_reference, step_of_library;
caller run_of_reference, run_of_library;
caller span_of_reference, span_of_library;
caller reset_of_reference, reset_of_library;
caller check_of_reference, check_of_library;

/* What z8_make is told is in amount: the type, and 1000 times the entry cost. */
caller make_of_reference, make_of_library, make_default_of_library;

/* Makes the call of both; 1 where they agree, else 0 and the first difference is printed. With whole_memory
   the data memories are compared as well. Expected is what the reference left. */
int agree(const struct given *given, caller *reference, caller *library, int whole_memory,
          struct outcome *expected);

/* z8_encode and z8_decode: 1 where both agree, else 0 and the difference is printed. */
int encodings_agree(uint8_t opcode, uint8_t first, uint8_t second);
int decodings_agree(const uint8_t *program, size_t length, uint16_t at);

#endif
