/* Little programs for the comparison of runs. */
#ifndef TESTS_PROGRAMS_H
#define TESTS_PROGRAMS_H

#include <stddef.h>
#include <stdint.h>

#define PROGRAMS 6
#define PROGRAM_SIZE 256

/* Writes program 0 to PROGRAMS - 1 as an image; answers what it is. */
const char *written_program(size_t which, uint8_t bytes[PROGRAM_SIZE]);

#endif
