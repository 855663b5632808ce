/* See report.h. */
#include "report.h"

#include <stdio.h>
#include <string.h>

/* 002, R240 to R255. */
static const char *const control_names[16] = {
    "SIO",  "TMR", "T1 start", "PRE1", "T0 start", "PRE0", "P2M", "P3M",
    "P01M", "IPR", "IRQ",      "IMR",  "FLAGS",    "RP",   "SPH", "SPL",
};

/* 01, "Numbers the encoder sees", and 02, C-13: bytes 256 to 267; z8-requests.h: bytes 268 to 275. */
static const char *const other_names[20] = {
    "PC high",         "PC low",
    "divider",         "T0 prescaler",
    "T0 counter",      "T1 prescaler",
    "T1 counter",      "last Port 3 pins",
    "T_OUT",           "type",
    "entry cost",      "EI executed",
    "received byte",   "receiver's shift",
    "receiver awaits", "receiver's ends",
    "sender's bits",   "sender's place",
    "sender's ends",   "byte 275",
};

const char *name_of_saved_byte(size_t at)
{
    static char name[40];

    if (at >= 256) {
        return at < Z8_SAVED_LEN ? other_names[at - 256] : "past the machine";
    }
    if (at >= 0xF0) {
        sprintf(name, "register %02X (%s)", (unsigned)at, control_names[at - 0xF0]);
    } else if (at <= 3) {
        sprintf(name, "register %02X (port %u's latch)", (unsigned)at, (unsigned)at);
    } else {
        sprintf(name, "register %02X", (unsigned)at);
    }
    return name;
}

static unsigned program_byte(const struct given *g, unsigned long address)
{
    address %= 65536;
    return address < g->image_length ? g->image[address] : 0xFF;
}

static void print_row(const struct given *g, size_t from, size_t to)
{
    size_t at;

    for (at = from; at < to; at++) {
        printf(" %02X", g->saved[at]);
    }
    printf("\n");
}

static void print_given(const struct given *g)
{
    unsigned long pc = g->saved[Z8_AT_PC] * 256ul + g->saved[Z8_AT_PC + 1];

    printf("  given: seed %lu, case %lu, %s\n", g->seed, g->number, g->call);
    printf("  PC %04lX, program bytes there %02X %02X %02X, image length %lu, data length %lu, amount %lu\n",
           pc, program_byte(g, pc), program_byte(g, pc + 1), program_byte(g, pc + 2),
           (unsigned long)g->image_length, (unsigned long)g->data_length, (unsigned long)g->amount);
    printf("  pins of ports 0 to 3: %02X %02X %02X %02X\n", g->pins[0], g->pins[1], g->pins[2], g->pins[3]);
    printf("  F0 to FF:");
    print_row(g, 0xF0, 0x100);
    printf("  working registers:");
    print_row(g, g->saved[0xFD] & 0xF0u, (g->saved[0xFD] & 0xF0u) + 16);
    printf("  PC, divider, T0, T1, last pins, T_OUT, type, entry cost, EI executed:");
    print_row(g, 256, Z8_AT_RECEIVED);
    printf("  received byte, receiver's shift, awaits, ends, sender's bits, place, ends, 0:");
    print_row(g, Z8_AT_RECEIVED, Z8_SAVED_LEN);
}

/* Each byte that moved, or should have: before, expected, found. */
static void print_moved(const struct given *g, const struct outcome *expected, const struct outcome *found)
{
    size_t at;

    for (at = 0; at < Z8_SAVED_LEN; at++) {
        if (expected->saved[at] != g->saved[at] || found->saved[at] != g->saved[at]) {
            printf("  %-28s before %02X, expected %02X, found %02X%s\n", name_of_saved_byte(at), g->saved[at],
                   expected->saved[at], found->saved[at],
                   expected->saved[at] != found->saved[at] ? "   <-- differs" : "");
        }
    }
}

static void print_head(const char *what, unsigned long expected, unsigned long found)
{
    printf("DIFFERENCE: %s: expected by the reference %lu (%lX), found %lu (%lX)\n", what, expected, expected,
           found, found);
}

static int first_difference(const uint8_t *a, const uint8_t *b, size_t length, size_t *at)
{
    if (length == 0 || memcmp(a, b, length) == 0) {
        return 0;
    }
    for (*at = 0; a[*at] == b[*at]; ++*at) {
    }
    return 1;
}

static int tell_if_different(const struct outcome *expected, const struct outcome *found)
{
    char what[60];
    size_t at;

    if (expected->answer != found->answer) {
        print_head("the answer", expected->answer, found->answer);
        return 1;
    }
    if (first_difference(expected->saved, found->saved, Z8_SAVED_LEN, &at)) {
        print_head(name_of_saved_byte(at), expected->saved[at], found->saved[at]);
        return 1;
    }
    if (first_difference(expected->data, found->data, expected->data_size, &at)) {
        sprintf(what, "data memory at %04lX", (unsigned long)at);
        print_head(what, expected->data[at], found->data[at]);
        return 1;
    }
    if (expected->written_outside != found->written_outside) {
        print_head("bytes written around the saved machine", expected->written_outside,
                   found->written_outside);
        return 1;
    }
    if (expected->p37 != found->p37) {
        print_head("the level on P37", expected->p37, found->p37);
        return 1;
    }
    if (expected->cycles != found->cycles) {
        print_head("the cycles", expected->cycles, found->cycles);
        return 1;
    }
    if (expected->ends0 != found->ends0) {
        print_head("T0's ends", expected->ends0, found->ends0);
        return 1;
    }
    if (expected->ends1 != found->ends1) {
        print_head("T1's ends", expected->ends1, found->ends1);
        return 1;
    }
    return 0;
}

int same_outcome(const struct given *given, const struct outcome *expected, const struct outcome *found)
{
    if (!tell_if_different(expected, found)) {
        return 1;
    }
    print_given(given);
    print_moved(given, expected, found);
    fflush(stdout);
    return 0;
}
