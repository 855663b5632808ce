/* For a coverage-guided fuzzer: bytes become a call with a machine, an image, a data memory, pins and a
   budget or span, made of the library and of the reference. At a difference it is told as in compare.c, and
   the program aborts.

   Built with both.c, report.c, the reference's files and libz8.a, by a compiler that brings a main of its
   own, such as clang -fsanitize=fuzzer. Without it: -DFUZZ_FILES gives a main that takes the files named. */
#include <stdio.h>
#include <stdlib.h>
#include <string.h>

#include "both.h"

int LLVMFuzzerTestOneInput(const uint8_t *bytes, size_t length);

/* The reference goes by single cycles, so a budget or span is kept small. */
#define MOST_CYCLES 3000u

/* What is left of the input. */
struct input {
    const uint8_t *bytes;
    size_t length;
};

static uint8_t next_byte(struct input *in)
{
    if (in->length == 0) {
        return 0;
    }
    in->length--;
    return *in->bytes++;
}

static uint32_t next_word(struct input *in)
{
    uint32_t high = next_byte(in);

    return high * 256 + next_byte(in);
}

/* z8-requests.h, bytes 268 to 275. */
static void make_port_legal(uint8_t *saved)
{
    uint8_t awaits = saved[Z8_AT_RECEIVER_AWAITS] % 10, place = saved[Z8_AT_SENDER_PLACE] % 12;

    saved[Z8_AT_RECEIVER_AWAITS] = awaits;
    saved[Z8_AT_RECEIVER_ENDS] =
        (uint8_t)(awaits == 0 ? 0 : saved[Z8_AT_RECEIVER_ENDS] % (awaits == 1 ? 8 : 16));
    saved[Z8_AT_RECEIVER_SHIFT] = awaits < 2 ? 0xFF : saved[Z8_AT_RECEIVER_SHIFT];
    saved[Z8_AT_SENDER_PLACE] = place;
    saved[Z8_AT_SENDER_ENDS] = (uint8_t)(place == 0 ? 0 : saved[Z8_AT_SENDER_ENDS] % 16);
    saved[Z8_AT_SENDER_BITS] = place == 0 ? 0xFF : saved[Z8_AT_SENDER_BITS];
    saved[Z8_AT_PORT_ZERO] = 0;
}

/* 01: "Legal: [...]"; what a legal machine can't hold is taken out. */
static void make_legal(uint8_t *saved)
{
    unsigned at;

    for (at = 0x80; at <= 0xF0; at++) {
        saved[at] = 0;
    }
    saved[0xF1] &= 0xFA;
    saved[0xFD] &= 0xF0;
    saved[Z8_AT_DIVIDER] %= 4;
    saved[Z8_AT_T0_PRESCALER] = (uint8_t)(1 + saved[Z8_AT_T0_PRESCALER] % 64);
    saved[Z8_AT_T1_PRESCALER] = (uint8_t)(1 + saved[Z8_AT_T1_PRESCALER] % 64);
    saved[Z8_AT_T_OUT] %= 2;
    saved[Z8_AT_TYPE] = saved[Z8_AT_TYPE] % 2 ? Z8_TYPE_Z8601 : Z8_TYPE_Z8611;
    saved[Z8_AT_ENTRY_COST] = (uint8_t)(6 + saved[Z8_AT_ENTRY_COST] % 58);
    saved[Z8_AT_BITS] &= Z8_EI_EXECUTED;
    saved[0xFA] &= saved[Z8_AT_BITS] ? 0x3F : 0x00; /* 02, C-13: "a legal machine that hasn't has IRQ zero" */
    make_port_legal(saved);
}

/* The control registers and what follows come first in the input, as most depends on them; then the working
   registers. */
static void take_machine(struct input *in, uint8_t *saved, int legal)
{
    unsigned at;

    for (at = 0xF0; at < Z8_SAVED_LEN; at++) {
        saved[at] = next_byte(in);
    }
    for (at = 0; at < 0xF0; at++) {
        saved[at] = at < 0x20 ? next_byte(in) : (uint8_t)(legal ? at * 29 : 0);
    }
    if (legal) {
        make_legal(saved);
    }
}

static void fresh_memories(void)
{
    static struct memory fresh;
    static int filled;
    size_t at;

    if (!filled) {
        memset(&fresh, GUARD_BYTE, sizeof fresh);
        for (at = 0; at < MEMORY; at++) {
            fresh.bytes[at] = (uint8_t)(at * 7 + at / 256);
        }
        filled = 1;
    }
    found_memory = fresh;
    expected_memory = fresh;
}

static size_t data_length_of(struct input *in)
{
    static const size_t lengths[8] = {0, 1, 2049, 4097, 5000, 60000, 65535, 65536};

    return lengths[next_byte(in) % 8];
}

/* Where most inputs should have their program: at the program counter. */
static void put_program_counter_into_image(struct given *g, uint8_t where)
{
    if (g->image_length > 0) {
        g->saved[Z8_AT_PC] = 0;
        g->saved[Z8_AT_PC + 1] = (uint8_t)(where % g->image_length);
    }
}

static void must(int passed)
{
    if (!passed) {
        fflush(stdout);
        abort();
    }
}

static void guards_of_memory_must_stand(const struct given *g)
{
    if (memcmp(&found_memory, &expected_memory, sizeof found_memory) != 0) {
        printf("DIFFERENCE: %s: a byte before or after data memory was written\n", g->call);
        must(0);
    }
}

static void compare_machine_call(struct given *g, unsigned which)
{
    struct outcome expected;
    unsigned k;

    switch (which) {
    case 0:
        g->call = "z8_check";
        must(agree(g, check_of_reference, check_of_library, 1, &expected));
        break;
    case 1:
        g->call = "z8_reset";
        must(agree(g, reset_of_reference, reset_of_library, 1, &expected));
        break;
    case 2:
        g->call = "z8_span";
        must(agree(g, span_of_reference, span_of_library, 1, &expected));
        break;
    case 3:
        g->call = "z8_run";
        must(agree(g, run_of_reference, run_of_library, 1, &expected));
        break;
    case 4:
        /* A type of 0 to 15 and an entry cost of 0 to 71, so that both limits are met. */
        g->call = "z8_make, amount being the type and 1000 x the entry cost";
        g->amount = g->amount % 16 + 1000 * (g->amount / 16 % 72);
        must(agree(g, make_of_reference, make_of_library, 1, &expected));
        break;
    default:
        g->call = "z8_step, one of several";
        for (k = 0; k < 4; k++) {
            must(agree(g, step_of_reference, step_of_library, 1, &expected));
            memcpy(g->saved, expected.saved, Z8_SAVED_LEN);
            g->pins[3] = (uint8_t)(g->pins[3] * 5 + 3);
        }
        break;
    }
    guards_of_memory_must_stand(g);
}

int LLVMFuzzerTestOneInput(const uint8_t *bytes, size_t length)
{
    struct input in;
    struct given g;
    uint8_t choice, legal, where, port;

    in.bytes = bytes;
    in.length = length;
    memset(&g, 0, sizeof g);
    choice = next_byte(&in);
    legal = next_byte(&in) % 8;
    where = next_byte(&in);
    for (port = 0; port < 4; port++) {
        g.pins[port] = next_byte(&in);
    }
    g.amount = next_word(&in) % MOST_CYCLES;
    g.data_length = data_length_of(&in);
    g.data = g.data_length == 0 ? NULL : found_memory.bytes;
    take_machine(&in, g.saved, legal != 0);
    g.image = in.bytes;
    g.image_length = in.length > MEMORY ? MEMORY : in.length;
    if (legal > 1) {
        put_program_counter_into_image(&g, where);
    }

    if (choice % 16 == 15) {
        must(encodings_agree(where, g.pins[0], g.pins[1]));
        must(decodings_agree(g.image, g.image_length, (uint16_t)g.amount));
        return 0;
    }
    fresh_memories();
    compare_machine_call(&g, choice % 16 / 2);
    return 0;
}

#ifdef FUZZ_FILES
int main(int argc, char **argv)
{
    static uint8_t bytes[MEMORY + 1000];
    int k;

    for (k = 1; k < argc; k++) {
        FILE *file = fopen(argv[k], "rb");

        if (file == NULL) {
            printf("fuzz: no file %s\n", argv[k]);
            return 2;
        }
        LLVMFuzzerTestOneInput(bytes, fread(bytes, 1, sizeof bytes, file));
        fclose(file);
    }
    printf("fuzz: %d files, 0 differences\n", argc - 1);
    return 0;
}
#endif
