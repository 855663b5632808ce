/* See both.h. */
#include "both.h"

#include <stdio.h>
#include <string.h>

#include "reference/bytes.h"
#include "reference/machine.h"
#include "reference/step.h"

struct memory found_memory, expected_memory;

/* The library's copy of the machine, with room around it. */
struct lent_machine {
    uint8_t before[GUARD];
    uint8_t saved[Z8_SAVED_LEN];
    uint8_t after[GUARD];
};

static void begin(const struct given *g, struct outcome *o, const struct memory *memory)
{
    memcpy(o->saved, g->saved, Z8_SAVED_LEN);
    o->cycles = o->ends0 = o->ends1 = o->p37 = UNTOUCHED;
    o->data = memory->bytes;
    o->data_size = 0;
    o->written_outside = 0;
}

static uint8_t *lent_data(const struct given *g, struct memory *memory)
{
    return g->data == NULL ? NULL : memory->bytes;
}

static struct ref_pins pins_of(const struct given *g)
{
    struct ref_pins pins;

    memcpy(pins.port, g->pins, 4);
    return pins;
}

/* 1 where the reference may go on, which is stated for legal machines. */
static int loaded(const struct given *g, struct outcome *o, struct ref_machine *m)
{
    begin(g, o, &expected_memory);
    o->answer = (uint32_t)ref_check(g->saved, Z8_SAVED_LEN);
    if (o->answer != 0) {
        return 0;
    }
    ref_load(m, g->saved);
    return 1;
}

static void save(const struct ref_machine *m, struct outcome *o)
{
    ref_save(m, o->saved);
    if (o->answer == 0) {
        o->p37 = (uint32_t)ref_p37(m);
    }
}

static void lend(const struct given *g, struct outcome *o, struct lent_machine *lent)
{
    begin(g, o, &found_memory);
    memset(lent->before, GUARD_BYTE, GUARD);
    memcpy(lent->saved, g->saved, Z8_SAVED_LEN);
    memset(lent->after, GUARD_BYTE, GUARD);
}

static unsigned not_as_before(const uint8_t guard[GUARD])
{
    unsigned at, count = 0;

    for (at = 0; at < GUARD; at++) {
        count += guard[at] != GUARD_BYTE;
    }
    return count;
}

static void take_back(const struct lent_machine *lent, struct outcome *o)
{
    memcpy(o->saved, lent->saved, Z8_SAVED_LEN);
    if (o->answer == 0) {
        o->p37 = z8_p37(lent->saved);
    }
    o->written_outside = not_as_before(lent->before) + not_as_before(lent->after);
}

void step_of_reference(const struct given *g, struct outcome *o)
{
    struct ref_pins pins = pins_of(g);
    struct ref_machine m;

    if (loaded(g, o, &m)) {
        o->answer = (uint32_t)ref_step(&m, &pins, g->image, g->image_length, lent_data(g, &expected_memory),
                                       g->data_length, &o->cycles, &o->ends0, &o->ends1);
        save(&m, o);
    }
}

void step_of_library(const struct given *g, struct outcome *o)
{
    struct lent_machine lent;

    lend(g, o, &lent);
    o->answer = z8_step(lent.saved, Z8_SAVED_LEN, g->image, g->image_length, lent_data(g, &found_memory),
                        g->data_length, g->pins[0], g->pins[1], g->pins[2], g->pins[3], &o->cycles, &o->ends0,
                        &o->ends1);
    take_back(&lent, o);
}

void run_of_reference(const struct given *g, struct outcome *o)
{
    struct ref_pins pins = pins_of(g);
    struct ref_machine m;

    if (loaded(g, o, &m)) {
        o->answer = (uint32_t)ref_run(&m, &pins, g->image, g->image_length, lent_data(g, &expected_memory),
                                      g->data_length, g->amount, &o->cycles, &o->ends0, &o->ends1);
        save(&m, o);
    }
}

void run_of_library(const struct given *g, struct outcome *o)
{
    struct lent_machine lent;

    lend(g, o, &lent);
    o->answer = z8_run(lent.saved, Z8_SAVED_LEN, g->image, g->image_length, lent_data(g, &found_memory),
                       g->data_length, g->pins[0], g->pins[1], g->pins[2], g->pins[3], g->amount, &o->cycles,
                       &o->ends0, &o->ends1);
    take_back(&lent, o);
}

void span_of_reference(const struct given *g, struct outcome *o)
{
    struct ref_machine m;

    if (loaded(g, o, &m)) {
        ref_span(&m, g->amount, &o->ends0, &o->ends1);
        save(&m, o);
    }
}

void span_of_library(const struct given *g, struct outcome *o)
{
    struct lent_machine lent;

    lend(g, o, &lent);
    o->answer = z8_span(lent.saved, Z8_SAVED_LEN, g->amount, &o->ends0, &o->ends1);
    take_back(&lent, o);
}

void reset_of_reference(const struct given *g, struct outcome *o)
{
    struct ref_machine m;

    if (loaded(g, o, &m)) {
        ref_reset(&m);
        save(&m, o);
    }
}

void reset_of_library(const struct given *g, struct outcome *o)
{
    struct lent_machine lent;

    lend(g, o, &lent);
    o->answer = z8_reset(lent.saved, Z8_SAVED_LEN);
    take_back(&lent, o);
}

void check_of_reference(const struct given *g, struct outcome *o)
{
    struct ref_machine m;

    if (loaded(g, o, &m)) {
        save(&m, o);
    }
}

void check_of_library(const struct given *g, struct outcome *o)
{
    struct lent_machine lent;

    lend(g, o, &lent);
    o->answer = z8_check(lent.saved, Z8_SAVED_LEN);
    take_back(&lent, o);
}

void make_of_reference(const struct given *g, struct outcome *o)
{
    struct ref_machine m;

    begin(g, o, &expected_memory);
    o->answer = (uint32_t)ref_make(&m, g->amount % 1000, g->amount / 1000);
    if (o->answer == 0) {
        save(&m, o);
    }
}

void make_of_library(const struct given *g, struct outcome *o)
{
    struct lent_machine lent;

    lend(g, o, &lent);
    o->answer = z8_make(lent.saved, Z8_SAVED_LEN, g->amount % 1000, g->amount / 1000);
    take_back(&lent, o);
}

void make_default_of_library(const struct given *g, struct outcome *o)
{
    struct lent_machine lent;

    lend(g, o, &lent);
    o->answer = z8_make_default(lent.saved, Z8_SAVED_LEN);
    take_back(&lent, o);
}

int agree(const struct given *given, caller *reference, caller *library, int whole_memory,
          struct outcome *expected)
{
    struct outcome found;

    reference(given, expected);
    library(given, &found);
    if (whole_memory) {
        expected->data_size = found.data_size = MEMORY;
    }
    return same_outcome(given, expected, &found);
}

/* ---- Instructions and their bytes ---- */

/* An answer and four bytes. */
struct coded {
    uint32_t answer;
    uint8_t bytes[4];
};

static const struct coded nothing_coded = {0, {0xA5, 0xA5, 0xA5, 0xA5}};

static int codings_agree(const char *call, const uint8_t given[3], const struct coded *expected,
                         const struct coded *found)
{
    if (expected->answer == found->answer && memcmp(expected->bytes, found->bytes, 4) == 0) {
        return 1;
    }
    printf("DIFFERENCE: %s of %02X %02X %02X: expected by the reference answer %lu and %02X %02X %02X %02X, "
           "found answer %lu and %02X %02X %02X %02X\n",
           call, given[0], given[1], given[2], (unsigned long)expected->answer, expected->bytes[0],
           expected->bytes[1], expected->bytes[2], expected->bytes[3], (unsigned long)found->answer,
           found->bytes[0], found->bytes[1], found->bytes[2], found->bytes[3]);
    return 0;
}

int encodings_agree(uint8_t opcode, uint8_t first, uint8_t second)
{
    const uint8_t given[3] = {opcode, first, second};
    struct coded e = nothing_coded, f = nothing_coded;

    e.answer =
        (uint32_t)ref_encode(opcode, first, second, &e.bytes[0], &e.bytes[1], &e.bytes[2], &e.bytes[3]);
    f.answer = z8_encode(opcode, first, second, &f.bytes[0], &f.bytes[1], &f.bytes[2], &f.bytes[3]);
    return codings_agree("z8_encode", given, &e, &f);
}

int decodings_agree(const uint8_t *program, size_t length, uint16_t at)
{
    struct coded e = nothing_coded, f = nothing_coded;
    uint8_t given[3];
    unsigned k;

    for (k = 0; k < 3; k++) {
        given[k] = ref_program(program, length, (uint16_t)(at + k));
    }
    e.answer = (uint32_t)ref_decode(given[0], given[1], given[2], &e.bytes[0], &e.bytes[1], &e.bytes[2],
                                    &e.bytes[3]);
    f.answer = z8_decode(program, length, at, &f.bytes[0], &f.bytes[1], &f.bytes[2], &f.bytes[3]);
    return codings_agree("z8_decode", given, &e, &f);
}
