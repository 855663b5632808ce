/* The C calls themselves: every refusal alone and every two together, what a refused call leaves alone, runs
   against steps, 01's own examples, and the header. What is expected comes from the reference or from 01's
   own sentences. */
#define _DEFAULT_SOURCE /* mmap's MAP_ANONYMOUS */
#include <stdio.h>
#include <stdlib.h>
#include <string.h>
#include <sys/mman.h>

#include "../include/z8.h"
#include "draw.h"
#include "reference/bytes.h"
#include "reference/machine.h"
#include "reference/step.h"
#include "report.h"

#define SEED 1983ul
#define GUARD 64u
#define MEMORY 65536u

/* Register places, by 002. */
enum { P3 = 0x03, SIO = 0xF0, TMR = 0xF1, T1 = 0xF2, PRE1 = 0xF3, T0 = 0xF4, PRE0 = 0xF5 };
enum { P3M = 0xF7, P01M = 0xF8, IPR = 0xF9, IRQ = 0xFA, IMR = 0xFB, FLAGS = 0xFC, RP = 0xFD };
enum { SPH = 0xFE, SPL = 0xFF };

static unsigned long checks, failed;

/* After so many the rest tells no more. */
#define FAILURES_TOLD 20ul

static int check(int passed, const char *what)
{
    checks++;
    if (!passed) {
        failed++;
        if (failed <= FAILURES_TOLD) {
            printf("FAILED: %s\n", what);
        }
    }
    return passed;
}

static int check_number(unsigned long expected, unsigned long found, const char *what)
{
    if (!check(expected == found, what) && failed <= FAILURES_TOLD) {
        printf("  expected %lu (%lX), found %lu (%lX)\n", expected, expected, found, found);
    }
    return expected == found;
}

/* ---- What a call is lent ---- */

struct lent {
    uint8_t saved[GUARD + 300 + GUARD];
    uint8_t image[GUARD + MEMORY + 1 + GUARD];
    uint8_t data[GUARD + MEMORY + 1 + GUARD];
    uint32_t numbers[7]; /* the odd ones are written, those around them are guards */
    uint8_t bytes[9];    /* the same */
};

static struct lent lent, lent_before;

struct arguments {
    int saved_is_null, image_is_null, data_is_null;
    size_t saved_length, image_length, data_length;
    uint32_t budget, type, entry_cost;
    uint16_t at;
    uint8_t opcode, first, second;
};

static uint8_t *saved_of(const struct arguments *a)
{
    return a->saved_is_null ? NULL : lent.saved + GUARD;
}

static uint8_t *image_of(const struct arguments *a)
{
    return a->image_is_null ? NULL : lent.image + GUARD;
}

static uint8_t *data_of(const struct arguments *a)
{
    return a->data_is_null ? NULL : lent.data + GUARD;
}

#define BASE_PC 0x1234u

/* A machine to which a wrong call would do much: EI executed, falling edges on all lines, T1 counting them
   and near its end, both timers near their ends, the serial port on, waiting for a start bit and near the end
   of a send, an external stack, no grant that would come before the opcode. */
static void base_machine(uint8_t *saved)
{
    struct ref_machine m;

    ref_make(&m, 11, 20);
    ref_save(&m, saved);
    release_requests(saved);
    saved[TMR] = 0x8A;
    saved[PRE0] = 0x05;
    saved[PRE1] = 0x05;
    saved[Z8_AT_T0_PRESCALER] = saved[Z8_AT_T0_COUNTER] = 1;
    saved[Z8_AT_T1_PRESCALER] = saved[Z8_AT_T1_COUNTER] = 1;
    saved[Z8_AT_DIVIDER] = 3;
    saved[P3M] = 0x40;
    saved[Z8_AT_SENDER_BITS] = 0x5A;
    saved[Z8_AT_SENDER_PLACE] = 11;
    saved[Z8_AT_SENDER_ENDS] = 15;
    saved[P01M] = 0;
    saved[SPH] = 0x20;
    saved[Z8_AT_PC] = BASE_PC / 256;
    saved[Z8_AT_PC + 1] = BASE_PC % 256;
}

/* Everything as it has to be for a call to be answered with 0: a whole image with PUSH %00 at the program
   counter. */
static void base_call(struct arguments *a)
{
    memset(&lent, 0x5A, sizeof lent);
    base_machine(lent.saved + GUARD);
    lent.image[GUARD + BASE_PC] = 0x70;
    lent.image[GUARD + BASE_PC + 1] = 0x00;
    memset(a, 0, sizeof *a);
    a->saved_length = Z8_SAVED_LEN;
    a->image_length = MEMORY;
    a->data_length = MEMORY;
    a->budget = 100;
    a->type = 1;
    a->entry_cost = 63;
    a->at = BASE_PC;
    a->opcode = 0x70;
}

/* ---- The calls, all in one form ---- */

static uint32_t call_make(const struct arguments *a)
{
    return z8_make(saved_of(a), a->saved_length, a->type, a->entry_cost);
}

static uint32_t call_make_default(const struct arguments *a)
{
    return z8_make_default(saved_of(a), a->saved_length);
}

static uint32_t call_check(const struct arguments *a)
{
    return z8_check(saved_of(a), a->saved_length);
}

static uint32_t call_reset(const struct arguments *a)
{
    return z8_reset(saved_of(a), a->saved_length);
}

static uint32_t call_decode(const struct arguments *a)
{
    return z8_decode(image_of(a), a->image_length, a->at, &lent.bytes[1], &lent.bytes[3], &lent.bytes[5],
                     &lent.bytes[7]);
}

static uint32_t call_encode(const struct arguments *a)
{
    return z8_encode(a->opcode, a->first, a->second, &lent.bytes[1], &lent.bytes[3], &lent.bytes[5],
                     &lent.bytes[7]);
}

static uint32_t call_step(const struct arguments *a)
{
    return z8_step(saved_of(a), a->saved_length, image_of(a), a->image_length, data_of(a), a->data_length, 1,
                   2, 3, 0, &lent.numbers[1], &lent.numbers[3], &lent.numbers[5]);
}

static uint32_t call_run(const struct arguments *a)
{
    return z8_run(saved_of(a), a->saved_length, image_of(a), a->image_length, data_of(a), a->data_length, 1,
                  2, 3, 0, a->budget, &lent.numbers[1], &lent.numbers[3], &lent.numbers[5]);
}

static uint32_t call_span(const struct arguments *a)
{
    return z8_span(saved_of(a), a->saved_length, a->budget, &lent.numbers[3], &lent.numbers[5]);
}

/* Refusals by their number, as bits. */
#define MEETS(number) (1u << (number))
#define MEETS_MACHINE (MEETS(7) | MEETS(6))

struct call {
    const char *name;
    uint32_t (*make)(const struct arguments *a);
    unsigned meets; /* which refusals it can meet, by z8.h and 01's table */
};

static const struct call calls[] = {
    {"z8_make", call_make, MEETS(7) | MEETS(3)},
    {"z8_make_default", call_make_default, MEETS(7)},
    {"z8_check", call_check, MEETS_MACHINE},
    {"z8_reset", call_reset, MEETS_MACHINE},
    {"z8_decode", call_decode, MEETS(1) | MEETS(5)},
    {"z8_encode", call_encode, MEETS(8)},
    {"z8_step", call_step, MEETS_MACHINE | MEETS(1) | MEETS(2) | MEETS(5)},
    {"z8_run", call_run, MEETS_MACHINE | MEETS(1) | MEETS(2) | MEETS(4) | MEETS(5)},
    {"z8_span", call_span, MEETS_MACHINE},
};

#define CALLS (sizeof calls / sizeof calls[0])

/* ---- Faults ---- */

struct fault {
    uint32_t number; /* the refusal */
    void (*make)(struct arguments *a, uint32_t value);
    uint32_t value;
    const char *what; /* two faults in the same thing can't be made together */
};

static void fault_length(struct arguments *a, uint32_t value)
{
    a->saved_length = value;
    a->saved_is_null = value == 0;
}

/* value: the place, and 1000 times the byte. */
static void fault_byte(struct arguments *a, uint32_t value)
{
    (void)a;
    lent.saved[GUARD + value % 1000] = (uint8_t)(value / 1000);
}

struct port {
    const char *words; /* of z8-requests.h, or what is at their edge */
    uint8_t bytes[8];  /* 268 to 275 of the saved machine */
};

/* z8-requests.h, each rule broken alone, at the edges of its range. */
static const struct port illegal_ports[] = {
    {"269: FF while it waits for a start bit", {0x00, 0xFE, 0, 0, 0xFF, 0, 0, 0}},
    {"269: FF while it waits for a start bit", {0x00, 0x7F, 0, 0, 0xFF, 0, 0, 0}},
    {"269: FF while it waits for the middle of one", {0x00, 0xFE, 1, 0, 0xFF, 0, 0, 0}},
    {"269: FF while it waits for the middle of one", {0x00, 0x7F, 1, 7, 0xFF, 0, 0, 0}},
    {"270: 2 to 9 the middle of data bit 0 to 7", {0x00, 0xFF, 10, 0, 0xFF, 0, 0, 0}},
    {"270: 2 to 9 the middle of data bit 0 to 7", {0x00, 0x00, 255, 15, 0xFF, 0, 0, 0}},
    {"271: 0 where 270 is 0", {0x00, 0xFF, 0, 1, 0xFF, 0, 0, 0}},
    {"271: 0 to 7 where 270 is 1", {0x00, 0xFF, 1, 8, 0xFF, 0, 0, 0}},
    {"271: 0 to 15 where 270 is over 1", {0x00, 0x7F, 2, 16, 0xFF, 0, 0, 0}},
    {"271: 0 to 15 where 270 is over 1", {0x00, 0x00, 9, 16, 0xFF, 0, 0, 0}},
    {"271: 0 to 15 where 270 is over 1", {0x00, 0x00, 9, 255, 0xFF, 0, 0, 0}},
    {"272: FF when idle", {0x00, 0xFF, 0, 0, 0xFE, 0, 0, 0}},
    {"272: FF when idle", {0x00, 0xFF, 0, 0, 0x7F, 0, 0, 0}},
    {"273: 10 and 11 the stop bits", {0x00, 0xFF, 0, 0, 0xFF, 12, 0, 0}},
    {"273: 10 and 11 the stop bits", {0x00, 0xFF, 0, 0, 0x00, 255, 15, 0}},
    {"274: 0 when idle", {0x00, 0xFF, 0, 0, 0xFF, 0, 1, 0}},
    {"274: 0 to 15", {0x00, 0xFF, 0, 0, 0x00, 1, 16, 0}},
    {"274: 0 to 15", {0x00, 0xFF, 0, 0, 0xFF, 11, 16, 0}},
    {"274: 0 to 15", {0x00, 0xFF, 0, 0, 0xFF, 11, 255, 0}},
    {"275: zero", {0x00, 0xFF, 0, 0, 0xFF, 0, 0, 1}},
    {"275: zero", {0x00, 0xFF, 0, 0, 0xFF, 0, 0, 0x80}},
};

#define ILLEGAL_PORTS (sizeof illegal_ports / sizeof illegal_ports[0])

/* And the last that are legal. */
static const struct port legal_ports[] = {
    {"a new machine's", {0x00, 0xFF, 0, 0, 0xFF, 0, 0, 0}},
    {"any received byte", {0xFF, 0xFF, 0, 0, 0xFF, 0, 0, 0}},
    {"the start edge", {0x80, 0xFF, 1, 0, 0xFF, 0, 0, 0}},
    {"the last end before the start bit's middle", {0x7F, 0xFF, 1, 7, 0xFF, 0, 0, 0}},
    {"the start bit shifted in", {0x00, 0x7F, 2, 0, 0xFF, 0, 0, 0}},
    {"any shift register at data bit 0", {0x00, 0xFF, 2, 15, 0xFF, 0, 0, 0}},
    {"any shift register at data bit 7", {0x00, 0x00, 9, 15, 0xFF, 0, 0, 0}},
    {"all ones at data bit 7", {0x00, 0xFF, 9, 0, 0xFF, 0, 0, 0}},
    {"the store", {0x00, 0xFF, 0, 0, 0x00, 1, 0, 0}},
    {"the start bit's last end", {0x00, 0xFF, 0, 0, 0xFF, 1, 15, 0}},
    {"the last stop bit's last end", {0x00, 0xFF, 0, 0, 0x00, 11, 15, 0}},
    {"both ways", {0xA5, 0x5A, 6, 8, 0xC3, 7, 9, 0}},
};

#define LEGAL_PORTS (sizeof legal_ports / sizeof legal_ports[0])

/* value: which of the illegal ones. */
static void fault_port(struct arguments *a, uint32_t value)
{
    (void)a;
    memcpy(lent.saved + GUARD + Z8_AT_RECEIVED, illegal_ports[value].bytes, 8);
}

/* 02, C-13: "a legal machine that hasn't has IRQ zero". value: the requests of one that hasn't. */
static void fault_requests_before_ei(struct arguments *a, uint32_t value)
{
    (void)a;
    hold_requests(lent.saved + GUARD);
    lent.saved[GUARD + IRQ] = (uint8_t)value;
}

static void fault_image(struct arguments *a, uint32_t value)
{
    a->image_length = value;
}

static void fault_data(struct arguments *a, uint32_t value)
{
    a->data_length = value;
}

static void fault_type(struct arguments *a, uint32_t value)
{
    a->type = value;
}

static void fault_cost(struct arguments *a, uint32_t value)
{
    a->entry_cost = value;
}

static void fault_budget(struct arguments *a, uint32_t value)
{
    a->budget = value;
}

static void fault_opcode(struct arguments *a, uint32_t value)
{
    (void)a;
    lent.image[GUARD + BASE_PC] = (uint8_t)value;
}

static void fault_instruction(struct arguments *a, uint32_t value)
{
    a->opcode = (uint8_t)value;
}

/* Of a one-byte instruction. */
static void fault_first(struct arguments *a, uint32_t value)
{
    a->opcode = a->opcode == 0x70 ? 0xFF : a->opcode;
    a->first = (uint8_t)value;
}

static void fault_second(struct arguments *a, uint32_t value)
{
    a->second = (uint8_t)value;
}

#define FAULTS_MOST 200
static struct fault faults[FAULTS_MOST];
static size_t fault_count;

static void add_fault(uint32_t number, void (*make)(struct arguments *, uint32_t), uint32_t value,
                      const char *what)
{
    struct fault *f = &faults[fault_count++];

    if (fault_count >= FAULTS_MOST) {
        printf("too many faults for the table\n");
        exit(2);
    }
    f->number = number;
    f->make = make;
    f->value = value;
    f->what = what;
}

static void add_illegal_byte(unsigned place, unsigned byte, const char *what)
{
    add_fault(6, fault_byte, place + 1000 * byte, what);
}

/* 01: "Legal: [...]", each rule broken alone at the edges of its range; C-13's two rules, the other bits of byte 267
   zero, with each of these bits, and "IRQ zero", with each request; and the serial port's. */
static void add_illegal_machines(void)
{
    uint32_t k;

    add_illegal_byte(Z8_AT_DIVIDER, 4, "divider");
    add_illegal_byte(Z8_AT_DIVIDER, 255, "divider");
    add_illegal_byte(Z8_AT_T0_PRESCALER, 0, "T0 prescaler");
    add_illegal_byte(Z8_AT_T0_PRESCALER, 65, "T0 prescaler");
    add_illegal_byte(Z8_AT_T1_PRESCALER, 0, "T1 prescaler");
    add_illegal_byte(Z8_AT_T1_PRESCALER, 65, "T1 prescaler");
    add_illegal_byte(Z8_AT_ENTRY_COST, 5, "entry cost");
    add_illegal_byte(Z8_AT_ENTRY_COST, 64, "entry cost");
    add_illegal_byte(Z8_AT_T_OUT, 2, "T_OUT");
    add_illegal_byte(Z8_AT_TYPE, 0, "type");
    add_illegal_byte(Z8_AT_TYPE, 12, "type");
    for (k = 1; k < 8; k++) {
        add_illegal_byte(Z8_AT_BITS, Z8_EI_EXECUTED | 1u << k, "byte 267");
        add_illegal_byte(Z8_AT_BITS, 1u << k, "byte 267");
    }
    for (k = 0; k < 6; k++) {
        add_fault(6, fault_requests_before_ei, 1u << k, "requests before EI");
    }
    add_illegal_byte(0x80, 1, "place 80");
    add_illegal_byte(0xEF, 0x80, "place EF");
    add_illegal_byte(0xF0, 0xFF, "place F0");
    add_illegal_byte(TMR, 0x01, "TMR");
    add_illegal_byte(TMR, 0x04, "TMR");
    add_illegal_byte(IRQ, 0x40, "IRQ");
    add_illegal_byte(IRQ, 0x80, "IRQ");
    add_illegal_byte(RP, 0x01, "RP");
    add_illegal_byte(RP, 0x02, "RP");
    add_illegal_byte(RP, 0x04, "RP");
    add_illegal_byte(RP, 0x08, "RP");
    for (k = 0; k < ILLEGAL_PORTS; k++) {
        add_fault(6, fault_port, k, "serial port, of the list");
    }
}

static void add_makings(void)
{
    static const uint32_t types[] = {0, 2, 10, 12, 257, 256 + 11, 65536 + 11, 4294967295u};
    static const uint32_t costs[] = {0, 5, 64, 256 + 20, 65536 + 20, 4294967295u};
    size_t k;

    for (k = 0; k < sizeof types / sizeof types[0]; k++) {
        add_fault(3, fault_type, types[k], "type at making");
    }
    for (k = 0; k < sizeof costs / sizeof costs[0]; k++) {
        add_fault(3, fault_cost, costs[k], "entry cost at making");
    }
}

static void add_opcodes(void)
{
    int opcode;

    for (opcode = 0; opcode < 256; opcode++) {
        if (!ref_defined(opcode)) {
            add_fault(5, fault_opcode, (uint32_t)opcode, "opcode in the image");
            add_fault(8, fault_instruction, (uint32_t)opcode, "opcode to encode");
        }
    }
    add_fault(8, fault_first, 1, "unused first operand");
    add_fault(8, fault_first, 255, "unused first operand");
    add_fault(8, fault_second, 1, "unused second operand");
    add_fault(8, fault_second, 255, "unused second operand");
}

static void list_faults(void)
{
    add_fault(7, fault_length, 0, "saved length");
    add_fault(7, fault_length, 1, "saved length");
    add_fault(7, fault_length, 268, "saved length"); /* what it was before C-11 */
    add_fault(7, fault_length, 275, "saved length");
    add_fault(7, fault_length, 277, "saved length");
    add_illegal_machines();
    add_fault(1, fault_image, 65537, "image length");
    add_fault(2, fault_data, 65537, "data length");
    add_makings();
    add_fault(4, fault_budget, 1000001, "budget");
    add_fault(4, fault_budget, 4294967295u, "budget");
    add_opcodes();
}

/* 01: "The first that applies, tested in the order 7, 6, 1, 2, 3, 4, 5, 8". */
static uint32_t first_refusal(uint32_t one, uint32_t other)
{
    static const uint32_t order[] = {7, 6, 1, 2, 3, 4, 5, 8};
    size_t k;

    for (k = 0; k < sizeof order / sizeof order[0]; k++) {
        if (order[k] == one || order[k] == other) {
            break;
        }
    }
    return order[k];
}

/* 01: "number alone, nothing changed"; of a run's 5: "cycles and ends as after the steps done before", here
   none. */
static void check_bytes(const void *before, const void *now, size_t size, const char *which, const char *what)
{
    if (!check(memcmp(before, now, size) == 0, what) && failed <= FAILURES_TOLD) {
        printf("  %s changed that should have stayed\n", which);
    }
}

static void expect_left_alone(const char *what, int zeros_in_numbers)
{
    if (zeros_in_numbers) {
        lent_before.numbers[1] = lent_before.numbers[3] = lent_before.numbers[5] = 0;
    }
    check_bytes(lent.saved, lent_before.saved, sizeof lent.saved, "a byte of or around the machine", what);
    check_bytes(lent.image, lent_before.image, sizeof lent.image, "a byte of or around the image", what);
    check_bytes(lent.data, lent_before.data, sizeof lent.data, "a byte of or around data memory", what);
    check_bytes(lent.numbers, lent_before.numbers, sizeof lent.numbers, "cycles, ends or what is beside",
                what);
    check_bytes(lent.bytes, lent_before.bytes, sizeof lent.bytes, "a decoded or encoded byte", what);
}

static void expect_refusal(const struct call *call, const struct arguments *a, uint32_t number,
                           const char *what)
{
    memcpy(&lent_before, &lent, sizeof lent);
    check_number(number, call->make(a), what);
    expect_left_alone(what, call->make == call_run && number == 5);
}

static void name_faults(char *what, const struct call *call, const struct fault *one,
                        const struct fault *other)
{
    int length = sprintf(what, "%s with %s %lu (%lX), refusal %lu", call->name, one->what,
                         (unsigned long)one->value, (unsigned long)one->value, (unsigned long)one->number);

    if (other != one) {
        sprintf(what + length, ", and %s %lu (%lX), refusal %lu", other->what, (unsigned long)other->value,
                (unsigned long)other->value, (unsigned long)other->number);
    }
}

static void check_two_faults(const struct call *call, const struct fault *one, const struct fault *other)
{
    struct arguments a;
    char what[250];

    base_call(&a);
    one->make(&a, one->value);
    other->make(&a, other->value);
    name_faults(what, call, one, other);
    expect_refusal(call, &a, first_refusal(one->number, other->number), what);
}

static int meets(const struct call *call, const struct fault *f)
{
    return (call->meets & MEETS(f->number)) != 0;
}

/* Alone (a fault with itself) and every two. */
static void check_faults(const struct call *call)
{
    size_t i, j;

    for (i = 0; i < fault_count; i++) {
        for (j = i; j < fault_count; j++) {
            if (meets(call, &faults[i]) && meets(call, &faults[j])
                && (i == j || strcmp(faults[i].what, faults[j].what) != 0)) {
                check_two_faults(call, &faults[i], &faults[j]);
            }
        }
    }
}

/* Nothing around what a call may write: the machine, the data memory, three numbers, four bytes. */
static int guards_stand(void)
{
    size_t at, saved_end = GUARD + Z8_SAVED_LEN, data_end = GUARD + MEMORY;

    for (at = 0; at < sizeof lent.numbers / sizeof lent.numbers[0]; at += 2) {
        if (lent.numbers[at] != lent_before.numbers[at]) {
            return 0;
        }
    }
    for (at = 0; at < sizeof lent.bytes; at += 2) {
        if (lent.bytes[at] != lent_before.bytes[at]) {
            return 0;
        }
    }
    return memcmp(lent.saved, lent_before.saved, GUARD) == 0
           && memcmp(lent.saved + saved_end, lent_before.saved + saved_end, sizeof lent.saved - saved_end)
                  == 0
           && memcmp(lent.image, lent_before.image, sizeof lent.image) == 0
           && memcmp(lent.data, lent_before.data, GUARD) == 0
           && memcmp(lent.data + data_end, lent_before.data + data_end, sizeof lent.data - data_end) == 0;
}

/* Without a fault each is answered with 0, so what was refused above was refused for its fault. */
static void check_no_fault(const struct call *call)
{
    struct arguments a;

    base_call(&a);
    memcpy(&lent_before, &lent, sizeof lent);
    check_number(0, call->make(&a), call->name);
    check(guards_stand(), call->name);
}

static void check_all_faults(void)
{
    size_t k;

    list_faults();
    for (k = 0; k < CALLS; k++) {
        check_no_fault(&calls[k]);
        check_faults(&calls[k]);
    }
}

/* ---- Saved machines that are none ---- */

static void check_machine_in_every_call(const char *what)
{
    uint8_t given[GUARD + 300 + GUARD];
    uint32_t expected = (uint32_t)ref_check(lent.saved + GUARD, Z8_SAVED_LEN);
    size_t k;

    memcpy(given, lent.saved, sizeof given);
    for (k = 0; k < CALLS; k++) {
        struct arguments a;

        if (!(calls[k].meets & MEETS(6))) {
            continue;
        }
        base_call(&a);
        memcpy(lent.saved, given, sizeof given);
        if (expected == 6) {
            expect_refusal(&calls[k], &a, 6, what);
        } else {
            check(calls[k].make(&a) != 6, what);
        }
    }
}

/* A place with each value, of the base machine as it is or before its first EI: those that are legal and
   those that aren't. */
static void check_every_value_of(unsigned place, int held)
{
    static const char *const when[] = {"", " before EI"};
    struct arguments a;
    unsigned value;
    uint32_t found;
    char what[80];

    for (value = 0; value < 256; value++) {
        uint8_t saved[Z8_SAVED_LEN];

        base_machine(saved);
        if (held) {
            hold_requests(saved);
        }
        saved[place] = (uint8_t)value;
        found = z8_check(saved, Z8_SAVED_LEN);
        sprintf(what, "z8_check with %s = %02X%s", name_of_saved_byte(place), value, when[held]);
        check_number((unsigned long)ref_check(saved, Z8_SAVED_LEN), found, what);
    }
    /* The other calls with a few values, as each compares much. */
    for (value = 1; value < 256; value = value * 2 + 1) {
        base_call(&a);
        if (held) {
            hold_requests(lent.saved + GUARD);
        }
        lent.saved[GUARD + place] = (uint8_t)value;
        sprintf(what, "a call with %s = %02X%s", name_of_saved_byte(place), value, when[held]);
        check_machine_in_every_call(what);
    }
}

static void check_every_value_of_every_place(void)
{
    unsigned place;

    for (place = 0; place < Z8_SAVED_LEN; place++) {
        check_every_value_of(place, 0);
        check_every_value_of(place, 1);
    }
}

/* C-13: of byte 267 bit 0 is 0 or 1, and 01's "byte 267 zero" stays for the others; "a legal machine that hasn't has
   IRQ zero", where one that has executed EI has IRQ as in 01. */
static uint32_t refusal_of_requests(unsigned bits, unsigned irq)
{
    return bits > 1 || irq > 0x3F || (bits == 0 && irq != 0) ? 6 : 0;
}

/* Every byte 267 with every IRQ; and in every call each byte 267 with no request, each request and all. */
static void check_requests_and_ei(void)
{
    static const uint8_t requests[] = {0x00, 0x01, 0x02, 0x04, 0x08, 0x10, 0x20, 0x3F};
    uint8_t saved[Z8_SAVED_LEN];
    unsigned bits, irq;
    struct arguments a;
    char what[80];
    size_t k;

    base_machine(saved);
    for (bits = 0; bits < 256; bits++) {
        saved[Z8_AT_BITS] = (uint8_t)bits;
        for (irq = 0; irq < 256; irq++) {
            saved[IRQ] = (uint8_t)irq;
            sprintf(what, "z8_check with byte 267 = %02X and IRQ = %02X", bits, irq);
            check_number(refusal_of_requests(bits, irq), z8_check(saved, Z8_SAVED_LEN), what);
        }
        for (k = 0; k < sizeof requests; k++) {
            base_call(&a);
            lent.saved[GUARD + Z8_AT_BITS] = (uint8_t)bits;
            lent.saved[GUARD + IRQ] = requests[k];
            sprintf(what, "a call with byte 267 = %02X and IRQ = %02X", bits, requests[k]);
            check_number(refusal_of_requests(bits, requests[k]),
                         (unsigned long)ref_check(lent.saved + GUARD, Z8_SAVED_LEN), what);
            check_machine_in_every_call(what);
        }
    }
}

/* What the calls say of the list above, and of its neighbours that are legal: with the port on and off, which
   makes no difference. */
static void check_ports_in_every_call(const struct port *port, uint32_t expected)
{
    struct arguments a;
    unsigned on;

    for (on = 0; on < 2; on++) {
        base_call(&a);
        lent.saved[GUARD + P3M] = on ? 0x40 : 0x00;
        memcpy(lent.saved + GUARD + Z8_AT_RECEIVED, port->bytes, 8);
        check_number(expected, (unsigned long)ref_check(lent.saved + GUARD, Z8_SAVED_LEN), port->words);
        check_machine_in_every_call(port->words);
    }
}

/* Every value of each of the port's bytes beside each of the legal ports. */
static void check_ports_neighbours(const struct port *port)
{
    unsigned place, value;
    char what[80];

    for (place = Z8_AT_RECEIVED; place < Z8_SAVED_LEN; place++) {
        for (value = 0; value < 256; value++) {
            uint8_t saved[Z8_SAVED_LEN];

            base_machine(saved);
            memcpy(saved + Z8_AT_RECEIVED, port->bytes, 8);
            saved[place] = (uint8_t)value;
            sprintf(what, "z8_check with %s = %02X beside %s", name_of_saved_byte(place), value, port->words);
            check_number((unsigned long)ref_check(saved, Z8_SAVED_LEN), z8_check(saved, Z8_SAVED_LEN), what);
        }
    }
}

/* Every two values of what a half awaits or sends and of its ends, with the third byte that goes with them
   FF, which every rule allows, and 00, which some don't. */
static void check_half_of_the_port(unsigned third, unsigned place, unsigned ends)
{
    uint8_t saved[Z8_SAVED_LEN];
    unsigned values;
    char what[80];

    base_machine(saved);
    memcpy(saved + Z8_AT_RECEIVED, legal_ports[0].bytes, 8);
    for (values = 0; values < 65536; values++) {
        unsigned byte;

        saved[place] = (uint8_t)(values / 256);
        saved[ends] = (uint8_t)values;
        for (byte = 0; byte < 256; byte += 0xFF) {
            saved[third] = (uint8_t)byte;
            if (ref_check(saved, Z8_SAVED_LEN) != (int)z8_check(saved, Z8_SAVED_LEN)) {
                sprintf(what, "z8_check with %02X %02X %02X from %s on", saved[third], saved[place],
                        saved[ends], name_of_saved_byte(third));
                check_number((unsigned long)ref_check(saved, Z8_SAVED_LEN), z8_check(saved, Z8_SAVED_LEN),
                             what);
            }
            checks++;
        }
    }
}

static void check_ports(void)
{
    size_t k;

    for (k = 0; k < ILLEGAL_PORTS; k++) {
        check_ports_in_every_call(&illegal_ports[k], 6);
    }
    for (k = 0; k < LEGAL_PORTS; k++) {
        check_ports_in_every_call(&legal_ports[k], 0);
        check_ports_neighbours(&legal_ports[k]);
    }
    check_half_of_the_port(Z8_AT_RECEIVER_SHIFT, Z8_AT_RECEIVER_AWAITS, Z8_AT_RECEIVER_ENDS);
    check_half_of_the_port(Z8_AT_SENDER_BITS, Z8_AT_SENDER_PLACE, Z8_AT_SENDER_ENDS);
}

/* z8.h: "from before version 2, when it had 268 bytes: append 00 FF 00 00 FF 00 00 00", so that nothing is
   received and nothing under way, and its first 268 bytes are as they were. */
static void check_carried_over(void)
{
    static const uint8_t appended[8] = {0x00, 0xFF, 0x00, 0x00, 0xFF, 0x00, 0x00, 0x00};
    uint8_t made[Z8_SAVED_LEN], kept[Z8_SAVED_LEN], before[Z8_SAVED_LEN];
    uint32_t ends0, ends1;

    check_number(268 + sizeof appended, Z8_SAVED_LEN, "a kept machine's 268 bytes and eight more");
    check_number(Z8_OK, z8_make(made, Z8_SAVED_LEN, 1, 63), "z8_make");
    memset(kept, 0xEE, Z8_SAVED_LEN);
    memcpy(kept, made, 268);
    memcpy(kept + 268, appended, sizeof appended);
    check(memcmp(kept, made, Z8_SAVED_LEN) == 0, "a new machine carried over is a new machine");

    kept[P3M] = 0xFF;
    kept[TMR] = 0x02;
    check_number(Z8_OK, z8_check(kept, Z8_SAVED_LEN), "a kept machine carried over");
    memcpy(before, kept, Z8_SAVED_LEN);
    check_number(Z8_OK, z8_span(kept, Z8_SAVED_LEN, 4294967295u, &ends0, &ends1), "and moved on");
    check(memcmp(before + 268, kept + 268, sizeof appended) == 0, "with nothing under way");
}

/* A step of that opcode, with all lines of Port 3 low. */
static void step_with_edges(uint8_t *m, uint8_t opcode)
{
    uint32_t cycles, ends0, ends1;

    m[Z8_AT_PC] = m[Z8_AT_PC + 1] = 0;
    check_number(Z8_OK,
                 z8_step(m, Z8_SAVED_LEN, &opcode, 1, NULL, 0, 255, 255, 255, 0, &cycles, &ends0, &ends1),
                 "a step of a kept machine");
}

/* z8.h: "from before version 3: byte 267 was always 0 [...] If you know that it had been [executed], set
   Z8_EI_EXECUTED, and it goes on as it did. Without it a machine whose IRQ is not zero is refused with 6, and
   one whose IRQ is zero goes on, but latches no request until its next EI." */
static void check_carried_over_ei(void)
{
    uint8_t kept[Z8_SAVED_LEN], known[Z8_SAVED_LEN];

    base_machine(kept);
    kept[P3M] = 0;
    kept[Z8_AT_BITS] = 0;
    kept[IRQ] = 0x21;
    check_number(Z8_REFUSED_MACHINE, z8_check(kept, Z8_SAVED_LEN), "a kept machine with requests");
    memcpy(known, kept, Z8_SAVED_LEN);
    known[Z8_AT_BITS] |= Z8_EI_EXECUTED;
    check_number(Z8_OK, z8_check(known, Z8_SAVED_LEN), "the same, known to have executed EI");
    step_with_edges(known, 0xFF);
    check_number(0x3F, known[IRQ], "its requests are latched");

    kept[IRQ] = 0;
    check_number(Z8_OK, z8_check(kept, Z8_SAVED_LEN), "a kept machine without requests");
    step_with_edges(kept, 0xFF);
    check_number(0, kept[IRQ], "its requests are held");
    kept[Z8_AT_PORT3] = 0xFF;
    step_with_edges(kept, 0x9F);
    check_number(Z8_EI_EXECUTED, kept[Z8_AT_BITS], "until its next EI");
    kept[Z8_AT_PORT3] = 0xFF;
    kept[IMR] = 0;
    step_with_edges(kept, 0xFF);
    check_number(0x0F, kept[IRQ] & 0x0Fu, "and latched from then on");
}

static void check_random_bytes(void)
{
    unsigned long number;

    for (number = 0; number < 2000; number++) {
        uint8_t saved[300];
        struct dice d;
        size_t length, at;
        char what[60];

        dice_for_case(&d, SEED, number);
        for (at = 0; at < sizeof saved; at++) {
            saved[at] = any_byte(&d);
        }
        length = one_in(&d, 2) ? Z8_SAVED_LEN : below(&d, sizeof saved);
        sprintf(what, "random bytes %lu, length %lu", number, (unsigned long)length);
        check_number((unsigned long)ref_check(saved, length), z8_check(saved, length), what);
        if (number % 20 == 0) {
            memcpy(lent.saved + GUARD, saved, Z8_SAVED_LEN);
            check_machine_in_every_call(what);
        }
    }
}

/* A legal machine of every length but its own. */
static void check_every_length(void)
{
    uint8_t saved[600];
    size_t length;
    char what[60];

    memset(saved, 0, sizeof saved);
    base_machine(saved);
    for (length = 0; length <= sizeof saved; length++) {
        sprintf(what, "z8_check with length %lu", (unsigned long)length);
        check_number((unsigned long)ref_check(saved, length), z8_check(saved, length), what);
    }
}

/* ---- Lengths and numbers at their limits ---- */

static void check_lengths_that_are_fine(void)
{
    struct arguments a;

    base_call(&a);
    a.image_length = 0;
    a.image_is_null = 1;
    check_number(0, call_step(&a), "z8_step without an image: FF is NOP");
    check_number(6, lent.numbers[1], "NOP's cycles");
    check_number(BASE_PC + 1, lent.saved[GUARD + Z8_AT_PC] * 256ul + lent.saved[GUARD + Z8_AT_PC + 1],
                 "after NOP");

    base_call(&a);
    a.image_length = 0;
    a.image_is_null = 1;
    check_number(0, call_decode(&a), "z8_decode without an image: FF is NOP");
    check_number(0xFF, lent.bytes[1], "NOP decoded");
    check_number(1, lent.bytes[7], "NOP's length");

    base_call(&a);
    a.data_length = 0;
    a.data_is_null = 1;
    check_number(0, call_step(&a), "z8_step without data memory: the push is dropped");
    base_call(&a);
    a.data_length = 0;
    a.data_is_null = 1;
    check_number(0, call_run(&a), "z8_run without data memory");

    base_call(&a);
    a.budget = 1000000;
    lent.image[GUARD + BASE_PC] = 0x8B; /* JR to itself */
    lent.image[GUARD + BASE_PC + 1] = 0xFE;
    check_number(0, call_run(&a), "z8_run with budget 1,000,000");
    check(lent.numbers[1] >= 1000000 && lent.numbers[1] <= 1000000 + Z8_OVERRUN_MOST, "its cycles");
}

static void check_making(uint32_t type, uint32_t cost)
{
    struct ref_machine m;
    uint8_t expected[Z8_SAVED_LEN];
    struct arguments a;
    uint32_t answer;
    char what[80];

    base_call(&a);
    memcpy(expected, lent.saved + GUARD, Z8_SAVED_LEN);
    answer = (uint32_t)ref_make(&m, type, cost);
    if (answer == 0) {
        ref_save(&m, expected);
    }
    a.type = type;
    a.entry_cost = cost;
    sprintf(what, "z8_make with type %lu and entry cost %lu", (unsigned long)type, (unsigned long)cost);
    check_number(answer, call_make(&a), what);
    check(memcmp(expected, lent.saved + GUARD, Z8_SAVED_LEN) == 0, what);
}

/* 01, edges to run: "entry cost 5, 6, 63, 64"; and numbers that fit only where a number is cut short. */
static void check_makings(void)
{
    static const uint32_t types[] = {0,   1,   2,   10,    11,    12,          255,
                                     256, 257, 267, 65537, 65547, 0x80000001u, 4294967295u};
    static const uint32_t costs[] = {0,   5,   6,   20,    63,          64,         255,
                                     256, 262, 276, 65556, 0x80000014u, 4294967295u};
    size_t i, j;

    for (i = 0; i < sizeof types / sizeof types[0]; i++) {
        for (j = 0; j < sizeof costs / sizeof costs[0]; j++) {
            check_making(types[i], costs[j]);
        }
    }
}

/* 01: "R4 to R127, type and entry cost stay". */
static void check_resets(void)
{
    unsigned long number;

    for (number = 0; number < 100; number++) {
        uint8_t machine[Z8_SAVED_LEN], expected[Z8_SAVED_LEN];
        struct lean lean = {1, 2048, 8192};
        struct ref_machine m;
        struct dice d;

        dice_for_case(&d, SEED + 4, number);
        draw_machine(&d, &lean, machine);
        ref_load(&m, machine);
        ref_reset(&m);
        ref_save(&m, expected);
        check_number(0, z8_reset(machine, Z8_SAVED_LEN), "z8_reset");
        check(memcmp(expected, machine, Z8_SAVED_LEN) == 0, "a machine after z8_reset");
    }
}

/* Lengths that are right modulo 2^32 only. The bytes are there, as z8.h asks, but few of them are written. */
static void check_lengths_past_32_bits(void)
{
    size_t length = ((size_t)1 << 32) + 1024;
    uint8_t *much =
        mmap(NULL, length, PROT_READ | PROT_WRITE, MAP_PRIVATE | MAP_ANONYMOUS | MAP_NORESERVE, -1, 0);
    struct arguments a;
    uint32_t cycles = UNTOUCHED, ends0 = UNTOUCHED, ends1 = UNTOUCHED;
    uint8_t opcode, first, second, bytes;

    if (!check(much != MAP_FAILED, "room for lengths past 32 bits")) {
        return;
    }
    base_call(&a);
    base_machine(much);
    length = ((size_t)1 << 32) + Z8_SAVED_LEN;
    check_number(7, z8_check(much, length), "z8_check with 2^32 + 276 bytes");
    check_number(7, z8_reset(much, length), "z8_reset with 2^32 + 276 bytes");
    check_number(7, z8_make(much, length, 11, 20), "z8_make with 2^32 + 276 bytes");
    check_number(7, z8_make_default(much, length), "z8_make_default with 2^32 + 276 bytes");
    check_number(7, z8_span(much, length, 1, &ends0, &ends1), "z8_span with 2^32 + 276 bytes");
    length = (size_t)1 << 32;
    check_number(1, z8_decode(much, length, 0, &opcode, &first, &second, &bytes),
                 "z8_decode with an image of 2^32 bytes");
    check_number(
        1, z8_step(saved_of(&a), Z8_SAVED_LEN, much, length, NULL, 0, 0, 0, 0, 0, &cycles, &ends0, &ends1),
        "z8_step with an image of 2^32 bytes");
    check_number(
        2, z8_run(saved_of(&a), Z8_SAVED_LEN, NULL, 0, much, length, 0, 0, 0, 0, 10, &cycles, &ends0, &ends1),
        "z8_run with a data memory of 2^32 bytes");
    check(cycles == UNTOUCHED && ends0 == UNTOUCHED && ends1 == UNTOUCHED, "no number written");
    munmap(much, ((size_t)1 << 32) + 1024);
}

/* ---- Runs and steps ---- */

struct totals {
    uint32_t answer, steps, cycles, ends0, ends1;
};

static const uint8_t pins[4] = {0x12, 0x34, 0x56, 0x70};

/* Steps until the budget is reached or one is refused. */
static void step_until(uint8_t *saved, const uint8_t *image, size_t image_length, uint8_t *data,
                       size_t data_length, uint32_t budget, struct totals *t)
{
    memset(t, 0, sizeof *t);
    while (t->cycles < budget) {
        uint32_t cycles, ends0, ends1;

        t->answer = z8_step(saved, Z8_SAVED_LEN, image, image_length, data, data_length, pins[0], pins[1],
                            pins[2], pins[3], &cycles, &ends0, &ends1);
        if (t->answer != 0) {
            break;
        }
        t->steps++;
        t->cycles += cycles;
        t->ends0 += ends0;
        t->ends1 += ends1;
    }
}

static uint8_t stepped_data[MEMORY], run_data[MEMORY], reference_data[MEMORY];

static void run_and_compare_with_steps(const uint8_t *given, const uint8_t *image, size_t image_length,
                                       size_t data_length, uint32_t budget, struct totals *stepped,
                                       const char *what)
{
    uint8_t stepped_machine[Z8_SAVED_LEN], run_machine[Z8_SAVED_LEN], reference_machine[Z8_SAVED_LEN];
    struct ref_pins reference_pins;
    struct ref_machine m;
    struct totals run, reference;

    memcpy(stepped_machine, given, Z8_SAVED_LEN);
    memcpy(run_machine, given, Z8_SAVED_LEN);
    memset(stepped_data, 0xC3, MEMORY);
    memset(run_data, 0xC3, MEMORY);
    memset(reference_data, 0xC3, MEMORY);
    memcpy(reference_pins.port, pins, 4);

    step_until(stepped_machine, image, image_length, stepped_data, data_length, budget, stepped);
    run.answer = z8_run(run_machine, Z8_SAVED_LEN, image, image_length, run_data, data_length, pins[0],
                        pins[1], pins[2], pins[3], budget, &run.cycles, &run.ends0, &run.ends1);
    ref_load(&m, given);
    reference.answer =
        (uint32_t)ref_run(&m, &reference_pins, image, image_length, reference_data, data_length, budget,
                          &reference.cycles, &reference.ends0, &reference.ends1);
    ref_save(&m, reference_machine);

    check_number(stepped->answer, run.answer, what);
    check_number(stepped->cycles, run.cycles, what);
    check_number(stepped->ends0, run.ends0, what);
    check_number(stepped->ends1, run.ends1, what);
    check(memcmp(stepped_machine, run_machine, Z8_SAVED_LEN) == 0, what);
    check(memcmp(stepped_data, run_data, MEMORY) == 0, what);

    check_number(reference.answer, run.answer, what);
    check_number(reference.cycles, run.cycles, what);
    check_number(reference.ends0, run.ends0, what);
    check_number(reference.ends1, run.ends1, what);
    check(memcmp(reference_machine, run_machine, Z8_SAVED_LEN) == 0, what);
    check(memcmp(reference_data, run_data, MEMORY) == 0, what);
}

/* k instructions that move registers, data memory, the external stack and the clock, and an undefined opcode
   after. */
static size_t write_program_of(uint8_t *image, unsigned k)
{
    static const uint8_t in_turn[4][2] = {
        {0x2E, 0},    /* INC R2 */
        {0x92, 0x24}, /* LDE @RR4,R2 */
        {0x5E, 0},    /* INC R5 */
        {0x70, 0xE2}, /* PUSH R2 */
    };
    size_t at = BASE_PC;
    unsigned done;

    memset(image, 0xFF, MEMORY);
    for (done = 0; done < k; done++) {
        const uint8_t *bytes = in_turn[done % 4];

        image[at++] = bytes[0];
        if (ref_length(bytes[0]) == 2) {
            image[at++] = bytes[1];
        }
    }
    image[at] = 0x4F;
    return at;
}

static void check_runs_stopped_by_an_opcode(void)
{
    static const unsigned counts[] = {0, 1, 2, 3, 4, 10, 100, 1000};
    static uint8_t image[MEMORY];
    uint8_t machine[Z8_SAVED_LEN];
    struct totals stepped;
    char what[60];
    size_t i;

    base_machine(machine);
    machine[RP] = 0x10;
    machine[0x14] = 0x30;
    machine[Z8_AT_PORT3] = 0xFF;
    for (i = 0; i < sizeof counts / sizeof counts[0]; i++) {
        write_program_of(image, counts[i]);
        sprintf(what, "a run stopped by 5 after %u steps", counts[i]);
        run_and_compare_with_steps(machine, image, MEMORY, MEMORY, 1000000, &stepped, what);
        check_number(counts[i], stepped.steps, what);
        check_number(5, stepped.answer, what);
    }
}

static void check_runs_against_steps(void)
{
    static const uint32_t budgets[] = {0, 1, 2, 5, 6, 7, 11, 12, 13, 59, 62, 63, 64, 200, 1000, 5000};
    static uint8_t image[2048];
    unsigned long number, most_over = 0;

    for (number = 0; number < 300; number++) {
        uint8_t machine[Z8_SAVED_LEN];
        struct totals stepped;
        struct lean lean = {1, 2048, 8192};
        struct dice d;
        uint32_t budget;
        char what[60];
        size_t at;

        dice_for_case(&d, SEED + 1, number);
        draw_machine(&d, &lean, machine);
        machine[Z8_AT_PC] &= 7;
        for (at = 0; at < sizeof image; at++) {
            image[at] = any_byte(&d);
            image[at] = (uint8_t)(ref_defined(image[at]) || one_in(&d, 10) ? image[at] : 0xFF);
        }
        budget = one_of(&d, budgets, sizeof budgets / sizeof budgets[0]);
        sprintf(what, "run and steps, case %lu, budget %lu", number, (unsigned long)budget);
        run_and_compare_with_steps(machine, image, sizeof image, 8192, budget, &stepped, what);
        if (stepped.answer == 0) {
            check(stepped.cycles >= budget, what);
            check(stepped.cycles <= budget + Z8_OVERRUN_MOST || budget == 0, what);
            most_over = stepped.cycles - budget > most_over ? stepped.cycles - budget : most_over;
        }
    }
    check(most_over > 20, "some run spent more over its budget than any instruction costs");
}

/* 01: "so it spends at most 62 cycles over", and an entry of 63 with budget 1 does. */
static void check_longest_overrun(void)
{
    uint8_t machine[Z8_SAVED_LEN], image[16] = {0};
    struct totals stepped;

    base_machine(machine);
    machine[IPR] = 0x08;
    machine[IMR] = 0x81;
    machine[IRQ] = 0x01;
    machine[Z8_AT_ENTRY_COST] = 63;
    run_and_compare_with_steps(machine, image, sizeof image, 0, 1, &stepped,
                               "budget 1 and an entry of 63 cycles");
    check_number(1 + Z8_OVERRUN_MOST, stepped.cycles, "the longest overrun");
}

/* 01: "Budget 0 changes nothing": no edge is latched and no opcode met, and the numbers are 0. */
static void check_budget_0(void)
{
    struct arguments a;

    base_call(&a);
    a.budget = 0;
    lent.image[GUARD + BASE_PC] = 0x4F;
    memcpy(&lent_before, &lent, sizeof lent);
    check_number(0, call_run(&a), "budget 0");
    expect_left_alone("budget 0", 1);
}

/* ---- Two machines in turn are two machines alone ---- */

#define SLICES 40

struct pair_of_runs {
    uint8_t machine[2][Z8_SAVED_LEN];
    uint32_t cycles[2], ends0[2], ends1[2];
};

static uint8_t pair_data[2][8192];

static void start_pair(struct pair_of_runs *p)
{
    struct lean lean = {1, 2048, 8192};
    struct dice d;
    int which;

    memset(p, 0, sizeof *p);
    for (which = 0; which < 2; which++) {
        dice_for_case(&d, SEED + 2, (unsigned long)which);
        draw_machine(&d, &lean, p->machine[which]);
        p->machine[which][Z8_AT_PC] = 0;
        memset(pair_data[which], 0x3C + which, sizeof pair_data[which]);
    }
}

static void run_slice(struct pair_of_runs *p, int which, const uint8_t *image, size_t length, int slice)
{
    uint32_t cycles, ends0, ends1;

    z8_run(p->machine[which], Z8_SAVED_LEN, image, length, pair_data[which], sizeof pair_data[which], 1, 2, 3,
           (uint8_t)(slice * 37 + which), (uint32_t)(slice * 13 % 97), &cycles, &ends0, &ends1);
    p->cycles[which] += cycles;
    p->ends0[which] += ends0;
    p->ends1[which] += ends1;
}

static void check_interleaved(void)
{
    static uint8_t data_alone[2][8192];
    struct pair_of_runs alone, in_turn;
    uint8_t image[2048];
    struct dice d;
    size_t at;
    int slice, which;

    dice_for_case(&d, SEED + 3, 0);
    for (at = 0; at < sizeof image; at++) {
        image[at] = any_byte(&d);
        image[at] = ref_defined(image[at]) ? image[at] : 0x9F;
    }
    start_pair(&alone);
    for (which = 0; which < 2; which++) {
        for (slice = 0; slice < SLICES; slice++) {
            run_slice(&alone, which, image, sizeof image, slice);
        }
    }
    memcpy(data_alone, pair_data, sizeof pair_data);
    start_pair(&in_turn);
    for (slice = 0; slice < SLICES; slice++) {
        run_slice(&in_turn, slice % 2, image, sizeof image, slice);
        run_slice(&in_turn, 1 - slice % 2, image, sizeof image, slice);
    }
    check(memcmp(&alone, &in_turn, sizeof alone) == 0, "two machines in turn as alone");
    check(memcmp(data_alone, pair_data, sizeof pair_data) == 0, "their data memories in turn as alone");
    check(alone.cycles[0] > 500 && alone.cycles[1] > 500, "and both ran");
}

/* ---- 01's proved examples ---- */

enum { C = 0x80, Z = 0x40, S = 0x20, V = 0x10, D = 0x08, H = 0x04 };

struct example {
    const char *words;
    uint8_t bytes[2];
    uint8_t dst, src, flags_before;
    uint8_t result, flags_set, flags_clear;
};

/* Working group 10; the first register is R5, the second R6. Flags that 01 names as clear are set before, and
   the other way round, except where they are the example's own beginning. */
static const struct example examples[] = {
    {"44 + 11 = 55, flags C Z S V D H clear", {0x02, 0x56}, 0x44, 0x11, 0xFC, 0x55, 0, C | Z | S | V | D | H},
    {"7B AND C3 = 43", {0x52, 0x56}, 0x7B, 0xC3, 0x00, 0x43, 0, 0},
    {"00 - 01 = FF with C, S, D, H set and Z, V clear",
     {0x22, 0x56}, 0x00, 0x01, Z | V, 0xFF, C | S | D | H, Z | V},
    {"INC 7F = 80 with S, V set", {0x20, 0xE5}, 0x7F, 0, 0, 0x80, S | V, 0},
    {"INC 7F = 80, INC touching no C, whatever it was", {0x5E, 0}, 0x7F, 0, C, 0x80, C | S | V, 0},
    {"SRA 81 = C0 with C, S set", {0xD0, 0xE5}, 0x81, 0, 0, 0xC0, C | S, 0},
    {"RL 40 = 80 with S, V set and C clear", {0x90, 0xE5}, 0x40, 0, C, 0x80, S | V, C},
    {"DA of 3C (C, D, H clear) = 42", {0x40, 0xE5}, 0x3C, 0, Z | S, 0x42, 0, 0},
    {"CP touches no D and H (likely slips)", {0xA2, 0x56}, 0x10, 0x01, D, 0x10, D, H},
};

static void check_example(const struct example *e)
{
    uint8_t machine[Z8_SAVED_LEN];
    uint32_t cycles, ends0, ends1, answer;

    z8_make_default(machine, Z8_SAVED_LEN);
    machine[RP] = 0x10;
    machine[0x15] = e->dst;
    machine[0x16] = e->src;
    machine[FLAGS] = e->flags_before;
    machine[Z8_AT_PC + 1] = 0;
    answer =
        z8_step(machine, Z8_SAVED_LEN, e->bytes, 2, NULL, 0, 255, 255, 255, 255, &cycles, &ends0, &ends1);
    check_number(0, answer, e->words);
    check_number(e->result, machine[0x15], e->words);
    check_number(e->flags_set, machine[FLAGS] & e->flags_set, e->words);
    check_number(0, machine[FLAGS] & e->flags_clear, e->words);
}

/* DECW 0000 = FFFF; DJNZ; 8B FE at 0010. */
static void check_words_and_jumps(void)
{
    static const uint8_t image[32] = {
        0x80,          0x14,          /* 0000: DECW %14 */
        0x5A,          0x20,          /* 0002: DJNZ R5,%24 */
        [0x10] = 0x8B, [0x11] = 0xFE, /* 0010: JR %0010 */
    };
    uint8_t m[Z8_SAVED_LEN];
    uint32_t cycles, ends0, ends1;

#define STEP_FROM(address)                                                                            \
    (m[Z8_AT_PC] = 0, m[Z8_AT_PC + 1] = (address),                                                    \
     check_number(0,                                                                                  \
                  z8_step(m, Z8_SAVED_LEN, image, sizeof image, NULL, 0, 255, 255, 255, 255, &cycles, \
                          &ends0, &ends1),                                                            \
                  "a step of 01's examples"))
    z8_make_default(m, Z8_SAVED_LEN);
    m[RP] = 0x10;
    STEP_FROM(0);
    check_number(0xFFFF, m[0x14] * 256ul + m[0x15], "DECW 0000 = FFFF");
    m[0x15] = 1;
    STEP_FROM(2);
    check_number(0, m[0x15], "DJNZ on 1 leaves 0");
    check_number(10, cycles, "DJNZ on 1: 10 cycles");
    check_number(4, m[Z8_AT_PC + 1], "DJNZ on 1: no jump");
    STEP_FROM(2);
    check_number(0xFF, m[0x15], "DJNZ on 0 leaves FF");
    check_number(12, cycles, "DJNZ on 0: 12 cycles");
    check_number(0x24, m[Z8_AT_PC + 1], "DJNZ on 0: a jump");
    STEP_FROM(0x10);
    check_number(0x0010, m[Z8_AT_PC] * 256ul + m[Z8_AT_PC + 1], "bytes 8B FE at 0010 jump to 0010");
#undef STEP_FROM
}

/* "IPR 08, IMR BF, IRQ 3F takes vector 000A", as a step of the entry cost. */
static void check_vector(void)
{
    uint8_t image[12], m[Z8_SAVED_LEN];
    uint32_t cycles, ends0, ends1;
    unsigned k;

    for (k = 0; k < sizeof image; k++) {
        image[k] = (uint8_t)(0x40 + k);
    }
    z8_make(m, Z8_SAVED_LEN, 11, 37);
    release_requests(m);
    m[IPR] = 0x08;
    m[IMR] = 0xBF;
    m[IRQ] = 0x3F;
    m[SPL] = 0x60;
    m[FLAGS] = 0x77;
    z8_step(m, Z8_SAVED_LEN, image, sizeof image, NULL, 0, 255, 255, 255, 255, &cycles, &ends0, &ends1);
    check_number(0x4A4B, m[Z8_AT_PC] * 256ul + m[Z8_AT_PC + 1], "the word at 000A, high byte first");
    check_number(37, cycles, "an interrupt grant is a step of the entry cost");
    check_number(0x1F, m[IRQ], "it clears its request");
    check_number(0x3F, m[IMR], "and bit 7 of IMR");
    check_number(0x5D, m[SPL], "three bytes are pushed");
    check_number(0x77, m[0x5D], "FLAGS lie below");
    check_number(0x00, m[0x5E], "the address's high byte lower");
    check_number(0x0C, m[0x5F], "and its low byte");
}

/* ---- 01's timers ---- */

enum timer { TIMER_0, TIMER_1 };

/* That timer fresh from a load of P and N, repeating, T1 internal, counting. The other one is as it was. */
static void fresh_timer(uint8_t *m, enum timer timer, unsigned p, unsigned n)
{
    m[timer == TIMER_0 ? PRE0 : PRE1] = (uint8_t)(p * 4 + 3);
    m[timer == TIMER_0 ? T0 : T1] = (uint8_t)n;
    m[timer == TIMER_0 ? Z8_AT_T0_PRESCALER : Z8_AT_T1_PRESCALER] = (uint8_t)p;
    m[timer == TIMER_0 ? Z8_AT_T0_COUNTER : Z8_AT_T1_COUNTER] = (uint8_t)n;
    m[TMR] |= timer == TIMER_0 ? 0x02 : 0x08;
}

/* With the serial port off, and on, where "T0's ends latch no request 4" and "are counted [...] as ever";
   before the first EI, where "timer ends latch nothing" and "Ends are counted [...] as before" (02, C-13), and
   after. */
static void check_ends_of(enum timer timer, int on, int held, unsigned p, unsigned n, unsigned divider,
                          uint32_t span, uint32_t ends, const char *what)
{
    const unsigned request = timer == TIMER_1 ? 0x20 : on ? 0 : 0x10;
    uint32_t ends0 = UNTOUCHED, ends1 = UNTOUCHED;
    uint8_t m[Z8_SAVED_LEN];

    z8_make_default(m, Z8_SAVED_LEN);
    if (!held) {
        release_requests(m);
    }
    fresh_timer(m, timer, p, n);
    m[Z8_AT_DIVIDER] = (uint8_t)divider;
    m[P3M] = on ? 0x40 : 0;
    check_number(0, z8_span(m, Z8_SAVED_LEN, span, &ends0, &ends1), what);
    check_number(timer == TIMER_0 ? ends : 0, ends0, what);
    check_number(timer == TIMER_1 ? ends : 0, ends1, what);
    check_number(ends == 0 || held ? 0 : request, m[IRQ], what);
}

/* Each timer alone, so that an end of the other one would be seen. */
static void check_ends(unsigned p, unsigned n, unsigned divider, uint32_t span, uint32_t ends,
                       const char *what)
{
    int timer, on, held;

    for (timer = TIMER_0; timer <= TIMER_1; timer++) {
        for (on = 0; on < 2; on++) {
            for (held = 0; held < 2; held++) {
                check_ends_of((enum timer)timer, on, held, p, n, divider, span, ends, what);
            }
        }
    }
}

static void check_spans(void)
{
    check_ends(3, 2, 0, 23, 0, "P 3, N 2, fresh load, divider 0: 23 cycles no end");
    check_ends(3, 2, 0, 24, 1, "24 one");
    check_ends(3, 2, 0, 47, 1, "47 one");
    check_ends(3, 2, 0, 48, 2, "48 two");
    check_ends(64, 256, 0, 65535, 0, "P 64, N 256: 65,535 none");
    check_ends(64, 256, 0, 65536, 1, "65,536 one");
    check_ends(1, 1, 0, 4294967295u, 1073741823u, "P 1, N 1, over the longest span: from divider 0");
    check_ends(1, 1, 1, 4294967295u, 1073741824u, "P 1, N 1, over the longest span: from divider 1");
    check_ends(1, 1, 0, 0, 0, "a span of 0");
}

/* "Cycles already gone: divider + 4 x ((P - prescaler) + P x (N - counter))". */
static uint32_t cycles_gone(const uint8_t *m, unsigned prescaler_at, unsigned counter_at, unsigned p,
                            unsigned n)
{
    unsigned counter = m[counter_at] == 0 ? 256 : m[counter_at];

    return m[Z8_AT_DIVIDER] + 4 * ((p - m[prescaler_at]) + p * (n - counter));
}

/* Both timers at once, with periods that differ. */
static void check_cycles_gone(void)
{
    const uint32_t period0 = 4 * 64 * 256, period1 = 4 * 61 * 200;
    uint32_t span;

    for (span = 0; span < 3 * period0; span += 1 + span / 97) {
        uint8_t m[Z8_SAVED_LEN];
        uint32_t ends0, ends1;

        z8_make_default(m, Z8_SAVED_LEN);
        fresh_timer(m, TIMER_0, 64, 256);
        fresh_timer(m, TIMER_1, 61, 200);
        z8_span(m, Z8_SAVED_LEN, span, &ends0, &ends1);
        check_number(span % period0, cycles_gone(m, Z8_AT_T0_PRESCALER, Z8_AT_T0_COUNTER, 64, 256),
                     "T0's cycles already gone");
        check_number(span % period1, cycles_gone(m, Z8_AT_T1_PRESCALER, Z8_AT_T1_COUNTER, 61, 200),
                     "T1's cycles already gone");
        check_number(span / period0, ends0, "T0's ends");
        check_number(span / period1, ends1, "T1's ends");
    }
}

/* Likely slips: "four 6-cycle instructions are six ticks", "Clearing the divider at a load". */
static void check_ticks(void)
{
    static const uint8_t load[3] = {0xE6, 0xF1, 0x03}; /* LD TMR,#%03 */
    uint8_t m[Z8_SAVED_LEN];
    uint32_t cycles, ends0, ends1;
    int k;

    z8_make_default(m, Z8_SAVED_LEN);
    fresh_timer(m, TIMER_0, 64, 256);
    for (k = 0; k < 4; k++) {
        z8_step(m, Z8_SAVED_LEN, NULL, 0, NULL, 0, 255, 255, 255, 255, &cycles, &ends0, &ends1);
        check_number(6, cycles, "NOP's cycles");
    }
    check_number(64 - 6, m[Z8_AT_T0_PRESCALER], "four 6-cycle instructions are six ticks");

    z8_make_default(m, Z8_SAVED_LEN);
    fresh_timer(m, TIMER_0, 64, 256);
    m[Z8_AT_DIVIDER] = 3;
    m[Z8_AT_PC + 1] = 0;
    m[Z8_AT_T0_PRESCALER] = 5;
    z8_step(m, Z8_SAVED_LEN, load, sizeof load, NULL, 0, 255, 255, 255, 255, &cycles, &ends0, &ends1);
    check_number((3 + 10) % 4, m[Z8_AT_DIVIDER], "a load leaves the divider");
    check_number(64 - (3 + 10) / 4, m[Z8_AT_T0_PRESCALER], "and its 10 cycles are ticks after it");
    check_number(0x02, m[TMR], "a load bit reads back 0");
}

static void check_01s_examples(void)
{
    size_t k;

    for (k = 0; k < sizeof examples / sizeof examples[0]; k++) {
        check_example(&examples[k]);
    }
    check_words_and_jumps();
    check_vector();
    check_spans();
    check_cycles_gone();
    check_ticks();
}

/* ---- The header ---- */

/* Runs the bytes at 0000 on the machine for as many steps. */
static void steps_of(uint8_t *m, const uint8_t *bytes, size_t length, int steps, uint8_t pins3)
{
    m[Z8_AT_PC] = m[Z8_AT_PC + 1] = 0;
    while (steps-- > 0) {
        uint32_t cycles, ends0, ends1;

        check_number(Z8_OK,
                     z8_step(m, Z8_SAVED_LEN, bytes, length, NULL, 0, 255, 255, 255, pins3, &cycles, &ends0,
                             &ends1),
                     "a step");
    }
}

/* Each place of the saved machine that the header names, by what the library writes there. */
static void check_offsets(void)
{
    static const uint8_t program[] = {
        0xE6, 0x7F, 0xAB,          /* LD %7F,#%AB */
        0xE6, PRE0, 41 * 4 + 1,    /* LD PRE0: P 41 */
        0xE6, T0,   0x53,          /* LD T0 */
        0xE6, PRE1, 42 * 4 + 3,    /* LD PRE1: P 42 */
        0xE6, T1,   0x54,          /* LD T1 */
        0xE6, TMR,  0x05,          /* LD TMR: both loaded, neither counts */
        0x8D, 0x51, 0x52,          /* JP %5152 */
    };
    static const uint8_t release[] = {0x9F};          /* EI */
    static const uint8_t start[] = {0xE6, TMR, 0x43}; /* LD TMR: T0 loaded, counting, at T_OUT */
    uint8_t m[Z8_SAVED_LEN];
    uint32_t ends0, ends1;

    check_number(Z8_OK, z8_make(m, Z8_SAVED_LEN, 1, 63), "Z8_SAVED_LEN");
    check_number(1, m[Z8_AT_TYPE], "Z8_AT_TYPE");
    check_number(63, m[Z8_AT_ENTRY_COST], "Z8_AT_ENTRY_COST");
    check_number(1, m[Z8_AT_T_OUT], "Z8_AT_T_OUT");
    steps_of(m, program, sizeof program, 7, 0x55);
    check_number(0xAB, m[Z8_AT_REGISTERS + 0x7F], "Z8_AT_REGISTERS");
    check_number(0x51, m[Z8_AT_PC], "Z8_AT_PC");
    check_number(0x52, m[Z8_AT_PC + 1], "Z8_AT_PC, low byte");
    check_number((6 * 10 + 12) % 4, m[Z8_AT_DIVIDER], "Z8_AT_DIVIDER");
    check_number(41, m[Z8_AT_T0_PRESCALER], "Z8_AT_T0_PRESCALER");
    check_number(0x53, m[Z8_AT_T0_COUNTER], "Z8_AT_T0_COUNTER");
    check_number(42, m[Z8_AT_T1_PRESCALER], "Z8_AT_T1_PRESCALER");
    check_number(0x54, m[Z8_AT_T1_COUNTER], "Z8_AT_T1_COUNTER");
    check_number(0x55, m[Z8_AT_PORT3], "Z8_AT_PORT3");
    check_number(0, m[Z8_AT_BITS], "Z8_AT_BITS, before EI");
    steps_of(m, release, sizeof release, 1, 0xFF);
    check_number(Z8_EI_EXECUTED, m[Z8_AT_BITS], "Z8_AT_BITS, after it");
    check_number((6 * 10 + 12 + 6) % 4, m[Z8_AT_DIVIDER], "Z8_AT_DIVIDER, after EI");

    steps_of(m, start, sizeof start, 1, 0xFF);
    check_number(Z8_OK, z8_span(m, Z8_SAVED_LEN, 4 * 41 * 0x53, &ends0, &ends1), "a span to T0's end");
    check_number(0, m[Z8_AT_T_OUT], "Z8_AT_T_OUT, flipped");
    z8_span(m, Z8_SAVED_LEN, 3, &ends0, &ends1);
    check_number((6 + 10 + 4 * 41 * 0x53 + 3) % 4, m[Z8_AT_DIVIDER], "Z8_AT_DIVIDER, after a span");
    check_number(0x10, m[Z8_AT_REGISTERS + Z8_IRQ], "T0's request");

    m[Z8_AT_BITS] = 0;
    check_number(Z8_REFUSED_MACHINE, z8_check(m, Z8_SAVED_LEN), "Z8_EI_EXECUTED clear, and a request");
    m[Z8_AT_BITS] = Z8_EI_EXECUTED;
    check_number(Z8_OK, z8_check(m, Z8_SAVED_LEN), "Z8_EI_EXECUTED set, and a request");
    m[Z8_AT_BITS] = Z8_EI_EXECUTED << 1;
    check_number(Z8_REFUSED_MACHINE, z8_check(m, Z8_SAVED_LEN), "Z8_AT_BITS has no other bit");
    check_number(Z8_REFUSED_LENGTH, z8_check(m, Z8_SAVED_LEN - 1), "a byte less than Z8_SAVED_LEN");
    check_number(Z8_REFUSED_LENGTH, z8_check(m, Z8_SAVED_LEN + 1), "a byte more than Z8_SAVED_LEN");
}

/* The serial port's places, by what a program and the clock leave there: %35 sent with parity, which has four
   ones, so that bit 7 is set; and P30 held low from the same moment on. */
static void check_ports_offsets(void)
{
    static const uint8_t program[] = {
        0xE6, P3M, 0xC0, /* LD P3M: on, with parity */
        0xE6, SIO, 0x35, /* LD SIO */
    };
    static const uint8_t nothing[] = {0xFF}; /* NOP */
    uint8_t m[Z8_SAVED_LEN];
    uint32_t ends0, ends1;

    z8_make_default(m, Z8_SAVED_LEN);
    release_requests(m);
    steps_of(m, program, sizeof program, 2, 0xFF);
    check_number(0xB5, m[Z8_AT_SENDER_BITS], "Z8_AT_SENDER_BITS");
    check_number(1, m[Z8_AT_SENDER_PLACE], "Z8_AT_SENDER_PLACE, the start bit");
    check_number(0, m[Z8_AT_RECEIVER_AWAITS], "Z8_AT_RECEIVER_AWAITS, a start bit");
    steps_of(m, nothing, sizeof nothing, 1, 0xFE);
    check_number(1, m[Z8_AT_RECEIVER_AWAITS], "Z8_AT_RECEIVER_AWAITS, the start bit's middle");
    check_number(0xFF, m[Z8_AT_RECEIVER_SHIFT], "Z8_AT_RECEIVER_SHIFT, none shifted in");
    fresh_timer(m, TIMER_0, 1, 1);
    m[Z8_AT_DIVIDER] = 0;

    z8_span(m, Z8_SAVED_LEN, 4 * 5, &ends0, &ends1);
    check_number(5, m[Z8_AT_RECEIVER_ENDS], "Z8_AT_RECEIVER_ENDS");
    check_number(5, m[Z8_AT_SENDER_ENDS], "Z8_AT_SENDER_ENDS");
    z8_span(m, Z8_SAVED_LEN, 4 * 3, &ends0, &ends1);
    check_number(2, m[Z8_AT_RECEIVER_AWAITS], "Z8_AT_RECEIVER_AWAITS, the middle of bit 0");
    check_number(0, m[Z8_AT_RECEIVER_ENDS], "Z8_AT_RECEIVER_ENDS, of the next");
    check_number(0x7F, m[Z8_AT_RECEIVER_SHIFT], "Z8_AT_RECEIVER_SHIFT, the start bit");
    check_number(8, m[Z8_AT_SENDER_ENDS], "Z8_AT_SENDER_ENDS goes on");
    z8_span(m, Z8_SAVED_LEN, 4 * 8, &ends0, &ends1);
    check_number(2, m[Z8_AT_SENDER_PLACE], "Z8_AT_SENDER_PLACE, bit 0");
    check_number(0, m[Z8_AT_SENDER_ENDS], "Z8_AT_SENDER_ENDS, of the next");
    z8_span(m, Z8_SAVED_LEN, 4 * (135 - 16), &ends0, &ends1);
    check_number(9, m[Z8_AT_RECEIVER_AWAITS], "Z8_AT_RECEIVER_AWAITS, the middle of bit 7");
    check_number(0, m[Z8_AT_RECEIVED], "Z8_AT_RECEIVED, before");
    z8_span(m, Z8_SAVED_LEN, 4, &ends0, &ends1);
    check_number(0x80, m[Z8_AT_RECEIVED], "Z8_AT_RECEIVED: no ones, a parity error");
    check_number(0x08, m[IRQ], "request 3");
    z8_span(m, Z8_SAVED_LEN, 4 * (175 - 136), &ends0, &ends1);
    check_number(11, m[Z8_AT_SENDER_PLACE], "Z8_AT_SENDER_PLACE, the last stop bit");
    check_number(0xB5, m[Z8_AT_SENDER_BITS], "Z8_AT_SENDER_BITS, to the last");
    z8_span(m, Z8_SAVED_LEN, 4, &ends0, &ends1);
    check_number(0, m[Z8_AT_SENDER_PLACE], "Z8_AT_SENDER_PLACE, idle");
    check_number(0xFF, m[Z8_AT_SENDER_BITS], "Z8_AT_SENDER_BITS, idle");
    check_number(0x18, m[IRQ], "request 4");

    check_number(0, m[Z8_AT_PORT_ZERO], "Z8_AT_PORT_ZERO");
    m[Z8_AT_PORT_ZERO] = 1;
    check_number(Z8_REFUSED_MACHINE, z8_check(m, Z8_SAVED_LEN), "Z8_AT_PORT_ZERO has to be 0");
}

/* z8_p37 at every place and byte: nothing and the stop bits are high, the start bit low, "bit 0 first"; off,
   it is bit 7 of P3's latch. */
static void check_p37(void)
{
    uint8_t m[Z8_SAVED_LEN];
    unsigned place, bits, latch;

    z8_make_default(m, Z8_SAVED_LEN);
    for (bits = 0; bits < 256; bits++) {
        unsigned frame[12] = {1, 0, [10] = 1, [11] = 1};

        for (place = 2; place < 10; place++) {
            frame[place] = bits >> (place - 2) & 1;
        }
        m[Z8_AT_SENDER_BITS] = (uint8_t)bits;
        for (place = 0; place < 12; place++) {
            m[Z8_AT_SENDER_PLACE] = (uint8_t)place;
            for (latch = 0; latch < 256; latch += 0x55) {
                m[P3] = (uint8_t)latch;
                m[P3M] = 0x40;
                check_number(frame[place], z8_p37(m), "z8_p37 with the port on");
                m[P3M] = 0xBF;
                check_number(latch / 128, z8_p37(m), "z8_p37 with the port off");
            }
        }
    }
}

/* 01: "F0 read[s] FF and drop[s] stores", which since C-11 is so while the port is off; on, it reads what is
   at Z8_AT_RECEIVED, and a store begins a send and stays nowhere else. */
static void check_sio(void)
{
    static const uint8_t program[] = {
        0xE4, SIO, 0x41, /* LD %41,SIO */
        0xE6, SIO, 0x5B, /* LD SIO */
    };
    uint8_t m[Z8_SAVED_LEN];
    unsigned p3m;

    for (p3m = 0; p3m < 256; p3m++) {
        int on = (p3m & 0x40) != 0;

        z8_make_default(m, Z8_SAVED_LEN);
        m[P3M] = (uint8_t)p3m;
        m[Z8_AT_RECEIVED] = 0x2A;
        steps_of(m, program, sizeof program, 2, 0xFF);
        check_number(on ? 0x2A : 0xFF, m[0x41], "what F0 reads");
        check_number(on ? 1 : 0, m[Z8_AT_SENDER_PLACE], "a store to F0");
        check_number(0, m[Z8_AT_REGISTERS + Z8_SIO], "F0's place");
        check_number(0x2A, m[Z8_AT_RECEIVED], "the received byte stays");
    }
}

/* Data memory that reads other than FF, by the types' names: LDE R4,@RR2 at an address and one below. */
static void check_type(uint32_t type, unsigned begins)
{
    static const uint8_t program[] = {0x82, 0x42};
    uint8_t m[Z8_SAVED_LEN];
    struct arguments a;
    unsigned below_it;

    for (below_it = 0; below_it < 2; below_it++) {
        uint32_t cycles, ends0, ends1;

        base_call(&a);
        check_number(Z8_OK, z8_make(m, Z8_SAVED_LEN, type, Z8_DEFAULT_ENTRY_COST), "a type of the header");
        m[Z8_AT_PC + 1] = 0;
        m[RP] = 0x10;
        m[0x12] = (uint8_t)((begins - below_it) / 256);
        m[0x13] = (uint8_t)(begins - below_it);
        z8_step(m, Z8_SAVED_LEN, program, sizeof program, data_of(&a), a.data_length, 255, 255, 255, 255,
                &cycles, &ends0, &ends1);
        check_number(below_it ? 0xFF : 0x5A, m[0x14], "where data memory begins");
    }
}

/* The header's limits, each at both its sides. */
static void check_limits(void)
{
    uint8_t m[Z8_SAVED_LEN], made[Z8_SAVED_LEN];
    struct arguments a;

    check_number(Z8_OK, z8_make(m, sizeof m, Z8_TYPE_Z8601, Z8_ENTRY_COST_LEAST), "least entry cost");
    check_number(Z8_REFUSED_MAKING, z8_make(m, sizeof m, Z8_TYPE_Z8601, Z8_ENTRY_COST_LEAST - 1), "less");
    check_number(Z8_OK, z8_make(m, sizeof m, Z8_TYPE_Z8611, Z8_ENTRY_COST_MOST), "most entry cost");
    check_number(Z8_REFUSED_MAKING, z8_make(m, sizeof m, Z8_TYPE_Z8611, Z8_ENTRY_COST_MOST + 1), "more");
    check_type(Z8_TYPE_Z8601, 2048);
    check_type(Z8_TYPE_Z8611, 4096);

    check_number(Z8_OK, z8_make_default(m, sizeof m), "z8_make_default");
    check_number(Z8_OK, z8_make(made, sizeof made, Z8_DEFAULT_TYPE, Z8_DEFAULT_ENTRY_COST), "the defaults");
    check(memcmp(m, made, sizeof m) == 0, "the header's defaults are the library's");
    check_number(11, m[Z8_AT_TYPE], "01: type 11 unless another is named");
    check_number(20, m[Z8_AT_ENTRY_COST], "01: entry cost 20 unless another is named");

    base_call(&a);
    a.image_length = Z8_IMAGE_MOST;
    check_number(Z8_OK, call_decode(&a), "z8_decode with the longest image");
    check_number(Z8_OK, call_step(&a), "z8_step with the longest image");
    a.image_length = Z8_IMAGE_MOST + 1;
    check_number(Z8_REFUSED_IMAGE, call_decode(&a), "z8_decode with a longer one");
    check_number(Z8_REFUSED_IMAGE, call_step(&a), "z8_step with a longer one");
    base_call(&a);
    a.data_length = Z8_DATA_MOST;
    check_number(Z8_OK, call_step(&a), "z8_step with the longest data memory");
    a.data_length = Z8_DATA_MOST + 1;
    check_number(Z8_REFUSED_DATA, call_step(&a), "z8_step with a longer one");
    base_call(&a);
    a.budget = Z8_BUDGET_MOST;
    lent.image[GUARD + BASE_PC] = 0x8B; /* JR to itself */
    lent.image[GUARD + BASE_PC + 1] = 0xFE;
    check_number(Z8_OK, call_run(&a), "the highest budget");
    a.budget = Z8_BUDGET_MOST + 1;
    check_number(Z8_REFUSED_BUDGET, call_run(&a), "a higher one");
}

/* Each refusal by the header's name: a fault that 01's table gives that number to. */
static void check_refusal_names(void)
{
    static const struct {
        uint32_t name;
        uint32_t number;
        const char *what;
    } refusals[] = {
        {Z8_REFUSED_IMAGE, 1, "Z8_REFUSED_IMAGE"},     {Z8_REFUSED_DATA, 2, "Z8_REFUSED_DATA"},
        {Z8_REFUSED_MAKING, 3, "Z8_REFUSED_MAKING"},   {Z8_REFUSED_BUDGET, 4, "Z8_REFUSED_BUDGET"},
        {Z8_REFUSED_OPCODE, 5, "Z8_REFUSED_OPCODE"},   {Z8_REFUSED_MACHINE, 6, "Z8_REFUSED_MACHINE"},
        {Z8_REFUSED_LENGTH, 7, "Z8_REFUSED_LENGTH"},   {Z8_REFUSED_INSTRUCTION, 8, "Z8_REFUSED_INSTRUCTION"},
    };
    struct arguments a;
    size_t r, c, f;

    for (r = 0; r < sizeof refusals / sizeof refusals[0]; r++) {
        unsigned long asked = checks;

        for (c = 0; c < CALLS; c++) {
            for (f = 0; f < fault_count; f++) {
                if (faults[f].number == refusals[r].number && meets(&calls[c], &faults[f])) {
                    base_call(&a);
                    faults[f].make(&a, faults[f].value);
                    check_number(refusals[r].name, calls[c].make(&a), refusals[r].what);
                }
            }
        }
        check(checks > asked, refusals[r].what);
    }
    for (c = 0; c < CALLS; c++) {
        base_call(&a);
        check_number(Z8_OK, calls[c].make(&a), "Z8_OK");
    }
}

static void check_version(void)
{
    unsigned long version = z8_version();
    char words[40];

    check_number(Z8_VERSION_NUMBER, version, "z8_version and Z8_VERSION_NUMBER");
    check_number(Z8_VERSION_MAJOR, version / 65536, "Z8_VERSION_MAJOR");
    check_number(Z8_VERSION_MINOR, version / 256 % 256, "Z8_VERSION_MINOR");
    check_number(Z8_VERSION_PATCH, version % 256, "Z8_VERSION_PATCH");
    sprintf(words, "%lu.%lu.%lu", version / 65536, version / 256 % 256, version % 256);
    check(strcmp(words, Z8_VERSION) == 0, "Z8_VERSION");
}

struct control_register {
    unsigned name;
    uint8_t number; /* 002: R241 to R255 */
    uint8_t kept;   /* the bits that a store leaves there, by 01 */
    const char *what;
};

static const struct control_register control_registers[] = {
    {Z8_TMR, 241, 0xFA, "Z8_TMR"},     {Z8_T1, 242, 0xFF, "Z8_T1"},     {Z8_PRE1, 243, 0xFF, "Z8_PRE1"},
    {Z8_T0, 244, 0xFF, "Z8_T0"},       {Z8_PRE0, 245, 0xFF, "Z8_PRE0"}, {Z8_P2M, 246, 0xFF, "Z8_P2M"},
    {Z8_P3M, 247, 0xFF, "Z8_P3M"},     {Z8_P01M, 248, 0xFF, "Z8_P01M"}, {Z8_IPR, 249, 0xFF, "Z8_IPR"},
    {Z8_IRQ, 250, 0x3F, "Z8_IRQ"},     {Z8_IMR, 251, 0xFF, "Z8_IMR"},   {Z8_FLAGS, 252, 0xFF, "Z8_FLAGS"},
    {Z8_RP, 253, 0xF0, "Z8_RP"},       {Z8_SPH, 254, 0xFF, "Z8_SPH"},   {Z8_SPL, 255, 0xFF, "Z8_SPL"},
};

/* A byte that the program stores to the register of that number is where the header's name says. */
static void check_register_names(void)
{
    const uint8_t byte = 0x7A;
    uint8_t m[Z8_SAVED_LEN];
    unsigned address;
    size_t k;

    for (k = 0; k < sizeof control_registers / sizeof control_registers[0]; k++) {
        const struct control_register *r = &control_registers[k];
        const uint8_t program[3] = {0xE6, r->number, byte};

        z8_make_default(m, Z8_SAVED_LEN);
        release_requests(m); /* a store to IRQ stays */
        steps_of(m, program, sizeof program, 1, 0xFF);
        check_number(byte & r->kept, m[Z8_AT_REGISTERS + r->name], r->what);
    }
    /* A store to F0 stays nowhere in the register file, so it is known by being the one that has to be zero.
     */
    for (address = 0xF0; address <= 0xFF; address++) {
        z8_make_default(m, Z8_SAVED_LEN);
        release_requests(m); /* IRQ may be other than zero */
        m[Z8_AT_REGISTERS + address] = 0x10;
        check_number(address == Z8_SIO ? Z8_REFUSED_MACHINE : Z8_OK, z8_check(m, Z8_SAVED_LEN), "Z8_SIO");
    }
}

struct flags_example {
    const char *words;
    uint8_t bytes[2]; /* R5 is the destination, R6 the source */
    uint8_t dst, src, flags_before;
    unsigned flags_after;
};

static const struct flags_example flags_examples[] = {
    {"SCF: Z8_FLAG_C", {0xDF, 0}, 0, 0, 0, Z8_FLAG_C},
    {"CP of equals: Z8_FLAG_Z", {0xA2, 0x56}, 7, 7, 0, Z8_FLAG_Z},
    {"80 OR 00: Z8_FLAG_S", {0x42, 0x56}, 0x80, 0, 0, Z8_FLAG_S},
    {"INC 7F: Z8_FLAG_S and Z8_FLAG_V", {0x20, 0xE5}, 0x7F, 0, 0, Z8_FLAG_S | Z8_FLAG_V},
    {"05 - 01: Z8_FLAG_D", {0x22, 0x56}, 5, 1, 0, Z8_FLAG_D},
    {"0F + 01: Z8_FLAG_H", {0x02, 0x56}, 0x0F, 1, 0, Z8_FLAG_H},
    {"44 + 11 clears all but Z8_FLAG_F2 and Z8_FLAG_F1",
     {0x02, 0x56}, 0x44, 0x11, 0xFF, Z8_FLAG_F2 | Z8_FLAG_F1},
};

static void check_flag_names(void)
{
    static const uint8_t rotate_flags[] = {0xE4, FLAGS, 0x15, 0xE0, 0x15}; /* LD %15,FLAGS  RR %15 */
    uint8_t m[Z8_SAVED_LEN];
    size_t k;

    for (k = 0; k < sizeof flags_examples / sizeof flags_examples[0]; k++) {
        const struct flags_example *e = &flags_examples[k];

        z8_make_default(m, Z8_SAVED_LEN);
        m[RP] = 0x10;
        m[0x15] = e->dst;
        m[0x16] = e->src;
        m[FLAGS] = e->flags_before;
        steps_of(m, e->bytes, 2, 1, 0xFF);
        check_number(e->flags_after, m[FLAGS], e->words);
    }
    /* F1 is bit 0, which goes into C, and F2 isn't. */
    z8_make_default(m, Z8_SAVED_LEN);
    m[FLAGS] = Z8_FLAG_F1;
    steps_of(m, rotate_flags, sizeof rotate_flags, 2, 0xFF);
    check_number(Z8_FLAG_C, m[FLAGS] & Z8_FLAG_C, "Z8_FLAG_F1 rotated into C");
    z8_make_default(m, Z8_SAVED_LEN);
    m[FLAGS] = Z8_FLAG_F2;
    steps_of(m, rotate_flags, sizeof rotate_flags, 2, 0xFF);
    check_number(0, m[FLAGS] & Z8_FLAG_C, "Z8_FLAG_F2 not");
}

static void check_answer_texts(void)
{
    static const uint32_t others[] = {9, 10, 256, 0x80000000u, 4294967295u};
    const char *other = z8_answer_text(others[0]);
    char length[20];
    uint32_t i, j;

    for (i = 0; i <= 8; i++) {
        check(strlen(z8_answer_text(i)) > 0, "an answer in words");
        check(strcmp(z8_answer_text(i), other) != 0, "an answer's words differ from those of no answer");
        for (j = 0; j < i; j++) {
            check(strcmp(z8_answer_text(i), z8_answer_text(j)) != 0, "two answers have different words");
        }
    }
    for (i = 0; i < sizeof others / sizeof others[0]; i++) {
        check(strcmp(z8_answer_text(others[i]), other) == 0, "all other numbers have one sentence");
    }
    sprintf(length, " %u bytes", Z8_SAVED_LEN);
    check(strstr(z8_answer_text(Z8_REFUSED_LENGTH), length) != NULL, "refusal 7 names the length");
}

int main(void)
{
    check_all_faults();
    check_every_value_of_every_place();
    check_requests_and_ei();
    check_ports();
    check_carried_over();
    check_carried_over_ei();
    check_random_bytes();
    check_every_length();
    check_lengths_that_are_fine();
    check_makings();
    check_resets();
    check_lengths_past_32_bits();
    check_runs_stopped_by_an_opcode();
    check_runs_against_steps();
    check_longest_overrun();
    check_budget_0();
    check_interleaved();
    check_01s_examples();
    check_offsets();
    check_ports_offsets();
    check_p37();
    check_sio();
    check_limits();
    check_refusal_names();
    check_version();
    check_register_names();
    check_flag_names();
    check_answer_texts();
    printf("calls: %lu checks, %lu failed\n", checks, failed);
    return failed != 0;
}
