/* See seen.h. */
#include "seen.h"

#include <stdio.h>
#include <stdlib.h>
#include <string.h>

#include "reference/bytes.h"
#include "reference/machine.h"

/* Register places, by 002. */
enum { SIO = 0xF0, TMR = 0xF1, PRE1 = 0xF3, PRE0 = 0xF5, P3M = 0xF7, P01M = 0xF8, IPR = 0xF9 };
enum { IRQ = 0xFA, IMR = 0xFB, FLAGS = 0xFC, RP = 0xFD, SPH = 0xFE, SPL = 0xFF };

static const char *const kind_names[KINDS] = {
    "grants",
    "reserved orders",
    "refusals 5",
    "edges",
    "edge ends",
    "T0 ends",
    "T1 ends",
    "both end",
    "many ends",
    "single passes",
    "T_OUT flips",
    "gate high",
    "gate low",
    "TMR loads",
    "internal stack",
    "external stack",
    "stack on special",
    "SPL wraps",
    "SP wraps",
    "stack over data memory's beginning",
    "stack over the lent memory's end",
    "data stores",
    "data drops",
    "data loads",
    "data loads outside",
    "program loads",
    "program loads at the image's end",
    "fetches past image",
    "PC wraps",
    "Ex operands",
    "special operands",
    "holes",
    "DA in no row",
    "jumps",
    "FLAGS stored",
    "RP stored",
    "no image",
    "no data",
    "start bits found",
    "edges of P30 in a character",
    "edges of P30 with the port off",
    "false starts",
    "start bits looked at again",
    "bits received",
    "bytes received",
    "parity errors",
    "parities without an error",
    "sends begun",
    "parities put in",
    "sends overwritten",
    "sends begun by a grant",
    "stores to F0 dropped",
    "sends done",
    "requests 3 of the port",
    "requests 4 of the port",
    "bytes received and sent in one step",
    "ends of T0 without a request 4",
    "ends of T0 with the port off and a byte under way",
    "switches on with a byte under way",
    "switches off with a byte under way",
    "many ends of the port",
    "single passes with the port on",
    "edges of P30 before EI",
    "edges of P31 before EI",
    "edges of P32 before EI",
    "edges of P33 before EI",
    "T0 ends before EI",
    "T1 ends before EI",
    "edge ends before EI",
    "single passes before EI",
    "T_OUT flips before EI",
    "bytes received before EI",
    "sends done before EI",
    "stores to IRQ dropped",
    "pushes onto IRQ dropped",
    "stores to IRQ kept",
    "stores of bit 7 of IMR before EI",
    "IRETs before EI",
    "first EIs",
    "first EIs with edges in their step",
    "first EIs with a request in their own cycles",
    "DIs with a request standing",
    "runs with ends",
    "runs over their budget",
    "runs stopped by 5",
    "runs stopped at once",
    "runs to a byte received",
    "runs to a byte sent",
    "runs before EI with ends",
    "runs over the first EI",
    "spans to ends of T0",
    "spans to ends of T1",
    "spans without an end",
    "spans over a single pass",
    "spans that flip T_OUT",
    "spans with a closed gate",
    "spans over a false start",
    "spans to a byte received",
    "spans to a byte sent",
    "spans to both",
    "spans with the port off and a byte under way",
    "spans with the port on and nothing under way",
    "spans before EI to ends of T0",
    "spans before EI to ends of T1",
    "spans before EI over a single pass",
    "spans before EI to a byte received",
    "spans before EI to a byte sent",
    "long spans to a byte received",
    "long spans to a byte sent",
    "long spans before EI with ends of both timers",
    "long spans before EI to a byte received or sent",
    "machines refused for requests before EI",
    "machines refused for bit 1 of byte 267",
    "machines refused for bit 2 of byte 267",
    "machines refused for bit 3 of byte 267",
    "machines refused for bit 4 of byte 267",
    "machines refused for bit 5 of byte 267",
    "machines refused for bit 6 of byte 267",
    "machines refused for bit 7 of byte 267",
    "resets of machines after EI",
    "machines before EI passed",
    "machines refused",
    "machines passed",
};

static unsigned long happened[KINDS];

void saw(enum kind kind, int it_happened)
{
    happened[kind] += it_happened != 0;
}

static unsigned word_at(const uint8_t *bytes)
{
    return bytes[0] * 256u + bytes[1];
}

unsigned pc_of(const struct given *g)
{
    return word_at(g->saved + Z8_AT_PC);
}

static unsigned opcode_of(const struct given *g)
{
    return ref_program(g->image, g->image_length, (uint16_t)pc_of(g));
}

/* 02, C-11: "active when P3M bit 6 is set". */
static int port_is_on(const uint8_t *saved)
{
    return (saved[P3M] & 0x40) != 0;
}

/* 02, C-13: "held at zero until the first EI after reset". */
static int requests_are_held(const uint8_t *saved)
{
    return !(saved[Z8_AT_BITS] & Z8_EI_EXECUTED);
}

/* Requests that stand when a grant is decided, less an edge's end of T1. 01: "falling edges on P32, P33, P31,
   P30 latch requests 0, 1, 2, 3"; 02, C-11: 3 "not from P30" while the port is on; C-13: none before EI. */
static unsigned requests_standing(const struct given *g)
{
    unsigned fell = g->saved[Z8_AT_PORT3] & ~g->pins[3] & (port_is_on(g->saved) ? 0x0Eu : 0x0Fu);

    if (requests_are_held(g->saved)) {
        return 0;
    }
    return g->saved[IRQ] | (fell >> 2 & 1) | (fell >> 2 & 2) | (fell << 1 & 4) | (fell << 3 & 8);
}

static int asks_for_grant(const struct given *g)
{
    return (g->saved[IMR] & 0x80) && (requests_standing(g) & g->saved[IMR] & 0x3F);
}

static int order_is_reserved(const struct given *g)
{
    unsigned order = g->saved[IPR] & 0x19u;

    return order == 0 || order == 0x19;
}

static void see_interrupts(const struct given *g)
{
    saw(GRANTS, asks_for_grant(g) && !order_is_reserved(g));
    saw(RESERVED_ORDERS, asks_for_grant(g) && order_is_reserved(g));
}

static unsigned lines_that_fell(const struct given *g)
{
    return g->saved[Z8_AT_PORT3] & ~g->pins[3] & 0x0Fu;
}

/* Where T1's ticks come from: 40, or T_IN's mode. */
static unsigned source_of_t1(const struct given *g)
{
    return (g->saved[PRE1] & 2) ? 0x40 : g->saved[TMR] & 0x30u;
}

static int t1_ends_by_an_edge(const struct given *g)
{
    return (lines_that_fell(g) & 2) && source_of_t1(g) == 0 && (g->saved[TMR] & 8)
           && g->saved[Z8_AT_T1_PRESCALER] == 1 && g->saved[Z8_AT_T1_COUNTER] == 1;
}

static int single_pass_ended(const struct given *g, const struct outcome *after)
{
    return (after->ends0 && !(g->saved[PRE0] & 1)) || (after->ends1 && !(g->saved[PRE1] & 1));
}

static void see_timers(const struct given *g, const struct outcome *after)
{
    unsigned source = source_of_t1(g);
    int t1_counts = g->saved[TMR] & 8;

    saw(EDGES, lines_that_fell(g));
    saw(EDGE_ENDS, t1_ends_by_an_edge(g));
    saw(GATE_HIGH, source == 0x10 && t1_counts && (g->pins[3] & 2));
    saw(GATE_LOW, source == 0x10 && t1_counts && !(g->pins[3] & 2));
    saw(T0_ENDS, after->ends0);
    saw(T1_ENDS, after->ends1);
    saw(BOTH_END, after->ends0 && after->ends1);
    saw(MANY_ENDS, after->ends0 > 1 || after->ends1 > 1);
    saw(SINGLE_PASSES, single_pass_ended(g, after));
    saw(T_OUT_FLIPS, after->saved[Z8_AT_T_OUT] != g->saved[Z8_AT_T_OUT]);
}

static int is_stack_instruction(unsigned opcode)
{
    return opcode == 0x50 || opcode == 0x51 || opcode == 0x70 || opcode == 0x71 || opcode == 0xAF
           || opcode == 0xBF || opcode == 0xD4 || opcode == 0xD6;
}

static int uses_stack(const struct given *g)
{
    return is_stack_instruction(opcode_of(g)) || (asks_for_grant(g) && !order_is_reserved(g));
}

static int stack_is_internal(const struct given *g)
{
    return (g->saved[P01M] & 4) != 0;
}

/* 01: "Data addresses under 2,048 (type 1) or 4,096 (type 11)". */
static unsigned data_start(const struct given *g)
{
    return g->saved[Z8_AT_TYPE] == 1 ? 2048 : 4096;
}

/* Bytes pushed or popped on both sides of an edge of data memory. */
static void see_stack_in_data(const struct given *g, unsigned before, unsigned after)
{
    unsigned low = before < after ? before : after, high = before < after ? after : before;

    if (high - low > 3) {
        return;
    }
    saw(STACK_OVER_DATA_START, low < data_start(g) && data_start(g) < high && high <= g->data_length);
    saw(STACK_OVER_LENT_END, data_start(g) <= low && low < g->data_length && g->data_length < high);
}

static void see_stack(const struct given *g, const struct outcome *after)
{
    int low_moved_far = abs(after->saved[SPL] - g->saved[SPL]) > 128;
    int high_moved_far = abs(after->saved[SPH] - g->saved[SPH]) > 128;

    if (!uses_stack(g)) {
        return;
    }
    saw(INTERNAL_STACK, stack_is_internal(g));
    saw(EXTERNAL_STACK, !stack_is_internal(g));
    saw(STACK_ON_SPECIAL, stack_is_internal(g) && (g->saved[SPL] < 4 || g->saved[SPL] >= 0x80));
    saw(SPL_WRAPS, stack_is_internal(g) && low_moved_far);
    saw(SP_WRAPS, !stack_is_internal(g) && high_moved_far);
    if (!stack_is_internal(g)) {
        see_stack_in_data(g, word_at(g->saved + SPH), word_at(after->saved + SPH));
    }
}

static int writes_data_by_instruction(unsigned opcode)
{
    return opcode == 0x92 || opcode == 0x93;
}

/* Where by the papers a store to data memory can happen: LDE, LDEI, and the external stack. */
int can_store_data(const struct given *g)
{
    return writes_data_by_instruction(opcode_of(g))
           || (!stack_is_internal(g) && (is_stack_instruction(opcode_of(g)) || (g->saved[IMR] & 0x80)));
}

/* LDC, LDCI, LDE, LDEI from a memory: the address in a pair of plain registers. */
static void see_loads(const struct given *g)
{
    unsigned opcode = opcode_of(g);
    unsigned operand = ref_program(g->image, g->image_length, (uint16_t)(pc_of(g) + 1));
    unsigned pair = (g->saved[RP] & 0xF0u) + (operand & 0x0E), address;

    if (asks_for_grant(g) || pair < 4 || pair >= 0x80) {
        return;
    }
    address = word_at(g->saved + pair);
    if (opcode == 0x82 || opcode == 0x83) {
        int lent = data_start(g) <= address && address < g->data_length;

        saw(DATA_LOADS, lent);
        saw(DATA_LOADS_OUTSIDE, !lent);
    }
    if (opcode == 0xC2 || opcode == 0xC3) {
        saw(PROGRAM_LOADS, address < g->image_length);
        saw(PROGRAM_LOADS_AT_END, address == g->image_length || address + 1 == g->image_length);
    }
}

static void see_data(const struct given *g, const struct outcome *after)
{
    int stored = can_store_data(g) && g->data_length > 0 && memcmp(g->data, after->data, g->data_length) != 0;

    saw(DATA_STORES, stored);
    saw(DATA_DROPS, writes_data_by_instruction(opcode_of(g)) && !asks_for_grant(g) && !stored);
    saw(NO_IMAGE, g->image == NULL);
    saw(NO_DATA, g->data_length == 0);
}

static void see_instruction(const struct given *g, const struct outcome *after)
{
    unsigned pc = pc_of(g), opcode = opcode_of(g);
    unsigned length = (unsigned)ref_length((int)opcode);
    unsigned operand = ref_program(g->image, g->image_length, (uint16_t)(pc + 1));

    if (asks_for_grant(g)) {
        return;
    }
    saw(REFUSALS_5, after->answer == 5);
    saw(PAST_IMAGE, pc + length > g->image_length);
    saw(PC_WRAPS, pc + length > 0xFFFF);
    saw(EX_OPERANDS, length > 1 && operand / 16 == 0xE);
    saw(SPECIAL_OPERANDS, length > 1 && (operand < 4 || operand > 0xF0));
    saw(HOLES, length > 1 && operand >= 0x80 && operand <= 0xF0 && operand / 16 != 0xE);
    saw(DA_IN_NO_ROW, opcode == 0x40 && operand > 3 && operand < 0x80
                          && g->saved[operand] == after->saved[operand] && g->saved[operand] % 16 > 9);
    saw(LOADS,
        opcode == 0xE6 && operand == TMR && (ref_program(g->image, g->image_length, (uint16_t)(pc + 2)) & 5));
    saw(JUMPS, after->answer == 0 && word_at(after->saved + Z8_AT_PC) != (pc + length) % 65536);
    saw(FLAGS_STORED, opcode != 0xBF && (g->saved[FLAGS] & 3) != (after->saved[FLAGS] & 3));
    saw(RP_STORED, g->saved[RP] != after->saved[RP]);
}

/* ---- The serial port ---- */

/* The receiver goes back to waiting from a data bit by a byte received alone, and from the start bit's
   middle, in less than 136 ends, by a false start alone. */
static int byte_received(const uint8_t *before, const uint8_t *after)
{
    return before[Z8_AT_RECEIVER_AWAITS] > 1 && after[Z8_AT_RECEIVER_AWAITS] < before[Z8_AT_RECEIVER_AWAITS];
}

/* Nothing else brings P37 back to nothing. */
static int byte_sent(const uint8_t *before, const uint8_t *after)
{
    return before[Z8_AT_SENDER_PLACE] > 0 && after[Z8_AT_SENDER_PLACE] == 0;
}

static int under_way(const uint8_t *saved)
{
    return saved[Z8_AT_RECEIVER_AWAITS] > 0 || saved[Z8_AT_SENDER_PLACE] > 0;
}

static int request_is_new(const uint8_t *before, const uint8_t *after, int request)
{
    return !(before[IRQ] >> request & 1) && (after[IRQ] >> request & 1);
}

static void see_receiver(const struct given *g, const struct outcome *after)
{
    unsigned before = g->saved[Z8_AT_RECEIVER_AWAITS], now = after->saved[Z8_AT_RECEIVER_AWAITS];
    int fell = (g->saved[Z8_AT_PORT3] & ~g->pins[3] & 1) != 0, parity = after->saved[P3M] & 0x80;
    int received = byte_received(g->saved, after->saved);

    saw(START_EDGES, fell && port_is_on(g->saved) && before == 0 && now == 1);
    saw(EDGES_IN_CHARACTERS, fell && port_is_on(g->saved) && before > 0);
    saw(P30_REQUESTS, fell && !port_is_on(g->saved));
    saw(FALSE_STARTS, before == 1 && now == 0);
    saw(START_BITS, before == 1 && now == 2);
    saw(DATA_BITS, before > 1 && now > before);
    saw(RECEPTIONS, received);
    saw(PARITY_ERRORS, received && parity && (after->saved[Z8_AT_RECEIVED] & 0x80));
    saw(PARITY_FINE, received && parity && !(after->saved[Z8_AT_RECEIVED] & 0x80));
    saw(PORT_REQUESTS_3, received && request_is_new(g->saved, after->saved, 3));
}

/* Nothing but a store brings the start bit onto P37. */
static void see_sender(const struct given *g, const struct outcome *after)
{
    unsigned before = g->saved[Z8_AT_SENDER_PLACE], now = after->saved[Z8_AT_SENDER_PLACE], pc = pc_of(g);
    int stores = !asks_for_grant(g) && opcode_of(g) == 0xE6
                 && ref_program(g->image, g->image_length, (uint16_t)(pc + 1)) == SIO;
    unsigned byte = ref_program(g->image, g->image_length, (uint16_t)(pc + 2));

    saw(SENDS_BEGUN, before == 0 && now == 1);
    saw(SENDS_OVERWRITTEN, before > 1 && now == 1);
    saw(SENDS_BY_GRANT, before != 1 && now == 1 && asks_for_grant(g));
    saw(PARITY_PUT_IN, stores && now == 1 && before != 1 && after->saved[Z8_AT_SENDER_BITS] != byte);
    saw(SIO_DROPS, stores && !port_is_on(g->saved));
    saw(SENDS_DONE, byte_sent(g->saved, after->saved));
    saw(PORT_REQUESTS_4, byte_sent(g->saved, after->saved) && request_is_new(g->saved, after->saved, 4));
}

/* On or off before and after, as a step may switch. */
static void see_port(const struct given *g, const struct outcome *after)
{
    int on = port_is_on(g->saved) && port_is_on(after->saved);
    int off = !port_is_on(g->saved) && !port_is_on(after->saved);

    see_receiver(g, after);
    see_sender(g, after);
    saw(BOTH_DONE, byte_received(g->saved, after->saved) && byte_sent(g->saved, after->saved));
    saw(ENDS_ASK_NOTHING, on && after->ends0 > 0 && !(after->saved[IRQ] & 0x10));
    saw(PORT_RESTS, off && after->ends0 > 0 && under_way(g->saved));
    saw(SWITCHES_ON, !port_is_on(g->saved) && port_is_on(after->saved) && under_way(g->saved));
    saw(SWITCHES_OFF, port_is_on(g->saved) && !port_is_on(after->saved) && under_way(g->saved));
    saw(MANY_PORT_ENDS, on && after->ends0 > 1 && under_way(g->saved));
    saw(PORT_SINGLE_PASSES, on && after->ends0 > 0 && !(g->saved[PRE0] & 1) && under_way(g->saved));
}

/* ---- The request register before the first EI, and after ---- */

/* LD IRQ,#.. or OR IRQ,#.. of a request. */
static int stores_a_request(const struct given *g)
{
    unsigned pc = pc_of(g), opcode = opcode_of(g);

    return (opcode == 0xE6 || opcode == 0x46)
           && ref_program(g->image, g->image_length, (uint16_t)(pc + 1)) == IRQ
           && (ref_program(g->image, g->image_length, (uint16_t)(pc + 2)) & 0x3F);
}

/* PUSH and CALL with the internal stack: whether a byte comes to lie on IRQ. */
static int pushes_onto_irq(const struct given *g)
{
    unsigned opcode = opcode_of(g), row = opcode & 0xFEu;
    unsigned bytes = row == 0x70 ? 1 : opcode == 0xD4 || opcode == 0xD6 ? 2 : 0;
    unsigned below = (g->saved[SPL] + 256u - IRQ) % 256; /* how far IRQ is below the stack pointer */

    return stack_is_internal(g) && 1 <= below && below <= bytes;
}

/* A step that was not refused, from a machine before EI to one before EI. */
static void see_held(const struct given *g, const struct outcome *after)
{
    unsigned fell = lines_that_fell(g), opcode = opcode_of(g);
    int master_is_new = !(g->saved[IMR] & 0x80) && (after->saved[IMR] & 0x80);

    saw(HELD_EDGES_P30, (fell & 1) && !port_is_on(g->saved));
    saw(HELD_EDGES_P31, fell & 2);
    saw(HELD_EDGES_P32, fell & 4);
    saw(HELD_EDGES_P33, fell & 8);
    saw(HELD_T0_ENDS, after->ends0 && !port_is_on(after->saved));
    saw(HELD_T1_ENDS, after->ends1 && !t1_ends_by_an_edge(g));
    saw(HELD_EDGE_ENDS, t1_ends_by_an_edge(g));
    saw(HELD_SINGLE_PASSES, single_pass_ended(g, after));
    saw(HELD_T_OUT_FLIPS, after->saved[Z8_AT_T_OUT] != g->saved[Z8_AT_T_OUT]);
    saw(HELD_RECEPTIONS, byte_received(g->saved, after->saved));
    saw(HELD_SENDS_DONE, byte_sent(g->saved, after->saved));
    saw(IRQ_DROPS, stores_a_request(g));
    saw(IRQ_DROPS_BY_STACK, pushes_onto_irq(g));
    saw(HELD_MASTER_STORES, master_is_new && opcode != 0xBF);
    saw(HELD_IRETS, opcode == 0xBF && master_is_new);
}

static void see_requests(const struct given *g, const struct outcome *after)
{
    if (after->answer != 0) {
        return;
    }
    if (!requests_are_held(g->saved)) {
        saw(IRQ_STORES, !asks_for_grant(g) && stores_a_request(g));
        saw(RELEASED_DIS, !asks_for_grant(g) && opcode_of(g) == 0x8F && after->saved[IRQ]);
    } else if (requests_are_held(after->saved)) {
        see_held(g, after);
    } else {
        saw(RELEASES, 1);
        saw(RELEASES_WITH_EDGES, lines_that_fell(g));
        saw(RELEASES_WITH_ENDS, after->saved[IRQ]);
    }
}

void see_step(const struct given *g, const struct outcome *after)
{
    see_requests(g, after);
    see_interrupts(g);
    see_timers(g, after);
    see_stack(g, after);
    see_data(g, after);
    see_loads(g);
    see_instruction(g, after);
    see_port(g, after);
}

void see_run(const struct given *g, const struct outcome *after)
{
    int held = requests_are_held(g->saved), still_held = requests_are_held(after->saved);

    saw(HELD_RUN_ENDS, held && still_held && after->ends0 + after->ends1 > 0);
    saw(RUN_RELEASES, held && !still_held);
    saw(RUN_ENDS, after->ends0 > 0 && after->ends1 > 0 && after->ends0 != after->ends1);
    saw(RUNS_OVER, after->answer == 0 && after->cycles > g->amount);
    saw(RUNS_STOPPED, after->answer == 5 && after->cycles > 0);
    saw(RUNS_STOPPED_AT_ONCE, after->answer == 5 && after->cycles == 0);
    saw(RUN_RECEPTIONS, byte_received(g->saved, after->saved));
    saw(RUN_SENDS, byte_sent(g->saved, after->saved));
}

void see_span(const struct given *g, const struct outcome *after)
{
    int gated = !(g->saved[PRE1] & 2) && (g->saved[TMR] & 0x30) == 0x10 && (g->saved[TMR] & 8);
    int held = requests_are_held(g->saved);

    saw(HELD_SPAN_T0_ENDS, held && after->ends0 > 0 && !port_is_on(g->saved));
    saw(HELD_SPAN_T1_ENDS, held && after->ends1 > 0);
    saw(HELD_SPAN_SINGLE_PASSES, held && single_pass_ended(g, after));
    saw(HELD_SPAN_RECEPTIONS, held && byte_received(g->saved, after->saved));
    saw(HELD_SPAN_SENDS, held && byte_sent(g->saved, after->saved));
    saw(SPAN_T0_ENDS, after->ends0 > 0);
    saw(SPAN_T1_ENDS, after->ends1 > 0);
    saw(SPANS_WITHOUT_END, after->ends0 + after->ends1 == 0);
    saw(SPAN_SINGLE_PASSES, single_pass_ended(g, after));
    saw(SPAN_T_OUT_FLIPS, after->saved[Z8_AT_T_OUT] != g->saved[Z8_AT_T_OUT]);
    saw(SPANS_GATED, gated && !(g->saved[Z8_AT_PORT3] & 2));
    saw(SPAN_FALSE_STARTS, g->saved[Z8_AT_RECEIVER_AWAITS] == 1 && after->saved[Z8_AT_RECEIVER_AWAITS] == 0
                               && (g->saved[Z8_AT_PORT3] & 1));
    saw(SPAN_RECEPTIONS, byte_received(g->saved, after->saved));
    saw(SPAN_SENDS, byte_sent(g->saved, after->saved));
    saw(SPAN_BOTH_DONE, byte_received(g->saved, after->saved) && byte_sent(g->saved, after->saved));
    saw(SPAN_PORT_RESTS, !port_is_on(g->saved) && after->ends0 > 0 && under_way(g->saved));
    saw(SPAN_PORT_IDLE, port_is_on(g->saved) && after->ends0 > 0 && !under_way(g->saved));
}

void see_long_span(const struct given *g, const struct outcome *after)
{
    int held = requests_are_held(g->saved);

    saw(HELD_LONG_ENDS, held && after->ends0 > 0 && after->ends1 > 0);
    saw(HELD_LONG_PORT,
        held && (byte_received(g->saved, after->saved) || byte_sent(g->saved, after->saved)));
    saw(LONG_RECEPTIONS, byte_received(g->saved, after->saved) && request_is_new(g->saved, after->saved, 3));
    saw(LONG_SENDS, byte_sent(g->saved, after->saved) && request_is_new(g->saved, after->saved, 4));
}

/* Whether these bytes would be a legal machine with this byte 267 and this IRQ. */
static int legal_with(const struct given *g, unsigned bits, unsigned irq)
{
    uint8_t saved[Z8_SAVED_LEN];

    memcpy(saved, g->saved, Z8_SAVED_LEN);
    saved[Z8_AT_BITS] = (uint8_t)bits;
    saved[IRQ] = (uint8_t)irq;
    return ref_check(saved, Z8_SAVED_LEN) == 0;
}

void see_check(const struct given *g, const struct outcome *after)
{
    unsigned bits = g->saved[Z8_AT_BITS], irq = g->saved[IRQ], bit;

    saw(MACHINES_REFUSED, after->answer == 6);
    saw(MACHINES_PASSED, after->answer == 0);
    saw(HELD_MACHINES_PASSED, after->answer == 0 && requests_are_held(g->saved));
    saw(HELD_REQUESTS_REFUSED,
        after->answer == 6 && bits == 0 && legal_with(g, bits, 0) && legal_with(g, Z8_EI_EXECUTED, irq));
    for (bit = 1; bit < 8; bit++) {
        saw((enum kind)(BITS_REFUSED_1 + bit - 1),
            after->answer == 6 && (bits & ~Z8_EI_EXECUTED) == 1u << bit
                && legal_with(g, bits & Z8_EI_EXECUTED, irq));
    }
}

void see_reset(const struct given *g, const struct outcome *after)
{
    saw(RELEASED_RESETS, after->answer == 0 && !requests_are_held(g->saved));
}

void tell_what_happened(void)
{
    int kind;

    printf("compare: of what was drawn:");
    for (kind = 0; kind < KINDS; kind++) {
        printf("%s %lu %s", kind == 0 ? "" : ",", happened[kind], kind_names[kind]);
    }
    printf("\n");
}

int has_happened(enum kind kind)
{
    if (happened[kind] == 0) {
        printf("NEVER HAPPENED: %s\n", kind_names[kind]);
    }
    return happened[kind] != 0;
}
