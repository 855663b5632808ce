/* The serial port: the library beside the reference in every byte, at every end of T0 or every step, through
   all that chapter 12 of the manual (004) tells and C-11 decides, gone through whole. Beside that comparison
   each part checks by itself what 02, the manual or a decided point says of it: the bits on P37, the byte
   received, at which end a request comes. */
#include <stdio.h>
#include <stdlib.h>
#include <string.h>

#include "../include/z8.h"
#include "both.h"
#include "draw.h"
#include "reference/bytes.h"
#include "reference/machine.h"
#include "report.h"

/* Register places, by 002. */
enum { P3 = 0x03, SIO = 0xF0, TMR = 0xF1, T0 = 0xF4, PRE0 = 0xF5, P3M = 0xF7, P01M = 0xF8 };
enum { IPR = 0xF9, IRQ = 0xFA, IMR = 0xFB, FLAGS = 0xFC, RP = 0xFD, SPL = 0xFF };

/* 002, R247, and 02: "active when P3M bit 6 is set", "odd parity by P3M bit 7". */
enum { OFF = 0x00, ON = 0x40, PARITY = 0x80 };

/* 02: "bit time is 16 ends of T0". Of eleven bits that makes 176, and from the start edge to the middle of
   the eighth data bit 8 + 8 x 16. */
enum { BIT = 16, HALF_A_BIT = 8, SEND = 176, RECEPTION = 136 };

enum { LOW = 0xFE, HIGH = 0xFF }; /* pins of Port 3 */
enum { REQUEST_3 = 0x08, REQUEST_4 = 0x10 };

static unsigned long checks, failed;

/* After so many the rest tells no more. */
#define FAILURES_TOLD 3ul

static void note(int passed)
{
    checks++;
    if (!passed) {
        failed++;
        if (failed >= FAILURES_TOLD) {
            printf("serial: %lu checks, %lu failed, and stopped there\n", checks, failed);
            exit(1);
        }
    }
}

/* ---- The machine under test ---- */

static struct given g;          /* as it stands */
static struct outcome expected; /* what the reference left at the last call */
static uint8_t image[32];       /* an instruction to execute, and NOPs */
static unsigned long ends;      /* T0's since they were last set to 0 */

static void check(unsigned long wanted, unsigned long found, const char *what)
{
    note(wanted == found);
    if (wanted != found) {
        printf("FAILED: %s, %s: expected %lu (%lX), found %lu (%lX), after %lu ends of T0, case %lu\n",
               g.call, what, wanted, wanted, found, found, ends, g.number);
    }
}

static void take_over(void)
{
    memcpy(g.saved, expected.saved, Z8_SAVED_LEN);
    ends += expected.ends0;
}

/* As after reset and an EI, so that requests are latched, with the port so, T0 repeating with these P and N,
   fresh from a load, and P30 high. */
static void begin(const char *call, unsigned p3m, unsigned p, unsigned n)
{
    struct ref_machine m;

    memset(&g, 0, sizeof g);
    g.call = call;
    ref_make(&m, 11, 20);
    ref_save(&m, g.saved);
    release_requests(g.saved);
    g.saved[P3M] = (uint8_t)p3m;
    g.saved[PRE0] = (uint8_t)(p * 4 + 1);
    g.saved[T0] = (uint8_t)n;
    g.saved[TMR] = 0x02;
    g.saved[Z8_AT_T0_PRESCALER] = (uint8_t)p;
    g.saved[Z8_AT_T0_COUNTER] = (uint8_t)n;
    g.saved[SPL] = 0x70;
    g.image = image;
    g.image_length = sizeof image;
    memset(g.pins, 0xFF, 4);
    memset(image, 0xFF, sizeof image);
    ends = 0;
}

static void span(uint32_t cycles)
{
    g.amount = cycles;
    note(agree(&g, span_of_reference, span_of_library, 0, &expected));
    take_over();
}

static void step(unsigned pins3)
{
    g.pins[3] = (uint8_t)pins3;
    note(agree(&g, step_of_reference, step_of_library, 0, &expected));
    take_over();
}

static void run(uint32_t budget, unsigned pins3)
{
    g.amount = budget;
    g.pins[3] = (uint8_t)pins3;
    note(agree(&g, run_of_reference, run_of_library, 0, &expected));
    take_over();
}

/* A step of that instruction. */
static void execute(unsigned opcode, unsigned first, unsigned second, unsigned pins3)
{
    image[0] = (uint8_t)opcode;
    image[1] = (uint8_t)first;
    image[2] = (uint8_t)second;
    g.saved[Z8_AT_PC] = g.saved[Z8_AT_PC + 1] = 0;
    step(pins3);
}

static void nop(unsigned pins3)
{
    execute(0xFF, 0xFF, 0xFF, pins3);
}

static void send(unsigned byte, unsigned pins3)
{
    execute(0xE6, SIO, byte, pins3); /* LD SIO,#byte */
}

static void set_p3m(unsigned p3m, unsigned pins3)
{
    execute(0xE6, P3M, p3m, pins3); /* LD P3M,#p3m */
}

/* ---- What is on a line, told from the byte ---- */

static unsigned odd_ones(unsigned byte)
{
    unsigned ones = 0;

    for (; byte != 0; byte /= 2) {
        ones += byte % 2;
    }
    return ones % 2;
}

/* C-11: "bit 7 replaced so that the eight bits have an odd number of ones". */
static unsigned as_sent(unsigned byte, unsigned p3m)
{
    if (!(p3m & PARITY)) {
        return byte;
    }
    return odd_ones(byte % 128) ? byte % 128 : byte % 128 + 128;
}

/* C-11: "bit 7 becomes 1 where the eight bits had an even number of ones [...], else 0". */
static unsigned as_received(unsigned bits, unsigned p3m)
{
    if (!(p3m & PARITY)) {
        return bits;
    }
    return bits % 128 + (odd_ones(bits) ? 0 : 128);
}

/* The level of a line so many ends of T0 after a character of these bits began on it. */
static unsigned level(unsigned bits, unsigned long since)
{
    unsigned long place = since / BIT;

    if (place == 0) {
        return 0;
    }
    return place <= 8 ? bits >> (place - 1) & 1 : 1;
}

static unsigned pins_of_level(unsigned is_high)
{
    return is_high ? HIGH : LOW;
}

static unsigned request(unsigned mask)
{
    return (g.saved[IRQ] & mask) != 0;
}

/* ---- All 256 bytes ---- */

/* End by end, with T0 at every fourth cycle; the ends of the store's own cycles are the send's already. */
static void check_send(unsigned byte, unsigned p3m)
{
    begin("a byte sent, by spans of one end", p3m, 1, 1);
    g.number = p3m * 256ul + byte;
    send(byte, HIGH);
    while (ends < SEND) {
        check(level(as_sent(byte, p3m), ends), z8_p37(g.saved), "the level on P37");
        check(0, g.saved[IRQ], "no request yet");
        span(4);
    }
    check(REQUEST_4, g.saved[IRQ], "request 4 with the 176th end");
    check(1, z8_p37(g.saved), "P37 is high again");
    span(4 * BIT);
    check(REQUEST_4, g.saved[IRQ], "and no other");
}

/* NOP by NOP, an end at every eighth cycle, the line as the sender has it. */
static void check_reception(unsigned bits, unsigned p3m)
{
    begin("a byte received, by steps", p3m, 2, 1);
    g.number = p3m * 256ul + bits;
    g.saved[Z8_AT_RECEIVED] = 0x3C;
    nop(HIGH);
    ends = 0;
    while (ends < RECEPTION) {
        check(0, g.saved[IRQ], "no request yet");
        check(0x3C, g.saved[Z8_AT_RECEIVED], "the byte before it");
        nop(pins_of_level(level(bits, ends)));
    }
    check(REQUEST_3, g.saved[IRQ], "request 3 with the 136th end");
    check(as_received(bits, p3m), g.saved[Z8_AT_RECEIVED], "the byte received");
    execute(0xE4, SIO, 0x41, HIGH); /* LD %41,SIO */
    check(as_received(bits, p3m), g.saved[0x41], "what F0 reads");
    check(as_received(bits, p3m), g.saved[Z8_AT_RECEIVED], "reading clears nothing");
}

/* P37 wired to P30, by runs of an eighth of a bit. What is sent with parity is received without an error. */
static void check_loop(unsigned byte, unsigned p3m)
{
    unsigned received = p3m & PARITY ? byte % 128 : byte;

    begin("a byte sent to itself, by runs", p3m, 3, 1);
    g.number = p3m * 256ul + byte;
    g.saved[Z8_AT_RECEIVED] = (uint8_t)~received;
    send(byte, HIGH);
    while (ends < SEND + BIT) {
        run(2 * 12, pins_of_level(z8_p37(g.saved)));
    }
    check(received, g.saved[Z8_AT_RECEIVED], "the byte received");
    check(REQUEST_3 | REQUEST_4, g.saved[IRQ], "both requests");
}

/* The same before the first EI: no request is latched, and the port moves as ever. */
static void check_loop_before_ei(unsigned byte, unsigned p3m)
{
    unsigned received = p3m & PARITY ? byte % 128 : byte;

    begin("a byte sent to itself before EI, by runs", p3m, 3, 1);
    g.number = p3m * 256ul + byte;
    hold_requests(g.saved);
    g.saved[Z8_AT_RECEIVED] = (uint8_t)~received;
    send(byte, HIGH);
    while (ends < SEND) {
        check(level(as_sent(byte, p3m), ends), z8_p37(g.saved), "the level on P37");
        run(2 * 12, pins_of_level(z8_p37(g.saved)));
        check(0, g.saved[IRQ], "no request");
    }
    check(received, g.saved[Z8_AT_RECEIVED], "the byte received");
    check(0, g.saved[Z8_AT_SENDER_PLACE], "the byte sent");
    execute(0x9F, 0xFF, 0xFF, HIGH); /* EI */
    check(0, g.saved[IRQ], "what was not latched doesn't come with EI");
}

/* The last end of a send, or of a reception, at each of the cycles from before EI to after it: latched are
   those that come within EI's own six or later. The end is so many cycles after the NOP before EI begins. */
static void check_last_end_about_ei(unsigned cycles, int receives)
{
    begin("the last end of a character about EI", ON, 1, 100);
    g.number = cycles * 10ul + (unsigned)receives;
    hold_requests(g.saved);
    g.saved[Z8_AT_DIVIDER] = (uint8_t)((4 - cycles % 4) % 4);
    g.saved[Z8_AT_T0_COUNTER] = (uint8_t)((cycles + 3) / 4);
    g.saved[receives ? Z8_AT_RECEIVER_AWAITS : Z8_AT_SENDER_PLACE] = receives ? 9 : 11;
    g.saved[receives ? Z8_AT_RECEIVER_ENDS : Z8_AT_SENDER_ENDS] = BIT - 1;
    nop(HIGH);
    execute(0x9F, 0xFF, 0xFF, HIGH); /* EI */
    nop(HIGH);
    check(1, ends, "one end in these 18 cycles");
    check(0, g.saved[receives ? Z8_AT_RECEIVER_AWAITS : Z8_AT_SENDER_PLACE], "the character is done");
    check(cycles <= 6 ? 0 : receives ? REQUEST_3 : REQUEST_4, g.saved[IRQ], "its request");
}

static void check_before_ei(void)
{
    unsigned byte, cycles;

    for (byte = 0; byte < 256; byte++) {
        check_loop_before_ei(byte, ON);
        check_loop_before_ei(byte, ON | PARITY);
    }
    for (cycles = 1; cycles <= 18; cycles++) {
        check_last_end_about_ei(cycles, 0);
        check_last_end_about_ei(cycles, 1);
    }
}

static void check_all_bytes(void)
{
    unsigned byte;

    for (byte = 0; byte < 256; byte++) {
        check_send(byte, ON);
        check_send(byte, ON | PARITY);
        check_reception(byte, ON);
        check_reception(byte, ON | PARITY);
        check_loop(byte, ON);
        check_loop(byte, ON | PARITY);
    }
}

/* ---- Every phase of T0 and of the divider ---- */

static void set_phase(unsigned divider, unsigned prescaler, unsigned counter)
{
    g.number = divider + 4ul * (prescaler + 256ul * counter);
    g.saved[Z8_AT_DIVIDER] = (uint8_t)divider;
    g.saved[Z8_AT_T0_PRESCALER] = (uint8_t)prescaler;
    g.saved[Z8_AT_T0_COUNTER] = (uint8_t)counter;
}

/* A send and a reception begun in that phase: the store by 6 and by 10 cycles, the edge in a NOP. */
static void check_phase(unsigned p, unsigned n, unsigned divider, unsigned prescaler, unsigned counter)
{
    const unsigned bits = 0xA6;
    unsigned quick;

    for (quick = 0; quick < 2; quick++) {
        begin("a send begun in a phase of T0", ON, p, n);
        set_phase(divider, prescaler, counter);
        g.saved[RP] = 0xF0;
        if (quick) {
            execute(0x0C, bits, 0, HIGH); /* LD R0,#.., which is SIO */
        } else {
            send(bits, HIGH);
        }
        check(quick ? 6 : 10, expected.cycles, "the store's cycles");
        while (ends < SEND) {
            check(0, request(REQUEST_4), "no request yet");
            check(level(bits, ends), z8_p37(g.saved), "the level on P37");
            nop(HIGH);
        }
        check(1, request(REQUEST_4), "request 4 with the 176th end");
    }

    begin("a reception begun in a phase of T0", ON, p, n);
    set_phase(divider, prescaler, counter);
    while (ends < RECEPTION) {
        check(0, request(REQUEST_3), "no request yet");
        nop(pins_of_level(level(bits, ends)));
    }
    check(1, request(REQUEST_3), "request 3 with the 136th end");
    check(bits, g.saved[Z8_AT_RECEIVED], "the byte received");
}

static void check_phases_of(unsigned p, unsigned n)
{
    unsigned divider, prescaler, counter;

    for (divider = 0; divider < 4; divider++) {
        for (prescaler = 1; prescaler <= p; prescaler++) {
            for (counter = 1; counter <= n; counter++) {
                check_phase(p, n, divider, prescaler, counter);
            }
        }
    }
}

/* An end in each tick, in each second one either way, and phases that the prescaler and the counter share. */
static void check_phases(void)
{
    check_phases_of(1, 1);
    check_phases_of(1, 2);
    check_phases_of(2, 1);
    check_phases_of(3, 2);
    check_phases_of(2, 5);
}

/* ---- The receiver's line ---- */

/* 004, 12.3.1: "Before the shift actually occurs, the input is rechecked". The line is low until so many ends
   have come, so that the 8th end finds it low from 8 on. A false start is no character, and the next edge is
   found. */
static void check_false_start(unsigned low_for, unsigned p3m)
{
    begin("a line low for some ends", p3m, 2, 1);
    g.number = low_for;
    nop(HIGH);
    ends = 0;
    while (ends < HALF_A_BIT) {
        nop(pins_of_level(ends >= low_for));
    }
    check(low_for < HALF_A_BIT ? 0 : 2, g.saved[Z8_AT_RECEIVER_AWAITS], "what the 8th end makes of it");
    while (ends < RECEPTION - 1) {
        nop(HIGH);
    }
    check(0, g.saved[IRQ], "no request yet");
    nop(HIGH);
    nop(HIGH);
    check(low_for < HALF_A_BIT ? 0 : REQUEST_3, g.saved[IRQ], "a request where the start bit was one");
    nop(LOW);
    check(1, g.saved[Z8_AT_RECEIVER_AWAITS], "the next edge is a start bit");
}

/* A line held low is one character of zeros, and then nothing until it falls anew. */
static void check_break(unsigned p3m)
{
    unsigned zeros = as_received(0, p3m);

    begin("a break", p3m, 2, 1);
    g.number = p3m;
    g.saved[Z8_AT_RECEIVED] = 0x11;
    while (ends < RECEPTION) {
        nop(LOW);
    }
    check(REQUEST_3, g.saved[IRQ], "request 3");
    check(zeros, g.saved[Z8_AT_RECEIVED], "eight zeros");
    execute(0xE4, P3, 0x41, LOW); /* LD %41,P3; 004, 12.3.3: "testing P3_0 results in a 0 being read" */
    check(0, g.saved[0x41] & 1u, "what P30 reads");
    g.saved[IRQ] = 0;
    g.saved[Z8_AT_RECEIVED] = 0x11;
    while (ends < 3 * RECEPTION) {
        nop(LOW);
        check(0, g.saved[Z8_AT_RECEIVER_AWAITS], "a line that stays low starts nothing");
    }
    span(4000);
    nop(HIGH);
    check(0, g.saved[Z8_AT_RECEIVER_AWAITS], "a rising line starts nothing");
    nop(LOW);
    check(1, g.saved[Z8_AT_RECEIVER_AWAITS], "a falling one does");
    check(0x11, g.saved[Z8_AT_RECEIVED], "nothing was received in between");
    check(0, g.saved[IRQ], "nor requested");
}

/* A line that changes with every step, four of which are between two ends, so that there are edges all through
   the character, which are data: it comes at the 136th end after the first. It rests before the 8th end alone,
   so that the start bit is one. */
static void check_edges_within(void)
{
    unsigned turn;

    begin("edges all through a character", ON, 3, 2);
    for (turn = 0; ends < RECEPTION; turn++) {
        check(0, g.saved[IRQ], "no request yet");
        nop(turn % 2 == 0 || ends == HALF_A_BIT - 1 ? LOW : HIGH);
    }
    check(REQUEST_3, g.saved[IRQ], "request 3 with the 136th end");
}

/* An edge is found by the first step of a run, and by no span, and not by a step that is refused. */
static void check_where_edges_are_found(void)
{
    static const uint8_t undefined[1] = {0x4F};
    uint8_t before[Z8_SAVED_LEN];

    begin("an edge in a run", ON, 1, 1);
    run(6 * 50, LOW);
    check(1 + (ends >= HALF_A_BIT ? 1 + (ends - HALF_A_BIT) / BIT : 0), g.saved[Z8_AT_RECEIVER_AWAITS],
          "the start bit is as old as the run");

    begin("an edge and a budget of 0", ON, 1, 1);
    memcpy(before, g.saved, Z8_SAVED_LEN);
    run(0, LOW);
    check(0, memcmp(before, g.saved, Z8_SAVED_LEN) != 0, "nothing is found");

    begin("an edge and a refused step", ON, 1, 1);
    memcpy(before, g.saved, Z8_SAVED_LEN);
    g.image = undefined;
    g.image_length = sizeof undefined;
    g.saved[Z8_AT_PC + 1] = before[Z8_AT_PC + 1] = 0;
    g.pins[3] = LOW;
    note(agree(&g, step_of_reference, step_of_library, 0, &expected));
    check(5, expected.answer, "the refusal");
    check(0, memcmp(before, expected.saved, Z8_SAVED_LEN) != 0, "nothing is found");

    begin("an edge between spans", ON, 1, 1);
    g.saved[Z8_AT_PORT3] = LOW;
    span(4000);
    check(0, g.saved[Z8_AT_RECEIVER_AWAITS], "low last pins are no edge");
    nop(LOW);
    check(0, g.saved[Z8_AT_RECEIVER_AWAITS], "and no edge in a step after");
}

/* ---- Stores during a send ---- */

/* C-11: "A store during a send begins anew with the new byte, and no request comes for the lost one." */
static void check_overwritten(unsigned long after, unsigned p3m)
{
    unsigned first = 0x5C, second = 0xC1;

    begin("a send overwritten", p3m, 1, 1);
    g.number = after;
    send(first, HIGH);
    while (ends < after) {
        span(4);
    }
    check(ends >= SEND, request(REQUEST_4), "a request where the first was done");
    g.saved[IRQ] = 0;
    ends = 0;
    send(second, HIGH);
    while (ends < SEND) {
        check(0, g.saved[IRQ], "no request for the lost one");
        check(level(as_sent(second, p3m), ends), z8_p37(g.saved), "the second on P37");
        span(4);
    }
    check(REQUEST_4, g.saved[IRQ], "request 4 for the second");
}

/* 004, 12.4.2: "the user is able to generate a break signal [...] by writing null characters to the
   transmitter buffer [...] at a rate which does not allow the stop bits to be output": here in the last end
   or two before them. */
static void check_break_sent(void)
{
    unsigned turns;

    begin("a break sent", ON, 1, 1);
    for (turns = 0; turns < 12; turns++) {
        ends = 0;
        send(0, HIGH);
        while (ends < 9 * BIT - 2) {
            check(0, z8_p37(g.saved), "P37 stays low");
            check(0, g.saved[IRQ], "and nothing is requested");
            nop(HIGH);
        }
    }
}

static void check_stores_during_sends(void)
{
    unsigned long after;

    for (after = 3; after <= SEND + 4; after++) {
        check_overwritten(after, after % 2 ? ON : ON | PARITY);
    }
    check_break_sent();
}

/* ---- Off and on ---- */

static void port_bytes_stay(const uint8_t before[8])
{
    check(0, memcmp(before, g.saved + Z8_AT_RECEIVED, 8) != 0, "nothing of the port moves");
}

/* Off after so many ends of a send and a reception, for a while with edges of P30 and stores, and on again.
   C-11: "what is under way rests and goes on when it is on again; F0 reads FF and drops stores as in 01;
   requests 3 and 4 come from P30's edge and T0's end as in 01. Switching on sets nothing back and asks for
   nothing." */
static void check_pause(unsigned long after)
{
    const unsigned bits = 0x96, sent = 0x39;
    unsigned long before_pause;
    uint8_t before[8];

    begin("a pause", ON, 2, 1);
    g.number = after;
    send(sent, LOW);
    while (ends < after) {
        nop(pins_of_level(level(bits, ends)));
    }
    before_pause = ends;

    g.saved[IRQ] = 0;
    memcpy(before, g.saved + Z8_AT_RECEIVED, 8);
    set_p3m(OFF, HIGH);
    port_bytes_stay(before);
    check(1, request(REQUEST_4), "T0's end is a request, in the cycles of the switch too");
    g.saved[IRQ] = 0;
    nop(LOW);
    check(1, request(REQUEST_3), "P30's edge is a request");
    execute(0xE4, SIO, 0x41, HIGH); /* LD %41,SIO */
    check(0xFF, g.saved[0x41], "F0 reads FF");
    send(0x77, LOW);
    span(4000);
    nop(pins_of_level(level(bits, before_pause)));
    port_bytes_stay(before);
    g.saved[IRQ] = 0;
    ends = before_pause;
    set_p3m(ON, pins_of_level(level(bits, ends)));

    while (ends < SEND) {
        check(0, request(REQUEST_4), "no request 4 yet");
        check(level(sent, ends), z8_p37(g.saved), "the send goes on");
        check(ends >= RECEPTION && before_pause < RECEPTION, request(REQUEST_3),
              "request 3 with the 136th end");
        nop(pins_of_level(level(bits, ends)));
    }
    check(bits, g.saved[Z8_AT_RECEIVED], "the byte received");
    check(before_pause < SEND, request(REQUEST_4), "request 4 with the 176th end");
}

/* The step that switches, with an edge of P30 at its beginning: P3M as it stands then decides whether it is a
   start bit or a request; P3M as stored decides whose T0's ends are. */
static void check_switching_steps(void)
{
    begin("a step that switches on, with an edge", OFF, 1, 1);
    set_p3m(ON, LOW);
    check(0, g.saved[Z8_AT_RECEIVER_AWAITS], "no start bit");
    check(REQUEST_3, g.saved[IRQ], "request 3 of P30, and none of T0");
    check(1, ends >= 2, "T0 ended in it");

    begin("a step that switches off, with an edge", ON, 1, 1);
    set_p3m(OFF, LOW);
    check(1, g.saved[Z8_AT_RECEIVER_AWAITS], "a start bit");
    check(0, g.saved[Z8_AT_RECEIVER_ENDS], "without an end");
    check(REQUEST_4, g.saved[IRQ], "request 4 of T0, and none of P30");

    begin("a step that switches on, in a send", OFF, 1, 1);
    g.saved[Z8_AT_SENDER_BITS] = 0x5A;
    g.saved[Z8_AT_SENDER_PLACE] = 4;
    g.saved[Z8_AT_SENDER_ENDS] = 3;
    set_p3m(ON, HIGH);
    check(3 + ends, g.saved[Z8_AT_SENDER_ENDS], "the ends of its own cycles count");
    check(0, g.saved[IRQ], "and ask for nothing");
}

/* P3M's other bits do nothing: a send and a reception with each P3M, off and on. */
static void check_every_p3m(void)
{
    unsigned p3m;

    for (p3m = 0; p3m < 256; p3m++) {
        begin("every P3M", p3m, 1, 1);
        g.number = p3m;
        send(0xE3, LOW);
        while (ends < RECEPTION) {
            nop(pins_of_level(level(0x8E, ends)));
        }
        check(p3m & ON ? as_received(0x8E, p3m) : 0, g.saved[Z8_AT_RECEIVED], "the byte received");
        check(p3m & ON ? level(as_sent(0xE3, p3m), ends) : 0, z8_p37(g.saved), "the level on P37");
        execute(0xE6, P3, 0x80, HIGH); /* LD P3,#%80 */
        execute(0xE4, P3, 0x41, LOW);  /* LD %41,P3 */
        check(0x8E, g.saved[0x41], "P3 reads its latch and its pins");
    }
}

/* Parity as it stands at the store, and as it stands at the transfer: changed at every end in between. */
static void check_parity_changed(unsigned long after)
{
    unsigned from;

    for (from = 0; from < 2; from++) {
        unsigned first = from ? ON | PARITY : ON, second = from ? ON : ON | PARITY;

        begin("parity switched within a character", first, 2, 1);
        g.number = after;
        send(0x41, LOW);
        while (ends < after) {
            nop(pins_of_level(level(0x41, ends)));
        }
        set_p3m(second, pins_of_level(level(0x41, ends)));
        check(as_sent(0x41, first), g.saved[Z8_AT_SENDER_BITS], "parity as it stood at the store");
        while (ends < RECEPTION) {
            nop(pins_of_level(level(0x41, ends)));
        }
        check(as_received(0x41, second), g.saved[Z8_AT_RECEIVED], "parity as it stands at the transfer");
    }
}

static void check_switching(void)
{
    unsigned long after;

    for (after = 2; after < SEND + 4; after++) {
        check_pause(after);
    }
    for (after = 2; after < RECEPTION - 2; after += 3) {
        check_parity_changed(after);
    }
    check_switching_steps();
    check_every_p3m();
}

/* ---- Both directions at once ---- */

/* A send and a reception that began so many ends apart. */
static void check_both_ways(unsigned long apart, int send_first)
{
    const unsigned bits = 0x65, sent = 0xD2;
    unsigned long send_at = send_first ? 0 : apart, edge_at = send_first ? apart : 0;
    int sending = 0, receiving = 0;

    begin("both ways at once", ON, 3, 1);
    g.number = apart;
    while (ends < apart + SEND) {
        unsigned line = ends >= edge_at ? level(bits, ends - edge_at) : 1;

        if (!receiving && ends >= edge_at) {
            receiving = 1;
            edge_at = ends;
            line = 0;
        }
        if (!sending && ends >= send_at) {
            sending = 1;
            send_at = ends;
            send(sent, pins_of_level(line));
        } else {
            nop(pins_of_level(line));
        }
        check(sending ? level(sent, ends - send_at) : 1, z8_p37(g.saved), "the level on P37");
        check(receiving && ends >= edge_at + RECEPTION, request(REQUEST_3), "request 3");
        check(sending && ends >= send_at + SEND, request(REQUEST_4), "request 4");
    }
    check(bits, g.saved[Z8_AT_RECEIVED], "the byte received");
}

static void check_full_duplex(void)
{
    unsigned long apart;

    for (apart = 0; apart < SEND + 5; apart += 6) {
        check_both_ways(apart, 0);
        check_both_ways(apart, 1);
    }
    check_both_ways(SEND - RECEPTION, 1); /* both requests with one end */
}

/* ---- A single pass ---- */

/* C-11: "in single pass too (one end, then the bit clock rests)": 176 passes make a send. */
static void check_single_passes(void)
{
    unsigned turns;

    begin("a bit clock of single passes", ON, 1, 2);
    g.saved[PRE0] = 0x04;
    g.saved[TMR] = 0;
    send(0x2B, HIGH);
    check(0, ends, "T0 rests");
    for (turns = 1; turns <= SEND; turns++) {
        check(0, g.saved[IRQ], "no request yet");
        execute(0xE6, TMR, 0x43, HIGH); /* LD TMR,#%43: T0 loaded, counting, at T_OUT */
        span(1000);
        check(turns, ends, "one end");
        check(0x40, g.saved[TMR], "and T0 rests");
        check(0, g.saved[Z8_AT_T_OUT], "T_OUT flipped");
        check(turns % BIT, g.saved[Z8_AT_SENDER_ENDS], "one end of the bit");
    }
    check(REQUEST_4, g.saved[IRQ], "request 4 with the 176th end");
}

/* ---- Every way to store to F0, and to read it ---- */

/* Where F0 can stand: named by its address, as working register 0 (RP F0), where a register points, and under
   the stack pointer. R0 and R1 of group 10, and register 20, point at it. */
#define POINTER 0x20u

static const uint8_t fields[] = {SIO, 0xE0, POINTER, 0x00, 0x11, 0x01, 0x10, SIO + 1};

#define FIELDS (sizeof fields / sizeof fields[0])

static unsigned long stored_by[256], read_by[256], granted_onto, kept_off;

/* Data memory, of which no two pages are alike. */
static struct memory fresh_memory, first_memory;

static void fill_memory(void)
{
    size_t at;

    memset(&fresh_memory, GUARD_BYTE, sizeof fresh_memory);
    for (at = 0; at < MEMORY; at++) {
        fresh_memory.bytes[at] = (uint8_t)(at * 7 + at / 256 * 29);
    }
    found_memory = expected_memory = fresh_memory;
}

/* The machine before one of these instructions. */
static void begin_way(unsigned p3m, unsigned group, unsigned stack, unsigned received)
{
    unsigned at;

    begin("a way to store to F0 or to read it", p3m, 1, 1);
    for (at = 4; at < 0x80; at++) {
        g.saved[at] = (uint8_t)(at * 2 + 1); /* none is zero, none like another */
    }
    g.saved[RP] = (uint8_t)group;
    g.saved[0x10] = g.saved[0x11] = g.saved[POINTER] = SIO;
    g.saved[P01M] = 0x04;
    g.saved[SPL] = (uint8_t)stack;
    g.saved[Z8_AT_RECEIVED] = (uint8_t)received;
    g.saved[FLAGS] = 0x80;
    g.data = fresh_memory.bytes;
    g.data_length = MEMORY;
}

/* LDE and LDEI to data memory: 1 where it was compared and is other than after the first received byte. */
static int memory_told(unsigned opcode, size_t k)
{
    int told;

    if (opcode != 0x92 && opcode != 0x93) {
        return 0;
    }
    check(0, memcmp(&found_memory, &expected_memory, sizeof found_memory) != 0, "data memory");
    if (k == 0) {
        first_memory = expected_memory;
    }
    told = memcmp(&first_memory, &expected_memory, sizeof first_memory) != 0;
    found_memory = expected_memory = fresh_memory;
    return told;
}

/* An outcome but for the received byte itself: where it depends on that byte, F0 was read. */
static int received_byte_told(const struct outcome *one, const struct outcome *other)
{
    return one->answer != other->answer || one->cycles != other->cycles
           || memcmp(one->saved, other->saved, Z8_AT_RECEIVED) != 0
           || memcmp(one->saved + Z8_AT_RECEIVED + 1, other->saved + Z8_AT_RECEIVED + 1, 7) != 0;
}

/* With C set the first two are in rows of DA; the last tells itself where a test asks for a zero. */
static const uint8_t received_bytes[] = {0x2D, 0x12, 0x00};

static void check_way(unsigned p3m, unsigned group, unsigned stack, const uint8_t bytes[3])
{
    struct outcome first;
    int told;
    size_t k;

    for (k = 0; k < sizeof received_bytes; k++) {
        begin_way(p3m, group, stack, received_bytes[k]);
        g.number = bytes[0] * 65536ul + bytes[1] * 256ul + bytes[2];
        execute(bytes[0], bytes[1], bytes[2], HIGH);
        check(0, expected.saved[SIO], "F0's place stays zero");
        if (k == 0) {
            first = expected;
        }
        told = memory_told(bytes[0], k) || received_byte_told(&first, &expected);
        if (p3m & ON) {
            stored_by[bytes[0]] += expected.saved[Z8_AT_SENDER_PLACE] != 0;
            read_by[bytes[0]] += (unsigned long)told;
        } else {
            check(0, (unsigned long)told, "no reading while off");
            check(0, expected.saved[Z8_AT_SENDER_PLACE] != 0 && !(expected.saved[P3M] & ON),
                  "no send while off");
            kept_off++;
        }
    }
}

/* An interrupt's three bytes with each of them on F0. */
static void check_grant_onto_sio(unsigned p3m, unsigned stack)
{
    static const uint8_t pushed[3] = {0x80, 0x00, 0x00}; /* FLAGS, PC high, PC low */
    unsigned top = stack - 3;

    begin_way(p3m, 0x10, stack, 0x8D);
    g.number = stack;
    g.saved[IPR] = 0x08;
    g.saved[IMR] = 0x81;
    g.saved[IRQ] = 0x01;
    nop(HIGH);
    check(20, expected.cycles, "an interrupt's entry");
    if (p3m & ON) {
        check(as_sent(pushed[SIO - top], p3m), g.saved[Z8_AT_SENDER_BITS], "the byte pushed onto F0 is sent");
        check(1, g.saved[Z8_AT_SENDER_PLACE], "from its start bit");
        check(ends, g.saved[Z8_AT_SENDER_ENDS], "the entry's ends count");
        granted_onto++;
    } else {
        check(0, g.saved[Z8_AT_SENDER_PLACE], "or dropped");
    }
}

/* Chapter 5: which opcodes have a register to store to, by the map's rows and columns. PUSH and CALL store by
   the stack; LDCI and LDEI the other way round add one to what their register reads. */
static int can_store(unsigned opcode)
{
    static const uint8_t others[] = {0x70, 0x71, 0xD4, 0xD6, 0x82, 0x83, 0x93, 0xC2, 0xC3, 0xD3,
                                     0xC7, 0xD7, 0xE3, 0xE4, 0xE5, 0xE6, 0xE7, 0xF3, 0xF5};
    unsigned row = opcode / 16, column = opcode % 16;
    size_t k;

    for (k = 0; k < sizeof others; k++) {
        if (opcode == others[k]) {
            return 1;
        }
    }
    if (column <= 1) {
        return row != 0x3 && row != 0x7;
    }
    if (column <= 7) {
        return row <= 0x5 || row == 0xB; /* ADD ADC SUB SBC OR AND XOR */
    }
    /* LD R,r of each row; LD r, DJNZ and INC r of working register 0. */
    return column == 0x9 || (row == 0 && (column == 0x8 || column == 0xA || column == 0xC || column == 0xE));
}

/* And which have a register to read: the two operands' both, one operand's own but for CLR's, POP's and
   SRP's, a pair's, an index, a pointer. POP, RET and IRET read by the stack. */
static int can_read(unsigned opcode)
{
    static const uint8_t others[] = {0xAF, 0xBF, 0xD4, 0xC2, 0x82, 0x83, 0x92, 0x93, 0xC3,
                                     0xD3, 0xC7, 0xD7, 0xE3, 0xE4, 0xE5, 0xE7, 0xF3, 0xF5};
    unsigned row = opcode / 16, column = opcode % 16;
    size_t k;

    for (k = 0; k < sizeof others; k++) {
        if (opcode == others[k]) {
            return 1;
        }
    }
    if (column <= 1) {
        return opcode != 0x31 && opcode != 0xB0;
    }
    if (column <= 7) {
        return row <= 0x7 || row == 0xA || row == 0xB;
    }
    return column == 0x8 || (row == 0 && (column == 0x9 || column == 0xA || column == 0xE));
}

static void check_ways_were_seen(void)
{
    unsigned opcode;

    for (opcode = 0; opcode < 256; opcode++) {
        char what[60];

        if (!ref_defined((int)opcode)) {
            continue;
        }
        g.number = opcode;
        sprintf(what, "stores to F0 by opcode %02X were seen", opcode);
        check((unsigned long)can_store(opcode), stored_by[opcode] > 0, what);
        sprintf(what, "readings of F0 by opcode %02X were seen", opcode);
        check((unsigned long)can_read(opcode), read_by[opcode] > 0, what);
    }
    check(1, granted_onto > 0 && kept_off > 0, "grants onto F0, and stores while off");
}

static void check_every_way(void)
{
    static const uint8_t modes[] = {ON, ON | PARITY, OFF, PARITY};
    static const uint8_t groups[] = {0xF0, 0x10};
    static const uint8_t stacks[] = {SIO - 1, SIO, SIO + 1, SIO + 2, 0x70};
    unsigned opcode, mode, group, first, second, turn = 0;

    fill_memory();
    for (opcode = 0; opcode < 256; opcode++) {
        for (group = 0; group < sizeof groups; group++) {
            for (first = 0; first < FIELDS; first++) {
                for (second = 0; second < FIELDS; second++) {
                    const uint8_t bytes[3] = {(uint8_t)opcode, fields[first], fields[second]};

                    /* The stack in turn, the modes too: every two of them meet. */
                    mode = turn / 5 % 4;
                    check_way(modes[mode], groups[group], stacks[turn % 5], bytes);
                    check_way(modes[0], groups[group], stacks[turn % 5], bytes);
                    turn++;
                }
            }
        }
    }
    for (mode = 0; mode < sizeof modes; mode++) {
        for (first = 1; first <= 3; first++) {
            check_grant_onto_sio(modes[mode], SIO + first);
        }
    }
    check_ways_were_seen();
}

/* LDCI that stores to P3M and then adds one to F0, as the pair's high byte or as R0: 01, "add one to what r,
   then the pair, reads as by then". With RP F0, R4 reads T0's count, which is made to point at P3M, and RR0's
   low byte is TMR; R0 is F0 itself, which points at P3M where the received byte does, and RR2 is T1's count
   and FF. */
static void check_switching_instructions(void)
{
    static const uint8_t modes[] = {ON, ON | PARITY, OFF, PARITY};
    static uint8_t program[MEMORY];
    unsigned from, to;

    for (from = 0; from < sizeof modes; from++) {
        for (to = 0; to < sizeof modes; to++) {
            unsigned before = modes[from], after = modes[to];

            begin("LDCI switches and then counts RR0", before, 1, 1);
            g.number = from * 4 + to;
            g.saved[RP] = 0xF0;
            g.saved[TMR] = 0x20;
            g.saved[Z8_AT_T0_COUNTER] = P3M;
            program[0x0020] = program[0xFF20] = (uint8_t)after; /* F0 reads 00 while on, else FF */
            program[0] = 0xC3;
            program[1] = 0x40; /* LDCI @R4,@RR0 */
            g.image = program;
            g.image_length = MEMORY;
            g.saved[Z8_AT_PC + 1] = 0;
            step(HIGH);
            check(after, g.saved[P3M], "the store");
            check(after & ON ? 1 : 0, g.saved[Z8_AT_SENDER_PLACE], "F0 as by then");
            check(after & ON ? as_sent(0x00, after) : 0xFF, g.saved[Z8_AT_SENDER_BITS],
                  "what it read, and one more");

            begin("LDCI switches and then counts R0", before | ON, 1, 1);
            g.number = from * 4 + to;
            g.saved[RP] = 0xF0;
            g.saved[Z8_AT_RECEIVED] = P3M;
            g.saved[Z8_AT_T1_COUNTER] = 0x31;
            program[0x31FF] = (uint8_t)after;
            program[1] = 0x02; /* LDCI @R0,@RR2 */
            g.image = program;
            g.image_length = MEMORY;
            g.saved[Z8_AT_PC + 1] = 0;
            step(HIGH);
            check(after, g.saved[P3M], "the store");
            check(after & ON ? 1 : 0, g.saved[Z8_AT_SENDER_PLACE], "F0 as by then");
            check(after & ON ? as_sent(P3M + 1, after) : 0xFF, g.saved[Z8_AT_SENDER_BITS],
                  "what it read, and one more");
        }
    }
}

/* ---- Every state ---- */

struct half {
    uint8_t place, ends;
};

static struct half receivers[1 + 8 + 8 * 16], senders[1 + 11 * 16];

static void list_states(void)
{
    unsigned place, count, at = 0;

    receivers[at++].place = 0;
    for (place = 1; place <= 9; place++) {
        for (count = 0; count < (place == 1 ? 8u : 16u); count++, at++) {
            receivers[at].place = (uint8_t)place;
            receivers[at].ends = (uint8_t)count;
        }
    }
    check(sizeof receivers / sizeof receivers[0], at, "the receiver's states");
    at = 0;
    senders[at++].place = 0;
    for (place = 1; place <= 11; place++) {
        for (count = 0; count < 16; count++, at++) {
            senders[at].place = (uint8_t)place;
            senders[at].ends = (uint8_t)count;
        }
    }
    check(sizeof senders / sizeof senders[0], at, "the sender's states");
}

#define RECEIVERS (sizeof receivers / sizeof receivers[0])
#define SENDERS (sizeof senders / sizeof senders[0])

/* A machine with the port on and in this state, T0 ending with every tick, its other bytes drawn. */
static void begin_state(struct dice *d, const char *call, unsigned receiver, unsigned sender, unsigned p30)
{
    begin(call, ON | (any_byte(d) & 0xBF), 1, 1);
    g.number = (receiver * 1000ul + sender) * 10 + p30;
    g.saved[Z8_AT_DIVIDER] = (uint8_t)below(d, 4);
    g.saved[Z8_AT_PORT3] = (uint8_t)((any_byte(d) & 0xFE) | p30);
    g.saved[IRQ] = (uint8_t)(any_byte(d) & 0x27); /* 3 and 4 clear, so that they are seen */
    g.saved[Z8_AT_RECEIVED] = any_byte(d);
    g.saved[Z8_AT_RECEIVER_AWAITS] = receivers[receiver].place;
    g.saved[Z8_AT_RECEIVER_ENDS] = receivers[receiver].ends;
    g.saved[Z8_AT_RECEIVER_SHIFT] = receivers[receiver].place < 2 ? 0xFF : any_byte(d);
    g.saved[Z8_AT_SENDER_PLACE] = senders[sender].place;
    g.saved[Z8_AT_SENDER_ENDS] = senders[sender].ends;
    g.saved[Z8_AT_SENDER_BITS] = senders[sender].place == 0 ? 0xFF : any_byte(d);
}

/* How many ends a half has before it: with P30 held, it is idle after them. */
static unsigned ends_left_to_receive(unsigned receiver, unsigned p30)
{
    switch (receivers[receiver].place) {
    case 0:
        return 0;
    case 1:
        return (p30 ? HALF_A_BIT : RECEPTION) - receivers[receiver].ends;
    default:
        return (10u - receivers[receiver].place) * BIT - receivers[receiver].ends;
    }
}

static unsigned ends_left_to_send(unsigned sender)
{
    return senders[sender].place == 0 ? 0 : (12u - senders[sender].place) * BIT - senders[sender].ends;
}

/* The port's bytes, and the registers but for IRQ, which is zero, as they are in g after the same ends. */
static void check_left_before_ei(const struct outcome *o)
{
    check(0, o->answer, "a span before EI");
    check(0, memcmp(o->saved, g.saved, IRQ) != 0, "registers up to IRQ as after EI");
    check(0, o->saved[IRQ], "no request");
    check(0, memcmp(o->saved + IMR, g.saved + IMR, Z8_AT_DIVIDER - IMR) != 0, "those after it as after EI");
    check(0, o->saved[Z8_AT_BITS], "no EI");
    check(0, memcmp(o->saved + Z8_AT_RECEIVED, g.saved + Z8_AT_RECEIVED, 8) != 0, "the port as after EI");
}

/* 200 ends and the longest span of the same machine before EI. */
static void check_two_states_before_ei(const struct given *released)
{
    struct given held = *released;
    struct outcome o;

    held.call = "z8_span before EI from every state of the port";
    hold_requests(held.saved);
    held.amount = 4 * 200;
    note(agree(&held, span_of_reference, span_of_library, 0, &o));
    check_left_before_ei(&o);
    held.amount = 4294967295u;
    span_of_library(&held, &o);
    check_left_before_ei(&o);
}

/* From two states: one end; a drawn number of cycles; 200 ends, after which both halves are idle; the longest
   span, which has to leave what these do; and the last two before EI. */
static void check_two_states(struct dice *d, unsigned receiver, unsigned sender, unsigned p30)
{
    unsigned to_receive = ends_left_to_receive(receiver, p30), to_send = ends_left_to_send(sender);
    struct given kept;
    struct outcome whole;

    begin_state(d, "z8_span from every state of the port", receiver, sender, p30);
    kept = g;
    span(4);
    g = kept;
    span(below(d, 4 * 200));
    g = kept;
    ends = 0;
    span(4 * 200);
    check(200, ends, "T0's ends");
    check(0, g.saved[Z8_AT_RECEIVER_AWAITS], "nothing comes in any more");
    check(0, g.saved[Z8_AT_SENDER_PLACE], "and nothing goes out");
    check(to_receive > HALF_A_BIT || (to_receive > 0 && receivers[receiver].place > 1), request(REQUEST_3),
          "request 3");
    check(to_send > 0, request(REQUEST_4), "request 4");

    kept.amount = 4294967295u;
    span_of_library(&kept, &whole);
    check(0, whole.answer, "the longest span");
    check(0, memcmp(whole.saved, g.saved, Z8_AT_DIVIDER) != 0, "its registers are as after 200 ends");
    check(0, memcmp(whole.saved + Z8_AT_RECEIVED, g.saved + Z8_AT_RECEIVED, 8) != 0, "and so is its port");
    check_two_states_before_ei(&kept);
}

/* Every number of ends up to 180, of every state of each half. */
static void check_every_number_of_ends(struct dice *d)
{
    unsigned state, p30, count;

    for (state = 0; state < SENDERS; state++) {
        for (p30 = 0; p30 < 2; p30++) {
            struct given kept;

            begin_state(d, "z8_span of every number of ends", state % RECEIVERS, (state * 5 + p30) % SENDERS,
                        p30);
            g.saved[Z8_AT_DIVIDER] = 0;
            kept = g;
            for (count = 0; count <= 180; count++) {
                g = kept;
                ends = 0;
                span(4 * count);
                check(count, ends, "T0's ends");
            }
        }
    }
}

/* A step of 6 cycles and one of 63 from every state, with P30 as it was and changed. */
static void check_steps_from(struct dice *d, unsigned receiver, unsigned sender, unsigned p30)
{
    unsigned given;

    for (given = 0; given < 2; given++) {
        begin_state(d, "z8_step from every state of the port", receiver, sender, p30);
        nop(pins_of_level(given));
        begin_state(d, "an entry of 63 cycles from every state of the port", receiver, sender, p30);
        g.saved[Z8_AT_ENTRY_COST] = 63;
        g.saved[IPR] = 0x08;
        g.saved[IRQ] = 0x20;
        g.saved[IMR] = 0xA0;
        nop(pins_of_level(given));
        check(63, expected.cycles, "the entry's cycles");
        check(1, expected.ends0 >= 15, "and its many ends");
    }
}

static void check_every_state(void)
{
    unsigned receiver, sender, p30;
    struct dice d;

    dice_for_case(&d, 1983, 12);
    list_states();
    for (receiver = 0; receiver < RECEIVERS; receiver++) {
        for (sender = receiver % 7; sender < SENDERS; sender += 7) {
            for (p30 = 0; p30 < 2; p30++) {
                check_two_states(&d, receiver, sender, p30);
                check_steps_from(&d, receiver, sender, p30);
            }
        }
    }
    check_every_number_of_ends(&d);
}

int main(void)
{
    unsigned low_for;

    check_all_bytes();
    check_before_ei();
    check_phases();
    for (low_for = 1; low_for <= BIT; low_for++) {
        check_false_start(low_for, ON);
        check_false_start(low_for, ON | PARITY);
    }
    check_break(ON);
    check_break(ON | PARITY);
    check_edges_within();
    check_where_edges_are_found();
    check_stores_during_sends();
    check_switching();
    check_full_duplex();
    check_single_passes();
    check_every_way();
    check_switching_instructions();
    check_every_state();
    printf("serial: %lu checks, %lu failed\n", checks, failed);
    return failed != 0;
}
