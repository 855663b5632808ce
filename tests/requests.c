/* The request register before the first EI and after it (02, C-13; 004, 10.4.3 and 10.8): the library beside
   the reference in every byte, at every step and at every span short enough for it, through edges, ends, stores
   to FA and what may seem an EI, gone through whole. (The serial port's requests are serial.c's.) Beside that
   comparison each part checks by itself what 02, the manual or a point decided for C-13 says of it.

   Held is a machine that has executed no EI since its reset, released one that has. */
#include <stdio.h>
#include <stdlib.h>
#include <string.h>

#include "../include/z8.h"
#include "both.h"
#include "draw.h"
#include "reference/bytes.h"
#include "reference/machine.h"
#include "report.h"

/* Register places, by 002. */
enum { TMR = 0xF1, T1 = 0xF2, PRE1 = 0xF3, T0 = 0xF4, PRE0 = 0xF5, P3M = 0xF7, P01M = 0xF8 };
enum { IPR = 0xF9, IRQ = 0xFA, IMR = 0xFB, FLAGS = 0xFC, RP = 0xFD, SPL = 0xFF };

enum { NOP = 0xFF, EI = 0x9F, DI = 0x8F, IRET = 0xBF };
enum { SIX = 6 };       /* their cycles, but for IRET's */
enum { MASTER = 0x80 }; /* of IMR */
enum { REQUEST_4 = 0x10, REQUEST_5 = 0x20 };
enum { ENTRY_COST = 20 };

static unsigned long checks, failed;

/* After so many the rest tells no more. */
#define FAILURES_TOLD 3ul

static void note(int passed)
{
    checks++;
    if (!passed) {
        failed++;
        if (failed >= FAILURES_TOLD) {
            printf("requests: %lu checks, %lu failed, and stopped there\n", checks, failed);
            exit(1);
        }
    }
}

/* ---- The machine under test ---- */

static struct given g;          /* as it stands */
static struct outcome expected; /* what the reference left at the last call */
static uint8_t image[32];       /* an instruction to execute, and NOPs */
static uint32_t ends0, ends1;   /* the timers' since begin() */

static void check(unsigned long wanted, unsigned long found, const char *what)
{
    note(wanted == found);
    if (wanted != found) {
        printf("FAILED: %s, %s: expected %lu (%lX), found %lu (%lX), case %lu\n", g.call, what, wanted,
               wanted, found, found, g.number);
    }
}

/* From reset, which holds; no mask bit set, so that nothing is granted. */
static void begin(const char *call, unsigned long number)
{
    struct ref_machine m;

    memset(&g, 0, sizeof g);
    g.call = call;
    g.number = number;
    ref_make(&m, 11, ENTRY_COST);
    ref_save(&m, g.saved);
    g.saved[IPR] = 0x08;
    g.saved[SPL] = 0x70;
    g.image = image;
    g.image_length = sizeof image;
    memset(g.pins, 0xFF, 4);
    memset(image, NOP, sizeof image);
    ends0 = ends1 = 0;
}

static void take_over(void)
{
    memcpy(g.saved, expected.saved, Z8_SAVED_LEN);
    ends0 += expected.ends0;
    ends1 += expected.ends1;
}

static void execute(unsigned opcode, unsigned first, unsigned second, unsigned pins3)
{
    image[0] = (uint8_t)opcode;
    image[1] = (uint8_t)first;
    image[2] = (uint8_t)second;
    g.saved[Z8_AT_PC] = g.saved[Z8_AT_PC + 1] = 0;
    g.pins[3] = (uint8_t)pins3;
    note(agree(&g, step_of_reference, step_of_library, 0, &expected));
    take_over();
}

static void single(unsigned opcode, unsigned pins3)
{
    execute(opcode, NOP, NOP, pins3);
}

static void span(uint32_t cycles)
{
    g.amount = cycles;
    note(agree(&g, span_of_reference, span_of_library, 0, &expected));
    take_over();
}

/* From 0000. */
static void run(uint32_t budget, unsigned pins3)
{
    g.saved[Z8_AT_PC] = g.saved[Z8_AT_PC + 1] = 0;
    g.amount = budget;
    g.pins[3] = (uint8_t)pins3;
    note(agree(&g, run_of_reference, run_of_library, 0, &expected));
    take_over();
}

static void reset(void)
{
    note(agree(&g, reset_of_reference, reset_of_library, 0, &expected));
    memcpy(g.saved, expected.saved, Z8_SAVED_LEN);
}

static void check_held(const char *what)
{
    check(0, g.saved[Z8_AT_BITS], what);
    check(0, g.saved[IRQ], what);
}

/* ---- Edges, before EI, in its step, and after ---- */

/* 01: "falling edges on P32, P33, P31, P30 latch requests 0, 1, 2, 3"; C-11: 3 not while the port is on. */
static unsigned requests_of(unsigned fell, int port_on)
{
    return (fell >> 2 & 1) | (fell >> 2 & 2) | (fell << 1 & 4) | (port_on ? 0 : fell << 3 & 8);
}

static void check_edges(unsigned fell, int port_on)
{
    const unsigned low = 0xFF & ~fell, all = requests_of(fell, port_on);

    begin("edges about EI", fell * 2 + (unsigned)port_on);
    g.saved[P3M] = port_on ? 0x40 : 0;
    single(NOP, low);
    check_held("edges before EI");
    check(low, g.saved[Z8_AT_PORT3], "and the pins are the last");
    single(NOP, 0xFF);
    single(EI, low);
    check(0, g.saved[IRQ], "EI's own step compares before it");
    check(low, g.saved[Z8_AT_PORT3], "and the pins are the last");
    check(Z8_EI_EXECUTED, g.saved[Z8_AT_BITS], "EI releases");
    check(MASTER, g.saved[IMR], "and sets bit 7 of IMR");
    single(NOP, low);
    check(0, g.saved[IRQ], "the edge is gone");
    single(NOP, 0xFF);
    single(NOP, low);
    check(all, g.saved[IRQ], "an edge after EI");
    g.saved[IRQ] = 0;
    single(DI, 0xFF);
    single(NOP, low);
    check(all, g.saved[IRQ], "an edge after DI");
    g.saved[IRQ] = 0;
    single(NOP, 0xFF);
    single(DI, low);
    check(all, g.saved[IRQ], "an edge in DI's own step");
    reset();
    check_held("a reset holds again");
    single(NOP, low);
    check_held("edges after the reset");
}

/* A request after EI is granted at once where its mask bit is set, and one from before never. */
static void check_edge_is_granted(unsigned line)
{
    begin("an edge after EI is granted", line);
    g.saved[IMR] = 0x3F;
    single(NOP, 0xFF & ~(1u << line));
    single(EI, 0xFF);
    single(NOP, 0xFF);
    check(1, g.saved[Z8_AT_PC + 1], "no grant of an edge before EI");
    single(NOP, 0xFF & ~(1u << line));
    check(ENTRY_COST, expected.cycles, "an interrupt's entry");
    check(0x3F, g.saved[IMR], "which clears bit 7 of IMR");
    check(Z8_EI_EXECUTED, g.saved[Z8_AT_BITS], "and holds nothing");
}

/* T1 counts a falling edge of P31 before EI too. 02: "Ends are counted and T_OUT flips as before." */
static void check_end_by_an_edge(unsigned repeats, int released)
{
    begin("T1's end by an edge", repeats * 2 + (unsigned)released);
    if (released) {
        release_requests(g.saved);
    }
    g.saved[TMR] = 0x88;
    g.saved[PRE1] = (uint8_t)(0x04 + repeats);
    g.saved[T1] = 9;
    g.saved[Z8_AT_T1_PRESCALER] = g.saved[Z8_AT_T1_COUNTER] = 1;
    single(NOP, 0xFD);
    check(1, ends1, "an end");
    check(0, g.saved[Z8_AT_T_OUT], "flips T_OUT");
    check(repeats ? 0x88 : 0x80, g.saved[TMR], "and ends a single pass");
    check(repeats ? 9 : 0, g.saved[Z8_AT_T1_COUNTER], "and the count begins anew, or rests");
    check(released ? REQUEST_5 | 0x04 : 0, g.saved[IRQ], "its request, and the edge's");
}

static void check_all_edges(void)
{
    unsigned fell, repeats;

    for (fell = 0; fell < 16; fell++) {
        check_edges(fell, 0);
        check_edges(fell, 1);
    }
    for (fell = 0; fell < 4; fell++) {
        check_edge_is_granted(fell);
    }
    for (repeats = 0; repeats < 2; repeats++) {
        check_end_by_an_edge(repeats, 0);
        check_end_by_an_edge(repeats, 1);
    }
}

/* ---- Ends, before EI, in its own cycles, and after ---- */

enum timer { TIMER_0, TIMER_1 };

/* That timer counting, with its next end after so many cycles and those after it far away. */
static void next_end_after(enum timer timer, uint32_t cycles, unsigned repeats)
{
    unsigned prescaler_at = timer == TIMER_0 ? Z8_AT_T0_PRESCALER : Z8_AT_T1_PRESCALER;

    g.saved[TMR] |= timer == TIMER_0 ? 0x42 : 0x88;
    g.saved[timer == TIMER_0 ? PRE0 : PRE1] = (uint8_t)(2 + repeats); /* P 64, T1 internal */
    g.saved[Z8_AT_DIVIDER] = (uint8_t)((4 - cycles % 4) % 4);
    g.saved[prescaler_at] = (uint8_t)((cycles + 3) / 4);
    g.saved[prescaler_at + 1] = 1;
}

/* EI was the instruction after so many NOPs, and the end came at that cycle: it is latched where EI had been
   executed by then. 01's order: the clock comes last, so that the ends in EI's own six cycles latch. */
static void check_one_end(enum timer timer, unsigned nops, unsigned cycle, unsigned repeats)
{
    const unsigned request = timer == TIMER_0 ? REQUEST_4 : REQUEST_5;

    check(1, timer == TIMER_0 ? ends0 : ends1, "one end of that timer");
    check(1, ends0 + ends1, "and none of the other");
    check(0, g.saved[Z8_AT_T_OUT], "T_OUT flips");
    check(repeats, (g.saved[TMR] & 0x0A) != 0, "a single pass stops");
    check(Z8_EI_EXECUTED, g.saved[Z8_AT_BITS], "EI was executed");
    check(cycle > nops * SIX ? request : 0, g.saved[IRQ], "the request");
}

enum { INSTRUCTIONS = 8 };

/* Step by step. */
static void check_end_about_ei(enum timer timer, unsigned nops, unsigned cycle, unsigned repeats)
{
    unsigned done;

    begin("an end about EI", ((unsigned)timer * 10ul + nops) * 1000 + cycle * 10 + repeats);
    next_end_after(timer, cycle, repeats);
    for (done = 0; done < INSTRUCTIONS; done++) {
        uint32_t before = ends0 + ends1;

        single(done == nops ? EI : NOP, 0xFF);
        check(done * SIX < cycle && cycle <= (done + 1) * SIX, ends0 + ends1 - before, "the end in time");
    }
    check_one_end(timer, nops, cycle, repeats);
}

/* In one run, whose first step finds edges of all lines, before EI or in its own step. */
static void check_end_in_a_run(enum timer timer, unsigned nops, unsigned cycle, unsigned repeats)
{
    begin("a run with an end about EI", ((unsigned)timer * 10ul + nops) * 1000 + cycle * 10 + repeats);
    next_end_after(timer, cycle, repeats);
    image[nops] = EI;
    run(INSTRUCTIONS * SIX, 0xF0);
    check(INSTRUCTIONS * SIX, expected.cycles, "the run's cycles");
    check_one_end(timer, nops, cycle, repeats);
}

static void check_all_ends(void)
{
    unsigned timer, nops, cycle, repeats;

    for (timer = TIMER_0; timer <= TIMER_1; timer++) {
        for (nops = 0; nops < INSTRUCTIONS; nops++) {
            for (cycle = 1; cycle <= INSTRUCTIONS * SIX; cycle++) {
                for (repeats = 0; repeats < 2; repeats++) {
                    check_end_about_ei((enum timer)timer, nops, cycle, repeats);
                    check_end_in_a_run((enum timer)timer, nops, cycle, repeats);
                }
            }
        }
    }
}

/* ---- What is an EI ---- */

static struct memory fresh_memory;

static void fill_memory(void)
{
    size_t at;

    memset(&fresh_memory, GUARD_BYTE, sizeof fresh_memory);
    for (at = 0; at < MEMORY; at++) {
        fresh_memory.bytes[at] = (uint8_t)(at * 7 + at / 256 * 29);
    }
    found_memory = expected_memory = fresh_memory;
}

#define POINTER 0x20u

/* A machine before one of the instructions below: no general register is zero, and R0 and R1 of group 10 and
   register 20 point at the given address, with the internal stack's top about it or not. */
static void begin_way(const char *call, unsigned long number, unsigned target, unsigned group, unsigned stack)
{
    unsigned at;

    begin(call, number);
    for (at = 4; at < 0x80; at++) {
        g.saved[at] = (uint8_t)(at * 2 + 1);
    }
    g.saved[RP] = (uint8_t)group;
    g.saved[0x10] = g.saved[0x11] = g.saved[POINTER] = (uint8_t)target;
    g.saved[P01M] = 0x04;
    g.saved[SPL] = (uint8_t)stack;
    g.saved[FLAGS] = 0x80;
    g.data = fresh_memory.bytes;
    g.data_length = MEMORY;
}

static void way(const uint8_t bytes[3])
{
    execute(bytes[0], bytes[1], bytes[2], 0xFF);
    if (memcmp(&expected_memory, &fresh_memory, sizeof fresh_memory) != 0) {
        check(0, memcmp(&found_memory, &expected_memory, sizeof found_memory) != 0, "data memory");
        found_memory = expected_memory = fresh_memory;
    }
}

/* The register named by its address and as a working register of group F0 (and the pair's other one), where
   a register points, as r, Ir and rr of either group, and as an index with the offset 0. */
#define FIELDS 13u

static const uint8_t fields[2][FIELDS] = {
    {IRQ, 0xEA, POINTER, 0xE0, 0xA0, 0x0A, 0xAA, 0xAB, 0x01, 0x10, 0x06, 0x00, IMR},
    {IMR, 0xEB, POINTER, 0xE0, 0xB0, 0x0B, 0xBB, 0xBA, 0x01, 0x10, 0x06, 0x00, IRQ},
};

static const uint8_t groups[2] = {0xF0, 0x10};
static const uint8_t stacks[] = {IRQ - 1, IRQ, IRQ + 1, IRQ + 2, IRQ + 3, 0x70};

#define STACKS (sizeof stacks / sizeof stacks[0])

typedef void for_a_way(unsigned long number, const uint8_t bytes[3], unsigned group, unsigned stack);

/* Every opcode that there is with these operand bytes, both groups, and the stacks in turn. */
static void every_way(const uint8_t operands[FIELDS], for_a_way *f)
{
    unsigned opcode, group, first, second;
    unsigned long turn = 0;

    for (opcode = 0; opcode < 256; opcode++) {
        for (group = 0; ref_defined((int)opcode) && group < 2; group++) {
            for (first = 0; first < FIELDS; first++) {
                for (second = 0; second < FIELDS; second++) {
                    const uint8_t bytes[3] = {(uint8_t)opcode, operands[first], operands[second]};

                    f(turn, bytes, groups[group], stacks[turn % STACKS]);
                    turn++;
                }
            }
        }
    }
}

static unsigned long masters_stored, irets;

/* 02: "A store that sets bit 7 of IMR isn't an EI"; decided for C-13: neither is IRET, and DI holds nothing again.
   So whatever is executed, a held machine is released by EI alone, and a released one is not held again. */
static void check_whether_an_ei(unsigned long number, const uint8_t bytes[3], unsigned group, unsigned stack)
{
    begin_way("what is an EI", number, IMR, group, stack);
    way(bytes);
    check(bytes[0] == EI ? Z8_EI_EXECUTED : 0, g.saved[Z8_AT_BITS], "EI alone releases");
    masters_stored += bytes[0] != EI && bytes[0] != IRET && (g.saved[IMR] & MASTER);
    irets += bytes[0] == IRET && (g.saved[IMR] & MASTER);

    begin_way("what holds again", number, IMR, group, stack);
    release_requests(g.saved);
    way(bytes);
    check(Z8_EI_EXECUTED, g.saved[Z8_AT_BITS], "nothing holds again");
}

/* Every byte stored to IMR, by LD and by OR; then edges and ends, which are not latched though bit 7 of IMR
   and every mask bit be set; and then EI, which releases whatever IMR was. */
static void check_stores_to_imr(void)
{
    unsigned byte;

    for (byte = 0; byte < 256; byte++) {
        begin("a store to IMR", byte);
        execute(0xE6, IMR, byte, 0xFF); /* LD IMR,#.. */
        check_held("LD IMR is no EI");
        g.saved[IMR] = 0;
        execute(0x46, IMR, byte, 0xFF); /* OR IMR,#.. */
        check_held("OR IMR is no EI");
        next_end_after(TIMER_0, 5, 1);
        single(NOP, 0xF0);
        check(1, ends0, "T0 ends");
        check_held("and nothing is latched");
        check(SIX, expected.cycles, "nor granted");
        single(EI, 0xF0);
        check(Z8_EI_EXECUTED, g.saved[Z8_AT_BITS], "EI releases");
        check(byte | MASTER, g.saved[IMR], "and sets bit 7 of IMR alone");
        check(0, g.saved[IRQ], "and nothing comes after it that came before");
    }
}

/* IRET before EI, with FLAGS and an address on the stack. */
static void check_iret(void)
{
    begin("IRET before EI", 0);
    g.saved[0x70] = 0xA5;
    g.saved[0x71] = 0x12;
    g.saved[0x72] = 0x34;
    g.saved[IMR] = 0x3F;
    next_end_after(TIMER_1, 7, 1);
    single(IRET, 0xF0);
    check(MASTER | 0x3F, g.saved[IMR], "IRET sets bit 7 of IMR");
    check(0x1234, g.saved[Z8_AT_PC] * 256ul + g.saved[Z8_AT_PC + 1], "and returns");
    check(1, ends1, "T1 ends in its cycles");
    check_held("IRET is no EI");
    single(NOP, 0xFF);
    single(NOP, 0xF0);
    check(SIX, expected.cycles, "nothing is granted after it");
    check_held("nor latched");
}

static void check_what_is_an_ei(void)
{
    every_way(fields[1], check_whether_an_ei);
    check(1, masters_stored > 0 && irets > 0, "stores of bit 7 of IMR, and IRETs, were seen");
    check_stores_to_imr();
    check_iret();
}

/* ---- Every way to store to FA ---- */

static unsigned long stored_by[256];

/* Everything but IRQ, and whether EI was executed, is as it is with requests released and none standing. */
static void check_as_released(const struct outcome *released, const uint8_t bytes[3])
{
    check(0, g.saved[IRQ], "the store is dropped");
    check(bytes[0] == EI ? Z8_EI_EXECUTED : 0, g.saved[Z8_AT_BITS], "and releases nothing");
    check(0, memcmp(g.saved, released->saved, IRQ) != 0, "the registers before it as ever");
    check(0, memcmp(g.saved + IMR, released->saved + IMR, Z8_AT_BITS - IMR) != 0,
          "the registers after it, flags with them, and the rest as ever");
    check(0, memcmp(g.saved + Z8_AT_RECEIVED, released->saved + Z8_AT_RECEIVED, Z8_SAVED_LEN - Z8_AT_RECEIVED)
                 != 0,
          "and the port");
    check(released->cycles, expected.cycles, "the cycles as ever");
}

/* 02: "stores to FA are dropped and it reads 0", whatever stores, so that flags and all else go as with a request
   register that is zero. With other requests standing, what it stores is seen. */
static void check_store(unsigned long number, const uint8_t bytes[3], unsigned group, unsigned stack)
{
    static const char call[] = "a way to store to FA";
    const unsigned standing = 0x15;
    struct outcome released;

    begin_way(call, number, IRQ, group, stack);
    release_requests(g.saved);
    g.saved[IRQ] = (uint8_t)standing;
    way(bytes);
    stored_by[bytes[0]] += g.saved[IRQ] != standing;

    begin_way(call, number, IRQ, group, stack);
    release_requests(g.saved);
    way(bytes);
    stored_by[bytes[0]] += g.saved[IRQ] != 0;
    released = expected;

    begin_way(call, number, IRQ, group, stack);
    way(bytes);
    check_as_released(&released, bytes);
}

/* Chapter 5: which opcodes have a register to store to, by the map's rows and columns. PUSH and CALL store by
   the stack; LDCI and LDEI the other way round add one to what their register reads. INCW stores to FA what
   it read there: bit 6 of IMR reads 0, so that nothing is carried out of FB. */
static int can_change(unsigned opcode)
{
    static const uint8_t others[] = {0x70, 0x71, 0xD4, 0xD6, 0x82, 0x83, 0x93, 0xC2, 0xC3, 0xD3,
                                     0xC7, 0xD7, 0xE3, 0xE4, 0xE5, 0xE6, 0xE7, 0xF3, 0xF5};
    unsigned row = opcode / 16, column = opcode % 16;
    size_t k;

    for (k = 0; k < sizeof others; k++) {
        if (opcode == others[k]) {
            return 1;
        }
    }
    if (column <= 1) {
        return row != 0x3 && row != 0x7 && row != 0xA;
    }
    if (column <= 7) {
        return row <= 0x5 || row == 0xB; /* ADD ADC SUB SBC OR AND XOR */
    }
    /* LD R,r of each row; LD r, DJNZ and INC r of working register 10. */
    return column == 0x9
           || (row == IRQ % 16 && (column == 0x8 || column == 0xA || column == 0xC || column == 0xE));
}

static void check_ways_were_seen(void)
{
    unsigned opcode;

    for (opcode = 0; opcode < 256; opcode++) {
        char what[60];

        if (ref_defined((int)opcode)) {
            g.number = opcode;
            sprintf(what, "stores to FA by opcode %02X were seen", opcode);
            check((unsigned long)can_change(opcode), stored_by[opcode] > 0, what);
        }
    }
}

/* Every byte, by LD and by OR: OR IRQ,#n before EI reads 0, so its flags go by n, and its store is dropped. 004, 5:
   OR's flags are Z, S and V, which is 0. */
static void check_every_byte(void)
{
    unsigned byte;

    for (byte = 0; byte < 256; byte++) {
        begin("every byte to FA", byte);
        execute(0xE6, IRQ, byte, 0xFF); /* LD IRQ,#.. */
        check_held("LD IRQ is dropped");
        g.saved[FLAGS] = 0xFF;
        execute(0x46, IRQ, byte, 0xFF); /* OR IRQ,#.. */
        check_held("OR IRQ is dropped");
        check(0x8Fu | (byte == 0 ? 0x40 : 0) | (byte > 0x7F ? 0x20 : 0), g.saved[FLAGS], "its flags go by n");
        g.saved[0x41] = 0xEE;
        execute(0xE4, IRQ, 0x41, 0xFF); /* LD %41,IRQ */
        check(0, g.saved[0x41], "it reads 0");

        single(EI, 0xFF);
        check(0, g.saved[IRQ], "what was dropped doesn't come with EI");
        execute(0x46, IRQ, byte, 0xFF);
        check(byte & 0x3F, g.saved[IRQ], "after EI it stays");
        execute(0xE4, IRQ, 0x41, 0xFF);
        check(byte & 0x3F, g.saved[0x41], "and reads so");
    }
}

/* The pair FA and FB: its low half is IMR, which is stored as ever. */
static void check_pair(unsigned imr, unsigned opcode, unsigned word)
{
    begin("the pair FA", imr * 256ul + opcode);
    g.saved[IMR] = (uint8_t)imr;
    g.saved[FLAGS] = 0xFF;
    execute(opcode, IRQ, 0, 0xFF);
    check_held("the high half is dropped");
    check(word & 0xFF, g.saved[IMR], "the low half is stored");
    check(word == 0, g.saved[FLAGS] >> 6 & 1u, "Z by the word");
    check(word >> 15 & 1, g.saved[FLAGS] >> 5 & 1u, "S by the word");
}

static void check_pairs(void)
{
    unsigned imr, read;

    for (imr = 0; imr < 256; imr++) {
        read = imr & 0xBF; /* 004, 10.8: "Bit D_6 is not implemented" */
        check_pair(imr, 0xA0, read + 1);
        check_pair(imr, 0x80, (read + 0xFFFF) % 65536);
    }
}

/* An interrupt's three bytes with each of them on FA. A held machine has no request to be granted. */
static void check_no_entry(unsigned stack)
{
    begin("an interrupt's entry onto FA before EI", stack);
    g.saved[IMR] = 0x81;
    g.saved[SPL] = (uint8_t)stack;
    single(NOP, 0xFB); /* P32 falls */
    check(SIX, expected.cycles, "nothing is granted");
    check_held("no entry before EI");
}

/* A released one keeps what is pushed but for bits 6 and 7, and the request granted, 0, which is cleared then. */
static void check_entry_onto_irq(unsigned stack)
{
    static const uint8_t pushed[3] = {0xB7, 0x56, 0xAB}; /* FLAGS, PC high, PC low: each with bits that stay */

    begin("an interrupt's entry onto FA", stack);
    release_requests(g.saved);
    g.saved[FLAGS] = pushed[0];
    g.saved[Z8_AT_PC] = pushed[1];
    g.saved[Z8_AT_PC + 1] = pushed[2];
    g.saved[IMR] = 0x81;
    g.saved[SPL] = (uint8_t)stack;
    g.pins[3] = 0xFB;
    note(agree(&g, step_of_reference, step_of_library, 0, &expected));
    take_over();
    check(ENTRY_COST, expected.cycles, "granted");
    check(pushed[IRQ - (stack - 3)] & 0x3F & ~1u, g.saved[IRQ], "the byte pushed onto FA");
}

/* The first of two pushes onto FA before EI, the second after it. */
static void check_pushes(void)
{
    const uint8_t byte = 0xD6;

    begin("pushes onto FA", 0);
    g.saved[0x41] = byte;
    g.saved[SPL] = IRQ + 1;
    execute(0x70, 0x41, 0, 0xFF); /* PUSH %41 */
    check(IRQ, g.saved[SPL], "SP goes down");
    check_held("PUSH is dropped");
    execute(0x50, 0x42, 0, 0xFF); /* POP %42 */
    check(0, g.saved[0x42], "and POP reads 0");
    check(IRQ + 1, g.saved[SPL], "SP goes up");
    single(EI, 0xFF);
    execute(0x70, 0x41, 0, 0xFF);
    check(byte & 0x3F, g.saved[IRQ], "after EI it stays, but for bits 6 and 7");
}

static void check_every_store(void)
{
    unsigned below;

    every_way(fields[0], check_store);
    check_ways_were_seen();
    check_every_byte();
    check_pairs();
    check_pushes();
    for (below = 1; below <= 3; below++) {
        check_no_entry(IRQ + below);
        check_entry_onto_irq(IRQ + below);
    }
}

/* ---- Runs over EI, refused and not ---- */

static void check_run(const uint8_t *program, size_t length, unsigned answer, unsigned bits, const char *call)
{
    begin(call, 0);
    g.image = program;
    g.image_length = length;
    run(4 * SIX, 0xF0);
    check(answer, expected.answer, "its answer");
    check(bits, g.saved[Z8_AT_BITS], "whether EI was executed");
    check(0, g.saved[IRQ], "the edges came before it");
}

static void check_runs(void)
{
    static const uint8_t over[] = {NOP, EI, NOP, NOP}, stopped[] = {NOP, EI, 0x4F}, at_once[] = {0x4F, EI};

    check_run(over, sizeof over, 0, Z8_EI_EXECUTED, "a run over EI");
    check_run(stopped, sizeof stopped, 5, Z8_EI_EXECUTED, "a run stopped by 5 after EI");
    check_run(at_once, sizeof at_once, 5, 0, "a run stopped by 5 before EI");
}

/* ---- Spans ---- */

struct settings {
    unsigned p, n; /* of a timer; n 0 where it rests */
    unsigned repeats;
};

static void set_timer(uint8_t *saved, enum timer timer, const struct settings *s)
{
    if (s->n == 0) {
        return;
    }
    saved[timer == TIMER_0 ? PRE0 : PRE1] = (uint8_t)(s->p * 4 + 2 + s->repeats);
    saved[timer == TIMER_0 ? T0 : T1] = (uint8_t)s->n;
    saved[timer == TIMER_0 ? Z8_AT_T0_PRESCALER : Z8_AT_T1_PRESCALER] = (uint8_t)s->p;
    saved[timer == TIMER_0 ? Z8_AT_T0_COUNTER : Z8_AT_T1_COUNTER] = (uint8_t)s->n;
    saved[TMR] |= timer == TIMER_0 ? 0x02 : 0x08;
}

/* A fresh load's ends: 4 x P x N cycles each, and a single pass has one. */
static uint32_t ends_of(const struct settings *s, unsigned divider, uint32_t cycles)
{
    uint32_t ends;

    if (s->n == 0) {
        return 0;
    }
    ends = (uint32_t)(((uint64_t)cycles + divider) / (4u * s->p * s->n));
    return s->repeats || ends == 0 ? ends : 1;
}

#define LONGEST_FOR_THE_MODEL 100000u

/* The library alone where the model would take too long. */
static void long_or_short_span(uint32_t cycles)
{
    struct outcome found;

    if (cycles <= LONGEST_FOR_THE_MODEL) {
        span(cycles);
        return;
    }
    g.amount = cycles;
    span_of_library(&g, &found);
    check(0, found.answer, "the answer");
    expected = found;
    take_over();
}

/* One span, held and released: ends by the formula, T_OUT by their number, and nothing differs but IRQ and
   the bit itself. T0 drives T_OUT, or T1. */
static void check_span(const struct settings *s0, const struct settings *s1, int port_on, unsigned divider,
                       uint32_t cycles)
{
    const uint32_t wanted0 = ends_of(s0, divider, cycles), wanted1 = ends_of(s1, divider, cycles);
    const unsigned t_out_is_t1 = cycles / 4 % 2;
    const unsigned requests = (wanted0 && !port_on ? REQUEST_4 : 0) | (wanted1 ? REQUEST_5 : 0);
    uint8_t held[Z8_SAVED_LEN];
    int released;

    for (released = 0; released < 2; released++) {
        begin(released ? "a span after EI" : "a span before EI", cycles);
        if (released) {
            release_requests(g.saved);
        }
        g.saved[P3M] = port_on ? 0x40 : 0;
        set_timer(g.saved, TIMER_0, s0);
        set_timer(g.saved, TIMER_1, s1);
        g.saved[TMR] |= t_out_is_t1 ? 0x80 : 0x40;
        g.saved[Z8_AT_DIVIDER] = (uint8_t)divider;
        long_or_short_span(cycles);
        check(wanted0, ends0, "T0's ends by the formula");
        check(wanted1, ends1, "T1's ends by the formula");
        check(1 - (t_out_is_t1 ? wanted1 : wanted0) % 2, g.saved[Z8_AT_T_OUT], "T_OUT by their number");
        check(s0->n != 0 && (s0->repeats || !wanted0), g.saved[TMR] >> 1 & 1u, "T0 goes on, or has stopped");
        check(s1->n != 0 && (s1->repeats || !wanted1), g.saved[TMR] >> 3 & 1u, "T1 goes on, or has stopped");
        check(released ? requests : 0, g.saved[IRQ], "requests, or none");
        if (!released) {
            memcpy(held, g.saved, Z8_SAVED_LEN);
        }
    }
    held[IRQ] = g.saved[IRQ];
    release_requests(held);
    check(0, memcmp(held, g.saved, Z8_SAVED_LEN) != 0, "all else is the same");
}

static const struct settings timers[] = {
    {1, 1, 1}, {1, 1, 0}, {3, 2, 1}, {3, 2, 0}, {64 - 1, 255, 1}, {64 - 1, 255, 0}, {7, 200, 1}, {1, 0, 0},
};

#define TIMERS (sizeof timers / sizeof timers[0])

/* Each timer's first ends to the cycle, and lengths up to the longest. */
static void check_spans_of(const struct settings *s0, const struct settings *s1, int port_on)
{
    static const uint32_t lengths[] = {0,     1,      3,           4,           5,          1000,
                                       99999, 100001, 1431655765u, 4294967294u, 4294967295u};
    const struct settings *both[2];
    unsigned divider, which, turn;
    size_t k;

    both[TIMER_0] = s0;
    both[TIMER_1] = s1;
    for (divider = 0; divider < 4; divider++) {
        for (k = 0; k < sizeof lengths / sizeof lengths[0]; k++) {
            check_span(s0, s1, port_on, divider, lengths[k]);
        }
        for (which = TIMER_0; which <= TIMER_1; which++) {
            for (turn = 1; both[which]->n != 0 && turn <= 3; turn++) {
                uint32_t end = turn * 4 * both[which]->p * both[which]->n - divider;

                check_span(s0, s1, port_on, divider, end - 1);
                check_span(s0, s1, port_on, divider, end);
            }
        }
    }
}

static void check_spans(void)
{
    size_t i, j;

    for (i = 0; i < TIMERS; i++) {
        for (j = 0; j < TIMERS; j++) {
            check_spans_of(&timers[i], &timers[j], 0);
            check_spans_of(&timers[i], &timers[j], 1);
        }
    }
}

/* ---- Making and resetting ---- */

static void check_makings(void)
{
    static const unsigned types[2] = {1, 11};
    size_t k;

    for (k = 0; k < 2; k++) {
        begin("a new machine", types[k]);
        memset(g.saved, 0xFF, Z8_SAVED_LEN);
        g.amount = types[k] + 1000 * ENTRY_COST;
        note(agree(&g, make_of_reference, make_of_library, 0, &expected));
        take_over();
        check_held("a new machine holds");
        release_requests(g.saved);
        g.saved[IRQ] = 0x3F;
        reset();
        check_held("a reset one too");
        reset();
        check_held("and one reset twice");
    }
}

int main(void)
{
    fill_memory();
    check_all_edges();
    check_all_ends();
    check_what_is_an_ei();
    check_every_store();
    check_runs();
    check_spans();
    check_makings();
    printf("requests: %lu checks, %lu failed\n", checks, failed);
    return failed != 0;
}
