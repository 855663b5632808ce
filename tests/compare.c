/* A seeded comparison of libz8.a with the reference: every byte of machine and data memory, and every number.

   Usage: compare SEED COUNT IMAGE...
   COUNT is the number of drawn steps; the drawn runs, spans and checks go with it. The values of the
   arithmetic, the operand bytes, the registers, the ports' modes, the memories' edges and the written programs
   are gone through whole, whatever COUNT. The images are run from reset. */
#include <stdio.h>
#include <stdlib.h>
#include <string.h>

#include "../include/z8.h"
#include "both.h"
#include "draw.h"
#include "programs.h"
#include "reference/bytes.h"
#include "reference/machine.h"
#include "reference/step.h"
#include "report.h"
#include "seen.h"

/* Register places, by 002. */
enum { SIO = 0xF0, TMR = 0xF1, PRE1 = 0xF3, PRE0 = 0xF5, P3M = 0xF7, P01M = 0xF8, IPR = 0xF9 };
enum { IRQ = 0xFA, IMR = 0xFB, FLAGS = 0xFC, RP = 0xFD, SPH = 0xFE, SPL = 0xFF };

static unsigned long seed;
static unsigned long steps, checks, failed;

/* After so many differences the rest tells no more. */
#define FAILURES_TOLD 3ul

static void note(int passed)
{
    checks++;
    if (!passed) {
        failed++;
        if (failed >= FAILURES_TOLD) {
            printf("compare: %lu checks, %lu failed, and stopped there\n", checks, failed);
            exit(1);
        }
    }
}

/* ---- What happened, and how often: seen.h ---- */

#define COUNT_WHERE_ALL_HAPPENS 100000ul

static void check_what_happened(unsigned long count)
{
    int kind;

    tell_what_happened();
    for (kind = 0; kind < KINDS && count >= COUNT_WHERE_ALL_HAPPENS; kind++) {
        note(has_happened((enum kind)kind));
    }
}

/* ---- Comparing ---- */

/* As both data memories are before a case. */
static struct memory first_memory;

/* Whole memories take their time to compare. A step that by the papers can't store there is compared without
   them, but a wrong store stays where it is, and every so often they are compared whole, guards too. */
static void compare_whole_memories(void)
{
    size_t at = 0;
    const uint8_t *found = (const uint8_t *)&found_memory, *expected = (const uint8_t *)&expected_memory;
    int same = memcmp(found, expected, sizeof found_memory) == 0;

    if (!same) {
        while (found[at] == expected[at]) {
            at++;
        }
        printf("DIFFERENCE: data memory at %ld, in one of the last cases: expected %02X, found %02X\n",
               (long)at - (long)GUARD, expected[at], found[at]);
    }
    note(same);
}

static void restore_memories(void)
{
    if (memcmp(&expected_memory, &first_memory, sizeof first_memory) != 0) {
        expected_memory = first_memory;
        found_memory = first_memory;
    }
}

#define CASES_BETWEEN_WHOLE_MEMORIES 64u

static void compare_step(struct given *g, struct outcome *expected)
{
    int whole = can_store_data(g);

    note(agree(g, step_of_reference, step_of_library, whole, expected));
    steps++;
    if (steps % CASES_BETWEEN_WHOLE_MEMORIES == 0) {
        compare_whole_memories();
    }
}

/* ---- Drawn steps ---- */

static uint8_t image[MEMORY];

static void fill_memories(void)
{
    struct dice d;
    size_t at;

    dice_for_case(&d, seed, 0);
    memset(&first_memory, GUARD_BYTE, sizeof first_memory);
    for (at = 0; at < MEMORY; at++) {
        first_memory.bytes[at] = any_byte(&d);
        image[at] = any_byte(&d);
    }
    expected_memory = first_memory;
    found_memory = first_memory;
}

static uint32_t draw_data_length(struct dice *d)
{
    static const uint32_t lengths[] = {0,    0,    1,    100,  2047,  2048,  2049,  2050,
                                       4095, 4096, 4097, 4098, 65535, 65536, 65536, 65536};

    return one_in(d, 3) ? below(d, 65537) : one_of(d, lengths, sizeof lengths / sizeof lengths[0]);
}

static uint32_t draw_image_length(struct dice *d)
{
    switch (below(d, 8)) {
    case 0:
        return below(d, 16);
    case 1:
    case 2:
        return below(d, 65537);
    default:
        return MEMORY;
    }
}

static void set_pc(struct given *g, unsigned pc)
{
    g->saved[Z8_AT_PC] = (uint8_t)(pc / 256);
    g->saved[Z8_AT_PC + 1] = (uint8_t)pc;
}

/* Opcodes that meet more than one rule of 01 at once, and so are drawn more often. */
static const uint32_t weighty[] = {0x50, 0x51, 0x70, 0x71, 0xAF, 0xBF, 0xD4, 0xD6, 0x82, 0x83,
                                   0x92, 0x93, 0xC2, 0xC3, 0xD3, 0x40, 0x41, 0x80, 0x81, 0xA0,
                                   0xA1, 0xC7, 0xD7, 0xE6, 0xE7, 0x46, 0x56, 0x31, 0x30};

static void draw_instruction(struct dice *d, unsigned long number, uint8_t bytes[3])
{
    bytes[0] = (uint8_t)number;
    if (one_in(d, 4)) {
        bytes[0] = (uint8_t)one_of(d, weighty, sizeof weighty / sizeof weighty[0]);
    }
    bytes[1] = odd_address(d);
    bytes[2] = one_in(d, 2) ? any_byte(d) : odd_address(d);
    if (one_in(d, 32)) {
        bytes[0] = 0xE6; /* LD TMR,#.. */
        bytes[1] = TMR;
    }
    if (one_in(d, 64)) {
        bytes[0] = 0xE6; /* LD to T0, T1, PRE0, PRE1 */
        bytes[1] = (uint8_t)(0xF2 + below(d, 4));
    }
    if (one_in(d, 32)) {
        bytes[0] = 0xE6; /* LD to SIO, P3M */
        bytes[1] = one_in(d, 2) ? SIO : P3M;
    }
    if (one_in(d, 32)) {
        bytes[0] = one_in(d, 2) ? 0xE6 : 0x46; /* LD or OR to IRQ, IMR */
        bytes[1] = one_in(d, 2) ? IRQ : IMR;
    }
    if (one_in(d, 64)) {
        bytes[0] = one_in(d, 2) ? 0x9F : 0x8F; /* EI, DI */
    }
}

static void draw_pins(struct dice *d, struct given *g)
{
    int port;

    for (port = 0; port < 4; port++) {
        g->pins[port] = any_byte(d);
    }
    if (one_in(d, 4)) {
        g->pins[3] = g->saved[Z8_AT_PORT3]; /* no edge at all */
    }
    if (one_in(d, 4)) {
        g->saved[Z8_AT_PORT3] |= 2; /* an edge of P31 */
        g->pins[3] &= 0xFD;
    }
    if (one_in(d, 4)) {
        g->saved[Z8_AT_PORT3] |= 1; /* and of P30 */
        g->pins[3] &= 0xFE;
    }
}

static void draw_surroundings(struct dice *d, struct given *g)
{
    struct lean lean;

    memset(g, 0, sizeof *g);
    lean.requests = one_in(d, 4);
    lean.data_length = draw_data_length(d);
    lean.image_length = draw_image_length(d);
    draw_machine(d, &lean, g->saved);
    if (one_in(d, 8)) {
        set_pc(g, lean.image_length - below(d, 4)); /* the image ends at or within the instruction */
    }
    g->seed = seed;
    g->data_length = lean.data_length;
    g->data = lean.data_length == 0 && one_in(d, 2) ? NULL : first_memory.bytes;
    g->image_length = lean.image_length;
    g->image = g->image_length == 0 && one_in(d, 2) ? NULL : image;
    draw_pins(d, g);
}

/* Puts instruction bytes at the program counter, and back again. */
static void swap_program_bytes(unsigned pc, uint8_t bytes[3])
{
    unsigned k;

    for (k = 0; k < 3; k++) {
        uint8_t old = image[(pc + k) % MEMORY];

        image[(pc + k) % MEMORY] = bytes[k];
        bytes[k] = old;
    }
}

static void compare_instruction(struct given *g, const uint8_t bytes[3])
{
    struct outcome expected;
    uint8_t swapped[3];

    memcpy(swapped, bytes, 3);
    swap_program_bytes(pc_of(g), swapped);
    compare_step(g, &expected);
    see_step(g, &expected);
    if (can_store_data(g)) {
        restore_memories();
    }
    swap_program_bytes(pc_of(g), swapped);
}

static void compare_drawn_steps(unsigned long count)
{
    unsigned long number;

    for (number = 0; number < count; number++) {
        struct given g;
        struct dice d;
        uint8_t bytes[3];

        dice_for_case(&d, seed, 1000 + number);
        draw_surroundings(&d, &g);
        g.call = "z8_step, a drawn step";
        g.number = number;
        draw_instruction(&d, number, bytes);
        compare_instruction(&g, bytes);
    }
    compare_whole_memories();
}

/* A drawn machine that executes what is put at its program counter. */
static void draw_executing(struct dice *d, struct given *g, const char *call, unsigned long number)
{
    draw_surroundings(d, g);
    g->call = call;
    g->number = number;
    g->saved[IMR] &= 0x7F;
    g->image = image;
    g->image_length = MEMORY;
}

/* Every first and every second operand byte with every opcode, before the first EI and after it. */
static void compare_operand_bytes(void)
{
    unsigned long number;

    for (number = 0; number < 2 * 2 * 256 * 256; number++) {
        struct given g;
        struct dice d;
        uint8_t bytes[3];

        dice_for_case(&d, seed + 1, number);
        draw_executing(&d, &g, "z8_step, an operand byte", number);
        if (number < 2 * 65536) {
            release_requests(g.saved);
        } else {
            hold_requests(g.saved);
        }
        draw_instruction(&d, number, bytes);
        bytes[0] = (uint8_t)number;
        bytes[1 + number / 65536 % 2] = (uint8_t)(number / 256);
        compare_instruction(&g, bytes);
    }
    compare_whole_memories();
}

/* ---- The registers, each by its address ---- */

#define POINTER 0x40u /* a plain register */
#define MACHINES_FOR_A_REGISTER 64u

/* An address found in a register is taken as it is, so each of the 256 is reached: read, stored to, and
   counted up as a pair. */
static void compare_registers(void)
{
    unsigned long number;

    for (number = 0; number < 256 * MACHINES_FOR_A_REGISTER; number++) {
        const uint8_t read[3] = {0xE5, POINTER, POINTER + 1}; /* LD %41,@%40 */
        const uint8_t pair[3] = {0xA1, POINTER, 0};           /* INCW @%40 */
        uint8_t store[3] = {0xE7, POINTER, 0};                /* LD @%40,#.. */
        struct given g;
        struct dice d;

        dice_for_case(&d, seed + 10, number);
        draw_executing(&d, &g, "z8_step, a register by its address", number);
        g.saved[POINTER] = (uint8_t)number;
        store[2] = any_byte(&d);
        compare_instruction(&g, read);
        compare_instruction(&g, store);
        compare_instruction(&g, pair);
    }
}

#define MACHINES_FOR_A_MODE 4u

/* Every P01M with each port, read and stored to; P2M, latches and pins as they come. */
static void compare_port_modes(void)
{
    unsigned long number;

    for (number = 0; number < 256 * 4 * MACHINES_FOR_A_MODE; number++) {
        uint8_t port = (uint8_t)(number / 256 % 4);
        const uint8_t read[3] = {0xE4, port, POINTER}; /* LD %40,port */
        uint8_t store[3] = {0xE6, port, 0};            /* LD port,#.. */
        struct given g;
        struct dice d;

        dice_for_case(&d, seed + 11, number);
        draw_executing(&d, &g, "z8_step, a port's mode", number);
        g.saved[P01M] = (uint8_t)number;
        store[2] = any_byte(&d);
        compare_instruction(&g, read);
        compare_instruction(&g, store);
    }
}

static unsigned machines_for_control(unsigned address)
{
    /* A store to the timers' and the port's registers meets their state, one to IRQ and IMR that of EI. */
    return (TMR <= address && address <= PRE0) || address == SIO || address == P3M || address == IRQ
                   || address == IMR
               ? 64
               : 4;
}

/* Every byte stored to every control register. */
static void compare_control_stores(void)
{
    unsigned address, value, machine;

    for (address = 0xF0; address <= 0xFF; address++) {
        for (value = 0; value < 256; value++) {
            const uint8_t store[3] = {0xE6, (uint8_t)address, (uint8_t)value};

            for (machine = 0; machine < machines_for_control(address); machine++) {
                unsigned long number = (machine * 256ul + value) * 256 + address;
                struct given g;
                struct dice d;

                dice_for_case(&d, seed + 12, number);
                draw_executing(&d, &g, "z8_step, a byte stored to a control register", number);
                compare_instruction(&g, store);
            }
        }
    }
    compare_whole_memories();
}

/* ---- The arithmetic's values, each through one step ---- */

/* A machine with plain registers, at 000C, without timers and interrupts; working group 10. */
static void plain_machine(struct given *g, const char *call)
{
    struct ref_machine m;

    memset(g, 0, sizeof *g);
    ref_make(&m, 11, 20);
    ref_save(&m, g->saved);
    g->saved[RP] = 0x10;
    g->call = call;
    g->seed = seed;
    memset(g->pins, 0xFF, 4);
}

static void compare_values(struct given *g, uint8_t flags)
{
    struct outcome expected;

    g->saved[FLAGS] = flags;
    compare_step(g, &expected);
    g->number++;
}

/* ADD ADC SUB SBC OR AND TCM TM CP XOR r5,r6: all values, carry in, the other flags set or clear in turn. */
static void compare_two_operand_values(void)
{
    static const uint8_t opcodes[] = {0x02, 0x12, 0x22, 0x32, 0x42, 0x52, 0x62, 0x72, 0xA2, 0xB2};
    uint8_t program[14] = {0};
    struct given g;
    unsigned op, values, carry;

    plain_machine(&g, "z8_step, two-operand values");
    g.image = program;
    g.image_length = sizeof program;
    program[13] = 0x56;
    for (op = 0; op < sizeof opcodes; op++) {
        program[12] = opcodes[op];
        for (values = 0; values < 65536; values++) {
            g.saved[0x15] = (uint8_t)(values / 256);
            g.saved[0x16] = (uint8_t)values;
            for (carry = 0; carry < 2; carry++) {
                compare_values(&g,
                               (uint8_t)((carry ? 0x80 : 0) | ((values + op + values / 256) % 2 ? 0x7F : 0)));
            }
        }
    }
}

/* DEC RLC INC DA COM RL CLR RRC SRA RR SWAP %15: all values with all of C Z S V D H, F2 and F1 in turn. */
static void compare_one_operand_values(void)
{
    static const uint8_t opcodes[] = {0x00, 0x10, 0x20, 0x40, 0x60, 0x90, 0xB0, 0xC0, 0xD0, 0xE0, 0xF0};
    uint8_t program[14] = {0};
    struct given g;
    unsigned op, value, flags;

    plain_machine(&g, "z8_step, one-operand values");
    g.image = program;
    g.image_length = sizeof program;
    program[13] = 0x15;
    for (op = 0; op < sizeof opcodes; op++) {
        program[12] = opcodes[op];
        for (value = 0; value < 256; value++) {
            for (flags = 0; flags < 64; flags++) {
                g.saved[0x15] = (uint8_t)value;
                compare_values(&g, (uint8_t)(flags * 4 + (value + flags) % 4));
            }
        }
    }
}

/* RCF SCF CCF, and JP cc and JR cc for the sixteen conditions: all of FLAGS. */
static void compare_flag_values(void)
{
    uint8_t program[15] = {0};
    struct given g;
    unsigned opcode, flags;

    plain_machine(&g, "z8_step, all of FLAGS");
    g.image = program;
    g.image_length = sizeof program;
    program[13] = 0x8F;
    program[14] = 0x21;
    for (opcode = 0; opcode < 256; opcode++) {
        int takes_flags =
            opcode == 0xCF || opcode == 0xDF || opcode == 0xEF || opcode % 16 == 0xB || opcode % 16 == 0xD;

        program[12] = (uint8_t)opcode;
        for (flags = 0; takes_flags && flags < 256; flags++) {
            compare_values(&g, (uint8_t)flags);
        }
    }
}

/* DECW and INCW %14: all words, on a FLAGS byte of zeros and on one of ones. DJNZ r5 and the displacements:
   all bytes of both. */
static void compare_word_values(void)
{
    uint8_t program[14] = {0};
    struct given g;
    unsigned up, word;

    plain_machine(&g, "z8_step, words");
    g.image = program;
    g.image_length = sizeof program;
    program[13] = 0x14;
    for (up = 0; up < 2; up++) {
        program[12] = up ? 0xA0 : 0x80;
        for (word = 0; word < 65536; word++) {
            g.saved[0x14] = (uint8_t)(word / 256);
            g.saved[0x15] = (uint8_t)word;
            compare_values(&g, 0x00);
            compare_values(&g, 0xFF);
        }
    }
    program[12] = 0x5A;
    for (word = 0; word < 65536; word++) {
        program[13] = (uint8_t)(word / 256);
        g.saved[0x15] = (uint8_t)word;
        compare_values(&g, 0);
    }
}

/* ---- Interrupts: every IPR with every set of requests ---- */

static void compare_priorities(void)
{
    uint8_t program[13];
    struct given g;
    unsigned ipr, requests;

    plain_machine(&g, "z8_step, every IPR");
    release_requests(g.saved);
    for (requests = 0; requests < sizeof program; requests++) {
        program[requests] = (uint8_t)(0xA0 + requests); /* six vectors that differ, and an EI */
    }
    program[12] = 0x9F;
    g.image = program;
    g.image_length = sizeof program;
    g.saved[SPL] = 0x80;
    for (ipr = 0; ipr < 256; ipr++) {
        g.saved[IPR] = (uint8_t)ipr;
        for (requests = 0; requests < 64; requests++) {
            g.saved[IRQ] = (uint8_t)requests;
            g.saved[IMR] = 0xBF;
            compare_values(&g, 0x55);
            g.saved[IRQ] = 0x3F;
            g.saved[IMR] = (uint8_t)(0x80 + requests);
            compare_values(&g, 0xAA);
        }
    }
}

/* ---- The memories' edges ---- */

#define EDGE_PC 0x0200u

/* With RR2 and the external stack pointer at that address: what loads, stores, pushes and pops there. */
static void compare_at_address(struct given *g, unsigned address)
{
    static const uint8_t instructions[][3] = {
        {0x82, 0x42, 0},       /* LDE R4,@RR2 */
        {0x92, 0x42, 0},       /* LDE @RR2,R4 */
        {0xC2, 0x42, 0},       /* LDC R4,@RR2 */
        {0x70, 0x14, 0},       /* PUSH %14 */
        {0x50, 0x15, 0},       /* POP %15 */
        {0xD6, 0x12, 0x34},    /* CALL %1234 */
        {0xAF, 0, 0},          /* RET */
        {0xBF, 0, 0},          /* IRET */
    };
    size_t k;

    g->saved[0x12] = g->saved[SPH] = (uint8_t)(address / 256);
    g->saved[0x13] = g->saved[SPL] = (uint8_t)address;
    g->saved[IRQ] = g->saved[IMR] = 0;
    for (k = 0; k < sizeof instructions / sizeof instructions[0]; k++) {
        compare_instruction(g, instructions[k]);
        g->number++;
    }
    g->saved[IRQ] = 0x01; /* an interrupt's entry */
    g->saved[IMR] = 0x81;
    compare_instruction(g, instructions[0]);
    g->number++;
}

/* As much data memory, and so long an image, with each address about each end. */
static void compare_edges_of(struct given *g, uint32_t length)
{
    const uint32_t edges[] = {0, 2048, 4096, length, 65536};
    unsigned edge, near;

    g->data = first_memory.bytes;
    g->data_length = length;
    g->image = image;
    g->image_length = length > EDGE_PC + 3 ? length : MEMORY;
    for (edge = 0; edge < sizeof edges / sizeof edges[0]; edge++) {
        for (near = 0; near < 9; near++) {
            compare_at_address(g, (edges[edge] + near + 65532) % 65536);
        }
    }
}

static void compare_memory_edges(void)
{
    static const uint32_t lengths[] = {0,    1,    100,  2047, 2048, 2049,  2050,
                                       4095, 4096, 4097, 4098, 4200, 65535, 65536};
    struct given g;
    size_t k;

    plain_machine(&g, "z8_step, at an edge of a memory");
    release_requests(g.saved); /* for the interrupt's entry */
    set_pc(&g, EDGE_PC);
    g.saved[P01M] = 0;
    g.saved[IPR] = 0x08;
    g.saved[0x14] = 0xC7;
    for (k = 0; k < sizeof lengths / sizeof lengths[0]; k++) {
        g.saved[Z8_AT_TYPE] = Z8_TYPE_Z8601;
        compare_edges_of(&g, lengths[k]);
        g.saved[Z8_AT_TYPE] = Z8_TYPE_Z8611;
        compare_edges_of(&g, lengths[k]);
    }
    compare_whole_memories();
}

/* ---- Runs ---- */

static uint32_t draw_budget(struct dice *d)
{
    static const uint32_t edges[] = {0, 1, 5, 6, 7, 12, 13, 20, 59, 60, 61, 62, 63, 64};

    return one_in(d, 2) ? one_of(d, edges, sizeof edges / sizeof edges[0]) : below(d, 1500);
}

/* Random bytes, of which those that are undefined opcodes mostly give way to others, so that runs last. */
static void draw_program(struct dice *d, uint8_t *program, size_t length)
{
    size_t at;

    for (at = 0; at < length; at++) {
        program[at] = any_byte(d);
        if (!ref_defined(program[at]) && !one_in(d, 8)) {
            program[at] = (uint8_t)(program[at] & 0x7F & ~0x0F);
        }
    }
}

static void compare_drawn_runs(unsigned long count)
{
    static uint8_t program[1024];
    unsigned long number, slice;

    for (number = 0; number < count; number++) {
        struct outcome expected;
        struct given g;
        struct dice d;

        dice_for_case(&d, seed + 2, number);
        draw_surroundings(&d, &g);
        g.call = "z8_run, a drawn program";
        g.number = number;
        g.image = program;
        g.image_length = 16 + below(&d, 1000);
        draw_program(&d, program, g.image_length);
        if (!one_in(&d, 8)) {
            set_pc(&g, below(&d, (uint32_t)g.image_length));
        }
        for (slice = 0; slice < 4; slice++) {
            g.amount = draw_budget(&d);
            draw_pins(&d, &g);
            note(agree(&g, run_of_reference, run_of_library, 1, &expected));
            see_run(&g, &expected);
            memcpy(g.saved, expected.saved, Z8_SAVED_LEN);
        }
        restore_memories();
    }
}

/* 01, edges to run: "budget 1,000,000 and 1,000,001". A jump to itself, and NOPs all over program memory, with
   timers and interrupts as they come. */
static void compare_budgets_at_the_limit(void)
{
    static const uint8_t program[14] = {[12] = 0x8B, 0xFE}; /* JR to itself */
    static const uint32_t budgets[] = {999998, 999999, 1000000, 1000001, 1000002, 1000003, 4294967295u};
    struct outcome expected;
    struct given g;
    struct dice d;
    size_t k;

    for (k = 0; k < sizeof budgets / sizeof budgets[0]; k++) {
        plain_machine(&g, "z8_run, a budget at the limit");
        g.number = k;
        g.image = program;
        g.image_length = sizeof program;
        g.amount = budgets[k];
        note(agree(&g, run_of_reference, run_of_library, 0, &expected));

        dice_for_case(&d, seed + 13, k);
        draw_surroundings(&d, &g);
        g.call = "z8_run, a budget at the limit, of a drawn machine";
        g.number = k;
        g.image = NULL;
        g.image_length = 0;
        g.amount = budgets[k];
        note(agree(&g, run_of_reference, run_of_library, 1, &expected));
        restore_memories();
    }
}

/* A program from reset, in slices, with pins that change between them. */
static void compare_program(const char *name, unsigned long number, const uint8_t *program, size_t length,
                            int has_to_go_on)
{
    uint32_t spent = 0, most = 1000000;
    struct outcome expected;
    struct given g;
    struct dice d;

    dice_for_case(&d, seed + 3, number);
    plain_machine(&g, name);
    g.saved[RP] = 0;
    g.number = number;
    g.image = program;
    g.image_length = length;
    g.data = first_memory.bytes;
    g.data_length = number % 2 ? MEMORY : 8192;
    while (spent < most) {
        g.amount = one_in(&d, 16) ? 100000 : draw_budget(&d) * (1 + below(&d, 5));
        draw_pins(&d, &g);
        note(agree(&g, run_of_reference, run_of_library, 1, &expected));
        memcpy(g.saved, expected.saved, Z8_SAVED_LEN);
        spent += expected.cycles + 1;
        if (expected.answer != 0) {
            if (has_to_go_on) {
                printf("%s: stopped by %lu, so it isn't the program that it should be\n", name,
                       (unsigned long)expected.answer);
            }
            note(!has_to_go_on);
            break;
        }
    }
    expected_memory = first_memory;
    found_memory = first_memory;
}

static void compare_written_programs(void)
{
    uint8_t bytes[PROGRAM_SIZE];
    size_t which;

    for (which = 0; which < PROGRAMS; which++) {
        const char *name = written_program(which, bytes);

        compare_program(name, which, bytes, sizeof bytes, 1);
    }
}

static void compare_image_file(const char *path, unsigned long number)
{
    static uint8_t bytes[MEMORY];
    FILE *file = fopen(path, "rb");
    size_t length;

    if (file == NULL) {
        printf("compare: no image %s\n", path);
        note(0);
        return;
    }
    length = fread(bytes, 1, sizeof bytes, file);
    fclose(file);
    note(length > 0);
    compare_program(path, 100 + number, bytes, length, 1);
}

/* ---- Spans ---- */

static void compare_spans(unsigned long count, uint32_t longest, const char *call)
{
    struct outcome expected;
    unsigned long number;

    for (number = 0; number < count; number++) {
        struct given g;
        struct dice d;

        dice_for_case(&d, seed + 4 + longest, number);
        draw_surroundings(&d, &g);
        g.call = call;
        g.number = number;
        g.amount = below(&d, 1 + (one_in(&d, 4) ? 64 : longest));
        note(agree(&g, span_of_reference, span_of_library, 0, &expected));
        see_span(&g, &expected);
    }
}

/* A long span against itself in two parts, of which the first or the second may be short enough for the
   reference: 01 has the span's cycles in turn, so span(a) and then span(b) is span(a + b). */
static void compare_composed_spans(unsigned long count)
{
    unsigned long number;

    for (number = 0; number < count; number++) {
        struct outcome whole, part, rest;
        struct given g;
        struct dice d;
        uint32_t total;

        dice_for_case(&d, seed + 5, number);
        draw_surroundings(&d, &g);
        g.call = "z8_span, in two parts (expected) and in one (found)";
        g.number = number;
        /* Long, or about as long as a character. */
        total = one_in(&d, 4) ? 4294967295u : one_in(&d, 2) ? (uint32_t)throw64(&d) : below(&d, 200000);
        g.amount = total;
        span_of_library(&g, &whole);
        g.amount = one_in(&d, 2) ? below(&d, 1000) : (uint32_t)(throw64(&d) % ((uint64_t)total + 1));
        g.amount = g.amount > total ? total : g.amount;
        if (g.amount < 1000) {
            span_of_reference(&g, &part);
        } else {
            span_of_library(&g, &part);
        }
        {
            struct given second = g;

            memcpy(second.saved, part.saved, Z8_SAVED_LEN);
            second.amount = total - g.amount;
            span_of_library(&second, &rest);
        }
        rest.ends0 += part.ends0;
        rest.ends1 += part.ends1;
        note(part.answer == 0);
        note(same_outcome(&g, &rest, &whole));
        see_long_span(&g, &whole);
    }
}

/* ---- Checking, making, resetting, decoding, encoding ---- */

/* Legal machines, such with one or two bytes of any value, and such that differ in byte 267 alone: another of
   its bits set, or requests before EI. */
static void draw_checked_machine(struct dice *d, struct given *g, unsigned long number)
{
    unsigned changes;

    draw_surroundings(d, g);
    g->number = number;
    if (one_in(d, 4)) {
        g->saved[Z8_AT_BITS] ^= (uint8_t)(1u << below(d, 8));
        return;
    }
    for (changes = below(d, 3); changes > 0; changes--) {
        g->saved[one_in(d, 2) ? below(d, Z8_SAVED_LEN) : 0xF0 + below(d, Z8_SAVED_LEN - 0xF0)] =
            one_in(d, 2) ? any_byte(d) : (uint8_t)below(d, 18);
    }
}

static void compare_checks_and_resets(unsigned long count)
{
    struct outcome expected;
    unsigned long number;

    for (number = 0; number < count; number++) {
        struct given g;
        struct dice d;

        dice_for_case(&d, seed + 6, number);
        draw_checked_machine(&d, &g, number);
        g.call = "z8_check";
        note(agree(&g, check_of_reference, check_of_library, 0, &expected));
        see_check(&g, &expected);
        g.call = "z8_reset";
        note(agree(&g, reset_of_reference, reset_of_library, 0, &expected));
        see_reset(&g, &expected);
    }
}

static void compare_makings(void)
{
    struct outcome expected;
    struct given g;
    struct dice d;
    unsigned type, cost;

    dice_for_case(&d, seed + 8, 0);
    draw_surroundings(&d, &g);
    memset(g.saved, 0xEE, Z8_SAVED_LEN); /* no legal machine: making doesn't ask what was there */
    g.call = "z8_make, amount being the type and 1000 x the entry cost";
    for (type = 0; type < 300; type++) {
        for (cost = 0; cost<300; cost += type> 12 ? 20 : 1) {
            g.amount = type + 1000 * cost;
            note(agree(&g, make_of_reference, make_of_library, 0, &expected));
        }
    }
    /* 01: "type 11 and entry cost 20 unless others are named". */
    g.call = "z8_make_default";
    g.amount = 11 + 1000 * 20;
    note(agree(&g, make_of_reference, make_default_of_library, 0, &expected));
}

static void compare_codes(void)
{
    unsigned opcode, operand;
    struct dice d;

    dice_for_case(&d, seed + 9, 0);
    for (opcode = 0; opcode < 256; opcode++) {
        for (operand = 0; operand < 256; operand++) {
            uint8_t program[3];

            note(encodings_agree((uint8_t)opcode, (uint8_t)operand, 0));
            note(encodings_agree((uint8_t)opcode, 0, (uint8_t)operand));
            note(encodings_agree((uint8_t)opcode, (uint8_t)operand, any_byte(&d)));
            program[0] = (uint8_t)opcode;
            program[1] = (uint8_t)operand;
            program[2] = any_byte(&d);
            note(decodings_agree(program, below(&d, 4), (uint16_t)below(&d, 2)));
            note(decodings_agree(program, 3, 0));
        }
    }
    for (operand = 0; operand < 65536; operand++) {
        note(decodings_agree(image, MEMORY, (uint16_t)operand));
    }
    note(decodings_agree(NULL, 0, 0));
    note(decodings_agree(NULL, 0, 0xFFFF));
}

int main(int argc, char **argv)
{
    unsigned long count;
    int k;

    if (argc < 4) {
        printf("usage: compare SEED COUNT IMAGE...\n");
        return 2;
    }
    seed = strtoul(argv[1], NULL, 10);
    count = strtoul(argv[2], NULL, 10);
    fill_memories();

    compare_drawn_steps(count);
    compare_operand_bytes();
    compare_registers();
    compare_port_modes();
    compare_control_stores();
    compare_two_operand_values();
    compare_one_operand_values();
    compare_flag_values();
    compare_word_values();
    compare_priorities();
    compare_memory_edges();
    compare_drawn_runs(1 + count / 20);
    compare_budgets_at_the_limit();
    compare_written_programs();
    for (k = 3; k < argc; k++) {
        compare_image_file(argv[k], (unsigned long)k);
    }
    compare_spans(1 + count / 8, 4096, "z8_span, short");
    compare_spans(1 + count / 2000, 1048576, "z8_span, long");
    compare_composed_spans(1 + count / 10);
    compare_checks_and_resets(1 + count / 4);
    compare_makings();
    compare_codes();

    check_what_happened(count);
    printf("compare: seed %lu, %lu steps, %lu checks, %lu failed\n", seed, steps, checks, failed);
    return failed != 0;
}
