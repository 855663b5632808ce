/* The worked examples of the 1983 manual (source document 004), chapters 3, 4, 5, 10, 11 and 12, each run by
   z8_step and by the reference. The numbers are the manual's. What a page leaves open (flags that it doesn't
   name, the type) is run both ways.

   Read from the text of 004, whose reading has faults of its own: O for 0, D for 0, @ as O, G or e. Where
   only the sign is spoilt ("ADC SUM, OR10" for "ADC SUM,@R10") the example counts as readable and stands in
   the first list. Where a number is spoilt, or the page contradicts itself or a HOUSE rule of 01, it stands
   in the second list with what is wrong.

   What can't be read: TCM's page, example and all, is lost; so are the drawings of chapters 3 and 4 (Figures
   3-1 to 3-8, 4-1 to 4-8), which hold those chapters' examples, and the figures of 10 to 12. IRET, NOP, RCF
   and SCF have no example. "AND R, MASK performs a bit clear operation" (3.2) has no numbers. */
#include <stdio.h>
#include <stdlib.h>
#include <string.h>

#include "../include/z8.h"
#include "reference/machine.h"
#include "reference/step.h"

enum { P3 = 0x03, SIO = 0xF0, TMR = 0xF1, T1 = 0xF2, PRE1 = 0xF3, T0 = 0xF4, PRE0 = 0xF5 };
enum { P3M = 0xF7, P01M = 0xF8, IPR = 0xF9, IRQ = 0xFA, IMR = 0xFB, FLAGS = 0xFC, RP = 0xFD };

enum { C = 0x80, Z = 0x40, S = 0x20, V = 0x10, D = 0x08, H = 0x04 };

#define MEMORY 65536u

static unsigned long checks, failed;

static int check(unsigned long expected, unsigned long found, const char *who, const char *where,
                 const char *what)
{
    checks++;
    if (expected != found) {
        failed++;
        printf("FAILED (%s): %s: %s: the manual has %lu (%lX), found %lu (%lX)\n", who, where, what, expected,
               expected, found, found);
    }
    return expected == found;
}

/* ---- A machine in the hands of the library or of the reference ---- */

static uint8_t saved[Z8_SAVED_LEN], image[MEMORY], data[MEMORY];
static uint32_t last_cycles, all_ends0, all_ends1;

typedef uint32_t stepper(uint8_t pins3);
typedef void spanner(uint32_t cycles);

static uint32_t step_of_library(uint8_t pins3)
{
    uint32_t ends0, ends1, answer;

    answer = z8_step(saved, Z8_SAVED_LEN, image, MEMORY, data, MEMORY, 0xFF, 0xFF, 0xFF, pins3, &last_cycles,
                     &ends0, &ends1);
    if (answer == 0) {
        all_ends0 += ends0;
        all_ends1 += ends1;
    }
    return answer;
}

static uint32_t step_of_reference(uint8_t pins3)
{
    struct ref_pins pins = {{0xFF, 0xFF, 0xFF, 0}};
    struct ref_machine m;
    uint32_t ends0, ends1, answer;

    pins.port[3] = pins3;
    ref_load(&m, saved);
    answer = (uint32_t)ref_step(&m, &pins, image, MEMORY, data, MEMORY, &last_cycles, &ends0, &ends1);
    ref_save(&m, saved);
    if (answer == 0) {
        all_ends0 += ends0;
        all_ends1 += ends1;
    }
    return answer;
}

static void span_of_library(uint32_t cycles)
{
    uint32_t ends0, ends1;

    z8_span(saved, Z8_SAVED_LEN, cycles, &ends0, &ends1);
    all_ends0 += ends0;
    all_ends1 += ends1;
}

static void span_of_reference(uint32_t cycles)
{
    struct ref_machine m;
    uint32_t ends0, ends1;

    ref_load(&m, saved);
    ref_span(&m, cycles, &ends0, &ends1);
    ref_save(&m, saved);
    all_ends0 += ends0;
    all_ends1 += ends1;
}

struct engine {
    const char *name;
    stepper *step;
    spanner *span;
};

static const struct engine engines[2] = {{"the library", step_of_library, span_of_library},
                                         {"the reference", step_of_reference, span_of_reference}};

/* A new machine with working registers 16 to 31, nothing but NOPs in program memory. */
static void new_machine(unsigned type)
{
    z8_make(saved, Z8_SAVED_LEN, type, 20);
    saved[RP] = 0x10;
    memset(image, 0xFF, MEMORY);
    memset(data, 0x99, MEMORY);
    all_ends0 = all_ends1 = 0;
}

/* 10.4.3: "IRQ is held in a Reset state until an EI instruction is executed." As after that instruction, so
   that requests are latched. */
static void release_requests(void)
{
    saved[Z8_AT_BITS] = Z8_EI_EXECUTED;
}

static void set_pc(unsigned pc)
{
    saved[Z8_AT_PC] = (uint8_t)(pc / 256);
    saved[Z8_AT_PC + 1] = (uint8_t)pc;
}

static unsigned long pc_now(void)
{
    return saved[Z8_AT_PC] * 256ul + saved[Z8_AT_PC + 1];
}

/* ---- Examples as lists of facts before and after ---- */

enum fact_kind { NO_FACT, REGISTER, REGISTER_PAIR, FLAG_BITS, COUNTER, PROGRAM, DATA };

struct fact {
    enum fact_kind kind;
    unsigned at, value;
};

#define REG(address, value) {REGISTER, (address), (value)}
#define R(n, value) {REGISTER, 0x10 + (n), (value)}
#define RR(n, value) {REGISTER_PAIR, 0x10 + (n), (value)}
#define PAIR(address, value) {REGISTER_PAIR, (address), (value)}
#define SET(flags) {FLAG_BITS, (flags), 0xFF}
#define CLEAR(flags) {FLAG_BITS, (flags), 0x00}
#define PC_IS(value) {COUNTER, 0, (value)}
#define PROG(address, value) {PROGRAM, (address), (value)}
#define MEM(address, value) {DATA, (address), (value)}
#define EXTERNAL_STACK REG(P01M, 0x00)
#define EI_EXECUTED REG(Z8_AT_BITS, Z8_EI_EXECUTED)
#define NO_EI_YET REG(Z8_AT_BITS, 0)
#define SP(value) PAIR(0xFE, (value))
#define NOTHING {NO_FACT, 0, 0}

#define FACTS_MOST 12

struct example {
    const char *where, *words;
    unsigned pc, steps;
    uint8_t length, bytes[16];
    struct fact before[FACTS_MOST], after[FACTS_MOST];
};

/* The registers that the pages name without a number. */
enum { SUM = 0x40, AUGEND = 0x41, TARGET = 0x42, TEST = 0x43, MINUEND = 0x44, SHIFTER = 0x45 };
enum { BCD = 0x46, TESTER = 0x47, MASK = 0x48, OLDBUF = 0x2F, NEWBUF = 0x4F };

static const struct example examples[] = {
    {"5.4.1",
     "If the contents of registers %43 and %08 are added and the result stored in %43 [...] ADD %43,%08 "
     "[...] 04 08 43",
     0x200, 1, 3, {0x04, 0x08, 0x43},
     {REG(0x43, 0x21), REG(0x08, 0x32)}, {REG(0x43, 0x53), REG(0x08, 0x32)}},
    {"5.4.1",
     "If [...] register %08 is a working register [...] ADD %43, R8 [...] 04 E8 43",
     0x200, 1, 3, {0x04, 0xE8, 0x43},
     {REG(0x43, 0x21), R(8, 0x32), REG(0x08, 0x77)}, {REG(0x43, 0x53), R(8, 0x32)}},
    {"5.5, Note 1",
     "the opcode of an ADC instruction using the addressing modes r (destination) and Ir (source) is 13",
     0x200, 1, 2, {0x13, 0x35},
     {R(3, 0x21), R(5, 0x30), REG(0x30, 0x32), SET(C)}, {R(3, 0x54), R(5, 0x30)}},
    {"ADC",
     "SUM contains %16, the C flag is set to 1, working register 10 contains %20 (32 decimal), and "
     "register 32 contains %10 [...] ADC SUM,@R10 leaves the value %27 in Register SUM. The C, Z, S, V, "
     "D, and H flags are all cleared.",
     0x200, 1, 3, {0x15, 0xEA, SUM},
     {REG(SUM, 0x16), SET(C), R(10, 0x20), REG(32, 0x10)}, {REG(SUM, 0x27), CLEAR(C | Z | S | V | D | H)}},
    {"ADD",
     "SUM contains %44 and the register named AUGEND contains %11 [...] ADD SUM, AUGEND leaves the "
     "value %55 in register SUM and leaves all flags cleared.",
     0x200, 1, 3, {0x04, AUGEND, SUM},
     {REG(SUM, 0x44), REG(AUGEND, 0x11)}, {REG(SUM, 0x55), CLEAR(C | Z | S | V | D | H)}},
    {"AND",
     "the immediate value %7B (01111011) and the register named TARGET contains %C3 [...] AND TARGET, "
     "#%7B leaves the value %43 (01000011) in register TARGET. The Z, V, and S flags are cleared.",
     0x200, 1, 3, {0x56, TARGET, 0x7B},
     {REG(TARGET, 0xC3)}, {REG(TARGET, 0x43), CLEAR(Z | V | S)}},
    {"CALL",
     "the contents of the PC are %1A47 and [the SP] %3002 [...] CALL %3521 causes the SP to be "
     "decremented to %3000, %1A4A [...] is stored in external data memory %3000-%3001, and the PC is "
     "loaded with %3521.",
     0x1A47, 1, 3, {0xD6, 0x35, 0x21},
     {EXTERNAL_STACK, SP(0x3002)},
     {SP(0x3000), MEM(0x3000, 0x1A), MEM(0x3001, 0x4A), PC_IS(0x3521), MEM(0x2FFF, 0x99),
      MEM(0x3002, 0x99)}},
    {"CCF",
     "If the C flag contains a 0, the statement CCF will change the 0 to 1.",
     0x200, 1, 1, {0xEF},
     {CLEAR(C)}, {SET(C)}},
    {"CCF",
     "if C = 1, it is changed to C = 0, and vice-versa",
     0x200, 1, 1, {0xEF},
     {SET(C)}, {CLEAR(C)}},
    {"CLR",
     "If working register 6 contains %AF, the statement CLR R6 will leave the value 0 in that register",
     0x200, 1, 2, {0xB0, 0xE6},
     {R(6, 0xAF)}, {R(6, 0)}},
    {"COM",
     "If working register 8 contains %24 [...] COM R8 leaves the value %DB (11011011) in that register. "
     "The Z and V flags are cleared and the S flag is set.",
     0x200, 1, 2, {0x60, 0xE8},
     {R(8, 0x24)}, {R(8, 0xDB), CLEAR(Z | V), SET(S)}},
    {"CP",
     "TEST contains %63, working register 0 contains %30 (48 decimal), and register 48 contains %63 "
     "[...] CP TEST,@R0 sets (only) the Z flag.",
     0x200, 1, 3, {0xA5, 0xE0, TEST},
     {REG(TEST, 0x63), R(0, 0x30), REG(48, 0x63), CLEAR(Z | D | H)},
     {SET(Z), CLEAR(C | S | V | D | H), REG(TEST, 0x63)}},
    {"CP",
     "If this statement is followed by \"JP EQ, true_routine\", the jump is taken.",
     0x200, 2, 6, {0xA5, 0xE0, TEST, 0x6D, 0x12, 0x34},
     {REG(TEST, 0x63), R(0, 0x30), REG(48, 0x63)}, {PC_IS(0x1234)}},
    {"DA",
     "addition is performed using the BCD values 15 and 27 [...] = %3C",
     0x200, 1, 3, {0x06, BCD, 0x27},
     {REG(BCD, 0x15)}, {REG(BCD, 0x3C)}},
    {"DA",
     "The DA statement adjusts this result [...] = 42 The C, Z, and S flags are cleared",
     0x200, 2, 5, {0x06, BCD, 0x27, 0x40, BCD},
     {REG(BCD, 0x15)}, {REG(BCD, 0x42), CLEAR(C | Z | S)}},
    {"DEC",
     "If working register 10 contains %2A, the statement DEC R10 leaves the value %29 in that register. "
     "The Z, V, and S flags are cleared.",
     0x200, 1, 2, {0x00, 0xEA},
     {R(10, 0x2A)}, {R(10, 0x29), CLEAR(Z | V | S)}},
    {"DECW",
     "If working register 0 contains %30 (48 decimal) and registers 48-49 contain the value %FAF3, the "
     "statement DECW @R0 leaves the value %FAF2 in registers 48 and 49. The Z and V flags are cleared "
     "and S is set.",
     0x200, 1, 2, {0x81, 0xE0},
     {R(0, 0x30), PAIR(48, 0xFAF3)}, {PAIR(48, 0xFAF2), CLEAR(Z | V), SET(S)}},
    {"DI",
     "If control register 251 contains %8A [...] DI sets control register 251 to %0A",
     0x200, 1, 1, {0x8F},
     {REG(251, 0x8A)}, {REG(251, 0x0A)}},
    {"DJNZ",
     "LD R6,#12 / LOOP: LD R9,OLDBUF(R6) / LD NEWBUF(R6),R9 / DJNZ R6,LOOP (12 bytes are moved): the "
     "first and the last",
     0x200, 37, 10, {0x6C, 12, 0xC7, 0x96, OLDBUF, 0xD7, 0x96, NEWBUF, 0x6A, 0xF8},
     {REG(OLDBUF, 1), REG(OLDBUF + 1, 2), REG(OLDBUF + 2, 3), REG(OLDBUF + 12, 13), REG(NEWBUF, 91),
      REG(NEWBUF + 1, 92), REG(NEWBUF + 12, 94), REG(NEWBUF + 13, 95)},
     {REG(NEWBUF, 91), REG(NEWBUF + 1, 2), REG(NEWBUF + 2, 3), REG(NEWBUF + 12, 13), REG(NEWBUF + 13, 95),
      R(6, 0), PC_IS(0x20A)}},
    {"EI",
     "If control register 251 contains %0A [...] EI sets control register 251 to %8A",
     0x200, 1, 1, {0x9F},
     {REG(251, 0x0A)}, {REG(251, 0x8A)}},
    {"INC",
     "If working register 10 contains %2A, the statement INC R10 leaves the value %2B in that register. "
     "The Z, V, and S flags are cleared.",
     0x200, 1, 1, {0xAE},
     {R(10, 0x2A)}, {R(10, 0x2B), CLEAR(Z | V | S)}},
    {"INC",
     "the same in the other format, INC R with E",
     0x200, 1, 2, {0x20, 0xEA},
     {R(10, 0x2A)}, {R(10, 0x2B), CLEAR(Z | V | S)}},
    {"INCW",
     "If working-register pair 0-1 contains the value %FAF3, the statement INCW RR0 leaves the value "
     "%FAF4 in working-register pair 0-1. The Z and V flags are cleared and S is set.",
     0x200, 1, 2, {0xA0, 0xE0},
     {RR(0, 0xFAF3)}, {RR(0, 0xFAF4), CLEAR(Z | V), SET(S)}},
    {"JP",
     "If the carry flag is set, the statement JP C,%1520 replaces the contents of the Program Counter "
     "with %1520",
     0x200, 1, 3, {0x7D, 0x15, 0x20},
     {SET(C)}, {PC_IS(0x1520)}},
    {"JP",
     "Had the carry flag not been set, control would have fallen through to the statement following the "
     "JP.",
     0x200, 1, 3, {0x7D, 0x15, 0x20},
     {CLEAR(C)}, {PC_IS(0x203)}},
    {"JR",
     "[If the result of the last operation i]s negative, the following [... are s]kipped with the "
     "statement JR MI,$+9",
     0x200, 1, 2, {0x5B, 0x07},
     {SET(S)}, {PC_IS(0x209)}},
    {"JR",
     "[If] the result is not neg[ative, execution continu]es with the statement following the [JR]",
     0x200, 1, 2, {0x5B, 0x07},
     {CLEAR(S)}, {PC_IS(0x202)}},
    {"JR",
     "JR LO [...] The condition code is \"blank\" in this case, and is assumed to be \"always true.\"",
     0x200, 1, 2, {0x8B, 0x10},
     {NOTHING}, {PC_IS(0x212)}},
    {"LD",
     "If working register 0 contains %0B (11 decimal) and working register 10 contains %83, the "
     "statement LD 240(R0),R10 will load the value %83 into register 251 (240 + 11). [...] The contents "
     "of working register 10 are unaffected by the load.",
     0x200, 1, 3, {0xD7, 0xA0, 240},
     {R(0, 0x0B), R(10, 0x83)}, {REG(251, 0x83), R(10, 0x83)}},
    {"LDC",
     "If the working-register pair 6-7 contains %30A2 and program-memory location %30A2 contains the "
     "value %22, the statement LDC R2,@RR6 loads the value %22 into working register 2. The value of "
     "location %30A2 is unchanged by the load.",
     0x200, 1, 2, {0xC2, 0x26},
     {RR(6, 0x30A2), PROG(0x30A2, 0x22)}, {R(2, 0x22), PROG(0x30A2, 0x22)}},
    {"LDCI",
     "pair 6-7 contains %30A2 and program-memory locations %30A2 and %30A3 contain %22BC, and if "
     "working register R2 contains %20 (32 decimal), the statement LDCI @R2,@RR6 loads the value %22 "
     "into register 32.",
     0x200, 1, 2, {0xC3, 0x26},
     {RR(6, 0x30A2), PROG(0x30A2, 0x22), PROG(0x30A3, 0xBC), R(2, 0x20)},
     {REG(32, 0x22), R(2, 0x21), RR(6, 0x30A3)}},
    {"LDCI",
     "A second LDCI @R2,@RR6 loads the value %BC into register 33.",
     0x200, 2, 4, {0xC3, 0x26, 0xC3, 0x26},
     {RR(6, 0x30A2), PROG(0x30A2, 0x22), PROG(0x30A3, 0xBC), R(2, 0x20)},
     {REG(32, 0x22), REG(33, 0xBC), R(2, 0x22), RR(6, 0x30A4)}},
    {"LDE",
     "If the working-register pair 6-7 contains %404A and working register 2 contains %22, the "
     "statement LDE @RR6,R2 loads the value %22 into external data-memory location %404A.",
     0x200, 1, 2, {0x92, 0x26},
     {RR(6, 0x404A), R(2, 0x22)}, {MEM(0x404A, 0x22), MEM(0x404B, 0x99)}},
    {"LDEI",
     "pair 6-7 contains %404A, working register 2 contains %22 (34 decimal), and registers 34-35 "
     "contain %ABC3, the statement LDEI @RR6,@R2 loads the value %AB into external location %404A.",
     0x200, 1, 2, {0x93, 0x26},
     {RR(6, 0x404A), R(2, 0x22), PAIR(34, 0xABC3)}, {MEM(0x404A, 0xAB), MEM(0x404B, 0x99)}},
    {"LDEI",
     "A second LDEI @RR6,@R2 loads the value %C3 into external location %404B.",
     0x200, 2, 4, {0x93, 0x26, 0x93, 0x26},
     {RR(6, 0x404A), R(2, 0x22), PAIR(34, 0xABC3)}, {MEM(0x404A, 0xAB), MEM(0x404B, 0xC3)}},
    {"OR",
     "the immediate value %7B [...] TARGET contains %C3 [...] OR TARGET,#%7B leaves the value %FB "
     "(11111011) in register TARGET. The Z and V flags are cleared and S is set.",
     0x200, 1, 3, {0x46, TARGET, 0x7B},
     {REG(TARGET, 0xC3)}, {REG(TARGET, 0xFB), CLEAR(Z | V), SET(S)}},
    {"POP",
     "the SP (control registers 254-255) contains %1000, [external location] %1000 contains %55, and "
     "working register 6 contains %22 (34 decimal), the statement POP @R6 loads the value %55 into "
     "register 34. After [...] %1001.",
     0x200, 1, 2, {0x51, 0xE6},
     {EXTERNAL_STACK, SP(0x1000), MEM(0x1000, 0x55), R(6, 0x22)}, {REG(34, 0x55), SP(0x1001)}},
    {"RL",
     "SHIFTER are %88 (10001000), the statement RL SHIFTER leaves the value %11 (00010001) in that "
     "register. The C flag and V flags are set to 1 and the Z flag is cleared.",
     0x200, 1, 2, {0x90, SHIFTER},
     {REG(SHIFTER, 0x88)}, {REG(SHIFTER, 0x11), SET(C | V), CLEAR(Z)}},
    {"RLC",
     "If the [Carry flag is rese]t (to 0) and the register named SHIFTER contains %8F (10001111) [...] "
     "RLC SHIFTER sets the C flag and the V flag to 1 and SHIFTER contains %1E (00011110).",
     0x200, 1, 2, {0x10, SHIFTER},
     {REG(SHIFTER, 0x8F), CLEAR(C)}, {REG(SHIFTER, 0x1E), SET(C | V)}},
    {"RRC",
     "SHIFTER are %DD (11011101) and the Carry flag is reset to 0, the statement RRC SHIFTER sets the C "
     "flag and the V flag and leaves the value %6E (01101110) in the register.",
     0x200, 1, 2, {0xC0, SHIFTER},
     {REG(SHIFTER, 0xDD), CLEAR(C)}, {REG(SHIFTER, 0x6E), SET(C | V)}},
    {"SBC",
     "MINUEND contains %16, the Carry flag is set to 1, working register 10 contains %20 (32 decimal), "
     "and register 32 contains %05 [...] SBC MINUEND,@R10 leaves the value %10 in register MINUEND. The "
     "C, Z, V, S and H flags are cleared and D is set.",
     0x200, 1, 3, {0x35, 0xEA, MINUEND},
     {REG(MINUEND, 0x16), SET(C), R(10, 0x20), REG(32, 0x05)},
     {REG(MINUEND, 0x10), CLEAR(C | Z | V | S | H), SET(D)}},
    {"SRA",
     "SHIFTER contains %B8 (10111000), the statement SRA SHIFTER resets the C flag to 0 and leaves the "
     "value %DC (11011100) in register SHIFTER. The S flag is set to 1.",
     0x200, 1, 2, {0xD0, SHIFTER},
     {REG(SHIFTER, 0xB8)}, {REG(SHIFTER, 0xDC), CLEAR(C), SET(S)}},
    {"SRP",
     "If the RP currently addresses the control and peripheral register group [...] SRP #%70 [...] "
     "setting the RP to %70",
     0x200, 1, 2, {0x31, 0x70},
     {REG(RP, 0xF0), REG(IPR, 0x2C)}, {REG(RP, 0x70), REG(IPR, 0x2C)}},
    {"SRP",
     "Any reference to working registers in the interrupt [routine will point to registers 112-127]: "
     "SRP #%70, INC R0, INC R15",
     0x200, 3, 4, {0x31, 0x70, 0x0E, 0xFE},
     {REG(RP, 0xF0), REG(112, 5), REG(127, 6)}, {REG(112, 6), REG(127, 7)}},
    {"SUB",
     "MINUEND contains %29, the statement SUB MINUEND,#%11 will leave the value %18 in the register. "
     "The C, Z, V, S and H flags are cleared and D is set.",
     0x200, 1, 3, {0x26, MINUEND, 0x11},
     {REG(MINUEND, 0x29)}, {REG(MINUEND, 0x18), CLEAR(C | Z | V | S | H), SET(D)}},
    {"SWAP",
     "BCD_Operands contains %B3 (10110011). The statement SWAP BCD_Operands will leave the value %3B "
     "(00111011) in the register. The Z and S flags are cleared.",
     0x200, 1, 2, {0xF0, BCD},
     {REG(BCD, 0xB3)}, {REG(BCD, 0x3B), CLEAR(Z | S)}},
    {"3.2.1",
     "R243 and R245-R249 are write-only registers. If an attempt is made to read these registers, %FF "
     "is returned: R243, R245",
     0x200, 2, 4, {0x08, 243, 0x18, 245},
     {REG(243, 0x21), REG(245, 0x22)}, {R(0, 0xFF), R(1, 0xFF)}},
    {"3.2.1",
     "the same: R246 to R249",
     0x200, 4, 8, {0x08, 246, 0x18, 247, 0x28, 248, 0x38, 249},
     {REG(246, 0x21), REG(247, 0x22), REG(248, 0x04), REG(249, 0x24)},
     {R(0, 0xFF), R(1, 0xFF), R(2, 0xFF), R(3, 0xFF)}},
    {"3.2.1",
     "When register R253 (Register Pointer) is read, all 0s are returned in the least significant four "
     "bits.",
     0x200, 2, 5, {0xE6, 0xFD, 0x1B, 0x08, 0xFD},
     {NOTHING}, {R(0, 0x10)}},
    {"3.2.1",
     "When registers R0 and R1 [...] are defined as address outputs, they will return 1s in each "
     "address bit location when read. Writing to bits which are defined as address output [...] will "
     "have no effect.",
     0x200, 3, 7, {0xE6, 0x00, 0x25, 0x08, 0x00, 0x18, 0x01},
     {REG(P01M, 0x16), REG(0, 0x83), REG(1, 0x84)}, {REG(0, 0x23), R(0, 0x2F), R(1, 0xFF)}},
    {"10.5",
     "OR IRQ,#%2 00100000 [...] if the interrupt system is globally enabled, level 5 is enabled, and "
     "there are no higher priority pending requests, control is transferred to the service routine "
     "pointed to by the level 5 vector",
     0x200, 2, 3, {0x46, IRQ, 0x20},
     {EI_EXECUTED, REG(IPR, 0x08), REG(IMR, 0xA0), PROG(10, 0x43), PROG(11, 0x21), REG(0xFF, 0x60)},
     {PC_IS(0x4321), REG(IRQ, 0), REG(IMR, 0x20), REG(0x5E, 0x02), REG(0x5F, 0x03), REG(0xFF, 0x5D)}},
    {"10.7",
     "TM IRQ,#MASK / JR Z NEXT / CALL SERVICE, IRQ_2 polled, MASK 00000100: no request, so \"go to "
     "NEXT\"",
     0x200, 2, 8, {0x76, IRQ, 0x04, 0x6B, 0x03, 0xD6, 0x30, 0x00},
     {EI_EXECUTED, REG(IRQ, 0x3B), REG(0xFF, 0x60)}, {PC_IS(0x208), REG(IRQ, 0x3B)}},
    {"10.7",
     "\"If request is there then service it\": the same with AND IRQ,#MASK_ (11111011) / RET at "
     "SERVICE, \"Return to next\"",
     0x200, 5, 8, {0x76, IRQ, 0x04, 0x6B, 0x03, 0xD6, 0x30, 0x00},
     {EI_EXECUTED, REG(IRQ, 0x3F), REG(0xFF, 0x60), PROG(0x3000, 0x56), PROG(0x3001, IRQ), PROG(0x3002, 0xFB),
      PROG(0x3003, 0xAF)},
     {PC_IS(0x208), REG(IRQ, 0x3B), REG(0xFF, 0x60)}},
    {"10.6.2",
     "Push the old IMR on the stack. Load IMR with a new mask [...] Execute EI instruction. [...] execute DI "
     "instruction. Restore the IMR to its original value [...] Execute IRET.",
     0x200, 6, 10, {0x70, IMR, 0xE6, IMR, 0x20, 0x9F, 0x8F, 0x50, IMR, 0xBF},
     {REG(IMR, 0x3B), REG(0xFF, 0x5D), REG(0x5D, 0xA7), REG(0x5E, 0x12), REG(0x5F, 0x34)},
     {REG(IMR, 0xBB), REG(0xFF, 0x60), REG(FLAGS, 0xA7), PC_IS(0x1234)}},
    {"10.4.3",
     "CLR IMR / EI / DI",
     0x200, 3, 4, {0xB0, IMR, 0x9F, 0x8F},
     {EI_EXECUTED, REG(IMR, 0x3F), REG(IRQ, 0x3F)}, {REG(IMR, 0), REG(IRQ, 0x3F), PC_IS(0x204)}},
    {"10.4.3",
     "IRQ is held in a Reset state until an EI instruction is executed: LD IRQ,#%04 without one",
     0x200, 1, 3, {0xE6, IRQ, 0x04},
     {NOTHING}, {REG(IRQ, 0), NO_EI_YET}},
    {"10.4.3",
     "the same with an EI before: EI / LD IRQ,#%04",
     0x200, 2, 4, {0x9F, 0xE6, IRQ, 0x04},
     {NOTHING}, {REG(IRQ, 0x04), EI_EXECUTED}},
    {"10.4.3",
     "For polled processing, IRQ must still be initialized by an EI instruction, but IMR should first be "
     "cleared to 0 [...] CLR IMR / EI / DI, and then OR IRQ,#%04: it stands and isn't granted",
     0x200, 5, 8, {0xB0, IMR, 0x9F, 0x8F, 0x46, IRQ, 0x04, 0xFF},
     {REG(IPR, 0x08), REG(IMR, 0x3F)}, {REG(IMR, 0), REG(IRQ, 0x04), EI_EXECUTED, PC_IS(0x208)}},
    {"10.4.3",
     "\"until an EI instruction is executed\": LD IMR,#%FF / OR IRQ,#%04 is none",
     0x200, 2, 6, {0xE6, IMR, 0xFF, 0x46, IRQ, 0x04},
     {REG(IPR, 0x08)}, {REG(IMR, 0xFF), REG(IRQ, 0), NO_EI_YET, PC_IS(0x206)}},
    {"10.4.3",
     "the same: OR IMR,#%80 / OR IRQ,#%04",
     0x200, 2, 6, {0x46, IMR, 0x80, 0x46, IRQ, 0x04},
     {REG(IPR, 0x08), REG(IMR, 0x3F)}, {REG(IMR, 0xBF), REG(IRQ, 0), NO_EI_YET, PC_IS(0x206)}},
    {"10.4.2, 10.4.3",
     "[D_7 is] set following the execution of an Interrupt Return (IRET) instruction, which is no EI: IRET / "
     "OR IRQ,#%04",
     0x200, 2, 1, {0xBF},
     {REG(IPR, 0x08), REG(IMR, 0x3F), REG(0xFF, 0x5D), REG(0x5D, 0x00), REG(0x5E, 0x03), REG(0x5F, 0x00),
      PROG(0x300, 0x46), PROG(0x301, IRQ), PROG(0x302, 0x04)},
     {REG(IMR, 0xBF), REG(IRQ, 0), NO_EI_YET, PC_IS(0x303)}},
    {"10.5",
     "IRQ can be used to generate software interrupts by specifying IRQ as the destination of any "
     "instruction: not before EI. OR IRQ,#%20 reads 0, its flags go by %20, its store is dropped",
     0x200, 2, 5, {0x46, IRQ, 0x20, 0x08, IRQ},
     {REG(IPR, 0x08), REG(IMR, 0xA0)}, {REG(IRQ, 0), R(0, 0), CLEAR(Z | S | V), PC_IS(0x205)}},
    {"10.8",
     "[IMR] Bit D_6 is not implemented, though reading this bit returns 0. [IRQ] Bits D_6 and D_7 are "
     "not implemented, but reading these bits returns 0.",
     0x200, 4, 10, {0xE6, IMR, 0x7F, 0x08, IMR, 0xE6, IRQ, 0xFF, 0x18, IRQ},
     {EI_EXECUTED}, {R(0, 0x3F), R(1, 0x3F)}},
    {"10.8",
     "IRQ bits D_0-D_5 are held at 0 until an EI instruction is executed: LD IRQ,#%FF / LD R1,IRQ / EI / LD "
     "IRQ,#%FF / LD R2,IRQ",
     0x200, 5, 11, {0xE6, IRQ, 0xFF, 0x18, IRQ, 0x9F, 0xE6, IRQ, 0xFF, 0x28, IRQ},
     {R(1, 0x77), R(2, 0x77)}, {R(1, 0), R(2, 0x3F), EI_EXECUTED}},
    {"11.3.1",
     "OR TMR,#%03 sets both D_0 and D_1 of TMR to 1. This loads the initial values of PRE_0 and T_0 "
     "into their respective counters and starts the count (\"The next internal clock resets bits D_0 "
     "and D_2 to 0\")",
     0x200, 1, 3, {0x46, TMR, 0x03},
     {REG(PRE0, 0x00), REG(T0, 0x37), REG(Z8_AT_T0_COUNTER, 9), REG(Z8_AT_T0_PRESCALER, 8)},
     {REG(TMR, 0x02), REG(Z8_AT_T0_COUNTER, 0x37), REG(Z8_AT_T0_PRESCALER, 64 - 10 / 4)}},
};

/* Examples that are misprinted or misread in the text of 004, or that a rule decides against. */
struct misprint {
    const char *where, *printed, *wrong, *rule;
    struct example as_ruled;
};

static const struct misprint misprints[] = {
    {"XOR",
     "%7B (011111011) [...] OR TARGET,#%7B leaves the value %B8 (10111000) in the register.",
     "the statement printed is OR, whose page gives %FB; nine binary digits",
     "XOR TARGET,#%7B: C3 XOR 7B = B8",
     {"XOR",
      "XOR TARGET,#%7B",
      0x200, 1, 3, {0xB6, TARGET, 0x7B},
      {REG(TARGET, 0xC3)}, {REG(TARGET, 0xB8), CLEAR(Z | V), SET(S)}}},
    {"RET",
     "location %2000 contains %18, and location %2001 contains %85 [...] the PC contains %18B5",
     "%85 and %18B5 don't agree",
     "PC is what the two locations hold: %18B5 comes from %B5, and %85 gives %1885",
     {"RET",
      "RET with %B5",
      0x3584, 1, 1, {0xAF},
      {EXTERNAL_STACK, SP(0x2000), MEM(0x2000, 0x18), MEM(0x2001, 0xB5)}, {SP(0x2002), PC_IS(0x18B5)}}},
    {"RET",
     "location %2001 contains %85",
     "as above",
     "%85 gives %1885",
     {"RET",
      "RET with %85",
      0x3584, 1, 1, {0xAF},
      {EXTERNAL_STACK, SP(0x2000), MEM(0x2000, 0x18), MEM(0x2001, 0x85)}, {SP(0x2002), PC_IS(0x1885)}}},
    {"TM",
     "MASK contains %D6 (D0D0D110), that is, bits 1 and 2 are being tested [...] results in the value "
     "%06 (00000110). [...] The Z and S flags are cleared.",
     "F6 AND D6 is D6, with S set; only bits 1 and 2 are named",
     "MASK is %06 (00000110): Z and S clear, JP NZ jumps, TESTER stays",
     {"TM",
      "TM TESTER,MASK with %06, then JP NZ",
      0x200, 2, 6, {0x74, MASK, TESTER, 0xED, 0x12, 0x34},
      {REG(TESTER, 0xF6), REG(MASK, 0x06)}, {REG(TESTER, 0xF6), CLEAR(Z | S), PC_IS(0x1234)}}},
    {"TM",
     "MASK contains %D6",
     "as above",
     "with %D6 the result is D6: S set, Z clear",
     {"TM",
      "TM TESTER,MASK with %D6",
      0x200, 1, 3, {0x74, MASK, TESTER},
      {REG(TESTER, 0xF6), REG(MASK, 0xD6)}, {REG(TESTER, 0xF6), CLEAR(Z), SET(S)}}},
    {"PUSH",
     "If the SP contains %1^n01, the statement PUSH FLAGS stores the contents of the register named "
     "FLAGS in location %1000. [...] the SP contains %1000.",
     "a figure of the SP can't be read",
     "SP - 1 is %1000, so it was %1001",
     {"PUSH",
      "PUSH FLAGS",
      0x200, 1, 2, {0x70, FLAGS},
      {EXTERNAL_STACK, SP(0x1001), REG(FLAGS, 0xB4)}, {SP(0x1000), MEM(0x1000, 0xB4), MEM(0x1001, 0x99)}}},
    {"RR",
     "working register 6 are $31 (00110001), the statement RR R6 sets the C flag to 1 and leaves the "
     "value % [lost] Since bit 7 now equals 1, the S flag and the V [lost]",
     "the value and the end of the sentence are lost",
     "RR of 31 is 98, with C, S and V set",
     {"RR",
      "RR R6",
      0x200, 1, 2, {0xE0, 0xE6},
      {R(6, 0x31)}, {R(6, 0x98), SET(C | S | V), CLEAR(Z)}}},
    {"JP",
     "The unconditional jump simply replaces the contents of the Program Counter with the contents of "
     "the specified register pair. Control then passes to the statement addressed by the PC, "
     "decremented by one.",
     "the second sentence contradicts the first",
     "PC is the pair's word, nothing is taken off",
     {"JP",
      "JP @RR4",
      0x200, 1, 2, {0x30, 0xE4},
      {RR(4, 0x1520)}, {PC_IS(0x1520)}}},
    {"11.4",
     "While programmed as T_OUT, P3_6 cannot be modified by a write to port register P3.",
     "01 (HOUSE): other port stores go to the latch, and an output bit reads its latch",
     "the latch takes the bit, and it reads so",
     {"11.4",
      "LD P3,#%40 / LD R0,P3 with T0 out",
      0x200, 2, 5, {0xE6, 0x03, 0x40, 0x08, 0x03},
      {REG(TMR, 0x40)}, {REG(0x03, 0x40), R(0, 0x4F)}}},
    {"9.5.1",
     "Port 3 outputs cannot be written if they are used for special functions.",
     "C-11: P3's bit 7 takes stores as in 01 (HOUSE: other port stores go to the latch)",
     "the latch takes the bit, and it reads so",
     {"9.5.1",
      "LD P3,#%80 / LD R0,P3 with the serial port on",
      0x200, 2, 5, {0xE6, 0x03, 0x80, 0x08, 0x03},
      {REG(P3M, 0x40)}, {REG(0x03, 0x80), R(0, 0x8F)}}},
    {"12.1",
     "a Serial I/O register SIO (%F1)",
     "%F1 is TMR; 12.3, 12.4 and 002 have SIO at %F0",
     "a store to %F0 begins a send",
     {"12.1",
      "LD %F0,#%4D with the serial port on",
      0x200, 1, 3, {0xE6, 0xF0, 0x4D},
      {REG(P3M, 0x40)}, {REG(Z8_AT_SENDER_PLACE, 1), REG(Z8_AT_SENDER_BITS, 0x4D), REG(TMR, 0)}}},
    {"12.2",
     "[PRE_0] should therefore be set to the Continuous mode (D_1 set to 1).",
     "11.3.2 has D_0 for it, and %9D, which the same page gives, has D_0 set and D_1 clear",
     "%9D is a modulo of 39 and Continuous mode: T_0 is loaded with 2 and goes on after its end",
     {"12.2",
      "LD PRE0,#%9D / LD T0,#%02 / LD TMR,#%03 and 51 NOPs: 10 + 51 x 6 cycles since the load, T_0's end "
      "after 2 x 39 x 4 = 312 and one tick more",
      0x200, 54, 9, {0xE6, PRE0, 0x9D, 0xE6, T0, 0x02, 0xE6, TMR, 0x03},
      {NOTHING}, {REG(TMR, 0x02), REG(Z8_AT_T0_COUNTER, 2), REG(Z8_AT_T0_PRESCALER, 38)}}},
    {"3.2.1, DJNZ",
     "Only registers R4-R127 can be used with this instruction [...] undefined results.",
     "01 has no such limit: registers follow the register rules",
     "DJNZ on SPH (254) counts it down",
     {"DJNZ",
      "DJNZ R14 with RP F0",
      0x200, 1, 2, {0xEA, 0x10},
      {REG(RP, 0xF0), REG(0xFE, 0x02)}, {REG(0xFE, 0x01), PC_IS(0x212)}}},
};

static void establish(const struct fact *f)
{
    switch (f->kind) {
    case NO_FACT:
        break;
    case REGISTER:
        saved[f->at] = (uint8_t)f->value;
        break;
    case REGISTER_PAIR:
        saved[f->at] = (uint8_t)(f->value / 256);
        saved[f->at + 1] = (uint8_t)f->value;
        break;
    case FLAG_BITS:
        saved[FLAGS] = (uint8_t)((saved[FLAGS] & ~f->at) | (f->value & f->at));
        break;
    case COUNTER:
        set_pc(f->value);
        break;
    case PROGRAM:
        image[f->at] = (uint8_t)f->value;
        break;
    case DATA:
        data[f->at] = (uint8_t)f->value;
        break;
    }
}

static void verify(const struct fact *f, const char *who, const struct example *e)
{
    switch (f->kind) {
    case NO_FACT:
        break;
    case REGISTER:
        check(f->value, saved[f->at], who, e->where, e->words);
        break;
    case REGISTER_PAIR:
        check(f->value, saved[f->at] * 256ul + saved[f->at + 1], who, e->where, e->words);
        break;
    case FLAG_BITS:
        check(f->value & f->at, saved[FLAGS] & f->at, who, e->where, e->words);
        break;
    case COUNTER:
        check(f->value, pc_now(), who, e->where, e->words);
        break;
    case PROGRAM:
        check(f->value, image[f->at], who, e->where, e->words);
        break;
    case DATA:
        check(f->value, data[f->at], who, e->where, e->words);
        break;
    }
}

static void run_example(const struct example *e, const struct engine *engine, unsigned type,
                        uint8_t other_flags)
{
    unsigned k;

    new_machine(type);
    saved[FLAGS] = other_flags;
    memcpy(image + e->pc, e->bytes, e->length);
    set_pc(e->pc);
    for (k = 0; k < FACTS_MOST; k++) {
        establish(&e->before[k]);
    }
    for (k = 0; k < e->steps; k++) {
        check(0, engine->step(0xFF), engine->name, e->where, "a step's answer");
    }
    for (k = 0; k < FACTS_MOST; k++) {
        verify(&e->after[k], engine->name, e);
    }
}

static void run_example_in_all_ways(const struct example *e)
{
    int way;

    for (way = 0; way < 8; way++) {
        run_example(e, &engines[way & 1], way & 2 ? Z8_TYPE_Z8601 : Z8_TYPE_Z8611, way & 4 ? 0xFF : 0x00);
    }
}

/* ---- What takes more than a list of facts ---- */

/* 3.4: "The first address available for a user program is location 12. This address is loaded into the
   Program Counter after a hardware reset." 10.8: "In IMR, bit D_7 is 0", "IRQ bits D_0-D_5 are held at
   0". 11.7: "the counter/timers are disabled [...] the counting modes are configured for Single-Pass and
   T_1's clock source is set for external. T_IN is set for External Clock mode, and the T_OUT mode is
   off." 9.7: "Ports 0, 1 and 2 are configured for input operation". */
static void check_reset(void)
{
    new_machine(Z8_TYPE_Z8601);
    memset(saved + 4, 0x5F, 0x7C);
    saved[IMR] = saved[PRE0] = saved[PRE1] = 0xFF;
    release_requests();
    saved[IRQ] = 0x3F;
    saved[TMR] = 0xFA;
    set_pc(0x1234);
    check(0, z8_reset(saved, Z8_SAVED_LEN), "z8_reset", "3.4", "the answer");
    check(12, pc_now(), "z8_reset", "3.4",
          "location 12 is loaded into the Program Counter after a hardware reset");
    check(0, saved[IMR] & 0x80, "z8_reset", "10.8", "In IMR, bit D_7 is 0");
    check(0, saved[IRQ], "z8_reset", "10.8", "IRQ bits D_0-D_5 are 0");
    check(0, saved[Z8_AT_BITS], "z8_reset", "10.8", "and held at 0 until an EI instruction is executed");
    check(0, saved[TMR], "z8_reset", "11.7", "disabled, External Clock mode, T_OUT off");
    check(0, saved[PRE0] & 1, "z8_reset", "11.7", "T0 Single-Pass");
    check(0, saved[PRE1] & 3, "z8_reset", "11.7", "T1 Single-Pass, external");
    check(0xFF, saved[0xF6], "z8_reset", "9.7", "Port 2 is input on all bits");
    check(0x49, saved[P01M] & 0xD9, "z8_reset", "9.7", "Ports 0 and 1 are input");
    check(0x5F, saved[0x7F], "z8_reset", "8, protected registers", "R127 stays");
}

/* Table 10-1: IRQ0 at 0,1; IRQ1 at 2,3; IRQ2 at 4,5; IRQ3 at 6,7; IRQ4 at 8,9; IRQ5 at 10,11; and the edges
   of P3_2, P3_3, P3_1, P3_0 for the first four. 10.6: "PUSH PC lower byte on stack", "PUSH PC upper byte",
   "PUSH FLAGS". */
static void check_vectors(const struct engine *engine)
{
    static const uint8_t line[4] = {0x04, 0x08, 0x02, 0x01};
    unsigned n, k;

    for (n = 0; n < 6; n++) {
        new_machine(Z8_TYPE_Z8611);
        for (k = 0; k < 12; k++) {
            image[k] = (uint8_t)(0x20 + k);
        }
        release_requests();
        saved[IPR] = 0x08;
        saved[IMR] = 0xBF;
        saved[0xFF] = 0x60;
        saved[FLAGS] = 0x5C;
        set_pc(0x1234);
        if (n >= 4) {
            saved[IRQ] = (uint8_t)(1 << n);
        }
        engine->step(n < 4 ? (uint8_t)~line[n] : 0xFF);
        check((0x20 + 2 * n) * 256 + 0x21 + 2 * n, pc_now(), engine->name, "Table 10-1", "vector");
        check(0x34, saved[0x5F], engine->name, "10.6", "PC lower byte pushed first");
        check(0x12, saved[0x5E], engine->name, "10.6", "PC upper byte next");
        check(0x5C, saved[0x5D], engine->name, "10.6", "FLAGS last");
    }
}

/* Which of six pending requests are granted in turn, as a number of six figures. */
static unsigned long grants_in_turn(const struct engine *engine, unsigned ipr)
{
    unsigned long order = 0;
    unsigned k;

    new_machine(Z8_TYPE_Z8611);
    for (k = 0; k < 12; k++) {
        image[k] = (uint8_t)(k % 2 == 0 ? 0x40 : k / 2); /* the vector's low byte tells which */
    }
    release_requests();
    saved[IPR] = (uint8_t)ipr;
    saved[IRQ] = 0x3F;
    for (k = 0; k < 6; k++) {
        saved[IMR] = 0xBF;
        saved[0xFF] = 0x60;
        engine->step(0xFF);
        order = order * 10 + saved[Z8_AT_PC + 1];
    }
    return order;
}

/* Table 10-2: the groups' members by D_1, D_2, D_5 and the groups' orders; 01 reads the orders' middle bit
   from D_3, as 10.4.1's text does, where the table's head has D_2. "There are 48 sequence possibilities for
   interrupts." */
static void check_priorities(const struct engine *engine)
{
    static const struct {
        unsigned bits;
        const char *groups;
    } orders[6] = {
        {0x01, "CAB"}, {0x08, "ABC"}, {0x09, "ACB"}, {0x10, "BCA"}, {0x11, "CBA"}, {0x18, "BAC"},
    };
    unsigned long seen[48], found, expected;
    unsigned different = 0, order, members, k;

    for (order = 0; order < 6; order++) {
        for (members = 0; members < 8; members++) {
            unsigned ipr = orders[order].bits | (members & 1 ? 0x02 : 0) | (members & 2 ? 0x04 : 0)
                           | (members & 4 ? 0x20 : 0);

            expected = 0;
            for (k = 0; k < 3; k++) {
                switch (orders[order].groups[k]) {
                case 'A':
                    expected = expected * 100 + (members & 4 ? 35 : 53);
                    break;
                case 'B':
                    expected = expected * 100 + (members & 2 ? 2 : 20);
                    break;
                default:
                    expected = expected * 100 + (members & 1 ? 41 : 14);
                    break;
                }
            }
            found = grants_in_turn(engine, ipr);
            check(expected, found, engine->name, "Table 10-2", "the order of the six requests");
            for (k = 0; k < different && seen[k] != found; k++) {
            }
            if (k == different) {
                seen[different++] = found;
            }
        }
    }
    check(48, different, engine->name, "10.4.1", "There are 48 sequence possibilities for interrupts.");
}

/* 11.3.2: "if the prescaler is set to divide by 3, the count sequence is: 3-2-1-3-2-1-3-2". */
static void check_prescaler_sequence(void)
{
    static const uint8_t sequence[8] = {3, 2, 1, 3, 2, 1, 3, 2};
    uint32_t ends0, ends1;
    int k;

    new_machine(Z8_TYPE_Z8611);
    saved[PRE0] = 3 * 4 + 1;
    saved[TMR] = 0x02;
    saved[Z8_AT_T0_PRESCALER] = 3;
    for (k = 0; k < 8; k++) {
        check(sequence[k], saved[Z8_AT_T0_PRESCALER], "z8_span", "11.3.2", "3-2-1-3-2-1-3-2");
        z8_span(saved, Z8_SAVED_LEN, 4, &ends0, &ends1);
    }
}

/* 11.3.2: "the counter/timer will either come to rest with its value at %00 (Single-Pass mode) or the initial
   value will be automatically reloaded", "IRQ_4 for T_0 and IRQ_5 for T_1". "i = t x p x v" with t four
   internal clocks. 11.4: "T_OUT toggles to its opposite state". */
static void check_span_ends(uint32_t span, uint32_t expected0, uint32_t expected1, const char *what)
{
    uint32_t ends0, ends1;

    z8_span(saved, Z8_SAVED_LEN, span, &ends0, &ends1);
    check(expected0, ends0, "z8_span, T_0", "11.3.2", what);
    check(expected1, ends1, "z8_span, T_1", "11.3.2", what);
}

/* T0 ends first, T1 some cycles later; with an EI executed, and without, where 10.8 has IRQ "held at 0" and
   02 "Ends are counted and T_OUT flips as before". */
static void check_end_of_count(int repeating, int released)
{
    const uint32_t interval0 = 4 * 5 * 7, interval1 = 4 * 5 * 8, turns = 10;

    new_machine(Z8_TYPE_Z8611);
    if (released) {
        release_requests();
    }
    saved[PRE0] = (uint8_t)(5 * 4 + repeating);
    saved[PRE1] = (uint8_t)(5 * 4 + 2 + repeating);
    saved[T0] = 7;
    saved[T1] = 8;
    saved[TMR] = 0x4A;
    saved[Z8_AT_T0_PRESCALER] = saved[Z8_AT_T1_PRESCALER] = 5;
    saved[Z8_AT_T0_COUNTER] = 7;
    saved[Z8_AT_T1_COUNTER] = 8;
    check_span_ends(interval0 - 1, 0, 0, "not before i = t x p x v");
    check(0, saved[IRQ], "z8_span", "11.3.2", "no request before");
    check_span_ends(1, 1, 0, "i = t x p x v");
    check(released ? 0x10 : 0, saved[IRQ], "z8_span", "11.3.2", "IRQ_4 for T_0");
    check(0, saved[Z8_AT_T_OUT], "z8_span", "11.4", "T_OUT toggles");
    check(repeating ? 7 : 0, saved[Z8_AT_T0_COUNTER], "z8_span", "11.3.2", "rest with %00, or reloaded: T0");
    check_span_ends(interval1 - interval0 - 1, 0, 0, "not before i = t x p x v");
    check_span_ends(1, 0, 1, "i = t x p x v");
    check(released ? 0x30 : 0, saved[IRQ], "z8_span", "11.3.2", "and IRQ_5 for T_1");
    check(0, saved[Z8_AT_T_OUT], "z8_span", "11.4", "T_OUT is T_0's");
    check(repeating ? 8 : 0, saved[Z8_AT_T1_COUNTER], "z8_span", "11.3.2", "rest with %00, or reloaded: T1");
    check_span_ends(turns * interval1, repeating ? (interval1 + turns * interval1) / interval0 - 1 : 0,
                    repeating ? turns : 0, "come to rest, or counting will continue");
    check(repeating ? 0x4A : 0x40, saved[TMR], "z8_span", "11.3.2", "come to rest, or continue: TMR");
    check(released ? 0x30 : 0, saved[IRQ], "z8_span", "11.3.2", "and no other request");
}

/* 11.6: T0 continuous and driving T_OUT, which is wired back to T_IN, T1's external clock. "On every other
   T_0 end-of-count, T_OUT undergoes a High-to-Low transition which causes T_1 to count. [...] Each time T_1's
   end-of-count is reached, interrupt request IRQ_5 is generated. Interrupt requests IRQ_2 [...] and IRQ_4
   [...] are also generated"; before EI it counts as well, and none is. */
static void check_cascade(const struct engine *engine, int released)
{
    unsigned long transitions = 0;
    int steps;

    new_machine(Z8_TYPE_Z8611);
    if (released) {
        release_requests();
    }
    saved[PRE0] = 10 * 4 + 1;
    saved[T0] = 10;
    saved[PRE1] = 3 * 4 + 1;
    saved[T1] = 2;
    saved[TMR] = 0x4A;
    saved[Z8_AT_T0_PRESCALER] = saved[Z8_AT_T0_COUNTER] = 10;
    saved[Z8_AT_T1_PRESCALER] = 3;
    saved[Z8_AT_T1_COUNTER] = 2;
    for (steps = 0; steps < 3000; steps++) {
        uint8_t wire = (uint8_t)(saved[Z8_AT_T_OUT] ? 0xFF : 0xFD);

        transitions += (saved[Z8_AT_PORT3] & 2) && !(wire & 2);
        engine->step(wire);
        if (saved[Z8_AT_T_OUT] && all_ends1 > 0) {
            check(transitions, all_ends0 / 2, engine->name, "11.6", "On every other T_0 end-of-count");
            check(transitions / 6, all_ends1, engine->name, "11.6", "T_1 counts the transitions");
        }
    }
    check(1, all_ends1 >= 3, engine->name, "11.6", "T_1's end-of-count is reached");
    check(released ? 0x34 : 0, saved[IRQ], engine->name, "11.6", "IRQ_5, IRQ_2 and IRQ_4 are generated");
}

/* 11.5: "Each High-to-Low transition on T_IN generates interrupt request IRQ_2, regardless of the selected
   T_IN mode or the enabled/disabled state of T_1." 11.5.1: in External Clock Input mode "an event is
   considered to be a High-to-Low transition on T_IN", and T_1 counts it. */
static void check_transitions(const struct engine *engine, unsigned mode, unsigned enabled)
{
    static const char words[] = "each High-to-Low transition on T_IN";
    unsigned counted = mode == 0 && enabled;

    new_machine(Z8_TYPE_Z8611);
    release_requests();
    saved[TMR] = (uint8_t)(mode * 0x10 + enabled * 0x08);
    saved[PRE1] = 10 * 4;
    saved[Z8_AT_T1_PRESCALER] = 10;
    engine->step(0xFF);
    check(0, saved[IRQ], engine->name, "11.5", words);
    saved[Z8_AT_T1_PRESCALER] = 10; /* what a gate may have let through while it was high */
    engine->step(0xFD);
    check(0x04, saved[IRQ], engine->name, "11.5", words);
    check(10 - counted, saved[Z8_AT_T1_PRESCALER], engine->name, "11.5.1", words);
    engine->step(0xFD);
    engine->step(0xFF);
    saved[Z8_AT_T1_PRESCALER] = (uint8_t)(10 - counted);
    engine->step(0xFD);
    check(10 - 2 * counted, saved[Z8_AT_T1_PRESCALER], engine->name, "11.5.1", words);
}

/* 11.5.2: "T_1 counts while T_IN is High and stops counting while T_IN is Low." Eight NOPs are 48 cycles, so
   12 ticks. */
static void check_gate(const struct engine *engine)
{
    int k;

    new_machine(Z8_TYPE_Z8611);
    release_requests();
    saved[TMR] = 0x18;
    saved[PRE1] = 60 * 4;
    saved[Z8_AT_T1_PRESCALER] = 60;
    for (k = 0; k < 8; k++) {
        engine->step(0xFF);
    }
    check(60 - 12, saved[Z8_AT_T1_PRESCALER], engine->name, "11.5.2", "T_1 counts while T_IN is High");
    for (k = 0; k < 8; k++) {
        engine->step(0xFD);
    }
    check(60 - 12, saved[Z8_AT_T1_PRESCALER], engine->name, "11.5.2", "and stops counting while T_IN is Low");
    check(0x04, saved[IRQ], engine->name, "11.5.2",
          "IRQ_2 is generated on the High-to-Low transition of T_IN");
}

static void check_t_in(const struct engine *engine)
{
    unsigned mode;

    for (mode = 0; mode < 4; mode++) {
        check_transitions(engine, mode, 0);
        check_transitions(engine, mode, 1);
    }
    check_gate(engine);
}

/* ---- Chapter 12 ---- */

static unsigned steps_taken;

#define STEPS_MOST 20000u

/* A step. Where it is refused, or T_0 doesn't come to its ends, the sequences below wouldn't come to theirs. */
static void take_step(const struct engine *engine, uint8_t pins3)
{
    steps_taken++;
    if (!check(0, engine->step(pins3), engine->name, "12", "a step's answer")
        || !check(1, steps_taken < STEPS_MOST, engine->name, "12", "T_0 ends")) {
        printf("manual: %lu checks, %lu failed, and stopped there\n", checks, failed);
        exit(1);
    }
}

/* The serial port on or off by P3M, T0 continuous and fresh from a load of p and t, EI executed. */
static void new_port(unsigned p3m, unsigned p, unsigned t)
{
    new_machine(Z8_TYPE_Z8611);
    release_requests();
    steps_taken = 0;
    saved[P3M] = (uint8_t)p3m;
    saved[PRE0] = (uint8_t)(p * 4 + 1);
    saved[T0] = (uint8_t)t;
    saved[TMR] = 0x02;
    saved[Z8_AT_T0_PRESCALER] = (uint8_t)p;
    saved[Z8_AT_T0_COUNTER] = (uint8_t)t;
}

/* LD dst,#byte. T0's ends are counted from here. */
static void load(const struct engine *engine, unsigned dst, unsigned byte, uint8_t pins3)
{
    image[0x300] = 0xE6;
    image[0x301] = (uint8_t)dst;
    image[0x302] = (uint8_t)byte;
    set_pc(0x300);
    all_ends0 = 0;
    take_step(engine, pins3);
}

/* 12.2: "bit rate = XTAL frequency / (2 x 4 x p x t x 16)". Table 12-1, by its columns; the frequencies in
   units of 100 Hz. The line of 110 is as near as the crystals come, the others are exact. */
struct rate {
    unsigned long rate, crystal;
    unsigned p, t;
};

static const struct rate rates[] = {
    {19200, 73728, 3, 1},  {9600, 73728, 3, 2},   {4800, 73728, 3, 4},   {2400, 73728, 3, 8},
    {1200, 73728, 3, 16},  {600, 73728, 3, 32},   {300, 73728, 3, 64},   {150, 73728, 3, 128},
    {110, 73728, 3, 175},  {4800, 79872, 13, 1},  {2400, 79872, 13, 2},  {1200, 79872, 13, 4},
    {600, 79872, 13, 8},   {300, 79872, 13, 16},  {150, 79872, 13, 32},  {110, 79872, 3, 189},
    {19200, 98304, 4, 1},  {9600, 98304, 4, 2},   {4800, 98304, 4, 4},   {2400, 98304, 4, 8},
    {1200, 98304, 4, 16},  {600, 98304, 4, 32},   {300, 98304, 4, 64},   {150, 98304, 4, 128},
    {110, 98304, 4, 175},  {9600, 110592, 9, 1},  {4800, 110592, 9, 2},  {2400, 110592, 9, 4},
    {1200, 110592, 9, 8},  {600, 110592, 9, 16},  {300, 110592, 9, 32},  {150, 110592, 9, 64},
    {110, 110592, 5, 157}, {4800, 116736, 19, 1}, {2400, 116736, 19, 2}, {1200, 116736, 19, 4},
    {600, 116736, 19, 8},  {300, 116736, 19, 16}, {150, 116736, 19, 32}, {110, 116736, 4, 207},
    {2400, 119808, 39, 1}, {1200, 119808, 39, 2}, {600, 119808, 39, 4},  {300, 119808, 39, 8},
    {150, 119808, 39, 16}, {110, 119808, 17, 50}, {19200, 122880, 5, 1}, {9600, 122880, 5, 2},
    {4800, 122880, 5, 4},  {2400, 122880, 5, 8},  {1200, 122880, 5, 16}, {600, 122880, 5, 32},
    {300, 122880, 5, 64},  {150, 122880, 5, 128}, {110, 122880, 8, 109},
};

/* Two internal clocks are one of the crystal, so that rate x 2 x the cycles of a bit is its frequency. The
   cycles are measured: %55 changes the line with every bit up to the first stop bit. */
static void check_rate(const struct engine *engine, const struct rate *r)
{
    uint32_t bit = 0;
    unsigned long per_second;
    unsigned k;

    new_port(0x40, r->p, r->t);
    saved[TMR] = 0;
    load(engine, SIO, 0x55, 0xFF);
    saved[TMR] = 0x02;
    saved[Z8_AT_DIVIDER] = 0;
    while (z8_p37(saved) == 0 && bit < 200000) {
        engine->span(4);
        bit += 4;
    }
    per_second = (r->crystal * 100 + bit) / (2ul * bit); /* to the nearest */
    check(r->rate, per_second, engine->name, "Table 12-1", "the bit rate");
    if (r->rate != 110) {
        check(r->crystal * 100, r->rate * 2 * bit, engine->name, "Table 12-1", "the bit rate, exactly");
    }
    for (k = 2; k <= 9; k++) {
        engine->span(bit - 1);
        check((k - 1) % 2, z8_p37(saved), engine->name, "12.4", "one bit per shift clock, to its last cycle");
        engine->span(1);
        check(k % 2, z8_p37(saved), engine->name, "12.4", "one bit per shift clock");
    }
    check(0, saved[IRQ], engine->name, "12.4", "no request within the character");
    engine->span(2 * bit - 1);
    check(0, saved[IRQ], engine->name, "12.4", "no request within the stop bits");
    engine->span(1);
    check(0x10, saved[IRQ], engine->name, "12.4", "IRQ_4 after the second stop bit");
}

/* 12.2: "given an input clock frequency (f_XTAL) of 11.9808 MHz and a selected bit rate of 1200 bits per
   second, the equation is satisfied by p=39 and t=2. Counter/timer T_0 should be set to %02. [...] the value
   of PRE_0 becomes %9D." "The bit rate generator is started by setting the Timer Mode register TMR (%F1) bits
   D_1 and D_0 both to 1". */
static void check_1200(const struct engine *engine)
{
    new_machine(Z8_TYPE_Z8611);
    load(engine, P3M, 0x40, 0xFF);
    load(engine, T0, 0x02, 0xFF);
    load(engine, PRE0, 0x9D, 0xFF);
    load(engine, SIO, 0x01, 0xFF);
    load(engine, TMR, 0x03, 0xFF); /* 40 cycles are over, so the divider is 0; its own 10 are the bit's */
    check(0, z8_p37(saved), engine->name, "12.2", "the start bit");
    engine->span(11980800 / 2 / 1200 - 10 - 1);
    check(0, z8_p37(saved), engine->name, "12.2", "to its last cycle");
    engine->span(1);
    check(1, z8_p37(saved), engine->name, "12.2", "1200 bits per second");
    engine->span(11980800 / 2 / 1200 - 1);
    check(1, z8_p37(saved), engine->name, "12.2", "and so the next");
    engine->span(1);
    check(0, z8_p37(saved), engine->name, "12.2", "1200 bits per second");
}

/* Characters as they stand in time on a line: the start bit, D_0 to D_7, two stop bits (Figures 12-8 and
   12-10; 02: "low bit first"), worked out by hand from the digits of the byte. */
struct sent {
    uint8_t written;     /* to the transmitter */
    const char *without; /* on P37 without parity */
    const char *with;    /* and with it */
};

static const struct sent sent[] = {
    {0x4D, "01011001011", "01011001111"}, /* 1001101 has four ones, so D_7 is a fifth */
    {0x43, "01100001011", "01100001011"}, /* 1000011 has three */
    {0xC3, "01100001111", "01100001011"}, /* so has this, and its D_7 is replaced */
    {0xB2, "00100110111", "00100110011"}, /* 0110010 has three */
    {0x00, "00000000011", "00000000111"}, /* none */
    {0x80, "00000000111", "00000000111"}, /* none but D_7, which is replaced by its like */
    {0x7F, "01111111011", "01111111011"}, /* seven */
    {0xFF, "01111111111", "01111111011"}, /* seven, and D_7 is replaced */
};

/* 12.4: "The transmitter then outputs one bit per shift clock, through Port 3 pin P3_7, until a start bit,
   the character written to the buffer, and two stop bits have been transmitted. [...] the output is again
   forced to a marking state. Interrupt request IRQ_4 is generated". 12.4.2: "If parity is on, bit D_7 of the
   data transmitted will be replaced by an odd parity bit." 12.2: T_0's end-of-count "no longer generates
   interrupt request IRQ_4". Eleven bits of 16 ends are 176. */
static void check_sent(const struct engine *engine, unsigned written, unsigned p3m, const char *line)
{
    new_port(p3m, 3, 1);
    check(1, z8_p37(saved), engine->name, "12.4", "a marking state");
    load(engine, SIO, written, 0xFF);
    while (all_ends0 < 176) {
        check(line[all_ends0 / 16] == '1', z8_p37(saved), engine->name, "12.4", line);
        check(0, saved[IRQ], engine->name, "12.2", "T_0's end-of-count generates no IRQ_4");
        take_step(engine, 0xFF);
    }
    check(176, all_ends0, engine->name, "12.4", "the 176th end");
    check(0x10, saved[IRQ], engine->name, "12.4", "IRQ_4 is generated");
    check(1, z8_p37(saved), engine->name, "12.4", "again a marking state");
}

struct received {
    const char *line;
    uint8_t without, with; /* in SIO, without parity and with it */
};

static const struct received received[] = {
    {"01011001011", 0x4D, 0xCD}, /* four ones: a parity error */
    {"01011001111", 0xCD, 0x4D}, /* five */
    {"01100001011", 0x43, 0x43}, /* three */
    {"01100001111", 0xC3, 0xC3}, /* four: an error */
    {"00100110111", 0xB2, 0xB2}, /* four: an error */
    {"00000000011", 0x00, 0x80}, /* none: an error */
    {"00000000111", 0x80, 0x00}, /* one */
    {"01111111011", 0x7F, 0x7F}, /* seven */
    {"01111111111", 0xFF, 0xFF}, /* eight: an error */
};

/* A character on P3_0 from its start edge to the 8 + 8 x 16 = 136th end, in the middle of D_7. */
static void receive(const struct engine *engine, const char *line)
{
    all_ends0 = 0;
    while (all_ends0 < 136) {
        check(0, saved[IRQ], engine->name, "12.3.1", "no request before the character is assembled");
        take_step(engine, line[all_ends0 / 16] == '1' ? 0xFF : 0xFE);
    }
}

/* 12.3.1: "when the count equals 8, the divider outputs a shift clock", "the data is shifted into the Shift
   register every sixteen counts until a full character is assembled", "the data is transferred to the
   receiver's buffer, SIO
   (%F0), and interrupt request IRQ_3 is generated. The shift clock is stopped and the Shift register reset to
   all 1s." 12.3.4: "A parity error sets D_7 to 1; otherwise, D_7 is set to 0." 12.3.2: "it is not protected
   from being overwritten". */
static void check_received(const struct engine *engine, const struct received *r, unsigned p3m)
{
    const unsigned byte = p3m & 0x80 ? r->with : r->without;
    unsigned turn;

    new_port(p3m, 3, 1);
    saved[Z8_AT_RECEIVED] = 0x26;
    for (turn = 0; turn < 2; turn++) {
        take_step(engine, 0xFF);
        receive(engine, r->line);
        check(136, all_ends0, engine->name, "12.3.1", "the 136th end");
        check(0x08, saved[IRQ], engine->name, "12.3.1", "IRQ_3 is generated");
        check(0xFF, saved[Z8_AT_RECEIVER_SHIFT], engine->name, "12.3.1",
              "the Shift register reset to all 1s");
        saved[IRQ] = 0;
        while (all_ends0 < 176) {
            take_step(engine, 0xFF);
        }
        image[0x300] = 0x08; /* LD R0,SIO */
        image[0x301] = SIO;
        set_pc(0x300);
        take_step(engine, 0xFF);
        check(byte, saved[0x10], engine->name, "12.3.4", r->line);
        saved[Z8_AT_RECEIVED] = 0x62; /* the second time it replaces this */
    }
}

/* 12.3.1: "Before the shift actually occurs, the input is rechecked to ensure that the start bit is valid. If
   the detected start bit is false, the receiver is reset and the process of looking for a start bit is
   repeated." */
static void check_false_start(const struct engine *engine)
{
    new_port(0x40, 3, 1);
    all_ends0 = 0;
    while (all_ends0 < 7) {
        take_step(engine, 0xFE);
    }
    while (all_ends0 < 400) {
        take_step(engine, 0xFF);
    }
    check(0, saved[IRQ], engine->name, "12.3.1", "a false start bit is no character");
    receive(engine, "00000000111");
    check(0x80, saved[Z8_AT_RECEIVED], engine->name, "12.3.1", "looking for a start bit is repeated");
    check(0x08, saved[IRQ], engine->name, "12.3.1", "and found");
}

/* 12.3.3: "by responding to the interrupt request within one character bit time, the software can test for a
   stop bit at P3_0. [...] if a null character is received, testing P3_0 results in a 0 being read", that is
   in a break. 12.4.2: "Each time the SIO is loaded, the divide-by-16 counter is re-synchronized and a new
   start bit is output followed by data", so nulls written before the stop bits make a break: here every 144
   ends, P3_7 being wired to P3_0. */
static void check_break(const struct engine *engine)
{
    unsigned characters;

    new_port(0x40, 3, 1);
    saved[Z8_AT_RECEIVED] = 0x26;
    for (characters = 0; characters < 3; characters++) {
        load(engine, SIO, 0, z8_p37(saved) ? 0xFF : 0xFE);
        while (all_ends0 < 143) {
            check(0, z8_p37(saved), engine->name, "12.4.2", "a break signal");
            take_step(engine, z8_p37(saved) ? 0xFF : 0xFE);
        }
        check(0, saved[Z8_AT_RECEIVED], engine->name, "12.3.3", "a null character is received");
        check(characters == 0 ? 0x08 : 0, saved[IRQ], engine->name, "12.3.1",
              "a start bit is a High-to-Low transition");
        saved[IRQ] = 0;
    }
    image[0x300] = 0x76; /* TM P3,#%01 */
    image[0x301] = P3;
    image[0x302] = 0x01;
    set_pc(0x300);
    take_step(engine, 0xFE);
    check(Z, saved[FLAGS] & Z, engine->name, "12.3.3", "testing P3_0 results in a 0 being read");
}

/* 10.2.1: "IRQ_3 can be generated from an external source only if Serial In is not enabled; otherwise, its
   source is internal." 10.2.2: IRQ_4 has "two mutually exclusive sources". (9.5.2 has the input lines "always
   function as interrupt requests regardless of the configuration specified in the Port 3 Mode register"; 02
   decides.) */
static void check_sources(const struct engine *engine)
{
    new_port(0x00, 1, 1);
    load(engine, 0x20, 0, 0xFE);
    check(1, all_ends0 > 0, engine->name, "10.2.2", "T_0 ends");
    check(0x18, saved[IRQ], engine->name, "10.2.1",
          "without serial I/O: P3_0's edge, and T_0's end-of-count");
    new_port(0x40, 1, 1);
    load(engine, 0x20, 0, 0xFE);
    check(1, all_ends0 > 0, engine->name, "10.2.2", "T_0 ends");
    check(0x00, saved[IRQ], engine->name, "10.2.1", "with it neither");
}

/* 12.5: "After a hardware reset, [...] Serial mode and parity are disabled." 12.3.1: "the Receiver Shift
   register is initialized to all 1s and the shift clock is stopped". 12.4: "forced to a marking state". */
static void check_ports_reset(void)
{
    new_port(0xC0, 1, 1);
    take_step(&engines[0], 0xFF);
    load(&engines[0], SIO, 0x12, 0xFE);
    engines[0].span(4 * 60);
    check(1, saved[Z8_AT_RECEIVER_AWAITS] > 1, "z8_reset", "12.5", "a character coming in");
    check(1, saved[Z8_AT_SENDER_PLACE] > 1, "z8_reset", "12.5", "and one going out");
    check(0, z8_reset(saved, Z8_SAVED_LEN), "z8_reset", "12.5", "the answer");
    check(0, saved[P3M] & 0xC0, "z8_reset", "12.5", "Serial mode and parity are disabled");
    check(0xFF, saved[Z8_AT_RECEIVER_SHIFT], "z8_reset", "12.3.1",
          "the Receiver Shift register is initialized to all 1s");
    check(0, saved[Z8_AT_RECEIVER_AWAITS], "z8_reset", "12.3.1", "the shift clock is stopped");
    check(0, saved[Z8_AT_SENDER_PLACE], "z8_reset", "12.4", "nothing goes out");
    saved[P3M] = 0x40;
    check(1, z8_p37(saved), "z8_reset", "12.4", "a marking state");
}

static void check_serial(const struct engine *engine)
{
    size_t k;

    for (k = 0; k < sizeof rates / sizeof rates[0]; k++) {
        check_rate(engine, &rates[k]);
    }
    check_1200(engine);
    for (k = 0; k < sizeof sent / sizeof sent[0]; k++) {
        check_sent(engine, sent[k].written, 0x40, sent[k].without);
        check_sent(engine, sent[k].written, 0xC0, sent[k].with);
    }
    for (k = 0; k < sizeof received / sizeof received[0]; k++) {
        check_received(engine, &received[k], 0x40);
        check_received(engine, &received[k], 0xC0);
    }
    check_false_start(engine);
    check_break(engine);
    check_sources(engine);
}

/* ---- 10.4.3 and 10.8: before an EI instruction is executed ---- */

static const char held_words[] = "IRQ bits D_0-D_5 are held at 0 until an EI instruction is executed";

static void check_nothing_latched(const struct engine *engine)
{
    check(0, saved[IRQ], engine->name, "10.8", held_words);
    check(0, saved[Z8_AT_BITS], engine->name, "10.8", held_words);
}

/* One instruction at 300. */
static void instruction(const struct engine *engine, unsigned opcode, unsigned first, unsigned second,
                        uint8_t pins3)
{
    image[0x300] = (uint8_t)opcode;
    image[0x301] = (uint8_t)first;
    image[0x302] = (uint8_t)second;
    set_pc(0x300);
    check(0, engine->step(pins3), engine->name, "10.8", "a step's answer");
}

/* Table 10-1's lines, P3_2, P3_3, P3_1 and P3_0, before EI, in its step, and after, where IMR is cleared
   (polled processing: "CLR IMR / EI / DI"). The pins of an edge are the last by then, so it doesn't come
   later. */
static void check_edges_before_ei(const struct engine *engine)
{
    static const uint8_t line[4] = {0x04, 0x08, 0x02, 0x01};
    unsigned n;

    for (n = 0; n < 4; n++) {
        const uint8_t low = (uint8_t)~line[n];

        new_machine(Z8_TYPE_Z8611);
        saved[IPR] = 0x08;
        saved[IMR] = 0x3F;
        instruction(engine, 0xFF, 0xFF, 0xFF, low);
        check_nothing_latched(engine);
        check(low, saved[Z8_AT_PORT3], engine->name, "10.8", "the pins are the last");
        instruction(engine, 0xB0, IMR, 0xFF, 0xFF); /* CLR IMR */
        instruction(engine, 0x9F, 0xFF, 0xFF, low); /* EI */
        check(0, saved[IRQ], engine->name, "10.4.3", "an edge in EI's own step comes before it");
        check(low, saved[Z8_AT_PORT3], engine->name, "10.4.3", "and is gone");
        instruction(engine, 0x8F, 0xFF, 0xFF, low); /* DI */
        check(0, saved[IRQ], engine->name, "10.4.3", "and is gone");
        instruction(engine, 0xFF, 0xFF, 0xFF, 0xFF);
        instruction(engine, 0xFF, 0xFF, 0xFF, low);
        check(1u << n, saved[IRQ], engine->name, "10.4.3", "CLR IMR / EI / DI: a request to be polled");
        check(0x301, pc_now(), engine->name, "10.4.3", "and isn't granted");
    }
}

/* T_0 or T_1 with its end after so many cycles, at T_OUT. 64 ticks are to its next. */
static void end_after(int t1, unsigned cycles, unsigned continuous)
{
    saved[t1 ? PRE1 : PRE0] = (uint8_t)(2 + continuous);
    saved[t1 ? T1 : T0] = 1;
    saved[TMR] = t1 ? 0x88 : 0x42;
    saved[Z8_AT_DIVIDER] = (uint8_t)((4 - cycles % 4) % 4);
    saved[t1 ? Z8_AT_T1_PRESCALER : Z8_AT_T0_PRESCALER] = (uint8_t)((cycles + 3) / 4);
    saved[t1 ? Z8_AT_T1_COUNTER : Z8_AT_T0_COUNTER] = 1;
}

/* A NOP and EI of 6 cycles each: an end in the first 6 is before EI, one in the next 6 is in EI's own cycles.
   02: "Ends are counted and T_OUT flips as before." */
static void check_end_before_ei(const struct engine *engine, int t1, unsigned cycles, unsigned continuous)
{
    new_machine(Z8_TYPE_Z8611);
    end_after(t1, cycles, continuous);
    instruction(engine, 0xFF, 0xFF, 0xFF, 0xFF);
    check_nothing_latched(engine);
    check(cycles <= 6, t1 ? all_ends1 : all_ends0, engine->name, "10.8", "the end is counted before EI");
    instruction(engine, 0x9F, 0xFF, 0xFF, 0xFF); /* EI */
    check(1, t1 ? all_ends1 : all_ends0, engine->name, "10.8", "the end is counted");
    check(0, saved[Z8_AT_T_OUT], engine->name, "11.4", "T_OUT toggles to its opposite state");
    check(continuous, (saved[TMR] & 0x0A) != 0, engine->name, "11.3.2", "Single-Pass: come to rest");
    check(cycles <= 6 ? 0 : t1 ? 0x20 : 0x10, saved[IRQ], engine->name, "10.8", held_words);
}

/* 11.5.1: T_1 counts the transitions of T_IN, in External Clock Input mode. */
static void check_event_before_ei(const struct engine *engine, unsigned continuous)
{
    new_machine(Z8_TYPE_Z8611);
    end_after(1, 4, continuous);
    saved[PRE1] = (uint8_t)(5 * 4 + continuous);
    instruction(engine, 0xFF, 0xFF, 0xFF, 0xFD);
    check_nothing_latched(engine);
    check(1, all_ends1, engine->name, "11.5.1", "T_1 counts events before EI");
    check(0, saved[Z8_AT_T_OUT], engine->name, "11.4", "T_OUT toggles to its opposite state");
    check(continuous ? 0x88 : 0x80, saved[TMR], engine->name, "11.3.2", "Single-Pass: come to rest");
}

/* 12.3.1 and 12.4 without their requests: the character is assembled, and the one that goes out is sent. */
static void check_port_before_ei(const struct engine *engine)
{
    const struct sent *in = &sent[0], *out = &sent[3];

    new_port(0x40, 3, 1);
    saved[Z8_AT_BITS] = 0;
    load(engine, SIO, out->written, 0xFE);
    while (all_ends0 < 176) {
        check_nothing_latched(engine);
        check(out->without[all_ends0 / 16] == '1', z8_p37(saved), engine->name, "12.4", out->without);
        take_step(engine, in->without[all_ends0 / 16] == '1' ? 0xFF : 0xFE);
    }
    check_nothing_latched(engine);
    check(in->written, saved[Z8_AT_RECEIVED], engine->name, "12.3.1", in->without);
    check(0, saved[Z8_AT_SENDER_PLACE], engine->name, "12.4", "again a marking state");
}

/* A way to have FA, or the pair FA and FB, as destination. */
struct store {
    const char *words;
    uint8_t bytes[3];
    struct fact before[4];
    uint8_t flags;      /* after it, where no EI was executed */
    unsigned at, value; /* a byte after it that tells that all else was done */
    uint8_t irq;        /* IRQ after it, where an EI was executed and requests 2, 1 and 0 stood */
};

#define ALL 0xFC

/* Flags by 5.5 and the pages, from ALL and an operand 0, as which IRQ reads before EI; IMR is 05. */
static const struct store stores[] = {
    {"LD R10,#%2A with RP %F0", {0xAC, 0x2A}, {REG(RP, 0xF0)}, ALL, IMR, 0x05, 0x2A},
    {"LD R10,%40 with RP %F0", {0xA8, 0x40}, {REG(RP, 0xF0), REG(0x40, 0x2A)}, ALL, 0x40, 0x2A, 0x2A},
    {"LD IRQ,R4", {0x49, IRQ}, {R(4, 0x2A)}, ALL, 0x14, 0x2A, 0x2A},
    {"LD R10,%00(R11) with RP %F0", {0xC7, 0xAB, 0x00}, {REG(RP, 0xF0), REG(0x05, 0x2A)},
     ALL, 0x05, 0x2A, 0x2A},
    {"LD %F0(R5),R4", {0xD7, 0x45, 0xF0}, {R(4, 0x2A), R(5, 0x0A)}, ALL, 0x14, 0x2A, 0x2A},
    {"LD R10,@R11 with RP %F0", {0xE3, 0xAB}, {REG(RP, 0xF0), REG(0x05, 0x2A)}, ALL, 0x05, 0x2A, 0x2A},
    {"LD @R5,R4", {0xF3, 0x54}, {R(4, 0x2A), R(5, IRQ)}, ALL, 0x15, IRQ, 0x2A},
    {"LD IRQ,%40", {0xE4, 0x40, IRQ}, {REG(0x40, 0x2A)}, ALL, 0x40, 0x2A, 0x2A},
    {"LD IRQ,@%41", {0xE5, 0x41, IRQ}, {REG(0x40, 0x2A), REG(0x41, 0x40)}, ALL, 0x40, 0x2A, 0x2A},
    {"LD IRQ,#%EA", {0xE6, IRQ, 0xEA}, {NOTHING}, ALL, IMR, 0x05, 0x2A},
    {"LD @%40,#%2A", {0xE7, 0x40, 0x2A}, {REG(0x40, IRQ)}, ALL, 0x40, IRQ, 0x2A},
    {"LD @%40,%41", {0xF5, 0x41, 0x40}, {REG(0x40, IRQ), REG(0x41, 0x2A)}, ALL, 0x40, IRQ, 0x2A},
    {"ADD IRQ,#%80", {0x06, IRQ, 0x80}, {NOTHING}, S, IMR, 0x05, 0x07},
    {"ADC IRQ,#%80, C set", {0x16, IRQ, 0x80}, {NOTHING}, S, IMR, 0x05, 0x08},
    {"SUB IRQ,#%01", {0x26, IRQ, 0x01}, {NOTHING}, C | S | D | H, IMR, 0x05, 0x06},
    {"SBC IRQ,#%01, C set", {0x36, IRQ, 0x01}, {NOTHING}, C | S | D | H, IMR, 0x05, 0x05},
    {"OR IRQ,#%A0", {0x46, IRQ, 0xA0}, {NOTHING}, C | S | D | H, IMR, 0x05, 0x27},
    {"AND IRQ,#%FE", {0x56, IRQ, 0xFE}, {NOTHING}, C | Z | D | H, IMR, 0x05, 0x06},
    {"XOR IRQ,#%FF", {0xB6, IRQ, 0xFF}, {NOTHING}, C | S | D | H, IMR, 0x05, 0x38},
    {"ADD R10,R11 with RP %F0", {0x02, 0xAB}, {REG(RP, 0xF0)}, 0, IMR, 0x05, 0x0C},
    {"OR R10,@R11 with RP %F0", {0x43, 0xAB}, {REG(RP, 0xF0), REG(0x05, 0x90)},
     C | S | D | H, IMR, 0x05, 0x17},
    {"XOR IRQ,IMR", {0xB4, IMR, IRQ}, {NOTHING}, C | D | H, IMR, 0x05, 0x02},
    {"SUB IRQ,@%40", {0x25, 0x40, IRQ}, {REG(0x40, IMR)}, C | S | D | H, IMR, 0x05, 0x02},
    {"AND @%40,#%FB", {0x57, 0x40, 0xFB}, {REG(0x40, IRQ)}, C | Z | D | H, 0x40, IRQ, 0x03},
    {"INC IRQ", {0x20, IRQ}, {NOTHING}, C | D | H, IMR, 0x05, 0x08},
    {"INC @%40", {0x21, 0x40}, {REG(0x40, IRQ)}, C | D | H, 0x40, IRQ, 0x08},
    {"INC R10 with RP %F0", {0xAE}, {REG(RP, 0xF0)}, C | D | H, IMR, 0x05, 0x08},
    {"DEC IRQ", {0x00, IRQ}, {NOTHING}, C | S | D | H, IMR, 0x05, 0x06},
    {"DEC @%40", {0x01, 0x40}, {REG(0x40, IRQ)}, C | S | D | H, 0x40, IRQ, 0x06},
    {"INCW IRQ, the pair FA and FB", {0xA0, IRQ}, {NOTHING}, C | D | H, IMR, 0x06, 0x07},
    {"INCW IMR, the same pair", {0xA0, IMR}, {NOTHING}, C | D | H, IMR, 0x06, 0x07},
    {"INCW @%40", {0xA1, 0x40}, {REG(0x40, IRQ)}, C | D | H, IMR, 0x06, 0x07},
    {"DECW IRQ, the pair FA and FB", {0x80, IRQ}, {REG(IMR, 0x00)}, C | S | D | H, IMR, 0xFF, 0x06},
    {"DECW @%40", {0x81, 0x40}, {REG(IMR, 0x00), REG(0x40, IMR)}, C | S | D | H, IMR, 0xFF, 0x06},
    {"CLR IRQ", {0xB0, IRQ}, {NOTHING}, ALL, IMR, 0x05, 0x00},
    {"CLR @%40", {0xB1, 0x40}, {REG(0x40, IRQ)}, ALL, 0x40, IRQ, 0x00},
    {"COM IRQ", {0x60, IRQ}, {NOTHING}, C | S | D | H, IMR, 0x05, 0x38},
    {"COM @%40", {0x61, 0x40}, {REG(0x40, IRQ)}, C | S | D | H, 0x40, IRQ, 0x38},
    {"RL IRQ", {0x90, IRQ}, {NOTHING}, Z | D | H, IMR, 0x05, 0x0E},
    {"RLC IRQ, C set", {0x10, IRQ}, {NOTHING}, D | H, IMR, 0x05, 0x0F},
    {"RR IRQ", {0xE0, IRQ}, {NOTHING}, Z | D | H, IMR, 0x05, 0x03},
    {"RRC IRQ, C set", {0xC0, IRQ}, {NOTHING}, S | V | D | H, IMR, 0x05, 0x03},
    {"SRA @%40", {0xD1, 0x40}, {REG(0x40, IRQ)}, Z | D | H, 0x40, IRQ, 0x03},
    {"SWAP IRQ", {0xF0, IRQ}, {NOTHING}, C | Z | V | D | H, IMR, 0x05, 0x30},
    {"DA IRQ, C set, D and H clear: 60 is added", {0x40, IRQ}, {REG(FLAGS, C)}, C, IMR, 0x05, 0x27},
    {"DA @%40", {0x41, 0x40}, {REG(FLAGS, C), REG(0x40, IRQ)}, C, 0x40, IRQ, 0x27},
    {"DJNZ R10 with RP %F0: its test goes by FF, so it jumps to 312", {0xAA, 0x10}, {REG(RP, 0xF0)},
     ALL, Z8_AT_PC + 1, 0x12, 0x06},
    {"POP IRQ", {0x50, IRQ}, {REG(0xFF, 0x60), REG(0x60, 0xEA)}, ALL, 0xFF, 0x61, 0x2A},
    {"POP @%40", {0x51, 0x40}, {REG(0xFF, 0x60), REG(0x60, 0xEA), REG(0x40, IRQ)}, ALL, 0xFF, 0x61, 0x2A},
    {"PUSH %40 with SPL %FB", {0x70, 0x40}, {REG(0xFF, 0xFB), REG(0x40, 0xEA)}, ALL, 0xFF, IRQ, 0x2A},
    {"PUSH @%41 with SPL %FB", {0x71, 0x41}, {REG(0xFF, 0xFB), REG(0x40, 0xEA), REG(0x41, 0x40)},
     ALL, 0xFF, IRQ, 0x2A},
    {"CALL %1234 with SPL %FB: its low byte, 03", {0xD6, 0x12, 0x34}, {REG(0xFF, 0xFB)},
     ALL, IPR, 0x03, 0x03},
    {"CALL @%40 with SPL %FC: its high byte, 03", {0xD4, 0x40}, {REG(0xFF, 0xFC), PAIR(0x40, 0x1234)},
     ALL, IMR, 0x02, 0x03},
    {"LDC R10,@RR0 with RP %F0, at FF40", {0xC2, 0xA0},
     {REG(RP, 0xF0), REG(TMR, 0x40), PROG(0xFF40, 0xEA)}, ALL, TMR, 0x40, 0x2A},
    {"LDE R10,@RR0 with RP %F0, at FF40", {0x82, 0xA0},
     {REG(RP, 0xF0), REG(TMR, 0x40), MEM(0xFF40, 0xEA)}, ALL, TMR, 0x40, 0x2A},
    {"LDCI @R4,@RR6", {0xC3, 0x46}, {R(4, IRQ), RR(6, 0x30A2), PROG(0x30A2, 0xEA)}, ALL, 0x14, IRQ + 1, 0x2A},
    {"LDEI @R4,@RR6", {0x83, 0x46}, {R(4, IRQ), RR(6, 0x30A2), MEM(0x30A2, 0xEA)}, ALL, 0x17, 0xA3, 0x2A},
    {"LDCI @RR0,@R10 with RP %F0: R10 counts up", {0xD3, 0xA0}, {REG(RP, 0xF0), REG(TMR, 0x40)},
     ALL, IMR, 0x05, 0x08},
    {"LDEI @RR0,@R10 with RP %F0: R10 counts up", {0x93, 0xA0}, {REG(RP, 0xF0), REG(TMR, 0x40)},
     ALL, IMR, 0x05, 0x08},
    {"LDCI @RR10,@R14 with RP %F0: RR10 counts up", {0xD3, 0xEA}, {REG(RP, 0xF0)}, ALL, IMR, 0x06, 0x07},
    {"LDEI @RR10,@R14 with RP %F0: RR10 counts up", {0x93, 0xEA}, {REG(RP, 0xF0)}, ALL, IMR, 0x06, 0x07},
};

/* 10.5: "specifying IRQ as the destination of any instruction referencing the register file". */
static void check_store(const struct engine *engine, const struct store *s, int released)
{
    unsigned k;

    new_machine(Z8_TYPE_Z8611);
    saved[FLAGS] = ALL;
    saved[IMR] = 0x05;
    for (k = 0; k < 4; k++) {
        establish(&s->before[k]);
    }
    if (released) {
        release_requests();
        saved[IRQ] = 0x07;
    }
    instruction(engine, s->bytes[0], s->bytes[1], s->bytes[2], 0xFF);
    if (released) {
        check(s->irq, saved[IRQ], engine->name, "10.5", s->words);
        return;
    }
    check_nothing_latched(engine);
    check(s->flags, saved[FLAGS], engine->name, "10.8, flags", s->words);
    check(s->value, saved[s->at], engine->name, "10.8, all else", s->words);
    instruction(engine, 0xE4, IRQ, 0x42, 0xFF); /* LD %42,IRQ */
    check(0, saved[0x42], engine->name, "10.8", "reading returns 0");
}

static void check_before_ei(const struct engine *engine)
{
    unsigned cycles, continuous;
    size_t k;

    check_edges_before_ei(engine);
    for (continuous = 0; continuous < 2; continuous++) {
        for (cycles = 1; cycles <= 12; cycles++) {
            check_end_before_ei(engine, 0, cycles, continuous);
            check_end_before_ei(engine, 1, cycles, continuous);
        }
        check_event_before_ei(engine, continuous);
    }
    check_port_before_ei(engine);
    for (k = 0; k < sizeof stores / sizeof stores[0]; k++) {
        check_store(engine, &stores[k], 0);
        check_store(engine, &stores[k], 1);
    }
}

static void print_misprints(void)
{
    size_t k;

    for (k = 0; k < sizeof misprints / sizeof misprints[0]; k++) {
        const struct misprint *m = &misprints[k];

        printf("- %s: \"%s\". Wrong: %s. By the rules: %s.\n", m->where, m->printed, m->wrong, m->rule);
    }
}

/* With the word misprints: their list, for the decisions. */
int main(int argc, char **argv)
{
    size_t k;

    if (argc == 2 && strcmp(argv[1], "misprints") == 0) {
        print_misprints();
        return 0;
    }
    for (k = 0; k < sizeof examples / sizeof examples[0]; k++) {
        run_example_in_all_ways(&examples[k]);
    }
    for (k = 0; k < sizeof misprints / sizeof misprints[0]; k++) {
        run_example_in_all_ways(&misprints[k].as_ruled);
    }
    check_reset();
    for (k = 0; k < 2; k++) {
        check_vectors(&engines[k]);
        check_priorities(&engines[k]);
        check_cascade(&engines[k], 0);
        check_cascade(&engines[k], 1);
        check_t_in(&engines[k]);
        check_serial(&engines[k]);
        check_before_ei(&engines[k]);
    }
    check_ports_reset();
    check_prescaler_sequence();
    check_end_of_count(0, 0);
    check_end_of_count(0, 1);
    check_end_of_count(1, 0);
    check_end_of_count(1, 1);
    printf("manual: %lu examples and %lu misprints, %lu checks, %lu failed\n",
           (unsigned long)(sizeof examples / sizeof examples[0]),
           (unsigned long)(sizeof misprints / sizeof misprints[0]), checks, failed);
    return failed != 0;
}
