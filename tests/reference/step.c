/* See step.h. In the comments, words between quotation marks are the paper's
   own. */
#include "step.h"

#include "instructions.h"
#include "timers.h"

/* 002, R241 to R245 and R249 to R252. */
#define TMR    0xF1
#define T1     0xF2
#define PRE1   0xF3
#define T0     0xF4
#define PRE0   0xF5
#define IPR    0xF9
#define IRQ    0xFA
#define IMR    0xFB
#define FLAGS  0xFC

/* The lines of Port 3; line P3n is bit n. */
#define PORT3_P30  0x01
#define PORT3_P31  0x02
#define PORT3_P32  0x04
#define PORT3_P33  0x08

/* 004, 10.4.3: "Bits D_0 - D_5 are assigned to interrupt requests" 0 to 5,
   "respectively"; 002, R251: "1 ENABLES IRQ0-IRQ5 (D_0 = IRQ0)". So request n
   has the same bit in IRQ and in IMR. */
#define REQUEST(n)  (1 << (n))

/* 004, 10.4.2: "D_7 is the master enable and must be set before any of the
   individual interrupt requests can be recognized." */
#define IMR_MASTER  0x80

/* IPR. 01: "the group order read from bits 4, 3, 0, group A from 5, B from 2, C
   from 1". (004, Table 10-2, heads its columns "D_4 D_2 D_0", yet its own text
   has "Bits D_0, D_3, and D_4"; 01 decides.) */
#define IPR_BIT4     0x10
#define IPR_BIT3     0x08
#define IPR_BIT0     0x01
#define IPR_GROUP_A  0x20
#define IPR_GROUP_B  0x04
#define IPR_GROUP_C  0x02

/* No request. */
#define NONE  (-1)

/* 01, refusal 4: "run budget over 1,000,000 cycles". */
#define BUDGET_MOST  1000000ul

/* ---- Pins ---- */

/* 02, C-13: "the request register is held at zero until the first EI after
   reset. Until then edges [...] latch nothing". */
static void latch(struct ref_machine *m, int request)
{
    if (ref_irq_is_held(m)) {
        return;
    }
    m->file[IRQ] = (uint8_t)(m->file[IRQ] | REQUEST(request));
}

/* What a falling edge of P31 does to T1, by timers.h. Answers T1's ends, 0 or
   1. Of the machine T1's count, TMR, IRQ and T_OUT can have moved; an edge is
   no cycle, so the divider and T0 stay. */
static uint32_t edge_of_P31(struct ref_machine *m)
{
    struct ref_timers t;

    t.tmr = m->file[TMR];
    t.t1 = m->file[T1];
    t.pre1 = m->file[PRE1];
    t.t0 = m->file[T0];
    t.pre0 = m->file[PRE0];
    t.irq = m->file[IRQ];
    t.irq_is_held = (uint8_t)ref_irq_is_held(m);
    t.port3 = m->port3;
    t.serial_on = (uint8_t)ref_serial_on(m);
    t.divider = m->divider;
    t.prescaler0 = m->prescaler0;
    t.prescaler1 = m->prescaler1;
    t.counter0 = m->counter0;
    t.counter1 = m->counter1;
    t.tout = m->tout;
    t.ends0 = 0;
    t.ends1 = 0;

    ref_timer_edge(&t);

    m->file[TMR] = t.tmr;
    m->file[IRQ] = t.irq;
    m->prescaler1 = t.prescaler1;
    m->counter1 = t.counter1;
    m->tout = t.tout;
    return t.ends1;
}

/* 01: "compare pins with the last; falling edges on P32, P33, P31, P30 latch
   requests 0, 1, 2, 3, and a P31 edge may tick T1; the Port 3 byte given
   becomes the last" (HOUSE), all eight bits of it. A line falls where it was 1
   and is 0. Answers T1's ends: 01, "each timer's ends, edge ends too".

   Whether a request is latched goes by C-13's rule, and IMR is not asked; the
   lines are compared and become the last either way. So in EI's own step the
   edges, which are compared before it, latch nothing. 004, 11.5: "Each
   High-to-Low transition on T_IN generates interrupt request IRQ_2, regardless
   of the selected T_IN mode or the enabled/disabled state of T_1."

   Of P3M its bit 6 is asked, for P30 alone. 02, C-11: "Requests 3 and 4 come
   from the port while it is on and not from P30 or T0" (so 004, 10.2.1: IRQ_3
   "can be generated from an external source only if Serial In is not enabled";
   9.5.2 has the input lines "always function as interrupt requests regardless
   of the configuration specified in the Port 3 Mode register", and 02 decides).
   C-11: "A start bit is a falling edge of P30, found where pins are compared:
   at the beginning of a step, last pins high, given pins low, port on by P3M as
   it stands then, receiver waiting." */
static uint32_t compare_pins(struct ref_machine *m, uint8_t port3)
{
    uint8_t fell = (uint8_t)(m->port3 & ~port3);
    uint32_t ends1 = 0;

    if (fell & PORT3_P32) {
        latch(m, 0);
    }
    if (fell & PORT3_P33) {
        latch(m, 1);
    }
    if (fell & PORT3_P31) {
        latch(m, 2);
        ends1 = edge_of_P31(m);
    }
    if (fell & PORT3_P30) {
        if (ref_serial_on(m)) {
            ref_serial_edge(&m->serial);
        } else {
            latch(m, 3);
        }
    }

    m->port3 = port3;
    return ends1;
}

/* ---- Interrupts ---- */

/* The groups from the highest to the lowest. 002, R249: "INTERRUPT GROUP
   PRIORITY RESERVED = 000 C > A > B = 001 A > B > C = 010 A > C > B = 011 B > C
   > A = 100 C > B > A = 101 B > A > C = 110 RESERVED = 111". 01: "a reserved
   group order (000 or 111) grants nothing (HOUSE)", so there no group is
   named. */
static const char *groups(uint8_t ipr)
{
    switch (ipr & (IPR_BIT4 | IPR_BIT3 | IPR_BIT0)) {
    case                       IPR_BIT0: return "CAB";      /* 001 */
    case            IPR_BIT3           : return "ABC";      /* 010 */
    case            IPR_BIT3 | IPR_BIT0: return "ACB";      /* 011 */
    case IPR_BIT4                      : return "BCA";      /* 100 */
    case IPR_BIT4 |            IPR_BIT0: return "CBA";      /* 101 */
    case IPR_BIT4 | IPR_BIT3           : return "BAC";      /* 110 */
    default:                             return "";         /* 000, 111 */
    }
}

/* The two requests of a group, the higher one first. 002, R249: "IRQ3, IRQ5
   PRIORITY (GROUP A) 0 = IRQ5 > IRQ3 1 = IRQ3 > IRQ5", "IRQ0, IRQ2 PRIORITY
   (GROUP B) 0 = IRQ2 > IRQ0 1 = IRQ0 > IRQ2", "IRQ1, IRQ4 PRIORITY (GROUP C) 0
   = IRQ1 > IRQ4 1 = IRQ4 > IRQ1". */
static void members(uint8_t ipr, char group, int *higher, int *lower)
{
    switch (group) {
    case 'A':
        if (ipr & IPR_GROUP_A) {
            *higher = 3;
            *lower = 5;
        } else {
            *higher = 5;
            *lower = 3;
        }
        break;
    case 'B':
        if (ipr & IPR_GROUP_B) {
            *higher = 0;
            *lower = 2;
        } else {
            *higher = 2;
            *lower = 0;
        }
        break;
    default:
        if (ipr & IPR_GROUP_C) {
            *higher = 4;
            *lower = 1;
        } else {
            *higher = 1;
            *lower = 4;
        }
        break;
    }
}

/* 1 where a request stands and its mask bit is set, else 0. */
static int asks(const struct ref_machine *m, int request)
{
    return (m->file[IRQ] & m->file[IMR] & REQUEST(request)) != 0;
}

/* The request that is granted, or NONE. 01: "A grant needs IMR bit 7, the
   request and its mask bit. Priority is IPR as in 002". The priority is among
   those whose mask bit is set; 004, 10.3: "the highest priority level that is
   enabled". */
static int granted(const struct ref_machine *m)
{
    uint8_t ipr = m->file[IPR];
    const char *group;
    int higher, lower;

    if (!(m->file[IMR] & IMR_MASTER)) {
        return NONE;
    }

    for (group = groups(ipr); *group != '\0'; group++) {
        members(ipr, *group, &higher, &lower);
        if (asks(m, higher)) {
            return higher;
        }
        if (asks(m, lower)) {
            return lower;
        }
    }
    return NONE;
}

/* The word in program memory at an address, "high byte first" (01). */
static uint16_t vector(const uint8_t *image, size_t image_length,
                       uint16_t address)
{
    uint8_t high = ref_program(image, image_length, address);
    uint8_t low = ref_program(image, image_length, (uint16_t)(address + 1));

    return (uint16_t)(high * 256 + low);
}

/* 01: "An interrupt grant is a step of the entry cost: it pushes, clears its
   request and bit 7 of IMR, and jumps through the vector at twice its number,
   high byte first." In this order, so that the two bits are cleared also in
   bytes that were just pushed onto IRQ or IMR. 01: "A pushed address has its
   high byte lower; an interrupt's FLAGS lie below it." 004, 10.6, in turn:
   "PUSH PC lower byte on stack", "PUSH PC upper byte on stack", "PUSH FLAGS on
   stack". The PC is that of the instruction not yet executed. Answers the cost,
   which is the same for both stacks. */
static uint32_t grant(struct ref_machine *m, int request,
                      const uint8_t *image, size_t image_length,
                      uint8_t *data, size_t data_length)
{
    uint8_t bytes[3];

    bytes[0] = m->file[FLAGS];
    bytes[1] = (uint8_t)(m->pc / 256);
    bytes[2] = (uint8_t)(m->pc % 256);
    ref_push(m, data, data_length, bytes, 3);

    m->file[IRQ] = (uint8_t)(m->file[IRQ] & ~REQUEST(request));
    m->file[IMR] = (uint8_t)(m->file[IMR] & ~IMR_MASTER);

    m->pc = vector(image, image_length, (uint16_t)(2 * request));
    return m->entry_cost;
}

/* ---- The step and the run ---- */

/* 01, "One step": "In this order (HOUSE): compare pins with the last; [...] the
   Port 3 byte given becomes the last. Grant an interrupt, or else execute one
   instruction. Advance the clock by its cost." So a grant is decided on the
   requests as they stand after the edges, an edge's end of T1 with them, and a
   step that grants fetches no opcode. C-11: "Ends within that step's own cycles
   count already", of a start bit, and "A step's store to P3M or F0 acts before
   its own cycles." So the ends in EI's own six cycles come after it and latch.

   Refusal 5: "opcode undefined [...] step and decode: the same", that is
   "number alone, nothing changed". The edges come before the opcode is met, so
   all is done on a copy; the memory is not written before the last refusal is
   past. C-11: "A refused step has found none", no start bit. */
int ref_step(struct ref_machine *m, const struct ref_pins *pins,
             const uint8_t *image, size_t image_length,
             uint8_t *data, size_t data_length,
             uint32_t *cycles, uint32_t *ends0, uint32_t *ends1)
{
    struct ref_machine copy = *m;
    uint32_t edge_ends1, span_ends0, span_ends1;
    uint32_t cost;
    int request;
    int refusal;

    edge_ends1 = compare_pins(&copy, pins->port[3]);

    request = granted(&copy);
    if (request != NONE) {
        cost = grant(&copy, request, image, image_length, data, data_length);
    } else {
        refusal = ref_execute(&copy, pins, image, image_length, data,
                              data_length, &cost);
        if (refusal != 0) {
            return refusal;
        }
    }

    /* "P31 is as in the last pins" (01), and these are by now the pins
       given. */
    ref_span(&copy, cost, &span_ends0, &span_ends1);

    /* 01: "A step or run returns its cycles and each timer's ends, edge ends
       too." */
    *m = copy;
    *cycles = cost;
    *ends0 = span_ends0;
    *ends1 = edge_ends1 + span_ends1;
    return 0;
}

/* 01: "A run holds the pins, stops at the first boundary where the spent cycles
   reach the budget, so it spends at most 62 cycles over. Budget 0 changes
   nothing": no step is taken, so no pins are compared and no opcode is met, and
   the numbers are zero. Refusal 4: "number alone, nothing changed". Refusal 5:
   "Run: state, memory, cycles and ends as after the steps done before". */
int ref_run(struct ref_machine *m, const struct ref_pins *pins,
            const uint8_t *image, size_t image_length,
            uint8_t *data, size_t data_length, uint32_t budget,
            uint32_t *cycles, uint32_t *ends0, uint32_t *ends1)
{
    uint32_t spent = 0, all_ends0 = 0, all_ends1 = 0;
    uint32_t step_cycles, step_ends0, step_ends1;
    int refusal = 0;

    if (budget > BUDGET_MOST) {
        return 4;
    }

    while (spent < budget) {
        refusal = ref_step(m, pins, image, image_length, data, data_length,
                           &step_cycles, &step_ends0, &step_ends1);
        if (refusal != 0) {
            break;
        }
        spent = spent + step_cycles;
        all_ends0 = all_ends0 + step_ends0;
        all_ends1 = all_ends1 + step_ends1;
    }

    *cycles = spent;
    *ends0 = all_ends0;
    *ends1 = all_ends1;
    return refusal;
}
