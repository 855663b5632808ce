/* See timers.h. T0 and T1 have their own code here, and a span is nothing but
   its single cycles; nothing is folded together on purpose. In the comments,
   words between quotation marks are the paper's own. */
#include "timers.h"

/* TMR. 002, R241: "1 = LOAD T0", "1 = ENABLE T0 COUNT", "1 = LOAD T1",
   "1 = ENABLE T1 COUNT", "T_N MODES", "T_OUT MODES". The bits are in 004,
   11.3.1: "Load bit (D_0 to 1 for T_0 and D_2 to 1 for T_1)", "Enable Count
   bit (D_1 for T_0 and D_3 for T_1)". */
#define TMR_LOAD_T0    0x01
#define TMR_ENABLE_T0  0x02
#define TMR_LOAD_T1    0x04
#define TMR_ENABLE_T1  0x08

/* 01: "TMR bits 5 and 4 choose: 00 falling edges of P31, 01 ticks while P31 is
   high, 10 and 11 no ticks yet". */
#define TMR_TIN        0x30
#define TMR_TIN_EDGES  0x00
#define TMR_TIN_GATE   0x10

/* 01: "TMR bits 7 and 6 (01 T0, 10 T1, else none)". */
#define TMR_TOUT       0xC0
#define TMR_TOUT_T0    0x40
#define TMR_TOUT_T1    0x80

/* PRE0 and PRE1. 004, 11.3.2: "The counting modes are controlled by bit D_0 of
   PRE_0 and PRE_1, with D_0 cleared to 0 for Single-pass counting mode or set
   to 1 for Continuous mode." */
#define PRE_REPEATS    0x01

/* PRE1 only. 01: "T1 with PRE1 bit 1 set ticks internally". (004, 11.5, prints
   "D_2" for this bit, yet 11.2 gives D_2 to the modulo; 01 decides.) */
#define PRE1_INTERNAL  0x02

/* 01: "T0's end latches request 4, T1's request 5." */
#define IRQ_T0         0x10
#define IRQ_T1         0x20

/* 01: "P3 bits 0 to 3 are inputs"; line P31 is bit 1. */
#define PORT3_P31      0x02

/* P. 004, 11.2: "The six most significant bits (D_2-D_7) of PRE0 or PRE1 hold
   the prescalers count modulo". 01: "Prescaler P is 1 to 64 (field 0 is
   64)". */
static inline uint8_t modulo(uint8_t pre)
{
    uint8_t field = (uint8_t)(pre / 4);

    if (field == 0) {
        return 64;
    }
    return field;
}

/* N. 01: "count N is 1 to 256 (byte 0 is 256)". */
static inline uint16_t start(uint8_t byte)
{
    if (byte == 0) {
        return 256;
    }
    return byte;
}

/* 01: "flips T_OUT". 004, 11.4: "T_OUT toggles to its opposite state". */
static inline void flip(struct ref_timers *t)
{
    if (t->tout == 0) {
        t->tout = 1;
    } else {
        t->tout = 0;
    }
}

/* 02, C-13: before the first EI "timer ends latch nothing". */
static inline void latch(struct ref_timers *t, uint8_t request)
{
    if (!t->irq_is_held) {
        t->irq = (uint8_t)(t->irq | request);
    }
}

/* T0 ends. 02, C-13, before the first EI too: "Ends are counted and T_OUT flips
   as before." */
static inline void end0(struct ref_timers *t)
{
    t->ends0 = t->ends0 + 1;

    /* 01: "On an end: repeating, reload N; single pass, counter 256 and enable
       bit cleared (HOUSE)." */
    if (t->pre0 & PRE_REPEATS) {
        t->counter0 = start(t->t0);
    } else {
        t->counter0 = 256;
        t->tmr = (uint8_t)(t->tmr & ~TMR_ENABLE_T0);
    }

    /* 01: "T0's end latches request 4". 02, C-11: "Requests 3 and 4 come from
       the port while it is on and not from P30 or T0." 004, 12.2: then "T_0's
       end-of-count signal no longer generates interrupt request IRQ_4". */
    if (!t->serial_on) {
        latch(t, IRQ_T0);
    }

    /* 01: "The end of the timer chosen by TMR bits 7 and 6 [...] flips
       T_OUT." */
    if ((t->tmr & TMR_TOUT) == TMR_TOUT_T0) {
        flip(t);
    }
}

/* T1 ends, and the same holds. */
static inline void end1(struct ref_timers *t)
{
    t->ends1 = t->ends1 + 1;

    /* 01: "On an end: repeating, reload N; single pass, counter 256 and enable
       bit cleared (HOUSE)." */
    if (t->pre1 & PRE_REPEATS) {
        t->counter1 = start(t->t1);
    } else {
        t->counter1 = 256;
        t->tmr = (uint8_t)(t->tmr & ~TMR_ENABLE_T1);
    }

    /* 01: T0's end latches request 4, "T1's request 5". */
    latch(t, IRQ_T1);

    /* 01: "The end of the timer chosen by TMR bits 7 and 6 [...] flips
       T_OUT." */
    if ((t->tmr & TMR_TOUT) == TMR_TOUT_T1) {
        flip(t);
    }
}

/* T0 gets a tick. */
static inline void tick0(struct ref_timers *t)
{
    /* 01: "A tick lowers an enabled timer's prescaler". 004, 11.3.1: to enable
       counting, "the Enable Count bit [...] must be set to 1". */
    if (!(t->tmr & TMR_ENABLE_T0)) {
        return;
    }

    /* 01: "from 1 it goes to P and the counter drops; a counter at 1 ends."
       004, 11.3.2: "The prescaler never actually reaches 0." */
    if (t->prescaler0 != 1) {
        t->prescaler0 = (uint8_t)(t->prescaler0 - 1);
        return;
    }
    t->prescaler0 = modulo(t->pre0);
    if (t->counter0 != 1) {
        t->counter0 = (uint16_t)(t->counter0 - 1);
        return;
    }
    end0(t);
}

/* T1 gets a tick, from the divider or from an edge. */
static inline void tick1(struct ref_timers *t)
{
    /* 01: "A tick lowers an enabled timer's prescaler". 004, 11.5: "For T_1 to
       start counting as a result of a T_IN input, the Enable Count bit D_3 in
       TMR must be set to 1." */
    if (!(t->tmr & TMR_ENABLE_T1)) {
        return;
    }

    /* 01: "from 1 it goes to P and the counter drops; a counter at 1 ends."
       004, 11.3.2: "The prescaler never actually reaches 0." */
    if (t->prescaler1 != 1) {
        t->prescaler1 = (uint8_t)(t->prescaler1 - 1);
        return;
    }
    t->prescaler1 = modulo(t->pre1);
    if (t->counter1 != 1) {
        t->counter1 = (uint16_t)(t->counter1 - 1);
        return;
    }
    end1(t);
}

/* 1 where the divider's ticks go to T1, else 0. */
static inline int internal1(const struct ref_timers *t)
{
    /* 01: "T1 with PRE1 bit 1 set ticks internally". 002, R243: "1 = T1
       INTERNAL". */
    if (t->pre1 & PRE1_INTERNAL) {
        return 1;
    }

    /* 01: "clear, TMR bits 5 and 4 choose: [...] 01 ticks while P31 is high",
       and "P31 is as in the last pins." */
    if ((t->tmr & TMR_TIN) == TMR_TIN_GATE) {
        return (t->port3 & PORT3_P31) != 0;
    }

    /* 01: "00 falling edges of P31, [...] 10 and 11 no ticks yet." */
    return 0;
}

/* One cycle. */
static inline void cycle(struct ref_timers *t)
{
    /* 01: "The divider counts cycles modulo 4; each return to 0 is one
       tick." It counts whether or not a timer is enabled. */
    if (t->divider != 3) {
        t->divider = (uint8_t)(t->divider + 1);
        return;
    }
    t->divider = 0;

    /* 004, 11.1: "Counter/timers 0 and 1 are driven by a timer clock generated
       by dividing the internal clock by four." T0 has no other source. Neither
       timer's tick touches a bit that the other's reads, so the order of the
       two is free. */
    tick0(t);
    if (internal1(t)) {
        tick1(t);
    }
}

void ref_timer_cycle(struct ref_timers *t)
{
    cycle(t);
}

/* 01: "A span is any count from 0 to 4,294,967,295. It compares no pins". The
   cycles work on a copy, which the compiler can keep in registers. */
void ref_timer_cycles(struct ref_timers *t, uint32_t n)
{
    struct ref_timers copy = *t;
    uint32_t done;

    for (done = 0; done != n; done++) {
        cycle(&copy);
    }
    *t = copy;
}

void ref_timer_edge(struct ref_timers *t)
{
    /* 01: "T1 with PRE1 bit 1 set ticks internally; clear, TMR bits 5 and 4
       choose: 00 falling edges of P31". An edge is no cycle: the divider
       stays. 004, 11.5.1: "an event is considered to be a High-to-Low
       transition on T_IN". */
    if (t->pre1 & PRE1_INTERNAL) {
        return;
    }
    if ((t->tmr & TMR_TIN) != TMR_TIN_EDGES) {
        return;
    }
    tick1(t);
}

void ref_write_tmr(struct ref_timers *t, uint8_t byte)
{
    /* 01: "Writing a load bit copies P and N, sets T_OUT to 1 if the byte
       written chooses that timer [...]. The divider isn't touched." 004,
       11.3.1: "The initial values may be loaded into the down-counters at any
       time", so the Enable Count bit is not asked. */
    if (byte & TMR_LOAD_T0) {
        t->prescaler0 = modulo(t->pre0);
        t->counter0 = start(t->t0);
        if ((byte & TMR_TOUT) == TMR_TOUT_T0) {
            t->tout = 1;
        }
    }
    if (byte & TMR_LOAD_T1) {
        t->prescaler1 = modulo(t->pre1);
        t->counter1 = start(t->t1);
        if ((byte & TMR_TOUT) == TMR_TOUT_T1) {
            t->tout = 1;
        }
    }

    /* 01: a load bit "reads back 0", and legal are only "bits 0 and 2 of TMR
       [...] zero". The rest of the byte is held as written; 004, 11.3.1:
       "Counting actually starts when the Enable Count bit is written by an
       instruction." */
    t->tmr = (uint8_t)(byte & ~(TMR_LOAD_T0 | TMR_LOAD_T1));
}
