/* An independent reference model of the two counter/timers of the Zilog Z8601
   and Z8611, written from the papers alone: 01-scope.md (house rules), the 1983
   manual (source document 004, chapter 11) and the control-register bits of
   002. Where they differ, 01 decides, then 004, then 002. Change requests C-11
   and C-13 of 02-change-requests.md (02) correct 01. It is stated for legal
   values only, as given beside each field. */
#ifndef REFERENCE_TIMERS_H
#define REFERENCE_TIMERS_H

#include <stdint.h>

struct ref_timers {
    uint8_t tmr, t1, pre1, t0, pre0;   /* what registers F1 to F5 hold: TMR,
                                          the start value of T1, PRE1, the
                                          start value of T0, PRE0 */
    uint8_t irq;                       /* register FA */
    uint8_t irq_is_held;               /* nonzero before the first EI */
    uint8_t port3;                     /* the last Port 3 pins; P31 is bit 1 */
    uint8_t serial_on;                 /* nonzero where the serial port is */
    uint8_t divider;                   /* 0 to 3 */
    uint8_t prescaler0, prescaler1;    /* 1 to 64 */
    uint16_t counter0, counter1;       /* 1 to 256 */
    uint8_t tout;                      /* T_OUT level, 0 or 1 */
    uint32_t ends0, ends1;             /* each timer's ends so far */
};

/* One cycle. */
void ref_timer_cycle(struct ref_timers *t);

/* n cycles, one by one. */
void ref_timer_cycles(struct ref_timers *t, uint32_t n);

/* What a falling edge of P31 does to T1. Request 2 is not part of this, and
   t->port3 is neither read nor changed. */
void ref_timer_edge(struct ref_timers *t);

/* A byte is written to TMR (F1): what it loads, enables and sets, and what F1
   then holds. */
void ref_write_tmr(struct ref_timers *t, uint8_t byte);

#endif
