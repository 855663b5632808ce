/* What happened in the cases of the comparison, and how often, so that a question that was never asked is seen. */
#ifndef TESTS_SEEN_H
#define TESTS_SEEN_H

#include "report.h"

enum kind {
    GRANTS,
    RESERVED_ORDERS,
    REFUSALS_5,
    EDGES,
    EDGE_ENDS,
    T0_ENDS,
    T1_ENDS,
    BOTH_END,
    MANY_ENDS,
    SINGLE_PASSES,
    T_OUT_FLIPS,
    GATE_HIGH,
    GATE_LOW,
    LOADS,
    INTERNAL_STACK,
    EXTERNAL_STACK,
    STACK_ON_SPECIAL,
    SPL_WRAPS,
    SP_WRAPS,
    STACK_OVER_DATA_START,
    STACK_OVER_LENT_END,
    DATA_STORES,
    DATA_DROPS,
    DATA_LOADS,
    DATA_LOADS_OUTSIDE,
    PROGRAM_LOADS,
    PROGRAM_LOADS_AT_END,
    PAST_IMAGE,
    PC_WRAPS,
    EX_OPERANDS,
    SPECIAL_OPERANDS,
    HOLES,
    DA_IN_NO_ROW,
    JUMPS,
    FLAGS_STORED,
    RP_STORED,
    NO_IMAGE,
    NO_DATA,
    START_EDGES,
    EDGES_IN_CHARACTERS,
    P30_REQUESTS,
    FALSE_STARTS,
    START_BITS,
    DATA_BITS,
    RECEPTIONS,
    PARITY_ERRORS,
    PARITY_FINE,
    SENDS_BEGUN,
    PARITY_PUT_IN,
    SENDS_OVERWRITTEN,
    SENDS_BY_GRANT,
    SIO_DROPS,
    SENDS_DONE,
    PORT_REQUESTS_3,
    PORT_REQUESTS_4,
    BOTH_DONE,
    ENDS_ASK_NOTHING,
    PORT_RESTS,
    SWITCHES_ON,
    SWITCHES_OFF,
    MANY_PORT_ENDS,
    PORT_SINGLE_PASSES,
    HELD_EDGES_P30,
    HELD_EDGES_P31,
    HELD_EDGES_P32,
    HELD_EDGES_P33,
    HELD_T0_ENDS,
    HELD_T1_ENDS,
    HELD_EDGE_ENDS,
    HELD_SINGLE_PASSES,
    HELD_T_OUT_FLIPS,
    HELD_RECEPTIONS,
    HELD_SENDS_DONE,
    IRQ_DROPS,
    IRQ_DROPS_BY_STACK,
    IRQ_STORES,
    HELD_MASTER_STORES,
    HELD_IRETS,
    RELEASES,
    RELEASES_WITH_EDGES,
    RELEASES_WITH_ENDS,
    RELEASED_DIS,
    RUN_ENDS,
    RUNS_OVER,
    RUNS_STOPPED,
    RUNS_STOPPED_AT_ONCE,
    RUN_RECEPTIONS,
    RUN_SENDS,
    HELD_RUN_ENDS,
    RUN_RELEASES,
    SPAN_T0_ENDS,
    SPAN_T1_ENDS,
    SPANS_WITHOUT_END,
    SPAN_SINGLE_PASSES,
    SPAN_T_OUT_FLIPS,
    SPANS_GATED,
    SPAN_FALSE_STARTS,
    SPAN_RECEPTIONS,
    SPAN_SENDS,
    SPAN_BOTH_DONE,
    SPAN_PORT_RESTS,
    SPAN_PORT_IDLE,
    HELD_SPAN_T0_ENDS,
    HELD_SPAN_T1_ENDS,
    HELD_SPAN_SINGLE_PASSES,
    HELD_SPAN_RECEPTIONS,
    HELD_SPAN_SENDS,
    LONG_RECEPTIONS,
    LONG_SENDS,
    HELD_LONG_ENDS,
    HELD_LONG_PORT,
    HELD_REQUESTS_REFUSED,
    BITS_REFUSED_1,
    BITS_REFUSED_2,
    BITS_REFUSED_3,
    BITS_REFUSED_4,
    BITS_REFUSED_5,
    BITS_REFUSED_6,
    BITS_REFUSED_7,
    RELEASED_RESETS,
    HELD_MACHINES_PASSED,
    MACHINES_REFUSED,
    MACHINES_PASSED,
    KINDS
};

/* Counts it, where it happened. */
void saw(enum kind kind, int it_happened);

/* What a call was given, and what the reference left. */
void see_step(const struct given *g, const struct outcome *after);
void see_run(const struct given *g, const struct outcome *after);
void see_span(const struct given *g, const struct outcome *after);
void see_long_span(const struct given *g, const struct outcome *after);
void see_check(const struct given *g, const struct outcome *after);
void see_reset(const struct given *g, const struct outcome *after);

/* Prints how often each happened. */
void tell_what_happened(void);

/* 0, and a line is printed, where it never did. */
int has_happened(enum kind kind);

unsigned pc_of(const struct given *g);

/* Whether by the papers a step can store to data memory. */
int can_store_data(const struct given *g);

#endif
