/* Drawing numbers and machines from a seed. A case's numbers follow from the seed and the case's number
   alone, so that any case can be drawn again without those before it. */
#ifndef TESTS_DRAW_H
#define TESTS_DRAW_H

#include <stddef.h>
#include <stdint.h>

struct dice {
    uint64_t state;
};

void dice_for_case(struct dice *d, unsigned long seed, unsigned long number);
uint64_t throw64(struct dice *d);
uint32_t below(struct dice *d, uint32_t limit); /* 0 to limit - 1 */
int one_in(struct dice *d, uint32_t n);         /* 1 once in n times */
uint8_t any_byte(struct dice *d);
uint32_t one_of(struct dice *d, const uint32_t *list, size_t length);

/* A byte that is often the address of something that is no plain register: a port, a control register, a
   hole, a neighbour of one of these, or an Ex byte. */
uint8_t odd_address(struct dice *d);

/* A word that is often at an edge of a memory whose length or beginning is one of the given ones. */
uint16_t odd_word(struct dice *d, uint32_t edge, uint32_t other_edge);

/* How a drawn machine leans. */
struct lean {
    int requests; /* 0: interrupts are off, 1: as it comes */
    uint32_t image_length, data_length;
};

/* A legal saved machine (276 bytes). Its serial port is on as often as not, and in any state that is legal.
   One in four has not executed EI. */
void draw_machine(struct dice *d, const struct lean *lean, uint8_t *saved);

/* 02, C-13: as before the first EI, with IRQ zero; and as after it. */
void hold_requests(uint8_t *saved);
void release_requests(uint8_t *saved);

#endif
