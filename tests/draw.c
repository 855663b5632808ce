/* See draw.h. */
#include "draw.h"

#define LENGTH_OF(list) (sizeof(list) / sizeof((list)[0]))

/* Register places, by 002. */
enum { TMR = 0xF1, T1 = 0xF2, PRE1 = 0xF3, T0 = 0xF4, PRE0 = 0xF5, IRQ = 0xFA };
enum { IMR = 0xFB, RP = 0xFD, SPH = 0xFE, SPL = 0xFF };

/* Places of the saved machine, by 01, 02 (C-13: "the saved machine's spare byte") and z8-requests.h. */
enum { PC = 256, DIVIDER = 258, PRESCALER0 = 259, COUNTER0 = 260, PRESCALER1 = 261 };
enum { COUNTER1 = 262, PINS3 = 263, T_OUT = 264, TYPE = 265, ENTRY_COST = 266, SPARE = 267 };
enum { RECEIVED = 268, SHIFT = 269, AWAITS = 270, RECEIVER_ENDS = 271 };
enum { BITS = 272, PLACE = 273, SENDER_ENDS = 274, PORT_ZERO = 275 };

/* Steele, Lea and Flood's splitmix64: any state will do, so a case number can be one. */
uint64_t throw64(struct dice *d)
{
    uint64_t z = (d->state += 0x9E3779B97F4A7C15u);

    z = (z ^ (z >> 30)) * 0xBF58476D1CE4E5B9u;
    z = (z ^ (z >> 27)) * 0x94D049BB133111EBu;
    return z ^ (z >> 31);
}

void dice_for_case(struct dice *d, unsigned long seed, unsigned long number)
{
    d->state = seed;
    d->state = throw64(d) + number;
    d->state = throw64(d);
}

uint32_t below(struct dice *d, uint32_t limit)
{
    return (uint32_t)((throw64(d) >> 32) * limit >> 32);
}

int one_in(struct dice *d, uint32_t n)
{
    return below(d, n) == 0;
}

uint8_t any_byte(struct dice *d)
{
    return (uint8_t)below(d, 256);
}

uint32_t one_of(struct dice *d, const uint32_t *list, size_t length)
{
    return list[below(d, (uint32_t)length)];
}

uint8_t odd_address(struct dice *d)
{
    static const uint32_t neighbours[] = {0x03, 0x04, 0x7E, 0x7F, 0x80, 0x81, 0xEF, 0xF0};

    switch (below(d, 8)) {
    case 0:
    case 1:
        return (uint8_t)(0xE0 + below(d, 16));
    case 2:
    case 3:
        return (uint8_t)(0xF0 + below(d, 16));
    case 4:
        return (uint8_t)below(d, 4);
    case 5:
        return one_in(d, 2) ? (uint8_t)one_of(d, neighbours, LENGTH_OF(neighbours))
                            : (uint8_t)(0x80 + below(d, 0x71));
    default:
        return any_byte(d);
    }
}

uint16_t odd_word(struct dice *d, uint32_t edge, uint32_t other_edge)
{
    const uint32_t edges[] = {0, 2048, 4096, edge, other_edge};

    if (one_in(d, 4)) {
        return (uint16_t)below(d, 65536);
    }
    return (uint16_t)(one_of(d, edges, LENGTH_OF(edges)) + below(d, 7) + 65533u);
}

static void fill_with_bytes(struct dice *d, uint8_t *bytes, size_t length)
{
    uint64_t many = 0;
    size_t at;

    for (at = 0; at < length; at++) {
        if (at % 8 == 0) {
            many = throw64(d);
        }
        bytes[at] = (uint8_t)many;
        many >>= 8;
    }
}

/* In half of the machines most of the working registers hold addresses that matter: of no plain register, of
   the group itself (so that an instruction meets its own operands), or, as pairs, of a memory's edge. */
static void draw_working_registers(struct dice *d, const struct lean *lean, uint8_t *saved)
{
    unsigned group = saved[RP];
    unsigned x;

    if (group >= 0x80 || one_in(d, 2)) {
        return;
    }
    for (x = 0; x < 16; x += 2) {
        uint16_t word = odd_word(d, lean->image_length, lean->data_length);

        saved[group + x] = (uint8_t)(word / 256);
        saved[group + x + 1] = (uint8_t)word;
        if (one_in(d, 2)) {
            saved[group + x + below(d, 2)] = odd_address(d);
        }
        if (one_in(d, 4)) {
            saved[group + x + below(d, 2)] = (uint8_t)(group + below(d, 16));
        }
    }
}

static uint8_t draw_group(struct dice *d)
{
    static const uint32_t groups[] = {0x00, 0x00, 0x10, 0x20, 0x70, 0x70, 0xF0, 0xF0};

    if (one_in(d, 3)) {
        return (uint8_t)(any_byte(d) & 0xF0);
    }
    return (uint8_t)one_of(d, groups, LENGTH_OF(groups));
}

/* SPL near the ends of the file's parts; SPH too where the stack is external. */
static void draw_stack(struct dice *d, const struct lean *lean, uint8_t *saved)
{
    static const uint32_t low[] = {0x00, 0x01, 0x02, 0x03, 0x04, 0x05, 0x06, 0x7E, 0x7F,
                                   0x80, 0x81, 0x82, 0x83, 0xEF, 0xF0, 0xF1, 0xF2, 0xF3,
                                   0xF8, 0xFA, 0xFB, 0xFC, 0xFD, 0xFE, 0xFF};
    uint16_t word;

    if (one_in(d, 2)) {
        saved[SPL] = (uint8_t)one_of(d, low, LENGTH_OF(low));
        return;
    }
    word = odd_word(d, lean->data_length, lean->data_length);
    saved[SPH] = (uint8_t)(word / 256);
    saved[SPL] = (uint8_t)word;
}

static uint8_t prescaler_near_its_end(struct dice *d)
{
    return (uint8_t)(one_in(d, 4) ? 1 + below(d, 64) : 1 + below(d, 3));
}

static uint8_t counter_near_its_end(struct dice *d)
{
    switch (below(d, 4)) {
    case 0:
        return any_byte(d);
    case 1:
        return (uint8_t)below(d, 3);
    default:
        return 1;
    }
}

/* PRE0 and PRE1 with a small P as often as not; both low bits as they come. */
static uint8_t draw_prescaler_register(struct dice *d)
{
    return (uint8_t)(one_in(d, 2) ? any_byte(d) : below(d, 16));
}

static void draw_timers(struct dice *d, uint8_t *saved)
{
    saved[TMR] = (uint8_t)(any_byte(d) & 0xFA);
    saved[PRE0] = draw_prescaler_register(d);
    saved[PRE1] = draw_prescaler_register(d);
    saved[T0] = (uint8_t)(one_in(d, 2) ? any_byte(d) : below(d, 4));
    saved[T1] = (uint8_t)(one_in(d, 2) ? any_byte(d) : below(d, 4));
    saved[DIVIDER] = (uint8_t)below(d, 4);
    saved[PRESCALER0] = prescaler_near_its_end(d);
    saved[PRESCALER1] = prescaler_near_its_end(d);
    saved[COUNTER0] = counter_near_its_end(d);
    saved[COUNTER1] = counter_near_its_end(d);
    saved[T_OUT] = (uint8_t)below(d, 2);
}

/* As many ends of T0 as the next is the last of, as often as not. */
static uint8_t ends_near(struct dice *d, uint8_t most)
{
    return (uint8_t)(one_in(d, 2) ? most : below(d, most + 1u));
}

/* z8-requests.h, bytes 268 to 275: "Legal: just that." What is filled in already is any byte. */
static void draw_serial(struct dice *d, uint8_t *saved)
{
    saved[AWAITS] = (uint8_t)(one_in(d, 4) ? 0 : one_in(d, 4) ? 1 : one_in(d, 4) ? 9 : 2 + below(d, 8));
    if (saved[AWAITS] < 2) {
        saved[SHIFT] = 0xFF;
    }
    saved[RECEIVER_ENDS] = (uint8_t)(saved[AWAITS] == 0 ? 0 : ends_near(d, saved[AWAITS] == 1 ? 7 : 15));

    saved[PLACE] = (uint8_t)(one_in(d, 4) ? 0 : one_in(d, 4) ? 11 : 1 + below(d, 11));
    if (saved[PLACE] == 0) {
        saved[BITS] = 0xFF;
    }
    saved[SENDER_ENDS] = (uint8_t)(saved[PLACE] == 0 ? 0 : ends_near(d, 15));
    saved[PORT_ZERO] = 0;
}

void hold_requests(uint8_t *saved)
{
    saved[SPARE] = 0;
    saved[IRQ] = 0;
}

void release_requests(uint8_t *saved)
{
    saved[SPARE] = 1;
}

void draw_machine(struct dice *d, const struct lean *lean, uint8_t *saved)
{
    static const uint32_t costs[] = {6, 7, 20, 62, 63};
    unsigned at;

    fill_with_bytes(d, saved, PORT_ZERO + 1);
    for (at = 0x80; at <= 0xF0; at++) {
        saved[at] = 0;
    }
    if (one_in(d, 2)) {
        for (at = 4; at < 0x80; at += 1 + below(d, 3)) {
            saved[at] = odd_address(d);
        }
    }
    saved[RP] = draw_group(d);
    draw_working_registers(d, lean, saved);
    draw_stack(d, lean, saved);
    draw_timers(d, saved);
    draw_serial(d, saved);
    saved[IRQ] &= 0x3F;
    if (one_in(d, 4)) {
        hold_requests(saved);
    } else {
        release_requests(saved);
    }
    if (!lean->requests) {
        saved[IMR] &= 0x7F;
    }
    if (one_in(d, 8)) {
        saved[PC] = 0xFF;
        saved[PC + 1] = (uint8_t)(0xFC + below(d, 4));
    }
    saved[TYPE] = (uint8_t)(one_in(d, 2) ? 1 : 11);
    saved[ENTRY_COST] = (uint8_t)(one_in(d, 2) ? 6 + below(d, 58) : one_of(d, costs, LENGTH_OF(costs)));
}
