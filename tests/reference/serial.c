/* See serial.h. In the comments, words between quotation marks are the paper's
   own. */
#include "serial.h"

/* 02: "bit time is 16 ends of T0". 004, 12.4: "T_0's output drives a
   divide-by-16 counter which in turn generates a shift clock every 16
   counts", 12.3.1: "the data is shifted into the Shift register every sixteen
   counts". */
#define BIT_TIME   16

/* 004, 12.3.1: "when the count equals 8, the divider outputs a shift clock.
   This clock shifts the start bit into the Receiver Shift register at the
   center of the bit time." */
#define HALF_A_BIT  8

/* 004, 12.3.1: "initialized to all 1s". */
#define ALL_ONES   0xFF

/* What the receiver awaits. */
#define A_START_BIT   0
#define ITS_MIDDLE    1
#define FIRST_DATA    2     /* the middle of data bit 0 */
#define LAST_DATA     9     /* the middle of data bit 7 */

/* What is on the line. */
#define NOTHING       0
#define START         1
#define FIRST_BIT     2
#define LAST_BIT      9
#define LAST_STOP    11     /* 02: "two stop bits sent" */

/* 004, 12.3.1: "After a hardware reset [...] the Receiver Shift register is
   initialized to all 1s and the shift clock is stopped", 12.4: "After a
   hardware reset [...] the transmitter is forced to a marking state (output
   always High)". 12.5: "the Serial I/O register contents are undefined"; C-11:
   "received byte 0, both halves idle". */
void ref_serial_reset(struct ref_serial *s)
{
    s->received = 0;
    s->shift = ALL_ONES;
    s->awaits = A_START_BIT;
    s->receiver_ends = 0;
    s->bits = ALL_ONES;
    s->place = NOTHING;
    s->transmitter_ends = 0;
}

/* z8-requests.h, of 269: "FF while it waits for a start bit or for the middle
   of one"; of 270: "0 a start bit; 1 the middle of the start bit; 2 to 9 the
   middle of data bit 0 to 7"; of 271: "0 to 7 where 270 is 1, 0 to 15 where it
   is over 1, 0 where it is 0"; of 272: "FF when idle"; of 273: "0 nothing
   (high); 1 the start bit; 2 to 9 bit 0 to 7; 10 and 11 the stop bits"; of 274:
   "0 to 15; 0 when idle". "Legal: just that." */
int ref_serial_legal(const struct ref_serial *s)
{
    if (s->awaits > LAST_DATA) {
        return 0;
    }
    if (s->awaits == A_START_BIT
        && (s->shift != ALL_ONES || s->receiver_ends != 0)) {
        return 0;
    }
    if (s->awaits == ITS_MIDDLE
        && (s->shift != ALL_ONES || s->receiver_ends > 7)) {
        return 0;
    }
    if (s->receiver_ends > 15) {
        return 0;
    }

    if (s->place > LAST_STOP) {
        return 0;
    }
    if (s->place == NOTHING
        && (s->bits != ALL_ONES || s->transmitter_ends != 0)) {
        return 0;
    }
    if (s->transmitter_ends > 15) {
        return 0;
    }
    return 1;
}

/* 1 where a byte has an odd number of ones, else 0. */
static int has_odd_ones(uint8_t byte)
{
    int ones = 0;
    int bit;

    for (bit = 0; bit < 8; bit++) {
        if (byte & (1 << bit)) {
            ones = ones + 1;
        }
    }
    return ones % 2 == 1;
}

/* ---- The transmitter ---- */

/* 004, 12.4.2: "If parity is on, bit D_7 of the data transmitted will be
   replaced by an odd parity bit." C-11: "bit 7 replaced so that the eight bits
   have an odd number of ones". */
static uint8_t with_parity(uint8_t byte)
{
    uint8_t seven = byte & 0x7F;

    if (has_odd_ones(seven)) {
        return seven;
    }
    return (uint8_t)(seven | 0x80);
}

/* 004, 12.4: "The transmitter is loaded by specifying the SIO as the
   destination register of any instruction." "This counter is reset when the
   transmitter buffer is written by an instruction." 12.4.2: "Each time the SIO
   is loaded, the divide-by-16 counter is re-synchronized and a new start bit is
   output followed by data." So also during a send: C-11, "A store during a send
   begins anew with the new byte". */
void ref_serial_store(struct ref_serial *s, uint8_t byte, int parity)
{
    if (parity) {
        s->bits = with_parity(byte);
    } else {
        s->bits = byte;
    }
    s->place = START;
    s->transmitter_ends = 0;
}

/* 004, 12.4: "The transmitter then outputs one bit per shift clock, through
   Port 3 pin P37, until a start bit, the character written to the buffer, and
   two stop bits have been transmitted. After the second stop bit has been
   transmitted, the output is again forced to a marking state. Interrupt request
   IRQ4 is generated". Answers 1 where it is, else 0. */
static int transmitter_end(struct ref_serial *s)
{
    if (s->place == NOTHING) {
        return 0;
    }

    s->transmitter_ends = (uint8_t)(s->transmitter_ends + 1);
    if (s->transmitter_ends != BIT_TIME) {
        return 0;
    }
    s->transmitter_ends = 0;

    if (s->place != LAST_STOP) {
        s->place = (uint8_t)(s->place + 1);
        return 0;
    }
    s->place = NOTHING;
    s->bits = ALL_ONES;
    return 1;
}

/* A start bit is low and stop bits are high (004, Figure 12-10; 12.3.1: "a
   start bit (a High-to-Low input transition)"); 12.4: "a marking state (output
   always High)". 02: "low bit first". */
int ref_serial_line(const struct ref_serial *s)
{
    int mask = 1;
    int place;

    if (s->place == START) {
        return 0;
    }
    if (s->place < FIRST_BIT || s->place > LAST_BIT) {
        return 1;
    }
    for (place = FIRST_BIT; place != s->place; place++) {
        mask = mask * 2;
    }
    return (s->bits & mask) != 0;
}

/* ---- The receiver ---- */

/* 004, 12.3.1: "The start bit detection circuitry monitors the incoming data
   stream, looking for a start bit (a High-to-Low input transition). When a
   start bit is detected, the shift clock logic is enabled." It looks only while
   no character comes in: after one it "begins monitoring the data input for the
   next start bit". C-11: "An edge during a character is data". */
void ref_serial_edge(struct ref_serial *s)
{
    if (s->awaits != A_START_BIT) {
        return;
    }
    s->awaits = ITS_MIDDLE;
    s->receiver_ends = 0;
}

/* C-11: "bits enter at bit 7 and the rest moves down, so the first is the
   lowest". */
static void shift_in(struct ref_serial *s, int level)
{
    s->shift = (uint8_t)(s->shift / 2);
    if (level != 0) {
        s->shift = (uint8_t)(s->shift + 0x80);
    }
}

/* 004, 12.3.1: "The shift clock is stopped and the Shift register reset to all
   1s. The start bit detection circuitry begins monitoring the data input for
   the next start bit." */
static void await_a_start_bit(struct ref_serial *s)
{
    s->shift = ALL_ONES;
    s->awaits = A_START_BIT;
    s->receiver_ends = 0;
}

/* 004, 12.3.4: "If parity is on, bit D_7 of the data received will be replaced
   by a Parity Error flag. A parity error sets D_7 to 1; otherwise, D_7 is set
   to 0." "The Z8 hardware supports odd parity only": C-11, "bit 7 becomes 1
   where the eight bits had an even number of ones". */
static uint8_t with_error_flag(uint8_t byte)
{
    uint8_t seven = byte & 0x7F;

    if (has_odd_ones(byte)) {
        return seven;
    }
    return (uint8_t)(seven | 0x80);
}

/* 004, 12.3.1: "Before the shift actually occurs, the input is rechecked to
   ensure that the start bit is valid. If the detected start bit is false, the
   receiver is reset and the process of looking for a start bit is repeated. If
   the start bit is valid, the data is shifted into the Shift register every
   sixteen counts until a full character is assembled". */
static void middle_of_the_start_bit(struct ref_serial *s, int p30)
{
    if (p30 != 0) {
        await_a_start_bit(s);
        return;
    }
    shift_in(s, p30);
    s->awaits = FIRST_DATA;
    s->receiver_ends = 0;
}

/* 004, 12.3.1: "After a full character has been assembled in the Shift
   register, the data is transferred to the receiver's buffer, SIO (%F0), and
   interrupt request IRQ_3 is generated." 12.3.2: "it is not protected from
   being overwritten". Answers 1 where the character is full, else 0. */
static int middle_of_a_data_bit(struct ref_serial *s, int p30, int parity)
{
    shift_in(s, p30);
    if (s->awaits != LAST_DATA) {
        s->awaits = (uint8_t)(s->awaits + 1);
        s->receiver_ends = 0;
        return 0;
    }

    if (parity) {
        s->received = with_error_flag(s->shift);
    } else {
        s->received = s->shift;
    }
    await_a_start_bit(s);
    return 1;
}

/* Answers 1 where request 3 comes, else 0. */
static int receiver_end(struct ref_serial *s, int p30, int parity)
{
    if (s->awaits == A_START_BIT) {
        return 0;
    }

    s->receiver_ends = (uint8_t)(s->receiver_ends + 1);
    if (s->awaits == ITS_MIDDLE) {
        if (s->receiver_ends == HALF_A_BIT) {
            middle_of_the_start_bit(s, p30);
        }
        return 0;
    }
    if (s->receiver_ends == BIT_TIME) {
        return middle_of_a_data_bit(s, p30, parity);
    }
    return 0;
}

/* 004, 12.2: "the signal is used as the input to the divide-by-16 counters (one
   each for the receiver and the transmitter)". Neither touches what the other
   reads, so the order of the two is free. */
struct ref_serial_requests ref_serial_end(struct ref_serial *s, int p30,
                                          int parity)
{
    struct ref_serial_requests r;

    r.request4 = transmitter_end(s);
    r.request3 = receiver_end(s, p30, parity);
    return r;
}
