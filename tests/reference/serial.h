/* An independent reference model of the serial port of the Zilog Z8601 and
   Z8611, written from the papers alone: change request C-11 of
   02-change-requests.md (02) with the points decided for it (C-11), the bytes
   of z8-requests.h, the 1983 manual (source document 004, chapter 12) and the
   control-register bits of 002. It goes by single ends of T0 and knows no
   machine: whether the port is on, P30's level and P3M are the caller's.

   It is stated for legal values, as given beside each field. */
#ifndef REFERENCE_SERIAL_H
#define REFERENCE_SERIAL_H

#include <stdint.h>

struct ref_serial {
    uint8_t received;          /* the receiver's buffer, what F0 reads */
    uint8_t shift;             /* the Receiver Shift register; FF where awaits
                                  is 0 or 1 */
    uint8_t awaits;            /* 0 a start bit; 1 the middle of the start bit;
                                  2 to 9 the middle of data bit 0 to 7 */
    uint8_t receiver_ends;     /* T0's ends since the start edge or the last
                                  shift clock: 0 where awaits is 0, 0 to 7 where
                                  it is 1, else 0 to 15 */
    uint8_t bits;              /* the character that goes out, parity put in; FF
                                  where place is 0 */
    uint8_t place;             /* what is on the line: 0 nothing; 1 the start
                                  bit; 2 to 9 bit 0 to 7; 10, 11 stop bits */
    uint8_t transmitter_ends;  /* T0's ends since that began: 0 where place is
                                  0, else 0 to 15 */
};

/* Which requests an end of T0 brings, each 0 or 1. */
struct ref_serial_requests {
    int request3, request4;
};

/* After a reset. */
void ref_serial_reset(struct ref_serial *s);

/* 1 where both halves are as the fields above say, else 0. */
int ref_serial_legal(const struct ref_serial *s);

/* A byte is stored to F0; parity nonzero where it is on. */
void ref_serial_store(struct ref_serial *s, uint8_t byte, int parity);

/* P30 falls. */
void ref_serial_edge(struct ref_serial *s);

/* One end of T0, with P30 at that level, 0 or 1. */
struct ref_serial_requests ref_serial_end(struct ref_serial *s, int p30,
                                          int parity);

/* The level that the transmitter puts on P37, 0 or 1. */
int ref_serial_line(const struct ref_serial *s);

#endif
