/* z8.h: the Zilog Z8601 and Z8611 as a C library. Link with libz8.a (pkg-config name: z8).

   A machine is an array of Z8_SAVED_LEN bytes that you own: you make it, hand it to every call, and may copy it, write it to a file
   or send it away between calls. The library keeps no state, allocates nothing and reads no clock. Calls on different machines may be
   made from any number of threads at once; one machine, or one data memory, belongs to one call at a time. An image is only read, so
   all machines may share one.

   The serial port is there, and has a section of its own below. Port handshake, bus timing and T1's trigger modes are not: of P3M only bits
   6 and 7 do anything, and T_IN modes 10 and 11 give T1 no ticks.

   Each call that libz8.a has, z8_version and z8_make to z8_span, is proved to give, for every input, the one answer that its definition
   allows (docs/PROMISES.md). z8_p37 and z8_answer_text, which are C in this header, and the constants are not proved: they are tested. What
   is asked of you, because C can't be held to it:

     - a pointer to bytes points to as many as the length after it says; with length 0 it may be null;
     - a pointer to a number points to one, and is never null; two outputs may not share one variable;
     - the bytes and numbers lent to one call don't overlap.

   What a call answers is Z8_OK, or the number of a refusal; z8_version alone refuses nothing, and answers the version. A refused call has
   changed no byte and no number that it was lent. The one exception is a run refused with Z8_REFUSED_OPCODE: it leaves machine, data
   memory, cycles and ends as after the whole steps that came before the undefined opcode (and cycles and ends 0 where there was none). */
#ifndef Z8_H
#define Z8_H

#include <stddef.h>
#include <stdint.h>

#ifdef __cplusplus
extern "C" {
#endif

#define Z8_VERSION_MAJOR 3
#define Z8_VERSION_MINOR 0
#define Z8_VERSION_PATCH 0
#define Z8_VERSION "3.0.0"
#define Z8_VERSION_NUMBER (65536u * Z8_VERSION_MAJOR + 256u * Z8_VERSION_MINOR + Z8_VERSION_PATCH)

/* The library's own version: 65,536 x MAJOR + 256 x MINOR + PATCH. It is Z8_VERSION_NUMBER where library and header belong together. */
uint32_t z8_version(void);

/* ---- Answers. Where several would apply, the first in the order 7, 6, 1, 2, 3, 4, 5, 8 is given. ---- */

#define Z8_OK 0u
#define Z8_REFUSED_IMAGE 1u       /* the program image is over Z8_IMAGE_MOST bytes */
#define Z8_REFUSED_DATA 2u        /* the data memory is over Z8_DATA_MOST bytes */
#define Z8_REFUSED_MAKING 3u      /* no such type, or no such entry cost, for a new machine */
#define Z8_REFUSED_BUDGET 4u      /* the run's budget is over Z8_BUDGET_MOST cycles */
#define Z8_REFUSED_OPCODE 5u      /* the opcode is one of the 25 undefined ones */
#define Z8_REFUSED_MACHINE 6u     /* the bytes are no legal saved machine */
#define Z8_REFUSED_LENGTH 7u      /* the saved machine is not Z8_SAVED_LEN bytes long */
#define Z8_REFUSED_INSTRUCTION 8u /* what is to be encoded is none of the 231 instructions */

/* ---- Limits ---- */

#define Z8_IMAGE_MOST 65536u
#define Z8_DATA_MOST 65536u
#define Z8_BUDGET_MOST 1000000u
#define Z8_OVERRUN_MOST 62u /* a run spends at most so many cycles more than its budget */

#define Z8_TYPE_Z8601 1u  /* data memory begins at address 2,048 */
#define Z8_TYPE_Z8611 11u /* data memory begins at address 4,096 */
#define Z8_ENTRY_COST_LEAST 6u
#define Z8_ENTRY_COST_MOST 63u
#define Z8_DEFAULT_TYPE Z8_TYPE_Z8611
#define Z8_DEFAULT_ENTRY_COST 20u

/* ---- The saved machine ----

   It is legal, and no call answers Z8_REFUSED_MACHINE to it, exactly where each byte is within what is said beside it, places 80 to EF
   and F0 (hexadecimal) of the register file are zero, and so are bits 0 and 2 of TMR (F1), bits 6 and 7 of IRQ (FA), bits 0 to 3 of
   RP (FD), and all of IRQ where Z8_EI_EXECUTED is clear. Every machine that a call writes is legal.

   Writing into these bytes is no register store. To start T0 by hand, say, set its start value (Z8_T0) and Z8_PRE0, its prescaler and
   counter, and its enable bit, bit 1 of Z8_TMR; and Z8_EI_EXECUTED, if its ends are to be requests before the program executes EI.

   A kept machine is carried over so:

     - from before version 3: byte 267 was always 0, which now says that EI has not been executed. If you know that it had been, since the
       machine was made or last reset, set Z8_EI_EXECUTED, and it goes on as it did. Without it a machine whose IRQ is not zero is refused
       with 6, and one whose IRQ is zero goes on, but latches no request until its next EI.
     - from before version 2, when it had 268 bytes: append 00 FF 00 00 FF 00 00 00 (hexadecimal), too: nothing received, and nothing under
       way. Its serial port is on where bit 6 of P3M is set, which did nothing then. */

#define Z8_SAVED_LEN 276u

#define Z8_AT_REGISTERS 0u         /* 256 places in address order. 0 to 3: the ports' output latches. F2, F4: start values of T1, T0 */
#define Z8_AT_PC 256u              /* program counter: the high byte, and after it the low byte */
#define Z8_AT_DIVIDER 258u         /* cycles since the last tick: 0 to 3 */
#define Z8_AT_T0_PRESCALER 259u    /* 1 to 64 */
#define Z8_AT_T0_COUNTER 260u      /* the count in progress; 0 stands for 256 */
#define Z8_AT_T1_PRESCALER 261u    /* 1 to 64 */
#define Z8_AT_T1_COUNTER 262u      /* the count in progress; 0 stands for 256 */
#define Z8_AT_PORT3 263u           /* the Port 3 pins of the last step */
#define Z8_AT_T_OUT 264u           /* the T_OUT level: 0 or 1 */
#define Z8_AT_TYPE 265u            /* Z8_TYPE_Z8601 or Z8_TYPE_Z8611 */
#define Z8_AT_ENTRY_COST 266u      /* cycles of an interrupt's entry: 6 to 63 */
#define Z8_AT_BITS 267u            /* bit 0: Z8_EI_EXECUTED; the others 0 */
#define Z8_AT_RECEIVED 268u        /* the received byte, which F0 reads while the serial port is on */
#define Z8_AT_RECEIVER_SHIFT 269u  /* the receiver's shift register: FF where the next byte is 0 or 1 */
#define Z8_AT_RECEIVER_AWAITS 270u /* 0 a start bit; 1 the start bit's middle; 2 to 9 the middle of bit 0 to 7 */
#define Z8_AT_RECEIVER_ENDS 271u   /* T0's ends since the start edge or the last middle: 0 where the byte before is 0; 0 to 7 where it is 1;
                                      else 0 to 15 */
#define Z8_AT_SENDER_BITS 272u     /* the eight bits of the send, as they go out, parity put in: FF where the next byte is 0 */
#define Z8_AT_SENDER_PLACE 273u    /* what is on P37: 0 nothing, so high; 1 the start bit; 2 to 9 bit 0 to 7; 10 and 11 the stop bits */
#define Z8_AT_SENDER_ENDS 274u     /* T0's ends since that began: 0 where the byte before is 0, else 0 to 15 */
#define Z8_AT_PORT_ZERO 275u       /* 0 */

/* Of the byte at Z8_AT_BITS: set once EI has been executed since the machine was made or last reset. While it is clear, IRQ is held at zero:
   see "Time" below. */

#define Z8_EI_EXECUTED 0x01u

/* The control registers' addresses, by the data sheet's names: TMR, say, is machine[Z8_AT_REGISTERS + Z8_TMR]. */

#define Z8_SIO 0xF0u   /* serial I/O: its place is zero; what it reads is at Z8_AT_RECEIVED */
#define Z8_TMR 0xF1u   /* timer mode */
#define Z8_T1 0xF2u    /* T1's start value */
#define Z8_PRE1 0xF3u  /* T1's prescaler register */
#define Z8_T0 0xF4u    /* T0's start value */
#define Z8_PRE0 0xF5u  /* T0's prescaler register */
#define Z8_P2M 0xF6u   /* Port 2 mode */
#define Z8_P3M 0xF7u   /* Port 3 mode: bit 6 set, the serial port is on; bit 7 set, with odd parity; its other bits do nothing */
#define Z8_P01M 0xF8u  /* Ports 0 and 1 mode */
#define Z8_IPR 0xF9u   /* interrupt priority */
#define Z8_IRQ 0xFAu   /* interrupt request: held at zero until the first EI */
#define Z8_IMR 0xFBu   /* interrupt mask */
#define Z8_FLAGS 0xFCu /* flags */
#define Z8_RP 0xFDu    /* register pointer */
#define Z8_SPH 0xFEu   /* stack pointer, high byte */
#define Z8_SPL 0xFFu   /* stack pointer, low byte */

/* The bits of FLAGS. */

#define Z8_FLAG_C 0x80u  /* carry */
#define Z8_FLAG_Z 0x40u  /* zero */
#define Z8_FLAG_S 0x20u  /* sign */
#define Z8_FLAG_V 0x10u  /* overflow */
#define Z8_FLAG_D 0x08u  /* decimal adjust */
#define Z8_FLAG_H 0x04u  /* half carry */
#define Z8_FLAG_F2 0x02u /* user flag 2 */
#define Z8_FLAG_F1 0x01u /* user flag 1 */

/* ---- Making, checking, resetting ---- */

/* A new machine of that type and interrupt entry cost: as after a reset, with R4 to R127 zero.
   Writes all of saved. Refuses with 7, 3. */
uint32_t z8_make(uint8_t *saved, size_t saved_len, uint32_t type, uint32_t entry_cost);

/* The same with Z8_DEFAULT_TYPE and Z8_DEFAULT_ENTRY_COST. Refuses with 7. */
uint32_t z8_make_default(uint8_t *saved, size_t saved_len);

/* Whether these bytes are a saved machine: Z8_OK, or 7, or 6. Changes nothing. */
uint32_t z8_check(const uint8_t *saved, size_t saved_len);

/* The reset pin. The program counter is then 000C, P01M 4D, P2M FF, the other control registers, the latches and the divider 0, T_OUT 1,
   prescalers 64, counters saved as 0, the last pins all ones, the received byte 0, and the serial port is off with nothing under way, in
   or out; Z8_EI_EXECUTED is clear. R4 to R127, type and entry cost stay. Refuses with 7, 6. */
uint32_t z8_reset(uint8_t *saved, size_t saved_len);

/* ---- Instructions and their bytes ---- */

/* The instruction at an address of the image. Addresses are modulo 65,536, and bytes past the image read FF. Writes the opcode, the two
   operand bytes (0 where the instruction hasn't them) and the length, 1 to 3. Refuses with 1, 5. */
uint32_t z8_decode(const uint8_t *image, size_t image_len, uint16_t at,
                   uint8_t *opcode, uint8_t *first, uint8_t *second, uint8_t *length);

/* An instruction's bytes, the unused ones 0, and its length, 1 to 3. Refuses with 8 an undefined opcode, and an operand that is not zero
   where the instruction hasn't it. Whatever z8_decode gives, z8_encode takes back to the same bytes, and the other way round. */
uint32_t z8_encode(uint8_t opcode, uint8_t first, uint8_t second,
                   uint8_t *byte0, uint8_t *byte1, uint8_t *byte2, uint8_t *length);

/* ---- Time ----

   A cycle is one of the chip's internal clock, half the crystal's frequency: 6,000,000 a second at 12 MHz. The timers tick once in four.

   image and data both begin at address 0. Program bytes past the image read FF, which is NOP, and stores to program memory are dropped.
   Data addresses under 2,048 (Z8601) or 4,096 (Z8611), or past data_len, read FF and drop stores.

   pins0 to pins3 are the levels at the pins of ports 0 to 3. A program reads them where a port bit is an input; of pins3 the falling edges
   of bits 0 to 3 are interrupt requests too (bit 0's not while the serial port is on), and all eight bits become the last pins
   (Z8_AT_PORT3). Where nothing is connected, pass FF: after making or a reset the last pins are all ones, so a first pins3 of 0 is a
   falling edge of each.

   The request register, IRQ (FA), is held at zero until the first EI after making or a reset: till then no edge, no end of a timer and
   nothing of the serial port latches a request, and none comes later for it; FA reads 0 and drops stores, by whatever stores. All else goes
   on: ends are counted, T_OUT flips, a single pass stops, an edge of P31 ticks T1, the port sends and receives. EI alone releases IRQ: no
   store to IMR does, though it set bit 7, and no IRET. DI does not hold it again; z8_reset alone does. In EI's own step the edges come
   before it and latch nothing, and ends within its cycles come after it and latch. */

/* One step: the pins are compared with the last ones, an interrupt is granted or else one instruction executed, and the clock goes on by
   what that costs. Writes the machine, what was stored in data memory, the cycles (6 to 63), and how often T0 and T1 ended.
   Refuses with 7, 6, 1, 2, 5. */
uint32_t z8_step(uint8_t *saved, size_t saved_len, const uint8_t *image, size_t image_len,
                 uint8_t *data, size_t data_len,
                 uint8_t pins0, uint8_t pins1, uint8_t pins2, uint8_t pins3,
                 uint32_t *cycles, uint32_t *ends0, uint32_t *ends1);

/* As many steps, with the pins held, as it takes for their cycles to reach the budget; budget 0 takes none. What it writes is what that
   many calls of z8_step would have left, with the cycles and the ends summed. Refuses with 7, 6, 1, 2, 4, 5; with 5 as said at
   the top of this file. */
uint32_t z8_run(uint8_t *saved, size_t saved_len, const uint8_t *image, size_t image_len,
                uint8_t *data, size_t data_len,
                uint8_t pins0, uint8_t pins1, uint8_t pins2, uint8_t pins3, uint32_t budget,
                uint32_t *cycles, uint32_t *ends0, uint32_t *ends1);

/* The clock alone, for any number of cycles: divider, both timers, T_OUT, the serial port while it is on, the requests that these latch
   once EI has been executed, and the enable bit in TMR (F1) that the end of a single pass clears. No instruction is executed and no pins are
   compared, so no start bit is found; P30 and P31 are as in the last pins. By division: a long span takes no longer than a short one.
   Refuses with 7, 6. */
uint32_t z8_span(uint8_t *saved, size_t saved_len, uint32_t span,
                 uint32_t *ends0, uint32_t *ends1);

/* ---- The serial port ----

   It is on while bit 6 of P3M is set. T0 is its clock: a bit lasts 16 ends of T0. One character can be received on P30 and another sent on
   P37 at the same time.

   On: F0 reads the received byte, which stays until the next one replaces it. Any store to F0 begins a send: a start bit, which is low and
   on P37 at once, eight bits from bit 0 up, and two stop bits, which are high; request 4 comes with the last of their ends of T0, the 176th
   after the store. A store before that begins anew with the new byte, and no request comes for the lost one. A falling edge of P30 while
   no character is coming in is a start bit: the 8th end after it looks at P30 again, and high takes the edge back; from there every 16th
   end takes a bit, the lowest first. With the eighth, at the 136th end, the byte is received and request 3 comes; no stop bit is looked at.
   P30's edges latch no request 3, and T0's ends no request 4. Before the first EI neither request comes.

   Parity is odd, and there while bit 7 of P3M is set. Set at the store, it has bit 7 of the byte replaced so that the eight bits have an
   odd number of ones. Set when a byte is received, it has bit 7 become 1 where their number was even, an error, and 0 where it was odd.

   Off: nothing of it moves, and what is under way rests until it is on again. F0 reads FF and drops stores, and requests 3 and 4 come from
   P30's falling edges and from T0's ends.

   P30 is bit 0 of pins3. An edge is found where pins are compared, in a run, which holds the pins, by its first step alone: keep the slices
   of z8_run short, at most an eighth of a bit, and end one wherever the line changes. A span finds no start bit; what is under way goes on
   in it, with P30 as in the last pins. Bit 7 of P3 reads its latch: the line on P37 is in the saved machine's bytes of the port alone, and
   z8_p37 tells it. */

/* The level on P37, 0 or 1, of a legal machine: the serial port's line while it is on, else bit 7 of P3's latch. */
static inline unsigned z8_p37(const uint8_t *saved)
{
    const unsigned place = saved[Z8_AT_SENDER_PLACE];

    if ((saved[Z8_AT_REGISTERS + Z8_P3M] & 0x40u) == 0u) {
        return (saved[Z8_AT_REGISTERS + 3u] & 0x80u) != 0u ? 1u : 0u;
    }
    if (place == 1u) {
        return 0u;
    }
    if (place >= 2u && place <= 9u) {
        return (unsigned)saved[Z8_AT_SENDER_BITS] >> (place - 2u) & 1u;
    }
    return 1u;
}

/* ---- An answer in words ---- */

static inline const char *z8_answer_text(uint32_t answer)
{
    switch (answer) {
    case Z8_OK:
        return "done";
    case Z8_REFUSED_IMAGE:
        return "the program image is over 65,536 bytes";
    case Z8_REFUSED_DATA:
        return "the data memory is over 65,536 bytes";
    case Z8_REFUSED_MAKING:
        return "the type is not 1 or 11, or the interrupt entry cost is not 6 to 63";
    case Z8_REFUSED_BUDGET:
        return "the budget is over 1,000,000 cycles";
    case Z8_REFUSED_OPCODE:
        return "the opcode is undefined";
    case Z8_REFUSED_MACHINE:
        return "the saved machine is not legal";
    case Z8_REFUSED_LENGTH:
        return "the saved machine is not 276 bytes long";
    case Z8_REFUSED_INSTRUCTION:
        return "there is no such instruction";
    default:
        return "no answer of this library";
    }
}

#ifdef __cplusplus
}
#endif

#endif
