/* An independent reference model of the registers, memories, stack, reset,
   saved form and clock of the Zilog Z8601 and Z8611, written from the papers
   alone: 01-scope.md (01), the 1983 manual (004), the control-register bits of
   002, and change requests C-11 and C-13 of 02-change-requests.md (02) with the
   points decided for them (C-11, C-13) and the bytes of z8-requests.h. 02
   decides first, then the requests' points, then a rule marked HOUSE in 01,
   then 01's other sentences, then 004, then 002. The timers are those of
   timers.h, by single cycles, and the serial port that of serial.h, by single
   ends of T0.

   It is stated for legal machines (01: "Legal: ..."). Compare machines by
   ref_save, as the struct may have padding. */
#ifndef REFERENCE_MACHINE_H
#define REFERENCE_MACHINE_H

#include <stddef.h>
#include <stdint.h>

#include "serial.h"

#define REF_SAVED_LENGTH 276

struct ref_machine {
    uint8_t file[256];                 /* the places of the register file in
                                          address order; 0 to 3 hold output
                                          latches, F2 and F4 start values */
    uint16_t pc;
    uint8_t divider;                   /* 0 to 3 */
    uint8_t prescaler0, prescaler1;    /* 1 to 64 */
    uint16_t counter0, counter1;       /* 1 to 256 */
    uint8_t port3;                     /* last Port 3 pins */
    uint8_t tout;                      /* T_OUT level, 0 or 1 */
    uint8_t type;                      /* 1 or 11 */
    uint8_t entry_cost;                /* 6 to 63 */
    uint8_t ei_executed;               /* 1 where EI has been executed since
                                          reset, else 0, and then IRQ is 0 */
    struct ref_serial serial;
};

/* The pins of ports 0 to 3 as they stand now. */
struct ref_pins {
    uint8_t port[4];
};

/* 1 where the serial port is on, else 0. */
int ref_serial_on(const struct ref_machine *m);

/* 1 where the request register is held at zero, else 0. */
int ref_irq_is_held(const struct ref_machine *m);

/* The level on pin P37, 0 or 1. */
int ref_p37(const struct ref_machine *m);

/* What a register address reads. The address is taken as it is. */
uint8_t ref_read(const struct ref_machine *m, const struct ref_pins *pins,
                 uint8_t address);

/* A store to a register address, TMR's load bits, what F0 sends and all. The
   address is taken as it is. */
void ref_write(struct ref_machine *m, uint8_t address, uint8_t byte);

/* The address of working register 0 to 15; a nibble's higher bits are not
   looked at. */
uint8_t ref_working(const struct ref_machine *m, uint8_t nibble);

/* The address that a register, indirect-register or pair field names: the Ex
   rule. A pair's lowest bit is not dropped here, but in ref_pair and
   ref_write_pair. */
uint8_t ref_register(const struct ref_machine *m, uint8_t field);

/* The address that an IR field leads to, and an Ir field (a nibble). */
uint8_t ref_indirect(const struct ref_machine *m, const struct ref_pins *pins,
                     uint8_t field);
uint8_t ref_indirect_working(const struct ref_machine *m,
                             const struct ref_pins *pins, uint8_t nibble);

/* The address offset(working register). */
uint8_t ref_indexed(const struct ref_machine *m, const struct ref_pins *pins,
                    uint8_t offset, uint8_t nibble);

/* The word that the pair at an address reads, and a store of a word there. The
   address is taken as it is but for its lowest bit. */
uint16_t ref_pair(const struct ref_machine *m, const struct ref_pins *pins,
                  uint8_t address);
void ref_write_pair(struct ref_machine *m, uint8_t address, uint16_t word);

/* A byte of program memory. */
uint8_t ref_program(const uint8_t *image, size_t length, uint16_t address);

/* A byte of data memory, and a store there. */
uint8_t ref_data(const struct ref_machine *m, const uint8_t *data,
                 size_t length, uint16_t address);
void ref_store_data(const struct ref_machine *m, uint8_t *data, size_t length,
                    uint16_t address, uint8_t byte);

/* Pushes n bytes (1 to 3), given in address order, lowest first. */
void ref_push(struct ref_machine *m, uint8_t *data, size_t length,
              const uint8_t *bytes, int n);

/* Pops n bytes (1 to 3) into bytes, in address order, lowest first. */
void ref_pop(struct ref_machine *m, const struct ref_pins *pins,
             const uint8_t *data, size_t length, uint8_t *bytes, int n);

/* Reset. */
void ref_reset(struct ref_machine *m);

/* A new machine: 0; or 3, and nothing is changed. */
int ref_make(struct ref_machine *m, uint32_t type, uint32_t entry_cost);

/* Is it a saved machine: 0, 7 (not 276 bytes) or 6 (not legal). */
int ref_check(const uint8_t *saved, size_t length);

/* From 276 legal bytes, and to 276 bytes. */
void ref_load(struct ref_machine *m, const uint8_t *saved);
void ref_save(const struct ref_machine *m, uint8_t *saved);

/* The clock alone, by single cycles; the ends are those of this span. */
void ref_span(struct ref_machine *m, uint32_t cycles, uint32_t *ends0,
              uint32_t *ends1);

#endif
