/* An independent reference model of one step (pins, interrupts, one
   instruction, clock) and of the bounded run of the Zilog Z8601 and Z8611,
   written from the papers alone: 01-scope.md (01), the 1983 manual (004,
   chapters 10 to 12), the control-register bits of 002, and change requests
   C-11 and C-13 of 02-change-requests.md (02) with the points decided for them
   (C-11, C-13). 02 decides first, then the requests' points, then a rule marked
   HOUSE in 01, then 01's other sentences, then 004, then 002.

   It is stated for legal machines, an image and a data memory of at most 65,536
   bytes each (they may be null where their length is 0). */
#ifndef REFERENCE_STEP_H
#define REFERENCE_STEP_H

#include <stddef.h>
#include <stdint.h>

#include "machine.h"

/* One step. Answers 0, the cycles it cost and each timer's ends in it; or 5
   where the opcode to be executed is undefined, and then nothing is changed,
   the numbers neither. */
int ref_step(struct ref_machine *m, const struct ref_pins *pins,
             const uint8_t *image, size_t image_length,
             uint8_t *data, size_t data_length,
             uint32_t *cycles, uint32_t *ends0, uint32_t *ends1);

/* The bounded run. Answers 0, the cycles spent and each timer's ends; or 4
   where the budget is over 1,000,000, and then nothing is changed, the numbers
   neither; or 5 where it meets an undefined opcode, and then machine, memory
   and numbers are as after the whole steps before. */
int ref_run(struct ref_machine *m, const struct ref_pins *pins,
            const uint8_t *image, size_t image_length,
            uint8_t *data, size_t data_length, uint32_t budget,
            uint32_t *cycles, uint32_t *ends0, uint32_t *ends1);

#endif
