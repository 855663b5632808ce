/* An independent reference model of what each instruction of the Zilog Z8601
   and Z8611 does, written from the papers alone: 01-scope.md (01), the 1983
   manual (004, chapters 3 to 5 and 10 and Appendix C), the control-register
   bits of 002, the opcode maps of 000 and 003, and change request C-13 of
   02-change-requests.md (02). 02 decides first, then a rule marked HOUSE in 01,
   then 01's other sentences, then 004, then 002.

   It is stated for legal machines, an image and a data memory of at most 65,536
   bytes each (they may be null where their length is 0). */
#ifndef REFERENCE_INSTRUCTIONS_H
#define REFERENCE_INSTRUCTIONS_H

#include <stddef.h>
#include <stdint.h>

#include "machine.h"

/* Executes the one instruction at m->pc: no pins are compared, no interrupt is
   granted, no clock is advanced. Answers 0 and the cycles it costs; or 5 where
   the opcode is undefined, and then nothing is changed, *cycles neither. */
int ref_execute(struct ref_machine *m, const struct ref_pins *pins,
                const uint8_t *image, size_t image_length,
                uint8_t *data, size_t data_length, uint32_t *cycles);

#endif
