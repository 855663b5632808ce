/* An independent reference model of parts of the Zilog Z8, written from the
   papers alone: 01-scope.md (house rules), the 1983 manual (source document
   004, chapter 5) and the opcode maps of 000 and 003. */
#ifndef REFERENCE_BYTES_H
#define REFERENCE_BYTES_H

#include <stdint.h>

enum {
    REF_ADD = 0, REF_ADC = 1, REF_SUB = 2, REF_SBC = 3, REF_CP = 4,
    REF_AND = 5, REF_OR = 6, REF_XOR = 7, REF_COM = 8, REF_TM = 9,
    REF_TCM = 10, REF_INC = 11, REF_DEC = 12, REF_RL = 13, REF_RLC = 14,
    REF_RR = 15, REF_RRC = 16, REF_SRA = 17, REF_SWAP = 18, REF_DA = 19,
    REF_RCF = 20, REF_SCF = 21, REF_CCF = 22
};

/* One operation on bytes. read: FLAGS before anything is written. laid: FLAGS
   in place after the destination was stored, onto which the affected flags are
   laid. Answers 1 where a value is stored, else 0 (then *value is 0). An op
   outside 0..22 answers 0 with *flags equal to laid. */
int ref_byte(int op, uint8_t dst, uint8_t src, uint8_t read, uint8_t laid,
             uint8_t *value, uint8_t *flags);

/* INCW (up nonzero) or DECW (up zero). */
void ref_word(int up, uint16_t dst, uint8_t laid, uint16_t *value,
              uint8_t *flags);

/* 1 where condition code cc (0..15) holds, else 0. */
int ref_condition(int cc, uint8_t flags);

/* 1 where the opcode (0..255) is one of the 231, else 0. */
int ref_defined(int opcode);

/* Instruction length by 01's rule, for all 256 opcodes, undefined ones too. */
int ref_length(int opcode);

/* Execution cycles. first nonzero: jump taken (DJNZ, JR, JP cc) or stack
   internal (PUSH); first zero: the other outcome. 0 for an undefined opcode. */
int ref_cycles(int opcode, int first);

/* The PC after a relative jump taken; next: address of the next instruction. */
uint16_t ref_jump(uint16_t next, uint8_t displacement);

/* The instruction that begins with these three program bytes. Answers 0 and
   its opcode, its two operand bytes and its length, or the number of the
   refusal (then nothing is written through the pointers). */
int ref_decode(uint8_t byte0, uint8_t byte1, uint8_t byte2, uint8_t *opcode,
               uint8_t *first, uint8_t *second, uint8_t *length);

/* The bytes of an instruction. Answers 0 and its length and three bytes, or
   the number of the refusal (then nothing is written). */
int ref_encode(uint8_t opcode, uint8_t first, uint8_t second, uint8_t *byte0,
               uint8_t *byte1, uint8_t *byte2, uint8_t *length);

#endif
