/* See programs.h. */
#include "programs.h"

#include <string.h>

struct line {
    uint8_t at, length, bytes[3];
};

#define LINES_MOST 40

struct program {
    const char *name;
    struct line lines[LINES_MOST]; /* the first without bytes ends them */
};

static const struct program programs[PROGRAMS] = {
    {"z8_run, a loop with interrupts from both timers and the pins",
     {
         {0x00, 2, {0x00, 0x50}},       /* IRQ0 */
         {0x02, 2, {0x00, 0x50}},       /* IRQ1 */
         {0x04, 2, {0x00, 0x50}},       /* IRQ2 */
         {0x06, 2, {0x00, 0x50}},       /* IRQ3 */
         {0x08, 2, {0x00, 0x40}},       /* IRQ4 */
         {0x0A, 2, {0x00, 0x48}},       /* IRQ5 */
         {0x0C, 2, {0x31, 0x10}},       /*       SRP  #%10 */
         {0x0E, 3, {0xE6, 0xFF, 0x70}}, /*       LD   SPL,#%70 */
         {0x11, 3, {0xE6, 0xF5, 0x09}}, /*       LD   PRE0,#%09   two, repeating */
         {0x14, 3, {0xE6, 0xF4, 0x0B}}, /*       LD   T0,#11 */
         {0x17, 3, {0xE6, 0xF3, 0x0F}}, /*       LD   PRE1,#%0F   three, internal, repeating */
         {0x1A, 3, {0xE6, 0xF2, 0x11}}, /*       LD   T1,#17 */
         {0x1D, 3, {0xE6, 0xF9, 0x2B}}, /*       LD   IPR,#%2B */
         {0x20, 3, {0xE6, 0xFB, 0x3F}}, /*       LD   IMR,#%3F */
         {0x23, 3, {0xE6, 0xF1, 0x4F}}, /*       LD   TMR,#%4F    load and count both, T0 out */
         {0x26, 1, {0x9F}},             /*       EI */
         {0x27, 2, {0xA0, 0xE2}},       /* LOOP: INCW RR2 */
         {0x29, 2, {0x12, 0x45}},       /*       ADC  R4,R5 */
         {0x2B, 2, {0xA8, 0xF4}},       /*       LD   R10,T0 */
         {0x2D, 2, {0x8B, 0xF8}},       /*       JR   LOOP */
         {0x40, 1, {0x6E}},             /* T0:   INC  R6 */
         {0x41, 1, {0xBF}},             /*       IRET */
         {0x48, 1, {0x7E}},             /* T1:   INC  R7 */
         {0x49, 2, {0x70, 0xFD}},       /*       PUSH RP */
         {0x4B, 2, {0x31, 0x20}},       /*       SRP  #%20 */
         {0x4D, 1, {0x7E}},             /*       INC  R7 */
         {0x4E, 2, {0x8B, 0x04}},       /*       JR   OUT */
         {0x50, 1, {0x9E}},             /* PIN:  INC  R9 */
         {0x51, 2, {0x8F, 0x9F}},       /*       DI, EI: nested */
         {0x53, 1, {0xBF}},             /*       IRET */
         {0x54, 2, {0x50, 0xFD}},       /* OUT:  POP  RP */
         {0x56, 1, {0xBF}},             /*       IRET */
     }},
    {"z8_run, a decimal counter up and one down",
     {
         {0x0C, 2, {0x31, 0x20}},       /*       SRP  #%20 */
         {0x0E, 2, {0xB0, 0xE0}},       /*       CLR  R0 */
         {0x10, 2, {0x1C, 0x01}},       /*       LD   R1,#1 */
         {0x12, 1, {0xCF}},             /* LOOP: RCF */
         {0x13, 2, {0x02, 0x01}},       /*       ADD  R0,R1 */
         {0x15, 2, {0x40, 0xE0}},       /*       DA   R0 */
         {0x17, 3, {0x16, 0xE2, 0x00}}, /*       ADC  R2,#0 */
         {0x1A, 2, {0x40, 0xE2}},       /*       DA   R2 */
         {0x1C, 3, {0x26, 0xE3, 0x01}}, /*       SUB  R3,#1 */
         {0x1F, 2, {0x40, 0xE3}},       /*       DA   R3 */
         {0x21, 3, {0x36, 0xE4, 0x00}}, /*       SBC  R4,#0 */
         {0x24, 2, {0x40, 0xE4}},       /*       DA   R4 */
         {0x26, 2, {0x8B, 0xEA}},       /*       JR   LOOP */
     }},
    {"z8_run, calls and pushes on the external stack",
     {
         {0x0C, 2, {0x31, 0x10}},       /*       SRP  #%10 */
         {0x0E, 3, {0xE6, 0xF8, 0x00}}, /*       LD   P01M,#0     external stack */
         {0x11, 3, {0xE6, 0xFE, 0x10}}, /*       LD   SPH,#%10 */
         {0x14, 3, {0xE6, 0xFF, 0x06}}, /*       LD   SPL,#%06    near where data memory begins */
         {0x17, 2, {0x3C, 0x05}},       /* LOOP: LD   R3,#5 */
         {0x19, 3, {0xD6, 0x00, 0x30}}, /* FIVE: CALL SUB */
         {0x1C, 2, {0x3A, 0xFB}},       /*       DJNZ R3,FIVE */
         {0x1E, 2, {0x4C, 0x00}},       /*       LD   R4,#0 */
         {0x20, 2, {0x5C, 0x38}},       /*       LD   R5,#%38 */
         {0x22, 2, {0xD4, 0xE4}},       /*       CALL @RR4 */
         {0x24, 2, {0x8B, 0xF1}},       /*       JR   LOOP */
         {0x30, 2, {0x70, 0xE3}},       /* SUB:  PUSH R3 */
         {0x32, 2, {0x71, 0xE3}},       /*       PUSH @R3 */
         {0x34, 2, {0x50, 0xE7}},       /*       POP  R7 */
         {0x36, 2, {0x50, 0xE8}},       /*       POP  R8 */
         {0x38, 1, {0x6E}},             /* SHORT: INC R6 */
         {0x39, 1, {0xAF}},             /*       RET */
     }},
    {"z8_run, block moves between the memories",
     {
         {0x0C, 2, {0x31, 0x10}}, /*       SRP  #%10 */
         {0x0E, 2, {0x2C, 0x40}}, /* LOOP: LD   R2,#%40 */
         {0x10, 2, {0x6C, 0x00}}, /*       LD   R6,#0 */
         {0x12, 2, {0x7C, 0x0C}}, /*       LD   R7,#%0C */
         {0x14, 2, {0x8C, 0x10}}, /*       LD   R8,#16 */
         {0x16, 2, {0xC3, 0x26}}, /* ONE:  LDCI @R2,@RR6 */
         {0x18, 2, {0x8A, 0xFC}}, /*       DJNZ R8,ONE */
         {0x1A, 2, {0x2C, 0x40}}, /*       LD   R2,#%40 */
         {0x1C, 2, {0x4C, 0x0F}}, /*       LD   R4,#%0F */
         {0x1E, 2, {0x5C, 0xF8}}, /*       LD   R5,#%F8     half of it below 4,096 */
         {0x20, 2, {0x8C, 0x10}}, /*       LD   R8,#16 */
         {0x22, 2, {0x93, 0x24}}, /* TWO:  LDEI @RR4,@R2 */
         {0x24, 2, {0x8A, 0xFC}}, /*       DJNZ R8,TWO */
         {0x26, 2, {0x2C, 0x60}}, /*       LD   R2,#%60 */
         {0x28, 2, {0x5C, 0x00}}, /*       LD   R5,#0 */
         {0x2A, 2, {0x8C, 0x10}}, /*       LD   R8,#16 */
         {0x2C, 2, {0x83, 0x24}}, /* THREE: LDEI @R2,@RR4 */
         {0x2E, 2, {0x8A, 0xFC}}, /*       DJNZ R8,THREE */
         {0x30, 2, {0x82, 0xA4}}, /*       LDE  R10,@RR4 */
         {0x32, 2, {0xD3, 0x26}}, /*       LDCI @RR6,@R2 */
         {0x34, 2, {0x8B, 0xD8}}, /*       JR   LOOP */
     }},
    {"z8_run, what comes in on P30 goes out on P37, by requests 3 and 4",
     {
         {0x06, 2, {0x00, 0x40}},       /* IRQ3 */
         {0x08, 2, {0x00, 0x50}},       /* IRQ4 */
         {0x0C, 2, {0x31, 0x10}},       /*       SRP  #%10 */
         {0x0E, 3, {0xE6, 0xFF, 0x70}}, /*       LD   SPL,#%70 */
         {0x11, 3, {0xE6, 0xF5, 0x05}}, /*       LD   PRE0,#%05   one, repeating */
         {0x14, 3, {0xE6, 0xF4, 0x03}}, /*       LD   T0,#3 */
         {0x17, 3, {0xE6, 0xF7, 0x40}}, /*       LD   P3M,#%40    on, without parity */
         {0x1A, 3, {0xE6, 0xF9, 0x08}}, /*       LD   IPR,#%08 */
         {0x1D, 3, {0xE6, 0xFB, 0x18}}, /*       LD   IMR,#%18    requests 3 and 4 */
         {0x20, 3, {0xE6, 0xF1, 0x43}}, /*       LD   TMR,#%43    load and count T0, T0 out */
         {0x23, 1, {0x9F}},             /*       EI */
         {0x24, 2, {0xA0, 0xE2}},       /* LOOP: INCW RR2 */
         {0x26, 2, {0xA8, 0xF0}},       /*       LD   R10,SIO */
         {0x28, 2, {0x8B, 0xFA}},       /*       JR   LOOP */
         {0x40, 2, {0x48, 0xF0}},       /* IN:   LD   R4,SIO */
         {0x42, 2, {0x49, 0xF0}},       /*       LD   SIO,R4      what was still going out is lost */
         {0x44, 1, {0x5E}},             /*       INC  R5 */
         {0x45, 3, {0xA6, 0xE5, 0x05}}, /*       CP   R5,#5 */
         {0x48, 2, {0xEB, 0x03}},       /*       JR   NE,ON */
         {0x4A, 3, {0xE6, 0xF7, 0xC0}}, /*       LD   P3M,#%C0    with parity from the fifth on */
         {0x4D, 1, {0xBF}},             /* ON:   IRET */
         {0x50, 1, {0x6E}},             /* OUT:  INC  R6 */
         {0x51, 1, {0xBF}},             /*       IRET */
     }},
    {"z8_run, timers, pins and stores to IRQ before EI, then requests polled",
     {
         {0x0C, 2, {0x31, 0x10}},       /*       SRP  #%10 */
         {0x0E, 3, {0xE6, 0xFF, 0x70}}, /*       LD   SPL,#%70 */
         {0x11, 3, {0xE6, 0xF5, 0x05}}, /*       LD   PRE0,#%05   one, repeating */
         {0x14, 3, {0xE6, 0xF4, 0x07}}, /*       LD   T0,#7 */
         {0x17, 3, {0xE6, 0xF3, 0x0B}}, /*       LD   PRE1,#%0B   two, internal, repeating */
         {0x1A, 3, {0xE6, 0xF2, 0x09}}, /*       LD   T1,#9 */
         {0x1D, 3, {0xE6, 0xF9, 0x08}}, /*       LD   IPR,#%08 */
         {0x20, 3, {0xE6, 0xFB, 0xFF}}, /*       LD   IMR,#%FF    with bit 7, which is no EI */
         {0x23, 3, {0xE6, 0xF1, 0x4F}}, /*       LD   TMR,#%4F    load and count both, T0 out */
         {0x26, 2, {0x2C, 0x14}},       /*       LD   R2,#20      20 x 256 turns of 38 cycles before EI */
         {0x28, 3, {0xE6, 0xFA, 0x3F}}, /* HELD: LD   IRQ,#%3F */
         {0x2B, 3, {0x44, 0xFA, 0xE4}}, /*       OR   R4,IRQ */
         {0x2E, 2, {0x20, 0xFA}},       /*       INC  IRQ */
         {0x30, 2, {0x3A, 0xF6}},       /*       DJNZ R3,HELD */
         {0x32, 2, {0x2A, 0xF4}},       /*       DJNZ R2,HELD */
         {0x34, 2, {0xB0, 0xFB}},       /*       CLR  IMR */
         {0x36, 2, {0x9F, 0x8F}},       /*       EI, DI */
         {0x38, 3, {0x76, 0xFA, 0x30}}, /* POLL: TM   IRQ,#%30    the timers' */
         {0x3B, 2, {0x6B, 0x05}},       /*       JR   Z,PINS */
         {0x3D, 3, {0x56, 0xFA, 0xCF}}, /*       AND  IRQ,#%CF */
         {0x40, 2, {0xA0, 0xE6}},       /*       INCW RR6 */
         {0x42, 3, {0x76, 0xFA, 0x0F}}, /* PINS: TM   IRQ,#%0F */
         {0x45, 2, {0x6B, 0xF1}},       /*       JR   Z,POLL */
         {0x47, 3, {0x56, 0xFA, 0xF0}}, /*       AND  IRQ,#%F0 */
         {0x4A, 2, {0xA0, 0xE8}},       /*       INCW RR8 */
         {0x4C, 3, {0x46, 0xFA, 0x10}}, /*       OR   IRQ,#%10    a request by software */
         {0x4F, 2, {0x8B, 0xE7}},       /*       JR   POLL */
     }},
};

const char *written_program(size_t which, uint8_t bytes[PROGRAM_SIZE])
{
    const struct program *p = &programs[which];
    size_t k;

    memset(bytes, 0xFF, PROGRAM_SIZE);
    for (k = 0; k < LINES_MOST && p->lines[k].length > 0; k++) {
        memcpy(bytes + p->lines[k].at, p->lines[k].bytes, p->lines[k].length);
    }
    return p->name;
}
