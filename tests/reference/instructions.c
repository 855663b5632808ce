/* See instructions.h. In the comments, words between quotation marks are the
   paper's own; 004:n is line n of the text of source document 004, and so for
   the others. "The map" is the opcode map, 004 Appendix C (004:3349), also in
   000 and 003; its legend is "R1 or r1 = Dst Address, R2 or r2 = Src Address"
   and its "Sequence: Opcode, First Operand, Second Operand" (003:507-516).

   The text of 004 has lost the drawn boxes of ADC, JP, LD, LDCI and TCM. What
   they show is taken from the map's sequence, and borne out by the program in
   002's Table 1, which uses C2 A4 and D2 A6 with the byte in R10, 98 E2, 69 FC,
   E6 FF 3C, E7 EF 00 and D6 20 A0. */
#include "instructions.h"

#include "bytes.h"

/* 002, R248, R251, R252, R253. */
#define P01M   0xF8
#define IMR    0xFB
#define FLAGS  0xFC
#define RP     0xFD

/* 01: "P01M bit 2 set means internal". */
#define P01M_INTERNAL  0x04

/* 004, 10.4.2: "D_7 is the master enable". */
#define IMR_MASTER     0x80

/* One instruction in its surroundings: the machine and its memories, the
   program bytes, and the address of the next instruction. */
struct doing {
    struct ref_machine *m;
    const struct ref_pins *pins;
    const uint8_t *image;
    size_t image_length;
    uint8_t *data;
    size_t data_length;
    uint8_t opcode;
    uint8_t first;      /* the byte after the opcode */
    uint8_t second;     /* the byte after that */
    uint16_t next;
};

static uint8_t high_nibble(uint8_t byte)
{
    return (uint8_t)(byte / 16);
}

static uint8_t low_nibble(uint8_t byte)
{
    return (uint8_t)(byte % 16);
}

/* ---- Registers, by machine.h ---- */

static uint8_t get(const struct doing *d, uint8_t address)
{
    return ref_read(d->m, d->pins, address);
}

static void set(const struct doing *d, uint8_t address, uint8_t byte)
{
    ref_write(d->m, address, byte);
}

/* ---- Operand fields. Each answers a register address; RP is read now, so
   these are called before anything is written. ---- */

/* r: a working register. 004:920, "Working register only". */
static uint8_t at_r(const struct doing *d, uint8_t nibble)
{
    return ref_working(d->m, nibble);
}

/* Ir: where a working register points. */
static uint8_t at_Ir(const struct doing *d, uint8_t nibble)
{
    return ref_indirect_working(d->m, d->pins, nibble);
}

/* R and RR: a byte that names a register, or with E in its high nibble a
   working register. 004:1194, "When used to specify a 4-bit working-register
   address, address modes R or IR use the format: E src/dst". */
static uint8_t at_R(const struct doing *d, uint8_t field)
{
    return ref_register(d->m, field);
}

/* IR: where the register named points. */
static uint8_t at_IR(const struct doing *d, uint8_t field)
{
    return ref_indirect(d->m, d->pins, field);
}

/* X: offset(working register). */
static uint8_t at_X(const struct doing *d, uint8_t offset, uint8_t nibble)
{
    return ref_indexed(d->m, d->pins, offset, nibble);
}

/* Irr: the memory address in a working-register pair. */
static uint16_t at_Irr(const struct doing *d, uint8_t nibble)
{
    return ref_pair(d->m, d->pins, ref_working(d->m, nibble));
}

/* IRR: the program address in a register pair. */
static uint16_t at_IRR(const struct doing *d, uint8_t field)
{
    return ref_pair(d->m, d->pins, ref_register(d->m, field));
}

/* The one operand of columns 0 and 1 of the map: "R IR" on each page, the even
   opcode R and the odd one IR, in the box "OPC dst" (PUSH: "OPC src"). */
static uint8_t at_R_or_IR(const struct doing *d)
{
    if (low_nibble(d->opcode) == 0x0) {
        return at_R(d, d->first);
    }
    return at_IR(d, d->first);
}

/* The two operands of columns 2 to 7: the destination's address and the
   source's value. 004:1150-1152, ADD's boxes, and the same on each such page;
   004:936, "ADD %43,%08 (ADD dst, src) OBJ: 04 08 43 (OPC src, dst)". */
static void two_operands(const struct doing *d, uint8_t *dst, uint8_t *src)
{
    switch (low_nibble(d->opcode)) {
    case 0x2:                                   /* r, r    "OPC | dst src" */
        *dst = at_r(d, high_nibble(d->first));
        *src = get(d, at_r(d, low_nibble(d->first)));
        break;
    case 0x3:                                   /* r, Ir   "OPC | dst src" */
        *dst = at_r(d, high_nibble(d->first));
        *src = get(d, at_Ir(d, low_nibble(d->first)));
        break;
    case 0x4:                                   /* R, R    "OPC | src | dst" */
        *src = get(d, at_R(d, d->first));
        *dst = at_R(d, d->second);
        break;
    case 0x5:                                   /* R, IR   "OPC | src | dst" */
        *src = get(d, at_IR(d, d->first));
        *dst = at_R(d, d->second);
        break;
    case 0x6:                                   /* R, IM   "OPC | dst | src" */
        *dst = at_R(d, d->first);
        *src = d->second;
        break;
    default:                                    /* IR, IM  "OPC | dst | src" */
        *dst = at_IR(d, d->first);
        *src = d->second;
        break;
    }
}

/* ---- Arithmetic, logical, bit, rotate and shift instructions ---- */

/* One operation of bytes.h on the register at an address. 01: "A destination is
   stored first, then the affected flags, even when it is FLAGS (HOUSE). Flags
   [...] go by the result, not by a reading back." So the flags that are read
   are those from before, and the flags affected are laid onto what FLAGS holds
   after the store. Where nothing is stored (TM, TCM, CP, and DA in no row) they
   are laid onto FLAGS as it was. */
static void operate(const struct doing *d, int op, uint8_t address, uint8_t src)
{
    uint8_t dst = get(d, address);
    uint8_t read = d->m->file[FLAGS];
    uint8_t value, flags, unused;

    if (ref_byte(op, dst, src, read, read, &value, &flags)) {
        set(d, address, value);
    }
    ref_byte(op, dst, src, read, d->m->file[FLAGS], &unused, &flags);
    d->m->file[FLAGS] = flags;
}

/* ADC, ADD, AND, CP, OR, SBC, SUB, TCM, TM, XOR dst,src. */
static void two_operand_instruction(const struct doing *d, int op)
{
    uint8_t dst, src;

    two_operands(d, &dst, &src);
    operate(d, op, dst, src);
}

/* COM, DA, DEC, INC, RL, RLC, RR, RRC, SRA, SWAP dst, dst being R or IR. */
static void one_operand_instruction(const struct doing *d, int op)
{
    operate(d, op, at_R_or_IR(d), 0);
}

/* INC r: "dst OPC", "rE r" (004:1417, 004:1056). */
static void inc_r(const struct doing *d)
{
    operate(d, REF_INC, at_r(d, high_nibble(d->opcode)), 0);
}

/* DECW and INCW dst: "OPC dst", "RR IR" (004:1363, 004:1431). The destination
   and that "following that location are treated as a single" value (004:1433,
   its text is maimed). 01: "A pair address drops its lowest bit (HOUSE)": this
   is in ref_pair and ref_write_pair, and so also for an address found in a
   register. */
static void word_instruction(const struct doing *d, int up)
{
    uint8_t address = at_R_or_IR(d);
    uint16_t dst = ref_pair(d->m, d->pins, address);
    uint16_t value, unused;
    uint8_t flags;

    ref_word(up, dst, d->m->file[FLAGS], &value, &flags);
    ref_write_pair(d->m, address, value);
    ref_word(up, dst, d->m->file[FLAGS], &unused, &flags);
    d->m->file[FLAGS] = flags;
}

/* CLR dst: "dst <- 0", "No flags affected" (004:1226-1229). */
static void clr(const struct doing *d)
{
    set(d, at_R_or_IR(d), 0);
}

/* CCF, RCF, SCF: no operand, nothing stored but the C flag (004:1216, 004:1709,
   004:1820). */
static void carry_instruction(const struct doing *d, int op)
{
    uint8_t read = d->m->file[FLAGS];
    uint8_t unused, flags;

    ref_byte(op, 0, 0, read, read, &unused, &flags);
    d->m->file[FLAGS] = flags;
}

/* ---- LD dst,src: "dst <- src", "No flags affected" (004:1513-1519). Which
   opcode has which modes: 004:1063-1069. Which byte is which: the map. ---- */

/* rC, r <- IM. Map: "LD r1, IM". */
static void ld_r_IM(const struct doing *d)
{
    set(d, at_r(d, high_nibble(d->opcode)), d->first);
}

/* r8, r <- R. Map: "LD r1, R2". */
static void ld_r_R(const struct doing *d)
{
    uint8_t dst = at_r(d, high_nibble(d->opcode));
    uint8_t src = get(d, at_R(d, d->first));

    set(d, dst, src);
}

/* r9, R <- r. Map: "LD r2, R1". (004:1511 has of one form "In this instance
   only a full 8-bit register address can be used"; its star is lost with the
   box. 01's Ex rule is for every register field, and decides.) */
static void ld_R_r(const struct doing *d)
{
    uint8_t src = get(d, at_r(d, high_nibble(d->opcode)));
    uint8_t dst = at_R(d, d->first);

    set(d, dst, src);
}

/* C7, r <- X. Map: "LD r1, x, R2": the nibble of the destination, the nibble of
   the index register, the byte of the offset. */
static void ld_r_X(const struct doing *d)
{
    uint8_t dst = at_r(d, high_nibble(d->first));
    uint8_t src = get(d, at_X(d, d->second, low_nibble(d->first)));

    set(d, dst, src);
}

/* D7, X <- r. Map: "LD r2, x, R1": the nibble of the source, the nibble of the
   index register, the byte of the offset. */
static void ld_X_r(const struct doing *d)
{
    uint8_t src = get(d, at_r(d, high_nibble(d->first)));
    uint8_t dst = at_X(d, d->second, low_nibble(d->first));

    set(d, dst, src);
}

/* E3, r <- Ir. Map: "LD r1, Ir2". */
static void ld_r_Ir(const struct doing *d)
{
    uint8_t dst = at_r(d, high_nibble(d->first));
    uint8_t src = get(d, at_Ir(d, low_nibble(d->first)));

    set(d, dst, src);
}

/* F3, Ir <- r. Map: "LD Ir1, r2". */
static void ld_Ir_r(const struct doing *d)
{
    uint8_t dst = at_Ir(d, high_nibble(d->first));
    uint8_t src = get(d, at_r(d, low_nibble(d->first)));

    set(d, dst, src);
}

/* E4, R <- R. Map: "LD R2, R1". */
static void ld_R_R(const struct doing *d)
{
    uint8_t src = get(d, at_R(d, d->first));
    uint8_t dst = at_R(d, d->second);

    set(d, dst, src);
}

/* E5, R <- IR. Map: "LD IR2, R1". */
static void ld_R_IR(const struct doing *d)
{
    uint8_t src = get(d, at_IR(d, d->first));
    uint8_t dst = at_R(d, d->second);

    set(d, dst, src);
}

/* E6, R <- IM. Map: "LD R1, IM". */
static void ld_R_IM(const struct doing *d)
{
    set(d, at_R(d, d->first), d->second);
}

/* E7, IR <- IM. Map: "LD IR1, IM". */
static void ld_IR_IM(const struct doing *d)
{
    set(d, at_IR(d, d->first), d->second);
}

/* F5, IR <- R. Map: "LD R2, IR1". */
static void ld_IR_R(const struct doing *d)
{
    uint8_t src = get(d, at_R(d, d->first));
    uint8_t dst = at_IR(d, d->second);

    set(d, dst, src);
}

/* ---- LDC, LDCI, LDE, LDEI: no flags affected. In all eight the high nibble of
   the operand byte is the register and the low nibble the pair: "OPC | dst src"
   with dst r and src Irr, "OPC | src dst" with src r and dst Irr (LDC
   004:1540-1541, LDE 004:1588-1589, LDEI 004:1609-1611; map, C3 and D3: "LDCI
   Ir1, Irr2", "LDCI Ir2, Irr1"). 01: "A pair address drops its lowest bit
   (HOUSE)". ---- */

static uint8_t program_byte(const struct doing *d, uint16_t address)
{
    return ref_program(d->image, d->image_length, address);
}

static uint8_t data_byte(const struct doing *d, uint16_t address)
{
    return ref_data(d->m, d->data, d->data_length, address);
}

/* C2, r <- program memory. */
static void ldc_r_Irr(const struct doing *d)
{
    uint8_t dst = at_r(d, high_nibble(d->first));
    uint8_t src = program_byte(d, at_Irr(d, low_nibble(d->first)));

    set(d, dst, src);
}

/* D2, program memory <- r. 01: "LDC and LDCI stores are dropped (HOUSE)." */
static void ldc_Irr_r(const struct doing *d)
{
    (void)d;
}

/* 82, r <- data memory. */
static void lde_r_Irr(const struct doing *d)
{
    uint8_t dst = at_r(d, high_nibble(d->first));
    uint8_t src = data_byte(d, at_Irr(d, low_nibble(d->first)));

    set(d, dst, src);
}

/* 92, data memory <- r. */
static void lde_Irr_r(const struct doing *d)
{
    uint8_t src = get(d, at_r(d, high_nibble(d->first)));
    uint16_t dst = at_Irr(d, low_nibble(d->first));

    ref_store_data(d->m, d->data, d->data_length, dst, src);
}

/* What LDCI and LDEI do after the store: "r <- r + 1, rr <- rr + 1"
   (004:1566-1567, 004:1613). 01: "LDCI and LDEI store, then add one to what r,
   then the pair, reads as by then, modulo 256 and 65,536 (HOUSE)." The
   addresses of r and of the pair are given, as they were fixed before the
   store. */
static void increment_both(const struct doing *d, uint8_t r, uint8_t rr)
{
    set(d, r, (uint8_t)((get(d, r) + 1) % 256));
    ref_write_pair(d->m, rr, (uint16_t)((ref_pair(d->m, d->pins, rr) + 1)
                                        % 65536L));
}

/* C3, register where r points <- program memory. */
static void ldci_Ir_Irr(const struct doing *d)
{
    uint8_t r = at_r(d, high_nibble(d->first));
    uint8_t rr = at_r(d, low_nibble(d->first));
    uint8_t dst = at_Ir(d, high_nibble(d->first));
    uint8_t src = program_byte(d, at_Irr(d, low_nibble(d->first)));

    set(d, dst, src);
    increment_both(d, r, rr);
}

/* D3, program memory <- register where r points: the store is dropped. */
static void ldci_Irr_Ir(const struct doing *d)
{
    uint8_t r = at_r(d, high_nibble(d->first));
    uint8_t rr = at_r(d, low_nibble(d->first));

    increment_both(d, r, rr);
}

/* 83, register where r points <- data memory. */
static void ldei_Ir_Irr(const struct doing *d)
{
    uint8_t r = at_r(d, high_nibble(d->first));
    uint8_t rr = at_r(d, low_nibble(d->first));
    uint8_t dst = at_Ir(d, high_nibble(d->first));
    uint8_t src = data_byte(d, at_Irr(d, low_nibble(d->first)));

    set(d, dst, src);
    increment_both(d, r, rr);
}

/* 93, data memory <- register where r points. */
static void ldei_Irr_Ir(const struct doing *d)
{
    uint8_t r = at_r(d, high_nibble(d->first));
    uint8_t rr = at_r(d, low_nibble(d->first));
    uint8_t src = get(d, at_Ir(d, high_nibble(d->first)));
    uint16_t dst = at_Irr(d, low_nibble(d->first));

    ref_store_data(d->m, d->data, d->data_length, dst, src);
    increment_both(d, r, rr);
}

/* ---- Stack instructions; the stack itself is machine.h's ---- */

/* POP dst: "dst <- @SP, SP <- SP + 1" (004:1680). 01: "RET, IRET and POP read,
   write SP, then load the destination." Operand addresses are taken before. */
static void pop(const struct doing *d)
{
    uint8_t dst = at_R_or_IR(d);
    uint8_t byte;

    ref_pop(d->m, d->pins, d->data, d->data_length, &byte, 1);
    set(d, dst, byte);
}

/* PUSH src: "SP <- SP - 1, @SP <- src" (004:1692). Answers 1 where the stack is
   internal before anything is written, else 0 (for the cycles,
   004:1690-1691). */
static int push(const struct doing *d)
{
    int internal = (d->m->file[P01M] & P01M_INTERNAL) != 0;
    uint8_t src = get(d, at_R_or_IR(d));

    ref_push(d->m, d->data, d->data_length, &src, 1);
    return internal;
}

/* CALL: "SP <- SP - 2, @SP <- PC, PC <- dst" (004:1205). The PC pushed is "the
   address of the first instruction following the CALL instruction". 01: "A
   pushed address has its high byte lower". */
static void call(const struct doing *d, uint16_t dst)
{
    uint8_t bytes[2];

    bytes[0] = (uint8_t)(d->next / 256);
    bytes[1] = (uint8_t)(d->next % 256);
    ref_push(d->m, d->data, d->data_length, bytes, 2);
    d->m->pc = dst;
}

/* DA, the direct address of CALL and JP: the high byte first, as the program
   memory's other addresses are (01: "through the vector [...], high byte
   first"). 002, Table 1, has D6 20 A0 at 0025, for its routine at A0. */
static uint16_t direct(const struct doing *d)
{
    return (uint16_t)(d->first * 256 + d->second);
}

/* D6, CALL DA. */
static void call_DA(const struct doing *d)
{
    call(d, direct(d));
}

/* D4, CALL IRR: the pair is read before anything is pushed. */
static void call_IRR(const struct doing *d)
{
    call(d, at_IRR(d, d->first));
}

/* RET: "PC <- @SP, SP <- SP + 2" (004:1717). */
static void ret(const struct doing *d)
{
    uint8_t bytes[2];

    ref_pop(d->m, d->pins, d->data, d->data_length, bytes, 2);
    d->m->pc = (uint16_t)(bytes[0] * 256 + bytes[1]);
}

/* IRET: "FLAGS <- @SP, SP <- SP + 1, PC <- @SP, SP <- SP + 2, IMR(7) <- 1"
   (004:1447). 01: "RET, IRET and POP read, write SP, then load the
   destination"; "an interrupt's FLAGS lie below" the address. Bit 7 of IMR
   alone moves: IRET is no EI (C-13). */
static void iret(const struct doing *d)
{
    uint8_t bytes[3];

    ref_pop(d->m, d->pins, d->data, d->data_length, bytes, 3);
    d->m->file[FLAGS] = bytes[0];
    d->m->pc = (uint16_t)(bytes[1] * 256 + bytes[2]);
    d->m->file[IMR] = (uint8_t)(d->m->file[IMR] | IMR_MASTER);
}

/* ---- Program control. DJNZ, JR and JP cc answer 1 where the jump is taken,
   else 0 (for the cycles). No flags affected. ---- */

/* DJNZ r,dst: "r <- r - 1, if r <> 0, PC <- PC + dst" (004:1053-1054); "r OPC |
   dst". 01: "DJNZ's test go[es] by the result, not by a reading back". */
static int djnz(const struct doing *d)
{
    uint8_t r = at_r(d, high_nibble(d->opcode));
    uint8_t result = (uint8_t)(get(d, r) - 1);

    set(d, r, result);
    if (result == 0) {
        return 0;
    }
    d->m->pc = ref_jump(d->next, d->first);
    return 1;
}

/* JR cc,dst: "If cc is true, PC <- PC + dst" (004:1495); "cc OPC | dst". */
static int jr(const struct doing *d)
{
    if (!ref_condition(high_nibble(d->opcode), d->m->file[FLAGS])) {
        return 0;
    }
    d->m->pc = ref_jump(d->next, d->first);
    return 1;
}

/* JP cc,dst: "If cc is true, PC <- dst" (004:1462). Map: "JP cc, DA". */
static int jp_cc(const struct doing *d)
{
    if (!ref_condition(high_nibble(d->opcode), d->m->file[FLAGS])) {
        return 0;
    }
    d->m->pc = direct(d);
    return 1;
}

/* JP IRR: "simply replaces the contents of the Program Counter with the
   contents of the specified register pair" (004:1466; its "decremented by one"
   is not followed). */
static void jp_IRR(const struct doing *d)
{
    d->m->pc = at_IRR(d, d->first);
}

/* ---- CPU control ---- */

/* DI: "IMR (7) <- 0" (004:1375). Decided for C-13: it holds nothing again. */
static void di(const struct doing *d)
{
    d->m->file[IMR] = (uint8_t)(d->m->file[IMR] & ~IMR_MASTER);
}

/* EI: "IMR (7) <- 1" (004:1405). 02, C-13: "The machine needs to remember
   whether EI has been executed". */
static void ei(const struct doing *d)
{
    d->m->file[IMR] = (uint8_t)(d->m->file[IMR] | IMR_MASTER);
    d->m->ei_executed = 1;
}

/* SRP src: "RP <- src"; "Bits 0-3 of the RP are always set to 0"
   (004:1840-1841), which is ref_write's rule for RP. */
static void srp(const struct doing *d)
{
    set(d, RP, d->first);
}

/* ---- The map ---- */

/* Columns 8 to E are printed once, for all rows: the high nibble is a working
   register or a condition code. Answers what ref_cycles is to be told. */
static int do_columns_8_to_E(const struct doing *d)
{
    switch (low_nibble(d->opcode)) {
    case 0x8: ld_r_R(d);  return 0;
    case 0x9: ld_R_r(d);  return 0;
    case 0xA: return djnz(d);
    case 0xB: return jr(d);
    case 0xC: ld_r_IM(d); return 0;
    case 0xD: return jp_cc(d);
    default:  inc_r(d);   return 0;
    }
}

/* The rest, row by row. Answers what ref_cycles is to be told. */
static int do_columns_0_to_7_and_F(const struct doing *d)
{
    switch (d->opcode) {
    case 0x00: case 0x01:
        one_operand_instruction(d, REF_DEC);
        break;
    case 0x02: case 0x03: case 0x04: case 0x05: case 0x06: case 0x07:
        two_operand_instruction(d, REF_ADD);
        break;

    case 0x10: case 0x11:
        one_operand_instruction(d, REF_RLC);
        break;
    case 0x12: case 0x13: case 0x14: case 0x15: case 0x16: case 0x17:
        two_operand_instruction(d, REF_ADC);
        break;

    case 0x20: case 0x21:
        one_operand_instruction(d, REF_INC);
        break;
    case 0x22: case 0x23: case 0x24: case 0x25: case 0x26: case 0x27:
        two_operand_instruction(d, REF_SUB);
        break;

    case 0x30:
        jp_IRR(d);
        break;
    case 0x31:
        srp(d);
        break;
    case 0x32: case 0x33: case 0x34: case 0x35: case 0x36: case 0x37:
        two_operand_instruction(d, REF_SBC);
        break;

    case 0x40: case 0x41:
        one_operand_instruction(d, REF_DA);
        break;
    case 0x42: case 0x43: case 0x44: case 0x45: case 0x46: case 0x47:
        two_operand_instruction(d, REF_OR);
        break;

    case 0x50: case 0x51:
        pop(d);
        break;
    case 0x52: case 0x53: case 0x54: case 0x55: case 0x56: case 0x57:
        two_operand_instruction(d, REF_AND);
        break;

    case 0x60: case 0x61:
        one_operand_instruction(d, REF_COM);
        break;
    case 0x62: case 0x63: case 0x64: case 0x65: case 0x66: case 0x67:
        two_operand_instruction(d, REF_TCM);
        break;

    case 0x70: case 0x71:
        return push(d);
    case 0x72: case 0x73: case 0x74: case 0x75: case 0x76: case 0x77:
        two_operand_instruction(d, REF_TM);
        break;

    case 0x80: case 0x81:
        word_instruction(d, 0);                     /* DECW */
        break;
    case 0x82:
        lde_r_Irr(d);
        break;
    case 0x83:
        ldei_Ir_Irr(d);
        break;
    case 0x8F:
        di(d);
        break;

    case 0x90: case 0x91:
        one_operand_instruction(d, REF_RL);
        break;
    case 0x92:
        lde_Irr_r(d);
        break;
    case 0x93:
        ldei_Irr_Ir(d);
        break;
    case 0x9F:
        ei(d);
        break;

    case 0xA0: case 0xA1:
        word_instruction(d, 1);                     /* INCW */
        break;
    case 0xA2: case 0xA3: case 0xA4: case 0xA5: case 0xA6: case 0xA7:
        two_operand_instruction(d, REF_CP);
        break;
    case 0xAF:
        ret(d);
        break;

    case 0xB0: case 0xB1:
        clr(d);
        break;
    case 0xB2: case 0xB3: case 0xB4: case 0xB5: case 0xB6: case 0xB7:
        two_operand_instruction(d, REF_XOR);
        break;
    case 0xBF:
        iret(d);
        break;

    case 0xC0: case 0xC1:
        one_operand_instruction(d, REF_RRC);
        break;
    case 0xC2:
        ldc_r_Irr(d);
        break;
    case 0xC3:
        ldci_Ir_Irr(d);
        break;
    case 0xC7:
        ld_r_X(d);
        break;
    case 0xCF:
        carry_instruction(d, REF_RCF);
        break;

    case 0xD0: case 0xD1:
        one_operand_instruction(d, REF_SRA);
        break;
    case 0xD2:
        ldc_Irr_r(d);
        break;
    case 0xD3:
        ldci_Irr_Ir(d);
        break;
    case 0xD4:
        call_IRR(d);
        break;
    case 0xD6:
        call_DA(d);
        break;
    case 0xD7:
        ld_X_r(d);
        break;
    case 0xDF:
        carry_instruction(d, REF_SCF);
        break;

    case 0xE0: case 0xE1:
        one_operand_instruction(d, REF_RR);
        break;
    case 0xE3:
        ld_r_Ir(d);
        break;
    case 0xE4:
        ld_R_R(d);
        break;
    case 0xE5:
        ld_R_IR(d);
        break;
    case 0xE6:
        ld_R_IM(d);
        break;
    case 0xE7:
        ld_IR_IM(d);
        break;
    case 0xEF:
        carry_instruction(d, REF_CCF);
        break;

    case 0xF0: case 0xF1:
        one_operand_instruction(d, REF_SWAP);
        break;
    case 0xF3:
        ld_Ir_r(d);
        break;
    case 0xF5:
        ld_IR_R(d);
        break;
    case 0xFF:
        break;                                      /* NOP */

    default:
        break;                                      /* undefined: not here */
    }
    return 0;
}

/* A program byte some way after the program counter. 01: "the program counter
   is modulo 65,536". */
static uint8_t fetch(const struct ref_machine *m, const uint8_t *image,
                     size_t image_length, int after)
{
    return ref_program(image, image_length,
                       (uint16_t)(((long)m->pc + after) % 65536L));
}

int ref_execute(struct ref_machine *m, const struct ref_pins *pins,
                const uint8_t *image, size_t image_length,
                uint8_t *data, size_t data_length, uint32_t *cycles)
{
    struct doing d;
    uint8_t length;
    int refusal;
    int outcome;

    refusal = ref_decode(fetch(m, image, image_length, 0),
                         fetch(m, image, image_length, 1),
                         fetch(m, image, image_length, 2),
                         &d.opcode, &d.first, &d.second, &length);
    if (refusal != 0) {
        return refusal;
    }

    d.m = m;
    d.pins = pins;
    d.image = image;
    d.image_length = image_length;
    d.data = data;
    d.data_length = data_length;
    d.next = (uint16_t)(((long)m->pc + length) % 65536L);

    m->pc = d.next;                 /* an instruction that jumps sets it anew */
    if (low_nibble(d.opcode) >= 0x8 && low_nibble(d.opcode) <= 0xE) {
        outcome = do_columns_8_to_E(&d);
    } else {
        outcome = do_columns_0_to_7_and_F(&d);
    }

    /* 01: "Cycles: opcode map." */
    *cycles = (uint32_t)ref_cycles(d.opcode, outcome);
    return 0;
}
