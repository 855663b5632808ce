/* See bytes.h. Each page of chapter 5 of source document 004 has its own code
   here; nothing is folded together on purpose. */
#include "bytes.h"

/* FLAGS from bit 7 down: C Z S V D H F2 F1. */
#define BIT_C 0x80
#define BIT_Z 0x40
#define BIT_S 0x20
#define BIT_V 0x10
#define BIT_D 0x08
#define BIT_H 0x04

/* FLAGS with one bit set or cleared. */
static int put(int flags, int bit, int on)
{
    if (on) {
        return flags | bit;
    }
    return flags & ~bit & 0xFF;
}

/* A byte as a two's complement number, -128 to 127. */
static int number8(int byte)
{
    if (byte >= 128) {
        return byte - 256;
    }
    return byte;
}

/* A word as a two's complement number, -32768 to 32767. */
static long number16(long word)
{
    if (word >= 32768L) {
        return word - 65536L;
    }
    return word;
}

/* ADD: dst <- dst + src. C Z S V *, D 0, H *. */
static int op_add(int dst, int src, int laid, int *flags)
{
    int sum = dst + src;
    int result = sum % 256;
    int real = number8(dst) + number8(src);
    int low = dst % 16 + src % 16;
    int f = laid;

    f = put(f, BIT_C, sum > 255);
    f = put(f, BIT_Z, result == 0);
    f = put(f, BIT_S, result >= 128);
    f = put(f, BIT_V, real > 127 || real < -128);
    f = put(f, BIT_D, 0);
    f = put(f, BIT_H, low > 15);
    *flags = f;
    return result;
}

/* ADC: dst <- dst + src + C. C Z S V *, D 0, H *. */
static int op_adc(int dst, int src, int read, int laid, int *flags)
{
    int carry = (read & BIT_C) ? 1 : 0;
    int sum = dst + src + carry;
    int result = sum % 256;
    int real = number8(dst) + number8(src) + carry;
    int low = dst % 16 + src % 16 + carry;
    int f = laid;

    f = put(f, BIT_C, sum > 255);
    f = put(f, BIT_Z, result == 0);
    f = put(f, BIT_S, result >= 128);
    f = put(f, BIT_V, real > 127 || real < -128);
    f = put(f, BIT_D, 0);
    f = put(f, BIT_H, low > 15);
    *flags = f;
    return result;
}

/* SUB: dst <- dst - src. C (borrow) Z S V *, D 1, H (borrow) *. */
static int op_sub(int dst, int src, int laid, int *flags)
{
    int difference = dst - src;
    int result = difference;
    int real = number8(dst) - number8(src);
    int low = dst % 16 - src % 16;
    int f = laid;

    if (result < 0) {
        result += 256;
    }
    f = put(f, BIT_C, difference < 0);
    f = put(f, BIT_Z, result == 0);
    f = put(f, BIT_S, result >= 128);
    f = put(f, BIT_V, real > 127 || real < -128);
    f = put(f, BIT_D, 1);
    f = put(f, BIT_H, low < 0);
    *flags = f;
    return result;
}

/* SBC: dst <- dst - src - C. C (borrow) Z S V *, D 1, H (borrow) *. */
static int op_sbc(int dst, int src, int read, int laid, int *flags)
{
    int borrow = (read & BIT_C) ? 1 : 0;
    int difference = dst - src - borrow;
    int result = difference;
    int real = number8(dst) - number8(src) - borrow;
    int low = dst % 16 - src % 16 - borrow;
    int f = laid;

    if (result < 0) {
        result += 256;
    }
    f = put(f, BIT_C, difference < 0);
    f = put(f, BIT_Z, result == 0);
    f = put(f, BIT_S, result >= 128);
    f = put(f, BIT_V, real > 127 || real < -128);
    f = put(f, BIT_D, 1);
    f = put(f, BIT_H, low < 0);
    *flags = f;
    return result;
}

/* CP: dst - src, nothing stored. C (borrow) Z S V *; D, H unaffected. */
static void op_cp(int dst, int src, int laid, int *flags)
{
    int difference = dst - src;
    int result = difference;
    int real = number8(dst) - number8(src);
    int f = laid;

    if (result < 0) {
        result += 256;
    }
    f = put(f, BIT_C, difference < 0);
    f = put(f, BIT_Z, result == 0);
    f = put(f, BIT_S, result >= 128);
    f = put(f, BIT_V, real > 127 || real < -128);
    *flags = f;
}

/* AND: dst <- dst AND src. Z S *, V 0; C, D, H unaffected. */
static int op_and(int dst, int src, int laid, int *flags)
{
    int result = dst & src;
    int f = laid;

    f = put(f, BIT_Z, result == 0);
    f = put(f, BIT_S, result >= 128);
    f = put(f, BIT_V, 0);
    *flags = f;
    return result;
}

/* OR: dst <- dst OR src. Z S *, V 0; C, D, H unaffected. */
static int op_or(int dst, int src, int laid, int *flags)
{
    int result = dst | src;
    int f = laid;

    f = put(f, BIT_Z, result == 0);
    f = put(f, BIT_S, result >= 128);
    f = put(f, BIT_V, 0);
    *flags = f;
    return result;
}

/* XOR: dst <- dst XOR src. Z S *, V 0; C, D, H unaffected. */
static int op_xor(int dst, int src, int laid, int *flags)
{
    int result = dst ^ src;
    int f = laid;

    f = put(f, BIT_Z, result == 0);
    f = put(f, BIT_S, result >= 128);
    f = put(f, BIT_V, 0);
    *flags = f;
    return result;
}

/* COM: dst <- NOT dst. Z S *, V 0; C, D, H unaffected. */
static int op_com(int dst, int laid, int *flags)
{
    int result = 255 - dst;
    int f = laid;

    f = put(f, BIT_Z, result == 0);
    f = put(f, BIT_S, result >= 128);
    f = put(f, BIT_V, 0);
    *flags = f;
    return result;
}

/* TM: dst AND src, nothing stored. Z S *, V 0; C, D, H unaffected. */
static void op_tm(int dst, int src, int laid, int *flags)
{
    int result = dst & src;
    int f = laid;

    f = put(f, BIT_Z, result == 0);
    f = put(f, BIT_S, result >= 128);
    f = put(f, BIT_V, 0);
    *flags = f;
}

/* TCM: (NOT dst) AND src, nothing stored. Z S *, V 0; C, D, H unaffected. */
static void op_tcm(int dst, int src, int laid, int *flags)
{
    int result = (255 - dst) & src;
    int f = laid;

    f = put(f, BIT_Z, result == 0);
    f = put(f, BIT_S, result >= 128);
    f = put(f, BIT_V, 0);
    *flags = f;
}

/* INC: dst <- dst + 1. Z S V *; C, D, H unaffected. */
static int op_inc(int dst, int laid, int *flags)
{
    int result = (dst + 1) % 256;
    int real = number8(dst) + 1;
    int f = laid;

    f = put(f, BIT_Z, result == 0);
    f = put(f, BIT_S, result >= 128);
    f = put(f, BIT_V, real > 127);
    *flags = f;
    return result;
}

/* DEC: dst <- dst - 1. Z S V *; C, D, H unaffected. */
static int op_dec(int dst, int laid, int *flags)
{
    int result = (dst == 0) ? 255 : dst - 1;
    int real = number8(dst) - 1;
    int f = laid;

    f = put(f, BIT_Z, result == 0);
    f = put(f, BIT_S, result >= 128);
    f = put(f, BIT_V, real < -128);
    *flags = f;
    return result;
}

/* RL: dst(0) <- dst(7), dst(n+1) <- dst(n), C <- dst(7). C Z S V *. */
static int op_rl(int dst, int laid, int *flags)
{
    int bit7 = dst / 128;
    int result = (dst % 128) * 2 + bit7;
    int f = laid;

    f = put(f, BIT_C, bit7 == 1);
    f = put(f, BIT_Z, result == 0);
    f = put(f, BIT_S, result >= 128);
    f = put(f, BIT_V, (result >= 128) != (dst >= 128));
    *flags = f;
    return result;
}

/* RLC: dst(0) <- C, C <- dst(7), dst(n+1) <- dst(n). C Z S V *. */
static int op_rlc(int dst, int read, int laid, int *flags)
{
    int carry = (read & BIT_C) ? 1 : 0;
    int bit7 = dst / 128;
    int result = (dst % 128) * 2 + carry;
    int f = laid;

    f = put(f, BIT_C, bit7 == 1);
    f = put(f, BIT_Z, result == 0);
    f = put(f, BIT_S, result >= 128);
    f = put(f, BIT_V, (result >= 128) != (dst >= 128));
    *flags = f;
    return result;
}

/* RR: C <- dst(0), dst(7) <- dst(0), dst(n) <- dst(n+1). C Z S V *. */
static int op_rr(int dst, int laid, int *flags)
{
    int bit0 = dst % 2;
    int result = dst / 2 + bit0 * 128;
    int f = laid;

    f = put(f, BIT_C, bit0 == 1);
    f = put(f, BIT_Z, result == 0);
    f = put(f, BIT_S, result >= 128);
    f = put(f, BIT_V, (result >= 128) != (dst >= 128));
    *flags = f;
    return result;
}

/* RRC: dst(7) <- C, C <- dst(0), dst(n) <- dst(n+1). C Z S V *. */
static int op_rrc(int dst, int read, int laid, int *flags)
{
    int carry = (read & BIT_C) ? 1 : 0;
    int bit0 = dst % 2;
    int result = dst / 2 + carry * 128;
    int f = laid;

    f = put(f, BIT_C, bit0 == 1);
    f = put(f, BIT_Z, result == 0);
    f = put(f, BIT_S, result >= 128);
    f = put(f, BIT_V, (result >= 128) != (dst >= 128));
    *flags = f;
    return result;
}

/* SRA: dst(7) <- dst(7), C <- dst(0), dst(n) <- dst(n+1). C Z S *, V 0. */
static int op_sra(int dst, int laid, int *flags)
{
    int bit7 = dst / 128;
    int bit0 = dst % 2;
    int result = dst / 2 + bit7 * 128;
    int f = laid;

    f = put(f, BIT_C, bit0 == 1);
    f = put(f, BIT_Z, result == 0);
    f = put(f, BIT_S, result >= 128);
    f = put(f, BIT_V, 0);
    *flags = f;
    return result;
}

/* SWAP: dst(0-3) <-> dst(4-7). Z S *; C, V undefined: they stay (HOUSE). */
static int op_swap(int dst, int laid, int *flags)
{
    int result = (dst % 16) * 16 + dst / 16;
    int f = laid;

    f = put(f, BIT_Z, result == 0);
    f = put(f, BIT_S, result >= 128);
    *flags = f;
    return result;
}

/* The rows of DA's page, in its order and its columns (D first, for the
   instruction column: 0 ADD or ADC, 1 SUB or SBC). */
struct da_row {
    int d;
    int carry;
    int high_from, high_to;
    int half;
    int low_from, low_to;
    int added;
    int carry_after;
};

static const struct da_row da_rows[13] = {
    { 0, 0, 0x0, 0x9, 0, 0x0, 0x9, 0x00, 0 },
    { 0, 0, 0x0, 0x8, 0, 0xA, 0xF, 0x06, 0 },
    { 0, 0, 0x0, 0x9, 1, 0x0, 0x3, 0x06, 0 },
    { 0, 0, 0xA, 0xF, 0, 0x0, 0x9, 0x60, 1 },
    { 0, 0, 0x9, 0xF, 0, 0xA, 0xF, 0x66, 1 },
    { 0, 0, 0xA, 0xF, 1, 0x0, 0x3, 0x66, 1 },
    { 0, 1, 0x0, 0x2, 0, 0x0, 0x9, 0x60, 1 },
    { 0, 1, 0x0, 0x2, 0, 0xA, 0xF, 0x66, 1 },
    { 0, 1, 0x0, 0x3, 1, 0x0, 0x3, 0x66, 1 },
    { 1, 0, 0x0, 0x9, 0, 0x0, 0x9, 0x00, 0 },
    { 1, 0, 0x0, 0x8, 1, 0x6, 0xF, 0xFA, 0 },
    { 1, 1, 0x7, 0xF, 0, 0x0, 0x9, 0xA0, 1 },
    { 1, 1, 0x6, 0xF, 1, 0x6, 0xF, 0x9A, 1 }
};

/* DA. C (by the table) Z S *; V undefined: it stays (HOUSE); D, H unaffected.
   Answers 0 where no row fits: nothing changes, flags included (HOUSE). */
static int op_da(int dst, int read, int laid, int *result, int *flags)
{
    int d = (read & BIT_D) ? 1 : 0;
    int carry = (read & BIT_C) ? 1 : 0;
    int half = (read & BIT_H) ? 1 : 0;
    int high = dst / 16;
    int low = dst % 16;
    int i;

    for (i = 0; i < 13; i++) {
        const struct da_row *row = &da_rows[i];

        if (row->d == d && row->carry == carry && row->half == half
            && row->high_from <= high && high <= row->high_to
            && row->low_from <= low && low <= row->low_to) {
            int value = (dst + row->added) % 256;
            int f = laid;

            f = put(f, BIT_C, row->carry_after);
            f = put(f, BIT_Z, value == 0);
            f = put(f, BIT_S, value >= 128);
            *result = value;
            *flags = f;
            return 1;
        }
    }
    *result = 0;
    *flags = laid;
    return 0;
}

/* RCF: C <- 0. */
static void op_rcf(int laid, int *flags)
{
    *flags = put(laid, BIT_C, 0);
}

/* SCF: C <- 1. */
static void op_scf(int laid, int *flags)
{
    *flags = put(laid, BIT_C, 1);
}

/* CCF: C <- NOT C. */
static void op_ccf(int laid, int *flags)
{
    if (laid & BIT_C) {
        *flags = put(laid, BIT_C, 0);
    } else {
        *flags = put(laid, BIT_C, 1);
    }
}

int ref_byte(int op, uint8_t dst, uint8_t src, uint8_t read, uint8_t laid,
             uint8_t *value, uint8_t *flags)
{
    int result = 0;
    int f = laid;
    int stored = 0;

    switch (op) {
    case REF_ADD:  result = op_add(dst, src, laid, &f);       stored = 1; break;
    case REF_ADC:  result = op_adc(dst, src, read, laid, &f); stored = 1; break;
    case REF_SUB:  result = op_sub(dst, src, laid, &f);       stored = 1; break;
    case REF_SBC:  result = op_sbc(dst, src, read, laid, &f); stored = 1; break;
    case REF_CP:   op_cp(dst, src, laid, &f);                             break;
    case REF_AND:  result = op_and(dst, src, laid, &f);       stored = 1; break;
    case REF_OR:   result = op_or(dst, src, laid, &f);        stored = 1; break;
    case REF_XOR:  result = op_xor(dst, src, laid, &f);       stored = 1; break;
    case REF_COM:  result = op_com(dst, laid, &f);            stored = 1; break;
    case REF_TM:   op_tm(dst, src, laid, &f);                             break;
    case REF_TCM:  op_tcm(dst, src, laid, &f);                            break;
    case REF_INC:  result = op_inc(dst, laid, &f);            stored = 1; break;
    case REF_DEC:  result = op_dec(dst, laid, &f);            stored = 1; break;
    case REF_RL:   result = op_rl(dst, laid, &f);             stored = 1; break;
    case REF_RLC:  result = op_rlc(dst, read, laid, &f);      stored = 1; break;
    case REF_RR:   result = op_rr(dst, laid, &f);             stored = 1; break;
    case REF_RRC:  result = op_rrc(dst, read, laid, &f);      stored = 1; break;
    case REF_SRA:  result = op_sra(dst, laid, &f);            stored = 1; break;
    case REF_SWAP: result = op_swap(dst, laid, &f);           stored = 1; break;
    case REF_DA:   stored = op_da(dst, read, laid, &result, &f);          break;
    case REF_RCF:  op_rcf(laid, &f);                                      break;
    case REF_SCF:  op_scf(laid, &f);                                      break;
    case REF_CCF:  op_ccf(laid, &f);                                      break;
    default:                                                              break;
    }
    *value = (uint8_t)result;
    *flags = (uint8_t)f;
    return stored;
}

/* INCW: dst <- dst + 1. Z S V *; C, D, H unaffected. */
static long word_incw(long dst, int laid, int *flags)
{
    long result = (dst + 1) % 65536L;
    long real = number16(dst) + 1;
    int f = laid;

    f = put(f, BIT_Z, result == 0);
    f = put(f, BIT_S, result >= 32768L);
    f = put(f, BIT_V, real > 32767L);
    *flags = f;
    return result;
}

/* DECW: dst <- dst - 1. Z S V *; C, D, H unaffected. */
static long word_decw(long dst, int laid, int *flags)
{
    long result = (dst == 0) ? 65535L : dst - 1;
    long real = number16(dst) - 1;
    int f = laid;

    f = put(f, BIT_Z, result == 0);
    f = put(f, BIT_S, result >= 32768L);
    f = put(f, BIT_V, real < -32768L);
    *flags = f;
    return result;
}

void ref_word(int up, uint16_t dst, uint8_t laid, uint16_t *value,
              uint8_t *flags)
{
    long result;
    int f = laid;

    if (up) {
        result = word_incw(dst, laid, &f);
    } else {
        result = word_decw(dst, laid, &f);
    }
    *value = (uint16_t)result;
    *flags = (uint8_t)f;
}

/* Section 5.4.2. */
int ref_condition(int cc, uint8_t flags)
{
    int c = (flags & BIT_C) ? 1 : 0;
    int z = (flags & BIT_Z) ? 1 : 0;
    int s = (flags & BIT_S) ? 1 : 0;
    int v = (flags & BIT_V) ? 1 : 0;

    switch (cc) {
    case 0x0: return 0;                           /* F, always false */
    case 0x1: return s != v;                      /* LT: (S XOR V) = 1 */
    case 0x2: return z == 1 || s != v;            /* LE: (Z OR (S XOR V)) = 1 */
    case 0x3: return c == 1 || z == 1;            /* ULE: (C OR Z) = 1 */
    case 0x4: return v == 1;                      /* OV */
    case 0x5: return s == 1;                      /* MI */
    case 0x6: return z == 1;                      /* Z, EQ */
    case 0x7: return c == 1;                      /* C, ULT */
    case 0x8: return 1;                           /* blank, always true */
    case 0x9: return s == v;                      /* GE: (S XOR V) = 0 */
    case 0xA: return z == 0 && s == v;            /* GT: (Z OR (S XOR V)) = 0 */
    case 0xB: return c == 0 && z == 0;            /* UGT */
    case 0xC: return v == 0;                      /* NOV */
    case 0xD: return s == 0;                      /* PL */
    case 0xE: return z == 0;                      /* NZ, NE */
    case 0xF: return c == 0;                      /* NC, UGE */
    default:  return 0;
    }
}

/* 01, "Instructions": the 25 undefined, in its order. */
int ref_defined(int opcode)
{
    if (opcode < 0 || opcode > 255) {
        return 0;
    }
    switch (opcode) {
    case 0xE2: case 0xF2:
    case 0x84: case 0x94: case 0xC4: case 0xF4:
    case 0x85: case 0x95: case 0xC5: case 0xD5:
    case 0x86: case 0x96: case 0xC6: case 0xF6:
    case 0x87: case 0x97: case 0xF7:
    case 0x0F: case 0x1F: case 0x2F: case 0x3F:
    case 0x4F: case 0x5F: case 0x6F: case 0x7F:
        return 0;
    default:
        return 1;
    }
}

/* 01, "Instructions": lengths by low nibble. */
int ref_length(int opcode)
{
    if (opcode < 0 || opcode > 255) {
        return 0;
    }
    if (opcode == 0xD4) {
        return 2;
    }
    switch (opcode % 16) {
    case 0x0: case 0x1: case 0x2: case 0x3:
        return 2;
    case 0x4: case 0x5: case 0x6: case 0x7:
        return 3;
    case 0x8: case 0x9: case 0xA: case 0xB: case 0xC:
        return 2;
    case 0xD:
        return 3;
    default:
        return 1;
    }
}

/* The opcode map, row by row: the execution cycles printed before the comma.
   0: a blank of the map. J: 12 taken, 10 not. P: 10 internal, 12 external.
   Q: 12 internal, 14 external. Columns 8 to E are printed once, for all rows. */
#define J (-1)
#define P (-2)
#define Q (-3)
static const signed char map[16][16] = {
    /*          0   1   2   3   4   5   6   7   8  9  A  B  C  D  E   F */
    /* 0 */ {   6,  6,  6,  6, 10, 10, 10, 10,  6, 6, J, J, 6, J, 6,  0 },
    /* 1 */ {   6,  6,  6,  6, 10, 10, 10, 10,  6, 6, J, J, 6, J, 6,  0 },
    /* 2 */ {   6,  6,  6,  6, 10, 10, 10, 10,  6, 6, J, J, 6, J, 6,  0 },
    /* 3 */ {   8,  6,  6,  6, 10, 10, 10, 10,  6, 6, J, J, 6, J, 6,  0 },
    /* 4 */ {   8,  8,  6,  6, 10, 10, 10, 10,  6, 6, J, J, 6, J, 6,  0 },
    /* 5 */ {  10, 10,  6,  6, 10, 10, 10, 10,  6, 6, J, J, 6, J, 6,  0 },
    /* 6 */ {   6,  6,  6,  6, 10, 10, 10, 10,  6, 6, J, J, 6, J, 6,  0 },
    /* 7 */ {   P,  Q,  6,  6, 10, 10, 10, 10,  6, 6, J, J, 6, J, 6,  0 },
    /* 8 */ {  10, 10, 12, 18,  0,  0,  0,  0,  6, 6, J, J, 6, J, 6,  6 },
    /* 9 */ {   6,  6, 12, 18,  0,  0,  0,  0,  6, 6, J, J, 6, J, 6,  6 },
    /* A */ {  10, 10,  6,  6, 10, 10, 10, 10,  6, 6, J, J, 6, J, 6, 14 },
    /* B */ {   6,  6,  6,  6, 10, 10, 10, 10,  6, 6, J, J, 6, J, 6, 16 },
    /* C */ {   6,  6, 12, 18,  0,  0,  0, 10,  6, 6, J, J, 6, J, 6,  6 },
    /* D */ {   6,  6, 12, 18, 20,  0, 20, 10,  6, 6, J, J, 6, J, 6,  6 },
    /* E */ {   6,  6,  0,  6, 10, 10, 10, 10,  6, 6, J, J, 6, J, 6,  6 },
    /* F */ {   8,  8,  0,  6,  0, 10,  0,  0,  6, 6, J, J, 6, J, 6,  6 }
};

int ref_cycles(int opcode, int first)
{
    int cell;

    if (opcode < 0 || opcode > 255) {
        return 0;
    }
    cell = map[opcode / 16][opcode % 16];
    if (cell == J) {
        return first ? 12 : 10;
    }
    if (cell == P) {
        return first ? 10 : 12;
    }
    if (cell == Q) {
        return first ? 12 : 14;
    }
    return cell;
}

/* -128 to 127 from the next instruction, modulo 65,536. */
uint16_t ref_jump(uint16_t next, uint8_t displacement)
{
    long pc = (long)next + number8(displacement);

    if (pc < 0) {
        pc += 65536L;
    }
    if (pc > 65535L) {
        pc -= 65536L;
    }
    return (uint16_t)pc;
}

/* 01: refusal 5, opcode undefined; operand bytes it hasn't are zero. The
   operand bytes stand in the order of chapter 5's boxes, which is the order of
   the program bytes. */
int ref_decode(uint8_t byte0, uint8_t byte1, uint8_t byte2, uint8_t *opcode,
               uint8_t *first, uint8_t *second, uint8_t *length)
{
    int bytes;

    if (!ref_defined(byte0)) {
        return 5;
    }
    bytes = ref_length(byte0);
    *opcode = byte0;
    *first = 0;
    *second = 0;
    *length = (uint8_t)bytes;
    if (bytes >= 2) {
        *first = byte1;
    }
    if (bytes >= 3) {
        *second = byte2;
    }
    return 0;
}

/* 01: refusal 8, none of the 231, or an operand byte that it hasn't and that
   is not zero. Unused bytes are zero. */
int ref_encode(uint8_t opcode, uint8_t first, uint8_t second, uint8_t *byte0,
               uint8_t *byte1, uint8_t *byte2, uint8_t *length)
{
    int bytes;

    if (!ref_defined(opcode)) {
        return 8;
    }
    bytes = ref_length(opcode);
    if (bytes == 1 && (first != 0 || second != 0)) {
        return 8;
    }
    if (bytes == 2 && second != 0) {
        return 8;
    }
    *byte0 = opcode;
    *byte1 = first;
    *byte2 = second;
    *length = (uint8_t)bytes;
    return 0;
}
