/* The reference's answers, a checksum for each question, in the order and form of the program crates/vectors. Its output is what
   crates/vectors/stdout has to be. Only this file knows that program: it asks bytes.c, and answers nothing by itself. */
#include <stdio.h>
#include "bytes.h"

static uint32_t mixed(uint32_t h, uint32_t x)
{
    return (uint32_t)(((uint64_t)h * 31 + x) % 4294967291u);
}

static void line(const char *name, uint32_t h)
{
    printf("%s %08x\n", name, (unsigned)h);
}

/* All pairs of bytes, all C D H of the flags read, laid on a FLAGS byte of zeros and on one of ones. */
static uint32_t over_bytes(int op)
{
    uint32_t h = 0;
    for (int dst = 0; dst < 256; dst++)
        for (int src = 0; src < 256; src++)
            for (int k = 0; k < 16; k++) {
                uint8_t read = (uint8_t)(k / 4 % 2 * 128 + k / 2 % 2 * 8 + k % 2 * 4);
                uint8_t value, flags;
                int stored = ref_byte(op, (uint8_t)dst, (uint8_t)src, read, (uint8_t)(k / 8 * 255), &value, &flags);
                h = mixed(h, (uint32_t)stored * 65536u + value * 256u + flags);
            }
    return h;
}

static uint32_t over_jumps(void)
{
    uint32_t h = 0;
    for (int b = 0; b < 256; b++)
        for (long w = 0; w < 65536; w++)
            h = mixed(h, ref_jump((uint16_t)w, (uint8_t)b));
    return h;
}

/* The bytes as one number, length first, or the refusal. */
static uint32_t packed(int length, int op, int a, int b)
{
    return (uint32_t)length * 16777216u + (uint32_t)op * 65536u + (uint32_t)a * 256u + (uint32_t)b;
}

static uint32_t over_instructions(int encode)
{
    uint32_t h = 0;
    for (int op = 0; op < 256; op++)
        for (int a = 0; a < 256; a++)
            for (int b = 0; b < 256; b++) {
                uint8_t x, y, z, length;
                int refusal = (encode ? ref_encode : ref_decode)((uint8_t)op, (uint8_t)a, (uint8_t)b, &x, &y, &z, &length);
                h = mixed(h, refusal ? (uint32_t)refusal : packed(length, x, y, z));
            }
    return h;
}

static uint32_t over_lengths(void)
{
    uint32_t h = 0;
    for (int op = 0; op < 256; op++)
        h = mixed(h, (uint32_t)ref_length(op));
    return h;
}

int main(void)
{
    static const struct {
        const char *name;
        int op;
    } operations[] = { { "ADD", REF_ADD }, { "ADC", REF_ADC }, { "SUB", REF_SUB }, { "SBC", REF_SBC }, { "CP", REF_CP }, { "AND", REF_AND },
        { "OR", REF_OR }, { "XOR", REF_XOR }, { "TM", REF_TM }, { "TCM", REF_TCM } };
    for (size_t k = 0; k < sizeof operations / sizeof *operations; k++)
        line(operations[k].name, over_bytes(operations[k].op));
    line("displacements", over_jumps());
    line("decoding", over_instructions(0));
    line("encoding", over_instructions(1));
    line("lengths", over_lengths());
    return 0;
}
