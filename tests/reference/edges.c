/* 01's examples and edges, by the reference: what crates/examples/stdout has to be. The longest span is taken cycle by cycle. Only this
   file knows that program: it asks the model, and answers nothing by itself. */
#include <stdio.h>
#include "step.h"
#include "timers.h"

static const struct ref_pins high = { { 0xFF, 0xFF, 0xFF, 0xFF } };

/* A new machine with these in R5 and FLAGS, at this program counter. */
static struct ref_machine fresh(uint8_t r5, uint8_t flags, uint8_t pc)
{
    struct ref_machine m;
    ref_make(&m, 11, 20);
    m.file[5] = r5;
    m.file[0xFC] = flags;
    m.pc = pc;
    return m;
}

static void step_of(const char *name, struct ref_machine m, const uint8_t *image, size_t n)
{
    uint8_t mem[1] = { 0 };
    uint32_t cycles = 0, ends0 = 0, ends1 = 0;
    int refusal = ref_step(&m, &high, image, n, mem, sizeof mem, &cycles, &ends0, &ends1);
    printf("%s: R4 %02x R5 %02x FLAGS %02x PC %04x cycles %lu refusal %d\n", name, (unsigned)m.file[4], (unsigned)m.file[5],
        (unsigned)m.file[0xFC], (unsigned)m.pc, (unsigned long)cycles, refusal);
}

static void instruction(const char *name, uint8_t r5, uint8_t flags, uint8_t a, uint8_t b, uint8_t c, size_t n)
{
    uint8_t image[3] = { a, b, c };
    step_of(name, fresh(r5, flags, 0), image, n);
}

static void jump(void)
{
    uint8_t image[18];
    for (int i = 0; i < 18; i++)
        image[i] = 0xFF;
    image[16] = 0x8B;
    image[17] = 0xFE;
    step_of("8B FE at 0010", fresh(0, 0, 0x10), image, sizeof image);
}

static void grant(void)
{
    struct ref_machine m = fresh(0, 0, 0);
    uint8_t image[16];
    for (int i = 0; i < 16; i++)
        image[i] = 0xFF;
    image[10] = 0x12;
    image[11] = 0x34;
    m.file[0xF9] = 0x08;
    m.file[0xFB] = 0xBF;
    m.file[0xFA] = 0x3F;
    m.ei_executed = 1; /* without an EI there is no request */
    step_of("IPR 08, IMR BF, IRQ 3F", m, image, sizeof image);
}

static void span(const char *name, uint8_t pre0, uint8_t prescaler, uint8_t start, uint16_t counter, uint32_t n)
{
    struct ref_machine m = fresh(0, 0, 0);
    uint32_t ends0 = 0, ends1 = 0;
    m.file[0xF1] = 0x02;
    m.file[0xF4] = start;
    m.file[0xF5] = pre0;
    m.prescaler0 = prescaler;
    m.counter0 = counter;
    ref_span(&m, n, &ends0, &ends1);
    printf("%s: %lu cycles, ends %lu\n", name, (unsigned long)n, (unsigned long)ends0);
}

static void make(uint32_t cost)
{
    struct ref_machine m;
    printf("entry cost %lu: refusal %d\n", (unsigned long)cost, ref_make(&m, 11, cost));
}

static void run(uint32_t budget)
{
    struct ref_machine m = fresh(0, 0, 0);
    uint8_t mem[1] = { 0 };
    uint8_t image[1] = { 0xFF };
    uint32_t cycles = 0, ends0 = 0, ends1 = 0;
    int refusal = ref_run(&m, &high, image, sizeof image, mem, sizeof mem, budget, &cycles, &ends0, &ends1);
    printf("budget %lu: refusal %d, cycles %lu\n", (unsigned long)budget, refusal, (unsigned long)cycles);
}

/* "P 1, N 1, fresh load, over the longest span", both timers repeating and clocked internally. */
static void longest_span(uint8_t divider)
{
    struct ref_timers t = { .tmr = 0, .t1 = 1, .pre1 = 7, .t0 = 1, .pre0 = 5, .irq = 0, .port3 = 0xFF, .divider = divider,
        .prescaler0 = 64, .prescaler1 = 64, .counter0 = 256, .counter1 = 256, .tout = 1, .ends0 = 0, .ends1 = 0 };
    ref_write_tmr(&t, 0x0F);
    ref_timer_cycles(&t, 4294967295u);
    printf("P 1, N 1, fresh load, 4294967295 cycles from divider %u: ends of T0 %lu, of T1 %lu\n", (unsigned)divider,
        (unsigned long)t.ends0, (unsigned long)t.ends1);
}

int main(void)
{
    instruction("44 + 11", 0x44, 0xFC, 0x06, 0x05, 0x11, 3);
    instruction("7B AND C3", 0x7B, 0x70, 0x56, 0x05, 0xC3, 3);
    instruction("00 - 01", 0x00, 0x50, 0x26, 0x05, 0x01, 3);
    instruction("INC 7F", 0x7F, 0x40, 0x20, 0x05, 0, 2);
    instruction("SRA 81", 0x81, 0x50, 0xD0, 0x05, 0, 2);
    instruction("RL 40", 0x40, 0xC0, 0x90, 0x05, 0, 2);
    instruction("DA 3C", 0x3C, 0x60, 0x40, 0x05, 0, 2);
    instruction("DECW 0000", 0x00, 0x00, 0x80, 0x04, 0, 2);
    instruction("DJNZ on 1", 0x01, 0x00, 0x5A, 0x10, 0, 2);
    instruction("DJNZ on 0", 0x00, 0x00, 0x5A, 0x10, 0, 2);
    jump();
    grant();
    span("P 3, N 2", 0x0D, 3, 2, 2, 23);
    span("P 3, N 2", 0x0D, 3, 2, 2, 24);
    span("P 3, N 2", 0x0D, 3, 2, 2, 48);
    span("P 64, N 256", 0x01, 64, 0, 256, 65535);
    span("P 64, N 256", 0x01, 64, 0, 256, 65536);
    make(5);
    make(6);
    make(63);
    make(64);
    run(0);
    run(1000000);
    run(1000001);
    longest_span(0);
    longest_span(1);
    return 0;
}
