/* drive CORE WHAT IMAGE NUMBER CALLS [show]

   A new Z8611 of entry cost 20 with IMAGE as its program, 65,536 bytes of data memory and all pins high. CORE is z8 (libz8.a) or plain (the
   opponent). Then CALLS calls of one kind:

     run    a run with the budget NUMBER
     step   one step (NUMBER is not looked at), after a run of 10,000 cycles
     span   a span of NUMBER cycles, after such a run

   With `show` it prints what came of it: the last answer, cycles and ends of all calls, the opponent's steps if it was compiled to count
   them, and the saved machine and a sum of data memory, to be compared. Without it nothing is printed, so that two counts of executed
   instructions differ by the calls alone. (NUMBER and CALLS want the same number of digits in both: reading a digit costs, too.) */
#include "plain.h"
#include "z8.h"
#include <stdio.h>
#include <stdlib.h>
#include <string.h>

static uint8_t image[65536], data[65536], saved[Z8_SAVED_LEN];
static size_t image_len;
static uint32_t cycles, ends0, ends1;

static uint32_t make(int z8)
{
    return z8 ? z8_make(saved, sizeof saved, 11, 20) : plain_make(saved, sizeof saved, 11, 20);
}

static uint32_t run(int z8, uint32_t budget)
{
    return (z8 ? z8_run : plain_run)(saved, sizeof saved, image, image_len, data, sizeof data, 0xFF, 0xFF, 0xFF, 0xFF, budget, &cycles, &ends0, &ends1);
}

static uint32_t step(int z8)
{
    return (z8 ? z8_step : plain_step)(saved, sizeof saved, image, image_len, data, sizeof data, 0xFF, 0xFF, 0xFF, 0xFF, &cycles, &ends0, &ends1);
}

static uint32_t span(int z8, uint32_t n)
{
    return (z8 ? z8_span : plain_span)(saved, sizeof saved, n, &ends0, &ends1);
}

static void show(uint32_t answer, uint64_t spent, uint64_t all0, uint64_t all1)
{
    uint32_t sum = 2166136261u;
    for (size_t i = 0; i < sizeof data; i++)
        sum = (sum ^ data[i]) * 16777619u;
    printf("steps %llu\n", (unsigned long long)plain_steps);
    printf("answer %u cycles %llu ends %llu %llu data %08x\nsaved ", answer, (unsigned long long)spent, (unsigned long long)all0,
           (unsigned long long)all1, sum);
    for (size_t i = 0; i < sizeof saved; i++) /* bit 6 of IMR is not implemented, and is a plain bit in the opponent */
        printf("%02x", i == 0xFB ? saved[i] & 0xBFu : saved[i]);
    printf("\n");
}

int main(int argc, char **argv)
{
    if (argc < 6)
        return 2;
    int z8 = !strcmp(argv[1], "z8");
    FILE *f = fopen(argv[3], "rb");
    if (!f)
        return 2;
    image_len = fread(image, 1, sizeof image, f);
    fclose(f);
    uint32_t number = (uint32_t)strtoul(argv[4], 0, 10), calls = (uint32_t)strtoul(argv[5], 0, 10), answer;
    uint64_t spent = 0, all0 = 0, all1 = 0;
    memset(data, 0xFF, sizeof data);
    answer = make(z8);
    if (strcmp(argv[2], "run"))
        answer |= run(z8, 10000);
    for (uint32_t i = 0; i < calls && answer == 0; i++) {
        cycles = ends0 = ends1 = 0;
        answer = !strcmp(argv[2], "run") ? run(z8, number) : !strcmp(argv[2], "step") ? step(z8) : span(z8, number);
        spent += cycles, all0 += ends0, all1 += ends1;
    }
    if (argc > 6)
        show(answer, spent, all0, all1);
    return answer != 0;
}
