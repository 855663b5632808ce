/* hall.c: the smallest honest encoder. It holds one machine for each of several halls, runs one image in all of them, slice by slice
   and with pins, and prints the producer's acceptance sheet. ./hall builds and runs it; by itself:

     hall IMAGE MINUTES FOLDER [CONTRAST-SECONDS]

   It prints the sheet minute by minute and writes it to FOLDER/recital.csv; FOLDER/readings.csv has the same columns every four
   seconds, for the plot. It exits with 0 where the sheet is accepted, 2 where it isn't, and 1 where there is none, and then one line
   on stderr says why.

   The true time is the crystal's: the cycles spent, at 6,000,000 a second. The image keeps fields and audio blocks, with their
   halves, as counts in registers (below, and examples/recital.lst). Then:

     picture delay   true time less fields / 50 s
     sound delay     true time less audio blocks x 1,024 / 48,000 s
     lip delay       picture delay less sound delay: above zero the lips are late, below zero the sound is

   A count stands still between two ends of its timer, so that at any odd moment even a perfect unit is up to half a field or half a
   block behind: a saw-tooth that would hide what the sheet is for. So the counts are read every four seconds, which are 400 half
   fields and 375 half blocks, and the unit is switched on a millisecond early, so that the ends due by then have been served. A perfect
   unit then shows zero, but for the few cycles that a run spends over its budget, and a single lost end shows as 10 ms or more. */

#define _POSIX_C_SOURCE 200112L /* for isatty */

#include <errno.h>
#include <stdio.h>
#include <stdlib.h>
#include <string.h>
#include <time.h>
#include <unistd.h>

#include "z8.h"

#define CYCLES_A_SECOND INT64_C(6000000)
#define CYCLES_A_MS (CYCLES_A_SECOND / 1000)
#define FIELD (CYCLES_A_SECOND / 50)           /* 120,000 cycles */
#define BLOCK (CYCLES_A_SECOND * 1024 / 48000) /* 128,000 cycles */
#define LEAD_IN CYCLES_A_MS                    /* so long before the recital begins the unit is switched on */
#define READING_SECONDS 4
#define MINUTES_MOST 1440
#define CONTRAST_SECONDS 60 /* so long the slipping core is really stepped, which takes its time; then its line goes straight on */

/* Where an image keeps its counts: a byte that is 1 while a first half is over, then 24 bits, high byte first. */
#define FIELDS_AT (Z8_AT_REGISTERS + 0x20)
#define BLOCKS_AT (Z8_AT_REGISTERS + 0x24)
#define CUES_AT (Z8_AT_REGISTERS + 0x28) /* 16 bits, high byte first */

/* The pins are open, but for the cue key, which pulls P32 low. It is pressed at the beginning of every four seconds. */
#define PINS_OPEN 0xFF
#define PINS3_CUE 0xFB
#define CUE_CYCLES (20 * CYCLES_A_MS)

struct image {
    uint8_t bytes[Z8_IMAGE_MOST + 1]; /* one more, to notice a file that is too long */
    size_t length;
};

struct hall {
    const char *name;
    uint32_t type, entry_cost;
    uint32_t slice;  /* the budget of one call: a field, a block, whatever suits the hall */
    int slips;       /* not a hall but the contrast: see slipping_step */
    int64_t cycles;  /* the true time: cycles since the recital began; below zero in the lead-in */
    int64_t ends[2]; /* of T0 and T1 as the library reports them, to be held against what the image counts */
    int64_t dropped; /* cycles that a slipping core has lost */
    uint8_t saved[Z8_SAVED_LEN];
    uint8_t data[Z8_DATA_MOST]; /* external memory, for images that use it */
};

static struct hall halls[] = { /* the last is the contrast, and has the first one's machine */
    {.name = "Great hall", .type = Z8_TYPE_Z8611, .entry_cost = 20, .slice = FIELD},
    {.name = "Chamber hall", .type = Z8_TYPE_Z8601, .entry_cost = 26, .slice = BLOCK},
    {.name = "Studio", .type = Z8_TYPE_Z8611, .entry_cost = 63, .slice = Z8_BUDGET_MOST},
    {.name = "Slipping core", .type = Z8_TYPE_Z8611, .entry_cost = 20, .slips = 1},
};
#define HALLS (sizeof halls / sizeof halls[0])

static struct image image;
static int at_terminal;

/* ---- Progress: a line that is written over at a terminal, and a line a minute elsewhere ---- */

static int whole_minute(int second)
{
    return second > 0 && second % 60 == 0;
}

static void progress(int second, int seconds, time_t began)
{
    if (at_terminal || whole_minute(second))
        fprintf(stderr, "hall: %d of %d s of recital, %ld s of waiting%s", second, seconds, (long)(time(NULL) - began),
                at_terminal ? "\r" : "\n");
}

static void progress_away(void)
{
    if (at_terminal)
        fprintf(stderr, "%78s\r", "");
}

/* ---- Everything that ends the program early comes here ---- */

static void give_up(const char *who, const char *why)
{
    progress_away();
    fprintf(stderr, "hall: %s: %s\n", who, why);
    exit(1);
}

static void must(const struct hall *hall, const char *call, uint32_t answer)
{
    char why[160];
    if (answer == Z8_OK)
        return;
    snprintf(why, sizeof why, "%s refused: %s (%u)", call, z8_answer_text(answer), (unsigned)answer);
    give_up(hall->name, why);
}

/* ---- The encoder's work ---- */

static void switch_on(struct hall *hall)
{
    must(hall, "z8_make", z8_make(hall->saved, sizeof hall->saved, hall->type, hall->entry_cost));
    hall->cycles = -LEAD_IN;
}

static void slice(struct hall *hall, uint32_t budget, uint8_t pins3)
{
    uint32_t cycles, ends0, ends1;
    must(hall, "z8_run",
         z8_run(hall->saved, sizeof hall->saved, image.bytes, image.length, hall->data, sizeof hall->data,
                PINS_OPEN, PINS_OPEN, PINS_OPEN, pins3, budget, &cycles, &ends0, &ends1));
    hall->cycles += cycles;
    hall->ends[0] += ends0;
    hall->ends[1] += ends1;
}

/* One step of a core that divides each step's cycles by four and drops the rest. In a saved machine that rest is the divider, so
   clearing it after every step makes a right core slip in just this way. */
static void slipping_step(struct hall *hall, uint8_t pins3)
{
    uint32_t cycles, ends0, ends1;
    must(hall, "z8_step",
         z8_step(hall->saved, sizeof hall->saved, image.bytes, image.length, hall->data, sizeof hall->data,
                 PINS_OPEN, PINS_OPEN, PINS_OPEN, pins3, &cycles, &ends0, &ends1));
    hall->cycles += cycles;
    hall->ends[0] += ends0;
    hall->ends[1] += ends1;
    hall->dropped += hall->saved[Z8_AT_DIVIDER];
    hall->saved[Z8_AT_DIVIDER] = 0;
}

/* Until that true time. What a run spends over its budget (Z8_OVERRUN_MOST at most) is counted, so the next slice is so much
   shorter and nothing adds up. */
static void run_until(struct hall *hall, int64_t until, uint8_t pins3)
{
    while (hall->cycles < until) {
        int64_t left = until - hall->cycles;
        if (hall->slips)
            slipping_step(hall, pins3);
        else
            slice(hall, left < hall->slice ? (uint32_t)left : hall->slice, pins3);
    }
}

/* At second 0 that is the lead-in alone. */
static void run_to_reading(struct hall *hall, int second)
{
    int64_t end = second * CYCLES_A_SECOND, begin = end - READING_SECONDS * CYCLES_A_SECOND;
    run_until(hall, begin + CUE_CYCLES, PINS3_CUE);
    run_until(hall, end, PINS_OPEN);
}

/* ---- Readings ---- */

struct reading {
    int second;
    int counted; /* 0: continued in a straight line, and then the delays alone mean something */
    int64_t half_fields, half_blocks;
    double picture_ms, sound_ms;
};

static int64_t halves(const uint8_t *at)
{
    return 2 * ((int64_t)at[1] << 16 | at[2] << 8 | at[3]) + (at[0] & 1);
}

static struct reading counted(const struct hall *hall, int second)
{
    struct reading r = {.second = second, .counted = 1};
    r.half_fields = halves(hall->saved + FIELDS_AT);
    r.half_blocks = halves(hall->saved + BLOCKS_AT);
    r.picture_ms = (double)(hall->cycles - r.half_fields * (FIELD / 2)) / CYCLES_A_MS;
    r.sound_ms = (double)(hall->cycles - r.half_blocks * (BLOCK / 2)) / CYCLES_A_MS;
    return r;
}

/* The slipping core after its steps have stopped: what the same machine shows on this core, and on top of it the cycles that were dropped
   so far, in proportion to the time. Both timers tick by the same divider, so both lose them. */
static struct reading continued(const struct hall *hall, const struct hall *right, int second)
{
    struct reading r = counted(right, second);
    double lost_ms = 1000.0 * second * (double)hall->dropped / (double)(hall->cycles + LEAD_IN);
    r.counted = 0;
    r.picture_ms += lost_ms;
    r.sound_ms += lost_ms;
    return r;
}

static struct reading read_off(const struct hall *hall, int second)
{
    return hall->cycles >= second * CYCLES_A_SECOND ? counted(hall, second) : continued(hall, &halls[0], second);
}

/* Less than a field and less than a block off the true time, late or early. */
static int within(const struct reading *r)
{
    double field = (double)FIELD / CYCLES_A_MS, block = (double)BLOCK / CYCLES_A_MS;
    return -field < r->picture_ms && r->picture_ms < field && -block < r->sound_ms && r->sound_ms < block;
}

/* ---- The sheet ---- */

static void csv_head(FILE *csv)
{
    fputs("recital_time_min,hall,counted_or_continued,fields,audio_blocks,cycles,t0_ends,t1_ends,"
          "picture_delay_ms,sound_delay_ms,lip_delay_ms\n", csv);
}

static void csv_row(FILE *csv, const struct hall *hall, const struct reading *r)
{
    fprintf(csv, "%g,%s,%s,", r->second / 60.0, hall->name, r->counted ? "counted" : "continued");
    if (r->counted)
        fprintf(csv, "%.1f,%.1f,%lld,%lld,%lld,", (double)r->half_fields / 2, (double)r->half_blocks / 2, (long long)hall->cycles,
                (long long)hall->ends[0], (long long)hall->ends[1]);
    else
        fputs(",,,,,", csv);
    fprintf(csv, "%.3f,%.3f,%.3f\n", r->picture_ms, r->sound_ms, r->picture_ms - r->sound_ms);
}

static void sheet_head(int minutes)
{
    size_t i;
    printf("Acceptance sheet: %d minute%s of recital, true time by cycles at 6,000,000 a second\n\n", minutes, minutes == 1 ? "" : "s");
    for (i = 0; i < HALLS; i++)
        if (halls[i].slips)
            printf("  %-15sthe Great hall's machine on a core that drops each step's left-over cycles, for contrast\n", halls[i].name);
        else
            printf("  %-15sZ86%02u, interrupt entry %u cycles, slices of %u cycles\n", halls[i].name, (unsigned)halls[i].type,
                   (unsigned)halls[i].entry_cost, (unsigned)halls[i].slice);
    printf("\n  picture delay  true time less fields / 50 s\n"
           "  sound delay    true time less audio blocks x 1,024 / 48,000 s\n"
           "  lip delay      picture delay less sound delay\n\n"
           "min  hall               fields     blocks       cycles  picture delay    sound delay      lip delay\n");
}

static void sheet_row(const struct hall *hall, const struct reading *r)
{
    printf("%3d  %-14s", r->second / 60, hall->name);
    if (r->counted)
        printf("%11.1f%11.1f%13lld", (double)r->half_fields / 2, (double)r->half_blocks / 2, (long long)hall->cycles);
    else
        printf("%35s", "(continued in a straight line)");
    printf("%12.2f ms%12.2f ms%12.2f ms\n", r->picture_ms, r->sound_ms, r->picture_ms - r->sound_ms);
}

static void sheet_foot(int all_within, int seconds)
{
    size_t i;
    printf("\nThe cue key was pressed %d times. Counted:", seconds / READING_SECONDS);
    for (i = 0; i < HALLS; i++)
        if (!halls[i].slips)
            printf(" %s %d.", halls[i].name, halls[i].saved[CUES_AT] << 8 | halls[i].saved[CUES_AT + 1]);
    printf("\nA slipping core loses its cycles on both timers alike: its two counts agree, and the true time leaves both behind.\n");
    printf("%s: in every hall, read every %d seconds, pictures within a field (20.00 ms) and sound within an audio block\n"
           "(21.33 ms) of the true time.\n", all_within ? "ACCEPTED" : "NOT ACCEPTED. It would take", READING_SECONDS);
}

/* ---- Arguments and files ---- */

static int whole_number(const char *name, const char *text, int least, int most)
{
    char why[120];
    size_t digits = strspn(text, "0123456789");
    long value = digits <= 6 ? strtol(text, NULL, 10) : -1; /* more digits than any number here has */
    if (digits == 0 || text[digits] != '\0' || value < least || value > most) {
        snprintf(why, sizeof why, "'%.40s' is not a whole number from %d to %d", text, least, most);
        give_up(name, why);
    }
    return (int)value;
}

static void load_image(const char *path)
{
    FILE *file = fopen(path, "rb");
    if (!file)
        give_up(path, strerror(errno));
    image.length = fread(image.bytes, 1, sizeof image.bytes, file);
    if (ferror(file))
        give_up(path, strerror(errno));
    fclose(file);
    if (image.length == 0)
        give_up(path, "the file is empty");
    if (image.length > Z8_IMAGE_MOST)
        give_up(path, z8_answer_text(Z8_REFUSED_IMAGE));
}

static FILE *open_csv(const char *folder, const char *name)
{
    char path[4096];
    FILE *csv;
    if (snprintf(path, sizeof path, "%s/%s", folder, name) >= (int)sizeof path)
        give_up(name, "the folder's name is too long");
    csv = fopen(path, "w");
    if (!csv)
        give_up(path, strerror(errno));
    csv_head(csv);
    return csv;
}

static void close_csv(const char *name, FILE *csv)
{
    int failed = ferror(csv);
    if (fclose(csv) != 0 || failed)
        give_up(name, "could not be written whole");
}

int main(int argc, char **argv)
{
    int second, seconds, contrast = CONTRAST_SECONDS, all_within = 1;
    time_t began = time(NULL);
    FILE *sheet, *readings;
    size_t i;

    if (argc != 4 && argc != 5)
        give_up("usage", "hall IMAGE MINUTES FOLDER [CONTRAST-SECONDS]");
    load_image(argv[1]);
    seconds = 60 * whole_number("MINUTES", argv[2], 1, MINUTES_MOST);
    if (argc == 5)
        contrast = whole_number("CONTRAST-SECONDS", argv[4], READING_SECONDS, 60 * MINUTES_MOST);
    sheet = open_csv(argv[3], "recital.csv");
    readings = open_csv(argv[3], "readings.csv");
    at_terminal = isatty(STDERR_FILENO);

    for (i = 0; i < HALLS; i++)
        switch_on(&halls[i]);
    sheet_head(seconds / 60);
    for (second = 0; second <= seconds; second += READING_SECONDS) {
        for (i = 0; i < HALLS; i++)
            if (!halls[i].slips || second <= contrast)
                run_to_reading(&halls[i], second);
        progress_away();
        for (i = 0; i < HALLS; i++) {
            struct reading now = read_off(&halls[i], second);
            csv_row(readings, &halls[i], &now);
            if (whole_minute(second)) {
                csv_row(sheet, &halls[i], &now);
                sheet_row(&halls[i], &now);
            }
            if (!halls[i].slips && !within(&now))
                all_within = 0;
        }
        fflush(stdout);
        progress(second, seconds, began);
    }
    progress_away();
    sheet_foot(all_within, seconds);
    close_csv("recital.csv", sheet);
    close_csv("readings.csv", readings);
    return all_within ? 0 : 2;
}
