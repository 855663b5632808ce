/* captions.c: the caption feed. A caption goes into a machine on P30, the image sends each character on, and what comes out on P37 is read
   as whoever is at the other end of that wire would read it. ./hall captions builds and runs it; by itself:

     captions IMAGE none|odd [FILE]

   IMAGE is examples/captions.lst's, or another that sends on what it receives, at 1,200 bits a second, and takes P20 for the parity as that
   one does. Without FILE a caption of our own goes in. It prints the caption that came out and how long a character was under way, and
   exits with 0 where each character came out as it went in, 2 where one was lost or changed, and 1 where nothing can be said, and
   then one line on stderr says why.

   A character is eleven bits: a start bit, which is low, eight bits from the lowest up, and two stop bits, which are high. With parity the
   character itself has seven bits, and the eighth makes the number of ones odd.

   A caller changes pins, and sees what the machine put on them, only between two calls. So time goes on in slices of an eighth of a bit:
   one ends wherever P30 has to change, and after each P37 is looked at, often enough to find the middle of its bits. What is told of it is
   up to a slice, a tenth of a millisecond, late. */

#include <errno.h>
#include <stdio.h>
#include <stdlib.h>
#include <string.h>

#include "z8.h"

#define CYCLES_A_SECOND 6000000
#define CYCLES_A_MS (CYCLES_A_SECOND / 1000)
#define BIT (CYCLES_A_SECOND / 1200) /* 5,000 cycles */
#define LOOKS_A_BIT 8
#define SLICE (BIT / LOOKS_A_BIT) /* 625 cycles, and eight of them are a bit exactly */

#define BITS_A_CHARACTER 11
#define STOP_BITS (3 << 9) /* of a character's eleven, the start bit being bit 0 */
#define CAPTION_MOST 4000

/* P30 is idle, so high, for so long before the feed, while the image starts; and after it, for the last character to come out, and for
   anything that ought not to. */
#define LEAD_IN_BITS BITS_A_CHARACTER
#define LEAD_OUT_BITS (3 * BITS_A_CHARACTER)

/* The pins are open, but for P30, and for P20, which tells the image that there is parity where it is low. */
#define PINS_OPEN 0xFF
#define PINS3_P30_LOW 0xFE
#define PINS2_PARITY 0xFE

static const char our_caption[] = "Good evening, ladies and gentlemen.\n"
                                  "The recital begins in five minutes; please switch off your telephones.\n";

static uint8_t image[Z8_IMAGE_MOST + 1]; /* here and below one more, to notice a file that is too long */
static size_t image_length;
static uint8_t caption[CAPTION_MOST + 1];
static size_t caption_length;
static int parity;

/* ---- Everything that ends the program early comes here ---- */

static void give_up(const char *who, const char *why)
{
    fprintf(stderr, "captions: %s: %s\n", who, why);
    exit(1);
}

static void must(const char *call, uint32_t answer)
{
    char why[120];
    if (answer == Z8_OK)
        return;
    snprintf(why, sizeof why, "refused: %s (%u)", z8_answer_text(answer), (unsigned)answer);
    give_up(call, why);
}

/* ---- What goes in ---- */

static int is_odd(unsigned byte)
{
    int ones = 0;
    for (; byte; byte >>= 1)
        ones += byte & 1;
    return ones % 2;
}

/* A character's eleven bits, the start bit being bit 0. */
static unsigned framed(uint8_t character)
{
    unsigned bits = character;
    if (parity && !is_odd(bits))
        bits |= 0x80;
    return STOP_BITS | bits << 1;
}

/* The bits of the feed are counted from the first start bit. */
static int is_fed(long bit)
{
    return bit >= 0 && bit < (long)caption_length * BITS_A_CHARACTER;
}

static unsigned level_in(long bit)
{
    return is_fed(bit) ? framed(caption[bit / BITS_A_CHARACTER]) >> bit % BITS_A_CHARACTER & 1 : 1;
}

/* ---- What comes out: the receiver of the manual's chapter 12, with eight looks at the line to a bit where that has sixteen ---- */

struct character {
    unsigned bits;             /* its eleven bits, the start bit being bit 0 */
    int64_t start_edge, whole; /* when it was seen to begin, and when its last stop bit was read */
};

static struct character out[2 * CAPTION_MOST]; /* more than can come in the time, as reading one takes 84 of its 88 looks */
static size_t out_length;

#define WAITING (-1)

static struct {
    unsigned level; /* at the last look */
    int looks;      /* since the start edge, or WAITING for one */
    struct character now;
} line;

static void look(unsigned level, int64_t now)
{
    if (line.looks == WAITING) {
        if (line.level && !level) {
            line.looks = 0;
            line.now.bits = 0;
            line.now.start_edge = now;
        }
    } else if (++line.looks % LOOKS_A_BIT == LOOKS_A_BIT / 2) { /* the middle of a bit */
        int bit = line.looks / LOOKS_A_BIT;
        line.now.bits |= level << bit;
        if (bit == 0 && level) {
            line.looks = WAITING; /* no start bit, if the line is high again so soon */
        } else if (bit == BITS_A_CHARACTER - 1) {
            line.looks = WAITING;
            line.now.whole = now;
            if (out_length < sizeof out / sizeof out[0])
                out[out_length++] = line.now;
        }
    }
    line.level = level;
}

/* ---- The feed ---- */

static int64_t started_in[CAPTION_MOST]; /* when each character's start bit came on P30 */

static void feed(void)
{
    uint8_t saved[Z8_SAVED_LEN];
    long bit, bits = (long)caption_length * BITS_A_CHARACTER + LEAD_OUT_BITS;
    int64_t now = -LEAD_IN_BITS * (int64_t)BIT; /* the true time: cycles since the first start bit was due */
    uint8_t pins2 = parity ? PINS2_PARITY : PINS_OPEN;
    int slice;

    must("z8_make", z8_make(saved, sizeof saved, Z8_TYPE_Z8611, 20));
    line.looks = WAITING;
    line.level = z8_p37(saved); /* low: until the port is on it is the latch's, and a reset clears that */
    for (bit = -LEAD_IN_BITS; bit < bits; bit++) {
        uint8_t pins3 = level_in(bit) ? PINS_OPEN : PINS3_P30_LOW;
        if (is_fed(bit) && bit % BITS_A_CHARACTER == 0)
            started_in[bit / BITS_A_CHARACTER] = now;
        for (slice = 1; slice <= LOOKS_A_BIT; slice++) {
            /* What a run spends over its budget (Z8_OVERRUN_MOST at most) is counted, so the next slice is so much shorter and nothing
               adds up. */
            int64_t end = bit * (int64_t)BIT + slice * SLICE;
            uint32_t cycles, ends0, ends1;
            must("z8_run", z8_run(saved, sizeof saved, image, image_length, NULL, 0, /* no data memory */
                                  PINS_OPEN, PINS_OPEN, pins2, pins3, (uint32_t)(end - now), &cycles, &ends0, &ends1));
            now += cycles;
            look(z8_p37(saved), now);
        }
    }
}

/* ---- The report ---- */

static uint8_t text_of(const struct character *c)
{
    return (uint8_t)(c->bits >> 1 & (parity ? 0x7F : 0xFF));
}

/* Where the first character is that didn't come out as it went in, or one past the last. */
static size_t first_wrong(void)
{
    size_t i = 0;
    while (i < caption_length && i < out_length && out[i].bits == framed(caption[i]))
        i++;
    return i;
}

static void tell_wrong(size_t i)
{
    printf("NOT ACCEPTED: %lu went in, and %lu came out. Number %lu is wrong: ", (unsigned long)caption_length, (unsigned long)out_length,
           (unsigned long)i + 1);
    if (i < caption_length)
        printf("%02Xh went in, ", (unsigned)caption[i]);
    else
        printf("nothing went in, ");
    if (i == out_length)
        printf("nothing came out.\n");
    else
        printf("%02Xh came out%s%s.\n", (unsigned)text_of(&out[i]),
               parity && !is_odd(out[i].bits >> 1 & 0xFF) ? ", with a wrong parity bit" : "",
               (out[i].bits & STOP_BITS) != STOP_BITS ? ", without two stop bits" : "");
}

struct range {
    int64_t least, most;
};

static void widen(struct range *range, int64_t value)
{
    if (value < range->least)
        range->least = value;
    if (value > range->most)
        range->most = value;
}

static void tell_delays(void)
{
    struct range begun = {INT64_MAX, 0}, whole = {INT64_MAX, 0};
    size_t i;
    for (i = 0; i < caption_length; i++) {
        widen(&begun, out[i].start_edge - started_in[i]);
        widen(&whole, out[i].whole - started_in[i]);
    }
    printf("From its start edge on P30 a character took %.2f to %.2f ms to its start edge on P37,\n"
           "and %.2f to %.2f ms until it was read whole there, in the middle of its last stop bit.\n",
           (double)begun.least / CYCLES_A_MS, (double)begun.most / CYCLES_A_MS, (double)whole.least / CYCLES_A_MS,
           (double)whole.most / CYCLES_A_MS);
}

/* The caption that came out stands alone, after an empty line and before another. */
static int report(void)
{
    size_t i, wrong = first_wrong();
    int accepted = wrong == caption_length && wrong == out_length;
    printf("%lu character%s in on P30, 1,200 bits a second, %s. Out on P37:\n\n", (unsigned long)caption_length,
           caption_length == 1 ? "" : "s", parity ? "seven bits and odd parity" : "eight bits, no parity");
    for (i = 0; i < out_length; i++)
        putchar(text_of(&out[i]));
    printf("%s\n", out_length > 0 && text_of(&out[out_length - 1]) == '\n' ? "" : "\n");
    if (accepted) {
        printf("ACCEPTED: each character came out as it went in.\n");
        tell_delays();
    } else {
        tell_wrong(wrong);
    }
    if (fflush(stdout) != 0 || ferror(stdout))
        give_up("the report", "could not be written whole");
    return accepted;
}

/* ---- Arguments and files ---- */

static size_t read_file(const char *path, uint8_t *bytes, size_t most, const char *too_long)
{
    size_t length;
    FILE *file = fopen(path, "rb");
    if (!file)
        give_up(path, strerror(errno));
    length = fread(bytes, 1, most + 1, file);
    if (ferror(file))
        give_up(path, strerror(errno));
    fclose(file);
    if (length == 0)
        give_up(path, "the file is empty");
    if (length > most)
        give_up(path, too_long);
    return length;
}

static void read_caption(const char *path)
{
    size_t i;
    if (!path) {
        caption_length = strlen(our_caption);
        memcpy(caption, our_caption, caption_length);
        return;
    }
    caption_length = read_file(path, caption, CAPTION_MOST, "the caption is over 4,000 characters");
    for (i = 0; i < caption_length; i++)
        if (parity && caption[i] > 127)
            give_up(path, "a character is over 127, and beside a parity bit it has seven bits alone");
}

static void give_up_usage(void)
{
    give_up("usage", "captions IMAGE none|odd [FILE]");
}

int main(int argc, char **argv)
{
    if (argc < 3 || argc > 4)
        give_up_usage();
    parity = strcmp(argv[2], "odd") == 0;
    if (!parity && strcmp(argv[2], "none") != 0)
        give_up_usage();
    image_length = read_file(argv[1], image, Z8_IMAGE_MOST, z8_answer_text(Z8_REFUSED_IMAGE));
    read_caption(argc == 4 ? argv[3] : NULL);
    feed();
    return report() ? 0 : 2;
}
