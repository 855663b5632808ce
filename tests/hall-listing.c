/* hall-listing.c LISTING IMAGE: whether a listing's three columns say the same. The image was made from addresses and bytes; here each
   instruction is decoded from the image and has to lie at the address, have the bytes and read as the instruction column says. It knows
   the instructions that the listings of examples/ use, and says so of any other. */

#include <stdio.h>
#include <stdlib.h>
#include <string.h>

#include "z8.h"

static uint8_t image[Z8_IMAGE_MOST];
static size_t length;
static char begins[Z8_IMAGE_MOST]; /* 1 where a line of the listing begins */

/* Registers by their names in the manual. T1 and its prescaler come before T0 and its own. */
static const char *reg(uint8_t address)
{
    static char plain[2][8];
    static int turn;
    switch (address) {
    case 0x02: return "P2";
    case 0xF0: return "SIO";
    case 0xF1: return "TMR";
    case 0xF2: return "T1";
    case 0xF3: return "PRE1";
    case 0xF4: return "T0";
    case 0xF5: return "PRE0";
    case 0xF6: return "P2M";
    case 0xF7: return "P3M";
    case 0xF8: return "P01M";
    case 0xF9: return "IPR";
    case 0xFA: return "IRQ";
    case 0xFB: return "IMR";
    case 0xFF: return "SPL";
    }
    turn = !turn;
    snprintf(plain[turn], sizeof plain[turn], "%02Xh", address);
    return plain[turn];
}

/* Writes what the instruction column should say; returns where the instruction may lead, or its own address. */
static unsigned in_words(char *text, size_t size, unsigned at, uint8_t opcode, uint8_t first, uint8_t second)
{
    unsigned target = (at + 2 + (unsigned)(first < 128 ? first : first - 256)) & 0xFFFF;
    switch (opcode) {
    case 0x20: snprintf(text, size, "INC  %s", reg(first)); return at;
    case 0x56: snprintf(text, size, "AND  %s, #%02Xh", reg(first), second); return at;
    case 0x6B: snprintf(text, size, "JR   Z, %04Xh", target); return target;
    case 0x74: snprintf(text, size, "TM   %s, %s", reg(second), reg(first)); return at; /* here and below the source byte is first */
    case 0x76: snprintf(text, size, "TM   %s, #%02Xh", reg(first), second); return at;
    case 0x8B: snprintf(text, size, "JR   %04Xh", target); return target;
    case 0x9F: snprintf(text, size, "EI"); return at;
    case 0xA0: snprintf(text, size, "INCW %s", reg(first)); return at;
    case 0xA4: snprintf(text, size, "CP   %s, %s", reg(second), reg(first)); return at;
    case 0xB0: snprintf(text, size, "CLR  %s", reg(first)); return at;
    case 0xB6: snprintf(text, size, "XOR  %s, #%02Xh", reg(first), second); return at;
    case 0xBF: snprintf(text, size, "IRET"); return at;
    case 0xE4: snprintf(text, size, "LD   %s, %s", reg(second), reg(first)); return at;
    case 0xE5: snprintf(text, size, "LD   %s, @%s", reg(second), reg(first)); return at;
    case 0xE6: snprintf(text, size, "LD   %s, #%02Xh", reg(first), second); return at;
    case 0xEB: snprintf(text, size, "JR   NZ, %04Xh", target); return target;
    case 0xF5: snprintf(text, size, "LD   @%s, %s", reg(second), reg(first)); return at;
    }
    snprintf(text, size, "an opcode that this check does not know");
    return at;
}

static int check_line(const char *line, unsigned at)
{
    uint8_t opcode, first, second, size, byte[3] = {0, 0, 0}, again[3], size_again;
    char text[64], column[64];
    unsigned leads;
    int bytes;

    if (strlen(line) < 17)
        return 0;
    bytes = line[9] == ' ' ? 1 : line[12] == ' ' ? 2 : 3;
    snprintf(column, sizeof column, "%.40s", line + 16);
    column[strcspn(column, ";\n")] = '\0';
    while (column[0] && column[strlen(column) - 1] == ' ')
        column[strlen(column) - 1] = '\0';

    if (at < 12) {
        leads = image[at] << 8 | image[at + 1];
        snprintf(text, sizeof text, "IRQ%u %04Xh", at / 2, leads);
        return bytes == 2 && strcmp(text, column) == 0 && begins[leads];
    }
    if (z8_decode(image, length, (uint16_t)at, &opcode, &first, &second, &size) != Z8_OK || size != bytes)
        return 0;
    if (z8_encode(opcode, first, second, &again[0], &again[1], &again[2], &size_again) != Z8_OK || size_again != size)
        return 0;
    memcpy(byte, image + at, size);
    leads = in_words(text, sizeof text, at, opcode, first, second);
    return memcmp(again, byte, 3) == 0 && strcmp(text, column) == 0 && begins[leads];
}

int main(int argc, char **argv)
{
    FILE *listing = argc == 3 ? fopen(argv[1], "r") : NULL, *binary = argc == 3 ? fopen(argv[2], "rb") : NULL;
    char line[256], *end;
    int pass, wrong = 0, lines = 0;
    if (!listing || !binary) {
        fprintf(stderr, "hall-listing: LISTING IMAGE\n");
        return 2;
    }
    length = fread(image, 1, sizeof image, binary);
    for (pass = 0; pass < 2; pass++) { /* first where lines begin, then what they say */
        rewind(listing);
        while (fgets(line, sizeof line, listing)) {
            unsigned at = (unsigned)strtoul(line, &end, 16);
            if (end != line + 4 || *end != ':')
                continue;
            if (pass == 0) {
                begins[at & 0xFFFF] = 1;
            } else {
                lines++;
                if (at >= length || !check_line(line, at)) {
                    wrong++;
                    printf("hall-listing: %s", line);
                }
            }
        }
    }
    return lines == 0 || wrong > 0;
}
