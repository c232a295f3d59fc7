/*
 * kyte_packet_read on every header that there is, all 16,777,216, between intact flags: every_header [SEED].
 *
 * What each should be read as is made by the second implementation of packet.c: its 4,096 words, and all that lie within three bits of one,
 * are entered in a table, where no two may meet. So each header has one reading or none. Headers drawn from the seed are held to the second
 * implementation's reader too, which compares each with all 4,096 words. Status 1, and a line, at the first difference, or if the counts
 * are not the code's.
 */
#include "draw.h"
#include "kyteblossom.h"
#include "packet.h"

#include <stdio.h>
#include <stdlib.h>
#include <string.h>

#define HEADERS ((uint32_t)1 << 24)
#define BITS 24
#define NONE 0xFFFF
#define DRAWN 20000
#define LAST (KYTE_PACKET_BEFORE + 255 + 2)

/* Of each header: the data, code + 16 length, whose word lies within three bits, or NONE. Octet 1 has the header's lowest bits. */
static uint16_t nearest[HEADERS];

/* The flag and its complement. */
static uint8_t forms[2][2];

/* How many headers have so many wrong bits, and how many of them say 255. */
static uint32_t wrong_by[4], saying_255;

/* Enters all headers that differ from a word in so many bits, from bit `from` on. */
static void enter(uint32_t header, unsigned data, int from, int wrong)
{
    if (nearest[header] != NONE) {
        printf("DIFFERS: the header %06X lies within three bits of two words\n", (unsigned)header);
        exit(1);
    }
    nearest[header] = (uint16_t)data;
    wrong_by[wrong]++;
    for (int i = from; i < BITS && wrong < 3; i++)
        enter(header ^ (uint32_t)1 << i, data, i + 1, wrong + 1);
}

static void enter_all(void)
{
    memset(nearest, 0xFF, sizeof nearest);
    for (unsigned data = 0; data < REF_WORDS; data++) {
        uint8_t word[3];
        ref_header(data % 16, data / 16, word);
        enter(word[0] | (uint32_t)word[1] << 8 | (uint32_t)word[2] << 16, data, 0, 0);
    }
}

/* The octets of a packet with the header: what says a flag is in one place alone, behind the payload, where the table has a length. */
static void lay(uint8_t *octets, uint32_t header, int opens, int mark)
{
    memset(octets, 0x55, LAST);
    memcpy(octets, forms[opens], 2);
    for (int i = 0; i < 3; i++)
        octets[2 + i] = (uint8_t)(header >> 8 * i);
    if (nearest[header] != NONE)
        memcpy(octets + KYTE_PACKET_BEFORE + nearest[header] / 16, forms[mark], 2);
}

static int32_t expected(uint32_t header, int mark)
{
    if (nearest[header] == NONE)
        return -KYTE_REFUSED_HEADER;
    if (nearest[header] / 16 == 255)
        return -KYTE_REFUSED_LENGTH;
    return nearest[header] % 16 + 16 * mark + 256 * (nearest[header] / 16);
}

static void check(const char *reader, uint32_t header, int32_t answer, int32_t right)
{
    if (answer == right)
        return;
    printf("DIFFERS: %s of the header %02X %02X %02X answers %d, expected %d\n", reader, (unsigned)header & 255, (unsigned)header >> 8 & 255,
           (unsigned)header >> 16, (int)answer, (int)right);
    exit(1);
}

static void check_count(const char *what, uint32_t count, uint32_t right)
{
    printf("%8u %s\n", (unsigned)count, what);
    if (count == right)
        return;
    printf("DIFFERS: %u expected\n", (unsigned)right);
    exit(1);
}

int main(int argc, char **argv)
{
    uint8_t octets[LAST];
    uint32_t refused = 0;
    draw_seed(argc, argv);
    enter_all();
    ref_flag(0, forms[0]);
    ref_flag(1, forms[1]);
    for (uint32_t header = 0; header < HEADERS; header++) {
        int opens = header >> 7 & 1, mark = header >> 16 & 1;
        lay(octets, header, opens, mark);
        check("kyte_packet_read", header, kyte_packet_read(octets, LAST), expected(header, mark));
        refused += nearest[header] == NONE;
        saying_255 += nearest[header] != NONE && nearest[header] / 16 == 255;
    }
    for (int i = 0; i < DRAWN; i++) {
        uint32_t header = (uint32_t)draw(0, HEADERS - 1);
        int mark = (int)draw(0, 1);
        lay(octets, header, (int)draw(0, 1), mark);
        check("the second implementation", header, ref_packet_read(octets, LAST), expected(header, mark));
    }
    /* of 24 bits, none, one, two or three: 1, 24, 276 and 2,024 ways */
    check_count("headers that are clean", wrong_by[0], REF_WORDS);
    check_count("with one wrong bit", wrong_by[1], REF_WORDS * 24);
    check_count("with two", wrong_by[2], REF_WORDS * 276);
    check_count("with three", wrong_by[3], REF_WORDS * 2024);
    check_count("refused with 17", refused, HEADERS - REF_WORDS * (1 + 24 + 276 + 2024));
    check_count("in all", wrong_by[0] + wrong_by[1] + wrong_by[2] + wrong_by[3] + refused, HEADERS);
    check_count("of them say 255, to within three bits, and are refused with 2", saying_255, 16 * (1 + 24 + 276 + 2024));
    return 0;
}
