/*
 * How often noise is called clean or corrected: noise [SEED] ('./kyte noise'). Words drawn octet by octet, which nobody sent, are received with no check,
 * with 8 bits and with 16. A word of many octets nearly always lies within one octet of some code word, so that without a check the badge
 * says nothing of it. The same seed gives the same table on every machine; docs/host.md has that of seed 1, and tests/host/run holds it
 * to this program.
 */
#include "kyteblossom.h"
#include "../tests/host/draw.h"

#include <stdio.h>
#include <stdlib.h>

#define WORDS 200000

static const uint32_t widths[] = { 0, 8, 16 };

#define WIDTHS (sizeof widths / sizeof *widths)

/* The word, received with each width: adds 1 to the count of those with which it is called clean or corrected. */
static void receive_noise(const uint8_t *word, size_t n, uint32_t e, unsigned *green)
{
    uint8_t repair[KYTE_LONGEST], places[KYTE_MOST_REPAIRS];
    for (size_t i = 0; i < WIDTHS; i++) {
        int32_t answer = kyte_receive(word, n, widths[i], e, repair, sizeof repair, places, sizeof places);
        if (answer < 0) {
            printf("refused %d\n", kyte_refused(answer));
            exit(1);
        }
        if (kyte_badge(answer) == KYTE_CLEAN || kyte_badge(answer) == KYTE_CORRECTED)
            green[i]++;
    }
}

static void print_row(size_t n, uint32_t e)
{
    uint8_t word[KYTE_LONGEST];
    unsigned green[WIDTHS] = { 0 };
    for (int k = 0; k < WORDS; k++) {
        draw_octets(word, n);
        receive_noise(word, n, e, green);
    }
    printf("| %zu | %u |", n, (unsigned)e);
    for (size_t i = 0; i < WIDTHS; i++)
        printf(" %u (%.4g %%) |", green[i], 100.0 * green[i] / WORDS);
    printf("\n");
}

int main(int argc, char **argv)
{
    unsigned long long seed = argc > 1 ? strtoull(argv[1], 0, 10) : 1;
    draw_from(seed);
    printf("Of %d words of noise (seed %llu), called clean or corrected:\n\n", WORDS, seed);
    printf("| octets | e | no check | 8 bits | 16 bits |\n|--:|--:|--:|--:|--:|\n");
    for (uint32_t e = 1; e <= 3; e++)
        print_row(255, e);
    for (uint32_t e = 1; e <= 2; e++)
        print_row(64, e);
    return 0;
}
