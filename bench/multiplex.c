/*
 * The demultiplexer and the multiplexer, a payload at a time: markdown tables of the least nanoseconds of one payload. 'multiplex rows':
 * 255 octets under two rows, beside a memcpy of as many. 'multiplex growth': what an octet more costs in one slot, and what a slot more
 * costs in 255 octets, each with the points it is the difference of.
 */
#define _DEFAULT_SOURCE
#include "measure.h"

#include <stdint.h>
#include <stdio.h>
#include <string.h>

#define N 255
#define PLACES 16384
#define ROUNDS 64

/* The functions of the crate bench_entries. A slice is a pointer and its length; an array is a pointer. */
uint32_t bench_demux(uint32_t rounds, const uint16_t *entry, size_t entry_len, uint8_t *held, const uint8_t *payload, size_t payload_len,
                     uint8_t *output, size_t output_len, uint16_t *units, size_t units_len);
uint32_t bench_mux(uint32_t rounds, const uint16_t *entry, size_t entry_len, uint8_t *waiting, uint8_t *payload, size_t payload_len);

/* A row, as the numbers of its entry, and a payload of so many octets under it. */
struct state {
    uint16_t entry[12];
    size_t entry_len, octets;
    uint8_t places[PLACES], payload[N], output[1280];
    uint16_t units[765];
    int failed;
};

/* ---- the rows */

/* Channel 0 until closing. */
static void one_slot(struct state *s, size_t octets)
{
    static const uint16_t row[] = { 1, 0, 0, 0 };
    memcpy(s->entry, row, sizeof row);
    s->entry_len = 4;
    s->octets = octets;
}

/* Row 5 of table 2 (000, 6.6): {LCN1,RC4},{{LCN2,RC1},{LCN3,RC2},RC UCF}. Of 255 octets the last is a slot cut short. */
static void row_5(struct state *s)
{
    static const uint16_t row[] = { 2, 4, 0, 1, 0, 2, 1, 0, 2, 2, 0, 3 };
    memcpy(s->entry, row, sizeof row);
    s->entry_len = 12;
    s->octets = N;
}

/* {{LCN2,RC n},{LCN3,RC n},RC UCF}: 255 octets in slots of n octets each. */
static void slots_of(struct state *s, uint16_t n)
{
    const uint16_t row[] = { 1, 0, 2, n, 0, 2, n, 0, 3 };
    memcpy(s->entry, row, sizeof row);
    s->entry_len = 9;
    s->octets = N;
}

/* ---- the calls that are timed */

static void demux(void *at, unsigned i)
{
    struct state *s = at;
    (void)i;
    s->failed |= bench_demux(ROUNDS, s->entry, s->entry_len, s->places, s->payload, s->octets, s->output, sizeof s->output, s->units, 765)
                 != ROUNDS;
}

static void mux(void *at, unsigned i)
{
    struct state *s = at;
    (void)i;
    s->failed |= bench_mux(ROUNDS, s->entry, s->entry_len, s->places, s->output, s->octets) != ROUNDS;
}

static void copy(void *at, unsigned i)
{
    struct state *s = at;
    for (unsigned r = 0; r < ROUNDS; r++) {
        s->payload[(i + r) % N]++;
        memcpy(s->output, s->payload, N);
        __asm__ volatile("" : : "r"(s->output) : "memory");
    }
}

/* Nanoseconds of one payload. */
static double payload_of(const struct measured *m)
{
    return 1e3 * m->least / ROUNDS;
}

/* ---- the tables */

#define POINTS 4

static struct state states[POINTS];

static void print_rows(void)
{
    static const char *const names[] = { "channel 0 until closing (1 slot)", "row 5 of table 2 (169 slots)" };
    one_slot(&states[0], N);
    row_5(&states[1]);
    printf("| payload of 255 octets under | demultiplexer | multiplexer | memcpy |\n|---|--:|--:|--:|\n");
    for (int k = 0; k < 2; k++) {
        struct measured all[] = { { demux, &states[k], 0 }, { mux, &states[k], 0 }, { copy, &states[k], 0 } };
        measure_by_turns(all, 3, 1);
        printf("| %s | %.0f | %.0f | %.0f |\n", names[k], payload_of(&all[0]), payload_of(&all[1]), payload_of(&all[2]));
    }
}

/* What one more costs from one point to another. */
static void print_more(double from, double to, unsigned more)
{
    printf(" %.2f |", (to - from) / more);
}

/* The states, all by turns; beside each time what one more costs since the point before, and at the end since the first. */
static void print_points(const char *what, const char *one, const unsigned at[POINTS])
{
    struct measured all[2 * POINTS];
    double time[2][POINTS];
    for (int k = 0; k < 2 * POINTS; k++)
        all[k] = (struct measured){ k < POINTS ? demux : mux, &states[k % POINTS], 0 };
    measure_by_turns(all, 2 * POINTS, 1);
    for (int k = 0; k < 2 * POINTS; k++)
        time[k / POINTS][k % POINTS] = payload_of(&all[k]);
    printf("| %s | demultiplexer | %s more | multiplexer | %s more |\n|--:|--:|--:|--:|--:|\n", what, one, one);
    for (int k = 0; k < POINTS; k++) {
        printf("| %u |", at[k]);
        for (int c = 0; c < 2; c++) {
            printf(" %.0f |", time[c][k]);
            if (k == 0)
                printf(" |");
            else
                print_more(time[c][k - 1], time[c][k], at[k] - at[k - 1]);
        }
        printf("\n");
    }
    printf("| %u to %u |", at[0], at[POINTS - 1]);
    for (int c = 0; c < 2; c++) {
        printf(" |");
        print_more(time[c][0], time[c][POINTS - 1], at[POINTS - 1] - at[0]);
    }
    printf("\n");
}

static void print_growth(void)
{
    static const unsigned lengths[POINTS] = { 15, 63, 127, N }, slots[POINTS] = { 3, 15, 51, N };
    for (int k = 0; k < POINTS; k++)
        one_slot(&states[k], lengths[k]);
    print_points("octets, in 1 slot", "an octet", lengths);
    printf("\n");
    for (int k = 0; k < POINTS; k++)
        slots_of(&states[k], (uint16_t)(N / slots[k]));
    print_points("slots, of 255 octets", "a slot", slots);
}

int main(int argc, char **argv)
{
    int rows = argc == 2 && strcmp(argv[1], "rows") == 0, failed = 0;
    if (!rows && (argc != 2 || strcmp(argv[1], "growth") != 0)) {
        fprintf(stderr, "usage: multiplex rows|growth\n");
        return 2;
    }
    (rows ? print_rows : print_growth)();
    for (int k = 0; k < POINTS; k++)
        failed |= states[k].failed;
    if (failed)
        fprintf(stderr, "multiplex: a payload was refused\n");
    return failed;
}
