/*
 * The longest records on 16 channels, written and read, beside a memcpy of as many octets: a markdown table of the least milliseconds of
 * one call.
 */
#define _DEFAULT_SOURCE
#include "../tests/host/draw.h"
#include "kyteblossom.h"
#include "measure.h"

#include <stdio.h>
#include <string.h>

#define UNITS (4 * KYTE_RECORD_UNITS)

/* A list of units, its record, and where it is read or copied to. */
struct state {
    uint16_t units[UNITS], read_units[UNITS];
    uint8_t octets[KYTE_RECORD_OCTETS], read_octets[KYTE_RECORD_OCTETS];
    size_t units_len, octets_len;
    uint8_t record[KYTE_LONGEST_RECORD], copy[KYTE_LONGEST_RECORD];
    size_t record_len;
    int failed;
};

/* ---- the calls that are timed */

static void write_record(void *at, unsigned i)
{
    struct state *s = at;
    (void)i;
    int32_t n = kyte_record_write(s->units, s->units_len, s->octets, s->octets_len, s->record, sizeof s->record);
    s->failed |= n != (int32_t)s->record_len;
}

static void read_record(void *at, unsigned i)
{
    struct state *s = at;
    (void)i;
    int32_t units = kyte_record_read(s->record, s->record_len, s->read_units, UNITS, s->read_octets, sizeof s->read_octets);
    s->failed |= units != (int32_t)(s->units_len / 4);
}

static void copy(void *at, unsigned i)
{
    struct state *s = at;
    (void)i;
    memcpy(s->copy, s->record, s->record_len);
    __asm__ volatile("" : : "r"(s->copy) : "memory");
}

/* ---- the lists */

/* As many units of so many octets as a record holds, and one of what is left. */
static void draw_units(struct state *s, size_t length)
{
    s->units_len = s->octets_len = 0;
    for (size_t left = KYTE_LONGEST_RECORD - KYTE_RECORD_TRAILER; left > 10; s->units_len += 4) {
        size_t n = left - 10 < length ? left - 10 : length;
        uint16_t badge = (uint16_t)draw(0, 4);
        uint16_t unit[4] = { (uint16_t)draw(0, 15), badge, badge == KYTE_CORRECTED, (uint16_t)n };
        memcpy(s->units + s->units_len, unit, sizeof unit);
        s->octets_len += n;
        left -= 10 + n;
    }
    draw_octets(s->octets, s->octets_len);
    s->record_len = 10 * (s->units_len / 4) + s->octets_len + KYTE_RECORD_TRAILER;
}

int main(void)
{
    static struct state s;
    static const size_t lengths[] = { 1, 1024 };
    draw_from(1);
    printf("| octets of a unit | units | octets of the record | write | read | memcpy |\n|--:|--:|--:|--:|--:|--:|\n");
    for (size_t k = 0; k < sizeof lengths / sizeof *lengths; k++) {
        double writing[2], reading[2];
        draw_units(&s, lengths[k]);
        measure_both(write_record, copy, &s, 1, writing);
        measure_both(read_record, copy, &s, 1, reading);
        printf("| %zu | %zu | %zu | %.3f | %.3f | %.3f |\n", lengths[k], s.units_len / 4, s.record_len, writing[0] / 1e3, reading[0] / 1e3,
               writing[1] / 1e3);
        s.failed |= memcmp(s.read_units, s.units, sizeof *s.units * s.units_len) || memcmp(s.read_octets, s.octets, s.octets_len);
    }
    if (s.failed)
        fprintf(stderr, "bench: a record was refused, or read otherwise than it was written\n");
    return s.failed;
}
