#include "record_damage.h"

#include "draw.h"
#include "record.h"
#include "record_tally.h"

#include <string.h>

#define PLACE 14
#define NO_OFFSET 0xFFFFFFFF

/* A record with room for more octets behind it. */
static uint8_t wrong[KYTE_LONGEST_RECORD + 64];

/* ---- octets */

static void change_octet(uint8_t *record, size_t n, size_t at)
{
    uint8_t kept = record[at];
    record[at] ^= (uint8_t)(draw(0, 1) ? (size_t)1 << draw(0, 7) : draw(1, 255));
    tally[try_read_whole(record, n) < 0 ? CHANGED_REFUSED : CHANGED_TAKEN]++;
    record[at] = kept;
}

static void cut(const uint8_t *record, size_t n)
{
    tally[CUT]++;
    try_read_whole(record, n);
}

static void lengthen(const uint8_t *record, size_t n)
{
    size_t more = draw(0, 2) ? 1 : draw(2, 64);
    memcpy(wrong, record, n);
    draw_octets(wrong + n, more);
    if (draw(0, 1))
        memset(wrong + n, 0, more);
    tally[LONGER]++;
    try_read_whole(wrong, n + more);
}

void try_damaged_everywhere(uint8_t *record, size_t n)
{
    tally[CHANGED_EVERY]++;
    for (size_t at = 0; at < n; at++) {
        change_octet(record, n, at);
        cut(record, at);
    }
}

void try_drawn(void)
{
    size_t n = draw(0, 400);
    draw_octets(wrong, n);
    tally[DRAWN]++;
    try_read_whole(wrong, n);
    if (n < KYTE_RECORD_TRAILER)
        return;
    memcpy(ref_put(wrong + n - 8, (uint32_t)(n - KYTE_RECORD_TRAILER), 4), "\x48\x32\x32\x33", 4);
    tally[DRAWN_MARKED]++;
    try_read_whole(wrong, n);
}

/* ---- fields that belong elsewhere; nothing is tried where the record would stay as it is */

static uint8_t *place_at(size_t n, size_t p) { return wrong + n - KYTE_RECORD_TRAILER + PLACE * p; }

static size_t used_places(size_t n)
{
    size_t used = 0;
    while (used < 16 && ref_get(place_at(n, used) + 6, 4))
        used++;
    return used;
}

static size_t offset_of(const struct list *l, size_t unit)
{
    size_t at = 0;
    for (size_t i = 0; i < unit; i++)
        at += 10 + (size_t)l->numbers[4 * i + 3];
    return at;
}

/* The offset of some unit, or now and then that of none. */
static uint32_t draw_offset(const struct list *l) { return draw(0, 4) ? (uint32_t)offset_of(l, draw(0, l->numbers_len / 4 - 1)) : NO_OFFSET; }

static void try_other(const uint8_t *record, size_t n, enum kind kind)
{
    if (memcmp(record, wrong, n) == 0)
        return;
    tally[kind]++;
    try_read_whole(wrong, n);
}

static void other_back(const struct list *l, const uint8_t *record, size_t n)
{
    ref_put(wrong + offset_of(l, draw(0, l->numbers_len / 4 - 1)) + 6, draw_offset(l), 4);
    try_other(record, n, OTHER_BACK);
}

static void other_last(const struct list *l, const uint8_t *record, size_t n)
{
    ref_put(place_at(n, draw(0, used_places(n) - 1)) + 2, draw_offset(l), 4);
    try_other(record, n, OTHER_LAST);
}

/* One unit, or one damaged unit, more on a channel and one less on another: the sums stay. */
static void other_counts(const uint8_t *record, size_t n)
{
    size_t used = used_places(n), field = draw(0, 1) ? 6 : 10;
    uint8_t *more = place_at(n, draw(0, used - 1)) + field, *less = place_at(n, draw(0, used - 1)) + field;
    ref_put(more, ref_get(more, 4) + 1, 4);
    ref_put(less, ref_get(less, 4) - 1, 4);
    try_other(record, n, OTHER_COUNTS);
}

static void other_order(const uint8_t *record, size_t n)
{
    size_t used = used_places(n), a = draw(0, used - 1), b = draw(0, used - 1);
    uint8_t kept[PLACE];
    memcpy(kept, place_at(n, a), PLACE);
    memmove(place_at(n, a), place_at(n, b), PLACE);
    memcpy(place_at(n, b), kept, PLACE);
    try_other(record, n, OTHER_ORDER);
}

static void other_place(const uint8_t *record, size_t n)
{
    size_t used = used_places(n), at = draw(0, used - 1);
    if (used == 16)
        return;
    memmove(place_at(n, at + 1), place_at(n, at), PLACE * (used - at));
    memset(place_at(n, at), 0, PLACE);
    ref_put(place_at(n, at) + 2, NO_OFFSET, 4);
    try_other(record, n, OTHER_PLACE);
}

/* The trailer of the same list with one unit on another channel. */
static void other_trailer(struct list *l, const uint8_t *record, size_t n)
{
    size_t count = l->numbers_len / 4;
    uint16_t *channel = l->numbers + 4 * draw(0, count - 1), kept = *channel;
    *channel = draw(0, 1) ? l->numbers[4 * draw(0, count - 1)] : (uint16_t)(kept + 1);
    ref_record_lay(l->numbers, count, l->octets, wrong);
    *channel = kept;
    memcpy(wrong, record, n - KYTE_RECORD_TRAILER);
    try_other(record, n, OTHER_TRAILER);
}

void try_damaged(struct list *l, uint8_t *record, size_t n)
{
    change_octet(record, n, draw(0, n - 1));
    change_octet(record, n, draw(n - KYTE_RECORD_TRAILER, n - 1));
    cut(record, draw(0, 3) ? n - draw(1, 12) : draw(0, n - 1));
    lengthen(record, n);
    if (l->numbers_len == 0)
        return;
    change_octet(record, n, offset_of(l, draw(0, l->numbers_len / 4 - 1)) + draw(0, 9));
    memcpy(wrong, record, n);
    switch (draw(0, 5)) {
    case 0: other_back(l, record, n); break;
    case 1: other_last(l, record, n); break;
    case 2: other_counts(record, n); break;
    case 3: other_order(record, n); break;
    case 4: other_place(record, n); break;
    default: other_trailer(l, record, n); break;
    }
}
