#include "record.h"

#include <string.h>

#define HEADER 10
#define TRAILER 236
#define PLACE 14
#define PLACES 16
#define MOST_BEFORE 1048576
#define NO_OFFSET 0xFFFFFFFF

static const uint8_t mark[4] = { 0x48, 0x32, 0x32, 0x33 };

/* "Badges are 0 to 4; changed is 1 to 127 for badge 1, 0 to 127 for badge 3, else 0"; the length is 1 to 1,024. */
static int is_in_range(unsigned badge, unsigned changed, unsigned length)
{
    if (length < 1 || length > 1024)
        return 0;
    switch (badge) {
    case 1: return changed >= 1 && changed <= 127;
    case 3: return changed <= 127;
    case 0:
    case 2:
    case 4: return changed == 0;
    default: return 0;
    }
}

/* ---- the writer: unit i is the numbers from 4 i on */

static size_t size_of(const uint16_t *units, size_t i) { return HEADER + (size_t)units[4 * i + 3]; }

static int is_list(const uint16_t *units, size_t units_len, size_t octets_len)
{
    if (units_len % 4)
        return 0;
    size_t sum = 0;
    for (size_t i = 0; i < units_len / 4; i++) {
        if (!is_in_range(units[4 * i + 1], units[4 * i + 2], units[4 * i + 3]))
            return 0;
        sum += units[4 * i + 3];
    }
    return sum == octets_len;
}

/* The lowest channel above c, or -1. */
static int32_t next_channel(const uint16_t *units, size_t count, int32_t c)
{
    int32_t next = -1;
    for (size_t i = 0; i < count; i++)
        if (units[4 * i] > c && (next < 0 || units[4 * i] < next))
            next = units[4 * i];
    return next;
}

/* Whether there is a seventeenth channel. */
static int is_crowded(const uint16_t *units, size_t count)
{
    int32_t c = -1;
    for (int p = 0; p <= PLACES; p++) {
        c = next_channel(units, count, c);
        if (c < 0)
            return 0;
    }
    return 1;
}

/* The offset of the last unit on the channel among the first `count`, which end at `end`. */
static uint32_t last_before(const uint16_t *units, size_t count, size_t end, unsigned channel)
{
    while (count-- > 0) {
        end -= size_of(units, count);
        if (units[4 * count] == channel)
            return (uint32_t)end;
    }
    return NO_OFFSET;
}

uint8_t *ref_put(uint8_t *at, uint32_t number, int width)
{
    for (int i = width; i-- > 0; number >>= 8)
        at[i] = (uint8_t)number;
    return at + width;
}

static uint8_t *put_place(uint8_t *at, const uint16_t *units, size_t count, size_t before, int32_t channel)
{
    uint32_t on = 0, damaged = 0;
    for (size_t i = 0; i < count; i++)
        if (units[4 * i] == channel) {
            on++;
            damaged += units[4 * i + 1] == 2 || units[4 * i + 1] == 3;
        }
    at = ref_put(at, channel < 0 ? 0 : (uint32_t)channel, 2);
    at = ref_put(at, channel < 0 ? NO_OFFSET : last_before(units, count, before, (unsigned)channel), 4);
    at = ref_put(at, on, 4);
    return ref_put(at, damaged, 4);
}

size_t ref_record_lay(const uint16_t *units, size_t count, const uint8_t *octets, uint8_t *record)
{
    uint8_t *at = record;
    for (size_t i = 0; i < count; i++) {
        const uint16_t *u = units + 4 * i;
        uint32_t back = last_before(units, i, (size_t)(at - record), u[0]);
        at = ref_put(ref_put(ref_put(at, u[0], 2), u[1], 1), u[2], 1);
        at = ref_put(ref_put(at, u[3], 2), back, 4);
        memcpy(at, octets, u[3]);
        at += u[3];
        octets += u[3];
    }
    size_t before = (size_t)(at - record);
    int32_t channel = -1;
    for (int p = 0; p < PLACES; p++) {
        if (p == 0 || channel >= 0)
            channel = next_channel(units, count, channel);
        at = put_place(at, units, count, before, channel);
    }
    at = ref_put(ref_put(at, (uint32_t)count, 4), (uint32_t)before, 4);
    memcpy(at, mark, sizeof mark);
    return before + TRAILER;
}

int32_t ref_record_write(const uint16_t *units, size_t units_len, const uint8_t *octets, size_t octets_len, uint8_t *record, size_t record_len)
{
    if (!is_list(units, units_len, octets_len))
        return -15;
    size_t count = units_len / 4, before = HEADER * count + octets_len;
    if (is_crowded(units, count))
        return -12;
    if (before > MOST_BEFORE)
        return -2;
    if (record_len < before + TRAILER)
        return -3;
    return (int32_t)ref_record_lay(units, count, octets, record);
}

/* ---- the reader */

/* What is known of a channel from the units so far. */
struct channel {
    uint32_t number, last, units, damaged;
};

/* What the octets before the trailer hold. */
struct found {
    struct channel channels[PLACES];
    size_t used, units, octets;
};

uint32_t ref_get(const uint8_t *at, int width)
{
    uint32_t number = 0;
    for (int i = 0; i < width; i++)
        number = number << 8 | at[i];
    return number;
}

/* The channel with that number, or null. */
static struct channel *find(struct found *f, uint32_t number)
{
    for (size_t i = 0; i < f->used; i++)
        if (f->channels[i].number == number)
            return &f->channels[i];
    return 0;
}

/* The channel with that number, which is new perhaps; null where it would be the seventeenth. */
static struct channel *find_or_add(struct found *f, uint32_t number)
{
    struct channel *c = find(f, number);
    if (c || f->used == PLACES)
        return c;
    f->channels[f->used] = (struct channel){ number, NO_OFFSET, 0, 0 };
    return &f->channels[f->used++];
}

/* Whether a unit lies at the offset, as it should; its octets are counted among those found. */
static int is_unit(const uint8_t *record, size_t at, size_t before, struct found *f)
{
    if (before - at < HEADER)
        return 0;
    const uint8_t *u = record + at;
    unsigned badge = u[2], length = ref_get(u + 4, 2);
    struct channel *c = find_or_add(f, ref_get(u, 2));
    if (!c || !is_in_range(badge, u[3], length) || before - at - HEADER < length || ref_get(u + 6, 4) != c->last)
        return 0;
    c->last = (uint32_t)at;
    c->units++;
    c->damaged += badge == 2 || badge == 3;
    f->units++;
    f->octets += length;
    return 1;
}

/* Whether a place of the trailer is that of a used channel above `least`. */
static int is_used_place(const uint8_t *place, int32_t least, struct found *f)
{
    struct channel *c = find(f, ref_get(place, 2));
    return c && (int32_t)c->number > least && ref_get(place + 2, 4) == c->last && ref_get(place + 6, 4) == c->units &&
           ref_get(place + 10, 4) == c->damaged;
}

static int is_unused_place(const uint8_t *place)
{
    static const uint8_t unused[PLACE] = { 0, 0, 0xFF, 0xFF, 0xFF, 0xFF };
    return memcmp(place, unused, PLACE) == 0;
}

static int is_trailer(const uint8_t *trailer, size_t before, struct found *f)
{
    int32_t least = -1;
    for (size_t p = 0; p < PLACES; p++) {
        const uint8_t *place = trailer + PLACE * p;
        if (p < f->used ? !is_used_place(place, least, f) : !is_unused_place(place))
            return 0;
        least = (int32_t)ref_get(place, 2);
    }
    const uint8_t *end = trailer + PLACES * PLACE;
    return ref_get(end, 4) == f->units && ref_get(end + 4, 4) == before && memcmp(end + 8, mark, sizeof mark) == 0;
}

static int is_record(const uint8_t *record, size_t n, struct found *f)
{
    if (n < TRAILER || n - TRAILER > MOST_BEFORE)
        return 0;
    size_t before = n - TRAILER, at = 0;
    while (at < before) {
        if (!is_unit(record, at, before, f))
            return 0;
        at += HEADER + ref_get(record + at + 4, 2);
    }
    return is_trailer(record + before, before, f);
}

int32_t ref_record_read(const uint8_t *record, size_t record_len, uint16_t *units, size_t units_len, uint8_t *octets, size_t octets_len)
{
    struct found f = { .used = 0 };
    if (!is_record(record, record_len, &f))
        return -15;
    if (units_len < 4 * f.units || octets_len < f.octets)
        return -3;
    for (size_t i = 0; i < f.units; i++, units += 4) {
        units[0] = (uint16_t)ref_get(record, 2);
        units[1] = record[2];
        units[2] = record[3];
        units[3] = (uint16_t)ref_get(record + 4, 2);
        memcpy(octets, record + HEADER, units[3]);
        octets += units[3];
        record += HEADER + units[3];
    }
    return (int32_t)f.units;
}
