/*
 * Wrong libraries, to see that records notices: linked with --wrap before the C entries, each spoils writing or reading in the one way
 * that the environment names (KYTE_FAULT). './records' must then end with status 1. Without a name nothing is spoilt.
 */
#include "kyteblossom.h"
#include "record.h"

#include <stdlib.h>
#include <string.h>

#define HEADER 10
#define PLACE 14
#define PLACES 16

int32_t __real_kyte_record_write(const uint16_t *units, size_t units_len, const uint8_t *octets, size_t octets_len, uint8_t *record,
                                 size_t record_len);
int32_t __real_kyte_record_read(const uint8_t *record, size_t record_len, uint16_t *units, size_t units_len, uint8_t *octets,
                                size_t octets_len);

/* A list and a record to work on, longer than any that is lent. */
static uint16_t numbers[4 * KYTE_RECORD_UNITS + 64];
static uint8_t content[KYTE_RECORD_OCTETS + 131072], whole[KYTE_LONGEST_RECORD + 131072];

static int is_fault(const char *name)
{
    const char *fault = getenv("KYTE_FAULT");
    return fault && strcmp(fault, name) == 0;
}

/* ---- what is changed in a record of n octets */

static uint8_t *place_at(uint8_t *record, size_t n, size_t p) { return record + n - KYTE_RECORD_TRAILER + PLACE * p; }

static int is_used(const uint8_t *place) { return ref_get(place + 6, 4) != 0; }

static void add_to(uint8_t *field, uint32_t more) { ref_put(field, ref_get(field, 4) + more, 4); }

/* Counts badge 3 no more. */
static void forget_failed(uint8_t *record, size_t n, const uint16_t *units, size_t units_len)
{
    for (size_t i = 0; i < units_len; i += 4)
        for (size_t p = 0; p < PLACES && units[i + 1] == KYTE_CHECK_FAILED; p++)
            if (is_used(place_at(record, n, p)) && ref_get(place_at(record, n, p), 2) == units[i])
                add_to(place_at(record, n, p) + 10, (uint32_t)-1);
}

/* The first two places change theirs. */
static void disorder(uint8_t *record, size_t n)
{
    uint8_t kept[PLACE];
    if (!is_used(place_at(record, n, 1)))
        return;
    memcpy(kept, place_at(record, n, 0), PLACE);
    memcpy(place_at(record, n, 0), place_at(record, n, 1), PLACE);
    memcpy(place_at(record, n, 1), kept, PLACE);
}

/* Each unit's back offset is that of the unit before, on whatever channel. */
static void back_to_any(uint8_t *record, size_t n)
{
    uint32_t previous = 0xFFFFFFFF;
    for (size_t at = 0; at < n - KYTE_RECORD_TRAILER; at += HEADER + ref_get(record + at + 4, 2)) {
        ref_put(record + at + 6, previous, 4);
        previous = (uint32_t)at;
    }
}

/* The last offset is that of the unit's octets. */
static void last_past_header(uint8_t *record, size_t n)
{
    for (size_t p = 0; p < PLACES && is_used(place_at(record, n, p)); p++)
        add_to(place_at(record, n, p) + 2, HEADER);
}

static void spoil_record(uint8_t *record, size_t n, const uint16_t *units, size_t units_len)
{
    if (is_fault("damaged-badge"))
        forget_failed(record, n, units, units_len);
    if (is_fault("places-order"))
        disorder(record, n);
    if (is_fault("back-any-channel"))
        back_to_any(record, n);
    if (is_fault("last-past-header"))
        last_past_header(record, n);
    if (is_fault("channel-octets") && n > KYTE_RECORD_TRAILER && record[0] != record[1])
        ref_put(record, (uint32_t)record[1] << 8 | record[0], 2);
    if (is_fault("unused-zeros") && !is_used(place_at(record, n, PLACES - 1)))
        memset(place_at(record, n, PLACES - 1), 0, PLACE);
    if (is_fault("mark"))
        record[n - 1] = 0x4C;
}

/* ---- what is taken that should be refused */

/* A list with each changed count of 0 that goes with badge 1 made 1: it is taken, and the count written as it was. */
static int32_t write_unchanged(const uint16_t *units, size_t units_len, const uint8_t *octets, size_t octets_len, uint8_t *record,
                               size_t record_len)
{
    memcpy(numbers, units, sizeof *units * units_len);
    for (size_t i = 0; i + 3 < units_len; i += 4)
        if (numbers[i + 1] == KYTE_CORRECTED && numbers[i + 2] == 0)
            numbers[i + 2] = 1;
    int32_t answer = __real_kyte_record_write(numbers, units_len, octets, octets_len, record, record_len);
    uint8_t *at = record;
    for (size_t i = 0; answer >= 0 && i < units_len; at += HEADER + units[i + 3], i += 4)
        at[3] = (uint8_t)units[i + 2];
    return answer;
}

/* The same of a record with such units. */
static int32_t read_unchanged(const uint8_t *record, size_t n, uint16_t *units, size_t units_len, uint8_t *octets, size_t octets_len)
{
    memcpy(whole, record, n);
    for (size_t at = 0; at + HEADER + KYTE_RECORD_TRAILER <= n; at += HEADER + ref_get(whole + at + 4, 2))
        if (whole[at + 2] == KYTE_CORRECTED && whole[at + 3] == 0)
            whole[at + 3] = 1;
    return __real_kyte_record_read(whole, n, units, units_len, octets, octets_len);
}

/* A seventeenth channel, taken to be the first unit's. */
static int32_t write_crowded(const uint16_t *units, size_t units_len, const uint8_t *octets, size_t octets_len, uint8_t *record,
                             size_t record_len)
{
    uint16_t known[PLACES];
    size_t count = 0;
    memcpy(numbers, units, sizeof *units * units_len);
    for (size_t i = 0; i < units_len; i += 4) {
        size_t k = 0;
        while (k < count && known[k] != numbers[i])
            k++;
        if (k == PLACES)
            numbers[i] = known[0];
        else if (k == count)
            known[count++] = numbers[i];
    }
    return __real_kyte_record_write(numbers, units_len, octets, octets_len, record, record_len);
}

/*
 * The record of the units before the trailer, whatever their back offsets and the trailer are, made in `whole`: how many octets it has, or
 * 0 where they are no units.
 */
static size_t make_anew(const uint8_t *record, size_t n)
{
    size_t at = 0, count = 0, length = 0;
    if (n < KYTE_RECORD_TRAILER || n > KYTE_LONGEST_RECORD)
        return 0;
    while (at < n - KYTE_RECORD_TRAILER) {
        size_t next = n - KYTE_RECORD_TRAILER - at < HEADER ? n : at + HEADER + ref_get(record + at + 4, 2);
        if (next > n - KYTE_RECORD_TRAILER)
            return 0;
        uint16_t unit[4] = { (uint16_t)ref_get(record + at, 2), record[at + 2], record[at + 3], (uint16_t)(next - at - HEADER) };
        memcpy(numbers + 4 * count++, unit, sizeof unit);
        memcpy(content + length, record + at + HEADER, unit[3]);
        length += unit[3];
        at = next;
    }
    int32_t answer = __real_kyte_record_write(numbers, 4 * count, content, length, whole, sizeof whole);
    return answer < 0 ? 0 : (size_t)answer;
}

/* Whether a record is one but for its trailer, or but for its back offsets. */
static int is_nearly(const uint8_t *record, size_t n)
{
    size_t before = n - KYTE_RECORD_TRAILER;
    if (make_anew(record, n) != n)
        return 0;
    if (is_fault("read-any-trailer"))
        return memcmp(record, whole, before) == 0;
    return is_fault("read-any-back") && memcmp(record + before, whole + before, KYTE_RECORD_TRAILER) == 0;
}

/* ---- the entries */

static int32_t written(const uint16_t *units, size_t units_len, const uint8_t *octets, size_t octets_len, uint8_t *record, size_t record_len)
{
    int32_t answer = __real_kyte_record_write(units, units_len, octets, octets_len, record, record_len);
    if (is_fault("changed-none") && answer == -KYTE_REFUSED_FORM && units_len <= 4 * KYTE_RECORD_UNITS)
        return write_unchanged(units, units_len, octets, octets_len, record, record_len);
    if (is_fault("channel-seventeenth") && answer == -KYTE_REFUSED_CHANNELS)
        return write_crowded(units, units_len, octets, octets_len, record, record_len);
    if (is_fault("write-room-late") && answer == -KYTE_REFUSED_ROOM) {
        __real_kyte_record_write(units, units_len, octets, octets_len, whole, sizeof whole);
        memcpy(record, whole, record_len);
    }
    if (is_fault("write-room-strict") && answer > 0 && record_len == (size_t)answer)
        return -KYTE_REFUSED_ROOM;
    if (is_fault("write-order") && answer == -KYTE_REFUSED_FORM && record_len < KYTE_RECORD_TRAILER)
        return -KYTE_REFUSED_ROOM;
    if (is_fault("write-order-limit") && answer == -KYTE_REFUSED_CHANNELS && octets_len > KYTE_RECORD_OCTETS / 2)
        return -KYTE_REFUSED_LENGTH;
    if (is_fault("write-limit") && answer == KYTE_LONGEST_RECORD)
        return -KYTE_REFUSED_LENGTH;
    if (is_fault("write-limit-past") && answer == -KYTE_REFUSED_LENGTH && record_len == KYTE_LONGEST_RECORD + 1)
        return (int32_t)ref_record_lay(units, units_len / 4, octets, record);
    return answer;
}

int32_t __wrap_kyte_record_write(const uint16_t *units, size_t units_len, const uint8_t *octets, size_t octets_len, uint8_t *record,
                                 size_t record_len)
{
    if (is_fault("write-low-bits"))
        octets_len = (uint32_t)octets_len;
    int32_t answer = written(units, units_len, octets, octets_len, record, record_len);
    if (answer < 0)
        return answer;
    spoil_record(record, (size_t)answer, units, units_len);
    if (is_fault("record-past") && record_len > (size_t)answer)
        record[answer] ^= 1;
    if (is_fault("record-after"))
        record[record_len] ^= 1;
    if (is_fault("written-units") && units_len)
        ((uint16_t *)units)[0] ^= 1;
    return is_fault("write-answer") ? answer - KYTE_RECORD_TRAILER : answer;
}

/* What is lent to the reader is touched where it should not be. */
static void touch(int32_t answer, uint16_t *units, size_t units_len, uint8_t *octets, size_t octets_len)
{
    if (is_fault("units-past") && answer >= 0 && units_len > 4 * (size_t)answer)
        units[4 * answer] ^= 1;
    if (is_fault("units-after"))
        units[units_len] ^= 1;
    if (is_fault("octets-past") && answer == 0 && octets_len > 0)
        octets[0] ^= 1;
    if (is_fault("refused-units") && answer == -KYTE_REFUSED_ROOM && units_len > 0)
        units[0] ^= 1;
    if (is_fault("refused-octets") && answer == -KYTE_REFUSED_FORM && octets_len > 0)
        octets[octets_len - 1] ^= 1;
}

int32_t __wrap_kyte_record_read(const uint8_t *record, size_t record_len, uint16_t *units, size_t units_len, uint8_t *octets, size_t octets_len)
{
    if (is_fault("read-low-bits"))
        record_len = (uint32_t)record_len;
    int32_t answer = __real_kyte_record_read(record, record_len, units, units_len, octets, octets_len);
    touch(answer, units, units_len, octets, octets_len);
    if (is_fault("read-changed-none") && answer == -KYTE_REFUSED_FORM && record_len <= KYTE_LONGEST_RECORD)
        return read_unchanged(record, record_len, units, units_len, octets, octets_len);
    if (answer == -KYTE_REFUSED_FORM && is_nearly(record, record_len))
        return __real_kyte_record_read(whole, record_len, units, units_len, octets, octets_len);
    if (is_fault("read-order") && answer == -KYTE_REFUSED_FORM && units_len == 0)
        return -KYTE_REFUSED_ROOM;
    if (is_fault("read-limit-past") && answer == -KYTE_REFUSED_FORM && record_len == KYTE_LONGEST_RECORD + 1)
        return (int32_t)ref_get(record + record_len - 12, 4);
    if (is_fault("read-longer") && answer == -KYTE_REFUSED_FORM && record_len > KYTE_RECORD_TRAILER)
        return __real_kyte_record_read(record, record_len - 1, units, units_len, octets, octets_len);
    return is_fault("read-answer") && answer > 0 ? 4 * answer : answer;
}
