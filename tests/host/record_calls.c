#include "record_calls.h"

#include "draw.h"
#include "lent.h"
#include "record.h"
#include "record_tally.h"

#include <stdio.h>
#include <stdlib.h>
#include <string.h>

static struct lent numbers, octets, record;

/* The call at hand, to be told of where it differs. */
static const char *name;

void calls_open(void)
{
    lent_open(&numbers, sizeof(uint16_t));
    lent_open(&octets, 1);
    lent_open(&record, 1);
}

size_t room_of(const struct list *l) { return 10 * (l->numbers_len / 4) + l->octets_len + KYTE_RECORD_TRAILER; }

static void fail(const char *what, int32_t answer, int32_t expected)
{
    printf("DIFFERS at input %llu: %s, %zu numbers, %zu octets, a record of %zu octets: %s; the answer is %d, expected %d\n",
           (unsigned long long)tally[INPUT], name, numbers.length / sizeof(uint16_t), octets.length, record.length, what, (int)answer,
           (int)expected);
    exit(1);
}

void check_answer(const char *call, int32_t answer, int32_t expected)
{
    name = call;
    tally[INPUT]++;
    if (answer != expected)
        fail("another answer", answer, expected);
}

/* ---- what is counted */

static enum place draw_place(void)
{
    enum place place = (enum place)draw(AMID, AT_START);
    tally[PLACED + place]++;
    return place;
}

static enum kind kind_of_write(int32_t answer)
{
    switch (answer) {
    case -KYTE_REFUSED_FORM: return WRITE_REFUSED_15;
    case -KYTE_REFUSED_CHANNELS: return WRITE_REFUSED_12;
    case -KYTE_REFUSED_LENGTH: return WRITE_REFUSED_2;
    case -KYTE_REFUSED_ROOM: return WRITE_REFUSED_3;
    default: return WRITE_TOLD;
    }
}

static enum kind kind_of_read(int32_t answer)
{
    return answer == -KYTE_REFUSED_FORM ? READ_REFUSED_15 : answer == -KYTE_REFUSED_ROOM ? READ_REFUSED_3 : READ_TOLD;
}

/* ---- what is compared */

static void check_lent(int32_t answer, int32_t expected)
{
    check_answer(name, answer, expected);
    if (!lent_is_kept(&numbers))
        fail("the numbers or what lies around them are not as they should be", answer, expected);
    if (!lent_is_kept(&octets))
        fail("the octets or what lies around them are not as they should be", answer, expected);
    if (!lent_is_kept(&record))
        fail("the record or what lies around it is not as it should be", answer, expected);
}

/* What was written gives the units back. */
static void check_read_back(const struct list *l, size_t n)
{
    static struct list back;
    int32_t units = kyte_record_read(record.at, n, back.numbers, l->numbers_len, back.octets, l->octets_len);
    if (units != (int32_t)(l->numbers_len / 4) || memcmp(back.numbers, l->numbers, sizeof(uint16_t) * l->numbers_len) ||
        memcmp(back.octets, l->octets, l->octets_len))
        fail("reading what was written does not give the units back", units, (int32_t)(l->numbers_len / 4));
}

/* What was read gives the same octets. */
static void check_written_again(size_t units, size_t n)
{
    static uint8_t again[KYTE_LONGEST_RECORD];
    size_t length = n - KYTE_RECORD_TRAILER - 10 * units;
    int32_t answer = kyte_record_write((const uint16_t *)(const void *)numbers.at, 4 * units, octets.at, length, again, sizeof again);
    if (answer != (int32_t)n || memcmp(again, record.at, n))
        fail("writing what was read does not give the same octets", answer, (int32_t)n);
}

/* ---- the calls */

int32_t try_write(const struct list *l, size_t room)
{
    name = "kyte_record_write";
    lent_copy(&numbers, draw_place(), (const uint8_t *)l->numbers, sizeof(uint16_t) * l->numbers_len);
    lent_copy(&octets, draw_place(), l->octets, l->octets_len);
    lent_fill(&record, draw_place(), room);
    int32_t expected = ref_record_write(l->numbers, l->numbers_len, l->octets, l->octets_len, lent_expected(&record), room);
    int32_t answer = kyte_record_write((const uint16_t *)(const void *)numbers.at, l->numbers_len, octets.at, l->octets_len, record.at, room);
    tally[WRITE_CALL]++;
    tally[kind_of_write(expected)]++;
    check_lent(answer, expected);
    if (answer < 0)
        return answer;
    tally[room == (size_t)answer ? ROOM_EXACT : ROOM_MORE]++;
    check_read_back(l, (size_t)answer);
    return answer;
}

int32_t try_read(const uint8_t *from, size_t n, size_t numbers_room, size_t octets_room)
{
    static uint16_t read[MOST_NUMBERS];
    name = "kyte_record_read";
    lent_copy(&record, draw_place(), from, n);
    lent_fill(&numbers, draw_place(), sizeof(uint16_t) * numbers_room);
    lent_fill(&octets, draw_place(), octets_room);
    memcpy(read, lent_expected(&numbers), numbers.length);
    int32_t expected = ref_record_read(from, n, read, numbers_room, lent_expected(&octets), octets_room);
    memcpy(lent_expected(&numbers), read, numbers.length);
    int32_t answer = kyte_record_read(record.at, n, (uint16_t *)(void *)numbers.at, numbers_room, octets.at, octets_room);
    tally[READ_CALL]++;
    tally[kind_of_read(expected)]++;
    check_lent(answer, expected);
    if (answer < 0)
        return answer;
    tally[numbers_room == 4 * (size_t)answer ? ROOM_EXACT : ROOM_MORE]++;
    check_written_again((size_t)answer, n);
    return answer;
}

int32_t try_read_whole(const uint8_t *from, size_t n)
{
    size_t units = n / 11 < KYTE_RECORD_UNITS ? n / 11 : KYTE_RECORD_UNITS;
    return try_read(from, n, 4 * units + draw(0, 8), n + draw(0, 8));
}
