/*
 * The C entries of records against the second implementation of record.c, on lists and records drawn from a seed:
 * records [SEED [LISTS]].
 *
 * Ends at the first difference with status 1, and with status 1 too if some kind of list or record was never tried.
 */
#define _DEFAULT_SOURCE
#include "draw.h"
#include "lists.h"
#include "record.h"
#include "record_calls.h"
#include "record_damage.h"
#include "record_tally.h"

#include <stdio.h>
#include <stdlib.h>
#include <string.h>
#include <sys/mman.h>

#define LISTS 30000
#define MOST_BEFORE (KYTE_LONGEST_RECORD - KYTE_RECORD_TRAILER)

/* The list at hand, and its record. */
static struct list list;
static uint8_t record[KYTE_LONGEST_RECORD + 131072];

static size_t lay(void) { return ref_record_lay(list.numbers, list.numbers_len / 4, list.octets, record); }

/* ---- the ticket's two examples */

#define UNUSED 0, 0, 0xFF, 0xFF, 0xFF, 0xFF, 0, 0, 0, 0, 0, 0, 0, 0

static const uint8_t empty[] = { UNUSED, UNUSED, UNUSED, UNUSED, UNUSED, UNUSED, UNUSED, UNUSED, UNUSED, UNUSED, UNUSED, UNUSED,
                                 UNUSED, UNUSED, UNUSED, UNUSED, 0, 0, 0, 0, 0, 0, 0, 0, 0x48, 0x32, 0x32, 0x33 };

static const uint8_t one_unit[] = { 0x00, 0x05, 0x00, 0x00, 0x00, 0x02, 0xFF, 0xFF, 0xFF, 0xFF, 0x10, 0x80,
                                    0, 5, 0, 0, 0, 0, 0, 0, 0, 1, 0, 0, 0, 0,
                                    UNUSED, UNUSED, UNUSED, UNUSED, UNUSED, UNUSED, UNUSED, UNUSED, UNUSED, UNUSED, UNUSED, UNUSED,
                                    UNUSED, UNUSED, UNUSED, 0, 0, 0, 1, 0, 0, 0, 12, 0x48, 0x32, 0x32, 0x33 };

static void add_example_unit(void)
{
    static const uint16_t numbers[] = { 5, 0, 0, 2 };
    memcpy(list.numbers, numbers, sizeof numbers);
    memcpy(list.octets, "\x10\x80", 2);
    list.numbers_len = 4;
    list.octets_len = 2;
}

/* The second implementation is held to the document, and the library to both. */
static void try_example(const uint8_t *expected, size_t n)
{
    tally[EXAMPLE]++;
    size_t length = lay();
    check_answer("the second implementation's record", (int32_t)length, (int32_t)n);
    check_answer("the second implementation's octets, which differ", memcmp(record, expected, n) != 0, 0);
    check_answer("the second implementation's reading", ref_record_read(expected, n, list.numbers, 4, list.octets, 2), n > KYTE_RECORD_TRAILER);
    try_write(&list, n);
    try_read(expected, n, list.numbers_len, list.octets_len);
}

static void try_examples(void)
{
    list.numbers_len = list.octets_len = 0;
    try_example(empty, sizeof empty);
    add_example_unit();
    try_example(one_unit, sizeof one_unit);
}

/* ---- rooms */

static size_t draw_too_small(size_t needed)
{
    switch (draw(0, 3)) {
    case 0: return needed - 1;
    case 1: return needed - draw(1, needed < KYTE_RECORD_TRAILER ? needed : KYTE_RECORD_TRAILER);
    case 2: return 0;
    default: return draw(0, needed - 1);
    }
}

static size_t draw_enough(size_t needed) { return draw(0, 1) ? needed : needed + draw(1, 40); }

/* Reads the list's record, with enough room and with too little of one kind or of both. */
static void read_rooms(size_t n)
{
    size_t numbers = list.numbers_len, octets = list.octets_len;
    try_read(record, n, draw_enough(numbers), draw_enough(octets));
    if (numbers == 0)
        return;
    try_read(record, n, draw_too_small(numbers), draw_enough(octets));
    try_read(record, n, draw_enough(numbers), draw_too_small(octets));
    if (draw(0, 3) == 0)
        try_read(record, n, draw_too_small(numbers), draw_too_small(octets));
}

static void try_every_room(void)
{
    draw_short_list(&list, draw(0, 6), draw(1, 4), 5);
    size_t n = lay();
    tally[ROOM_EVERY]++;
    for (size_t room = 0; room <= n + 3; room++)
        try_write(&list, room);
    for (size_t numbers = 0; numbers <= list.numbers_len + 5; numbers++)
        for (size_t octets = 0; octets <= list.octets_len + 3; octets++)
            try_read(record, n, numbers, octets);
    try_damaged_everywhere(record, n);
}

/* ---- lists */

static size_t draw_units(void)
{
    switch (draw(0, 3)) {
    case 0: return draw(0, 3);
    case 1: return draw(4, 30);
    default: return draw(31, 200);
    }
}

static size_t draw_channel_count(void) { return draw(0, 2) ? draw(1, 16) : draw(0, 1) ? 1 : 16; }

static void write_one(void)
{
    draw_list(&list, draw_units(), draw_channel_count());
    size_t n = lay();
    try_write(&list, draw_enough(n));
    if (draw(0, 3) == 0)
        try_write(&list, draw_too_small(n));
    read_rooms(n);
    try_damaged(&list, record, n);
}

/* A list that is refused for one reason or for several. */
static void refuse_one(void)
{
    enum { FORM = 1, CHANNELS = 2, ROOM = 4 };
    size_t reasons = draw(1, 7);
    if (reasons & CHANNELS)
        draw_list(&list, draw(40, 200), draw(0, 1) ? 17 : draw(18, 40));
    else
        draw_list(&list, draw_units(), draw_channel_count());
    if (reasons & FORM)
        spoil_form(&list);
    if (reasons & (reasons - 1))
        tally[SEVERAL]++;
    try_write(&list, reasons & ROOM ? draw_too_small(room_of(&list)) : draw_enough(room_of(&list)));
}

/* Reads a record, right in all else, of a list that no writer takes. */
static void read_refused(void)
{
    int is_crowded = draw(0, 2) == 0;
    draw_list(&list, draw(40, 60), is_crowded ? draw(17, 20) : draw_channel_count());
    if (!is_crowded)
        spoil_unit(&list);
    int32_t answer = try_read_whole(record, lay());
    if (answer < 0)
        tally[is_crowded ? LAID_CROWDED : LAID_BAD]++;
}

static void try_one(void)
{
    size_t r = draw(0, 99);
    if (r < 60)
        write_one();
    else if (r < 85)
        refuse_one();
    else if (r < 95)
        read_refused();
    else
        try_drawn();
    if (draw(0, 199) == 0)
        try_every_room();
}

/* ---- the limits */

/* A list on 16 channels that takes so many octets before the trailer, in units of so many but for the last. */
static void draw_limit(size_t before, size_t length)
{
    list.numbers_len = list.octets_len = 0;
    for (size_t left = before; left > 0;) {
        size_t next = left < 2 * (10 + length) && left <= 1034 ? left - 10 : length;
        if (left - 10 - next > 0 && left - 10 - next < 11)
            next -= 11;
        add_unit(&list, (uint16_t)(257 * draw(0, 15)), next);
        left -= 10 + next;
    }
}

static void try_limit(size_t before, size_t length)
{
    draw_limit(before, length);
    size_t n = lay();
    tally[LIMIT]++;
    try_write(&list, n);
    try_write(&list, n - 1);
    try_write(&list, KYTE_LONGEST_RECORD + 40);
    read_rooms(n);
    try_damaged(&list, record, n);
}

/* Past the limit: 2, but for a unit out of range and a seventeenth channel, which are tested before. */
static void try_past_limit(size_t before, size_t length)
{
    draw_limit(before, length);
    size_t n = lay();
    tally[LIMIT_PAST]++;
    try_write(&list, n);
    try_write(&list, draw_too_small(n));
    tally[LAID_LONG]++;
    try_read_whole(record, n);
    list.numbers[list.numbers_len - 4] = 12345;
    try_write(&list, n);
    list.numbers[list.numbers_len - 3] = 5;
    try_write(&list, n);
}

static void try_limits(void)
{
    static const size_t lengths[] = { 1, 2, 100, 1024 };
    for (size_t i = 0; i < sizeof lengths / sizeof *lengths; i++) {
        try_limit(MOST_BEFORE, lengths[i]);
        try_past_limit(MOST_BEFORE + 1, lengths[i]);
        try_past_limit(MOST_BEFORE + 10 + lengths[i], lengths[i]);
    }
    try_limit(11 * KYTE_RECORD_UNITS, 1);
    check_answer("the most units of one octet", (int32_t)(list.numbers_len / 4), KYTE_RECORD_UNITS);
    try_past_limit(11 * (KYTE_RECORD_UNITS + 1), 1);
}

/* ---- lengths and rooms whose high bits must not be lost; only the first octets of such a buffer are there to be written */

#define FAR ((size_t)1 << 32)
#define NEAR 65536

static void try_far_once(uint8_t *far, size_t more)
{
    uint8_t written[sizeof one_unit], octets[2];
    uint16_t numbers[4];
    size_t n = sizeof one_unit;
    tally[FAR_LENGTH] += 6;

    memcpy(far, list.numbers, sizeof numbers);
    check_answer("kyte_record_write, far numbers", kyte_record_write((uint16_t *)(void *)far, FAR + 4, list.octets, 2, written, n), -15);
    memcpy(far, list.octets, 2);
    check_answer("kyte_record_write, far octets", kyte_record_write(list.numbers, 4, far, FAR + 2, written, n), -15);
    check_answer("kyte_record_write, far room", kyte_record_write(list.numbers, 4, list.octets, 2, far, FAR + more), (int32_t)n);
    check_answer("kyte_record_write, far room: the octets, which differ", memcmp(far, one_unit, n) != 0, 0);
    check_answer("kyte_record_read, far record", kyte_record_read(far, FAR + n, numbers, 4, octets, 2), -15);
    check_answer("kyte_record_read, far octets' room", kyte_record_read(one_unit, n, numbers, 4, far, FAR + more % 2), 1);
    check_answer("kyte_record_read, far numbers' room", kyte_record_read(one_unit, n, (uint16_t *)(void *)far, FAR + more % 4, octets, 2), 1);
}

static void try_far(void)
{
    uint8_t *far = mmap(0, 2 * FAR + NEAR, PROT_READ, MAP_PRIVATE | MAP_ANONYMOUS | MAP_NORESERVE, -1, 0);
    if (far == MAP_FAILED || mprotect(far, NEAR, PROT_READ | PROT_WRITE)) {
        perror("try_far");
        exit(2);
    }
    add_example_unit();
    for (size_t more = 0; more < 16; more++)
        try_far_once(far, more);
    munmap(far, 2 * FAR + NEAR);
}

int main(int argc, char **argv)
{
    draw_seed(argc, argv);
    uint64_t lists = argc > 2 ? strtoull(argv[2], 0, 10) : LISTS;
    calls_open();
    try_examples();
    try_far();
    for (uint64_t i = 0; i < lists; i++)
        try_one();
    try_limits();
    return tally_print();
}
