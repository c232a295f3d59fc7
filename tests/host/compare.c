/*
 * The C entries against the second implementation of reference.c, on inputs drawn from a seed: compare [SEED [INPUTS]].
 *
 * Ends at the first difference with status 1, and with status 1 too if some kind of input was never tried.
 */
#define _DEFAULT_SOURCE
#include "calls.h"
#include "draw.h"
#include "kyteblossom.h"
#include "reference.h"
#include "tally.h"

#include <stdio.h>
#include <stdlib.h>
#include <string.h>
#include <sys/mman.h>

#define INPUTS 240000

/* ---- settings, lengths and rooms */

/* Small e more often, since a word of small e is compared faster. */
static uint32_t draw_e(void)
{
    size_t r = draw(0, 199);
    if (r < 20)
        return 0;
    if (r < 60)
        return 1;
    if (r < 130)
        return (uint32_t)draw(2, 8);
    if (r < 190)
        return (uint32_t)draw(9, 32);
    return r < 198 ? (uint32_t)draw(33, 126) : 127;
}

static uint32_t draw_width(uint32_t e) { return e == 127 ? 0 : 8 * (uint32_t)draw(0, 2); }

/* The length of a sent unit: short, long or between. */
static size_t draw_length(uint32_t width, uint32_t e)
{
    size_t least = 1 + rest_of(width, e);
    switch (draw(0, 2)) {
    case 0: return draw(least, least + 2 > 255 ? 255 : least + 2);
    case 1: return draw(least > 250 ? least : 250, 255);
    default: return draw(least, 255);
    }
}

/* Less room than is needed, often by one. */
static size_t draw_too_little(size_t needed) { return draw(0, 1) ? needed - 1 : draw(0, needed - 1); }

/* As much room as is needed, or more; sometimes so much that it would be too little if its high bits were lost. */
static size_t draw_room(size_t needed)
{
    if (draw(0, 199) == 0)
        return 65536 + (needed ? draw_too_little(needed) : 0);
    return draw(0, 1) ? needed : needed + draw(1, 40);
}

/* The entries of a list for e places: likewise, or as many as are enough for every e. */
static size_t draw_entries(uint32_t e) { return draw(0, 3) ? draw_room(e) : KYTE_MOST_REPAIRS; }

static uint32_t draw_bad_width(void)
{
    static const uint32_t few[] = { 1, 7, 9, 15, 17, 24, 32, 256, 264, 65544, 0x80000000, 0x80000008, 0xFFFFFFF8, 0xFFFFFFFF };
    uint32_t w = draw(0, 1) ? few[draw(0, sizeof few / sizeof *few - 1)] : (uint32_t)draw_bits();
    return w == 0 || w == 8 || w == 16 ? 4 : w;
}

static uint32_t draw_bad_e(void)
{
    static const uint32_t few[] = { 128, 129, 255, 256, 257, 383, 65537, 0x7FFFFFFF, 0x80000000, 0x80000001, 0xFFFFFF80, 0xFFFFFFFF };
    uint32_t e = draw(0, 1) ? few[draw(0, sizeof few / sizeof *few - 1)] : (uint32_t)draw_bits();
    return e < 128 ? 128 : e;
}

/* A length out of range, perhaps one that would be in range, as `good` is, if its high bits were lost. */
static size_t draw_bad_length(size_t good, size_t least, size_t most)
{
    switch (draw(0, 4)) {
    case 0: tally[LENGTH_NONE]++; return 0;
    case 1: tally[LENGTH_UNDER]++; return draw(0, least - 1);
    case 2: tally[LENGTH_OVER]++; return most + 1;
    case 3: tally[LENGTH_OVER]++; return draw(most + 1, 1100);
    default: tally[LENGTH_FAR]++; return good + (draw(0, 1) ? 256 : 65536);
    }
}

/* ---- words */

/* The word, to be received with enough room and entries. */
static struct call receiving(const uint8_t *word, size_t n, uint32_t width, uint32_t e)
{
    return (struct call){ .octets = word, .n = n, .width = width, .e = e, .room = draw_room(n), .entries = draw_entries(e) };
}

/* Sends a drawn unit; its word, damaged in `wrong` octets, is received. */
static void receive_sent(uint32_t width, uint32_t e, size_t n, size_t wrong)
{
    uint8_t unit[255], sent[255], word[255];
    size_t t = n - rest_of(width, e);
    draw_octets(unit, t);
    ref_encode(unit, t, width, e, sent, n);
    memcpy(word, sent, n);
    draw_damage(word, n, wrong);
    tally[wrong == 0 ? WORD_CLEAN : wrong < e ? WORD_WITHIN : wrong == e ? WORD_E : WORD_PAST]++;
    struct call c = receiving(word, n, width, e);
    c.sent = wrong <= e ? sent : 0;
    c.wrong = wrong;
    try_receive(c);
}

static void receive_drawn(uint32_t width, uint32_t e, size_t n)
{
    uint8_t word[255];
    draw_octets(word, n);
    tally[WORD_DRAWN]++;
    try_receive(receiving(word, n, width, e));
}

/* A code word in which the octets at the check's place are drawn, damaged in at most e octets. */
static void receive_bad_check(uint32_t e)
{
    uint8_t unit[255], word[255];
    uint32_t width = 8 * (uint32_t)draw(1, 2);
    size_t n = draw_length(width, e);
    draw_octets(unit, n - 2 * e);
    ref_encode(unit, n - 2 * e, 0, e, word, n);
    draw_damage(word, n, draw(0, e));
    tally[WORD_BAD_CHECK]++;
    try_receive(receiving(word, n, width, e));
}

/*
 * The end of a longer code word whose octets before that end are 0 but for at most e: for a decoder that forgets where the word
 * begins, errors there explain all.
 */
static void receive_beyond(uint32_t width, uint32_t e)
{
    uint8_t unit[255] = { 0 }, longer[255];
    size_t n = draw(1 + rest_of(width, e), 254), extra = draw(1, 255 - n), wrong = draw(1, e < extra ? e : extra);
    draw_damage(unit, extra, wrong);
    draw_octets(unit + extra, n - 2 * e);
    ref_encode(unit, extra + n - 2 * e, 0, e, longer, extra + n);
    draw_damage(longer + extra, n, draw(0, e - wrong));
    tally[WORD_BEYOND]++;
    try_receive(receiving(longer + extra, n, width, e));
}

static void receive_one(void)
{
    uint32_t e = draw_e(), width = draw_width(e);
    size_t n = draw_length(width, e);
    switch (draw(0, 6)) {
    case 0: receive_sent(width, e, n, 0); break;
    case 1: receive_sent(width, e, n, draw(0, e)); break;
    case 2: receive_sent(width, e, n, e); break;
    case 3: receive_sent(width, e, n, draw(e + 1, e + 3 < n ? e + 3 : n)); break;
    case 4: receive_drawn(width, e, n); break;
    case 5: receive_bad_check(e < 127 ? e : 126); break;
    default: receive_beyond(width, e < 1 ? 1 : e < 126 ? e : 125); break;
    }
}

/* Every width and every e, with the shortest and the longest words. */
static void receive_every_setting(void)
{
    for (uint32_t e = 0; e <= 127; e++)
        for (uint32_t width = 0; width <= 16 && 1 + rest_of(width, e) <= 255; width += 8)
            for (int is_long = 0; is_long <= 1; is_long++) {
                size_t n = is_long ? 255 : 1 + rest_of(width, e);
                receive_sent(width, e, n, 0);
                receive_sent(width, e, n, e);
                receive_sent(width, e, n, e + 1);
                receive_drawn(width, e, n);
            }
}

/* ---- document 01's small set */

struct example {
    const char *name;
    uint8_t word[7];
    size_t n;
    uint32_t width, e;
    int32_t badge, changed, unit;
    uint8_t places[2]; /* as many as changed tells: where A4 differs from A3, and A6 from A5 */
};

static const struct example examples[] = {
    { "A3", { 0x10, 0x80, 0xF5, 0x4E, 0xCD, 0x57, 0xA5 }, 7, 8, 2, KYTE_CLEAN, 0, 2, { 0 } },
    { "A4", { 0x00, 0x00, 0xF5, 0x4E, 0xCD, 0x57, 0xA5 }, 7, 8, 2, KYTE_CORRECTED, 2, 2, { 0, 1 } },
    { "A5", { 0x01, 0x06, 0x08 }, 3, 0, 1, KYTE_CLEAN, 0, 1, { 0 } },
    { "A6", { 0x01, 0x06, 0x00 }, 3, 0, 1, KYTE_CORRECTED, 1, 1, { 2 } },
    { "A7", { 0x01, 0x0C, 0x18 }, 3, 0, 1, KYTE_OUT_OF_REACH, 0, 1, { 0 } },
    { "A8", { 0x10, 0x80, 0xAF }, 3, 8, 0, KYTE_CHECK_FAILED, 0, 2, { 0 } },
};

/* The second implementation is held to the document, and the library to both. */
static void try_example(const struct example *x)
{
    uint8_t repair[7], places[2];
    struct call c = { .name = x->name, .octets = x->word, .n = x->n, .width = x->width, .e = x->e, .room = x->n, .entries = x->e };
    int32_t expected = x->badge + 256 * x->changed + 65536 * x->unit;
    int32_t answer = ref_receive(c.octets, c.n, c.width, c.e, repair, c.room, places, c.entries);
    if (answer != expected || memcmp(places, x->places, (size_t)x->changed))
        fail(&c, "the second implementation answers otherwise than the document", answer, expected);
    tally[EXAMPLE]++;
    try_receive(c);
    if (x->badge != KYTE_CLEAN)
        return;
    struct call sending = c;
    sending.n = (size_t)x->unit;
    sending.entries = 0;
    if (memcmp(try_encode(sending), x->word, x->n))
        fail(&c, "the unit is sent otherwise than in the document", answer, expected);
}

/* ---- units, lengths and refusals */

static void encode_one(void)
{
    uint8_t unit[255];
    uint32_t e = draw_e(), width = draw_width(e);
    size_t n = draw_length(width, e), t = n - rest_of(width, e);
    draw_octets(unit, t);
    try_encode((struct call){ .octets = unit, .n = t, .width = width, .e = e, .room = draw_room(n) });
}

/* A width, an e, or both, that are refused. */
static void spoil_setting(struct call *c)
{
    static const enum kind kinds[] = { BAD_WIDTH, BAD_E, BAD_BOTH };
    size_t which = draw(0, 2);
    if (which != 1)
        c->width = draw_bad_width();
    if (which != 0)
        c->e = draw_bad_e();
    tally[kinds[which]]++;
}

/* Why a call is refused; LIST is of kyte_receive alone, and of an e that is not 0. */
enum { SETTING = 1, LENGTH = 2, ROOM = 4, LIST = 8 };

/* Too little room, too few entries, or both. */
static void spoil_room(struct call *c, size_t needed, size_t reasons)
{
    if (reasons & ROOM && needed > 0) {
        c->room = draw_too_little(needed);
        tally[ROOM_UNDER]++;
    }
    if (reasons & LIST) {
        c->entries = draw_too_little(c->e);
        tally[LIST_UNDER]++;
    }
    if (reasons & LIST && c->room < needed)
        tally[BOTH_UNDER]++;
}

/* A call that is refused for one reason or for several. */
static void refuse_one(int is_encoding)
{
    static uint8_t octets[70000];
    size_t reasons = draw(SETTING, is_encoding ? LIST - 1 : 2 * LIST - 1);
    uint32_t drawn = draw_e(), e = drawn == 0 && reasons & LIST ? 1 : drawn, width = draw_width(e);
    size_t rest = rest_of(width, e), added = is_encoding ? rest : 0, n = draw_length(width, e) - added;
    if (reasons & LENGTH)
        n = draw_bad_length(n, is_encoding ? 1 : 1 + rest, 255 - added);
    struct call c = { .octets = octets, .n = n, .width = width, .e = e, .room = draw_room(n + added),
                      .entries = is_encoding ? 0 : draw_entries(e) };
    spoil_room(&c, n + added, reasons);
    if (reasons & SETTING)
        spoil_setting(&c);
    if (reasons & (reasons - 1))
        tally[SEVERAL]++;
    draw_octets(octets, n < 300 ? n : 300);
    if (is_encoding)
        try_encode(c);
    else
        try_receive(c);
}

/* A length, small or out of range; perhaps one that a sum would carry past the largest number and back into range. */
static void length_one(void)
{
    uint32_t e = draw(0, 7) ? draw_e() : draw_bad_e(), width = draw(0, 7) ? 8 * (uint32_t)draw(0, 2) : draw_bad_width();
    size_t few = draw(0, 255);
    size_t units[] = { 0, 256, few, few % 20 + 1, 2 * few, 65536 + few, ((size_t)1 << 32) + few, SIZE_MAX / 2 + few, SIZE_MAX, SIZE_MAX - few,
                       SIZE_MAX - rest_of(width, e) + few };
    size_t unit = units[draw(0, sizeof units / sizeof *units - 1)];
    if (unit >= 65536)
        tally[LENGTH_FAR]++;
    try_length((struct call){ .n = unit, .width = width, .e = e });
}

/* Units and words of 2^32 octets and some more. */
static void refuse_far(void)
{
    size_t far = (size_t)1 << 32;
    uint8_t *octets = mmap(0, far + 255, PROT_READ, MAP_PRIVATE | MAP_ANONYMOUS | MAP_NORESERVE, -1, 0);
    if (octets == MAP_FAILED) {
        perror("refuse_far");
        exit(2);
    }
    for (int i = 0; i < 500; i++) {
        uint32_t e = draw_e(), width = draw_width(e);
        try_far((struct call){ .name = "a far length", .octets = octets, .n = far + draw_length(width, e), .width = width, .e = e,
                               .room = KYTE_LONGEST, .entries = e });
    }
    munmap(octets, far + 255);
}

int main(int argc, char **argv)
{
    draw_seed(argc, argv);
    uint64_t inputs = argc > 2 ? strtoull(argv[2], 0, 10) : INPUTS;
    ref_init();
    calls_open();
    for (size_t i = 0; i < sizeof examples / sizeof *examples; i++)
        try_example(&examples[i]);
    refuse_far();
    while (tally[INPUT] < inputs) {
        size_t r = draw(0, 99);
        if (r < 10)
            length_one();
        else if (r < 25)
            encode_one();
        else if (r < 35)
            refuse_one(r < 30);
        else
            receive_one();
    }
    receive_every_setting();
    return tally_print();
}
