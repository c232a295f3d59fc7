#include "calls.h"

#include "draw.h"
#include "kyteblossom.h"
#include "lent.h"
#include "reading.h"
#include "reference.h"
#include "tally.h"

#include <stdio.h>
#include <stdlib.h>
#include <string.h>

static struct lent in, out, list;

void calls_open(void)
{
    lent_open(&in, 1);
    lent_open(&out, 1);
    lent_open(&list, 1);
}

size_t rest_of(uint32_t width, uint32_t e) { return width / 8 + 2 * (size_t)e; }

void fail(const struct call *c, const char *what, int32_t answer, int32_t expected)
{
    printf("DIFFERS at input %llu: %s of %zu octets, width %u, e %u, room %zu, list of %zu: %s; the answer is %d, expected %d\n",
           (unsigned long long)tally[INPUT], c->name, c->n, (unsigned)c->width, (unsigned)c->e, c->room, c->entries, what, (int)answer,
           (int)expected);
    for (size_t i = 0; c->octets && i < c->n && i < 255; i++)
        printf("%02X%s", c->octets[i], i % 32 == 31 ? "\n" : " ");
    printf("\n");
    exit(1);
}

/* ---- what is counted */

static enum place draw_place(void)
{
    enum place place = (enum place)draw(AMID, AT_START);
    tally[PLACED + place]++;
    return place;
}

static void count_call(const struct call *c, int32_t answer, enum kind refused)
{
    tally[INPUT]++;
    if (answer < 0) {
        tally[(int)refused - answer - 1]++;
        return;
    }
    tally[WIDTH + c->width / 8]++;
    tally[c->e == 0 ? E_0 : c->e == 1 ? E_1 : c->e <= 8 ? E_8 : c->e <= 32 ? E_32 : c->e <= 126 ? E_126 : E_127]++;
    tally_e[c->e]++;
}

/* A buffer that was not too small; `exact` is the kind of those that have just what is needed. */
static void count_room(size_t room, size_t needed, enum kind exact)
{
    tally[(int)exact + (room > needed) + (room >= 65536)]++;
}

static void count_received(const struct call *c, int32_t answer)
{
    tally[BADGE + kyte_badge(answer)]++;
    if (kyte_badge(answer) == KYTE_CHECK_FAILED && kyte_changed(answer) > 0)
        tally[FAILED_LISTED]++;
    count_room(c->room, c->n, ROOM_EXACT);
    count_room(c->entries, c->e, LIST_EXACT);
    if (c->entries == 0)
        tally[LIST_NONE]++;
    if (c->entries == KYTE_MOST_REPAIRS)
        tally[LIST_MOST]++;
    if (kyte_unit_length(answer) <= 3)
        tally[UNIT_SHORT]++;
    if (c->n >= 250)
        tally[WORD_LONG]++;
}

/* ---- what is compared */

/* The answer and all octets that both kinds of call are lent. */
static void check_call(const struct call *c, int32_t answer, int32_t expected)
{
    if (answer != expected)
        fail(c, "another answer", answer, expected);
    const char *misread = reading_differs(answer, c->width, in.at, out.at);
    if (misread)
        fail(c, misread, answer, expected);
    if (!lent_is_kept(&in))
        fail(c, "the input or what lies around it has changed", answer, expected);
    if (!lent_is_kept(&out))
        fail(c, "the output or what lies around it is not as it should be", answer, expected);
}

static void check_received(const struct call *c, int32_t answer, int32_t expected)
{
    check_call(c, answer, expected);
    if (!lent_is_kept(&list))
        fail(c, "the list or what lies around it is not as it should be", answer, expected);
}

/* What was sent is known, and at most e octets of it are wrong: it must be handed up, and the list must have those octets. */
static void check_sent(const struct call *c, int32_t answer)
{
    int badge = c->wrong ? KYTE_CORRECTED : c->width == 0 && c->e == 0 ? KYTE_UNCHECKED : KYTE_CLEAN;
    size_t unit = c->n - rest_of(c->width, c->e);
    int32_t expected = (int32_t)(65536 * unit + 256 * c->wrong) + badge;
    uint8_t damaged[255];
    if (kyte_badge(answer) != badge || kyte_changed(answer) != c->wrong || kyte_unit_length(answer) != unit ||
        memcmp(kyte_unit(answer, in.at, out.at), c->sent, unit) || memcmp(out.at, c->sent, c->n))
        fail(c, "it is not what was sent", answer, expected);
    if (ref_differing(c->octets, c->sent, c->n, damaged) != c->wrong || memcmp(list.at, damaged, c->wrong))
        fail(c, "the places are not those of the damaged octets", answer, expected);
}

/* The code words within one octet, tried one by one. */
static void check_counted(const struct call *c, int32_t answer)
{
    uint8_t found[255];
    int words = ref_count_within_one(c->octets, c->n, c->e, found);
    int is_near = kyte_badge(answer) != KYTE_OUT_OF_REACH && kyte_changed(answer) <= 1;
    tally[COUNTED]++;
    if (words != is_near || (words && memcmp(found, out.at, c->n)))
        fail(c, "the code words within one octet are other ones", answer, words);
}

/* ---- the calls */

void try_length(struct call c)
{
    c.name = "kyte_length";
    int32_t expected = ref_length(c.n, c.width, c.e), answer = kyte_length(c.n, c.width, c.e);
    tally[LENGTH_CALL]++;
    count_call(&c, expected, LENGTH_REFUSED);
    if (answer != expected)
        fail(&c, "another length", answer, expected);
}

const uint8_t *try_encode(struct call c)
{
    c.name = "kyte_encode";
    lent_copy(&in, draw_place(), c.octets, c.n);
    lent_fill(&out, draw_place(), c.room);
    int32_t expected = ref_encode(c.octets, c.n, c.width, c.e, lent_expected(&out), c.room);
    int32_t answer = kyte_encode(in.at, c.n, c.width, c.e, out.at, c.room);
    tally[ENCODE_CALL]++;
    count_call(&c, expected, ENCODE_REFUSED);
    check_call(&c, answer, expected);
    if (answer < 0)
        return out.at;
    count_room(c.room, (size_t)answer, ROOM_EXACT);
    if (memcmp(out.at, c.octets, c.n) || !ref_is_code_word(out.at, (size_t)answer, c.e))
        fail(&c, "what was written is no code word that begins with the unit", answer, expected);
    return out.at;
}

void try_receive(struct call c)
{
    c.name = "kyte_receive";
    lent_copy(&in, draw_place(), c.octets, c.n);
    lent_fill(&out, draw_place(), c.room);
    lent_fill(&list, draw_place(), c.entries);
    int32_t expected = ref_receive(c.octets, c.n, c.width, c.e, lent_expected(&out), c.room, lent_expected(&list), c.entries);
    int32_t answer = kyte_receive(in.at, c.n, c.width, c.e, out.at, c.room, list.at, c.entries);
    tally[RECEIVE_CALL]++;
    count_call(&c, expected, RECEIVE_REFUSED);
    check_received(&c, answer, expected);
    if (c.sent)
        check_sent(&c, answer);
    if (answer < 0)
        return;
    count_received(&c, answer);
    if (c.e >= 1 && c.e <= 3 && c.n <= 10 && draw(0, 3) == 0)
        check_counted(&c, answer);
}

void try_far(struct call c)
{
    lent_fill(&in, AMID, 0);
    lent_fill(&out, draw_place(), c.room);
    lent_fill(&list, draw_place(), c.entries);
    tally[INPUT] += 2;
    tally[LENGTH_FAR] += 2;
    check_call(&c, kyte_encode(c.octets, c.n, c.width, c.e, out.at, c.room), -KYTE_REFUSED_LENGTH);
    check_received(&c, kyte_receive(c.octets, c.n, c.width, c.e, out.at, c.room, list.at, c.entries), -KYTE_REFUSED_LENGTH);
}
