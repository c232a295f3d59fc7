/*
 * The C entries against libfec (Debian's libfec-dev), an implementation by other authors: libfec [SEED].
 *
 * Units are sent by both, and words received by both, without a check. They must agree on every word within e octets of a code word, and
 * on the places of the octets that they repair.
 * Where the library says out of reach, what libfec calls corrected is only counted, after a test that it is no code word within e.
 */
#include "draw.h"
#include "kyteblossom.h"
#include "reference.h"

#include <fec.h>
#include <stdio.h>
#include <stdlib.h>
#include <string.h>

#define CODES 2400
#define WORDS 25

static uint64_t units, within, past, past_corrected;

/* A code of n octets and libfec's tables for it. */
struct code {
    unsigned e;
    size_t n;
    void *tables;
};

static void fail(const struct code *c, const char *what)
{
    printf("DIFFERS from libfec: n %zu, e %u: %s\n", c->n, c->e, what);
    exit(1);
}

static void draw_code(struct code *c)
{
    c->e = (unsigned)(draw(0, 19) ? draw(0, 3) ? draw(1, 8) : draw(9, 32) : draw(33, 127));
    c->n = draw(0, 2) ? draw(1 + 2 * c->e, 255) : 255;
    c->tables = init_rs_char(8, 0x11D, 1, 1, (int)(2 * c->e), (int)(255 - c->n));
    if (!c->tables)
        fail(c, "it makes no such code");
}

/* Sends a drawn unit by both. */
static void send(const struct code *c, uint8_t *word)
{
    uint8_t unit[255], theirs[255];
    size_t t = c->n - 2 * c->e;
    draw_octets(unit, t);
    memcpy(theirs, unit, t);
    encode_rs_char(c->tables, theirs, theirs + t);
    if (kyte_encode(unit, t, 0, c->e, word, c->n) != (int32_t)c->n || memcmp(word, theirs, c->n))
        fail(c, "another sent word");
    units++;
}

static int by_place(const void *a, const void *b) { return *(const int *)a - *(const int *)b; }

/* Whether the places that libfec tells, in any order, are those of the list. */
static int is_listed(int *theirs, size_t count, const uint8_t *ours)
{
    size_t i = 0;
    qsort(theirs, count, sizeof *theirs, by_place);
    while (i < count && theirs[i] == ours[i])
        i++;
    return i == count;
}

/* Receives a word by both. */
static void receive(const struct code *c, const uint8_t *word)
{
    uint8_t ours[255], theirs[255], places[KYTE_MOST_REPAIRS], differing[255];
    int their_places[2 * KYTE_MOST_REPAIRS]; /* libfec asks for 2e */
    memcpy(theirs, word, c->n);
    int32_t answer = kyte_receive(word, c->n, 0, c->e, ours, c->n, places, sizeof places);
    int corrected = decode_rs_char(c->tables, theirs, their_places, 0);
    size_t differ = ref_differing(theirs, word, c->n, differing);
    if (kyte_badge(answer) == KYTE_CLEAN || kyte_badge(answer) == KYTE_CORRECTED) {
        within++;
        if (corrected < 0 || (size_t)corrected != kyte_changed(answer) || memcmp(ours, theirs, c->n))
            fail(c, "another repair");
        if (!is_listed(their_places, (size_t)corrected, places))
            fail(c, "other places");
        return;
    }
    past++;
    if (kyte_badge(answer) != KYTE_OUT_OF_REACH)
        fail(c, "a word of the code is refused");
    if (corrected < 0)
        return;
    past_corrected++;
    if (differ <= c->e && ref_is_code_word(theirs, c->n, c->e))
        fail(c, "it finds a code word where ours says out of reach");
}

/* A word as it was sent, with up to e wrong octets, with a few more, or drawn. Within e it must be handed up. */
static void try_word(const struct code *c)
{
    uint8_t word[255];
    uint64_t before = within;
    size_t kind = draw(0, 4), wrong = kind < 2 ? draw(0, c->e) : c->e + kind - 2;
    send(c, word);
    if (kind == 4)
        draw_octets(word, c->n);
    else
        draw_damage(word, c->n, wrong);
    receive(c, word);
    if (kind < 3 && within == before)
        fail(c, "a word within e octets is not repaired");
}

int main(int argc, char **argv)
{
    draw_seed(argc, argv);
    ref_init();
    for (int i = 0; i < CODES; i++) {
        struct code c;
        draw_code(&c);
        for (int j = 0; j < WORDS; j++)
            try_word(&c);
        free_rs_char(c.tables);
    }
    printf("%8llu units sent alike\n", (unsigned long long)units);
    printf("%8llu words within e octets received alike\n", (unsigned long long)within);
    printf("%8llu words out of reach\n", (unsigned long long)past);
    printf("%8llu of these called corrected by libfec, with no code word within e octets\n", (unsigned long long)past_corrected);
    return !units || !within || !past;
}
