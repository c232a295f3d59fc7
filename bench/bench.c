/*
 * The C entries beside libfec. 'bench limits': every case at several e, on words of 255 octets without a check, and in which cells libfec
 * is the faster. 'bench lengths': the clean word at several lengths. 'bench checks': what a check costs. Each prints a markdown table of
 * the least microseconds of one call.
 */
#define _DEFAULT_SOURCE
#include "../tests/host/draw.h"
#include "kyteblossom.h"
#include "measure.h"

#include <fec.h>
#include <stdio.h>
#include <string.h>

#define N KYTE_LONGEST
#define WORDS 64
#define COUNT(list) (sizeof(list) / sizeof *(list))

static const unsigned limits[] = { 1, 2, 4, 8, 16, 32, 64, 127 };
#define LIMITS COUNT(limits)

/* The limit at which lengths and checks are measured. */
#define E 8

enum { ENCODE, CLEAN, WRONG, UNREACHED, CASES };

static const char *const names[CASES] = { "encode", "receive, clean", "receive, e wrong", "receive, out of reach" };

/* A code of n octets, libfec's tables for it, and words to be timed by turns; `out` is where both write, and each has a list of places. */
struct state {
    unsigned n, width, e;
    void *tables;
    uint8_t word[WORDS][N], out[N], places[KYTE_MOST_REPAIRS];
    int their_places[2 * KYTE_MOST_REPAIRS]; /* libfec asks for 2e */
};

static void begin(struct state *s, unsigned n, unsigned width, unsigned e)
{
    s->n = n;
    s->width = width;
    s->e = e;
    s->tables = init_rs_char(8, 0x11D, 1, 1, (int)(2 * e), (int)(N - n));
}

/* The octets before the check. */
static size_t unit_of(const struct state *s)
{
    return s->n - 2 * s->e - s->width / 8;
}

static int32_t receive(struct state *s, unsigned i)
{
    return kyte_receive(s->word[i], s->n, s->width, s->e, s->out, N, s->places, sizeof s->places);
}

/* ---- the calls that are timed; libfec repairs in place, so that the word is first copied */

static void our_encode(void *at, unsigned i)
{
    struct state *s = at;
    kyte_encode(s->word[i % WORDS], unit_of(s), s->width, s->e, s->out, N);
}

static void their_encode(void *at, unsigned i)
{
    struct state *s = at;
    memcpy(s->out, s->word[i % WORDS], s->n - 2 * s->e);
    encode_rs_char(s->tables, s->out, s->out + s->n - 2 * s->e);
}

static void our_receive(void *at, unsigned i)
{
    receive(at, i % WORDS);
}

static void their_receive(void *at, unsigned i)
{
    struct state *s = at;
    memcpy(s->out, s->word[i % WORDS], s->n);
    decode_rs_char(s->tables, s->out, s->their_places, 0);
}

/* ---- the words */

/* Whether both say of a word what the case is. */
static int is_case(struct state *s, unsigned i, int which)
{
    static const int badge[CASES] = { KYTE_CLEAN, KYTE_CLEAN, KYTE_CORRECTED, KYTE_OUT_OF_REACH };
    uint8_t copy[N];
    int32_t answer = receive(s, i);
    memcpy(copy, s->word[i], s->n);
    int theirs = decode_rs_char(s->tables, copy, s->their_places, 0);
    return kyte_badge(answer) == badge[which] && (which == UNREACHED ? theirs < 0 : theirs == (which == WRONG ? (int)s->e : 0));
}

/* A word of the case: a code word, one with e wrong octets, or drawn octets until neither finds a code word within e. */
static void draw_word(struct state *s, unsigned i, int which)
{
    do {
        uint8_t unit[N];
        draw_octets(unit, N);
        kyte_encode(unit, unit_of(s), s->width, s->e, s->word[i], N);
        if (which == WRONG)
            draw_damage(s->word[i], s->n, s->e);
        if (which == UNREACHED)
            memcpy(s->word[i], unit, s->n);
    } while (!is_case(s, i, which));
}

static void draw_words(struct state *s, int which)
{
    for (unsigned i = 0; i < WORDS; i++)
        draw_word(s, i, which);
}

/* The time of our call and of libfec's. */
static void measure(struct state *s, int which, double least[2])
{
    draw_words(s, which);
    if (which == ENCODE)
        measure_both(our_encode, their_encode, s, WORDS, least);
    else
        measure_both(our_receive, their_receive, s, WORDS, least);
}

/* ---- beside libfec */

static double times_faster(const double least[2])
{
    return least[1] / least[0];
}

static void print_cell(const double least[2])
{
    printf(" %.2f | %.2f | %.2f |", least[0], least[1], times_faster(least));
}

static void print_table(double least[LIMITS][CASES][2])
{
    printf("| e |");
    for (int c = 0; c < CASES; c++)
        printf(" %s: ours | libfec | times faster |", names[c]);
    printf("\n|--:|");
    for (int c = 0; c < CASES; c++)
        printf("--:|--:|--:|");
    printf("\n");
    for (size_t k = 0; k < LIMITS; k++) {
        printf("| %u |", limits[k]);
        for (int c = 0; c < CASES; c++)
            print_cell(least[k][c]);
        printf("\n");
    }
}

/* What libfec has and the library does without. The second is told of encoding where the unit is shorter than its parity. */
enum { PRODUCTS, STATE, REASONS };

static const char *const reasons[REASONS] = {
    [PRODUCTS] = "libfec reads its products from tables. The library works each out, which costs the more the fewer are worked out side by side.",
    [STATE] = "libfec has what depends on e alone from init_rs_char. The library keeps no state: each call works it out anew, and here the unit is "
              "shorter than its parity.",
};

static int reason_of(int which, unsigned e)
{
    return which == ENCODE && N - 2 * e < 2 * e ? STATE : PRODUCTS;
}

/* Of one case, the e at which libfec is the faster for the reason, as the table shows it: a ratio of 1.00 is not. How many there are. */
static int print_slower_case(double least[LIMITS][CASES][2], int which, int reason, const char *before)
{
    int slower = 0;
    for (size_t k = 0; k < LIMITS; k++) {
        double times = times_faster(least[k][which]);
        if (times < 0.995 && reason_of(which, limits[k]) == reason) {
            if (slower++)
                printf(", %u (%.2f)", limits[k], times);
            else
                printf("%s %s at e = %u (%.2f)", before, names[which], limits[k], times);
        }
    }
    return slower;
}

/* The cells in which libfec is the faster, by the reason. */
static void print_slower(double least[LIMITS][CASES][2])
{
    int all = 0;
    for (int r = 0; r < REASONS; r++) {
        int slower = 0;
        for (int c = 0; c < CASES; c++)
            slower += print_slower_case(least, c, r, slower ? ";" : "\nSlower than libfec:");
        if (slower)
            printf(". %s\n", reasons[r]);
        all += slower;
    }
    if (!all)
        printf("\nIn no cell is libfec the faster.\n");
}

static void print_limits(void)
{
    static struct state s;
    static double least[LIMITS][CASES][2];
    for (size_t k = 0; k < LIMITS; k++) {
        begin(&s, N, 0, limits[k]);
        for (int c = 0; c < CASES; c++)
            measure(&s, c, least[k][c]);
        free_rs_char(s.tables);
    }
    print_table(least);
    print_slower(least);
}

static void print_lengths(void)
{
    static struct state s;
    static const unsigned lengths[] = { 32, 64, 128, N };
    printf("| octets | %s, e = %d: ours | libfec | times faster |\n|--:|--:|--:|--:|\n", names[CLEAN], E);
    for (size_t k = 0; k < COUNT(lengths); k++) {
        double least[2];
        begin(&s, lengths[k], 0, E);
        measure(&s, CLEAN, least);
        free_rs_char(s.tables);
        printf("| %u |", lengths[k]);
        print_cell(least);
        printf("\n");
    }
    printf("\nThe library lays every word out to 255 octets, in 17 rows of 15, and takes all the rows at every length; libfec takes the word's octets.\n");
}

/* ---- the checks */

/* What is more than without a check, and its share of the whole. */
static void print_check(double without, double with)
{
    printf(" %.2f | %.2f | %.0f %% |", with, with - without, 100 * (with - without) / with);
}

static void print_checks(void)
{
    static struct state s[3];
    static const char *const checks[] = { "none", "8 bits", "16 bits" };
    struct measured encode[3], clean[3], all[6];
    for (unsigned k = 0; k < 3; k++) {
        begin(&s[k], N, 8 * k, E);
        draw_words(&s[k], CLEAN);
        all[k] = (struct measured){ our_encode, &s[k], 0 };
        all[3 + k] = (struct measured){ our_receive, &s[k], 0 };
        free_rs_char(s[k].tables);
    }
    measure_by_turns(all, 6, WORDS);
    memcpy(encode, all, sizeof encode);
    memcpy(clean, all + 3, sizeof clean);
    printf("| check | %s | the check | share | %s | the check | share |\n|---|--:|--:|--:|--:|--:|--:|\n", names[ENCODE], names[CLEAN]);
    printf("| %s | %.2f | | | %.2f | | |\n", checks[0], encode[0].least, clean[0].least);
    for (unsigned k = 1; k < 3; k++) {
        printf("| %s |", checks[k]);
        print_check(encode[0].least, encode[k].least);
        print_check(clean[0].least, clean[k].least);
        printf("\n");
    }
}

int main(int argc, char **argv)
{
    static const struct {
        const char *name;
        void (*print)(void);
    } parts[] = { { "limits", print_limits }, { "lengths", print_lengths }, { "checks", print_checks } };
    draw_from(1);
    for (size_t k = 0; k < COUNT(parts); k++)
        if (argc == 2 && strcmp(argv[1], parts[k].name) == 0) {
            parts[k].print();
            return 0;
        }
    fprintf(stderr, "usage: bench limits|lengths|checks\n");
    return 2;
}
