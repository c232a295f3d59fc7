#include "packet_damage.h"

#include "draw.h"
#include "packet.h"
#include "packet_calls.h"
#include "packet_tally.h"

#include <string.h>

#define MOST (KYTE_LONGEST_PACKET + 300)

/* The packet at hand, as it is to be damaged. */
static uint8_t octets[MOST];

/* ---- headers */

void draw_wrong_bits(uint8_t *header, size_t wrong)
{
    uint8_t is_hit[24] = { 0 };
    while (wrong > 0) {
        size_t bit = draw(0, 23);
        if (is_hit[bit])
            continue;
        is_hit[bit] = 1;
        header[bit / 8] ^= (uint8_t)(1 << bit % 8);
        wrong--;
    }
}

static void spoil_header(void)
{
    size_t wrong = draw(1, 6);
    if (wrong > 5)
        wrong = draw(5, 24);
    if (wrong > 3)
        tally[wrong == 4 ? WRONG_4 : WRONG_MORE]++;
    draw_wrong_bits(octets + 2, wrong);
}

/* A length of 255, whose octets and closing flag are there. */
static size_t say_255(void)
{
    tally[LENGTH_255]++;
    ref_header((unsigned)draw(0, 15), 255, octets + 2);
    draw_wrong_bits(octets + 2, draw(0, 3));
    memset(octets + KYTE_PACKET_BEFORE, 0, 255);
    ref_flag((int)draw(0, 1), octets + KYTE_PACKET_BEFORE + 255);
    return KYTE_PACKET_BEFORE + 255 + 2;
}

/* ---- flags */

/* Another two octets than either form has. */
static void spoil_flag(uint8_t *flag)
{
    uint8_t forms[2][2];
    ref_flag(0, forms[0]);
    ref_flag(1, forms[1]);
    switch (draw(0, 3)) {
    case 0:
        tally[FORMS_MIXED]++;
        flag[1] = forms[flag[0] == forms[0][0]][1];
        break;
    case 1:
        flag[0] = forms[0][1];
        flag[1] = forms[0][0];
        break;
    case 2: flag[draw(0, 1)] ^= (uint8_t)(1 << draw(0, 7)); break;
    default:
        do
            draw_octets(flag, 2);
        while (!memcmp(flag, forms[0], 2) || !memcmp(flag, forms[1], 2));
    }
}

/* ---- packets */

static size_t cut(size_t n)
{
    tally[CUT]++;
    return draw(0, 1) ? n - draw(1, 3) : draw(0, n - 1);
}

static void try_longer(size_t n)
{
    size_t more = draw(1, 200);
    tally[LONGER]++;
    draw_octets(octets + n, more);
    try_read(octets, n + more);
}

/* Several parts wrong at once: the first that is tested tells. */
static void try_several(size_t n)
{
    enum { OPENING = 1, HEADER = 2, LENGTH = 4, CLOSING = 8, SHORT = 16 };
    size_t parts = draw(1, 31);
    if (parts & (parts - 1))
        tally[BOTH_BAD]++;
    if (parts & LENGTH)
        n = say_255();
    if (parts & OPENING)
        spoil_flag(octets);
    if (parts & HEADER)
        spoil_header();
    if (parts & CLOSING)
        spoil_flag(octets + n - 2);
    try_read(octets, parts & SHORT ? cut(n) : n);
}

void try_damaged(const uint8_t *packet, size_t n)
{
    memcpy(octets, packet, n);
    switch (draw(0, 6)) {
    case 0:
    case 1:
        spoil_header();
        try_read(octets, n);
        break;
    case 2:
        tally[OPENING_BAD]++;
        spoil_flag(octets);
        try_read(octets, n);
        break;
    case 3:
        tally[CLOSING_BAD]++;
        spoil_flag(octets + n - 2);
        try_read(octets, n);
        break;
    case 4: try_read(octets, draw(0, 1) ? cut(n) : say_255()); break;
    case 5:
        draw_wrong_bits(octets + 2, draw(0, 3));
        try_longer(n);
        break;
    default: try_several(n);
    }
}

void try_damaged_everywhere(const uint8_t *packet, size_t n)
{
    memcpy(octets, packet, n);
    tally[CHANGED_EVERY]++;
    for (size_t bit = 0; bit < 8 * n; bit++) {
        octets[bit / 8] ^= (uint8_t)(1 << bit % 8);
        try_read(octets, n);
        octets[bit / 8] ^= (uint8_t)(1 << bit % 8);
    }
    for (size_t short_of = 0; short_of <= n; short_of++)
        try_read(octets, short_of);
}

void try_drawn(void)
{
    size_t n = draw(0, 40);
    draw_octets(octets, n);
    tally[DRAWN]++;
    try_read(octets, n);
    if (n < 2)
        return;
    ref_flag((int)draw(0, 1), octets);
    tally[DRAWN_FLAGGED]++;
    try_read(octets, n);
}
