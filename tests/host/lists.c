#include "lists.h"

#include "draw.h"
#include "record_tally.h"

#include <string.h>

/* ---- units in range */

/* Numbers whose octets tell a wrong order, and the lowest and highest of all, more often than others. */
static uint16_t draw_channel(void)
{
    static const uint16_t few[] = { 0, 1, 5, 255, 256, 257, 0x0201, 0x7FFF, 0x8000, 0xFF00, 0xFFFE, 0xFFFF };
    switch (draw(0, 2)) {
    case 0: return few[draw(0, sizeof few / sizeof *few - 1)];
    case 1: return (uint16_t)draw(0, 40);
    default: return (uint16_t)draw_bits();
    }
}

static void draw_channels(uint16_t *channels, size_t n)
{
    for (size_t i = 0; i < n; i++) {
        size_t k = 0;
        channels[i] = draw_channel();
        while (channels[k] != channels[i])
            k++;
        if (k < i)
            i--;
    }
}

static size_t draw_length(size_t longest)
{
    static const size_t few[] = { 1, 2, 255, 256, 257, 1023, 1024 };
    size_t length = draw(0, 9) ? draw(1, 4) : draw(0, 1) ? few[draw(0, sizeof few / sizeof *few - 1)] : draw(1, 1024);
    return length < longest ? length : longest;
}

static uint16_t draw_changed(unsigned badge)
{
    static const uint16_t few[] = { 1, 2, 126, 127 };
    if (badge == KYTE_CHECK_FAILED && draw(0, 2) == 0)
        return 0;
    if (badge != KYTE_CORRECTED && badge != KYTE_CHECK_FAILED)
        return 0;
    return draw(0, 1) ? few[draw(0, 3)] : (uint16_t)draw(1, 127);
}

void add_unit(struct list *l, uint16_t channel, size_t length)
{
    uint16_t *u = l->numbers + l->numbers_len;
    u[0] = channel;
    u[1] = (uint16_t)draw(0, 4);
    u[2] = draw_changed(u[1]);
    u[3] = (uint16_t)length;
    draw_octets(l->octets + l->octets_len, length);
    l->numbers_len += 4;
    l->octets_len += length;
    tally[BADGE + u[1]]++;
    tally[UNIT_SHORT] += length == 1;
    tally[UNIT_LONG] += length == 1024;
}

void draw_short_list(struct list *l, size_t units, size_t channels, size_t longest)
{
    uint16_t numbers[64] = { 0 };
    draw_channels(numbers, channels);
    l->numbers_len = l->octets_len = 0;
    for (size_t i = 0; i < units; i++)
        add_unit(l, numbers[i < channels ? i : draw(0, channels - 1)], draw_length(longest));
    tally[LIST]++;
    tally[LIST_NONE] += units == 0;
    tally[LIST_MANY] += units >= 100;
    if (units >= channels) {
        tally[CHANNELS_ONE] += channels == 1;
        tally[CHANNELS_FULL] += channels == 16;
        tally[CHANNELS_OVER] += channels > 16;
    }
}

void draw_list(struct list *l, size_t units, size_t channels) { draw_short_list(l, units, channels, 1024); }

/* ---- lists out of their form */

static void spoil_badge(uint16_t *u)
{
    uint16_t bad[] = { 5, 6, 255, (uint16_t)(256 + u[1]), (uint16_t)draw(5, 65535), 65535 };
    u[1] = bad[draw(0, 5)];
    tally[BAD_BADGE]++;
}

static void spoil_changed(uint16_t *u)
{
    uint16_t bad[] = { 128, 129, 255, (uint16_t)(256 + u[2]), (uint16_t)draw(128, 65535), 65535 };
    u[2] = bad[draw(0, 5)];
    if (u[1] != KYTE_CHECK_FAILED && draw(0, 1))
        u[2] = u[1] == KYTE_CORRECTED ? 0 : (uint16_t)draw(1, 127);
    tally[BAD_CHANGED]++;
}

/* The octets stay as many as the lengths say, so that the length alone is out of range. */
static void spoil_length(struct list *l, uint16_t *u)
{
    uint16_t bad[] = { 0, 0, 1025, 1026, 2048, (uint16_t)draw(1025, 65535), 65535 };
    size_t others = l->octets_len - u[3];
    u[3] = bad[draw(0, 6)];
    if (others + u[3] > l->octets_len)
        memset(l->octets + l->octets_len, 0x5A, others + u[3] - l->octets_len);
    l->octets_len = others + u[3];
    tally[BAD_LENGTH]++;
}

void spoil_unit(struct list *l)
{
    uint16_t *u = l->numbers + 4 * draw(0, l->numbers_len / 4 - 1);
    switch (draw(0, 2)) {
    case 0: spoil_badge(u); break;
    case 1: spoil_changed(u); break;
    default: spoil_length(l, u); break;
    }
}

static void spoil_sum(struct list *l)
{
    size_t sum = l->octets_len, bad[] = { 0, sum - 1, sum + 1, sum + 256, sum + 65536, draw(0, sum + 40) };
    l->octets_len = bad[draw(0, 5)];
    if (l->octets_len == sum || l->octets_len > sizeof l->octets)
        l->octets_len = sum + 1;
    tally[BAD_SUM]++;
}

static void spoil_fours(struct list *l)
{
    size_t more = draw(1, 3);
    for (size_t i = 0; i < more; i++)
        l->numbers[l->numbers_len + i] = (uint16_t)draw(0, 3);
    l->numbers_len += more;
    tally[BAD_FOURS]++;
}

void spoil_form(struct list *l)
{
    size_t which = l->numbers_len ? draw(0, 4) : draw(3, 4);
    if (which < 3)
        spoil_unit(l);
    else if (which == 3)
        spoil_sum(l);
    else
        spoil_fours(l);
}
