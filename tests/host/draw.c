#include "draw.h"

#include <stdio.h>
#include <stdlib.h>
#include <time.h>

static uint64_t state;

void draw_from(uint64_t seed) { state = seed; }

void draw_seed(int argc, char **argv)
{
    draw_from(argc > 1 ? strtoull(argv[1], 0, 10) : (uint64_t)time(0));
    printf("seed %llu\n", (unsigned long long)state);
    fflush(stdout);
}

/* splitmix64 (Steele, Lea and Flood, 2014) */
uint64_t draw_bits(void)
{
    uint64_t z = state += 0x9E3779B97F4A7C15;
    z = (z ^ z >> 30) * 0xBF58476D1CE4E5B9;
    z = (z ^ z >> 27) * 0x94D049BB133111EB;
    return z ^ z >> 31;
}

size_t draw(size_t low, size_t high) { return low + (size_t)(draw_bits() % (high - low + 1)); }

void draw_octets(uint8_t *at, size_t n)
{
    for (size_t i = 0; i < n; i++)
        at[i] = (uint8_t)draw_bits();
}

void draw_damage(uint8_t *word, size_t n, size_t wrong)
{
    uint8_t is_hit[255] = { 0 };
    while (wrong > 0) {
        size_t place = draw(0, n - 1);
        if (is_hit[place])
            continue;
        is_hit[place] = 1;
        word[place] ^= (uint8_t)draw(1, 255);
        wrong--;
    }
}
