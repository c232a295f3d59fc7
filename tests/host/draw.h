/*
 * Numbers drawn from a seed: the same seed, the same numbers.
 */
#ifndef DRAW_H
#define DRAW_H

#include <stddef.h>
#include <stdint.h>

/* Begins anew from a seed. */
void draw_from(uint64_t seed);

/* Begins from the seed in the first argument, or else from the clock, and prints it. */
void draw_seed(int argc, char **argv);

uint64_t draw_bits(void);

/* A number from low to high, both included. */
size_t draw(size_t low, size_t high);

void draw_octets(uint8_t *at, size_t n);

/* Makes exactly `wrong` of the n octets, at most 255, differ from what they were. */
void draw_damage(uint8_t *word, size_t n, size_t wrong);

#endif
