/*
 * Counts of inputs by their kind, printed.
 */
#ifndef COUNTS_H
#define COUNTS_H

#include <stdint.h>

/* Prints each count with its name. Answers 1 if one is 0, since a kind that was never tried shows nothing, and else 0. */
int counts_print(const uint64_t *counts, const char *const *names, int n);

#endif
