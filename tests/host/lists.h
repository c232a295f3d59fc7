/*
 * Lists of units drawn from the seed, and spoilt.
 */
#ifndef LISTS_H
#define LISTS_H

#include "record_calls.h"

/* Draws a list of so many units on so many channels, each of which has a unit where there are enough units. */
void draw_list(struct list *l, size_t units, size_t channels);

/* The same with units of at most so many octets. */
void draw_short_list(struct list *l, size_t units, size_t channels, size_t longest);

/* Adds a unit that is in range, of so many octets, on a channel. */
void add_unit(struct list *l, uint16_t channel, size_t length);

/* Takes one unit of the list out of range: its badge, its changed count or its length, with its octets there. */
void spoil_unit(struct list *l);

/* Takes the list out of its form: a unit out of range, lengths that do not add up, or numbers that are not four to a unit. */
void spoil_form(struct list *l);

#endif
