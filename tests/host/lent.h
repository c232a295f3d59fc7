/*
 * Octets lent to a call, with what lies around them watched: a guard of octets that must not change, or a page that may be neither
 * read nor written, right at their edge. `kept` is what the octets and their guards must be after the call.
 */
#ifndef LENT_H
#define LENT_H

#include <stddef.h>
#include <stdint.h>

enum place { AMID, AT_END, AT_START };

#define LENT_GUARD 32
#define LENT_AREA ((size_t)1 << 21)

struct lent {
    uint8_t *area; /* LENT_AREA octets between two pages without access */
    size_t element; /* octets of one element: what is lent is aligned to it */
    uint8_t *at;
    size_t length;
    size_t before, after; /* octets of the guards */
    uint8_t kept[LENT_AREA];
};

/* Makes the area, once, for elements of so many octets. */
void lent_open(struct lent *l, size_t element);

/* Lends `length` octets: amid guards, or with no access past their end or before their start. They and the guards hold a pattern. */
void lent_fill(struct lent *l, enum place place, size_t length);

/* Lends a copy of octets. */
void lent_copy(struct lent *l, enum place place, const uint8_t *octets, size_t length);

/* What the lent octets must be after the call, to be changed to what is expected. */
uint8_t *lent_expected(struct lent *l);

/* Whether the lent octets and the guards are what they must be. */
int lent_is_kept(const struct lent *l);

#endif
