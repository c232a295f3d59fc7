/*
 * One call of a C entry, compared with the second implementation: the answer, every lent octet and the octets around them. The first
 * difference is printed and ends the program with status 1.
 */
#ifndef CALLS_H
#define CALLS_H

#include <stddef.h>
#include <stdint.h>

/* A call. Of a word that is within e octets of what was sent, `sent` is what was sent and `wrong` says how many octets differ. */
struct call {
    const char *name;
    const uint8_t *octets; /* the unit, or the received word */
    size_t n;
    uint32_t width, e;
    size_t room;    /* of the output */
    size_t entries; /* of the list of places, which kyte_receive alone is lent */
    const uint8_t *sent;
    size_t wrong;
};

/* Makes the buffers to lend, once. */
void calls_open(void);

void try_length(struct call c);

/* Answers what the entry wrote. */
const uint8_t *try_encode(struct call c);

void try_receive(struct call c);

/* Sends and receives octets that are lent where they lie, so many that they must be refused. */
void try_far(struct call c);

/* How many octets of a sent unit are not the unit. */
size_t rest_of(uint32_t width, uint32_t e);

/* Prints what is not as it should be, and ends the program. */
void fail(const struct call *c, const char *what, int32_t answer, int32_t expected);

#endif
