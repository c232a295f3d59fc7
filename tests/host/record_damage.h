/*
 * Records that are wrong in one way, made from a right one, and read.
 */
#ifndef RECORD_DAMAGE_H
#define RECORD_DAMAGE_H

#include "record_calls.h"

/* Reads the record of the list with one octet changed, cut short, with octets behind it, and with fields that belong elsewhere. */
void try_damaged(struct list *l, uint8_t *record, size_t n);

/* Reads the record with each octet changed by itself, and cut short to each length. */
void try_damaged_everywhere(uint8_t *record, size_t n);

/* Reads octets that are drawn: without any form, or with a trailer that has its mark and its length. */
void try_drawn(void);

#endif
