/*
 * AL1M (document 01, "AL1M units") once more, written from the documents and not from the library: in C, the field by sums of exponents,
 * the checks bit by bit, the repair by Euclid's algorithm. What it finds it tests: a repaired word is a code word, by all its syndromes,
 * and differs in at most e octets.
 */
#ifndef REFERENCE_H
#define REFERENCE_H

#include <stddef.h>
#include <stdint.h>

void ref_init(void);

/* The answers of kyte_length, kyte_encode and kyte_receive. */
int32_t ref_length(size_t unit, uint32_t width, uint32_t e);
int32_t ref_encode(const uint8_t *unit, size_t unit_len, uint32_t width, uint32_t e, uint8_t *sent, size_t sent_len);
int32_t ref_receive(const uint8_t *received, size_t n, uint32_t width, uint32_t e, uint8_t *repair, size_t repair_len, uint8_t *places,
                    size_t places_len);

/* The places in which two words of n octets differ, from 0 at the first octet and ascending, go to `places`: how many there are. */
size_t ref_differing(const uint8_t *a, const uint8_t *b, size_t n, uint8_t *places);

/* Whether g divides the word. */
int ref_is_code_word(const uint8_t *word, size_t n, unsigned e);

/* How many code words of n octets differ from the word in at most one octet: tried one by one. The last one found goes to `found`. */
int ref_count_within_one(const uint8_t *word, size_t n, unsigned e, uint8_t *found);

#endif
