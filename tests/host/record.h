/*
 * The call record (document 02, ticket 1) once more, written from the ticket and not from the library: plain and slow. The writer lays
 * each field from the list of units alone; the reader goes through a record's octets and shares with the writer the ranges alone.
 */
#ifndef RECORD_H
#define RECORD_H

#include <stddef.h>
#include <stdint.h>

/* The answers of kyte_record_write and kyte_record_read. */
int32_t ref_record_write(const uint16_t *units, size_t units_len, const uint8_t *octets, size_t octets_len, uint8_t *record,
                         size_t record_len);
int32_t ref_record_read(const uint8_t *record, size_t record_len, uint16_t *units, size_t units_len, uint8_t *octets, size_t octets_len);

/*
 * Lays the record of `count` units without any test, so that the reader can be shown what no writer writes: units out of range, too many
 * octets, and of more than 16 channels the trailer of the lowest 16. Answers how many octets it has.
 */
size_t ref_record_lay(const uint16_t *units, size_t count, const uint8_t *octets, uint8_t *record);

/* Writes a number in so many octets, high octet first, and answers where the next one goes; and reads one. */
uint8_t *ref_put(uint8_t *at, uint32_t number, int width);
uint32_t ref_get(const uint8_t *at, int width);

#endif
