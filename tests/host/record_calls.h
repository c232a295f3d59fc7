/*
 * One call of a C entry of records, compared with the second implementation of record.c: the answer, all that was lent and what lies
 * around it. What was written is read back, and what was read is written again. The first difference is printed and ends the program
 * with status 1.
 */
#ifndef RECORD_CALLS_H
#define RECORD_CALLS_H

#include "kyteblossom.h"

/* More numbers than any list has that is tried, past the limits or not. */
#define MOST_NUMBERS (4 * KYTE_RECORD_UNITS + 64)

/* A list of units as it is lent. */
struct list {
    uint16_t numbers[MOST_NUMBERS];
    size_t numbers_len;
    uint8_t octets[KYTE_RECORD_OCTETS + 131072];
    size_t octets_len;
};

/* Makes the buffers to lend, once. */
void calls_open(void);

/* How many octets the record of a list takes. */
size_t room_of(const struct list *l);

/* Writes a list with room for so many octets, and answers what was answered. */
int32_t try_write(const struct list *l, size_t room);

/* Reads octets with room for so many numbers and octets, and answers what was answered. */
int32_t try_read(const uint8_t *octets, size_t n, size_t numbers_room, size_t octets_room);

/* Reads octets with as much room as so many can need, and perhaps more. */
int32_t try_read_whole(const uint8_t *octets, size_t n);

/* Ends the program where an answer is not the expected one. */
void check_answer(const char *name, int32_t answer, int32_t expected);

#endif
