/*
 * What the header's functions read from an answer, against their equations (crates/kyteblossom/specs/Header.antt).
 */
#ifndef READING_H
#define READING_H

#include <stdint.h>

/* The first of the header's functions that reads the answer otherwise than its equation, or null. */
const char *reading_differs(int32_t answer, uint32_t width, const uint8_t *received, const uint8_t *repair);

/* The first of its functions for packets that reads an answer of kyte_packet_read, which was given for the octets, otherwise, or null. */
const char *packet_reading_differs(int32_t answer, const uint8_t *octets);

#endif
