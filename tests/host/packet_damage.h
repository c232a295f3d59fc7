/*
 * Packets that are wrong in one way or in several, made from a right one, and read.
 */
#ifndef PACKET_DAMAGE_H
#define PACKET_DAMAGE_H

#include <stddef.h>
#include <stdint.h>

/* Makes exactly so many bits of the three octets of a header wrong. */
void draw_wrong_bits(uint8_t *header, size_t wrong);

/* Reads the packet with wrong bits in its header, with flags that are neither form, cut short, with octets behind it, and so on at once. */
void try_damaged(const uint8_t *packet, size_t n);

/* Reads the packet with each bit changed by itself, and cut short to each length. */
void try_damaged_everywhere(const uint8_t *packet, size_t n);

/* Reads octets that are drawn: without any form, or behind a flag. */
void try_drawn(void);

#endif
