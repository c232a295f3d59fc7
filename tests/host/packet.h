/*
 * Packets of level 2 (document 02, ticket 4) once more, written from the ticket and document 000, B.3.1 to B.3.3, and not from the library:
 * plain and slow. The header is laid by the print of figure B.2, its parity by the matrix in the print of B.3.2.1.3, which is transposed as
 * the equation there says; and it is read by comparing it with all 4,096 words of the code.
 */
#ifndef PACKET_H
#define PACKET_H

#include <stddef.h>
#include <stdint.h>

#define REF_WORDS 4096

/* The answers of kyte_packet_write and kyte_packet_read. */
int32_t ref_packet_write(uint32_t opens, uint32_t code, uint32_t mark, const uint8_t *payload, size_t payload_len, uint8_t *packet,
                         size_t packet_len);
int32_t ref_packet_read(const uint8_t *octets, size_t octets_len);

/* Lays the two octets of the flag, or of its complement. */
void ref_flag(int is_complemented, uint8_t *at);

/* Lays the three octets of the header of a code from 0 to 15 and a length from 0 to 255. */
void ref_header(unsigned code, unsigned length, uint8_t *at);

/* In how many bits two headers differ. */
int ref_wrong_bits(const uint8_t *header, const uint8_t *other);

/* In how many bits a header differs from the word of the code that is nearest, and code + 16 length of that one. */
int ref_nearest(const uint8_t *header, unsigned *data);

#endif
