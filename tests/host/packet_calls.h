/*
 * One call of a C entry of packets, compared with the second implementation of packet.c: the answer, all that was lent and what lies around
 * it, and what the header's functions take from the answer. What was written is read back, and what was read is written again. The first
 * difference is printed and ends the program with status 1.
 */
#ifndef PACKET_CALLS_H
#define PACKET_CALLS_H

#include "kyteblossom.h"

/* More octets than any payload or packet has that is lent. */
#define MOST_OCTETS 70000

/* A packet as it is handed to the writer. */
struct packet {
    uint32_t opens, code, mark;
    uint8_t payload[MOST_OCTETS];
    size_t payload_len;
};

/* Makes the buffers to lend, once. */
void calls_open(void);

/* Writes a packet with room for so many octets, and answers what was answered. */
int32_t try_write(const struct packet *p, size_t room);

/* Reads octets, and answers what was answered. */
int32_t try_read(const uint8_t *octets, size_t n);

/* Ends the program where an answer is not the expected one. */
void check_answer(const char *name, int32_t answer, int32_t expected);

#endif
