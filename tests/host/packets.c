/*
 * The C entries of packets against the second implementation of packet.c, on packets drawn from a seed: packets [SEED [PACKETS]].
 *
 * Ends at the first difference with status 1, and with status 1 too if some kind of packet was never tried.
 */
#define _DEFAULT_SOURCE
#include "draw.h"
#include "packet.h"
#include "packet_calls.h"
#include "packet_damage.h"
#include "packet_tally.h"

#include <stdio.h>
#include <stdlib.h>
#include <string.h>
#include <sys/mman.h>

#define PACKETS 60000

/* The packet at hand, and its octets. */
static struct packet packet;
static uint8_t octets[MOST_OCTETS + 16];

/* Lays the packet at hand, by the second implementation. */
static size_t lay(void)
{
    return (size_t)ref_packet_write(packet.opens, packet.code, packet.mark, packet.payload, packet.payload_len, octets, sizeof octets);
}

/* ---- packets worked out by hand from B.3.2.1.3: the fill packet; and rows 1, 5 and 12 of the matrix, for MC1, MPL1 and MPL8 alone */

struct example {
    uint32_t opens, code, mark;
    size_t length; /* of a payload of octets 0 */
    uint8_t front[5], end[2];
};

static const struct example examples[] = {
    { 0, 0, 0, 0, { 0xE1, 0x4D, 0x00, 0x00, 0x00 }, { 0xE1, 0x4D } },
    { 1, 0, 0, 0, { 0x1E, 0xB2, 0x00, 0x00, 0x00 }, { 0xE1, 0x4D } },
    { 0, 1, 1, 0, { 0xE1, 0x4D, 0x01, 0x50, 0xC7 }, { 0x1E, 0xB2 } },
    { 1, 0, 1, 1, { 0x1E, 0xB2, 0x10, 0x30, 0x9B }, { 0x1E, 0xB2 } },
    { 0, 0, 0, 128, { 0xE1, 0x4D, 0x00, 0xA8, 0xE3 }, { 0xE1, 0x4D } },
};

/* The second implementation is held to the hand, and the library to both. */
static void try_examples(void)
{
    for (size_t i = 0; i < sizeof examples / sizeof *examples; i++) {
        const struct example *x = &examples[i];
        packet.opens = x->opens;
        packet.code = x->code;
        packet.mark = x->mark;
        packet.payload_len = x->length;
        memset(packet.payload, 0, x->length);
        size_t n = lay();
        tally[EXAMPLE]++;
        check_answer("the second implementation's packet", (int32_t)n, (int32_t)x->length + 7);
        check_answer("the second implementation's octets, which differ",
                     memcmp(octets, x->front, sizeof x->front) || memcmp(octets + n - 2, x->end, sizeof x->end), 0);
        try_write(&packet, n);
        try_read(octets, n);
    }
}

/* ---- what is drawn */

static uint32_t draw_form(void)
{
    static const uint32_t others[] = { 2, 16, 255, 256, 0x10000, 0x80000000, 0xFFFFFFFE };
    return draw(0, 7) ? (uint32_t)draw(0, 1) : others[draw(0, sizeof others / sizeof *others - 1)];
}

static uint32_t draw_bad_code(void)
{
    static const uint32_t codes[] = { 16, 17, 31, 32, 255, 256, 272, 65536, 0x80000000, 0xFFFFFFFF };
    return codes[draw(0, sizeof codes / sizeof *codes - 1)];
}

static size_t draw_length(void)
{
    switch (draw(0, 5)) {
    case 0: return draw(0, 2);
    case 1: return draw(252, 254);
    default: return draw(0, 254);
    }
}

static size_t draw_bad_length(void)
{
    switch (draw(0, 3)) {
    case 0: return 255;
    case 1: return 256 + draw(0, 7);
    case 2: return draw(255, 2000);
    default: return 65536 + draw(0, 300);
    }
}

static void draw_packet(uint32_t code, size_t length)
{
    packet.opens = draw_form();
    packet.code = code;
    packet.mark = draw_form();
    packet.payload_len = length;
    draw_octets(packet.payload, length);
}

static size_t draw_enough(size_t needed) { return draw(0, 1) ? needed : needed + draw(1, 300); }

static size_t draw_too_small(size_t needed) { return draw(0, 2) ? needed - draw(1, needed < 8 ? needed : 8) : draw(0, needed - 1); }

/* ---- packets */

static void write_one(void)
{
    draw_packet((uint32_t)draw(0, 15), draw(0, 15) ? draw_length() : 0);
    if (packet.payload_len == 0 && draw(0, 1))
        packet.code = 0;
    size_t n = lay();
    try_write(&packet, draw_enough(n));
    if (draw(0, 3) == 0)
        try_write(&packet, draw_too_small(n));
    try_read(octets, n);
    try_damaged(octets, n);
}

/* A packet that is refused for one reason or for several. */
static void refuse_one(void)
{
    enum { CODE = 1, LENGTH = 2, ROOM = 4 };
    size_t reasons = draw(1, 7);
    draw_packet(reasons & CODE ? draw_bad_code() : (uint32_t)draw(0, 15), reasons & LENGTH ? draw_bad_length() : draw_length());
    if (reasons & (reasons - 1))
        tally[SEVERAL]++;
    size_t n = packet.payload_len + 7;
    try_write(&packet, reasons & ROOM ? draw_too_small(n) : draw_enough(n));
}

static void try_every_room(void)
{
    draw_packet((uint32_t)draw(0, 15), draw(0, 12));
    size_t n = lay();
    tally[ROOM_EVERY]++;
    for (size_t room = 0; room <= n + 3; room++)
        try_write(&packet, room);
    try_damaged_everywhere(octets, n);
}

/* Packets one behind another, each written over the closing flag of the one before: all are read, each from the flag where the last ended. */
static void try_stream(void)
{
    static uint8_t stream[8 * KYTE_LONGEST_PACKET];
    size_t count = draw(2, 8), end = 0;
    uint32_t last = draw_form();
    int32_t told[8];
    for (size_t i = 0; i < count; i++) {
        draw_packet((uint32_t)draw(0, 15), draw_length());
        packet.opens = last;
        last = packet.mark;
        size_t at = i == 0 ? 0 : end - 2, n = packet.payload_len;
        int32_t answer = kyte_packet_write(packet.opens, packet.code, packet.mark, packet.payload, n, stream + at, sizeof stream - at);
        check_answer("kyte_packet_write, in a stream", answer, (int32_t)n + 7);
        draw_wrong_bits(stream + at + 2, draw(0, 3));
        told[i] = (int32_t)(packet.code + 16 * (packet.mark != 0) + 256 * n);
        end = at + (size_t)answer;
    }
    for (size_t i = 0, at = 0; i < count; at += kyte_packet_next(told[i]), i++) {
        tally[STREAM]++;
        check_answer("kyte_packet_read, in a stream", try_read(stream + at, end - at), told[i]);
    }
}

static void try_one(void)
{
    size_t r = draw(0, 99);
    if (r < 60)
        write_one();
    else if (r < 80)
        refuse_one();
    else if (r < 90)
        try_drawn();
    else
        try_stream();
    if (draw(0, 199) == 0)
        try_every_room();
}

/* ---- lengths and rooms whose high bits must not be lost; only the first octets of such a buffer are there to be written */

#define FAR ((size_t)1 << 32)
#define NEAR 65536

static void try_far_once(uint8_t *far, size_t more)
{
    uint8_t written[KYTE_LONGEST_PACKET];
    tally[FAR_LENGTH] += 3;
    check_answer("kyte_packet_write, far payload", kyte_packet_write(0, 3, 1, far, FAR + more, written, sizeof written), -2);
    check_answer("kyte_packet_write, far room", kyte_packet_write(0, 3, 1, packet.payload, 4, far, FAR + more), 11);
    check_answer("kyte_packet_read, far octets", kyte_packet_read(far, FAR + more), 3 + 16 + 256 * 4);
}

static void try_far(void)
{
    uint8_t *far = mmap(0, 2 * FAR + NEAR, PROT_READ, MAP_PRIVATE | MAP_ANONYMOUS | MAP_NORESERVE, -1, 0);
    if (far == MAP_FAILED || mprotect(far, NEAR, PROT_READ | PROT_WRITE)) {
        perror("try_far");
        exit(2);
    }
    draw_octets(packet.payload, 4);
    for (size_t more = 0; more < 16; more++)
        try_far_once(far, more);
    munmap(far, 2 * FAR + NEAR);
}

int main(int argc, char **argv)
{
    draw_seed(argc, argv);
    uint64_t packets = argc > 2 ? strtoull(argv[2], 0, 10) : PACKETS;
    calls_open();
    try_examples();
    try_far();
    for (uint64_t i = 0; i < packets; i++)
        try_one();
    return tally_print();
}
