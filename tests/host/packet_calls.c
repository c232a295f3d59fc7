#include "packet_calls.h"

#include "draw.h"
#include "lent.h"
#include "packet.h"
#include "packet_tally.h"
#include "reading.h"

#include <stdio.h>
#include <stdlib.h>
#include <string.h>

static struct lent payload, packet;

/* The call at hand, to be told of where it differs. */
static const char *name;

void calls_open(void)
{
    lent_open(&payload, 1);
    lent_open(&packet, 1);
}

static void fail(const char *what, int32_t answer, int32_t expected)
{
    printf("DIFFERS at input %llu: %s, a payload of %zu octets, a packet of %zu octets: %s; the answer is %d, expected %d\n",
           (unsigned long long)tally[INPUT], name, payload.length, packet.length, what, (int)answer, (int)expected);
    for (size_t i = 0; i < packet.length && i < 8; i++)
        printf("%02X ", packet.at[i]);
    printf("\n");
    exit(1);
}

void check_answer(const char *call, int32_t answer, int32_t expected)
{
    name = call;
    tally[INPUT]++;
    if (answer != expected)
        fail("another answer", answer, expected);
}

/* ---- what is counted */

static enum place draw_place(void)
{
    enum place place = (enum place)draw(AMID, AT_START);
    tally[PLACED + place]++;
    return place;
}

static enum kind kind_of_write(int32_t answer)
{
    switch (answer) {
    case -KYTE_REFUSED_CODE: return WRITE_REFUSED_4;
    case -KYTE_REFUSED_LENGTH: return WRITE_REFUSED_2;
    case -KYTE_REFUSED_ROOM: return WRITE_REFUSED_3;
    default: return WRITE_TOLD;
    }
}

static enum kind kind_of_read(int32_t answer)
{
    switch (answer) {
    case -KYTE_REFUSED_FORM: return READ_REFUSED_15;
    case -KYTE_REFUSED_HEADER: return READ_REFUSED_17;
    case -KYTE_REFUSED_LENGTH: return READ_REFUSED_2;
    default: return READ_TOLD;
    }
}

static void count_packet(const struct packet *p, int32_t answer)
{
    tally[WRITE_CALL]++;
    tally[kind_of_write(answer)]++;
    tally[FORM_OTHER] += p->opens > 1 || p->mark > 1;
    tally[CODE_OVER] += p->code > 15;
    tally[PAYLOAD_ONE] += p->payload_len == 1;
    tally[PAYLOAD_LONGEST] += p->payload_len == KYTE_LONGEST_PAYLOAD;
    tally[PAYLOAD_255] += p->payload_len == 255;
    tally[PAYLOAD_LONG] += p->payload_len > 255;
    if (answer < 0)
        return;
    tally[FILL] += p->code == 0 && p->payload_len == 0;
    tally[p->opens ? OPENS_COMPLEMENTED : OPENS]++;
    tally[p->mark ? MARK_COMPLEMENTED : MARK]++;
    tally[packet.length == (size_t)answer ? ROOM_EXACT : ROOM_MORE]++;
}

/* ---- what is compared */

static void check_lent(int32_t answer, int32_t expected)
{
    check_answer(name, answer, expected);
    if (!lent_is_kept(&payload))
        fail("the payload or what lies around it is not as it should be", answer, expected);
    if (!lent_is_kept(&packet))
        fail("the packet or what lies around it is not as it should be", answer, expected);
}

/* What was written says what was handed in, by the header's functions, and the payload lies there. */
static void check_read_back(const struct packet *p, size_t n)
{
    int32_t answer = kyte_packet_read(packet.at, n);
    if (kyte_packet_code(answer) != (int)p->code || kyte_packet_mark(answer) != (p->mark != 0) ||
        kyte_packet_length(answer) != p->payload_len || kyte_packet_next(answer) != n - 2 ||
        memcmp(kyte_packet_payload(packet.at, answer), p->payload, p->payload_len))
        fail("reading what was written does not tell what was handed in", answer, (int32_t)n);
}

/* What was read gives the same octets, but for at most three bits of the header, which are counted. */
static void check_written_again(int32_t told)
{
    uint8_t again[KYTE_LONGEST_PACKET];
    size_t n = kyte_packet_next(told) + 2;
    int32_t answer = kyte_packet_write(packet.at[0] == 0x1E, (uint32_t)kyte_packet_code(told), (uint32_t)kyte_packet_mark(told),
                                       kyte_packet_payload(packet.at, told), kyte_packet_length(told), again, sizeof again);
    int wrong = ref_wrong_bits(again + 2, packet.at + 2);
    if (answer != (int32_t)n || wrong > 3 || memcmp(again, packet.at, 2) || memcmp(again + 5, packet.at + 5, n - 5))
        fail("writing what was read does not give the same octets", answer, (int32_t)n);
    tally[WRONG + wrong]++;
}

/* ---- the calls */

int32_t try_write(const struct packet *p, size_t room)
{
    name = "kyte_packet_write";
    lent_copy(&payload, draw_place(), p->payload, p->payload_len);
    lent_fill(&packet, draw_place(), room);
    int32_t expected = ref_packet_write(p->opens, p->code, p->mark, p->payload, p->payload_len, lent_expected(&packet), room);
    int32_t answer = kyte_packet_write(p->opens, p->code, p->mark, payload.at, p->payload_len, packet.at, room);
    count_packet(p, expected);
    check_lent(answer, expected);
    if (answer >= 0)
        check_read_back(p, (size_t)answer);
    return answer;
}

int32_t try_read(const uint8_t *octets, size_t n)
{
    name = "kyte_packet_read";
    lent_fill(&payload, AMID, 0);
    lent_copy(&packet, draw_place(), octets, n);
    int32_t expected = ref_packet_read(octets, n), answer = kyte_packet_read(packet.at, n);
    tally[READ_CALL]++;
    tally[kind_of_read(expected)]++;
    check_lent(answer, expected);
    const char *differs = packet_reading_differs(answer, packet.at);
    if (differs)
        fail(differs, answer, expected);
    if (answer >= 0)
        check_written_again(answer);
    return answer;
}
