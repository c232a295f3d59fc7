/*
 * Wrong libraries, to see that packets notices: linked with --wrap before the C entries, each spoils writing or reading in the one way that
 * the environment names (KYTE_FAULT). './packets' must then end with status 1. Without a name nothing is spoilt.
 */
#include "kyteblossom.h"
#include "packet.h"

#include <stdlib.h>
#include <string.h>

int32_t __real_kyte_packet_write(uint32_t opens, uint32_t code, uint32_t mark, const uint8_t *payload, size_t payload_len, uint8_t *packet,
                                 size_t packet_len);
int32_t __real_kyte_packet_read(const uint8_t *octets, size_t octets_len);

static int is_fault(const char *name)
{
    const char *fault = getenv("KYTE_FAULT");
    return fault && strcmp(fault, name) == 0;
}

/* ---- writing */

/* The header's parity by the matrix as it stands, and not transposed. */
static void untranspose(uint8_t *header)
{
    unsigned data = header[0] | (header[1] & 15u) << 8, parity = 0;
    for (int j = 0; j < 12; j++)
        for (int i = 0; i < 12; i++) {
            uint8_t row[3];
            ref_header(j < 4 ? 1u << j : 0, j < 4 ? 0 : 1u << (j - 4), row);
            parity ^= ((row[1] >> 4 | (unsigned)row[2] << 4) >> i & data >> i & 1) << j;
        }
    header[1] = (uint8_t)((header[1] & 15) | (parity & 15) << 4);
    header[2] = (uint8_t)(parity >> 4);
}

/* The packet's octets, n of them, as some wrong writer leaves them. */
static void spoil_packet(uint8_t *packet, size_t n)
{
    uint8_t closing[2] = { packet[n - 2], packet[n - 1] };
    if (is_fault("write-untransposed"))
        untranspose(packet + 2);
    if (is_fault("write-parity-none"))
        packet[4] = 0;
    if (is_fault("write-nibbles"))
        packet[2] = (uint8_t)(packet[2] << 4 | packet[2] >> 4);
    if (is_fault("write-header-order")) {
        uint8_t first = packet[2];
        packet[2] = packet[4];
        packet[4] = first;
    }
    if (is_fault("write-flag-order")) {
        packet[n - 2] = closing[1];
        packet[n - 1] = closing[0];
    }
    if (is_fault("write-half-complement") && closing[0] == 0x1E)
        packet[n - 1] = 0x4D;
    if (is_fault("write-mark-opens"))
        memcpy(packet, closing, 2);
    if (is_fault("write-payload") && n > 9)
        packet[n - 3] ^= 1;
}

/* What is refused that should be taken, taken that should be refused, or refused for another reason. */
static int32_t written(uint32_t opens, uint32_t code, uint32_t mark, const uint8_t *payload, size_t payload_len, uint8_t *packet,
                       size_t packet_len)
{
    if (is_fault("write-code-low-bits"))
        code &= 15;
    if (is_fault("write-length-low-bits"))
        payload_len = (uint32_t)payload_len;
    if (is_fault("write-room-low-bits"))
        packet_len = (uint32_t)packet_len;
    if (is_fault("write-opens-low-bit"))
        opens &= 1;
    if (is_fault("write-mark-low-bit"))
        mark &= 1;
    if (is_fault("write-opens-plain"))
        opens = 0;
    int32_t answer = __real_kyte_packet_write(opens, code, mark, payload, payload_len, packet, packet_len);
    int is_long = payload_len > KYTE_LONGEST_PAYLOAD, is_cramped = packet_len < payload_len + KYTE_PACKET_AROUND;
    if (is_fault("write-order-4-2") && answer == -KYTE_REFUSED_CODE && is_long)
        return -KYTE_REFUSED_LENGTH;
    if (is_fault("write-order-4-3") && answer == -KYTE_REFUSED_CODE && is_cramped)
        return -KYTE_REFUSED_ROOM;
    if (is_fault("write-order-2-3") && answer == -KYTE_REFUSED_LENGTH && is_cramped)
        return -KYTE_REFUSED_ROOM;
    if (is_fault("write-longest") && payload_len == KYTE_LONGEST_PAYLOAD && answer > 0)
        return -KYTE_REFUSED_LENGTH;
    if (is_fault("write-255") && payload_len == 255 && answer == -KYTE_REFUSED_LENGTH && !is_cramped)
        return 255 + KYTE_PACKET_AROUND;
    if (is_fault("write-fill") && code == 0 && payload_len == 0 && answer > 0)
        return -KYTE_REFUSED_LENGTH;
    if (is_fault("write-room-strict") && answer > 0 && packet_len == (size_t)answer)
        return -KYTE_REFUSED_ROOM;
    return answer;
}

int32_t __wrap_kyte_packet_write(uint32_t opens, uint32_t code, uint32_t mark, const uint8_t *payload, size_t payload_len, uint8_t *packet,
                                 size_t packet_len)
{
    int32_t answer = written(opens, code, mark, payload, payload_len, packet, packet_len);
    if (is_fault("write-refused") && answer < 0 && packet_len > 0)
        packet[0] ^= 1;
    if (is_fault("write-flag-first") && answer == -KYTE_REFUSED_ROOM && packet_len >= 2)
        ref_flag(opens != 0, packet);
    if (answer < 0)
        return answer;
    if ((size_t)answer == payload_len + KYTE_PACKET_AROUND && payload_len <= KYTE_LONGEST_PAYLOAD)
        spoil_packet(packet, (size_t)answer);
    if (is_fault("packet-past") && packet_len > (size_t)answer)
        packet[answer] ^= 1;
    if (is_fault("packet-after"))
        packet[packet_len] ^= 1;
    if (is_fault("payload-touched") && payload_len > 0)
        ((uint8_t *)payload)[0] ^= 1;
    if (is_fault("write-answer"))
        return answer - KYTE_PACKET_AROUND;
    return is_fault("write-answer-next") ? answer - 2 : answer;
}

/* ---- reading */

/* Whether the octets begin with a flag and a header. */
static int is_headed(const uint8_t *octets, size_t n)
{
    uint8_t forms[2][2];
    ref_flag(0, forms[0]);
    ref_flag(1, forms[1]);
    return n >= KYTE_PACKET_BEFORE && (!memcmp(octets, forms[0], 2) || !memcmp(octets, forms[1], 2));
}

/* The answer of a reader that takes the nearest header if it has at most so many wrong bits, and any closing flag where `any` says so. */
static int32_t read_within(const uint8_t *octets, size_t n, int most, int any)
{
    uint8_t whole[KYTE_LONGEST_PACKET + 1];
    unsigned data;
    if (!is_headed(octets, n) || ref_nearest(octets + 2, &data) > most)
        return is_headed(octets, n) ? -KYTE_REFUSED_HEADER : -KYTE_REFUSED_FORM;
    size_t next = KYTE_PACKET_BEFORE + data / 16;
    if (data / 16 > KYTE_LONGEST_PAYLOAD)
        return -KYTE_REFUSED_LENGTH;
    if (n < next + 2)
        return -KYTE_REFUSED_FORM;
    memcpy(whole, octets, next + 2);
    ref_header(data % 16, data / 16, whole + 2);
    if (any)
        ref_flag(0, whole + next);
    return __real_kyte_packet_read(whole, next + 2);
}

/* The answer where the packet is so far right that a hastier reader takes it. */
static int32_t read_hastily(const uint8_t *octets, size_t n, int32_t answer)
{
    unsigned data = 0;
    if (is_fault("read-four-bits") && answer == -KYTE_REFUSED_HEADER)
        return read_within(octets, n, 4, 0);
    if (is_fault("read-two-bits"))
        return read_within(octets, n, 2, 0);
    if (is_fault("read-data-bits-only") && answer >= 0 && is_headed(octets, n)) {
        uint8_t header[3];
        ref_header((unsigned)kyte_packet_code(answer), (unsigned)kyte_packet_length(answer), header);
        return header[2] == octets[4] ? answer : -KYTE_REFUSED_HEADER;
    }
    if (is_fault("read-any-closing") && answer == -KYTE_REFUSED_FORM)
        return read_within(octets, n, 3, 1);
    if (is_fault("read-255") && answer == -KYTE_REFUSED_LENGTH && ref_nearest(octets + 2, &data) <= 3)
        return (int32_t)(data % 16 + 256 * 255);
    if (is_fault("read-unrepaired") && answer >= 0)
        return (octets[2] & 15) + (answer & 16) + 256 * (octets[2] >> 4 | (octets[3] & 15) << 4);
    return answer;
}

/* Another reason where several hold. */
static int32_t read_in_disorder(const uint8_t *octets, size_t n, int32_t answer)
{
    unsigned data = 0;
    if (is_fault("read-order-17-15") && answer == -KYTE_REFUSED_FORM && n >= KYTE_PACKET_BEFORE && ref_nearest(octets + 2, &data) > 3)
        return -KYTE_REFUSED_HEADER;
    if (is_fault("read-order-2-15") && answer == -KYTE_REFUSED_FORM && n >= KYTE_PACKET_BEFORE && ref_nearest(octets + 2, &data) <= 3 &&
        data / 16 == 255)
        return -KYTE_REFUSED_LENGTH;
    if (is_fault("read-order-15-2") && answer == -KYTE_REFUSED_LENGTH && n < KYTE_PACKET_BEFORE + 255 + 2)
        return -KYTE_REFUSED_FORM;
    if (is_fault("read-order-15-17") && answer == -KYTE_REFUSED_HEADER && n < KYTE_PACKET_AROUND)
        return -KYTE_REFUSED_FORM;
    if (is_fault("read-cut-17") && answer == -KYTE_REFUSED_FORM && n >= 2 && n < KYTE_PACKET_BEFORE && octets[0] == 0xE1)
        return -KYTE_REFUSED_HEADER;
    return answer;
}

/* Other numbers of what was read. */
static int32_t read_otherwise(const uint8_t *octets, size_t n, int32_t answer)
{
    int32_t mark = answer & 16;
    if (answer < 0)
        return answer;
    if (is_fault("read-mark-opening"))
        return answer - mark + (octets[0] == 0x1E ? 16 : 0);
    if (is_fault("read-mark-none"))
        return answer - mark;
    if (is_fault("read-mark-inverse"))
        return answer ^ 16;
    if (is_fault("read-mark-beside-code"))
        return answer - mark + mark / 2;
    if (is_fault("read-next-as-length"))
        return answer + 256 * KYTE_PACKET_BEFORE;
    if (is_fault("read-opening-plain") && octets[0] == 0x1E)
        return -KYTE_REFUSED_FORM;
    if (is_fault("read-whole-only") && n > kyte_packet_next(answer) + 2)
        return -KYTE_REFUSED_FORM;
    if (is_fault("read-fill") && (answer & ~16) == 0)
        return -KYTE_REFUSED_LENGTH;
    if (is_fault("read-longest") && kyte_packet_length(answer) == KYTE_LONGEST_PAYLOAD)
        return -KYTE_REFUSED_LENGTH;
    return answer;
}

int32_t __wrap_kyte_packet_read(const uint8_t *octets, size_t octets_len)
{
    if (is_fault("read-low-bits"))
        octets_len = (uint32_t)octets_len;
    int32_t answer = __real_kyte_packet_read(octets, octets_len);
    if (is_fault("read-past") && answer == -KYTE_REFUSED_FORM && octets_len >= KYTE_PACKET_AROUND)
        return __real_kyte_packet_read(octets, octets_len + 1);
    if (is_fault("read-touches") && octets_len > 0)
        ((uint8_t *)octets)[octets_len - 1] ^= 1;
    answer = read_hastily(octets, octets_len, answer);
    return read_otherwise(octets, octets_len, read_in_disorder(octets, octets_len, answer));
}
