#include "packet.h"

#include <stdlib.h>
#include <string.h>

/* Figure A.1: bit 8 first. */
static const char *const flag[2] = { "11100001", "01001101" };

/* Figure B.2: bit 8 first. C is MC and L is MPL there. */
static const char *const figure[3][8] = {
    { "L4", "L3", "L2", "L1", "C4", "C3", "C2", "C1" },
    { "P4", "P3", "P2", "P1", "L8", "L7", "L6", "L5" },
    { "P12", "P11", "P10", "P9", "P8", "P7", "P6", "P5" },
};

/* The matrix of B.3.2.1.3. */
static const char *const matrix[12] = {
    "101011100011", "111110010010", "110100101011", "110001110110", "110011011001", "011001101101",
    "001100110111", "101101111000", "010110111100", "001011011110", "101110001101", "010111000111",
};

/* ---- flags */

void ref_flag(int is_complemented, uint8_t *at)
{
    for (int octet = 0; octet < 2; octet++) {
        at[octet] = 0;
        for (int i = 0; i < 8; i++)
            at[octet] = (uint8_t)(2 * at[octet] + ((flag[octet][i] == '1') != is_complemented));
    }
}

/* 0 where the flag stands at a place, 1 where its complement does, and -1 where neither does or the octets end before. */
static int flag_at(const uint8_t *octets, size_t octets_len, size_t place)
{
    for (int is_complemented = 0; is_complemented <= 1; is_complemented++) {
        uint8_t form[2];
        ref_flag(is_complemented, form);
        if (octets_len >= 2 && place <= octets_len - 2 && memcmp(octets + place, form, 2) == 0)
            return is_complemented;
    }
    return -1;
}

/* ---- headers */

/* Bit `number`, from 1 on, of a field. */
static int bit(unsigned field, int number) { return (int)(field >> (number - 1) & 1); }

/* P(j): the matrix being transposed, the sum of its entries (i, j) times entry i of the column MC1 to MC4, MPL1 to MPL8. */
static int parity_bit(unsigned code, unsigned length, int j)
{
    int sum = 0;
    for (int i = 1; i <= 12; i++)
        sum += (matrix[i - 1][j - 1] == '1') * (i <= 4 ? bit(code, i) : bit(length, i - 4));
    return sum % 2;
}

static int figure_bit(const char *name, unsigned code, unsigned length)
{
    int number = atoi(name + 1);
    switch (name[0]) {
    case 'C': return bit(code, number);
    case 'L': return bit(length, number);
    default: return parity_bit(code, length, number);
    }
}

void ref_header(unsigned code, unsigned length, uint8_t *at)
{
    for (int octet = 0; octet < 3; octet++) {
        at[octet] = 0;
        for (int i = 0; i < 8; i++)
            at[octet] = (uint8_t)(2 * at[octet] + figure_bit(figure[octet][i], code, length));
    }
}

/* The 24 bits of a header, in any order: they are only counted. */
static uint32_t bits_of(const uint8_t *header) { return header[0] | (uint32_t)header[1] << 8 | (uint32_t)header[2] << 16; }

int ref_wrong_bits(const uint8_t *header, const uint8_t *other) { return __builtin_popcount(bits_of(header) ^ bits_of(other)); }

int ref_nearest(const uint8_t *header, unsigned *data)
{
    static uint32_t words[REF_WORDS];
    static int is_made;
    for (unsigned d = 0; d < REF_WORDS && !is_made; d++) {
        uint8_t word[3];
        ref_header(d % 16, d / 16, word);
        words[d] = bits_of(word);
    }
    is_made = 1;
    int least = 25;
    for (unsigned d = 0; d < REF_WORDS; d++) {
        int wrong = __builtin_popcount(bits_of(header) ^ words[d]);
        if (wrong < least) {
            least = wrong;
            *data = d;
        }
    }
    return least;
}

/* ---- packets */

/* "Writing checks 4 (code over 15), 2, 3"; 000 has payloads of 0 to 254 octets (B.3.2.1.2). */
int32_t ref_packet_write(uint32_t opens, uint32_t code, uint32_t mark, const uint8_t *payload, size_t payload_len, uint8_t *packet,
                         size_t packet_len)
{
    if (code > 15)
        return -4;
    if (payload_len > 254)
        return -2;
    if (packet_len < 2 + 3 + payload_len + 2)
        return -3;
    ref_flag(opens != 0, packet);
    ref_header(code, (unsigned)payload_len, packet + 2);
    memcpy(packet + 5, payload, payload_len);
    ref_flag(mark != 0, packet + 5 + payload_len);
    return (int32_t)(2 + 3 + payload_len + 2);
}

/* "Checks run flag, header, length, closing flag." */
int32_t ref_packet_read(const uint8_t *octets, size_t octets_len)
{
    unsigned data = 0;
    if (flag_at(octets, octets_len, 0) < 0 || octets_len < 5)
        return -15;
    if (ref_nearest(octets + 2, &data) > 3)
        return -17;
    unsigned code = data % 16, length = data / 16;
    if (length > 254)
        return -2;
    int mark = flag_at(octets, octets_len, 5 + length);
    return mark < 0 ? -15 : (int32_t)(code + 16 * (unsigned)mark + 256 * length);
}
