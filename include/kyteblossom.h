/*
 * Kyteblossom: the protected units of ITU-T H.223, Annex D (AL1M, mode FEC_ONLY), the record of a call's units, and the packets of level 2
 * (H.223, Annex B), for a host in C or C++.
 *
 * Every function answers every number and every buffer: widths, limits and lengths out of range are refused by a number, and a
 * refusal leaves all that was lent as it came. What a function writes it writes from the start of the buffer; what lies past that never
 * changes. A length counts the elements of its buffer: octets, or numbers of 16 bits where the pointer is to uint16_t.
 *
 * Proved is what the seven functions of the library, kyte_length, kyte_encode, kyte_receive, kyte_record_write, kyte_record_read,
 * kyte_packet_write and kyte_packet_read, answer and leave in the buffers (docs/PROMISES.md), and that the equations beside the inline
 * functions below give back from an answer of kyte_receive or kyte_packet_read what it was made of. Not proved, but tried (tests/host): that
 * the inline functions, which are C, compute those equations, and what a compiler makes of the whole.
 *
 * The one duty of the host: a pointer and its length name that many elements that are there to be read (and, where the pointer is not
 * const, written) for the whole call, and no two buffers of one call, which has up to three, overlap. A length may be 0; the pointer is
 * then not read, but must not be null. A pointer to uint16_t is aligned as C asks: its address is even.
 *
 * The functions keep no state between calls and allocate nothing. Calls with buffers of their own may run at the same time.
 */
#ifndef KYTEBLOSSOM_H
#define KYTEBLOSSOM_H

#include <stddef.h>
#include <stdint.h>

#ifdef __cplusplus
extern "C" {
#endif

/* The longest sent unit, and so a size that is enough for `sent` and `repair`. */
#define KYTE_LONGEST 255

/* The most octets that can be repaired, and so a size that is enough for `places`. */
#define KYTE_MOST_REPAIRS 127

/* The longest record, in octets: 1,048,576 before the trailer, and the trailer. A size that is enough for `record`. */
#define KYTE_LONGEST_RECORD 1048812
#define KYTE_RECORD_TRAILER 236

/*
 * The most units that a record can have, each of ten octets and one of its own, and a size that is enough for their octets:
 * uint16_t units[4 * KYTE_RECORD_UNITS] and uint8_t octets[KYTE_RECORD_OCTETS] have room for every record.
 */
#define KYTE_RECORD_UNITS 95325
#define KYTE_RECORD_OCTETS 1048576

/* The longest payload of a packet; the octets before it, flag and header; all those around it; and a size that is enough for `packet`. */
#define KYTE_LONGEST_PAYLOAD 254
#define KYTE_PACKET_BEFORE 5
#define KYTE_PACKET_AROUND 7
#define KYTE_LONGEST_PACKET 261

/* Why a call is refused: the answer is minus one of these. */
#define KYTE_REFUSED_SETTING 1   /* width is not 0, 8 or 16, or e is over 127 */
#define KYTE_REFUSED_LENGTH 2    /* a unit or a word is too short or too long, or a record or a payload too long */
#define KYTE_REFUSED_ROOM 3      /* a buffer that is to be written is too small */
#define KYTE_REFUSED_CODE 4      /* the multiplex code is over 15 */
#define KYTE_REFUSED_CHANNELS 12 /* the units are on more than 16 channels */
#define KYTE_REFUSED_FORM 15     /* the octets are no list of units, no record, or no packet: a flag is neither form, or it is cut short */
#define KYTE_REFUSED_HEADER 17   /* no header that can be sent lies within three bits of a packet's */

/* What is known of a unit that is handed up. */
#define KYTE_CLEAN 0        /* the received word is a code word, and its check agrees */
#define KYTE_CORRECTED 1    /* it was repaired, and the check of the repaired unit agrees */
#define KYTE_OUT_OF_REACH 2 /* no code word lies within e octets: the unit is as it was received */
#define KYTE_CHECK_FAILED 3 /* a code word was found, and its check disagrees: the unit is as it was received */
#define KYTE_UNCHECKED 4    /* there is neither a check nor a code (width 0, e 0): nothing is known of the unit */

/*
 * How many octets a unit of `unit` octets is sent in, with a check of `width` bits (0, 8 or 16) and a code that repairs up to `e`
 * octets (0 to 127): unit + width / 8 + 2 e, which must be at most 255, with a unit of at least 1.
 * Below 0: refused (1, then 2).
 */
int32_t kyte_length(size_t unit, uint32_t width, uint32_t e);

/*
 * Encodes a unit: the unit, its check and the code's parity are written to the front of `sent`.
 * Answers how many octets were written. Below 0: refused (1, then 2, then 3).
 */
int32_t kyte_encode(const uint8_t *unit, size_t unit_len, uint32_t width, uint32_t e, uint8_t *sent, size_t sent_len);

/*
 * Decodes a sent unit of `received_len` octets. `repair` must have room for as many, and `places` for `e` entries. If a code word differs
 * from the received word in at most `e` octets, it is the only one, and it is written to the front of `repair`; the places of the octets in
 * which it differs, counted from 0 at the first octet of the word, are written to the front of `places`, ascending, as many as kyte_changed
 * tells. If none does (badge 2), `repair` and `places` are unchanged. A place at or past kyte_unit_length is one of the check or the parity.
 * Answers the badge + 256 changed octets + 65,536 octets of the unit: kyte_badge, kyte_changed and kyte_unit_length take it apart,
 * kyte_unit says where the unit lies. Below 0: refused (1, then 2, then 3 where `repair` or `places` is too small).
 */
int32_t kyte_receive(const uint8_t *received, size_t received_len, uint32_t width, uint32_t e, uint8_t *repair, size_t repair_len,
                     uint8_t *places, size_t places_len);

/*
 * The record of a call (docs/records.md): its units in order, then a trailer that says of each channel where its last unit lies, how many
 * units it has and how many of them have badge 2 or 3. In `units` a unit is four numbers: its channel, its badge (0 to 4), its
 * changed count, as kyte_changed tells it (1 to 127 for badge 1, 0 to 127 for badge 3, else 0) and its length (1 to 1,024). The units' octets stand one behind
 * another in `octets`. Reading what was written gives the units back; writing what was read gives the same octets.
 */

/*
 * Writes the record of the units to the front of `record`. Answers how many octets were written: 10 for each unit, the units' octets and
 * the trailer's 236. Below 0: refused (15 for numbers that are not four to a unit, a unit out of range, or lengths that do not add up to
 * octets_len; then 12 for a seventeenth channel; then 2 for more than 1,048,576 octets before the trailer; then 3), each tested on the
 * whole list before the next.
 */
int32_t kyte_record_write(const uint16_t *units, size_t units_len, const uint8_t *octets, size_t octets_len, uint8_t *record,
                          size_t record_len);

/*
 * Reads a record: its units to the front of `units`, four numbers each, and their octets to the front of `octets`. Answers how many units
 * there are. Below 0: refused (15 unless the octets are exactly the record of some units; then 3 where `units` or `octets` is too small).
 */
int32_t kyte_record_read(const uint8_t *record, size_t record_len, uint16_t *units, size_t units_len, uint8_t *octets,
                         size_t octets_len);

/*
 * A packet of level 2 (H.223, B.3.1 to B.3.3): a flag of two octets, three octets of header, a payload of 0 to 254 octets, and the closing
 * flag. The header says the multiplex code and the payload's length, so coded that up to three of its 24 bits may be wrong. A closing flag
 * that is complemented, 1E B2 for E1 4D, is the closing mark. It is also the flag that opens the next packet, so that either form opens one.
 * The payload itself is not protected.
 */

/*
 * Writes a packet to the front of `packet`. `opens` and `mark` choose the form of its first flag and of its closing flag: 0 is the plain one,
 * and anything else the complement. Answers how many octets were written, 7 more than the payload has. Below 0: refused (4 for a code over
 * 15; then 2 for a payload of more than 254 octets; then 3). To write the next packet of a stream, hand in the place of the closing flag, and
 * for `opens` what was `mark`. The packet of code 0 without a payload is the one that fills a link with nothing to send.
 */
int32_t kyte_packet_write(uint32_t opens, uint32_t code, uint32_t mark, const uint8_t *payload, size_t payload_len, uint8_t *packet,
                          size_t packet_len);

/*
 * Reads the packet that the octets begin with; more may follow it. Answers its code + 16 if its closing flag is the closing mark + 256 octets
 * of its payload: kyte_packet_code, kyte_packet_mark and kyte_packet_length take it apart, kyte_packet_payload says where the payload lies,
 * and kyte_packet_next how far on the next packet begins. A header of which at most three bits are wrong is read as it was sent. Below 0:
 * refused (15 for a first flag that is neither form, or fewer than five octets; then 17 for a header with more wrong bits, where no other
 * lies within three; then 2 for a length of 255, which is not used; then 15 for a closing flag that is neither form, or missing).
 */
int32_t kyte_packet_read(const uint8_t *octets, size_t octets_len);

/* The refusal's number, or 0 where an answer is no refusal: minus the answer where it is below 0. */
static inline int kyte_refused(int32_t answer) { return answer < 0 ? -answer : 0; }

/* The parts of kyte_receive's answer; -1, 0 and 0 of a refusal. The answer modulo 256; / 256, modulo 256; and / 65,536. */
static inline int kyte_badge(int32_t answer) { return answer < 0 ? -1 : answer & 255; }

static inline size_t kyte_changed(int32_t answer) { return answer < 0 ? 0 : (size_t)(answer >> 8 & 255); }

static inline size_t kyte_unit_length(int32_t answer) { return answer < 0 ? 0 : (size_t)(answer >> 16); }

/*
 * Whether the unit may be trusted, with the width that was given to kyte_receive: it is clean or corrected, and a check agreed.
 * Without a check nothing may be painted green, whatever the badge is: of 200,000 words of 255 octets drawn at random, which nobody sent,
 * 99 % were called clean or corrected at e = 1 and 49 % at e = 2; with a check of 8 bits 0.38 % and 0.20 %, with 16 bits two words and one
 * ('./kyte noise', seed 1). That is the code's nature: so many words lie so near to a code word. Give a check to whatever an engineer
 * looks at.
 */
static inline int kyte_trusted(int32_t answer, uint32_t width)
{
    return (kyte_badge(answer) == KYTE_CLEAN || kyte_badge(answer) == KYTE_CORRECTED) && (width == 8 || width == 16);
}

/* Where the unit lies: at the front of `repair` when corrected, and of `received` otherwise; null after a refusal. */
static inline const uint8_t *kyte_unit(int32_t answer, const uint8_t *received, const uint8_t *repair)
{
    if (answer < 0)
        return 0;
    return kyte_badge(answer) == KYTE_CORRECTED ? repair : received;
}

/* The parts of kyte_packet_read's answer; -1, 0 and 0 of a refusal. The answer modulo 16; / 16, modulo 2; and / 256. */
static inline int kyte_packet_code(int32_t answer) { return answer < 0 ? -1 : answer & 15; }

static inline int kyte_packet_mark(int32_t answer) { return answer < 0 ? 0 : answer >> 4 & 1; }

static inline size_t kyte_packet_length(int32_t answer) { return answer < 0 ? 0 : (size_t)(answer >> 8); }

/* Where the payload lies in the octets that were read: 5 on; null after a refusal. */
static inline const uint8_t *kyte_packet_payload(const uint8_t *octets, int32_t answer)
{
    return answer < 0 ? 0 : octets + KYTE_PACKET_BEFORE;
}

/* How many octets on the next packet's first flag lies, which is this one's closing flag: 5 and the payload's octets; 0 after a refusal. */
static inline size_t kyte_packet_next(int32_t answer) { return answer < 0 ? 0 : KYTE_PACKET_BEFORE + kyte_packet_length(answer); }

#ifdef __cplusplus
}
#endif

#endif
