/*
 * How many packets of each kind were tried.
 */
#ifndef PACKET_TALLY_H
#define PACKET_TALLY_H

#include <stdint.h>

/* Each kind with its name. Those that stand for a row of numbers (wrong bits, a place) are in that order. */
#define KINDS                                                                       \
    KIND(INPUT, "inputs in all")                                                    \
    KIND(WRITE_CALL, "calls of kyte_packet_write")                                  \
    KIND(READ_CALL, "calls of kyte_packet_read")                                    \
    KIND(EXAMPLE, "packets worked out by hand")                                     \
    KIND(FILL, "fill packets")                                                      \
    KIND(PAYLOAD_ONE, "payloads of one octet")                                      \
    KIND(PAYLOAD_LONGEST, "payloads of 254 octets")                                 \
    KIND(PAYLOAD_255, "payloads of 255 octets")                                     \
    KIND(PAYLOAD_LONG, "payloads of 256 octets and more")                           \
    KIND(OPENS, "packets opened by the flag")                                       \
    KIND(OPENS_COMPLEMENTED, "packets opened by its complement")                    \
    KIND(MARK, "packets closed by the flag")                                        \
    KIND(MARK_COMPLEMENTED, "packets closed by its complement")                     \
    KIND(FORM_OTHER, "forms of a flag that are neither 0 nor 1")                    \
    KIND(CODE_OVER, "codes over 15")                                                \
    KIND(SEVERAL, "packets with several reasons to refuse them")                    \
    KIND(WRITE_TOLD, "kyte_packet_write writes")                                    \
    KIND(WRITE_REFUSED_4, "kyte_packet_write refuses 4")                            \
    KIND(WRITE_REFUSED_2, "kyte_packet_write refuses 2")                            \
    KIND(WRITE_REFUSED_3, "kyte_packet_write refuses 3")                            \
    KIND(READ_TOLD, "kyte_packet_read reads")                                       \
    KIND(READ_REFUSED_15, "kyte_packet_read refuses 15")                            \
    KIND(READ_REFUSED_17, "kyte_packet_read refuses 17")                            \
    KIND(READ_REFUSED_2, "kyte_packet_read refuses 2")                              \
    KIND(WRONG, "packets read whose header is clean")                               \
    KIND(WRONG_1, "packets read with one wrong bit in the header")                  \
    KIND(WRONG_2, "packets read with two wrong bits in the header")                 \
    KIND(WRONG_3, "packets read with three wrong bits in the header")               \
    KIND(WRONG_4, "headers with four wrong bits")                                   \
    KIND(WRONG_MORE, "headers with five wrong bits and more")                       \
    KIND(LENGTH_255, "headers that say 255, to within three bits")                  \
    KIND(OPENING_BAD, "opening flags that are neither form")                        \
    KIND(CLOSING_BAD, "closing flags that are neither form")                        \
    KIND(FORMS_MIXED, "flags with an octet of each form")                           \
    KIND(BOTH_BAD, "packets with several parts that are wrong")                     \
    KIND(CUT, "packets cut short")                                                  \
    KIND(LONGER, "packets with octets behind them")                                 \
    KIND(STREAM, "packets one behind another, with one flag between two")           \
    KIND(CHANGED_EVERY, "packets with each bit changed by itself")                  \
    KIND(DRAWN, "octets drawn one by one")                                          \
    KIND(DRAWN_FLAGGED, "octets drawn one by one behind a flag")                    \
    KIND(ROOM_EVERY, "packets tried with every room")                               \
    KIND(ROOM_EXACT, "output just large enough")                                    \
    KIND(ROOM_MORE, "output larger than needed")                                    \
    KIND(FAR_LENGTH, "lengths and rooms of 2^32 and more")                          \
    KIND(PLACED, "buffers amid guards")                                             \
    KIND(PLACED_END, "buffers before a page without access")                        \
    KIND(PLACED_START, "buffers after a page without access")

enum kind {
#define KIND(name, words) name,
    KINDS
#undef KIND
    KIND_COUNT
};

/* How many inputs there were of each kind. */
extern uint64_t tally[KIND_COUNT];

/* Prints every kind with its number of inputs. Answers 1 if one has none, and else 0. */
int tally_print(void);

#endif
