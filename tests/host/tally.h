/*
 * How many inputs of each kind were tried.
 */
#ifndef TALLY_H
#define TALLY_H

#include <stdint.h>

/* Each kind with its name. Those that stand for a row of numbers (a refusal, a width, a badge, a place, a size) are in that order. */
#define KINDS                                                                          \
    KIND(INPUT, "inputs in all")                                                       \
    KIND(LENGTH_CALL, "calls of kyte_length")                                          \
    KIND(ENCODE_CALL, "calls of kyte_encode")                                          \
    KIND(RECEIVE_CALL, "calls of kyte_receive")                                        \
    KIND(EXAMPLE, "words of document 01's small set")                                  \
    KIND(WORD_CLEAN, "words as they were sent")                                        \
    KIND(WORD_WITHIN, "words with 1 to e - 1 wrong octets")                            \
    KIND(WORD_E, "words with e wrong octets")                                          \
    KIND(WORD_PAST, "words with e + 1 to e + 3 wrong octets")                          \
    KIND(WORD_DRAWN, "words drawn octet by octet")                                     \
    KIND(WORD_BAD_CHECK, "code words with octets drawn for their check")               \
    KIND(WORD_BEYOND, "ends of longer code words")                                     \
    KIND(UNIT_SHORT, "units of 1 to 3 octets")                                         \
    KIND(WORD_LONG, "words of 250 to 255 octets")                                      \
    KIND(WIDTH, "no check")                                                            \
    KIND(WIDTH_8, "check of 8 bits")                                                   \
    KIND(WIDTH_16, "check of 16 bits")                                                 \
    KIND(E_0, "e = 0")                                                                 \
    KIND(E_1, "e = 1")                                                                 \
    KIND(E_8, "e from 2 to 8")                                                         \
    KIND(E_32, "e from 9 to 32")                                                       \
    KIND(E_126, "e from 33 to 126")                                                    \
    KIND(E_127, "e = 127")                                                             \
    KIND(BADGE, "badge 0, clean")                                                      \
    KIND(BADGE_1, "badge 1, corrected")                                                \
    KIND(BADGE_2, "badge 2, out of reach")                                             \
    KIND(BADGE_3, "badge 3, check failed")                                             \
    KIND(BADGE_4, "badge 4, unchecked")                                                \
    KIND(FAILED_LISTED, "badge 3, check failed, with places")                          \
    KIND(LENGTH_REFUSED, "kyte_length refuses 1")                                      \
    KIND(LENGTH_REFUSED_2, "kyte_length refuses 2")                                    \
    KIND(ENCODE_REFUSED, "kyte_encode refuses 1")                                      \
    KIND(ENCODE_REFUSED_2, "kyte_encode refuses 2")                                    \
    KIND(ENCODE_REFUSED_3, "kyte_encode refuses 3")                                    \
    KIND(RECEIVE_REFUSED, "kyte_receive refuses 1")                                    \
    KIND(RECEIVE_REFUSED_2, "kyte_receive refuses 2")                                  \
    KIND(RECEIVE_REFUSED_3, "kyte_receive refuses 3")                                  \
    KIND(BAD_WIDTH, "width out of range")                                              \
    KIND(BAD_E, "e out of range")                                                      \
    KIND(BAD_BOTH, "width and e out of range")                                         \
    KIND(LENGTH_NONE, "length 0")                                                      \
    KIND(LENGTH_UNDER, "length too short")                                             \
    KIND(LENGTH_OVER, "length too long")                                               \
    KIND(LENGTH_FAR, "length in range but for its high bits")                          \
    KIND(ROOM_UNDER, "output too small")                                               \
    KIND(LIST_UNDER, "list of places too short")                                       \
    KIND(BOTH_UNDER, "output too small and list too short")                            \
    KIND(SEVERAL, "several reasons to refuse")                                         \
    KIND(ROOM_EXACT, "output just large enough")                                       \
    KIND(ROOM_MORE, "output larger than needed")                                       \
    KIND(ROOM_FAR, "output of 65,536 octets and more")                                 \
    KIND(LIST_EXACT, "list of just e entries")                                         \
    KIND(LIST_MORE, "list of more than e entries")                                     \
    KIND(LIST_FAR, "list of 65,536 entries and more")                                  \
    KIND(LIST_MOST, "list of 127 entries")                                             \
    KIND(LIST_NONE, "list of no entry")                                                \
    KIND(PLACED, "buffers amid guard octets")                                          \
    KIND(PLACED_END, "buffers before a page without access")                           \
    KIND(PLACED_START, "buffers after a page without access")                          \
    KIND(COUNTED, "words whose code words within one octet were counted one by one")

enum kind {
#define KIND(name, words) name,
    KINDS
#undef KIND
    KIND_COUNT
};

/* How many inputs there were of each kind, and with each e. */
extern uint64_t tally[KIND_COUNT], tally_e[128];

/* Prints every kind with its number of inputs. Answers 1 if one has none, or some e has none, and else 0. */
int tally_print(void);

#endif
