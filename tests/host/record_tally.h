/*
 * How many lists and records of each kind were tried.
 */
#ifndef RECORD_TALLY_H
#define RECORD_TALLY_H

#include <stdint.h>

/* Each kind with its name. Those that stand for a row of numbers (a badge, a place) are in that order. */
#define KINDS                                                                     \
    KIND(INPUT, "inputs in all")                                                  \
    KIND(WRITE_CALL, "calls of kyte_record_write")                                \
    KIND(READ_CALL, "calls of kyte_record_read")                                  \
    KIND(EXAMPLE, "the ticket's examples")                                        \
    KIND(LIST, "lists drawn")                                                     \
    KIND(LIST_NONE, "lists without a unit")                                       \
    KIND(LIST_MANY, "lists of 100 to 200 units")                                  \
    KIND(CHANNELS_ONE, "lists on one channel")                                    \
    KIND(CHANNELS_FULL, "lists on 16 channels")                                   \
    KIND(CHANNELS_OVER, "lists on 17 channels and more")                          \
    KIND(UNIT_SHORT, "units of one octet")                                        \
    KIND(UNIT_LONG, "units of 1,024 octets")                                      \
    KIND(BADGE, "units with badge 0, clean")                                      \
    KIND(BADGE_1, "units with badge 1, corrected")                                \
    KIND(BADGE_2, "units with badge 2, out of reach")                             \
    KIND(BADGE_3, "units with badge 3, check failed")                             \
    KIND(BADGE_4, "units with badge 4, unchecked")                                \
    KIND(BAD_BADGE, "lists with a badge out of range")                            \
    KIND(BAD_CHANGED, "lists with a changed count out of range")                  \
    KIND(BAD_LENGTH, "lists with a length out of range")                          \
    KIND(BAD_SUM, "lists whose lengths do not add up")                            \
    KIND(BAD_FOURS, "lists whose numbers are not four to a unit")                 \
    KIND(SEVERAL, "lists with several reasons to refuse")                         \
    KIND(WRITE_TOLD, "kyte_record_write writes")                                  \
    KIND(WRITE_REFUSED_15, "kyte_record_write refuses 15")                        \
    KIND(WRITE_REFUSED_12, "kyte_record_write refuses 12")                        \
    KIND(WRITE_REFUSED_2, "kyte_record_write refuses 2")                          \
    KIND(WRITE_REFUSED_3, "kyte_record_write refuses 3")                          \
    KIND(READ_TOLD, "kyte_record_read reads")                                     \
    KIND(READ_REFUSED_15, "kyte_record_read refuses 15")                          \
    KIND(READ_REFUSED_3, "kyte_record_read refuses 3")                            \
    KIND(ROOM_EVERY, "lists and records tried with every room")                   \
    KIND(ROOM_EXACT, "output just large enough")                                  \
    KIND(ROOM_MORE, "output larger than needed")                                  \
    KIND(FAR_LENGTH, "lengths and rooms of 2^32 and more")                        \
    KIND(CHANGED_EVERY, "records with each octet changed by itself")              \
    KIND(CHANGED_TAKEN, "records with a changed octet that are read")             \
    KIND(CHANGED_REFUSED, "records with a changed octet that are refused")        \
    KIND(CUT, "records cut short")                                                \
    KIND(LONGER, "records with octets behind them")                               \
    KIND(DRAWN, "octets drawn one by one")                                        \
    KIND(DRAWN_MARKED, "octets drawn one by one, with a mark and a length")       \
    KIND(LAID_BAD, "records of units out of range")                               \
    KIND(LAID_CROWDED, "records of 17 channels and more")                         \
    KIND(LAID_LONG, "records with too many octets")                               \
    KIND(OTHER_BACK, "back offsets to another unit")                              \
    KIND(OTHER_LAST, "last offsets of another unit")                              \
    KIND(OTHER_COUNTS, "units counted for another channel")                       \
    KIND(OTHER_ORDER, "places in another order")                                  \
    KIND(OTHER_PLACE, "an unused place before a used one")                        \
    KIND(OTHER_TRAILER, "the trailer of another record")                          \
    KIND(LIMIT, "records at the limits of octets and of units")                   \
    KIND(LIMIT_PAST, "lists past that")                                           \
    KIND(PLACED, "buffers amid guards")                                           \
    KIND(PLACED_END, "buffers before a page without access")                      \
    KIND(PLACED_START, "buffers after a page without access")

enum kind {
#define KIND(name, words) name,
    KINDS
#undef KIND
    KIND_COUNT
};

/* How many inputs there were of each kind. */
extern uint64_t tally[KIND_COUNT];

/* Prints every kind with its number of inputs. Answers 1 if one has none, and else 0. */
int tally_print(void);

#endif
