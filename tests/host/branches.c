/*
 * Under valgrind's memcheck, octets that are marked undefined are noticed wherever a jump or an address depends on them. With each check:
 *
 *   - encoding is all products and remainders: no jump and no address may depend on an octet of the message;
 *   - a clean word is asked once whether its syndromes are all zero, and nothing else;
 *   - a damaged one, besides, whether it fails each of the 2e steps of the locator, whether there is a root among each 16 of the 255 places,
 *     and where there is one, whether it is each of them (the last 16 reach past the word, where the first place comes again);
 *   - with a check, besides, whether each octet of the check agrees.
 */
#include "kyteblossom.h"

#include <stdio.h>
#include <stdlib.h>
#include <valgrind/memcheck.h>

static uint8_t message[KYTE_LONGEST], word[KYTE_LONGEST], repair[KYTE_LONGEST], places[KYTE_MOST_REPAIRS];

static void fail(const char *what, uint32_t e, unsigned depending)
{
    printf("branches: e = %u: %s (%u jumps and addresses depend on octets)\n", (unsigned)e, what, depending);
    exit(1);
}

/* How many jumps and addresses depend on a message's octets in encoding it to a word of 255 octets. */
static unsigned in_encoding(uint32_t width, uint32_t e)
{
    unsigned before = VALGRIND_COUNT_ERRORS;
    for (uint32_t i = 0; i < sizeof message; i++)
        message[i] = (uint8_t)(7 * i + e);
    VALGRIND_MAKE_MEM_UNDEFINED(message, sizeof message);
    if (kyte_encode(message, KYTE_LONGEST - 2 * e - width / 8, width, e, word, sizeof word) != KYTE_LONGEST)
        fail("a message was not encoded", e, 0);
    return VALGRIND_COUNT_ERRORS - before;
}

/* How many depend on that word's octets in receiving it, with this many of them changed. */
static unsigned in_receiving(uint32_t width, uint32_t e, uint32_t changed)
{
    unsigned before = VALGRIND_COUNT_ERRORS;
    VALGRIND_MAKE_MEM_DEFINED(word, sizeof word);
    for (uint32_t i = 0; i < changed; i++)
        word[2 * i] ^= (uint8_t)(i + 1);
    VALGRIND_MAKE_MEM_UNDEFINED(word, sizeof word);
    int32_t answer = kyte_receive(word, sizeof word, width, e, repair, sizeof repair, places, sizeof places);
    if (kyte_refused(answer) != 0 || kyte_changed(answer) != changed)
        fail("a word was not repaired", e, 0);
    return VALGRIND_COUNT_ERRORS - before;
}

/* All that is asked of a word at one e, with a check of this width. */
static void try_limit(uint32_t width, uint32_t e)
{
    unsigned n = in_encoding(width, e);
    if (n > 0)
        fail("encoding", e, n);
    n = in_receiving(width, e, 0);
    if (n != (e > 0) + width / 8)
        fail("receiving a clean word", e, n);
    n = in_receiving(width, e, e);
    /* the e wrong octets lie in the first (e + 7) / 8 blocks; the last block's 16th value is the first place's again, which is wrong too */
    unsigned blocks = (KYTE_LONGEST + 15) / 16, looked_at = 16 * ((e + 7) / 8) + 15;
    if (looked_at > KYTE_LONGEST)
        looked_at = KYTE_LONGEST;
    if (n != (e > 0) * (1 + 2 * e + blocks + looked_at) + width / 8)
        fail("receiving a damaged word", e, n);
}

int main(void)
{
    if (!RUNNING_ON_VALGRIND)
        fail("this is to be run under valgrind", 0, 0);
    for (uint32_t width = 0; width <= 16; width += 8)
        for (uint32_t e = 0; 2 * e + width / 8 < KYTE_LONGEST; e++)
            try_limit(width, e);
    in_encoding(0, 8);
    if (in_receiving(0, 8, 0) == 0)
        fail("that a clean word's syndromes are asked for was not noticed", 8, 0);
    puts("branches: no jump and no address in a product or a remainder depends on the octets of a message or a word");
    return 0;
}
