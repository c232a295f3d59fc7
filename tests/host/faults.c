/*
 * Wrong libraries, to see that compare notices: linked with --wrap before the C entries, each spoils the answers in the one way that
 * the environment names (KYTE_FAULT). './compare' must then end with status 1. Without a name nothing is spoilt.
 */
#include "kyteblossom.h"

#include <stdlib.h>
#include <string.h>

int32_t __real_kyte_length(size_t unit, uint32_t width, uint32_t e);
int32_t __real_kyte_encode(const uint8_t *unit, size_t unit_len, uint32_t width, uint32_t e, uint8_t *sent, size_t sent_len);
int32_t __real_kyte_receive(const uint8_t *received, size_t received_len, uint32_t width, uint32_t e, uint8_t *repair, size_t repair_len,
                            uint8_t *places, size_t places_len);

static int is_fault(const char *name)
{
    const char *fault = getenv("KYTE_FAULT");
    return fault && strcmp(fault, name) == 0;
}

int32_t __wrap_kyte_length(size_t unit, uint32_t width, uint32_t e)
{
    if (is_fault("length-low-bits"))
        return __real_kyte_length((uint32_t)unit, width, e);
    return __real_kyte_length(unit, width, e);
}

int32_t __wrap_kyte_encode(const uint8_t *unit, size_t unit_len, uint32_t width, uint32_t e, uint8_t *sent, size_t sent_len)
{
    int32_t answer = __real_kyte_encode(unit, unit_len, width, e, sent, sent_len);
    if (is_fault("sent-octet") && answer > 0)
        sent[answer - 1] ^= 1;
    if (is_fault("sent-past") && answer > 0 && sent_len > (size_t)answer)
        sent[answer] ^= 1;
    if (is_fault("refused-sent") && answer < 0 && sent_len > 0)
        sent[0] ^= 1;
    if (is_fault("refusal-order") && answer == -2 && sent_len < unit_len)
        return -3;
    if (is_fault("rare-sent") && answer == 255 && e == 127 && unit[0] < 32)
        sent[128] ^= 1;
    return answer;
}

/* The faults that change the answer alone. */
static int32_t spoil(int32_t answer, uint32_t e)
{
    int badge = kyte_badge(answer);
    if (is_fault("badge-green") && badge == KYTE_CHECK_FAILED)
        return answer - KYTE_CHECK_FAILED + KYTE_CLEAN;
    if (is_fault("badge-unchecked") && badge == KYTE_UNCHECKED)
        return answer - KYTE_UNCHECKED + KYTE_CLEAN;
    if (is_fault("badge-out-of-reach") && badge == KYTE_CORRECTED && kyte_changed(answer) == e)
        return answer - KYTE_CORRECTED + KYTE_OUT_OF_REACH - 256 * (int32_t)e;
    if (is_fault("badge-corrected") && badge == KYTE_OUT_OF_REACH)
        return answer - KYTE_OUT_OF_REACH + KYTE_CORRECTED;
    if (is_fault("count") && badge == KYTE_CORRECTED)
        return answer + 256;
    if (is_fault("count-of-failed") && badge == KYTE_CHECK_FAILED)
        return answer - 256 * (int32_t)kyte_changed(answer);
    if (is_fault("unit-length") && badge >= 0)
        return answer + 65536;
    return answer;
}

/* The faults of the octets that are received and repaired. */
static void spoil_octets(int32_t answer, const uint8_t *received, size_t received_len, uint8_t *repair, size_t repair_len)
{
    int badge = kyte_badge(answer);
    if (is_fault("repaired-octet") && badge == KYTE_CORRECTED)
        repair[0] ^= 1;
    if (is_fault("unreached-octet") && badge == KYTE_OUT_OF_REACH)
        repair[0] ^= 1;
    if (is_fault("repair-past") && badge >= 0 && repair_len > received_len)
        repair[received_len] ^= 1;
    if (is_fault("before-buffer") && badge >= 0)
        repair[-1] ^= 1;
    if (is_fault("after-buffer") && badge >= 0)
        repair[repair_len] ^= 1;
    if (is_fault("received-octet") && badge >= 0)
        ((uint8_t *)received)[0] ^= 1;
    if (is_fault("refused-repair") && answer < 0 && repair_len > 0)
        repair[repair_len - 1] ^= 1;
}

/* ---- the faults of the list of places */

static size_t smaller(size_t a, size_t b) { return a < b ? a : b; }

/* A place in a word of n octets, counted otherwise. */
static uint8_t other_place(uint8_t place, size_t n)
{
    if (is_fault("places-from-one"))
        return (uint8_t)(place + 1);
    if (is_fault("places-from-end"))
        return (uint8_t)(n - 1 - place);
    return is_fault("places-low-bits") ? place & 127 : place;
}

static void count_otherwise(uint8_t *places, size_t count, size_t n)
{
    for (size_t i = 0; i < count; i++)
        places[i] = other_place(places[i], n);
}

static void turn_round(uint8_t *places, size_t count)
{
    for (size_t i = 0; i < count / 2; i++) {
        uint8_t place = places[i];
        places[i] = places[count - 1 - i];
        places[count - 1 - i] = place;
    }
}

/* How many of the places are listed. */
static size_t listed(int32_t answer, const uint8_t *places, size_t count)
{
    size_t k = 0;
    if (is_fault("place-last") && count > 0)
        return count - 1;
    if (is_fault("failed-list") && kyte_badge(answer) == KYTE_CHECK_FAILED)
        return 0;
    if (!is_fault("places-of-unit"))
        return count;
    while (k < count && places[k] < kyte_unit_length(answer))
        k++;
    return k;
}

/* The places that were listed in a word of n octets; `before` is the list as it was lent. */
static void spoil_places(int32_t answer, size_t n, uint32_t e, uint8_t *places, size_t count, const uint8_t *before)
{
    size_t kept = listed(answer, places, count);
    count_otherwise(places, count, n);
    if (is_fault("places-descending"))
        turn_round(places, count);
    if (is_fault("place-first") && count > 0) {
        memmove(places, places + 1, count - 1);
        kept = count - 1;
    }
    memcpy(places + kept, before + kept, count - kept);
    if (is_fault("rare-place") && e == 77 && kyte_badge(answer) == KYTE_CORRECTED && count == 77)
        places[64] ^= 1;
}

/* The list is touched where it should not be. */
static void touch_list(int32_t answer, uint32_t e, uint8_t *places, size_t places_len)
{
    int badge = kyte_badge(answer);
    size_t count = kyte_changed(answer);
    if (is_fault("unreached-list") && badge == KYTE_OUT_OF_REACH && places_len > 0)
        places[0] ^= 1;
    if (is_fault("list-cleared") && badge >= 0 && badge != KYTE_OUT_OF_REACH)
        memset(places + count, 0, e - count);
    if (is_fault("list-past") && badge >= 0 && places_len > e)
        places[e] ^= 1;
    if (is_fault("before-list") && badge >= 0)
        places[-1] ^= 1;
    if (is_fault("after-list") && badge >= 0)
        places[places_len] ^= 1;
    if (is_fault("refused-list") && answer < 0 && places_len > 0)
        places[places_len - 1] ^= 1;
}

/* A list that is shorter than e: it is filled as far as it goes, or refused when the code word is already written. */
static int32_t receive_short(const uint8_t *received, size_t received_len, uint32_t width, uint32_t e, uint8_t *repair, size_t repair_len,
                             uint8_t *places, size_t places_len)
{
    uint8_t list[KYTE_MOST_REPAIRS];
    if (is_fault("list-late"))
        __real_kyte_receive(received, received_len, width, e, repair, repair_len, list, sizeof list);
    if (!is_fault("list-short"))
        return -KYTE_REFUSED_ROOM;
    int32_t answer = __real_kyte_receive(received, received_len, width, e, repair, repair_len, list, sizeof list);
    memcpy(places, list, smaller(kyte_changed(answer), places_len));
    return answer;
}

/* Lists are taken or refused wrongly. */
static int32_t receive(const uint8_t *received, size_t received_len, uint32_t width, uint32_t e, uint8_t *repair, size_t repair_len,
                       uint8_t *places, size_t places_len)
{
    if (is_fault("list-low-bits"))
        places_len = (uint16_t)places_len;
    if (is_fault("list-strict") && places_len > 0)
        places_len--;
    if (is_fault("buffers-exchanged"))
        return __real_kyte_receive(received, received_len, width, e, places, places_len, repair, repair_len);
    int32_t answer = __real_kyte_receive(received, received_len, width, e, repair, repair_len, places, places_len);
    if (is_fault("list-of-most") && answer >= 0 && places_len < KYTE_MOST_REPAIRS)
        return -KYTE_REFUSED_ROOM;
    if (places_len >= e)
        return answer;
    if (answer == -KYTE_REFUSED_ROOM)
        return receive_short(received, received_len, width, e, repair, repair_len, places, places_len);
    if (is_fault("list-before-length") && answer == -KYTE_REFUSED_LENGTH)
        return -KYTE_REFUSED_ROOM;
    if (is_fault("list-before-setting") && answer == -KYTE_REFUSED_SETTING)
        return -KYTE_REFUSED_ROOM;
    return answer;
}

int32_t __wrap_kyte_receive(const uint8_t *received, size_t received_len, uint32_t width, uint32_t e, uint8_t *repair, size_t repair_len,
                            uint8_t *places, size_t places_len)
{
    uint8_t before[KYTE_MOST_REPAIRS];
    memcpy(before, places, smaller(places_len, sizeof before));
    int32_t answer = receive(received, received_len, width, e, repair, repair_len, places, places_len);
    spoil_octets(answer, received, received_len, repair, repair_len);
    if (is_fault("rare-repair") && kyte_badge(answer) == KYTE_CORRECTED && e == 13 && width == 16 && kyte_changed(answer) == 13)
        repair[received_len - 1] ^= 1;
    spoil_places(answer, received_len, e, places, smaller(kyte_changed(answer), places_len), before);
    touch_list(answer, e, places, places_len);
    return spoil(answer, e);
}
