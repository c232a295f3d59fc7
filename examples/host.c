/*
 * A host in C: it sends units, a bad link damages them by a fixed pattern, and it receives them again and shows each badge and which
 * octets were repaired. Then it receives noise, which nobody sent, and shows why a unit without a check may not be trusted, whatever its
 * badge says. It writes what it received to the record of the call, and reads that back. Last it writes a packet of level 2, damages its
 * header, and reads it where it lies.
 * './kyte host' builds and runs it; examples/host.expected is what it prints.
 */
#include "kyteblossom.h"

#include <stdio.h>
#include <string.h>

/* A unit, how it is protected, and how many of its sent octets the link damages. */
struct trip {
    const char *unit;
    uint32_t width, e;
    size_t wrong;
};

static const struct trip trips[] = {
    { "crane 4: hook clear", 8, 2, 0 },     /* nothing happens on the way */
    { "crane 4: hook clear", 8, 2, 1 },     /* within reach */
    { "crane 4: hook clear", 8, 2, 2 },     /* still within reach */
    { "crane 4: hook clear", 8, 2, 3 },     /* past it */
    { "crane 4: man below", 16, 16, 16 },   /* a stronger code repairs more */
    { "crane 4: man below", 16, 0, 0 },     /* a check and no code: damage is seen ... */
    { "crane 4: man below", 16, 0, 1 },     /* ... and not repaired */
    { "crane 4: man below", 0, 0, 1 },      /* neither: nothing is known of the unit */
    { "!", 0, 127, 127 },                   /* one octet in 255, half of them wrong: repaired, and yet no check says that it is so */
    { "crane 4: hook clear", 12, 2, 0 },    /* there is no check of 12 bits */
    { "crane 4: hook clear", 8, 120, 0 },   /* 19 + 1 + 240 octets are too many */
};

static const char *const badges[] = { "clean", "corrected", "out of reach", "check failed", "unchecked" };

static const char *const refusals[] = {
    [KYTE_REFUSED_SETTING] = "width or e is none of the code's",
    [KYTE_REFUSED_LENGTH] = "the unit or the payload is too short or too long",
    [KYTE_REFUSED_ROOM] = "the buffer is too small",
    [KYTE_REFUSED_CODE] = "there is no such multiplex code",
    [KYTE_REFUSED_CHANNELS] = "there is a seventeenth channel",
    [KYTE_REFUSED_FORM] = "these are no units, or it is no record or packet",
    [KYTE_REFUSED_HEADER] = "more bits of the header are wrong than can be put right",
};

/* So many places of a unit are shown, and of the others how many there are. */
#define SHOWN 8

#define TRIPS (sizeof trips / sizeof *trips)
#define MOST_UNITS (TRIPS + 3)

/* The channels of the call. */
enum { CRANE = 4, NOISE = 5 };

/* The units that were received, as a record wants them: four numbers each, and their octets one behind another. */
struct kept {
    uint16_t units[4 * MOST_UNITS];
    size_t units_len;
    uint8_t octets[MOST_UNITS * KYTE_LONGEST];
    size_t octets_len;
};

/* The link: `wrong` octets, spread over the word, each changed in some bits. */
static void damage(uint8_t *word, size_t n, size_t wrong)
{
    for (size_t i = 0; i < wrong; i++)
        word[i * n / wrong] ^= (uint8_t)(0x55 + i % 128);
}

/* Prints why a call was refused. Nothing that was lent to it has changed. */
static void show_refusal(int32_t answer)
{
    int number = kyte_refused(answer);
    printf("refused %d: %s\n", number, refusals[number]);
}

/* Prints what is told of a unit, but for what is handed up. */
static void show_badge(int32_t answer, uint32_t width)
{
    printf("%-13s %7zu  %-7s  ", badges[kyte_badge(answer)], kyte_changed(answer), kyte_trusted(answer, width) ? "yes" : "no");
}

/*
 * Prints what is handed up, and the changed places. With the badge 'check failed' they are those in which the code word that was found
 * differs: it is not believed, and the unit is handed up as it was received.
 */
static void show_unit(const char *unit, int32_t answer, const uint8_t *places)
{
    size_t changed = kyte_changed(answer);
    printf("%-17s ", unit);
    for (size_t i = 0; i < changed && i < SHOWN; i++)
        printf(" %u", (unsigned)places[i]);
    if (changed > SHOWN)
        printf(" and %zu more", changed - SHOWN);
    printf("%s\n", changed ? "" : " -");
}

/* Keeps a unit that was handed up. */
static void keep(struct kept *kept, uint16_t channel, int32_t answer, const uint8_t *unit)
{
    size_t length = kyte_unit_length(answer);
    uint16_t *u = kept->units + kept->units_len;
    u[0] = channel;
    u[1] = (uint16_t)kyte_badge(answer);
    u[2] = (uint16_t)kyte_changed(answer);
    u[3] = (uint16_t)length;
    memcpy(kept->octets + kept->octets_len, unit, length);
    kept->units_len += 4;
    kept->octets_len += length;
}

/* Sends, damages and receives one unit, and keeps it. Whether a unit that may be trusted is not the one that was sent. */
static int is_deceived_by(const struct trip *t, struct kept *kept)
{
    size_t length = strlen(t->unit);
    uint8_t sent[KYTE_LONGEST], repair[KYTE_LONGEST], places[KYTE_MOST_REPAIRS];

    printf("%-21s %5u %4u %6zu  ", t->unit, (unsigned)t->width, (unsigned)t->e, t->wrong);

    int32_t n = kyte_encode((const uint8_t *)t->unit, length, t->width, t->e, sent, sizeof sent);
    if (n < 0) {
        show_refusal(n);
        return 0;
    }
    damage(sent, (size_t)n, t->wrong);

    int32_t answer = kyte_receive(sent, (size_t)n, t->width, t->e, repair, sizeof repair, places, sizeof places);
    if (answer < 0) {
        show_refusal(answer);
        return 0;
    }
    const uint8_t *unit = kyte_unit(answer, sent, repair);
    keep(kept, CRANE, answer, unit);
    int is_same = kyte_unit_length(answer) == length && memcmp(unit, t->unit, length) == 0;
    show_badge(answer, t->width);
    show_unit(is_same ? "as it was sent" : "damaged", answer, places);
    return kyte_trusted(answer, t->width) && !is_same;
}

/*
 * Receives 255 octets that nobody sent. Nearly all such words lie within one octet of some code word, so that with e = 1 and no check
 * noise is called corrected; a check of 8 bits agrees by chance with one such word in 256, one of 16 bits with one in 65,536.
 */
static int is_deceived_by_noise(uint32_t width, struct kept *kept)
{
    uint8_t noise[KYTE_LONGEST], repair[KYTE_LONGEST], places[KYTE_MOST_REPAIRS];
    uint32_t state = 1;
    for (size_t i = 0; i < sizeof noise; i++) {
        state = 1103515245 * state + 12345;
        noise[i] = (uint8_t)(state >> 16);
    }
    int32_t answer = kyte_receive(noise, sizeof noise, width, 1, repair, sizeof repair, places, sizeof places);
    keep(kept, NOISE, answer, kyte_unit(answer, noise, repair));
    printf("%-21s %5u %4u %6s  ", "(noise)", (unsigned)width, 1u, "all");
    show_badge(answer, width);
    show_unit("noise", answer, places);
    return kyte_trusted(answer, width);
}

/* Writes the record of what was kept and reads it back. Whether that is something else. */
static int is_lost_in_record(const struct kept *kept)
{
    static uint8_t record[10 * MOST_UNITS + sizeof kept->octets + KYTE_RECORD_TRAILER];
    static struct kept back;

    int32_t n = kyte_record_write(kept->units, kept->units_len, kept->octets, kept->octets_len, record, sizeof record);
    if (n < 0) {
        show_refusal(n);
        return 1;
    }
    int32_t units = kyte_record_read(record, (size_t)n, back.units, 4 * MOST_UNITS, back.octets, sizeof back.octets);
    if (units < 0) {
        show_refusal(units);
        return 1;
    }
    int is_same = 4 * (size_t)units == kept->units_len && memcmp(back.units, kept->units, sizeof *back.units * kept->units_len) == 0 &&
                  memcmp(back.octets, kept->octets, kept->octets_len) == 0;
    printf("Record of the call: %d units in %d octets, read back %s\n", (int)units, (int)n, is_same ? "as they were received" : "otherwise");
    return !is_same;
}

/* Sends a payload in a packet, of whose header the link damages so many bits. Whether something else is read. */
static int is_lost_in_packet(const char *payload, uint32_t code, int wrong)
{
    uint8_t packet[KYTE_LONGEST_PACKET];
    size_t length = strlen(payload);
    int32_t n = kyte_packet_write(0, code, 1, (const uint8_t *)payload, length, packet, sizeof packet);
    if (n < 0) {
        printf("Packet of code %u: ", (unsigned)code);
        show_refusal(n);
        return 0;
    }
    for (int i = 0; i < wrong; i++)
        packet[2 + i % 3] ^= (uint8_t)(1 << 2 * i);

    int32_t answer = kyte_packet_read(packet, (size_t)n);
    printf("Packet of %d octets, wrong header bits %d: ", (int)n, wrong);
    if (answer < 0) {
        show_refusal(answer);
        return wrong <= 3;
    }
    const uint8_t *at = kyte_packet_payload(packet, answer);
    printf("code %d, '%.*s' at octet %d%s, the next packet at octet %zu\n", kyte_packet_code(answer), (int)kyte_packet_length(answer),
           (const char *)at, (int)(at - packet), kyte_packet_mark(answer) ? ", closing mark" : "", kyte_packet_next(answer));
    return kyte_packet_code(answer) != (int)code || !kyte_packet_mark(answer) || kyte_packet_length(answer) != length
           || memcmp(at, payload, length) != 0;
}

int main(void)
{
    static struct kept kept;
    int deceived = 0;

    printf("%-21s %5s %4s %6s  %-13s %7s  %-7s  %-17s  %s\n", "unit", "check", "e", "wrong", "badge", "changed", "trusted",
           "what is handed up", "changed places");
    for (size_t i = 0; i < TRIPS; i++)
        deceived += is_deceived_by(&trips[i], &kept);
    for (uint32_t width = 0; width <= 16; width += 8)
        deceived += is_deceived_by_noise(width, &kept);
    printf("Trusted units that differ from what was sent: %d\n", deceived);
    int lost = is_lost_in_record(&kept);
    for (int wrong = 0; wrong <= 4; wrong++)
        lost += is_lost_in_packet("crane 4: hook clear", 3, wrong);
    lost += is_lost_in_packet("crane 4: hook clear", 16, 0);
    return lost || deceived != 0;
}
