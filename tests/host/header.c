/*
 * The header's functions on every answer that kyte_receive has: each refusal, each badge with each count and each length of a unit, and
 * with each width, also such as are refused; on every answer that kyte_packet_read has: each code with each length, with the mark and
 * without; and on the refusals that the other entries have. Status 1, and a line, at the first that reads otherwise than its equation.
 */
#include "kyteblossom.h"
#include "reading.h"

#include <stddef.h>
#include <stdio.h>

static const uint32_t widths[] = { 0, 8, 16, 1, 7, 9, 15, 17, 24, 32, 256, 264, 65544, 0x80000008, 0xFFFFFFFF };

static const int32_t refusals[] = { KYTE_REFUSED_SETTING, KYTE_REFUSED_LENGTH,   KYTE_REFUSED_ROOM,  KYTE_REFUSED_CODE,
                                    KYTE_REFUSED_CHANNELS, KYTE_REFUSED_FORM, KYTE_REFUSED_HEADER };

static unsigned long answers;

/* Whether some function reads the answer otherwise, with some width. */
static int is_misread(int32_t answer)
{
    static const uint8_t received[1], repair[1];
    answers++;
    for (size_t i = 0; i < sizeof widths / sizeof *widths; i++) {
        const char *differs = reading_differs(answer, widths[i], received, repair);
        if (differs) {
            printf("DIFFERS: %s of the answer %d, width %u\n", differs, (int)answer, (unsigned)widths[i]);
            return 1;
        }
    }
    return 0;
}

/* .. of those for packets. */
static int is_packet_misread(int32_t answer)
{
    static const uint8_t octets[KYTE_PACKET_AROUND];
    answers++;
    const char *differs = packet_reading_differs(answer, octets);
    if (differs)
        printf("DIFFERS: %s of the answer %d\n", differs, (int)answer);
    return differs != 0;
}

static int is_some_packet_misread(void)
{
    for (int32_t code = 0; code <= 15; code++)
        for (int32_t mark = 0; mark <= 1; mark++)
            for (int32_t length = 0; length <= KYTE_LONGEST_PAYLOAD; length++)
                if (is_packet_misread(code + 16 * mark + 256 * length))
                    return 1;
    return 0;
}

int main(void)
{
    for (size_t i = 0; i < sizeof refusals / sizeof *refusals; i++)
        if (is_misread(-refusals[i]) || is_packet_misread(-refusals[i]))
            return 1;
    if (is_some_packet_misread())
        return 1;
    for (int32_t badge = 0; badge <= 4; badge++)
        for (int32_t changed = 0; changed <= 127; changed++)
            for (int32_t length = 1; length <= 255; length++)
                if (is_misread(badge + 256 * changed + 65536 * length))
                    return 1;
    printf("%lu answers, read by the header as its equations say\n", answers);
    return 0;
}
