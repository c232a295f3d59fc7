#include "reading.h"

#include "kyteblossom.h"

const char *reading_differs(int32_t answer, uint32_t width, const uint8_t *received, const uint8_t *repair)
{
    int is_refused = answer < 0, badge = is_refused ? -1 : answer % 256, is_checked = width == 8 || width == 16;
    size_t whole = is_refused ? 0 : (size_t)answer;
    if (kyte_refused(answer) != (is_refused ? -answer : 0))
        return "kyte_refused";
    if (kyte_badge(answer) != badge)
        return "kyte_badge";
    if (kyte_changed(answer) != whole / 256 % 256)
        return "kyte_changed";
    if (kyte_unit_length(answer) != whole / 65536)
        return "kyte_unit_length";
    if (kyte_unit(answer, received, repair) != (is_refused ? 0 : badge == 1 ? repair : received))
        return "kyte_unit";
    if (kyte_trusted(answer, width) != (is_checked && (badge == 0 || badge == 1)))
        return "kyte_trusted";
    return 0;
}

const char *packet_reading_differs(int32_t answer, const uint8_t *octets)
{
    int is_refused = answer < 0;
    size_t whole = is_refused ? 0 : (size_t)answer;
    if (kyte_refused(answer) != (is_refused ? -answer : 0))
        return "kyte_refused";
    if (kyte_packet_code(answer) != (is_refused ? -1 : (int)(whole % 16)))
        return "kyte_packet_code";
    if (kyte_packet_mark(answer) != (int)(whole / 16 % 2))
        return "kyte_packet_mark";
    if (kyte_packet_length(answer) != whole / 256)
        return "kyte_packet_length";
    if (kyte_packet_payload(octets, answer) != (is_refused ? 0 : octets + 5))
        return "kyte_packet_payload";
    if (kyte_packet_next(answer) != (is_refused ? 0 : 5 + whole / 256))
        return "kyte_packet_next";
    return 0;
}
