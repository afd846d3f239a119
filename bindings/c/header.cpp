// The header in C++17: a link and a reader are plain words, and the calls are C's.
#include "hornetpewter.h"

#include <cstdint>
#include <type_traits>

static_assert(std::is_trivially_copyable<hornetpewter_link>::value, "a link may be copied as bytes");
static_assert(sizeof(hornetpewter_link) == 8 * HORNETPEWTER_LINK_WORDS, "a link is its words");
static_assert(std::is_trivially_copyable<hornetpewter_feedback_reader>::value, "a reader may be copied as bytes");
static_assert(sizeof(hornetpewter_feedback_reader) == 8 * HORNETPEWTER_READER_WORDS, "a reader is its words");

// A message of one packet, 5 ticks before its reference time.
static bool feedback_is_read()
{
    const std::uint8_t message[] = {0, 9, 0, 1, 0xff, 0xff, 0xfe, 3, 0x40, 1, 0xff, 0xfb};
    hornetpewter_feedback_reader reader{};
    std::uint16_t base_seq = 7, status_count = 7, sequence = 7;
    std::int32_t reference_time = 7, ticks = 7;
    std::uint8_t feedback_count = 7, status = 7;
    if (hornetpewter_feedback_start(message, 11, &reader, &base_seq, &status_count, &reference_time, &feedback_count) != -HORNETPEWTER_CUT_SHORT)
        return false;
    if (hornetpewter_feedback_start(message, 12, &reader, &base_seq, &status_count, &reference_time, &feedback_count) != 0)
        return false;
    if (hornetpewter_feedback_next(message, 12, &reader, &sequence, &status, 1, &ticks, 1) != 1)
        return false;
    return base_seq == 9 && status_count == 1 && reference_time == -2 && feedback_count == 3 && sequence == 9 && status == 1 && ticks == -5;
}

int main()
{
    hornetpewter_link link{};
    double bitrate = 0, threshold = 0;
    std::uint32_t hypothesis = 7;
    std::uint64_t next_timeout = 7;
    if (hornetpewter_open(&link, 1000000, 500000000, 150000000) != 0)
        return 1;
    if (hornetpewter_timeout(&link, 1, &bitrate, &hypothesis, &next_timeout) != -HORNETPEWTER_BAD_MOMENT)
        return 1;
    if (hornetpewter_read(&link, &bitrate, &hypothesis, &next_timeout, &threshold) != 0)
        return 1;
    if (hornetpewter_room(HORNETPEWTER_RECORD_BYTES) != HORNETPEWTER_LEAST_OUTPUT)
        return 1;
    if (!feedback_is_read())
        return 1;
    return bitrate == 1000000 && hypothesis == HORNETPEWTER_NORMAL && next_timeout == 0 && threshold == 12.5 ? 0 : 1;
}
