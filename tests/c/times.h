/* Formats and times by their members, both steps, and lent bytes. */
#ifndef DUSKVEYRA_TESTS_TIMES_H
#define DUSKVEYRA_TESTS_TIMES_H

#include "check.h"
#include "duskveyra.h"

static inline duskveyra_format format_of(char letter, unsigned expression)
{
    duskveyra_format format;
    format.letter = (uint8_t)letter;
    format.expression = (uint8_t)expression;
    return format;
}

static inline duskveyra_time time_of(unsigned year, unsigned day, uint32_t hundredths)
{
    duskveyra_time time;
    memset(&time, FILL, sizeof time);
    time.year = (uint8_t)year;
    time.day = (uint16_t)day;
    time.hundredths = hundredths;
    return time;
}

static inline int is_time(duskveyra_time time, unsigned year, unsigned day, uint32_t hundredths)
{
    return time.year == year && time.day == day && time.hundredths == hundredths;
}

/* Both steps, for what holds of either. */
static inline duskveyra_step_result step_either(int back, duskveyra_format format, duskveyra_time time,
                                                uint16_t year_length, uint8_t kind)
{
    return back ? duskveyra_step_back(format, time, year_length, kind)
                : duskveyra_step(format, time, year_length, kind);
}

static inline uint8_t *lent_bytes(size_t length)
{
    return (uint8_t *)lent_memory(length);
}

static inline int untouched(const uint8_t *memory, size_t length)
{
    size_t i;
    for (i = 0; i < length; i++)
        if (memory[i] != FILL)
            return 0;
    return 1;
}

#endif
