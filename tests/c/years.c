/* The formats that carry the year, and the converters between the editions: where the year stands, what the calls refuse
 * and in which order, the end of every year, and the memory that a refused call must leave. What is expected stands in
 * document 02, "The year on the wire". Also compiles as C++. */
#include "check.h"
#include "duskveyra.h"
#include "times.h"

#include <stdio.h>
#include <stdlib.h>
#include <string.h>

#define N DUSKVEYRA_LONGEST_FRAME

static uint32_t interval_of(char letter)
{
    return letter == 'A' ? 10 : 100;
}

/* Every fourth year from 2000 has 366 days. */
static unsigned days_in(unsigned year)
{
    return year % 4 == 0 ? 366 : 365;
}

/* Control words of 27 bits without the year, of 18 with it, and of none. */
static uint64_t control_of(unsigned expression)
{
    return expression % 4 > 1 ? 0 : below(expression < 4 ? 1 << 27 : 1 << 18);
}

/* One digit: its bits from the lowest weight on. */
static int is_digit(const uint8_t *elements, unsigned digit)
{
    size_t i;
    for (i = 0; i < 4; i++)
        if (elements[i] != (digit >> i) % 2)
            return 0;
    return 1;
}

static uint8_t call_write(duskveyra_format format, duskveyra_time time, uint64_t control, uint8_t *frame)
{
    return duskveyra_write(format, time, control, frame, N).number;
}

/* Both converters; the year is given to the forward one. */
static duskveyra_convert_result convert(int back, duskveyra_format format, const uint8_t *frame, size_t frame_length,
                                        uint8_t year, uint8_t *lent, size_t lent_length)
{
    return back ? duskveyra_backward(format, frame, frame_length, lent, lent_length)
                : duskveyra_forward(format, frame, frame_length, year, lent, lent_length);
}

/* The year's digits at 50-53 and 55-58, the control bits at 60-68 and 70-78, and Read gives back what was written. */
static void places(void)
{
    static const char letters[] = "AB";
    unsigned which, expression, year, i;
    for (which = 0; which < 2; which++)
        for (expression = 4; expression < 8; expression++)
            for (year = 0; year < 100; year++) {
                duskveyra_format format = format_of(letters[which], expression);
                uint32_t interval = interval_of(letters[which]), c = (uint32_t)below(8640100 / interval) * interval;
                unsigned day = 1 + (unsigned)below(days_in(year));
                uint64_t control = control_of(expression);
                uint8_t *frame = lent_bytes(N);
                duskveyra_read_result read;
                CHECK(call_write(format, time_of(year, day, c), control, frame) == 0);
                CHECK(is_digit(frame + 50, year % 10) && frame[54] == 0 && is_digit(frame + 55, year / 10));
                for (i = 0; i < 18; i++)
                    CHECK(frame[60 + i + i / 9] == (control >> i) % 2);
                read = duskveyra_read(format, frame, N);
                CHECK(read.number == 0 && is_time(read.time, year, day, c) && read.control == control);
                /* 54 is an index marker, and a digit is at most 9. */
                frame[54] = 1;
                read = duskveyra_read(format, frame, N);
                CHECK(read.number == DUSKVEYRA_INVALID_ELEMENT && read.index == 54 && is_time(read.time, 0, 0, 0));
                frame[54] = 0;
                frame[51] = frame[53] = 1;
                read = duskveyra_read(format, frame, N);
                CHECK(read.number == DUSKVEYRA_INVALID_DIGIT && read.index == 0 && is_time(read.time, 0, 0, 0));
                free(frame);
            }
}

/* 17 in Write and the steps, after 1 and before 2: a year over 99, and any but 0 in a format without the year. */
static void invalid_years(void)
{
    static const char formats[][3] = {"A0", "A3", "B1", "B2", "D1", "E2", "G1", "H2", "A4", "A7", "B5", "B6"};
    size_t which;
    unsigned year;
    int back;
    for (which = 0; which < sizeof formats / sizeof formats[0]; which++)
        for (year = 0; year < 256; year++) {
            duskveyra_format format = format_of(formats[which][0], (unsigned)(formats[which][1] - '0'));
            duskveyra_format none = format_of(formats[which][0], 8);
            int carried = format.expression > 3;
            uint8_t number = (carried ? year < 100 : year == 0) ? 0 : DUSKVEYRA_INVALID_YEAR;
            size_t length = format.letter == 'D' || format.letter == 'H' ? 60 : 100;
            uint8_t *frame = lent_bytes(length);
            CHECK(duskveyra_write(format, time_of(year, 1, 0), 0, frame, length).number == number);
            CHECK(number == 0 || untouched(frame, length));
            /* before 2, 9 and 3 */
            CHECK(duskveyra_write(format, time_of(year, 0, 1), UINT64_MAX, frame, length - 1).number ==
                  (number == 0 ? 2 : number));
            CHECK(duskveyra_write(none, time_of(year, 1, 0), 0, frame, length).number == DUSKVEYRA_UNKNOWN_FORMAT);
            for (back = 0; back < 2; back++) {
                duskveyra_step_result step = step_either(back, format, time_of(year, 1, 0), 365, 0);
                CHECK(step.number == number && (number == 0 || is_time(step.time, 0, 0, 0)));
                /* before 2, 11 and 15 */
                CHECK(step_either(back, format, time_of(year, 0, 1), 7, 9).number ==
                      (number == 0 ? 2 : number));
                CHECK(step_either(back, none, time_of(year, 1, 0), 365, 0).number == DUSKVEYRA_UNKNOWN_FORMAT);
            }
            free(frame);
        }
}

/* Day 366 of a year that has none: 2 in Write and the steps, 7 in Read. */
static void last_days(void)
{
    unsigned year;
    int back;
    for (year = 0; year < 100; year++) {
        duskveyra_format format = format_of('B', 4);
        uint8_t number = days_in(year) == 366 ? 0 : DUSKVEYRA_INVALID_TIME;
        uint8_t *frame = lent_bytes(N);
        CHECK(call_write(format, time_of(year, 366, 0), 0, frame) == number);
        CHECK(number == 0 || untouched(frame, N));
        for (back = 0; back < 2; back++)
            CHECK(step_either(back, format, time_of(year, 366, 0), 366, 0).number == number);
        /* day 366 of year 96, with this year's digits put in */
        CHECK(call_write(format, time_of(96, 366, 0), 0, frame) == 0);
        memset(frame + 50, 0, 9);
        for (back = 0; back < 4; back++) {
            frame[50 + back] = (year % 10 >> back) % 2;
            frame[55 + back] = (year / 10 >> back) % 2;
        }
        CHECK(duskveyra_read(format, frame, N).number == (number == 0 ? 0 : DUSKVEYRA_INVALID_DIGIT));
        free(frame);
    }
}

/* The end of every year, with a length of the year that is right, wrong or none: the year's own counts. */
static void year_ends(void)
{
    static const uint16_t lengths[] = {0, 364, 365, 366, 367, 65535};
    unsigned year, expression;
    size_t i;
    for (year = 0; year < 100; year++)
        for (expression = 4; expression < 8; expression++)
            for (i = 0; i < sizeof lengths / sizeof lengths[0]; i++) {
                duskveyra_format format = format_of(expression % 2 ? 'A' : 'B', expression);
                uint32_t last = 8640000 - interval_of((char)format.letter);
                unsigned day = days_in(year), next = year == 99 ? 0 : year + 1;
                duskveyra_step_result step = duskveyra_step(format, time_of(year, day, last), lengths[i], 0);
                CHECK(step.number == 0 && is_time(step.time, next, 1, 0));
                step = duskveyra_step_back(format, time_of(next, 1, 0), lengths[i], 0);
                CHECK(step.number == 0 && is_time(step.time, year, day, last));
                step = duskveyra_step(format, time_of(year, day - 1, last), lengths[i], 0);
                CHECK(step.number == 0 && is_time(step.time, year, day, 0));
                step = duskveyra_step(format, time_of(year, day, last), lengths[i], DUSKVEYRA_SECOND_ADDED);
                CHECK(step.number == 0 && is_time(step.time, year, day, last + interval_of((char)format.letter)));
                CHECK(duskveyra_step(format, time_of(year, day, last), lengths[i], 3).number ==
                      DUSKVEYRA_INVALID_KIND);
            }
}

/* Difference passes over the years. */
static void differences(void)
{
    duskveyra_difference_result result = duskveyra_difference(time_of(255, 2, 0), time_of(3, 1, 8639999));
    CHECK(result.number == 0 && result.hundredths == 1);
    CHECK(duskveyra_difference(time_of(1, 366, 0), time_of(2, 366, 0)).number == 0);
    CHECK(duskveyra_difference(time_of(0, 367, 0), time_of(0, 1, 0)).number == DUSKVEYRA_INVALID_TIME);
}

/* A converted frame is the other edition's of the same time: forward and back gives the same frame, and so does back and
 * forward with the frame's year. */
static void conversions(void)
{
    unsigned expression, year;
    for (expression = 0; expression < 4; expression++)
        for (year = 0; year < 100; year++) {
            char letter = year % 2 ? 'A' : 'B';
            duskveyra_format earlier = format_of(letter, expression), later = format_of(letter, expression + 4);
            uint32_t interval = interval_of(letter), c = (uint32_t)below(8640100 / interval) * interval;
            unsigned day = year % 5 ? 1 + (unsigned)below(days_in(year)) : days_in(year);
            uint64_t control = control_of(expression + 4);
            uint8_t *before = lent_bytes(N), *with = lent_bytes(N), *lent = lent_bytes(N);
            duskveyra_convert_result result;
            CHECK(call_write(earlier, time_of(0, day, c), control << 9, before) == 0);
            CHECK(call_write(later, time_of(year, day, c), control, with) == 0);
            result = duskveyra_forward(earlier, before, N, (uint8_t)year, lent, N);
            CHECK(result.number == 0 && result.index == 0 && memcmp(lent, with, N) == 0);
            memset(lent, FILL, N);
            result = duskveyra_backward(later, with, N, lent, N);
            CHECK(result.number == 0 && result.index == 0 && memcmp(lent, before, N) == 0);
            free(before);
            free(with);
            free(lent);
        }
}

/* A converter that refuses gives its number, with 5 and 6 the index, and leaves the lent frame. */
static void refuses(int back, duskveyra_format format, const uint8_t *frame, size_t length, unsigned year, size_t room,
                    uint8_t number, size_t index)
{
    uint8_t *copy = lent_bytes(length), *lent = lent_bytes(room);
    duskveyra_convert_result result;
    memcpy(copy, frame, length);
    result = convert(back, format, copy, length, (uint8_t)year, lent, room);
    CHECK(result.number == number && result.index == index);
    CHECK(untouched(lent, room) && memcmp(copy, frame, length) == 0);
    free(copy);
    free(lent);
}

/* 1, also for the wrong letter or edition; 3 for either frame; what Read refuses; forward then 17, 2, 18. Each stands
 * before those that follow, which the same call would be refused with too. */
static void refused_conversions(int back)
{
    duskveyra_format format = format_of('B', back ? 4 : 0);
    unsigned letter, expression, year, bit;
    size_t length;
    uint8_t frame[N + 1], bad[N + 1];
    memset(frame, 0, sizeof frame);
    CHECK(call_write(format, time_of(back ? 96 : 0, 366, 8639900), 0, frame) == 0);
    memset(bad, 255, sizeof bad);
    for (letter = 0; letter < 256; letter++)
        for (expression = 0; expression < 256; expression++) {
            int taken = (letter == 'A' || letter == 'B') && expression / 4 == (back ? 1u : 0u);
            refuses(back, format_of((char)letter, expression), bad, 99, 100, 99, taken ? 3 : 1, 0);
        }
    for (length = 0; length <= N + 1; length++) {
        refuses(back, format, bad, length, 100, N + 1, 3, 0);
        if (length != N) {
            refuses(back, format, bad, length, 100, N, 3, 0);
            refuses(back, format, bad, N, 100, length, 3, 0);
        }
    }
    refuses(back, format, bad, N, 100, N, 4, 0);
    memcpy(bad, frame, N);
    bad[98] = 4;
    bad[0] = 0;
    refuses(back, format, bad, N, 100, N, 4, 0);
    bad[98] = 3;
    refuses(back, format, bad, N, 100, N, 5, 0);
    bad[0] = 2;
    refuses(back, format, bad, N, 100, N, 6, 98);
    bad[98] = 0;
    bad[54] = 2;
    refuses(back, format, bad, N, 100, N, 5, 54);
    bad[54] = 0;
    memset(bad + 1, 1, 4);
    refuses(back, format, bad, N, 100, N, 7, 0);
    memcpy(bad, frame, N);
    bad[80] = (uint8_t)(1 - bad[80]);
    refuses(back, format, bad, N, 100, N, 8, 0);
    if (back)
        return;
    for (year = 100; year < 256; year++)
        refuses(0, format, frame, N, year, N, 17, 0);
    for (bit = 0; bit < 9; bit++) {
        memcpy(bad, frame, N);
        bad[50 + bit] = 1;
        for (year = 0; year < 101; year++)
            refuses(0, format, bad, N, year, N, year == 100 ? 17 : days_in(year) == 365 ? 2 : 18, 0);
    }
}

/* Generators over the end of a year with every setting: each report has its frame's year. Then every element is replaced,
 * one at a time: no report has another year. */
static void streams(void)
{
    unsigned expression, setting, year;
    for (expression = 4; expression < 8; expression++)
        for (setting = 2; setting < 6; setting++)
            for (year = 95; year < 100; year++) {
                duskveyra_format format = format_of(setting % 2 ? 'A' : 'B', expression);
                duskveyra_time times[8];
                uint8_t stream[1 + 8 * N];
                size_t k, i, at;
                stream[0] = 2;
                times[0] = time_of(year, days_in(year), 8640000 - 4 * interval_of((char)format.letter));
                for (k = 0; k < 8; k++) {
                    CHECK(call_write(format, times[k], control_of(expression), stream + 1 + k * N) == 0);
                    if (k < 7)
                        times[k + 1] = duskveyra_step(format, times[k], 0, 0).time;
                }
                CHECK(is_time(times[4], year == 99 ? 0 : year + 1, 1, 0));
                /* The first turn replaces nothing. */
                for (at = 0; at <= 8 * N; at += 7) {
                    uint8_t kept = stream[at];
                    size_t reports = 0;
                    duskveyra_reader reader;
                    if (at > 0)
                        stream[at] = (uint8_t)((kept + 1 + below(3)) % 4);
                    CHECK(duskveyra_fresh(format, (uint8_t)setting, &reader).number == 0);
                    for (i = 0; i <= 8 * N; i++) {
                        duskveyra_feed_result fed = duskveyra_feed(&reader, stream[i]);
                        CHECK(fed.number == 0);
                        if (fed.reported) {
                            reports++;
                            CHECK(i > 0 && i % N == 0);
                            k = i / N - 1;
                            CHECK(is_time(fed.time, times[k].year, times[k].day, times[k].hundredths));
                        }
                    }
                    CHECK(at == 0 ? reports == 9 - setting : reports <= 9 - setting);
                    stream[at] = kept;
                }
            }
}

/* A reader's word of the year above its width: its low 8 bits count. */
static void year_words(void)
{
    duskveyra_reader reader, other;
    duskveyra_feed_result fed, same;
    uint8_t frame[2 * N];
    size_t i;
    CHECK(call_write(format_of('B', 4), time_of(24, 366, 8639900), 0, frame) == 0);
    CHECK(call_write(format_of('B', 4), time_of(25, 1, 0), 0, frame + N) == 0);
    CHECK(duskveyra_fresh(format_of('B', 4), 2, &reader).number == 0);
    CHECK(duskveyra_feed(&reader, 2).number == 0);
    for (i = 0; i < 2 * N; i++) {
        other = reader;
        other.words[10] += UINT64_C(256) << (i % 56);
        fed = duskveyra_feed(&reader, frame[i]);
        same = duskveyra_feed(&other, frame[i]);
        CHECK(fed.number == 0 && same.number == 0 && fed.reported == same.reported);
        CHECK(fed.reported == (i + 1 == 2 * N) && is_time(same.time, fed.time.year, fed.time.day, fed.time.hundredths));
        CHECK(memcmp(&reader, &other, sizeof reader) == 0);
    }
    CHECK(is_time(fed.time, 25, 1, 0));
}

int main(void)
{
    places();
    invalid_years();
    last_days();
    year_ends();
    differences();
    conversions();
    refused_conversions(0);
    refused_conversions(1);
    streams();
    year_words();
    printf("%lu checks, %lu failed\n", checks, failed);
    return failed != 0;
}
