/* A format's figures for every letter and expression that two bytes can be, against the table of document 01 and against
 * what duskveyra_write takes; the time of day of every second and of every hundredth around midnight; bad input of every
 * kind; the texts of the numbers; the limits that the header names, each against the call that has it; and the version.
 * Also compiles as C++. */
#include "check.h"
#include "duskveyra.h"
#include "times.h"

#include <limits.h>
#include <stdio.h>
#include <stdlib.h>
#include <string.h>

/* A line of the table: the control bits with the expressions 0 and 1, and with 4 and 5. */
struct line {
    char letter;
    const char *expressions;
    size_t elements;
    uint32_t interval;
    unsigned bits;
    unsigned bits_with_year;
};

static const struct line table[] = {
    {'A', "01234567", 100, 10, 27, 18}, {'B', "01234567", 100, 100, 27, 18}, {'D', "12", 60, 360000, 9, 0},
    {'E', "12", 100, 1000, 45, 0},      {'G', "12", 100, 1, 36, 0},          {'H', "12", 60, 6000, 9, 0},
    {'X', "2", 25, 100, 0, 0},
};

#define LINES (sizeof table / sizeof table[0])

static const struct line *line_of(unsigned letter, unsigned expression)
{
    size_t i;
    for (i = 0; i < LINES; i++)
        if ((unsigned char)table[i].letter == letter && expression < 8 &&
            strchr(table[i].expressions, '0' + (int)expression) != NULL)
            return &table[i];
    return NULL;
}

static unsigned bits_in(const struct line *line, unsigned expression)
{
    if (expression < 2)
        return line->bits;
    return expression == 4 || expression == 5 ? line->bits_with_year : 0;
}

static void test_formats(void)
{
    unsigned letter;
    unsigned expression;
    unsigned formats = 0;
    for (letter = 0; letter < 256; letter++)
        for (expression = 0; expression < 256; expression++) {
            const struct line *line = line_of(letter, expression);
            duskveyra_format_figures_result figures;
            figures = duskveyra_format_figures(format_of((char)letter, expression));
            if (line == NULL) {
                CHECK(figures.number == DUSKVEYRA_UNKNOWN_FORMAT);
                CHECK(figures.elements == 0 && figures.interval == 0 && figures.control_bits == 0);
            } else {
                formats++;
                CHECK(figures.number == DUSKVEYRA_OK);
                CHECK(figures.elements == line->elements && figures.interval == line->interval);
                CHECK(figures.control_bits == bits_in(line, expression));
            }
        }
    CHECK(formats == 25);
}

/* What the figures say is what Write takes: that many bytes, words of that many bits, and the next frame so much later. */
static void test_as_written(void)
{
    size_t i;
    const char *expression;
    for (i = 0; i < LINES; i++)
        for (expression = table[i].expressions; *expression != '\0'; expression++) {
            const duskveyra_format format = format_of(table[i].letter, (unsigned)(*expression - '0'));
            const duskveyra_format_figures_result figures = duskveyra_format_figures(format);
            const uint64_t most = (UINT64_C(1) << figures.control_bits) - 1;
            const duskveyra_time time = time_of(0, 1, 0);
            uint8_t *frame = (uint8_t *)lent_memory(figures.elements);
            CHECK(figures.elements <= DUSKVEYRA_LONGEST_FRAME);
            CHECK(duskveyra_write(format, time, most, frame, figures.elements).number == DUSKVEYRA_OK);
            CHECK(duskveyra_read(format, frame, figures.elements).control == most);
            CHECK(duskveyra_write(format, time, most + 1, frame, figures.elements).number ==
                  DUSKVEYRA_CONTROL_TOO_LONG);
            CHECK(duskveyra_write(format, time, 0, frame, figures.elements - 1).number == DUSKVEYRA_WRONG_LENGTH);
            CHECK(duskveyra_step(format, time, 365, DUSKVEYRA_USUAL_DAY).time.hundredths == figures.interval);
            free(frame);
        }
}

static void is_clock(unsigned year, unsigned day, uint32_t hundredths, unsigned hour, unsigned minute, unsigned second,
                     unsigned hundredth)
{
    const duskveyra_time_of_day_result clock = duskveyra_time_of_day(time_of(year, day, hundredths));
    CHECK(clock.number == DUSKVEYRA_OK);
    CHECK(clock.hour == hour && clock.minute == minute && clock.second == second && clock.hundredth == hundredth);
}

static void is_no_clock(unsigned year, unsigned day, uint32_t hundredths)
{
    const duskveyra_time_of_day_result clock = duskveyra_time_of_day(time_of(year, day, hundredths));
    CHECK(clock.number == DUSKVEYRA_INVALID_TIME);
    CHECK(clock.hour == 0 && clock.minute == 0 && clock.second == 0 && clock.hundredth == 0);
}

static void test_times(void)
{
    unsigned hour;
    unsigned minute;
    unsigned second;
    unsigned hundredth;
    uint32_t c = 0;
    for (hour = 0; hour < 24; hour++)
        for (minute = 0; minute < 60; minute++)
            for (second = 0; second < 60; second++, c += 100) {
                hundredth = (unsigned)below(100);
                is_clock((unsigned)below(256), 1 + (unsigned)below(366), c + hundredth, hour, minute, second, hundredth);
            }
    CHECK(c == DUSKVEYRA_DAY_LENGTH);
    for (hundredth = 0; hundredth < 100; hundredth++) {
        is_clock(0, DUSKVEYRA_FIRST_DAY, hundredth, 0, 0, 0, hundredth);
        is_clock(99, DUSKVEYRA_LAST_DAY, c - 100 + hundredth, 23, 59, 59, hundredth);
        is_clock(255, 181, c + hundredth, 23, 59, 60, hundredth);
    }
    for (c = DUSKVEYRA_LAST_HUNDREDTH + 1; c < DUSKVEYRA_LAST_HUNDREDTH + 200; c++)
        is_no_clock(0, 1, c);
    for (c = UINT32_MAX; c != 0; c /= 2)
        if (c > DUSKVEYRA_LAST_HUNDREDTH)
            is_no_clock(0, 1, c);
    for (c = 0; c < 65536; c++)
        if (c < DUSKVEYRA_FIRST_DAY || c > DUSKVEYRA_LAST_DAY)
            is_no_clock((unsigned)below(256), c, (uint32_t)below(DUSKVEYRA_LAST_HUNDREDTH + 1));
    is_no_clock(0, 0, DUSKVEYRA_LAST_HUNDREDTH + 1);
}

/* Every number has a text of its own, and one text is for all that are none. */
static void test_texts(void)
{
    unsigned number;
    unsigned other;
    for (number = 0; number <= DUSKVEYRA_INVALID_LISTENER; number++) {
        CHECK(strlen(duskveyra_number_text(number)) > 8);
        CHECK(strcmp(duskveyra_number_text(number), duskveyra_number_text(255)) != 0);
        for (other = 0; other < number; other++)
            CHECK(strcmp(duskveyra_number_text(number), duskveyra_number_text(other)) != 0);
    }
    for (; number < 1000; number++)
        CHECK(strcmp(duskveyra_number_text(number), "unknown number") == 0);
    CHECK(strcmp(duskveyra_number_text(UINT_MAX), "unknown number") == 0);
    CHECK(strcmp(duskveyra_number_text(DUSKVEYRA_OK), "not refused") == 0);
    CHECK(strcmp(duskveyra_number_text(duskveyra_format_figures(format_of('D', 0)).number),
                 "letter or expression not among the formats") == 0);
}

static uint8_t fresh(unsigned setting)
{
    duskveyra_reader reader;
    return duskveyra_fresh(format_of('B', 0), (uint8_t)setting, &reader).number;
}

static uint8_t classified(unsigned setting, uint32_t interval)
{
    duskveyra_width_settings settings = DUSKVEYRA_USUAL_WIDTHS;
    settings.ones = (uint8_t)setting;
    return duskveyra_classify(settings, interval, interval / 2, interval).number;
}

/* Each limit is taken by the call that has it, and one more is not. */
static void test_limits(void)
{
    const duskveyra_format a4 = format_of('A', 4);
    const duskveyra_oscillator still = {0.0, 1.0, 1.0, 0.0};
    uint8_t symbol;
    uint8_t frame[DUSKVEYRA_LONGEST_FRAME];
    uint8_t cycles[DUSKVEYRA_LONGEST_FRAME * DUSKVEYRA_MOST_CYCLES];
    duskveyra_reader reader;

    CHECK(duskveyra_fresh(a4, DUSKVEYRA_LEAST_SETTING, &reader).number == DUSKVEYRA_OK);
    for (symbol = DUSKVEYRA_ZERO; symbol <= DUSKVEYRA_SPOILED; symbol++)
        CHECK(duskveyra_feed(&reader, symbol).number == DUSKVEYRA_OK);
    CHECK(duskveyra_feed(&reader, DUSKVEYRA_SPOILED + 1).number == DUSKVEYRA_UNKNOWN_SYMBOL);
    CHECK(fresh(DUSKVEYRA_LEAST_SETTING) == DUSKVEYRA_OK && fresh(DUSKVEYRA_GREATEST_SETTING) == DUSKVEYRA_OK);
    CHECK(fresh(DUSKVEYRA_LEAST_SETTING - 1) == DUSKVEYRA_INVALID_SETTING);
    CHECK(fresh(DUSKVEYRA_GREATEST_SETTING + 1) == DUSKVEYRA_INVALID_SETTING);
    CHECK(classified(DUSKVEYRA_NARROWEST_WIDTH, DUSKVEYRA_LEAST_INTERVAL) == DUSKVEYRA_OK);
    CHECK(classified(DUSKVEYRA_WIDEST_WIDTH, DUSKVEYRA_GREATEST_INTERVAL) == DUSKVEYRA_OK);
    CHECK(classified(DUSKVEYRA_NARROWEST_WIDTH - 1, DUSKVEYRA_LEAST_INTERVAL) == DUSKVEYRA_INVALID_WIDTH_SETTING);
    CHECK(classified(DUSKVEYRA_WIDEST_WIDTH + 1, DUSKVEYRA_LEAST_INTERVAL) == DUSKVEYRA_INVALID_WIDTH_SETTING);
    CHECK(classified(DUSKVEYRA_USUAL_WIDTH, DUSKVEYRA_LEAST_INTERVAL - 1) == DUSKVEYRA_INVALID_INTERVAL);
    CHECK(classified(DUSKVEYRA_USUAL_WIDTH, DUSKVEYRA_GREATEST_INTERVAL + 1) == DUSKVEYRA_INVALID_INTERVAL);
    CHECK(duskveyra_forecast(still, DUSKVEYRA_MOST_SECONDS).number == DUSKVEYRA_OK);
    CHECK(duskveyra_forecast(still, DUSKVEYRA_MOST_SECONDS + 1).number == DUSKVEYRA_INVALID_FORECAST);

    CHECK(duskveyra_write(a4, time_of(DUSKVEYRA_LAST_YEAR, 1, 0), 0, frame, sizeof frame).number == DUSKVEYRA_OK);
    CHECK(duskveyra_write(a4, time_of(DUSKVEYRA_LAST_YEAR + 1, 1, 0), 0, frame, sizeof frame).number ==
          DUSKVEYRA_INVALID_YEAR);
    CHECK(duskveyra_encode_cycles(a4, DUSKVEYRA_MOST_CYCLES, frame, sizeof frame, cycles, sizeof cycles).number ==
          DUSKVEYRA_OK);
    CHECK(cycles[0] == DUSKVEYRA_HIGH_CYCLE && cycles[sizeof cycles - 1] == DUSKVEYRA_LOW_CYCLE);
    CHECK(duskveyra_encode_cycles(a4, DUSKVEYRA_FEWEST_CYCLES, frame, sizeof frame, cycles,
                                  sizeof frame * DUSKVEYRA_FEWEST_CYCLES)
              .number == DUSKVEYRA_OK);
    CHECK(duskveyra_encode_cycles(a4, DUSKVEYRA_MOST_CYCLES + 10, frame, sizeof frame, cycles, sizeof cycles).number ==
          DUSKVEYRA_INVALID_CYCLE_COUNT);
    CHECK(duskveyra_encode_cycles(a4, DUSKVEYRA_FEWEST_CYCLES - 10, frame, sizeof frame, cycles, 0).number ==
          DUSKVEYRA_INVALID_CYCLE_COUNT);
}

static void test_version(void)
{
    char text[32];
    const unsigned number = (unsigned)duskveyra_version();
    CHECK(number == DUSKVEYRA_VERSION_NUMBER);
    snprintf(text, sizeof text, "%u.%u.%u", number / 10000, number / 100 % 100, number % 100);
    CHECK(strcmp(text, DUSKVEYRA_VERSION) == 0);
    CHECK(duskveyra_interface_4() == DUSKVEYRA_INTERFACE);
}

int main(void)
{
    test_formats();
    test_as_written();
    test_times();
    test_texts();
    test_limits();
    test_version();
    printf("%lu checks, %lu failed\n", checks, failed);
    return failed != 0;
}
