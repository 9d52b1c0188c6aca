/* The classifier with every setting: its symbols and deviations at every end of every class, its refusals and their order,
 * the memory that a refused call must leave, and pulses fed with other settings at each call. What is expected stands in
 * document 02, "Width settings and deviation". Also compiles as C++. */
#include "check.h"
#include "duskveyra.h"

#include <stdio.h>
#include <stdlib.h>
#include <string.h>

static const unsigned centres[] = {20, 50, 80};

static duskveyra_width_settings settings_of(unsigned zeros, unsigned ones, unsigned marks)
{
    duskveyra_width_settings settings;
    settings.zeros = (uint8_t)zeros;
    settings.ones = (uint8_t)ones;
    settings.marks = (uint8_t)marks;
    return settings;
}

/* Settings that are 1 to 14 and change from turn to turn. */
static duskveyra_width_settings settings_at(unsigned turn)
{
    return settings_of(1 + turn % 14, 1 + turn / 3 % 14, 1 + turn / 7 % 14);
}

static int is_pulse(duskveyra_classify_result result, uint8_t number, uint8_t symbol, int32_t deviation)
{
    return result.number == number && result.symbol == symbol && result.deviation == deviation;
}

/* Every setting of each symbol at the ends of its class and one tick outside, with periods at the ends of theirs. */
static void ends(void)
{
    static const uint32_t intervals[] = {100, 1000, 9999900, 10000000};
    unsigned symbol, percent, i;
    int side;
    for (symbol = 0; symbol < 3; symbol++)
        for (percent = 1; percent <= 14; percent++)
            for (i = 0; i < sizeof intervals / sizeof intervals[0]; i++)
                for (side = -1; side <= 1; side += 2) {
                    uint32_t t = intervals[i], hundredth = t / 100;
                    uint32_t end = hundredth * (uint32_t)((int)centres[symbol] + side * (int)percent);
                    uint32_t out = side < 0 ? end - 1 : end + 1;
                    int32_t off = side * (int32_t)(percent * t);
                    unsigned three[] = {1, 1, 1};
                    duskveyra_width_settings by;
                    three[symbol] = percent;
                    by = settings_of(three[0], three[1], three[2]);
                    CHECK(is_pulse(duskveyra_classify(by, t, end, t), 0, (uint8_t)symbol, off));
                    CHECK(is_pulse(duskveyra_classify(by, t, out, t), 0, 3, 0));
                    CHECK(is_pulse(duskveyra_classify(by, t, end, 95 * hundredth), 0, (uint8_t)symbol, off));
                    CHECK(is_pulse(duskveyra_classify(by, t, end, 105 * hundredth), 0, (uint8_t)symbol, off));
                    CHECK(is_pulse(duskveyra_classify(by, t, end, 95 * hundredth - 1), 0, 3, 0));
                    CHECK(is_pulse(duskveyra_classify(by, t, end, 105 * hundredth + 1), 0, 3, 0));
                }
    CHECK(is_pulse(duskveyra_classify(settings_of(14, 14, 14), 10000000, 9400000, 10000000), 0, 2, 140000000));
    CHECK(is_pulse(duskveyra_classify(settings_of(14, 14, 14), 10000000, 600000, 10000000), 0, 0, -140000000));
}

/* 10, then 16, for every byte as each of the three settings. */
static void refusals(void)
{
    unsigned percent;
    for (percent = 0; percent < 256; percent++) {
        duskveyra_width_settings each[3];
        uint8_t number = percent < 1 || percent > 14 ? 16 : 0;
        unsigned i;
        each[0] = settings_of(percent, 5, 5);
        each[1] = settings_of(5, percent, 5);
        each[2] = settings_of(5, 5, percent);
        for (i = 0; i < 3; i++) {
            CHECK(is_pulse(duskveyra_classify(each[i], 1000, 350, 1000), number, number == 0 ? 3 : 0, 0));
            CHECK(is_pulse(duskveyra_classify(each[i], 99, 200, 1000), 10, 0, 0));
            CHECK(is_pulse(duskveyra_classify(each[i], 10000001, 200, 1000), 10, 0, 0));
        }
    }
}

/* Lists where one of the four has another length: 10, 16, 3, and both lent lists as they were. */
static void lists(void)
{
    uint32_t widths[] = {180, 520, 790, 350}, periods[] = {1000, 950, 1050, 1000};
    unsigned bad, odd;
    for (bad = 0; bad < 4; bad++)
        for (odd = 0; odd < 5; odd++) {
            uint32_t interval = bad & 1 ? 99 : 1000;
            duskveyra_width_settings by = settings_of(2, bad & 2 ? 15 : 2, 1);
            uint8_t number = bad & 1 ? 10 : bad & 2 ? 16 : odd < 4 ? 3 : 0;
            uint8_t symbols[5] = {FILL, FILL, FILL, FILL, FILL};
            int32_t off[5] = {7, 7, 7, 7, 7};
            CHECK(duskveyra_classify_list(by, interval, widths, odd == 0 ? 3 : 4, periods, odd == 1 ? 3 : 4, symbols,
                                          odd == 2 ? 3 : 4, off, odd == 3 ? 3 : 4)
                      .number == number);
            if (number == 0) {
                CHECK(symbols[0] == 0 && symbols[1] == 1 && symbols[2] == 2 && symbols[3] == 3);
                CHECK(off[0] == -2000 && off[1] == 2000 && off[2] == -1000 && off[3] == 0);
            } else {
                CHECK(symbols[0] == FILL && symbols[1] == FILL && symbols[2] == FILL && symbols[3] == FILL);
                CHECK(off[0] == 7 && off[1] == 7 && off[2] == 7 && off[3] == 7);
            }
            CHECK(symbols[4] == FILL && off[4] == 7);
        }
}

/* Two frames as pulses, with other settings at each, give what their symbols give, and each pulse's deviation. */
static void feeds(void)
{
    duskveyra_format format;
    duskveyra_time times[2];
    duskveyra_reader by_symbol, by_pulse;
    unsigned turn = 0, reports = 0, f, i;
    memset(times, 0, sizeof times);
    format.letter = 'H';
    format.expression = 1;
    times[0].day = times[1].day = 191;
    times[0].hundredths = 5088000;
    times[1].hundredths = 5094000;
    CHECK(duskveyra_fresh(format, 2, &by_symbol).number == 0);
    by_pulse = by_symbol;
    for (f = 0; f < 2; f++) {
        uint8_t frame[61];
        frame[0] = 2;
        CHECK(duskveyra_write(format, times[f], 5, frame + 1, 60).number == 0);
        for (i = f; i < 61; i++, turn++) {
            duskveyra_width_settings by = settings_at(turn);
            duskveyra_reader before = by_pulse;
            duskveyra_feed_result fed = duskveyra_feed(&by_symbol, frame[i]);
            duskveyra_feed_pulse_result pulse;
            uint32_t width = 10 * centres[frame[i]] + 1;
            pulse = duskveyra_feed_pulse(&by_pulse, settings_of(5, 5, 0), 1000, width, 1000);
            CHECK(pulse.number == 16 && pulse.deviation == 0 && memcmp(&by_pulse, &before, sizeof before) == 0);
            pulse = duskveyra_feed_pulse(&by_pulse, settings_of(5, 5, 0), 99, width, 1000);
            CHECK(pulse.number == 10 && pulse.deviation == 0 && memcmp(&by_pulse, &before, sizeof before) == 0);
            pulse = duskveyra_feed_pulse(&by_pulse, by, 1000, width, 1000);
            CHECK(fed.number == 0 && pulse.number == 0 && pulse.reported == fed.reported && pulse.deviation == 100);
            CHECK(pulse.time.day == fed.time.day && pulse.time.hundredths == fed.time.hundredths);
            CHECK(pulse.control == fed.control && memcmp(&by_pulse, &by_symbol, sizeof by_pulse) == 0);
            reports += pulse.reported;
        }
    }
    CHECK(reports == 1);
    /* 10, 16, 13, 26 */
    by_pulse.words[2] = 6;
    CHECK(duskveyra_feed_pulse(&by_pulse, settings_of(5, 5, 5), 1000, 800, 1000).number == 26);
    by_pulse.words[3] = 60;
    CHECK(duskveyra_feed_pulse(&by_pulse, settings_of(5, 5, 5), 1000, 801, 1000).number == 13);
    CHECK(duskveyra_feed_pulse(&by_pulse, settings_of(5, 5, 5), 1000, 801, 1000).deviation == 0);
    CHECK(duskveyra_feed_pulse(&by_pulse, settings_of(15, 5, 5), 1000, 800, 1000).number == 16);
    CHECK(duskveyra_feed_pulse(&by_pulse, settings_of(15, 5, 5), 99, 800, 1000).number == 10);
}

int main(void)
{
    duskveyra_width_settings usual = DUSKVEYRA_USUAL_WIDTHS;
    CHECK(usual.zeros == 5 && usual.ones == 5 && usual.marks == 5);
    ends();
    refusals();
    lists();
    feeds();
    printf("%lu checks, %lu failed\n", checks, failed);
    return failed != 0;
}
