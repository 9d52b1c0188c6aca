/* Every function of duskveyra.h but duskveyra_feed_block (blocks.c), the converters (years.c, which has the formats with
 * the year too), the Manchester form (cycles.c), the forecast (holdover.c) and the report log (logs.c); X is in tapes.c,
 * and the classifier has the usual settings (widths.c has the others): its result, each refusal it can give, their order,
 * and the memory it must leave. What is expected stands in documents 01 and 02: the examples, the table of places, the
 * rules. Also compiles as C++. */
#include "check.h"
#include "duskveyra.h"

#include <stddef.h>
#include <stdio.h>
#include <stdlib.h>
#include <string.h>

/* The members of the results, and a reader with guard words around it. The members start as 0 and the reader as FILL, the
 * expected ones are set with SET in a second struct, and the two are compared whole, so that anything else that a result
 * has or that was touched shows. */
struct outs {
    uint8_t flag;
    uint8_t year;
    uint16_t day;
    uint32_t hundredths;
    uint64_t control;
    size_t index;
    int64_t difference;
    uint8_t symbol;
    int32_t deviation;
    uint64_t guard0;
    duskveyra_reader reader;
    uint64_t guard1;
};

static struct outs got, want;

static void reset(void)
{
    memset(&got, 0, sizeof got);
    memset(&got.guard0, FILL, sizeof got - offsetof(struct outs, guard0));
    memcpy(&want, &got, sizeof want);
}

/* memcpy and not an assignment, which may change the bytes between the members. */
#define SET(type, member, value)                               \
    do {                                                       \
        type set_value = (type)(value);                        \
        memcpy(&want.member, &set_value, sizeof want.member);  \
    } while (0)

static int same(void)
{
    return memcmp(&got, &want, sizeof got) == 0;
}

static void set_time(uint16_t day, uint32_t hundredths)
{
    SET(uint16_t, day, day);
    SET(uint32_t, hundredths, hundredths);
}

static void set_values(uint16_t day, uint32_t hundredths, uint64_t control)
{
    set_time(day, hundredths);
    SET(uint64_t, control, control);
}

/* A call that gives this time, these values or this difference, or that is refused with this number and index. */
#define CHECK_TIME(call, day, hundredths) \
    do {                                  \
        CHECK((call) == 0);               \
        set_time(day, hundredths);        \
        CHECK(same());                    \
    } while (0)

#define CHECK_VALUES(call, day, hundredths, control) \
    do {                                             \
        CHECK((call) == 0);                          \
        set_values(day, hundredths, control);        \
        CHECK(same());                               \
    } while (0)

#define CHECK_DIFFERENCE(call, value)      \
    do {                                   \
        CHECK((call) == 0);                \
        SET(int64_t, difference, value);   \
        CHECK(same());                     \
    } while (0)

#define CHECK_INDEX(call, number, at) \
    do {                              \
        CHECK((call) == (number));    \
        SET(size_t, index, at);       \
        CHECK(same());                \
    } while (0)

static uint8_t *bytes(size_t length, int fill)
{
    uint8_t *memory = (uint8_t *)lent_memory(length);
    memset(memory, fill, length);
    return memory;
}

static uint32_t *ticks(size_t length, uint32_t value)
{
    uint32_t *memory = (uint32_t *)lent_memory(length * sizeof(uint32_t));
    size_t i;
    for (i = 0; i < length; i++)
        memory[i] = value;
    return memory;
}

static int all_bytes(const uint8_t *memory, size_t length, int value)
{
    size_t i;
    for (i = 0; i < length; i++)
        if (memory[i] != (uint8_t)value)
            return 0;
    return 1;
}

/* Document 01's table, the formats without the year, and where each element stands. */
static const char letters[] = "AABBAABBDDEEGGHH";
static const uint8_t expressions[] = {0, 1, 0, 1, 2, 3, 2, 3, 1, 2, 1, 2, 1, 2, 1, 2};
#define FORMATS 16

static int known(uint8_t letter, uint8_t expression)
{
    switch (letter) {
    case 'A':
    case 'B':
        return expression <= 7;
    case 'D':
    case 'E':
    case 'G':
    case 'H':
        return expression == 1 || expression == 2;
    case 'X':
        return expression == 2;
    default:
        return 0;
    }
}

static size_t size_of(uint8_t letter)
{
    return letter == 'D' || letter == 'H' ? 60 : 100;
}

static uint32_t interval_of(uint8_t letter)
{
    switch (letter) {
    case 'A':
        return 10;
    case 'B':
        return 100;
    case 'D':
        return 360000;
    case 'E':
        return 1000;
    case 'G':
        return 1;
    default:
        return 6000;
    }
}

static unsigned control_bits(uint8_t letter, uint8_t expression)
{
    if (expression > 1)
        return 0;
    switch (letter) {
    case 'A':
    case 'B':
        return 27;
    case 'E':
        return 45;
    case 'G':
        return 36;
    default:
        return 9;
    }
}

/* Whether a second that is added or taken shows in the letter's frames. */
static int leaps(uint8_t letter)
{
    return letter == 'A' || letter == 'B' || letter == 'G';
}

/* Where a day of that kind ends in the letter's frames. */
static uint32_t day_end(uint8_t letter, unsigned day_kind)
{
    if (leaps(letter) && day_kind == DUSKVEYRA_SECOND_ADDED)
        return 8640100;
    if (leaps(letter) && day_kind == DUSKVEYRA_SECOND_TAKEN)
        return 8639900;
    return 8640000;
}

static int within(size_t i, size_t first, size_t last)
{
    return first <= i && i <= last;
}

/* 'P' a mark, 'b' a digit or bit, '.' an index marker. */
static char kind(uint8_t letter, uint8_t expression, size_t i)
{
    size_t first_control = letter == 'G' ? 60 : 50;
    size_t last_control = letter == 'D' || letter == 'H' ? 58 : letter == 'A' || letter == 'B' ? 78 : 98;
    if (i == 0 || i % 10 == 9)
        return 'P';
    if (strchr("ABG", letter) != NULL && within(i, 1, 4))
        return 'b';
    if (strchr("ABGE", letter) != NULL && within(i, 6, 8))
        return 'b';
    if (letter != 'D' && (within(i, 10, 13) || within(i, 15, 17)))
        return 'b';
    if (within(i, 20, 23) || within(i, 25, 26) || within(i, 30, 33) || within(i, 35, 38) || within(i, 40, 41))
        return 'b';
    if ((letter == 'A' || letter == 'G') && within(i, 45, 48))
        return 'b';
    if (letter == 'G' && within(i, 50, 53))
        return 'b';
    if (expression <= 1 && within(i, first_control, last_control))
        return 'b';
    if ((letter == 'A' || letter == 'B') && (expression == 0 || expression == 3) &&
        (within(i, 80, 88) || within(i, 90, 97)))
        return 'b';
    return '.';
}

static uint32_t random_time(uint8_t letter)
{
    uint32_t interval = interval_of(letter);
    return (uint32_t)below(day_end(letter, DUSKVEYRA_SECOND_ADDED) / interval) * interval;
}

static uint64_t random_control(uint8_t letter, uint8_t expression)
{
    unsigned bits = control_bits(letter, expression);
    return bits == 0 ? 0 : random64() & ((UINT64_C(1) << bits) - 1);
}

/* Symbols as timeread's characters. */
static size_t symbols_of(const char *text, uint8_t *symbols)
{
    size_t length = 0;
    for (; *text != 0; text++)
        if (*text != ' ')
            symbols[length++] = *text == '0' ? 0 : *text == '1' ? 1 : *text == 'P' ? 2 : 3;
    return length;
}

static duskveyra_format format_of(uint8_t letter, uint8_t expression)
{
    duskveyra_format format;
    format.letter = letter;
    format.expression = expression;
    return format;
}

static duskveyra_time time_of(uint16_t day, uint32_t hundredths)
{
    duskveyra_time time;
    time.year = 0;
    time.day = day;
    time.hundredths = hundredths;
    return time;
}

static void got_time(duskveyra_time time)
{
    got.year = time.year;
    got.day = time.day;
    got.hundredths = time.hundredths;
}

static uint8_t call_write(uint8_t letter, uint8_t expression, uint16_t day, uint32_t hundredths, uint64_t control,
                          uint8_t *frame, size_t length)
{
    return duskveyra_write(format_of(letter, expression), time_of(day, hundredths), control, frame, length).number;
}

static uint8_t call_read(uint8_t letter, uint8_t expression, const uint8_t *frame, size_t length)
{
    duskveyra_read_result result = duskveyra_read(format_of(letter, expression), frame, length);
    reset();
    got_time(result.time);
    got.control = result.control;
    got.index = result.index;
    return result.number;
}

static uint8_t call_step(uint8_t letter, uint8_t expression, uint16_t day, uint32_t hundredths, uint16_t year_length,
                         uint8_t day_kind)
{
    duskveyra_step_result result =
        duskveyra_step(format_of(letter, expression), time_of(day, hundredths), year_length, day_kind);
    reset();
    got_time(result.time);
    return result.number;
}

static uint8_t call_step_back(uint8_t letter, uint8_t expression, uint16_t day, uint32_t hundredths,
                              uint16_t year_length, uint8_t day_kind)
{
    duskveyra_step_result result =
        duskveyra_step_back(format_of(letter, expression), time_of(day, hundredths), year_length, day_kind);
    reset();
    got_time(result.time);
    return result.number;
}

/* Both steps, for what holds of either. */
typedef uint8_t step_call(uint8_t, uint8_t, uint16_t, uint32_t, uint16_t, uint8_t);
static step_call *const both_steps[] = {call_step, call_step_back};
#define STEPS 2

static uint8_t call_scan(uint8_t letter, uint8_t expression, const uint8_t *recording, size_t length, size_t start)
{
    duskveyra_scan_result result = duskveyra_scan(format_of(letter, expression), recording, length, start);
    reset();
    got.flag = result.found;
    got.index = result.start;
    got_time(result.time);
    got.control = result.control;
    return result.number;
}

static uint8_t call_difference(uint16_t first_day, uint32_t first, uint16_t second_day, uint32_t second)
{
    duskveyra_difference_result result =
        duskveyra_difference(time_of(first_day, first), time_of(second_day, second));
    reset();
    got.difference = result.hundredths;
    return result.number;
}

static const duskveyra_width_settings usual = DUSKVEYRA_USUAL_WIDTHS;

static uint8_t call_classify(uint32_t interval, uint32_t width, uint32_t period)
{
    duskveyra_classify_result result = duskveyra_classify(usual, interval, width, period);
    reset();
    got.symbol = result.symbol;
    got.deviation = result.deviation;
    return result.number;
}

static uint8_t call_fresh(uint8_t letter, uint8_t expression, uint8_t setting, duskveyra_reader *reader)
{
    return duskveyra_fresh(format_of(letter, expression), setting, reader).number;
}

/* Sets the reader on both sides, so that a change of it shows. */
static void set_reader(const duskveyra_reader *reader)
{
    reset();
    got.reader = *reader;
    want.reader = *reader;
}

static uint8_t got_fed(duskveyra_feed_result result)
{
    got.flag = result.reported;
    got_time(result.time);
    got.control = result.control;
    return result.number;
}

static uint8_t call_feed(const duskveyra_reader *reader, uint8_t symbol)
{
    set_reader(reader);
    return got_fed(duskveyra_feed(&got.reader, symbol));
}

static uint8_t call_feed_pulse(const duskveyra_reader *reader, uint32_t interval, uint32_t width, uint32_t period)
{
    duskveyra_feed_pulse_result result;
    duskveyra_feed_result fed;
    set_reader(reader);
    result = duskveyra_feed_pulse(&got.reader, usual, interval, width, period);
    got.deviation = result.deviation;
    fed.number = result.number;
    fed.reported = result.reported;
    fed.time = result.time;
    fed.control = result.control;
    return got_fed(fed);
}

static void unknown_formats(void)
{
    unsigned letter, expression;
    uint8_t *frame = bytes(100, FILL);
    for (letter = 0; letter < 256; letter++)
        for (expression = 0; expression < 256; expression++) {
            uint8_t l = (uint8_t)letter, e = (uint8_t)expression;
            uint8_t number = known(l, e) ? 0 : 1;
            reset();
            CHECK(call_fresh(l, e, 2, &got.reader) == number);
            if (number == 0) {
                CHECK(got.reader.words[0] == letter && got.reader.words[1] == expression && got.reader.words[2] == 2 &&
                      got.reader.words[3] == 0);
                memcpy(&want.reader, &got.reader, sizeof want.reader);
            }
            CHECK(same());
            if (number == 0)
                continue;
            CHECK(call_write(l, e, 1, 0, 0, frame, 100) == 1 && all_bytes(frame, 100, FILL));
            CHECK(call_read(l, e, frame, 100) == 1 && same());
            CHECK(call_step(l, e, 1, 0, 365, 0) == 1 && same());
            CHECK(call_step_back(l, e, 1, 0, 365, 0) == 1 && same());
            CHECK(call_scan(l, e, frame, 100, 0) == 1 && same());
        }
    free(frame);
    /* Every setting, after the format. */
    for (letter = 0; letter < 256; letter++) {
        uint8_t s = (uint8_t)letter;
        reset();
        CHECK(call_fresh('H', 3, s, &got.reader) == 1 && same());
        CHECK(call_fresh('H', 1, s, &got.reader) == (s < 2 || s > 5 ? 26 : 0));
        if (s >= 2 && s <= 5) {
            CHECK(got.reader.words[2] == s);
            memcpy(&want.reader, &got.reader, sizeof want.reader);
        }
        CHECK(same());
    }
    /* A fresh reader sets all words, whatever they held. */
    {
        duskveyra_reader first, second;
        memset(&first, 0, sizeof first);
        memset(&second, 0xff, sizeof second);
        CHECK(call_fresh('B', 0, 3, &first) == 0 && call_fresh('B', 0, 3, &second) == 0);
        CHECK(memcmp(&first, &second, sizeof first) == 0);
    }
}

/* Document 01's examples of single calls. */
static void examples(void)
{
    static const size_t binary_seconds[] = {85, 86, 87, 90, 91, 95, 96};
    uint8_t frame[100], expected[100];
    size_t i, j, ones;

    CHECK(symbols_of("P00000000P 000100000P 001001000P 100001001P 100000000P 000000000P", expected) == 60);
    memset(frame, FILL, sizeof frame);
    CHECK(call_write('H', 1, 191, 5088000, 0, frame, 60) == 0);
    CHECK(memcmp(frame, expected, 60) == 0 && all_bytes(frame + 60, 40, FILL));

    CHECK(call_write('B', 0, 1, 5091200, 0, frame, 100) == 0);
    for (i = 80, j = 0, ones = 0; i < 98; i++)
        if (frame[i] == 1) {
            CHECK(j < 7 && binary_seconds[j] == i);
            j++;
            ones++;
        }
    CHECK(ones == 7);

    CHECK(call_write('H', 1, 1, 0, 511, frame, 60) == 0 && all_bytes(frame + 50, 9, 1));
    memset(frame, FILL, sizeof frame);
    CHECK(call_write('H', 1, 1, 0, 512, frame, 60) == 9 && all_bytes(frame, 100, FILL));
    CHECK(call_write('D', 0, 1, 0, 0, frame, 60) == 1 && all_bytes(frame, 100, FILL));
    CHECK(call_write('B', 0, 367, 0, 0, frame, 100) == 2 && all_bytes(frame, 100, FILL));
    CHECK(call_write('B', 0, 1, 50, 0, frame, 100) == 2 && all_bytes(frame, 100, FILL));
    CHECK(call_write('B', 0, 1, 0, 0, frame, 99) == 3 && all_bytes(frame, 100, FILL));
    CHECK(call_write('B', 0, 366, 0, 0, frame, 100) == 0);
    CHECK_VALUES(call_read('B', 0, frame, 100), 366, 0, 0);

    CHECK_TIME(call_step('B', 0, 365, 8639900, 365, 0), 1, 0);
    CHECK_TIME(call_step('B', 0, 365, 8639900, 366, 0), 366, 0);
    for (i = 0; i < STEPS; i++) {
        CHECK(both_steps[i]('B', 0, 1, 0, 364, 0) == 11 && same());
        CHECK(both_steps[i]('B', 0, 366, 0, 365, 0) == 11 && same());
        CHECK(both_steps[i]('B', 0, 367, 0, 366, 0) == 2 && same());
    }
    CHECK_TIME(call_step_back('B', 0, 1, 0, 365, 0), 365, 8639900);
    CHECK_TIME(call_step_back('B', 0, 1, 0, 366, 0), 366, 8639900);
    /* 11 and 15 look at the time that is given, not at the one before. */
    CHECK_TIME(call_step_back('B', 0, 366, 0, 366, 0), 365, 8639900);
    CHECK(call_step_back('B', 0, 181, 8639900, 365, DUSKVEYRA_SECOND_TAKEN) == 15 && same());

    CHECK_DIFFERENCE(call_difference(2, 0, 1, 8639999), 1);
    CHECK_DIFFERENCE(call_difference(1, 8639999, 2, 0), -1);
    CHECK_DIFFERENCE(call_difference(191, 5088000, 191, 5088000), 0);
    CHECK_DIFFERENCE(call_difference(366, 8639999, 1, 0), INT64_C(3162239999));
    CHECK_DIFFERENCE(call_difference(1, 0, 366, 8639999), -INT64_C(3162239999));
    CHECK(call_difference(0, 0, 1, 0) == 2 && same());
    CHECK(call_difference(1, 0, 0, 0) == 2 && same());
    CHECK(call_difference(367, 0, 1, 0) == 2 && same());
    CHECK(call_difference(1, 0, 65535, 0) == 2 && same());
    CHECK(call_difference(1, 8640100, 1, 0) == 2 && same());
    CHECK(call_difference(1, 0, 1, UINT32_MAX) == 2 && same());
    /* A day counts 8,640,000 hundredths, also one with a second added. */
    CHECK_DIFFERENCE(call_difference(1, 8640099, 2, 0), 99);
    CHECK_DIFFERENCE(call_difference(2, 0, 1, 8640000), 0);

    /* The table's examples of the numbers 4 to 8. */
    CHECK(call_write('B', 0, 1, 100, 0, frame, 100) == 0);
    frame[50] = 7;
    CHECK(call_read('B', 0, frame, 100) == 4 && same());
    frame[50] = 0;
    frame[0] = 1;
    CHECK_INDEX(call_read('B', 0, frame, 100), 5, 0);
    frame[0] = 2;
    frame[5] = 1;
    CHECK_INDEX(call_read('B', 0, frame, 100), 6, 5);
    frame[5] = 0;
    frame[80] = 0;
    CHECK(call_read('B', 0, frame, 100) == 8 && same());
    frame[80] = 1;
    CHECK(call_read('B', 0, frame, 100) == 0);
    CHECK(call_write('B', 2, 366, 0, 0, frame, 100) == 0);
    frame[30] = 1;
    CHECK(call_read('B', 2, frame, 100) == 7 && same());
}

/* The first number of the order that applies. */
static void orders(void)
{
    unsigned bad;
    size_t i;
    uint8_t *frame = bytes(100, FILL);
    for (bad = 0; bad < 16; bad++) {
        uint8_t number = bad & 1 ? 1 : bad & 2 ? 2 : bad & 4 ? 9 : bad & 8 ? 3 : 0;
        uint8_t answer;
        memset(frame, FILL, 100);
        answer = call_write('B', bad & 1 ? 8 : 1, bad & 2 ? 0 : 1, 0, bad & 4 ? UINT64_C(1) << 27 : 0, frame,
                            bad & 8 ? 99 : 100);
        CHECK(answer == number);
        CHECK(number == 0 || all_bytes(frame, 100, FILL));
    }
    for (bad = 0; bad < 32; bad++) {
        uint8_t number = bad & 1 ? 1 : bad & 2 ? 2 : bad & 4 ? 14 : bad & 8 ? 9 : bad & 16 ? 3 : 0;
        uint8_t answer;
        memset(frame, FILL, 100);
        answer = call_write('H', bad & 1 ? 3 : 1, bad & 2 ? 367 : 1, bad & 4 ? 8640000 : 0, bad & 8 ? 512 : 0, frame,
                            bad & 16 ? 61 : 60);
        CHECK(answer == number);
        CHECK(number == 0 || all_bytes(frame, 100, FILL));
        number = bad & 1 ? 1 : bad & 2 ? 2 : bad & 4 ? 14 : bad & 8 ? 11 : bad & 16 ? 15 : 0;
        for (i = 0; i < STEPS; i++) {
            answer = both_steps[i]('E', bad & 1 ? 3 : 1, bad & 2 ? 0 : 1, bad & 4 ? 8640000 : 0, bad & 8 ? 367 : 366,
                                   bad & 16 ? 3 : 2);
            CHECK(answer == number);
            CHECK(number == 0 || same());
        }
    }
    for (bad = 0; bad < 16; bad++) {
        uint8_t number = bad & 1 ? 1 : bad & 2 ? 2 : bad & 4 ? 11 : bad & 8 ? 15 : 0;
        uint32_t c = (bad & 2 ? 50 : 0) + (bad & 8 ? 8639900 : 0);
        for (i = 0; i < STEPS; i++) {
            CHECK(both_steps[i]('B', bad & 1 ? 8 : 1, 1, c, bad & 4 ? 367 : 366, 2) == number);
            CHECK(number == 0 || same());
        }
    }
    for (bad = 0; bad < 64; bad++) {
        uint8_t number = bad & 1 ? 1 : bad & 2 ? 3 : bad & 4 ? 4 : bad & 8 ? 6 : bad & 16 ? 7 : bad & 32 ? 8 : 0;
        CHECK(call_write('B', 0, 1, 0, 0, frame, 100) == 0);
        if (bad & 4)
            frame[98] = 4;
        if (bad & 8)
            frame[5] = 1;
        if (bad & 16)
            frame[6] = frame[7] = frame[8] = 1;
        if (bad & 32)
            frame[97] = 1;
        CHECK(call_read('B', bad & 1 ? 8 : 0, frame, bad & 2 ? 99 : 100) == number);
        if (number == 6)
            SET(size_t, index, 5);
        CHECK(number == 0 || same());
    }
    /* The lowest index decides between 5 and 6. */
    CHECK(call_write('B', 1, 1, 0, 0, frame, 100) == 0);
    frame[14] = 1;
    frame[19] = 3;
    CHECK_INDEX(call_read('B', 1, frame, 100), 6, 14);
    frame[9] = 0;
    CHECK_INDEX(call_read('B', 1, frame, 100), 5, 9);
    frame[1] = 3;
    CHECK_INDEX(call_read('B', 1, frame, 100), 6, 1);
    for (bad = 0; bad < 4; bad++) {
        uint8_t number = bad & 1 ? 1 : bad & 2 ? 12 : 0;
        CHECK(call_scan('B', bad & 1 ? 8 : 0, frame, 4, bad & 2 ? 5 : 4) == number);
        if (number == 0)
            SET(uint8_t, flag, 0);
        CHECK(same());
    }
    free(frame);
    for (bad = 0; bad < 4; bad++) {
        uint8_t number = bad & 1 ? 10 : bad & 2 ? 3 : 0;
        uint32_t *widths = ticks(5, 200), *periods = ticks(bad & 2 ? 4 : 5, 1000);
        uint8_t *symbols = bytes(5, FILL);
        int32_t off[5] = {7, 7, 7, 7, 7};
        CHECK(duskveyra_classify_list(usual, bad & 1 ? 99 : 1000, widths, 5, periods, bad & 2 ? 4 : 5, symbols, 5, off, 5)
                  .number == number);
        CHECK(all_bytes(symbols, 5, number == 0 ? 0 : FILL) && off[0] == (number == 0 ? 0 : 7));
        free(widths);
        free(periods);
        free(symbols);
    }
    for (bad = 0; bad < 8; bad++) {
        duskveyra_reader reader;
        uint8_t number = bad & 1 ? 13 : bad & 4 ? 26 : bad & 2 ? 4 : 0;
        CHECK(call_fresh('H', 1, 2, &reader) == 0);
        if (bad & 1)
            reader.words[3] = 60;
        if (bad & 4)
            reader.words[2] = 6;
        CHECK(call_feed(&reader, bad & 2 ? 4 : 2) == number);
        CHECK(number == 0 || same());
        number = bad & 2 ? 10 : bad & 1 ? 13 : bad & 4 ? 26 : 0;
        CHECK(call_feed_pulse(&reader, bad & 2 ? 10000001 : 1000, 800, 1000) == number);
        CHECK(number == 0 || same());
    }
}

static void frames(void)
{
    int f;
    for (f = 0; f < FORMATS; f++) {
        uint8_t letter = (uint8_t)letters[f], expression = expressions[f];
        size_t n = size_of(letter), i, length;
        unsigned bits = control_bits(letter, expression), turn, symbol;
        uint8_t *frame = bytes(n, FILL), *again = bytes(n, FILL);

        for (turn = 0; turn < 100; turn++) {
            uint16_t day = turn == 0 ? 366 : (uint16_t)(1 + below(366));
            uint32_t last = day_end(letter, turn == 1 ? DUSKVEYRA_SECOND_ADDED : DUSKVEYRA_USUAL_DAY);
            uint32_t c = turn <= 1 ? last - interval_of(letter) : random_time(letter);
            uint64_t control =
                turn == 0 && bits > 0 ? (UINT64_C(1) << bits) - 1 : random_control(letter, expression);
            memset(frame, FILL, n);
            CHECK(call_write(letter, expression, day, c, control, frame, n) == 0);
            for (i = 0; i < n; i++) {
                char at = kind(letter, expression, i);
                CHECK(at == 'P' ? frame[i] == 2 : at == 'b' ? frame[i] <= 1 : frame[i] == 0);
            }
            CHECK_VALUES(call_read(letter, expression, frame, n), day, c, control);
        }
        /* Each control bit alone, and the first that is not carried. */
        for (turn = 0; turn < 64; turn++) {
            memset(again, FILL, n);
            if (turn < bits) {
                CHECK(call_write(letter, expression, 1, 0, UINT64_C(1) << turn, again, n) == 0);
                CHECK(call_read(letter, expression, again, n) == 0 && got.control == UINT64_C(1) << turn);
            } else {
                CHECK(call_write(letter, expression, 1, 0, UINT64_C(1) << turn, again, n) == 9);
                CHECK(all_bytes(again, n, FILL));
            }
        }
        /* Times out of range or beside the grid. */
        memset(again, FILL, n);
        CHECK(call_write(letter, expression, 0, 0, 0, again, n) == 2);
        CHECK(call_write(letter, expression, 65535, 0, 0, again, n) == 2);
        CHECK(call_write(letter, expression, 1, 8640100, 0, again, n) == 2);
        CHECK(call_write(letter, expression, 1, UINT32_MAX, 0, again, n) == 2);
        CHECK(leaps(letter) || call_write(letter, expression, 1, 8640000, 0, again, n) == 14);
        CHECK(interval_of(letter) == 1 || call_write(letter, expression, 1, 1, 0, again, n) == 2);
        CHECK(all_bytes(again, n, FILL));
        /* Other lengths. */
        for (length = 0; length <= 101; length++)
            if (length != n) {
                uint8_t *other = bytes(length, FILL);
                CHECK(call_write(letter, expression, 1, 0, 0, other, length) == 3 && all_bytes(other, length, FILL));
                CHECK(call_read(letter, expression, other, length) == 3 && same());
                free(other);
            }
        /* One element replaced by every byte. */
        for (i = 0; i < n; i++) {
            uint8_t kept = frame[i];
            char at = kind(letter, expression, i);
            for (symbol = 0; symbol < 256; symbol++) {
                uint8_t answer;
                frame[i] = (uint8_t)symbol;
                answer = call_read(letter, expression, frame, n);
                if (symbol > 3) {
                    CHECK(answer == 4 && same());
                } else if ((symbol == 2) != (at == 'P')) {
                    CHECK_INDEX(answer, 5, i);
                } else if (at != 'P' && (symbol == 3 || (at == '.' && symbol == 1))) {
                    CHECK_INDEX(answer, 6, i);
                } else if (answer == 0) {
                    set_values(got.day, got.hundredths, got.control);
                    CHECK(same());
                    CHECK(call_write(letter, expression, got.day, got.hundredths, got.control, again, n) == 0);
                    CHECK(memcmp(frame, again, n) == 0);
                } else {
                    CHECK((answer == 7 || answer == 8) && symbol != kept && same());
                }
            }
            frame[i] = kept;
        }
        free(frame);
        free(again);
    }
}

static void steps(void)
{
    int f;
    unsigned year_length;
    size_t i;
    for (f = 0; f < FORMATS; f++) {
        uint8_t letter = (uint8_t)letters[f], expression = expressions[f];
        uint32_t interval = interval_of(letter), last = 8640000 - interval;
        for (year_length = 0; year_length < 1000; year_length++) {
            int taken = year_length == 365 || year_length == 366;
            for (i = 0; i < STEPS; i++) {
                uint16_t year = (uint16_t)year_length;
                CHECK(both_steps[i](letter, expression, 365, interval, year, 0) == (taken ? 0 : 11));
                if (taken)
                    set_time(365, i == 0 ? 2 * interval : 0);
                CHECK(same());
            }
        }
        CHECK_TIME(call_step(letter, expression, 366, last, 366, 0), 1, 0);
        CHECK_TIME(call_step(letter, expression, 59, last, 365, 0), 60, 0);
        CHECK_TIME(call_step_back(letter, expression, 1, 0, 366, 0), 366, last);
        CHECK_TIME(call_step_back(letter, expression, 60, 0, 365, 0), 59, last);
        for (i = 0; i < STEPS; i++) {
            step_call *step = both_steps[i];
            CHECK(step(letter, expression, 366, last, 365, 0) == 11 && same());
            CHECK(step(letter, expression, 366, 0, 365, 0) == 11 && same());
            CHECK(step(letter, expression, 0, 0, 365, 0) == 2 && same());
            CHECK(step(letter, expression, 1, 8640000, 365, 0) == (leaps(letter) ? 15 : 14) && same());
            CHECK(step(letter, expression, 1, 8640100, 365, 1) == 2 && same());
            CHECK(interval == 1 || (step(letter, expression, 1, interval - 1, 365, 0) == 2 && same()));
        }
    }
}

/* The number by which either step refuses, by the rules and without the library. */
static uint8_t step_number(uint8_t letter, uint16_t day, uint32_t c, uint16_t year_length, unsigned day_kind)
{
    if (day == 0 || day > 366 || c > 8640099 || c % interval_of(letter) != 0)
        return 2;
    if (!leaps(letter) && c >= 8640000)
        return 14;
    if ((year_length != 365 && year_length != 366) || day > year_length)
        return 11;
    if (day_kind > 2 || c >= day_end(letter, day_kind))
        return 15;
    return 0;
}

/* The time after or before one that the steps take, by the rules and without the library. */
static void set_step(int back, uint8_t letter, uint16_t day, uint32_t c, uint16_t year_length, unsigned day_kind)
{
    uint32_t interval = interval_of(letter), last = day_end(letter, day_kind) - interval;
    if (back && c == 0)
        set_time(day == 1 ? year_length : (uint16_t)(day - 1), last);
    else if (back)
        set_time(day, c - interval);
    else if (c == last)
        set_time(day == year_length ? 1 : (uint16_t)(day + 1), 0);
    else
        set_time(day, c + interval);
}

/* Days of every kind, at their ends and past them. */
static void kinds(void)
{
    static const uint32_t ends[] = {0, 8639900, 8640000, 8640100};
    static const uint16_t days[] = {0, 1, 2, 181, 365, 366, 367};
    int f;
    size_t i, j, back;
    unsigned day_kind, year_length;
    int by;
    for (f = 0; f < FORMATS; f++) {
        uint8_t letter = (uint8_t)letters[f], expression = expressions[f];
        uint32_t interval = interval_of(letter);
        for (day_kind = 0; day_kind < 256; day_kind++)
            for (back = 0; back < STEPS; back++) {
                uint8_t number = day_kind > 2 ? 15 : 0;
                CHECK(both_steps[back](letter, expression, 181, 0, 365, (uint8_t)day_kind) == number);
                if (number == 0)
                    set_step(back == 1, letter, 181, 0, 365, day_kind);
                CHECK(same());
            }
        for (i = 0; i < sizeof ends / sizeof ends[0]; i++)
            for (by = -3; by <= 1; by++)
                for (j = 0; j < sizeof days / sizeof days[0]; j++)
                    for (year_length = 364; year_length <= 367; year_length++)
                        for (day_kind = 0; day_kind < 4; day_kind++) {
                            uint32_t grid = ends[i] - ends[i] % interval + (uint32_t)(by * (int)interval);
                            uint32_t beside = ends[i] + (uint32_t)by;
                            int turn;
                            for (turn = 0; turn < 2 * STEPS; turn++) {
                                uint32_t c = turn % 2 == 0 ? grid : beside;
                                uint16_t year = (uint16_t)year_length;
                                uint8_t number = step_number(letter, days[j], c, year, day_kind);
                                step_call *step = both_steps[turn / 2];
                                CHECK(step(letter, expression, days[j], c, year, (uint8_t)day_kind) == number);
                                if (number == 0)
                                    set_step(turn / 2 == 1, letter, days[j], c, year, day_kind);
                                CHECK(same());
                            }
                        }
    }
}

/* A time that one step gives goes back by the other, with the same year length and kind. */
static void back_again(int f, uint16_t day, uint32_t c)
{
    uint8_t letter = (uint8_t)letters[f], expression = expressions[f];
    uint16_t year_length;
    uint8_t day_kind;
    size_t i;
    for (year_length = 365; year_length <= 366; year_length++)
        for (day_kind = 0; day_kind < 3; day_kind++)
            for (i = 0; i < STEPS; i++) {
                uint8_t number = step_number(letter, day, c, year_length, day_kind);
                CHECK(both_steps[i](letter, expression, day, c, year_length, day_kind) == number);
                if (number != 0)
                    continue;
                CHECK(got.day != day || got.hundredths != c);
                CHECK_TIME(both_steps[1 - i](letter, expression, got.day, got.hundredths, year_length, day_kind), day,
                           c);
            }
}

/* Each step undoes the other, at the ends of days and years and anywhere. */
static void inverses(void)
{
    static const uint16_t days[] = {1, 2, 181, 364, 365, 366};
    int f;
    size_t j;
    unsigned turn, day_kind;
    for (f = 0; f < FORMATS; f++) {
        uint32_t interval = interval_of((uint8_t)letters[f]);
        for (j = 0; j < sizeof days / sizeof days[0]; j++)
            for (turn = 0; turn < 3; turn++) {
                back_again(f, days[j], turn * interval);
                for (day_kind = 0; day_kind < 3; day_kind++)
                    back_again(f, days[j], day_end((uint8_t)letters[f], day_kind) - (turn + 1) * interval);
            }
        for (turn = 0; turn < 500; turn++)
            back_again(f, (uint16_t)(1 + below(366)), random_time((uint8_t)letters[f]));
    }
}

/* Puts a decimal number of two digits at these places, lowest weight first. */
static void put_two(uint8_t *frame, size_t units, size_t tens, size_t tens_width, unsigned number)
{
    size_t i;
    for (i = 0; i < 4; i++)
        frame[units + i] = number % 10 >> i & 1;
    for (i = 0; i < tens_width; i++)
        frame[tens + i] = number / 10 >> i & 1;
}

static void put_binary_seconds(uint8_t *frame, uint32_t seconds)
{
    size_t i;
    for (i = 0; i < 9; i++)
        frame[80 + i] = seconds >> i & 1;
    for (i = 0; i < 8; i++)
        frame[90 + i] = seconds >> (9 + i) & 1;
}

/* 23:59:60: written and read in A, B and G, in no other letter and at no other minute. */
static void added_second(void)
{
    int f;
    for (f = 0; f < FORMATS; f++) {
        uint8_t letter = (uint8_t)letters[f], expression = expressions[f];
        int binary = (letter == 'A' || letter == 'B') && (expression == 0 || expression == 3);
        size_t n = size_of(letter);
        uint32_t c, interval = interval_of(letter);
        unsigned hour, minute, second;
        uint8_t *frame = bytes(n, FILL), *expected = bytes(n, FILL);
        if (!leaps(letter)) {
            CHECK(call_write(letter, expression, 181, 8640000, 0, frame, n) == 14 && all_bytes(frame, n, FILL));
            CHECK(call_write(letter, expression, 181, 8640000 - interval, 0, frame, n) == 0);
            if (letter == 'E') {
                /* 23:59:60 has only the tens. */
                frame[6] = 0;
                frame[7] = frame[8] = 1;
                CHECK(call_read(letter, expression, frame, n) == 7 && same());
            } else {
                frame[7] = 1;
                CHECK_INDEX(call_read(letter, expression, frame, n), 6, 7);
            }
            free(frame);
            free(expected);
            continue;
        }
        for (c = 8640000; c < 8640100; c += interval) {
            uint64_t control = random_control(letter, expression);
            /* The frame of 23:59:00 and the same hundredth, with the seconds put in by hand. */
            CHECK(call_write(letter, expression, 181, c - 6000, control, expected, n) == 0);
            put_two(expected, 1, 6, 3, 60);
            if (binary)
                put_binary_seconds(expected, 86400);
            memset(frame, FILL, n);
            CHECK(call_write(letter, expression, 181, c, control, frame, n) == 0);
            CHECK(memcmp(frame, expected, n) == 0);
            CHECK_VALUES(call_read(letter, expression, frame, n), 181, c, control);
        }
        for (hour = 0; hour < 24; hour++)
            for (minute = 0; minute < 60; minute++)
                for (second = 59; second < 63; second++) {
                    uint32_t seconds = (hour * 60 + minute) * 60 + second;
                    int good = second == 59 || (second == 60 && hour == 23 && minute == 59);
                    put_two(frame, 1, 6, 3, second);
                    put_two(frame, 10, 15, 3, minute);
                    put_two(frame, 20, 25, 2, hour);
                    if (binary)
                        put_binary_seconds(frame, seconds);
                    CHECK(call_read(letter, expression, frame, n) == (good ? 0 : 7));
                    if (good)
                        set_values(181, seconds * 100 + (c - interval) % 100, got.control);
                    CHECK(same());
                }
        if (binary) {
            static const uint32_t others[] = {0, 60, 86340, 86399, 86401, 131071};
            size_t i;
            CHECK(call_write(letter, expression, 181, 8640000, 0, frame, n) == 0);
            for (i = 0; i < sizeof others / sizeof others[0]; i++) {
                put_binary_seconds(frame, others[i]);
                CHECK(call_read(letter, expression, frame, n) == 8 && same());
            }
            CHECK(call_write(letter, expression, 182, 0, 0, frame, n) == 0);
            put_binary_seconds(frame, 86400);
            CHECK(call_read(letter, expression, frame, n) == 8 && same());
        }
        free(frame);
        free(expected);
    }
}

/* The symbol by document 01's sentence. */
static uint8_t symbol_of(uint64_t t, uint64_t w, uint64_t p)
{
    if (100 * p < 95 * t || 100 * p > 105 * t)
        return 3;
    if (15 * t <= 100 * w && 100 * w <= 25 * t)
        return 0;
    if (45 * t <= 100 * w && 100 * w <= 55 * t)
        return 1;
    if (75 * t <= 100 * w && 100 * w <= 85 * t)
        return 2;
    return 3;
}

/* The deviation by document 02's sentence. */
static int32_t deviation_of(uint32_t t, uint32_t w, uint32_t p)
{
    static const int64_t centres[] = {20, 50, 80};
    uint8_t symbol = symbol_of(t, w, p);
    return symbol == 3 ? 0 : (int32_t)(100 * (int64_t)w - centres[symbol] * (int64_t)t);
}

static void classifier(void)
{
    static const uint32_t intervals[] = {100, 101, 137, 1000, 9999999, 10000000};
    static const uint32_t refused[] = {0, 1, 99, 10000001, UINT32_MAX};
    static const unsigned percents[] = {0, 15, 25, 45, 55, 75, 85, 95, 100, 105, 400};
    size_t i, j, k;
    int by, also;
    for (i = 0; i < sizeof refused / sizeof refused[0]; i++)
        CHECK(call_classify(refused[i], 200, 1000) == 10 && same());
    for (i = 0; i < sizeof intervals / sizeof intervals[0]; i++)
        for (j = 0; j < sizeof percents / sizeof percents[0]; j++)
            for (k = 0; k < sizeof percents / sizeof percents[0]; k++)
                for (by = -2; by <= 2; by++)
                    for (also = -2; also <= 2; also++) {
                        uint32_t t = intervals[i];
                        uint32_t w = (uint32_t)((uint64_t)t * percents[j] / 100 + (uint64_t)(int64_t)by);
                        uint32_t p = (uint32_t)((uint64_t)t * percents[k] / 100 + (uint64_t)(int64_t)also);
                        CHECK(call_classify(t, w, p) == 0);
                        SET(uint8_t, symbol, symbol_of(t, w, p));
                        SET(int32_t, deviation, deviation_of(t, w, p));
                        CHECK(same());
                    }
    /* Document 01's row: 150 and 250 give 0, 149 and 251 give 3. */
    CHECK(call_classify(1000, 150, 1000) == 0 && got.symbol == 0);
    CHECK(call_classify(1000, 250, 1000) == 0 && got.symbol == 0);
    CHECK(call_classify(1000, 149, 1000) == 0 && got.symbol == 3);
    CHECK(call_classify(1000, 251, 1000) == 0 && got.symbol == 3);
    CHECK(call_classify(10000000, UINT32_MAX, UINT32_MAX) == 0 && got.symbol == 3);

    /* Lists: every pair of lengths, sentinels around the symbols. */
    for (i = 0; i < 5; i++)
        for (j = 0; j < 5; j++)
            for (k = 0; k < 5; k++) {
                uint32_t *widths = ticks(i, 0), *periods = ticks(j, 0);
                uint8_t *lent = bytes(16 + k + 16, FILL), *exact = bytes(k, FILL);
                int32_t off[6] = {7, 7, 7, 7, 7, 7};
                size_t m;
                uint8_t number = i == j && j == k ? 0 : 3;
                for (m = 0; m < i; m++)
                    widths[m] = (uint32_t)below(1000);
                for (m = 0; m < j; m++)
                    periods[m] = 900 + (uint32_t)below(200);
                CHECK(duskveyra_classify_list(usual, 99, widths, i, periods, j, lent + 16, k, off, k).number == 10);
                CHECK(all_bytes(lent, 32 + k, FILL));
                CHECK(duskveyra_classify_list(usual, 1000, widths, i, periods, j, lent + 16, k, off, k).number == number);
                CHECK(duskveyra_classify_list(usual, 1000, widths, i, periods, j, exact, k, off, k).number == number);
                CHECK(all_bytes(lent, 16, FILL) && all_bytes(lent + 16 + k, 16, FILL));
                for (m = 0; m < k; m++) {
                    uint8_t expected = number == 0 ? symbol_of(1000, widths[m], periods[m]) : FILL;
                    CHECK(lent[16 + m] == expected && exact[m] == expected);
                    CHECK(off[m] == (number == 0 ? deviation_of(1000, widths[m], periods[m]) : 7));
                }
                CHECK(off[k] == 7);
                free(widths);
                free(periods);
                free(lent);
                free(exact);
            }
}

/* Feeds one symbol to the reader, by itself or as a pulse, checks that only what may change did, and tells whether it
 * brought a report. */
static int feed(duskveyra_reader *reader, uint8_t symbol, int pulse)
{
    static const uint32_t widths[] = {200, 501, 790, 350};
    static const int32_t deviations[] = {0, 100, -1000, 0};
    uint8_t answer = pulse ? call_feed_pulse(reader, 1000, widths[symbol], 1000) : call_feed(reader, symbol);
    CHECK(answer == 0);
    CHECK(got.flag <= 1);
    SET(uint8_t, flag, got.flag);
    SET(int32_t, deviation, pulse ? deviations[symbol] : 0);
    if (got.flag == 1)
        set_values(got.day, got.hundredths, got.control);
    memcpy(&want.reader, &got.reader, sizeof want.reader);
    CHECK(same());
    *reader = got.reader;
    return got.flag == 1;
}

static void listing(void)
{
    static const char text[] =
        "P P00000000P 000100000P 001001000P 100001001P 100000000P 000000000P "
        "P00000000P 100100000P 001001000P 100001001P 100000000P 000000000P";
    uint8_t symbols[128];
    size_t length = symbols_of(text, symbols), i;
    int pulse;
    unsigned byte;
    CHECK(length == 121);
    for (pulse = 0; pulse < 2; pulse++) {
        duskveyra_reader reader;
        CHECK(call_fresh('H', 1, 2, &reader) == 0);
        for (i = 0; i < length; i++) {
            int reported;
            /* A refused symbol or interval in between changes nothing. */
            for (byte = 4; byte < 256; byte += 63)
                CHECK(call_feed(&reader, (uint8_t)byte) == 4 && same());
            CHECK(call_feed_pulse(&reader, 99, 800, 1000) == 10 && same());
            reported = feed(&reader, symbols[i], pulse);
            CHECK(reported == (i + 1 == 121));
        }
        CHECK(got.day == 191 && got.hundredths == 5094000 && got.control == 0);
        CHECK(got.hundredths == ((14 * 60 + 9) * 60) * 100);
        CHECK(reader.words[3] == 121 % 60);
        /* One more element brings nothing. */
        CHECK(!feed(&reader, 2, pulse));
    }
}

/* An undamaged stream over the end of a year, joined at every element i with every setting k: the first report with
 * element (k + 1)n - i, then one with each frame. */
static void streams(void)
{
    int f;
    for (f = 0; f < FORMATS; f++) {
        uint8_t letter = (uint8_t)letters[f], expression = expressions[f];
        size_t n = size_of(letter), i, joined, received;
        uint16_t day[6];
        uint32_t c[6];
        uint64_t control[6];
        uint8_t *stream = bytes(6 * n, FILL);
        day[0] = 365;
        c[0] = 8640000 - 3 * interval_of(letter);
        for (i = 0; i < 6; i++) {
            control[i] = random_control(letter, expression);
            CHECK(call_write(letter, expression, day[i], c[i], control[i], stream + i * n, n) == 0);
            if (i < 5) {
                CHECK(call_step(letter, expression, day[i], c[i], f % 2 ? 365 : 366, 0) == 0);
                day[i + 1] = got.day;
                c[i + 1] = got.hundredths;
            }
        }
        for (joined = 0; joined < 4 * n; joined++) {
            duskveyra_reader reader;
            size_t setting = 2 + joined / n, first = joined % n;
            CHECK(call_fresh(letter, expression, (uint8_t)setting, &reader) == 0);
            for (i = first, received = 1; i < 6 * n; i++, received++) {
                int reported = feed(&reader, stream[i], 0);
                int due = (i + 1) % n == 0 && received >= (setting + 1) * n - first;
                CHECK(reported == due);
                if (reported) {
                    size_t k = i / n;
                    CHECK(got.day == day[k] && got.hundredths == c[k] && got.control == control[k]);
                }
            }
        }
        free(stream);
    }
}

/* Frames over the end of a day of every kind: each is reported, 23:59:60 too. Then every third element is replaced, one
 * at a time: a time is reported only where a frame ends, and it is that frame's. */
static void leap_streams(void)
{
    int f;
    unsigned day_kind;
    for (f = 0; f < FORMATS; f++)
        for (day_kind = 0; day_kind < 3; day_kind++) {
            uint8_t letter = (uint8_t)letters[f], expression = expressions[f];
            size_t n = size_of(letter), i, at;
            uint16_t day[5], year_length = f % 2 ? 365 : 366;
            uint32_t c[5];
            uint8_t *stream = bytes(1 + 5 * n, 2);
            day[0] = 365;
            c[0] = day_end(letter, day_kind) - 3 * interval_of(letter);
            for (i = 0; i < 5; i++) {
                CHECK(call_write(letter, expression, day[i], c[i], 0, stream + 1 + i * n, n) == 0);
                if (i < 4) {
                    uint8_t today = (uint8_t)(day[i] == 365 ? day_kind : 0);
                    CHECK(call_step(letter, expression, day[i], c[i], year_length, today) == 0);
                    day[i + 1] = got.day;
                    c[i + 1] = got.hundredths;
                }
            }
            CHECK(day[2] == 365 && c[2] == day_end(letter, day_kind) - interval_of(letter));
            CHECK(day[3] == (f % 2 ? 1 : 366) && c[3] == 0);
            /* The first turn replaces nothing. */
            for (at = (size_t)f % 3; at <= 5 * n; at += 3) {
                duskveyra_reader reader;
                uint8_t kept = stream[at];
                int whole = at < 3;
                size_t reports = 0;
                if (!whole)
                    stream[at] = (uint8_t)((kept + 1 + below(3)) % 4);
                CHECK(call_fresh(letter, expression, 2, &reader) == 0);
                for (i = 0; i <= 5 * n; i++)
                    if (feed(&reader, stream[i], 0)) {
                        reports++;
                        CHECK(i > 0 && i % n == 0);
                        CHECK(got.day == day[i / n - 1] && got.hundredths == c[i / n - 1]);
                    }
                CHECK(whole ? reports == 4 : reports >= 1);
                stream[at] = kept;
            }
            free(stream);
        }
}

static void scans(void)
{
    int f;
    for (f = 0; f < FORMATS; f++) {
        uint8_t letter = (uint8_t)letters[f], expression = expressions[f];
        size_t n = size_of(letter), start, before;
        for (before = 0; before < 12; before++) {
            size_t length = before + 2 * n;
            uint8_t *recording = bytes(length, 3);
            uint64_t control = random_control(letter, expression);
            uint32_t c = random_time(letter);
            CHECK(call_write(letter, expression, 200, c, control, recording + before, n) == 0);
            CHECK(call_write(letter, expression, 200, c, control, recording + before + n, n) == 0);
            if (before > 0)
                recording[before - 1] = before % 2 ? 2 : 255;
            for (start = 0; start <= length; start++) {
                size_t at = before % 2 && start <= before ? before : before + n;
                CHECK(call_scan(letter, expression, recording, length, start) == 0);
                SET(uint8_t, flag, start <= at);
                if (start <= at) {
                    SET(size_t, index, at);
                    set_values(200, c, control);
                }
                CHECK(same());
            }
            CHECK(call_scan(letter, expression, recording, length, length + 1) == 12 && same());
            CHECK(call_scan(letter, expression, recording, length, SIZE_MAX) == 12 && same());
            /* The last element missing. */
            CHECK(call_scan(letter, expression, recording, length - 1, before + 1) == 0);
            SET(uint8_t, flag, 0);
            CHECK(same());
            free(recording);
        }
        {
            uint8_t *recording = bytes(300, 2);
            CHECK(call_scan(letter, expression, recording, 300, 0) == 0);
            SET(uint8_t, flag, 0);
            CHECK(same());
            memset(recording, 255, 300);
            CHECK(call_scan(letter, expression, recording, 300, 0) == 0);
            SET(uint8_t, flag, 0);
            CHECK(same());
            free(recording);
        }
    }
}

static void empty(void)
{
    uint8_t *none = bytes(0, FILL);
    int32_t off = 7;
    uint32_t *widths = ticks(0, 7), *periods = ticks(0, 7);
    CHECK(call_write('B', 0, 1, 0, 0, none, 0) == 3 && none[0] == FILL);
    CHECK(call_read('B', 0, none, 0) == 3 && same());
    CHECK(duskveyra_classify_list(usual, 1000, widths, 0, periods, 0, none, 0, &off, 0).number == 0 && none[0] == FILL);
    CHECK(duskveyra_classify_list(usual, 99, widths, 0, periods, 0, none, 0, &off, 0).number == 10 && none[0] == FILL);
    CHECK(off == 7);
    CHECK(call_scan('B', 0, none, 0, 0) == 0);
    SET(uint8_t, flag, 0);
    CHECK(same());
    CHECK(call_scan('B', 0, none, 0, 1) == 12 && same());
    free(none);
    free(widths);
    free(periods);
}

static int valid(const duskveyra_reader *reader)
{
    const uint64_t *words = reader->words;
    return words[0] < 256 && words[1] < 256 && known((uint8_t)words[0], (uint8_t)words[1]) &&
           words[3] < size_of((uint8_t)words[0]);
}

static int is_set(const duskveyra_reader *reader)
{
    return 2 <= reader->words[2] && reader->words[2] <= 5;
}

/* Feeds a reader that no feeding made: 13, else 26 for a setting that is none, else 4 for a symbol above 3, else Quiet or
 * Report, and nothing else touched. */
static void feed_any(const duskveyra_reader *reader)
{
    static const uint8_t symbols[] = {0, 1, 2, 3, 4, 255};
    size_t i;
    for (i = 0; i < sizeof symbols; i++) {
        uint8_t answer = call_feed(reader, symbols[i]);
        uint8_t number = !valid(reader) ? 13 : !is_set(reader) ? 26 : symbols[i] > 3 ? 4 : 0;
        CHECK(answer == number);
        if (number == 0) {
            CHECK(got.flag <= 1);
            SET(uint8_t, flag, got.flag);
            if (got.flag == 1)
                set_values(got.day, got.hundredths, got.control);
            CHECK(valid(&got.reader));
            memcpy(&want.reader, &got.reader, sizeof want.reader);
        }
        CHECK(same());
        CHECK(call_feed_pulse(reader, 99, 800, 1000) == 10 && same());
        CHECK(call_feed_pulse(reader, 1000, 800, 1000) == (!valid(reader) ? 13 : is_set(reader) ? 0 : 26));
        CHECK((valid(reader) && is_set(reader)) || same());
    }
}

static void any_reader(void)
{
    static const uint64_t settings[] = {0, 1, 2, 5, 6, 255, 256 + 2, UINT64_MAX};
    duskveyra_reader reader;
    int turn, f;
    size_t i;
    memset(&reader, 0xff, sizeof reader);
    feed_any(&reader);
    memset(&reader, 0, sizeof reader);
    feed_any(&reader);
    for (f = 0; f < FORMATS; f++) {
        size_t n = size_of((uint8_t)letters[f]);
        CHECK(call_fresh((uint8_t)letters[f], expressions[f], 2, &reader) == 0);
        feed_any(&reader);
        reader.words[3] = n;
        feed_any(&reader);
        reader.words[3] = UINT64_MAX;
        feed_any(&reader);
        reader.words[3] = UINT64_C(1) << 32;
        feed_any(&reader);
        reader.words[3] = n - 1;
        feed_any(&reader);
        for (i = 0; i < sizeof settings / sizeof settings[0]; i++) {
            reader.words[2] = settings[i];
            feed_any(&reader);
        }
        reader.words[2] = 2;
        /* The low byte is a letter, the word is none. */
        reader.words[0] += 256;
        feed_any(&reader);
        reader.words[0] += (UINT64_C(1) << 32) - 256;
        feed_any(&reader);
        reader.words[0] = (uint64_t)letters[f];
        reader.words[1] += 256;
        feed_any(&reader);
        reader.words[1] = UINT64_C(1) << 63;
        feed_any(&reader);
    }
    for (turn = 0; turn < 3000; turn++) {
        for (i = 0; i < DUSKVEYRA_READER_WORDS; i++)
            reader.words[i] = random64();
        if (turn % 4 != 0) {
            reader.words[0] = (uint64_t)letters[turn % FORMATS];
            reader.words[1] = expressions[turn % FORMATS];
            reader.words[2] = turn % 3 == 0 ? below(8) : 2 + below(4);
            reader.words[3] = below(110);
            reader.words[4] = turn % 7 == 0 ? random64() : below(102);
        }
        if (turn % 5 == 0)
            reader.words[5 + turn % 4] = UINT64_C(0xaaaaaaaaaaaaaaaa); /* marks */
        feed_any(&reader);
    }
}

int main(void)
{
    unknown_formats();
    examples();
    orders();
    frames();
    steps();
    kinds();
    inverses();
    added_second();
    classifier();
    listing();
    streams();
    leap_streams();
    scans();
    empty();
    any_reader();
    printf("%lu checks, %lu failed\n", checks, failed);
    return failed == 0 ? 0 : 1;
}
