/* The simulation: undamaged, damaged and false runs by hand, every count against single feeds of a damaged run, each kind
 * of bad input in its order, and lists that do not fit together. What is expected stands in document 02, "Trying the
 * confirmation setting". Also compiles as C++. */
#include "check.h"
#include "duskveyra.h"
#include "times.h"

#include <stdio.h>
#include <stdlib.h>
#include <string.h>

#define MOST DUSKVEYRA_MOST_LISTENERS
#define ROOM 64

/* The lists of a call; each is lent in memory of its exact length, so that valgrind sees an access past either end. */
typedef struct lists {
    uint8_t settings[ROOM];
    size_t ends[ROOM];
    uint64_t numbers[ROOM];
    uint8_t symbols[ROOM];
    size_t settings_length, ends_length, numbers_length, symbols_length;
} lists;

static lists no_listeners(void)
{
    lists l;
    memset(&l, 0, sizeof l);
    return l;
}

static void add_listener(lists *l, unsigned setting)
{
    l->settings[l->settings_length++] = (uint8_t)setting;
    l->ends[l->ends_length++] = l->numbers_length;
}

/* To the listener that was added last. */
static void add_damage(lists *l, uint64_t number, unsigned symbol)
{
    l->numbers[l->numbers_length++] = number;
    l->symbols[l->symbols_length++] = (uint8_t)symbol;
    l->ends[l->ends_length - 1] = l->numbers_length;
}

static void *copy_of(const void *list, size_t bytes)
{
    void *copy = lent_memory(bytes);
    memcpy(copy, list, bytes);
    return copy;
}

static duskveyra_simulate_result simulate(duskveyra_format format, duskveyra_time start, uint32_t frames,
                                          unsigned year_length, const lists *l)
{
    const size_t bytes[4] = {l->settings_length, l->ends_length * sizeof l->ends[0],
                             l->numbers_length * sizeof l->numbers[0], l->symbols_length};
    uint8_t *settings = (uint8_t *)copy_of(l->settings, bytes[0]);
    size_t *ends = (size_t *)copy_of(l->ends, bytes[1]);
    uint64_t *numbers = (uint64_t *)copy_of(l->numbers, bytes[2]);
    uint8_t *symbols = (uint8_t *)copy_of(l->symbols, bytes[3]);
    const duskveyra_simulate_result result =
        duskveyra_simulate(format, start, frames, (uint16_t)year_length, settings, l->settings_length, ends,
                           l->ends_length, numbers, l->numbers_length, symbols, l->symbols_length);
    CHECK(memcmp(settings, l->settings, bytes[0]) == 0 && memcmp(ends, l->ends, bytes[1]) == 0);
    CHECK(memcmp(numbers, l->numbers, bytes[2]) == 0 && memcmp(symbols, l->symbols, bytes[3]) == 0);
    free(settings);
    free(ends);
    free(numbers);
    free(symbols);
    return result;
}

static int counted(duskveyra_counts counts, uint64_t first, uint64_t reports, uint64_t wrong)
{
    return counts.first == first && counts.reports == reports && counts.wrong == wrong;
}

/* All counts from that listener on are 0. */
static int none_from(const duskveyra_simulate_result *result, size_t listener)
{
    for (; listener < MOST; listener++)
        if (!counted(result->counts[listener], 0, 0, 0))
            return 0;
    return 1;
}

/* Frame 1 has no mark before it, so that the first report comes with frame k + 1; in X it needs none. */
static void test_undamaged(void)
{
    static const char formats[] = "A0A7B0B4D1D2E1E2G1G2H1H2X2";
    size_t f, listeners, j;
    for (f = 0; formats[f] != 0; f += 2) {
        const duskveyra_format format = format_of(formats[f], (unsigned)(formats[f + 1] - '0'));
        const uint64_t n = formats[f] == 'X' ? 25 : formats[f] == 'D' || formats[f] == 'H' ? 60 : 100;
        for (listeners = 0; listeners <= MOST; listeners++) {
            lists l = no_listeners();
            duskveyra_simulate_result result;
            for (j = 0; j < listeners; j++)
                add_listener(&l, 2 + (unsigned)(j % 4));
            result = simulate(format, time_of(0, 1, 0), 20, 365, &l);
            CHECK(result.number == DUSKVEYRA_OK && none_from(&result, listeners));
            for (j = 0; j < listeners; j++) {
                const uint64_t first = l.settings[j] + (formats[f] == 'X' ? 0u : 1u);
                CHECK(counted(result.counts[j], first * n, 21 - first, 0));
            }
            result = simulate(format, time_of(0, 1, 0), 0, 365, &l);
            CHECK(result.number == DUSKVEYRA_OK && none_from(&result, 0));
        }
    }
}

/* Element 31 of each frame is the lowest unit of days: day 190 becomes 191. */
static void test_damaged(void)
{
    const duskveyra_format format = format_of('B', 2);
    lists l = no_listeners();
    duskveyra_simulate_result result;
    unsigned frame;

    add_listener(&l, 2);
    for (frame = 0; frame < 10; frame++)
        add_damage(&l, 100 * frame + 31, 1);
    add_listener(&l, 2);
    for (frame = 0; frame < 4; frame++)
        add_damage(&l, 100 * frame + 31, 1);
    add_listener(&l, 5);
    add_damage(&l, 450, 3);
    add_listener(&l, 2);
    add_damage(&l, 0, 3);
    add_damage(&l, 1001, 3);
    add_damage(&l, UINT64_MAX, 3);
    add_listener(&l, 2);
    add_listener(&l, 2);
    add_damage(&l, 1000, 3);
    result = simulate(format, time_of(0, 190, 4320000), 10, 365, &l);
    CHECK(result.number == DUSKVEYRA_OK && none_from(&result, 6));
    CHECK(counted(result.counts[0], 300, 8, 8));
    CHECK(counted(result.counts[1], 300, 7, 2));
    CHECK(counted(result.counts[2], 1000, 1, 0));
    CHECK(counted(result.counts[3], 300, 8, 0));
    CHECK(counted(result.counts[4], 300, 8, 0));
    CHECK(counted(result.counts[5], 300, 7, 0));
}

/* What single feeds of one listener's damaged run count. */
static duskveyra_counts by_feeds(duskveyra_format format, duskveyra_time start, uint32_t frames, unsigned year_length,
                                 size_t n, const lists *l, size_t listener)
{
    size_t next = listener == 0 ? 0 : l->ends[listener - 1];
    uint8_t frame[DUSKVEYRA_LONGEST_FRAME];
    duskveyra_counts counts;
    duskveyra_reader reader;
    duskveyra_time time = start;
    uint64_t number = 0;
    size_t i;

    memset(&counts, 0, sizeof counts);
    CHECK(duskveyra_fresh(format, l->settings[listener], &reader).number == DUSKVEYRA_OK);
    while (next < l->ends[listener] && l->numbers[next] == 0)
        next++;
    for (; frames > 0; frames--) {
        CHECK(duskveyra_write(format, time, 0, frame, n).number == DUSKVEYRA_OK);
        for (i = 0; i < n; i++) {
            duskveyra_feed_result fed;
            number++;
            if (next < l->ends[listener] && l->numbers[next] == number)
                frame[i] = l->symbols[next++];
            fed = duskveyra_feed(&reader, frame[i]);
            if (fed.reported == 0)
                continue;
            if (counts.reports++ == 0)
                counts.first = number;
            if (i + 1 < n || !is_time(fed.time, time.year, time.day, time.hundredths))
                counts.wrong++;
        }
        time = duskveyra_step(format, time, (uint16_t)year_length, DUSKVEYRA_USUAL_DAY).time;
    }
    return counts;
}

/* Up to 7 damages: any, or one bit of frames in succession, which can bring false times. */
static void add_any_damages(lists *l, uint64_t elements, uint64_t n)
{
    const int same = below(2) == 0;
    const unsigned bit = (unsigned)below(2);
    uint64_t number = same ? 1 + below(n) : below(elements + 2);
    size_t damages;
    for (damages = below(8); damages > 0; damages--) {
        add_damage(l, number, same ? bit : (unsigned)below(4));
        number += same ? n : 1 + below(2 * n);
    }
}

static void test_against_feeds(void)
{
    static const char formats[] = "A0A4B2B3B6D1E2G1H2X2";
    unsigned long reports = 0, wrong = 0;
    unsigned turn;
    size_t j;
    for (turn = 0; turn < 1000; turn++) {
        const char *name = formats + 2 * below(sizeof formats / 2);
        const duskveyra_format format = format_of(name[0], (unsigned)(name[1] - '0'));
        const size_t n = name[0] == 'X' ? 25 : name[0] == 'D' || name[0] == 'H' ? 60 : 100;
        const unsigned year_length = 365 + (unsigned)below(2);
        const duskveyra_time start = time_of(0, name[0] == 'X' || below(2) ? 1 : 365, below(2) ? 0 : 8280000);
        const uint32_t frames = (uint32_t)below(8);
        lists l = no_listeners();
        duskveyra_simulate_result result;
        const size_t listeners = below(MOST + 1);
        for (j = 0; j < listeners; j++) {
            add_listener(&l, 2 + (unsigned)below(4));
            add_any_damages(&l, frames * n, n);
        }
        result = simulate(format, start, frames, year_length, &l);
        CHECK(result.number == DUSKVEYRA_OK && none_from(&result, listeners));
        for (j = 0; j < listeners; j++) {
            const duskveyra_counts counts = by_feeds(format, start, frames, year_length, n, &l, j);
            CHECK(counted(result.counts[j], counts.first, counts.reports, counts.wrong));
            reports += (unsigned long)counts.reports;
            wrong += (unsigned long)counts.wrong;
        }
    }
    /* both kinds were met */
    CHECK(wrong > 20 && reports > 10 * wrong);
}

static void refused(duskveyra_format format, duskveyra_time start, unsigned year_length, const lists *l,
                    unsigned number)
{
    uint32_t frames;
    for (frames = 0; frames <= 3; frames += 3) {
        const duskveyra_simulate_result result = simulate(format, start, frames, year_length, l);
        CHECK(result.number == number && none_from(&result, 0));
    }
}

/* Each number, where all later ones are due too. */
static void test_refusals(void)
{
    const duskveyra_format format = format_of('B', 0);
    const duskveyra_time start = time_of(0, 190, 0), added = time_of(0, 366, 8640000);
    lists l = no_listeners();
    unsigned j;

    for (j = 0; j < 9; j++)
        add_listener(&l, 2);
    add_damage(&l, 7, 4);
    add_damage(&l, 7, 255);
    l.settings[8] = 6;
    l.ends_length = 8;
    refused(format_of('B', 8), time_of(1, 0, 1), 0, &l, DUSKVEYRA_UNKNOWN_FORMAT);
    refused(format, time_of(1, 0, 1), 0, &l, DUSKVEYRA_INVALID_YEAR);
    refused(format, time_of(0, 0, 1), 0, &l, DUSKVEYRA_INVALID_TIME);
    refused(format, time_of(0, 1, 1), 0, &l, DUSKVEYRA_INVALID_TIME);
    refused(format_of('E', 1), added, 0, &l, DUSKVEYRA_SECOND_NOT_CARRIED);
    refused(format, added, 365, &l, DUSKVEYRA_INVALID_YEAR_LENGTH);
    refused(format, added, 366, &l, DUSKVEYRA_INVALID_KIND);
    for (j = 0; j < 256; j++) {
        l.settings[8] = (uint8_t)j;
        refused(format, start, 365, &l, j < 2 || j > 5 ? DUSKVEYRA_INVALID_SETTING : DUSKVEYRA_WRONG_LENGTH);
    }
    l.settings[8] = 5;
    l.ends_length = 9;
    refused(format, start, 365, &l, DUSKVEYRA_INVALID_LISTENER);
}

/* Lists that are not those of listeners: 3 before 27. */
static void test_lists(void)
{
    const duskveyra_format format = format_of('B', 0);
    const duskveyra_time start = time_of(0, 190, 0);
    static const size_t bad_ends[][3] = {{2, 1, 4}, {0, 5, 4}, {0, 0, 3}, {0, 0, 5}, {5, 5, 5}, {(size_t)-1, 0, 4}};
    lists good = no_listeners(), l;
    size_t i;

    add_listener(&good, 2);
    add_listener(&good, 3);
    add_damage(&good, 9, 4);
    add_damage(&good, 8, 4);
    add_listener(&good, 4);
    add_damage(&good, 7, 4);
    add_damage(&good, 7, 4);
    refused(format, start, 365, &good, DUSKVEYRA_INVALID_LISTENER);
    for (i = 0; i < sizeof bad_ends / sizeof bad_ends[0]; i++) {
        l = good;
        memcpy(l.ends, bad_ends[i], sizeof bad_ends[i]);
        refused(format, start, 365, &l, DUSKVEYRA_WRONG_LENGTH);
    }
    for (i = 0; i < 6; i++) {
        l = good;
        l.settings[3] = 2;
        l.ends[3] = 4;
        if (i == 0)
            l.settings_length = 4;
        else if (i == 1)
            l.settings_length = 2;
        else if (i == 2)
            l.ends_length = 4;
        else if (i == 3)
            l.ends_length = 2;
        else if (i == 4)
            l.numbers_length = 3;
        else
            l.symbols_length = 5;
        refused(format, start, 365, &l, DUSKVEYRA_WRONG_LENGTH);
    }
    /* damages without a listener */
    l = good;
    l.settings_length = l.ends_length = 0;
    refused(format, start, 365, &l, DUSKVEYRA_WRONG_LENGTH);
}

/* 27: a symbol above 3, numbers that fall or stay, in any place; a ninth listener. */
static void test_listeners(void)
{
    const duskveyra_format format = format_of('H', 1);
    const duskveyra_time start = time_of(0, 190, 0);
    lists good = no_listeners(), l;
    unsigned j;

    for (j = 0; j < MOST; j++) {
        add_listener(&good, 2 + j % 4);
        add_damage(&good, j, 0);
        add_damage(&good, 40, 1);
        add_damage(&good, UINT64_MAX - j, 3);
    }
    CHECK(simulate(format, start, 3, 365, &good).number == DUSKVEYRA_OK);
    for (j = 0; j < 3 * MOST; j++) {
        l = good;
        l.symbols[j] = (uint8_t)(4 + below(252));
        refused(format, start, 365, &l, DUSKVEYRA_INVALID_LISTENER);
        if (j % 3 == 0)
            continue;
        l = good;
        l.numbers[j] = l.numbers[j - 1];
        refused(format, start, 365, &l, DUSKVEYRA_INVALID_LISTENER);
        if (l.numbers[j - 1] > 0)
            l.numbers[j] = l.numbers[j - 1] - 1;
        refused(format, start, 365, &l, DUSKVEYRA_INVALID_LISTENER);
    }
    l = good;
    add_listener(&l, 2);
    refused(format, start, 365, &l, DUSKVEYRA_INVALID_LISTENER);
}

/* The longest run, which takes more than an hour: tests/c/run ends it after two seconds. */
static int run_longest(void)
{
    lists l = no_listeners();
    unsigned j;
    for (j = 0; j < MOST; j++)
        add_listener(&l, 2 + j % 4);
    return simulate(format_of('G', 1), time_of(0, 190, 0), UINT32_MAX, 365, &l).number;
}

int main(int argc, char **argv)
{
    if (argc > 1 && strcmp(argv[1], "longest") == 0)
        return run_longest();
    test_undamaged();
    test_damaged();
    test_against_feeds();
    test_refusals();
    test_lists();
    test_listeners();
    printf("%lu checks, %lu failed\n", checks, failed);
    return failed != 0;
}
