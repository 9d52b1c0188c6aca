/* duskveyra_feed_block from C: the same as duskveyra_feed symbol by symbol, at every split of a recording and with any
 * room; what stops it; its refusals and their order; and the memory that it must leave. Also compiles as C++. */
#include "check.h"
#include "duskveyra.h"

#include <stdio.h>
#include <stdlib.h>
#include <string.h>

#define FRAMES 10
#define MOST (FRAMES - 1)
#define ROOM (MOST + 2)
#define LONGEST (2 + DUSKVEYRA_LONGEST_FRAME * FRAMES)

static const struct format {
    uint8_t letter;
    uint8_t expression;
    size_t n;
    uint32_t interval;
    uint64_t control;
    uint8_t setting;
} formats[] = {
    {'B', 0, 100, 100, UINT64_C(0x7ffffff), 2},
    {'E', 1, 100, 1000, UINT64_C(0x1fffffffffff), 3},
    {'D', 1, 60, 360000, UINT64_C(0x1ff), 4},
    {'H', 1, 60, 6000, UINT64_C(0x1ff), 5},
    {'B', 4, 100, 100, UINT64_C(0x3ffff), 2},
    {'X', 2, 25, 100, 0, 2},
    {'X', 2, 25, 100, 0, 5},
};

/* The format and the setting under test; the recording, the last two symbols of a frame and then frames in succession;
 * and what single feeds make of the recording: the reader after each number of symbols, and the reports in their order,
 * each with the index of the symbol that brings it. */
static struct format format;
static uint8_t recording[LONGEST];
static size_t length;
static duskveyra_reader after[LONGEST + 1];
static size_t all_reports;
static size_t indexes[MOST];
static uint8_t years[MOST];
static uint16_t days[MOST];
static uint32_t hundredths[MOST];
static uint64_t controls[MOST];

/* One block: its reader with guard words around it, its lent list of records as five lists, and its result. */
struct block {
    uint64_t guard0;
    duskveyra_reader reader;
    uint64_t guard1;
    size_t room;
    size_t *indexes;
    uint8_t *years;
    uint16_t *days;
    uint32_t *hundredths;
    uint64_t *controls;
    duskveyra_block_result result;
};

static struct block make(const duskveyra_reader *reader, size_t room)
{
    struct block made;
    memset(&made, FILL, sizeof made);
    made.reader = *reader;
    made.room = room;
    made.indexes = (size_t *)lent_memory(room * sizeof *made.indexes);
    made.years = (uint8_t *)lent_memory(room * sizeof *made.years);
    made.days = (uint16_t *)lent_memory(room * sizeof *made.days);
    made.hundredths = (uint32_t *)lent_memory(room * sizeof *made.hundredths);
    made.controls = (uint64_t *)lent_memory(room * sizeof *made.controls);
    return made;
}

static void release(struct block *block)
{
    free(block->indexes);
    free(block->years);
    free(block->days);
    free(block->hundredths);
    free(block->controls);
}

/* Feeds the symbols, from memory of exactly their length, into lists of these lengths from an index on. */
static void feed_lists(struct block *block, const uint8_t *symbols, size_t count, size_t from, const size_t *lengths)
{
    uint8_t *lent = (uint8_t *)lent_memory(count);
    memcpy(lent, symbols, count);
    block->result = duskveyra_feed_block(&block->reader, lent, count, block->indexes + from, lengths[0],
                                         block->years + from, lengths[1], block->days + from, lengths[2],
                                         block->hundredths + from, lengths[3], block->controls + from, lengths[4]);
    CHECK(memcmp(lent, symbols, count) == 0);
    CHECK(block->guard0 == UINT64_C(0xa5a5a5a5a5a5a5a5) && block->guard1 == UINT64_C(0xa5a5a5a5a5a5a5a5));
    free(lent);
}

static void feed(struct block *block, const uint8_t *symbols, size_t count, size_t from)
{
    size_t left = block->room - from;
    size_t lengths[5];
    lengths[0] = lengths[1] = lengths[2] = lengths[3] = lengths[4] = left;
    feed_lists(block, symbols, count, from, lengths);
}

static int same_reader(const duskveyra_reader *first, const duskveyra_reader *second)
{
    return memcmp(first, second, sizeof *first) == 0;
}

/* Whether the lists hold the recording's first reports, and all past them is untouched. The reports from `later` on
 * came with a block that began at the symbol `start`, those before with one that began at symbol 0. */
static int holds(const struct block *block, size_t reports, size_t later, size_t start)
{
    size_t index;
    if (reports > block->room || reports > all_reports)
        return 0;
    for (index = 0; index < reports; index++)
        if (block->indexes[index] != indexes[index] - (index < later ? 0 : start) ||
            block->years[index] != years[index] || block->days[index] != days[index] ||
            block->hundredths[index] != hundredths[index] || block->controls[index] != controls[index])
            return 0;
    for (; index < block->room; index++)
        if (block->indexes[index] != (size_t)UINT64_C(0xa5a5a5a5a5a5a5a5) || block->years[index] != FILL ||
            block->days[index] != 0xa5a5 || block->hundredths[index] != UINT32_C(0xa5a5a5a5) ||
            block->controls[index] != UINT64_C(0xa5a5a5a5a5a5a5a5))
            return 0;
    return 1;
}

/* Whether the block was taken with this result. */
static int says(const struct block *block, size_t taken, size_t reports, uint8_t stop)
{
    return block->result.number == DUSKVEYRA_OK && block->result.taken == taken && block->result.reports == reports &&
           block->result.stop == stop;
}

/* The reports of the recording's first symbols: the first comes with the mark and as many frames as the setting
 * says. */
static size_t reports_in(size_t symbols)
{
    return symbols < 2 + format.setting * format.n ? 0 : (symbols - 2) / format.n - (format.setting - 1);
}

/* The index of the symbol that brings the report of this index. */
static size_t report_at(size_t report)
{
    return 1 + format.n * (report + format.setting);
}

/* The year of the recording: one without day 366, where the format carries the year. */
static uint8_t recorded_year(void)
{
    return format.expression < 4 ? 0 : 75;
}

/* The day of the recording; X has day 1 alone. */
static uint16_t recorded_day(void)
{
    return format.letter == 'X' ? 1 : 200;
}

/* The control word of a frame of the recording, where the format carries one. */
static uint64_t recorded_control(size_t frame)
{
    return format.control == 0 ? 0 : format.control - frame;
}

static duskveyra_format under_test(void)
{
    duskveyra_format made;
    made.letter = format.letter;
    made.expression = format.expression;
    return made;
}

/* A recording, and what single feeds make of it. */
static void record(void)
{
    size_t frame, index, reports = 0;
    duskveyra_reader reader;
    duskveyra_time time;
    length = 2 + format.n * FRAMES;
    all_reports = FRAMES - format.setting + 1;
    recording[0] = 0;
    recording[1] = 2;
    /* The bytes between the members hold something: the library compares them along where they cannot count, and
     * valgrind would complain of what nothing was stored to. */
    memset(&time, FILL, sizeof time);
    time.year = recorded_year();
    time.day = recorded_day();
    for (frame = 0; frame < FRAMES; frame++) {
        time.hundredths = (uint32_t)frame * format.interval;
        CHECK(duskveyra_write(under_test(), time, recorded_control(frame), recording + 2 + format.n * frame, format.n)
                  .number == DUSKVEYRA_OK);
    }
    CHECK(duskveyra_fresh(under_test(), format.setting, &reader).number == DUSKVEYRA_OK);
    after[0] = reader;
    for (index = 0; index < length; index++) {
        duskveyra_feed_result fed = duskveyra_feed(&reader, recording[index]);
        CHECK(fed.number == DUSKVEYRA_OK);
        after[index + 1] = reader;
        if (fed.reported && reports < all_reports) {
            CHECK(index == report_at(reports));
            indexes[reports] = index;
            years[reports] = fed.time.year;
            days[reports] = fed.time.day;
            hundredths[reports] = fed.time.hundredths;
            controls[reports] = fed.control;
            frame = reports + format.setting - 1;
            CHECK(fed.time.year == recorded_year() && fed.time.day == recorded_day() &&
                  fed.time.hundredths == frame * format.interval && fed.control == recorded_control(frame));
            reports++;
        }
        CHECK(reports == reports_in(index + 1));
    }
    CHECK(reports == all_reports);
}

/* The recording as two blocks, cut at every symbol, into one list: the second block's indexes are less by the first's
 * length. */
static void splits(void)
{
    size_t split;
    for (split = 0; split <= length; split++) {
        struct block block = make(&after[0], ROOM);
        size_t first = reports_in(split);
        feed(&block, recording, split, 0);
        CHECK(says(&block, split, first, DUSKVEYRA_ALL_TAKEN));
        CHECK(same_reader(&block.reader, &after[split]));
        CHECK(holds(&block, first, first, 0));
        feed(&block, recording + split, length - split, first);
        CHECK(says(&block, length - split, all_reports - first, DUSKVEYRA_ALL_TAKEN));
        CHECK(same_reader(&block.reader, &after[length]));
        CHECK(holds(&block, all_reports, first, split));
        release(&block);
    }
}

/* One block of a fresh reader, and what it must take. */
static void one(const uint8_t *symbols, size_t count, size_t room, size_t taken, uint8_t stop)
{
    struct block block = make(&after[0], room);
    feed(&block, symbols, count, 0);
    CHECK(says(&block, taken, reports_in(taken), stop));
    CHECK(same_reader(&block.reader, &after[taken]));
    CHECK(holds(&block, reports_in(taken), 0, 0));
    release(&block);
}

/* Blocks that end before, with and after each report, with room for each number of reports, none too. */
static void rooms(void)
{
    size_t room, report, count;
    for (room = 0; room <= all_reports + 1; room++) {
        one(recording, 0, room, 0, DUSKVEYRA_ALL_TAKEN);
        one(recording, length, room, room < all_reports ? report_at(room) : length,
            room < all_reports ? DUSKVEYRA_BEFORE_REPORT : DUSKVEYRA_ALL_TAKEN);
        for (report = 0; report < all_reports; report++) {
            for (count = report_at(report); count <= report_at(report) + 2 && count <= length; count++) {
                int full = room < reports_in(count);
                one(recording, count, room, full ? report_at(room) : count,
                    full ? DUSKVEYRA_BEFORE_REPORT : DUSKVEYRA_ALL_TAKEN);
            }
        }
    }
}

/* A symbol above 3 at every index, with room for all reports, for two, and for none: what comes first stops it. */
static void unknown_symbols(void)
{
    static const size_t some[] = {ROOM, 2, 0};
    static const uint8_t above[] = {4, 5, 127, 128, 255};
    uint8_t symbols[LONGEST];
    size_t at, index;
    for (at = 0; at < length; at++) {
        memcpy(symbols, recording, length);
        symbols[at] = above[at % sizeof above];
        for (index = 0; index < sizeof some / sizeof some[0]; index++) {
            int full = some[index] < reports_in(at);
            one(symbols, length, some[index], full ? report_at(some[index]) : at,
                full ? DUSKVEYRA_BEFORE_REPORT : DUSKVEYRA_BEFORE_UNKNOWN_SYMBOL);
        }
    }
}

/* Whether the lists hold these reports of the recording, of a block that began at the symbol `start`. */
static int holds_from(const struct block *block, size_t first, size_t reports, size_t start)
{
    size_t index;
    for (index = 0; index < reports; index++)
        if (block->indexes[index] != indexes[first + index] - start || block->years[index] != years[first + index] ||
            block->days[index] != days[first + index] || block->hundredths[index] != hundredths[first + index] ||
            block->controls[index] != controls[first + index])
            return 0;
    return 1;
}

/* The recording in blocks of every size up to 48, each with room for exactly its reports; and each again with no room,
 * which stops before its first report. Short blocks and long ones go different ways in the library. */
static void sizes(void)
{
    size_t size, start;
    for (size = 1; size <= 48; size++) {
        for (start = 0; start < length; start += size) {
            size_t count = length - start < size ? length - start : size;
            size_t first = reports_in(start), reports = reports_in(start + count) - first;
            size_t taken = reports > 0 ? report_at(first) - start : count;
            struct block block = make(&after[start], reports), full = make(&after[start], 0);
            feed(&block, recording + start, count, 0);
            CHECK(says(&block, count, reports, DUSKVEYRA_ALL_TAKEN));
            CHECK(same_reader(&block.reader, &after[start + count]));
            CHECK(holds_from(&block, first, reports, start));
            feed(&full, recording + start, count, 0);
            CHECK(says(&full, taken, 0, reports > 0 ? DUSKVEYRA_BEFORE_REPORT : DUSKVEYRA_ALL_TAKEN));
            CHECK(same_reader(&full.reader, &after[start + taken]));
            release(&block);
            release(&full);
        }
    }
}

/* Before a report with no room the reader can go on: with a list that has room, as if it had not stopped. */
static void goes_on(void)
{
    struct block block = make(&after[0], 0), next;
    feed(&block, recording, length, 0);
    CHECK(says(&block, report_at(0), 0, DUSKVEYRA_BEFORE_REPORT));
    feed(&block, recording + report_at(0), length - report_at(0), 0);
    CHECK(says(&block, 0, 0, DUSKVEYRA_BEFORE_REPORT));
    next = make(&block.reader, all_reports);
    feed(&next, recording + report_at(0), length - report_at(0), 0);
    CHECK(says(&next, length - report_at(0), all_reports, DUSKVEYRA_ALL_TAKEN));
    CHECK(same_reader(&next.reader, &after[length]));
    CHECK(holds(&next, all_reports, 0, report_at(0)));
    release(&block);
    release(&next);
}

/* A refused block changes nothing, whether it has symbols or none, and gives its number alone. */
static void refused(const duskveyra_reader *reader, const size_t *lengths, uint8_t number)
{
    size_t count;
    for (count = 0; count <= length; count += length) {
        struct block block = make(reader, ROOM);
        feed_lists(&block, recording, count, 0, lengths);
        CHECK(block.result.number == number && block.result.stop == 0 && block.result.taken == 0 &&
              block.result.reports == 0);
        CHECK(same_reader(&block.reader, reader));
        CHECK(holds(&block, 0, 0, 0));
        release(&block);
    }
}

/* One list shorter or longer than the others, by one or by all; two of one length and three of another; five. */
static const size_t unequal[][5] = {
    {ROOM - 1, ROOM, ROOM, ROOM, ROOM},
    {ROOM, ROOM - 1, ROOM, ROOM, ROOM},
    {ROOM, ROOM, ROOM - 1, ROOM, ROOM},
    {ROOM, ROOM, ROOM, ROOM - 1, ROOM},
    {ROOM, ROOM, ROOM, ROOM, ROOM - 1},
    {ROOM, ROOM - 1, ROOM - 1, ROOM - 1, ROOM - 1},
    {ROOM - 1, ROOM, ROOM - 1, ROOM - 1, ROOM - 1},
    {ROOM - 1, ROOM - 1, ROOM, ROOM - 1, ROOM - 1},
    {ROOM - 1, ROOM - 1, ROOM - 1, ROOM, ROOM - 1},
    {ROOM - 1, ROOM - 1, ROOM - 1, ROOM - 1, ROOM},
    {0, ROOM, ROOM, ROOM, ROOM},
    {ROOM, 0, ROOM, ROOM, ROOM},
    {ROOM, ROOM, 0, ROOM, ROOM},
    {ROOM, ROOM, ROOM, 0, ROOM},
    {ROOM, ROOM, ROOM, ROOM, 0},
    {ROOM, 0, 0, 0, 0},
    {0, ROOM, 0, 0, 0},
    {0, 0, ROOM, 0, 0},
    {0, 0, 0, ROOM, 0},
    {0, 0, 0, 0, ROOM},
    {ROOM, ROOM, 0, 0, 0},
    {ROOM, 0, ROOM, 0, 0},
    {ROOM, 0, 0, ROOM, 0},
    {ROOM, 0, 0, 0, ROOM},
    {0, ROOM, ROOM, 0, 0},
    {0, ROOM, 0, ROOM, 0},
    {0, ROOM, 0, 0, ROOM},
    {0, 0, ROOM, ROOM, 0},
    {0, 0, ROOM, 0, ROOM},
    {0, 0, 0, ROOM, ROOM},
    {ROOM - 4, ROOM - 3, ROOM - 2, ROOM - 1, ROOM},
    {ROOM, ROOM - 1, ROOM - 2, ROOM - 3, ROOM - 4},
};

/* The reader is refused with this number, whatever the lists. */
static void refused_first(const duskveyra_reader *reader, uint8_t number)
{
    static const size_t equal[] = {ROOM, ROOM, ROOM, ROOM, ROOM}, none[] = {0, 0, 0, 0, 0};
    size_t lists;
    refused(reader, equal, number);
    refused(reader, none, number);
    for (lists = 0; lists < sizeof unequal / sizeof unequal[0]; lists++)
        refused(reader, unequal[lists], number);
}

static void refusals(void)
{
    /* What makes a reader invalid: a letter or an expression that is none or no byte, or a place past a frame. */
    const uint64_t wrong[][2] = {{0, 'C'},      {0, 256 + (uint64_t)format.letter},
                                 {1, 8},        {1, 256 + (uint64_t)format.expression},
                                 {3, format.n}, {3, UINT64_MAX}};
    /* Settings that are none, or no byte. */
    static const uint64_t settings[] = {0, 1, 6, 255, 256 + 2, UINT64_MAX};
    size_t which, setting, lists;
    for (lists = 0; lists < sizeof unequal / sizeof unequal[0]; lists++)
        refused(&after[0], unequal[lists], DUSKVEYRA_WRONG_LENGTH);
    for (setting = 0; setting < sizeof settings / sizeof settings[0]; setting++) {
        duskveyra_reader unset = after[length];
        unset.words[2] = settings[setting];
        refused_first(&unset, DUSKVEYRA_INVALID_SETTING);
    }
    for (which = 0; which < sizeof wrong / sizeof wrong[0]; which++) {
        duskveyra_reader invalid = after[length];
        invalid.words[wrong[which][0]] = wrong[which][1];
        refused_first(&invalid, DUSKVEYRA_INVALID_READER);
        invalid.words[2] = settings[which];
        refused_first(&invalid, DUSKVEYRA_INVALID_READER);
    }
}

/* Feeds the symbols singly, up to where a block stops, and puts their reports into the block's lists. Gives how many
 * are taken. */
static size_t fed_singly(struct block *block, const uint8_t *symbols, size_t count, size_t *reports, uint8_t *stop)
{
    size_t index;
    *reports = 0;
    *stop = DUSKVEYRA_ALL_TAKEN;
    for (index = 0; index < count; index++) {
        duskveyra_reader before = block->reader;
        duskveyra_feed_result fed = duskveyra_feed(&block->reader, symbols[index]);
        if (fed.number == DUSKVEYRA_OK && !(fed.reported && *reports == block->room)) {
            if (fed.reported) {
                block->indexes[*reports] = index;
                block->years[*reports] = fed.time.year;
                block->days[*reports] = fed.time.day;
                block->hundredths[*reports] = fed.time.hundredths;
                block->controls[*reports] = fed.control;
                ++*reports;
            }
            continue;
        }
        CHECK(fed.number == DUSKVEYRA_OK || fed.number == DUSKVEYRA_UNKNOWN_SYMBOL);
        *stop = fed.number == DUSKVEYRA_OK ? DUSKVEYRA_BEFORE_REPORT : DUSKVEYRA_BEFORE_UNKNOWN_SYMBOL;
        block->reader = before;
        return index;
    }
    return count;
}

/* Readers of any words that pass 13 and 26, and blocks of any symbols: as fed singly. */
static void any_reader(void)
{
    /* The words from the frame's count on are below these: counts and rows that occur and some more, and the widths of
     * the year, the day and the hundredths. */
    static const uint64_t limits[] = {102, UINT64_MAX, UINT64_MAX, UINT64_MAX,          UINT64_MAX, 8,
                                      256, 65536,      UINT64_C(4294967296), UINT64_MAX};
    uint8_t symbols[LONGEST];
    int turn;
    for (turn = 0; turn < 1000; turn++) {
        size_t from = below(length), count = below(length - from + 1), place = below(length + 1);
        size_t word, taken, reports;
        duskveyra_reader reader = after[turn % 2 ? from : place];
        struct block block, single;
        uint8_t stop;
        for (word = 4; turn % 5 == 0 && word < DUSKVEYRA_READER_WORDS; word++)
            reader.words[word] = below(limits[word - 4]);
        reader.words[2] = turn % 3 ? format.setting : 2 + below(4);
        memcpy(symbols, recording + from, count);
        for (word = below(4); count > 0 && word > 0; word--)
            symbols[below(count)] = (uint8_t)below(turn % 4 ? 4 : 256);
        block = make(&reader, below(4));
        single = make(&reader, block.room);
        taken = fed_singly(&single, symbols, count, &reports, &stop);
        feed(&block, symbols, count, 0);
        CHECK(says(&block, taken, reports, stop));
        CHECK(same_reader(&block.reader, &single.reader));
        CHECK(memcmp(block.indexes, single.indexes, block.room * sizeof *block.indexes) == 0);
        CHECK(memcmp(block.years, single.years, block.room * sizeof *block.years) == 0);
        CHECK(memcmp(block.days, single.days, block.room * sizeof *block.days) == 0);
        CHECK(memcmp(block.hundredths, single.hundredths, block.room * sizeof *block.hundredths) == 0);
        CHECK(memcmp(block.controls, single.controls, block.room * sizeof *block.controls) == 0);
        release(&block);
        release(&single);
    }
}

int main(void)
{
    size_t index;
    for (index = 0; index < sizeof formats / sizeof formats[0]; index++) {
        format = formats[index];
        record();
        splits();
        sizes();
        rooms();
        unknown_symbols();
        goes_on();
        refusals();
        any_reader();
    }
    printf("%lu checks, %lu failed\n", checks, failed);
    return failed != 0;
}
