/* Format X2, the XR3 code, from C: where its digits stand, what the calls refuse and in which order, the end of the day,
 * streams joined at any element and with an element replaced, Scan, and the memory that a refused call must leave. What
 * is expected stands in document 02, "XR3 tapes". Also compiles as C++. */
#include "check.h"
#include "duskveyra.h"
#include "times.h"

#define N 25
#define SECONDS 86400

static duskveyra_format x2(void)
{
    return format_of('X', 2);
}

/* The time of that second of day 1; the second after the last is the first. */
static duskveyra_time second_of(uint32_t second)
{
    return time_of(0, 1, second % SECONDS * 100);
}

static int is_second(duskveyra_time time, uint32_t second)
{
    return is_time(time, 0, 1, second % SECONDS * 100);
}

static void write_second(uint32_t second, uint8_t *frame)
{
    CHECK(duskveyra_write(x2(), second_of(second), 0, frame, N).number == 0);
}

/* Whether a number stands at these places in binary, the highest weight first. */
static int stands(const uint8_t *frame, size_t first, size_t width, unsigned number)
{
    size_t i;
    for (i = 0; i < width; i++)
        if (frame[first + i] != (number >> (width - 1 - i)) % 2)
            return 0;
    return 1;
}

/* Every second of the day: hours 1-6, minutes 7-13, seconds 14-20, tens before units, four missing pulses; Read gives it
 * back, and both steps lead to its neighbours for every kind of day. */
static void seconds(void)
{
    uint8_t *frame = lent_bytes(N);
    uint32_t second;
    unsigned kind;
    for (second = 0; second < SECONDS; second++) {
        unsigned h = second / 3600, m = second / 60 % 60, s = second % 60;
        duskveyra_read_result read;
        write_second(second, frame);
        CHECK(frame[0] == 2 && stands(frame, 1, 2, h / 10) && stands(frame, 3, 4, h % 10));
        CHECK(stands(frame, 7, 3, m / 10) && stands(frame, 10, 4, m % 10));
        CHECK(stands(frame, 14, 3, s / 10) && stands(frame, 17, 4, s % 10));
        CHECK(frame[21] == 3 && frame[22] == 3 && frame[23] == 3 && frame[24] == 3);
        read = duskveyra_read(x2(), frame, N);
        CHECK(read.number == 0 && is_second(read.time, second) && read.control == 0);
        for (kind = 0; kind < 3; kind++) {
            uint16_t length = (uint16_t)(365 + second % 2);
            CHECK(is_second(duskveyra_step(x2(), second_of(second), length, (uint8_t)kind).time, second + 1));
            CHECK(is_second(duskveyra_step_back(x2(), second_of(second + 1), length, (uint8_t)kind).time, second));
        }
    }
    free(frame);
}

/* Write's number for a time, which leaves the lent frame where it is not 0. */
static uint8_t written(duskveyra_time time, uint64_t control, size_t length)
{
    uint8_t *frame = lent_bytes(length);
    uint8_t number = duskveyra_write(x2(), time, control, frame, length).number;
    CHECK(number == 0 || untouched(frame, length));
    free(frame);
    return number;
}

/* Both steps' number for a time. */
static uint8_t stepped(duskveyra_time time, unsigned year_length, unsigned kind)
{
    duskveyra_step_result there = step_either(0, x2(), time, (uint16_t)year_length, (uint8_t)kind);
    duskveyra_step_result back = step_either(1, x2(), time, (uint16_t)year_length, (uint8_t)kind);
    CHECK(there.number == back.number);
    CHECK(there.number == 0 || (is_time(there.time, 0, 0, 0) && is_time(back.time, 0, 0, 0)));
    return there.number;
}

/* Write refuses with 17, 2, 14, 9, 3 and the steps with 17, 2, 14, 11, 15, the first that applies. */
static void orders(void)
{
    unsigned bad, kind;
    for (bad = 0; bad < 32; bad++) {
        duskveyra_time time = time_of(bad & 1 ? 1 : 0, bad & 2 ? 2 : 1, bad & 4 ? 8640000 : 0);
        uint8_t time_number = bad & 1 ? 17 : bad & 2 ? 2 : bad & 4 ? 14 : 0;
        CHECK(written(time, bad & 8 ? 1 : 0, bad & 16 ? 24 : N) ==
              (time_number ? time_number : bad & 8 ? 9 : bad & 16 ? 3 : 0));
        CHECK(stepped(time, bad & 8 ? 364 : 365, bad & 16 ? 3 : 2) ==
              (time_number ? time_number : bad & 8 ? 11 : bad & 16 ? 15 : 0));
    }
    for (kind = 3; kind < 256; kind++)
        CHECK(stepped(second_of(0), 366, kind) == 15);
}

/* Other days, years, hundredths, control words and lengths. */
static void out_of_range(void)
{
    static const uint32_t wrong[] = {1, 50, 99, 8640050, 8640099, 8640100, UINT32_MAX};
    unsigned number, bit;
    size_t i;
    for (number = 0; number < 65536; number++) {
        CHECK(written(time_of(0, number, 0), 0, N) == (number == 1 ? 0 : 2));
        CHECK(stepped(time_of(0, number, 0), 365, 0) == (number == 1 ? 0 : 2));
        CHECK(stepped(second_of(7), number, 0) == (number == 365 || number == 366 ? 0 : 11));
    }
    for (number = 1; number < 256; number++)
        CHECK(written(time_of(number, 1, 0), 0, N) == 17 && stepped(time_of(number, 1, 0), 365, 0) == 17);
    for (i = 0; i < sizeof wrong / sizeof wrong[0]; i++)
        CHECK(written(time_of(0, 1, wrong[i]), 0, N) == 2 && stepped(time_of(0, 1, wrong[i]), 365, 1) == 2);
    CHECK(written(time_of(0, 1, 8640000), 0, N) == 14 && stepped(time_of(0, 1, 8640000), 365, 1) == 14);
    for (bit = 0; bit < 64; bit++)
        CHECK(written(second_of(0), UINT64_C(1) << bit, N) == 9);
    for (i = 0; i <= 101; i++)
        CHECK(written(second_of(0), 0, i) == (i == N ? 0 : 3));
}

/* Another expression is no format; the converters take none of X. */
static void other_formats(void)
{
    unsigned expression;
    uint8_t *frame = lent_bytes(N), *lent = lent_bytes(100);
    write_second(0, frame);
    for (expression = 0; expression < 256; expression++) {
        duskveyra_format format = format_of('X', expression);
        CHECK(duskveyra_forward(format, frame, N, 0, lent, 100).number == 1);
        CHECK(duskveyra_backward(format, frame, N, lent, 100).number == 1);
        CHECK(untouched(lent, 100));
        if (expression == 2)
            continue;
        CHECK(duskveyra_write(format, second_of(0), 0, lent, N).number == 1 && untouched(lent, 100));
        CHECK(duskveyra_read(format, frame, N).number == 1);
        CHECK(duskveyra_step(format, second_of(0), 365, 0).number == 1);
        CHECK(duskveyra_step_back(format, second_of(0), 365, 0).number == 1);
        CHECK(duskveyra_scan(format, frame, N, 0).number == 1);
    }
    free(frame);
    free(lent);
}

static int reads(const uint8_t *frame, size_t length, uint8_t number, size_t index)
{
    duskveyra_read_result read = duskveyra_read(x2(), frame, length);
    return read.number == number && read.index == index && read.control == 0 && is_time(read.time, 0, 0, 0);
}

/* Every byte in the place of each element. What Read takes, Write writes so. */
static void replaced_elements(void)
{
    uint8_t *frame = lent_bytes(N), *again = lent_bytes(N);
    size_t i;
    unsigned symbol;
    for (i = 0; i < N; i++)
        for (symbol = 0; symbol < 256; symbol++) {
            int missing = i > 20;
            write_second(12 * 3600 + 34 * 60 + 56, frame);
            frame[i] = (uint8_t)symbol;
            if (symbol > 3) {
                CHECK(reads(frame, N, 4, 0));
            } else if ((symbol == 2) != (i == 0)) {
                CHECK(reads(frame, N, 5, i));
            } else if (i > 0 && (symbol == 3) != missing) {
                CHECK(reads(frame, N, 6, i));
            } else {
                duskveyra_read_result read = duskveyra_read(x2(), frame, N);
                if (read.number == 0) {
                    write_second(read.time.hundredths / 100, again);
                    CHECK(memcmp(frame, again, N) == 0);
                } else {
                    CHECK(reads(frame, N, 7, 0));
                }
            }
        }
    free(frame);
    free(again);
}

/* Read's order: 3, 4, the lowest of 5 and 6, 7; and every digit and clock that is none. */
static void refused_frames(void)
{
    /* where a number stands, how wide, and the first that is out of range there at 00:00:00 and at 23:59:59 */
    static const unsigned fields[][4] = {{1, 2, 3, 3}, {3, 4, 10, 4}, {7, 3, 6, 6}, {10, 4, 10, 10}, {14, 3, 6, 6}, {17, 4, 10, 10}};
    uint8_t *frame = lent_bytes(N);
    size_t field, length;
    unsigned end, number, bit;
    for (end = 0; end < 2; end++)
        for (field = 0; field < sizeof fields / sizeof fields[0]; field++)
            for (number = 0; number < 1U << fields[field][1]; number++) {
                write_second(end * (SECONDS - 1), frame);
                for (bit = 0; bit < fields[field][1]; bit++)
                    frame[fields[field][0] + bit] = (number >> (fields[field][1] - 1 - bit)) % 2;
                if (number < fields[field][2 + end])
                    CHECK(duskveyra_read(x2(), frame, N).number == 0);
                else
                    CHECK(reads(frame, N, 7, 0));
            }
    for (length = 0; length <= 101; length++) {
        uint8_t *other = lent_bytes(length);
        CHECK(length == N || reads(other, length, 3, 0));
        free(other);
    }
    write_second(0, frame);
    frame[1] = frame[2] = 1;
    CHECK(reads(frame, N, 7, 0));
    frame[24] = 0;
    CHECK(reads(frame, N, 6, 24));
    frame[22] = 2;
    CHECK(reads(frame, N, 5, 22));
    frame[3] = 3;
    CHECK(reads(frame, N, 6, 3));
    frame[0] = 3;
    CHECK(reads(frame, N, 5, 0));
    frame[23] = 4;
    CHECK(reads(frame, N, 4, 0));
    free(frame);
}

#define FRAMES 8

/* Frames over midnight. */
static void make_stream(uint8_t *stream)
{
    uint32_t frame;
    for (frame = 0; frame < FRAMES; frame++)
        write_second(SECONDS - 4 + frame, stream + N * frame);
}

/* How many reports a fresh reader gives of the stream, each of the frame that ends there. */
static size_t reports_of(const uint8_t *stream, unsigned setting)
{
    duskveyra_reader reader;
    size_t i, reports = 0;
    CHECK(duskveyra_fresh(x2(), (uint8_t)setting, &reader).number == 0);
    for (i = 0; i < N * FRAMES; i++) {
        duskveyra_feed_result fed = duskveyra_feed(&reader, stream[i]);
        CHECK(fed.number == 0);
        if (!fed.reported)
            continue;
        reports++;
        CHECK((i + 1) % N == 0 && is_second(fed.time, (uint32_t)(SECONDS - 4 + i / N)) && fed.control == 0);
    }
    CHECK(reader.words[3] == 0);
    return reports;
}

/* Joined at any element: at a frame's first the first report comes with element kn, else with (k + 1)n less the index. */
static void joined(void)
{
    uint8_t stream[N * FRAMES];
    unsigned setting;
    size_t join;
    make_stream(stream);
    for (setting = 2; setting < 6; setting++)
        for (join = 0; join < N; join++) {
            duskveyra_reader reader;
            size_t i, first = 0;
            CHECK(duskveyra_fresh(x2(), (uint8_t)setting, &reader).number == 0);
            for (i = join; i < sizeof stream; i++) {
                duskveyra_feed_result fed = duskveyra_feed(&reader, stream[i]);
                CHECK(fed.reported == (first > 0 ? (i + 1) % N == 0 : fed.reported));
                CHECK(!fed.reported || is_second(fed.time, (uint32_t)(SECONDS - 4 + i / N)));
                if (fed.reported && first == 0)
                    first = i + 1 - join;
            }
            CHECK(first == (join == 0 ? setting * N : (setting + 1) * N - join));
        }
}

/* Each element replaced by each symbol: no report of another time than that of the frame that ends there. */
static void one_replaced(void)
{
    uint8_t stream[N * FRAMES];
    unsigned setting, symbol;
    size_t at;
    make_stream(stream);
    for (setting = 2; setting < 6; setting++)
        for (at = 0; at < sizeof stream; at++)
            for (symbol = 0; symbol < 4; symbol++) {
                uint8_t kept = stream[at];
                size_t reports, all = FRAMES + 1 - setting;
                stream[at] = (uint8_t)symbol;
                reports = reports_of(stream, setting);
                CHECK(symbol == kept ? reports == all : reports < all);
                stream[at] = kept;
            }
}

/* A symbol above 3 is no element, wherever it comes. */
static void refused_symbols(void)
{
    uint8_t stream[N * FRAMES];
    duskveyra_reader reader, before;
    size_t i;
    make_stream(stream);
    CHECK(duskveyra_fresh(x2(), 2, &reader).number == 0);
    for (i = 0; i < sizeof stream; i++) {
        duskveyra_feed_result fed;
        before = reader;
        fed = duskveyra_feed(&reader, (uint8_t)(4 + below(252)));
        CHECK(fed.number == 4 && !fed.reported && memcmp(&reader, &before, sizeof reader) == 0);
        fed = duskveyra_feed(&reader, stream[i]);
        CHECK(fed.number == 0 && fed.reported == (i + 1 >= 2 * N && (i + 1) % N == 0));
    }
    /* The place is below 25, else it is no reader. */
    for (i = 0; i < 110; i++) {
        before = reader;
        before.words[3] = i;
        CHECK(duskveyra_feed(&before, 2).number == (i < N ? 0 : 13));
    }
}

/* Scan needs no mark before a frame, and may find it at 0. */
static void scans(void)
{
    uint8_t *recording = lent_bytes(3 * N);
    duskveyra_scan_result scan;
    size_t start;
    unsigned before;
    write_second(5, recording);
    write_second(6, recording + N);
    write_second(7, recording + 2 * N);
    recording[N + 3] = 3;
    for (start = 0; start <= 3 * N; start++) {
        scan = duskveyra_scan(x2(), recording, 3 * N, start);
        CHECK(scan.number == 0 && scan.found == (start <= 2 * N));
        CHECK(start > 0 || (scan.start == 0 && is_second(scan.time, 5)));
        CHECK(start == 0 || start > 2 * N || (scan.start == 2 * N && is_second(scan.time, 7)));
        CHECK(start <= 2 * N || (scan.start == 0 && is_time(scan.time, 0, 0, 0)));
    }
    CHECK(duskveyra_scan(x2(), recording, 3 * N, 3 * N + 1).number == 12);
    CHECK(duskveyra_scan(x2(), recording, N - 1, 0).found == 0);
    CHECK(duskveyra_scan(x2(), recording, 0, 0).number == 0);
    for (before = 0; before < 256; before++) {
        recording[N - 1] = (uint8_t)before;
        write_second(8, recording + N);
        scan = duskveyra_scan(x2(), recording + N - 1, N + 1, 0);
        CHECK(scan.number == 0 && scan.found == 1 && scan.start == 1 && is_second(scan.time, 8));
    }
    free(recording);
}

int main(void)
{
    seconds();
    orders();
    out_of_range();
    other_formats();
    replaced_elements();
    refused_frames();
    joined();
    one_replaced();
    refused_symbols();
    scans();
    printf("%lu checks, %lu failed\n", checks, failed);
    return failed != 0;
}
