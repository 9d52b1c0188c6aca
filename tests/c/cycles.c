/* The modified Manchester form: elements by hand, every frame and every M there and back, turned cycles, each kind of bad
 * input in its order, and the memory that a refused call must leave. Also compiles as C++. */
#include "check.h"
#include "duskveyra.h"
#include "times.h"

#include <stdio.h>
#include <string.h>

#define N DUSKVEYRA_LONGEST_FRAME
#define MOST_CYCLES (N * 100)
#define GUARD 8

/* Encodes into guarded memory of that length, and says the number. */
static unsigned encode(duskveyra_format format, size_t count, const uint8_t *frame, size_t frame_length, uint8_t *cycles,
                       size_t length)
{
    static uint8_t lent[MOST_CYCLES + 1100 + 2 * GUARD];
    unsigned number;
    memset(lent, FILL, sizeof lent);
    number = duskveyra_encode_cycles(format, count, frame, frame_length, lent + GUARD, length).number;
    CHECK(untouched(lent, GUARD) && untouched(lent + GUARD + length, sizeof lent - GUARD - length));
    CHECK(number == 0 || untouched(lent, sizeof lent));
    memcpy(cycles, lent + GUARD, length);
    return number;
}

/* Decodes into guarded memory of that length, and says the number; the index must be that one. */
static unsigned decode(duskveyra_format format, size_t count, const uint8_t *cycles, size_t cycles_length, uint8_t *frame,
                       size_t length, size_t index)
{
    uint8_t lent[N + 2 + 2 * GUARD];
    duskveyra_convert_result result;
    memset(lent, FILL, sizeof lent);
    result = duskveyra_decode_cycles(format, count, cycles, cycles_length, lent + GUARD, length);
    CHECK(untouched(lent, GUARD) && untouched(lent + GUARD + length, sizeof lent - GUARD - length));
    CHECK(result.number == 0 || untouched(lent, sizeof lent));
    CHECK(result.index == index);
    memcpy(frame, lent + GUARD, length);
    return result.number;
}

static const char known[] = "A0A1A2A3A4A5A6A7B0B1B2B3B4B5B6B7G1G2";

static void there_and_back(void)
{
    uint8_t frame[N], again[N], cycles[MOST_CYCLES];
    unsigned f;
    size_t count, i, j;
    for (f = 0; known[f] != 0; f += 2) {
        duskveyra_format format = format_of(known[f], (unsigned)(known[f + 1] - '0'));
        for (count = 10; count <= 100; count += 10) {
            for (i = 0; i < N; i++)
                frame[i] = (uint8_t)below(3);
            CHECK(encode(format, count, frame, N, cycles, N * count) == 0);
            for (i = 0; i < N; i++) {
                size_t highs = (frame[i] == 0 ? 2 : frame[i] == 1 ? 5 : 8) * count / 10;
                for (j = 0; j < count; j++)
                    CHECK(cycles[i * count + j] == (j < highs ? 1 : 2));
            }
            CHECK(decode(format, count, cycles, N * count, again, N, 0) == 0);
            CHECK(memcmp(frame, again, N) == 0);
        }
    }
}

/* Up to 3M/10 - 1 turned cycles of an element spoil it; 3M/10 can make another symbol of it. */
static void turned(void)
{
    duskveyra_format format = format_of('G', 1);
    uint8_t frame[N], again[N], cycles[MOST_CYCLES];
    size_t count, i, j, k;
    for (count = 10; count <= 100; count += 10) {
        for (i = 0; i < N; i++)
            frame[i] = (uint8_t)(i % 3);
        CHECK(encode(format, count, frame, N, cycles, N * count) == 0);
        for (i = 0; i < N; i++) {
            k = 1 + below(3 * count / 10 - 1);
            for (j = 0; j < k; j++)
                cycles[i * count + (i + j * 11) % count] ^= 3;
        }
        CHECK(decode(format, count, cycles, N * count, again, N, 0) == 0);
        for (i = 0; i < N; i++)
            CHECK(again[i] == 3);
    }
    CHECK(encode(format, 10, frame, N, cycles, N * 10) == 0);
    for (j = 2; j < 5; j++)
        cycles[j] ^= 3;
    CHECK(decode(format, 10, cycles, N * 10, again, N, 0) == 0);
    CHECK(frame[0] == 0 && again[0] == 1);
}

/* A time goes through Write, the cycles and Read. */
static void times(void)
{
    uint8_t frame[N], again[N], cycles[MOST_CYCLES];
    duskveyra_format format = format_of('B', 4);
    duskveyra_time time;
    duskveyra_read_result read;
    memset(&time, 0, sizeof time);
    time.year = 26;
    time.day = 320;
    time.hundredths = 6192000;
    CHECK(duskveyra_write(format, time, 5, frame, N).number == 0);
    CHECK(encode(format, 100, frame, N, cycles, N * 100) == 0);
    CHECK(decode(format, 100, cycles, N * 100, again, N, 0) == 0);
    read = duskveyra_read(format, again, N);
    CHECK(read.number == 0 && read.control == 5 && read.time.year == 26 && read.time.day == 320);
    CHECK(read.time.hundredths == 6192000);
}

static void bad(void)
{
    static const size_t counts[] = {0, 1, 5, 9, 11, 15, 99, 101, 105, 110, 1000, 4294967295u, (size_t)-1};
    static const char letters[] = "DEHXabgC";
    uint8_t frame[N], again[N + 2], cycles[MOST_CYCLES + 1100];
    duskveyra_format format = format_of('A', 0);
    size_t i;
    memset(frame, 0, sizeof frame);
    memset(cycles, 2, sizeof cycles);
    for (i = 0; letters[i] != 0; i++) {
        /* 1 before 24 */
        CHECK(encode(format_of(letters[i], 1), 0, frame, 0, cycles, 1000) == DUSKVEYRA_UNKNOWN_FORMAT);
        CHECK(decode(format_of(letters[i], 1), 15, cycles, 1000, again, N, 0) == DUSKVEYRA_UNKNOWN_FORMAT);
    }
    CHECK(encode(format_of('G', 0), 10, frame, N, cycles, 1000) == DUSKVEYRA_UNKNOWN_FORMAT);
    CHECK(decode(format_of('B', 8), 10, cycles, 1000, again, N, 0) == DUSKVEYRA_UNKNOWN_FORMAT);
    for (i = 0; i < sizeof counts / sizeof counts[0]; i++) {
        /* 24 before 3 */
        CHECK(encode(format, counts[i], frame, 1, cycles, 11000) == DUSKVEYRA_INVALID_CYCLE_COUNT);
        CHECK(decode(format, counts[i], cycles, 11000, again, N, 0) == DUSKVEYRA_INVALID_CYCLE_COUNT);
    }
    /* 3 before 4 and 25; one short and one long */
    frame[0] = 3;
    cycles[0] = 0;
    CHECK(encode(format, 10, frame, N - 1, cycles, 1000) == DUSKVEYRA_WRONG_LENGTH);
    CHECK(encode(format, 10, frame, N, cycles, 999) == DUSKVEYRA_WRONG_LENGTH);
    CHECK(encode(format, 10, frame, N, cycles, 1001) == DUSKVEYRA_WRONG_LENGTH);
    memset(cycles, 2, sizeof cycles);
    cycles[0] = 0;
    CHECK(decode(format, 10, cycles, 1000, again, N - 1, 0) == DUSKVEYRA_WRONG_LENGTH);
    CHECK(decode(format, 10, cycles, 1000, again, N + 1, 0) == DUSKVEYRA_WRONG_LENGTH);
    CHECK(decode(format, 10, cycles, 999, again, N, 0) == DUSKVEYRA_WRONG_LENGTH);
    CHECK(decode(format, 10, cycles, 1001, again, N, 0) == DUSKVEYRA_WRONG_LENGTH);
    /* a symbol above 2 anywhere */
    for (i = 0; i < N; i++) {
        memset(frame, 0, sizeof frame);
        frame[i] = (uint8_t)(3 + below(253));
        CHECK(encode(format, 10, frame, N, cycles, 1000) == DUSKVEYRA_UNKNOWN_SYMBOL);
    }
    /* the first cycle that is neither 1 nor 2, whatever stands behind it */
    for (i = 0; i < 1000; i++) {
        memset(cycles, 1 + (int)below(2), 1000);
        cycles[999] = 0;
        cycles[i] = (uint8_t)(below(2) ? 3 + below(253) : 0);
        CHECK(decode(format, 10, cycles, 1000, again, N, i) == DUSKVEYRA_UNKNOWN_CYCLE);
    }
}

int main(void)
{
    there_and_back();
    turned();
    times();
    bad();
    printf("%lu checks, %lu failed\n", checks, failed);
    return failed != 0;
}
