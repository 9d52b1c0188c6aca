/* The report log: a record's bytes, what writing and reading refuse and in which order, the bytes that a call must leave,
 * and lists of reports written into buffers of every length and read again, whole and cut. What is expected stands in
 * document 02, "Compact report log". Also compiles as C++. */
#include "check.h"
#include "duskveyra.h"

#include <stdio.h>
#include <stdlib.h>
#include <string.h>

#define REPORTS 200
#define LONGEST (REPORTS * DUSKVEYRA_LONGEST_RECORD)

static duskveyra_report report_of(unsigned year, unsigned day, uint32_t hundredths, uint64_t control)
{
    duskveyra_report report;
    memset(&report, FILL, sizeof report);
    report.time.year = (uint8_t)year;
    report.time.day = (uint16_t)day;
    report.time.hundredths = hundredths;
    report.control = control;
    return report;
}

static int equal(duskveyra_report a, duskveyra_report b)
{
    return a.time.year == b.time.year && a.time.day == b.time.day && a.time.hundredths == b.time.hundredths &&
           a.control == b.control;
}

static duskveyra_report no_report(void)
{
    return report_of(0, 0, 0, 0);
}

/* Two records with their bytes: all fields, then the hundredths alone; then a report equal to the one before. */
static void test_bytes(void)
{
    static const uint8_t expected[] = {15, 191, 0, 0, 163, 77, 6, 5, 4, 3, 2, 1, 24, 2, 112, 186, 77, 0};
    const duskveyra_report first = report_of(24, 191, 5088000, UINT64_C(0x010203040506));
    const duskveyra_report second = report_of(24, 191, 5094000, UINT64_C(0x010203040506));
    uint8_t log[20];
    duskveyra_log_write_result written;
    duskveyra_log_read_result read;

    memset(log, FILL, sizeof log);
    written = duskveyra_log_write(log, sizeof log, 1, no_report(), first);
    CHECK(written.number == DUSKVEYRA_OK && written.put_in == 1 && written.next == 14);
    written = duskveyra_log_write(log, sizeof log, 14, first, second);
    CHECK(written.number == DUSKVEYRA_OK && written.put_in == 1 && written.next == 18);
    written = duskveyra_log_write(log, sizeof log, 18, second, second);
    CHECK(written.number == DUSKVEYRA_OK && written.put_in == 1 && written.next == 19);
    CHECK(memcmp(log + 1, expected, sizeof expected) == 0 && log[0] == FILL && log[19] == FILL);

    read = duskveyra_log_read(log + 1, sizeof expected, 0, no_report());
    CHECK(read.number == DUSKVEYRA_OK && read.found == 1 && read.next == 13 && equal(read.report, first));
    read = duskveyra_log_read(log + 1, sizeof expected, 13, first);
    CHECK(read.number == DUSKVEYRA_OK && read.found == 1 && read.next == 17 && equal(read.report, second));
    read = duskveyra_log_read(log + 1, sizeof expected, 17, second);
    CHECK(read.number == DUSKVEYRA_OK && read.found == 1 && read.next == 18 && equal(read.report, second));
    read = duskveyra_log_read(log + 1, sizeof expected, 18, second);
    CHECK(read.number == DUSKVEYRA_OK && read.found == 0 && read.next == 0 && equal(read.report, no_report()));
}

static void check_write_refused(size_t length, size_t place, duskveyra_report report, unsigned number)
{
    uint8_t log[16];
    duskveyra_log_write_result written;
    size_t i;

    memset(log, FILL, sizeof log);
    written = duskveyra_log_write(log, length, place, no_report(), report);
    CHECK(written.number == number && written.put_in == 0 && written.next == 0);
    for (i = 0; i < sizeof log; i++)
        CHECK(log[i] == FILL);
}

static void check_read_refused(const uint8_t *log, size_t length, size_t place, duskveyra_report before, unsigned number)
{
    const duskveyra_log_read_result read = duskveyra_log_read(log, length, place, before);
    CHECK(read.number == number && read.found == 0 && read.next == 0 && equal(read.report, no_report()));
}

/* Each number, where all later ones are due too. */
static void test_refusals(void)
{
    static const uint8_t cut[] = {18, 0, 163};
    static const uint8_t high_bit[] = {17, 0, 0};
    static const uint8_t as_before[] = {3, 0, 0, 0, 163, 77};
    static const uint8_t day_0[] = {9, 0, 0, 100};
    static const uint8_t year_100[] = {8, 100};
    static const uint8_t same[] = {0};
    const duskveyra_report before = report_of(24, 191, 5088000, 0);
    const uint64_t wide = UINT64_C(1) << 48;

    check_write_refused(3, 4, report_of(100, 0, 0, wide), DUSKVEYRA_START_PAST_END);
    check_write_refused(3, (size_t)-1, report_of(100, 0, 0, wide), DUSKVEYRA_START_PAST_END);
    check_write_refused(3, 3, report_of(100, 0, 0, wide), DUSKVEYRA_INVALID_TIME);
    check_write_refused(3, 3, report_of(100, 367, 0, wide), DUSKVEYRA_INVALID_TIME);
    check_write_refused(3, 3, report_of(100, 366, 8640100, wide), DUSKVEYRA_INVALID_TIME);
    check_write_refused(3, 3, report_of(100, 366, 8640099, wide), DUSKVEYRA_INVALID_YEAR);
    check_write_refused(3, 3, report_of(99, 366, 8640099, wide), DUSKVEYRA_CONTROL_TOO_LONG);
    /* no refusal: it does not fit */
    check_write_refused(3, 3, report_of(99, 366, 8640099, wide - 1), DUSKVEYRA_OK);
    check_write_refused(12, 0, report_of(99, 366, 8640099, wide - 1), DUSKVEYRA_OK);

    check_read_refused(cut, sizeof cut, 4, before, DUSKVEYRA_START_PAST_END);
    check_read_refused(cut, sizeof cut, 0, before, DUSKVEYRA_RECORD_CUT_SHORT);
    check_read_refused(high_bit, sizeof high_bit, 0, before, DUSKVEYRA_INVALID_RECORD);
    check_read_refused(as_before, sizeof as_before, 0, before, DUSKVEYRA_INVALID_RECORD);
    check_read_refused(day_0, sizeof day_0, 0, before, DUSKVEYRA_INVALID_TIME);
    check_read_refused(year_100, sizeof year_100, 0, report_of(1, 1, 0, wide), DUSKVEYRA_INVALID_YEAR);
    check_read_refused(same, sizeof same, 0, report_of(1, 1, 0, wide), DUSKVEYRA_CONTROL_TOO_LONG);
    check_read_refused(same, sizeof same, 0, no_report(), DUSKVEYRA_INVALID_TIME);
}

static duskveyra_report any_report(void)
{
    return report_of((unsigned)below(2) * 24, 1 + (unsigned)below(2) * 365, (uint32_t)below(4) * 2880033,
                     below(3) == 0 ? below(UINT64_C(1) << 48) : 5);
}

/* A list of reports into a buffer of that length: what is put in is read again, and nothing else of the buffer changes;
 * cut at every byte it is read up to the cut. */
static void test_list(size_t length)
{
    /* of an exact length, so that valgrind sees an access past either end */
    uint8_t *log = (uint8_t *)malloc(length == 0 ? 1 : length);
    duskveyra_report put_in[REPORTS];
    duskveyra_report last = no_report();
    duskveyra_log_write_result written;
    duskveyra_log_read_result read;
    size_t place = 0, number = 0, i, k, end;

    if (log == NULL)
        abort();
    memset(log, FILL, length == 0 ? 1 : length);
    for (k = 0; k < REPORTS; k++) {
        const duskveyra_report report = any_report();
        written = duskveyra_log_write(log, length, place, last, report);
        CHECK(written.number == DUSKVEYRA_OK);
        CHECK(written.put_in ? written.next <= length : place + DUSKVEYRA_LONGEST_RECORD > length);
        if (written.put_in) {
            place = written.next;
            last = report;
            put_in[number++] = report;
        }
    }
    for (i = place; i < length; i++)
        CHECK(log[i] == FILL);

    for (end = 0; end <= place; end++) {
        last = no_report();
        i = 0;
        for (k = 0;; k++) {
            read = duskveyra_log_read(log, end, i, last);
            if (!read.found)
                break;
            CHECK(k < number && equal(read.report, put_in[k]));
            i = read.next;
            last = read.report;
        }
        CHECK(i == end ? read.number == DUSKVEYRA_OK : read.number == DUSKVEYRA_RECORD_CUT_SHORT);
        CHECK(end < place || k == number);
    }
    free(log);
}

int main(void)
{
    size_t length;

    test_bytes();
    test_refusals();
    for (length = 0; length < 60; length++)
        test_list(length);
    test_list(LONGEST);
    printf("%lu checks, %lu failed\n", checks, failed);
    return failed != 0;
}
