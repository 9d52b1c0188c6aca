/* Dates and test windows: every day of every year, every date good and bad, each number in its order over both ends, 32
 * windows and a 33rd, the ends of windows, calendars that no adding made, and random windows against a plain list of
 * moments. Also compiles as C++. */
#include "times.h"

static duskveyra_date date_at(unsigned year, unsigned month, unsigned day)
{
    duskveyra_date date;
    date.year = (uint8_t)year;
    date.month = (uint8_t)month;
    date.day = (uint8_t)day;
    return date;
}

static duskveyra_date_time moment_at(unsigned year, unsigned month, unsigned day, uint32_t hundredths)
{
    duskveyra_date_time moment;
    memset(&moment, FILL, sizeof moment);
    moment.date = date_at(year, month, day);
    moment.hundredths = hundredths;
    return moment;
}

static int is_no_date(duskveyra_date_result result, unsigned number)
{
    return result.number == number && result.date.year == 0 && result.date.month == 0 && result.date.day == 0;
}

/* Day by day, with the months' lengths written out. */
static void every_day(void)
{
    static const unsigned lengths[12] = {31, 28, 31, 30, 31, 30, 31, 31, 30, 31, 30, 31};
    unsigned year, month, day, number;

    for (year = 0; year < 100; year++) {
        number = 0;
        for (month = 1; month <= 12; month++) {
            const unsigned length = lengths[month - 1] + (month == 2 && year % 4 == 0);
            for (day = 1; day <= length; day++) {
                duskveyra_date_result dated;
                duskveyra_day_result counted = duskveyra_day_of_date(date_at(year, month, day));
                number++;
                CHECK(counted.number == DUSKVEYRA_OK && counted.day == number);
                dated = duskveyra_date_of_day((uint8_t)year, (uint16_t)number);
                CHECK(dated.number == DUSKVEYRA_OK && dated.date.year == year && dated.date.month == month &&
                      dated.date.day == day);
            }
            CHECK(duskveyra_day_of_date(date_at(year, month, length + 1)).number == DUSKVEYRA_INVALID_DATE);
            CHECK(duskveyra_day_of_date(date_at(year, month, 0)).number == DUSKVEYRA_INVALID_DATE);
        }
        CHECK(is_no_date(duskveyra_date_of_day((uint8_t)year, (uint16_t)(number + 1)), DUSKVEYRA_INVALID_DATE));
        CHECK(is_no_date(duskveyra_date_of_day((uint8_t)year, 0), DUSKVEYRA_INVALID_DATE));
        CHECK(is_no_date(duskveyra_date_of_day((uint8_t)year, 65535), DUSKVEYRA_INVALID_DATE));
        CHECK(duskveyra_day_of_date(date_at(year, 0, 1)).number == DUSKVEYRA_INVALID_DATE);
        CHECK(duskveyra_day_of_date(date_at(year, 13, 1)).number == DUSKVEYRA_INVALID_DATE);
        CHECK(duskveyra_day_of_date(date_at(year, 255, 255)).number == DUSKVEYRA_INVALID_DATE);
    }
    for (year = 100; year < 256; year++) {
        CHECK(is_no_date(duskveyra_date_of_day((uint8_t)year, 1), DUSKVEYRA_INVALID_YEAR));
        CHECK(is_no_date(duskveyra_date_of_day((uint8_t)year, 0), DUSKVEYRA_INVALID_YEAR));
        CHECK(duskveyra_day_of_date(date_at(year, 1, 1)).number == DUSKVEYRA_INVALID_YEAR);
        CHECK(duskveyra_day_of_date(date_at(year, 13, 32)).number == DUSKVEYRA_INVALID_YEAR);
    }
}

/* Refused, and every word of the calendar as it was. */
static void is_refused(duskveyra_date_time start, duskveyra_date_time end, unsigned number)
{
    duskveyra_calendar calendar, before;
    duskveyra_calendar_empty(&calendar);
    CHECK(duskveyra_calendar_add(&calendar, moment_at(1, 1, 1, 0), moment_at(1, 1, 2, 0)).number == DUSKVEYRA_OK);
    before = calendar;
    CHECK(duskveyra_calendar_add(&calendar, start, end).number == number);
    CHECK(memcmp(&calendar, &before, sizeof calendar) == 0);
}

static void numbers_in_their_order(void)
{
    const duskveyra_date_time good = moment_at(24, 2, 29, 0), later = moment_at(24, 3, 1, 0);
    const duskveyra_date_time year = moment_at(100, 2, 30, 8640100), hundredths = moment_at(99, 2, 30, 8640100);
    const duskveyra_date_time date = moment_at(25, 2, 29, 8640099);

    is_refused(year, good, DUSKVEYRA_INVALID_YEAR);
    is_refused(hundredths, year, DUSKVEYRA_INVALID_YEAR);
    is_refused(date, hundredths, DUSKVEYRA_INVALID_TIME);
    is_refused(hundredths, date, DUSKVEYRA_INVALID_TIME);
    is_refused(later, date, DUSKVEYRA_INVALID_DATE);
    is_refused(date, good, DUSKVEYRA_INVALID_DATE);
    is_refused(good, moment_at(24, 4, 31, 0), DUSKVEYRA_INVALID_DATE);
    is_refused(good, moment_at(24, 13, 1, 0), DUSKVEYRA_INVALID_DATE);
    is_refused(good, moment_at(24, 1, 0, 0), DUSKVEYRA_INVALID_DATE);
    is_refused(later, good, DUSKVEYRA_INVALID_WINDOW);
    is_refused(good, good, DUSKVEYRA_INVALID_WINDOW);
    is_refused(moment_at(99, 12, 31, 0), moment_at(0, 1, 1, 0), DUSKVEYRA_INVALID_WINDOW);
}

static int is_unanswered(duskveyra_ask_result result, unsigned number)
{
    return result.number == number && result.mask == 0 && result.follows == 0 && is_time(result.next, 0, 0, 0);
}

static void asked_badly(void)
{
    duskveyra_calendar calendar;
    duskveyra_calendar_empty(&calendar);
    CHECK(duskveyra_calendar_add(&calendar, moment_at(0, 1, 1, 0), moment_at(99, 12, 31, 8640099)).number == 0);
    CHECK(is_unanswered(duskveyra_calendar_ask(&calendar, time_of(100, 0, 8640100)), DUSKVEYRA_INVALID_YEAR));
    CHECK(is_unanswered(duskveyra_calendar_ask(&calendar, time_of(99, 0, 8640100)), DUSKVEYRA_INVALID_TIME));
    CHECK(is_unanswered(duskveyra_calendar_ask(&calendar, time_of(99, 366, 0)), DUSKVEYRA_INVALID_DATE));
    CHECK(is_unanswered(duskveyra_calendar_ask(&calendar, time_of(99, 0, 0)), DUSKVEYRA_INVALID_DATE));
    CHECK(is_unanswered(duskveyra_calendar_ask(&calendar, time_of(0, 367, 0)), DUSKVEYRA_INVALID_DATE));
    CHECK(duskveyra_calendar_ask(&calendar, time_of(0, 366, 8640099)).mask == 1);
}

/* The start belongs to a window, the end does not, and what follows is strictly after. */
static void ends_of_a_window(void)
{
    duskveyra_calendar calendar;
    duskveyra_ask_result asked;
    duskveyra_calendar_empty(&calendar);
    asked = duskveyra_calendar_ask(&calendar, time_of(24, 60, 0));
    CHECK(asked.number == DUSKVEYRA_OK && is_unanswered(asked, 0));
    CHECK(duskveyra_calendar_add(&calendar, moment_at(24, 2, 29, 8640099), moment_at(24, 3, 1, 1)).number == 0);
    asked = duskveyra_calendar_ask(&calendar, time_of(24, 60, 8640098));
    CHECK(asked.mask == 0 && asked.follows == 1 && is_time(asked.next, 24, 60, 8640099));
    asked = duskveyra_calendar_ask(&calendar, time_of(24, 60, 8640099));
    CHECK(asked.mask == 1 && asked.follows == 1 && is_time(asked.next, 24, 61, 1));
    asked = duskveyra_calendar_ask(&calendar, time_of(24, 61, 0));
    CHECK(asked.mask == 1 && asked.follows == 1 && is_time(asked.next, 24, 61, 1));
    asked = duskveyra_calendar_ask(&calendar, time_of(24, 61, 1));
    CHECK(asked.mask == 0 && is_unanswered(asked, 0));
    asked = duskveyra_calendar_ask(&calendar, time_of(23, 365, 8640099));
    CHECK(asked.mask == 0 && asked.follows == 1 && is_time(asked.next, 24, 60, 8640099));
}

static void full(void)
{
    duskveyra_calendar calendar, before;
    uint32_t i;
    duskveyra_calendar_empty(&calendar);
    for (i = 0; i < DUSKVEYRA_MOST_WINDOWS; i++) {
        CHECK(duskveyra_calendar_add(&calendar, moment_at(24, 1, 1, i), moment_at(24, 1, 2, i)).number == 0);
        CHECK(duskveyra_calendar_ask(&calendar, time_of(24, 1, i)).mask == 0xffffffffu >> (31 - i));
    }
    before = calendar;
    CHECK(duskveyra_calendar_add(&calendar, moment_at(24, 1, 1, 0), moment_at(24, 1, 2, 0)).number ==
          DUSKVEYRA_INVALID_WINDOW);
    CHECK(memcmp(&calendar, &before, sizeof calendar) == 0);
    CHECK(duskveyra_calendar_ask(&calendar, time_of(24, 2, 30)).mask == 0x80000000u);
}

/* Any words: the calls return and stay in their memory. */
static void made_up(void)
{
    int turn;
    duskveyra_calendar *calendar = (duskveyra_calendar *)lent_memory(sizeof(duskveyra_calendar));
    for (turn = 0; turn < 2000; turn++) {
        duskveyra_ask_result asked;
        int room;
        size_t i;
        for (i = 0; i < DUSKVEYRA_CALENDAR_WORDS; i++)
            calendar->words[i] = random64() >> below(64);
        if (turn % 2 == 0)
            calendar->words[0] = below(40);
        asked = duskveyra_calendar_ask(calendar, time_of(24, 60, (uint32_t)below(8640100)));
        CHECK(asked.number == DUSKVEYRA_OK && asked.follows <= 1);
        room = calendar->words[0] < DUSKVEYRA_MOST_WINDOWS;
        CHECK(duskveyra_calendar_add(calendar, moment_at(24, 1, 1, 0), moment_at(24, 1, 2, 0)).number ==
              (room ? DUSKVEYRA_OK : DUSKVEYRA_INVALID_WINDOW));
    }
    free(calendar);
}

/* A moment as one number, to compare. */
static uint64_t order_of(duskveyra_time time)
{
    return ((uint64_t)time.year * 1000 + time.day) * 10000000 + time.hundredths;
}

static duskveyra_time some_time(void)
{
    return time_of(23 + (unsigned)below(2), 1 + (unsigned)below(365), (uint32_t)below(4) * 2880033);
}

static duskveyra_date_time moment_of(duskveyra_time time)
{
    const duskveyra_date date = duskveyra_date_of_day(time.year, time.day).date;
    return moment_at(date.year, date.month, date.day, time.hundredths);
}

static void random_windows(void)
{
    int turn;
    for (turn = 0; turn < 300; turn++) {
        duskveyra_time starts[32], ends[32];
        unsigned taken = 0, tried, asked;
        duskveyra_calendar calendar;
        duskveyra_calendar_empty(&calendar);
        for (tried = 0; tried < 40; tried++) {
            const duskveyra_time start = some_time(), end = some_time();
            const int good = taken < 32 && order_of(start) < order_of(end);
            CHECK(duskveyra_calendar_add(&calendar, moment_of(start), moment_of(end)).number ==
                  (good ? DUSKVEYRA_OK : DUSKVEYRA_INVALID_WINDOW));
            if (good) {
                starts[taken] = start;
                ends[taken] = end;
                taken++;
            }
        }
        for (asked = 0; asked < 40; asked++) {
            const duskveyra_time time = asked < taken ? ends[asked] : some_time();
            const uint64_t now = order_of(time);
            const duskveyra_ask_result result = duskveyra_calendar_ask(&calendar, time);
            uint64_t next = UINT64_MAX;
            uint32_t mask = 0;
            unsigned i;
            for (i = 0; i < taken; i++) {
                const uint64_t start = order_of(starts[i]), end = order_of(ends[i]);
                if (start <= now && now < end)
                    mask |= UINT32_C(1) << i;
                if (now < start && start < next)
                    next = start;
                if (now < end && end < next)
                    next = end;
            }
            CHECK(result.number == DUSKVEYRA_OK && result.mask == mask);
            CHECK(result.follows == (next != UINT64_MAX) && (!result.follows || order_of(result.next) == next));
        }
    }
}

int main(void)
{
    every_day();
    numbers_in_their_order();
    asked_badly();
    ends_of_a_window();
    full();
    made_up();
    random_windows();
    printf("%lu checks, %lu failed\n", checks, failed);
    return failed != 0;
}
