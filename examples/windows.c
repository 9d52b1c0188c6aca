/* From a reader's report to its date and to the test windows that hold it: the elements of a generator that sends B4 over
 * the start of a booked window, fed to a reader; a line is printed for each report. */
#include "duskveyra.h"

#include <inttypes.h>
#include <stdio.h>

static const duskveyra_format format = {'B', 4};

/* A window from noon of 29 February 2024 to the midnight after, and one from a second after noon for two days. */
static int book(duskveyra_calendar *calendar)
{
    const duskveyra_date_time noon = {{24, 2, 29}, 4320000}, midnight = {{24, 3, 1}, 0};
    const duskveyra_date_time later = {{24, 2, 29}, 4320100}, third = {{24, 3, 3}, 0};

    duskveyra_calendar_empty(calendar);
    return duskveyra_calendar_add(calendar, noon, midnight).number == DUSKVEYRA_OK &&
           duskveyra_calendar_add(calendar, later, third).number == DUSKVEYRA_OK;
}

static void print(const duskveyra_calendar *calendar, duskveyra_time time)
{
    const duskveyra_date date = duskveyra_date_of_day(time.year, time.day).date;
    const duskveyra_ask_result asked = duskveyra_calendar_ask(calendar, time);
    const duskveyra_date next = duskveyra_date_of_day(asked.next.year, asked.next.day).date;

    printf("20%02u-%02u-%02u second %" PRIu32 ", windows %08" PRIx32, date.year, date.month, date.day,
           time.hundredths / 100, asked.mask);
    if (asked.follows)
        printf(", next 20%02u-%02u-%02u second %" PRIu32, next.year, next.month, next.day,
               asked.next.hundredths / 100);
    printf("\n");
}

int main(void)
{
    duskveyra_calendar calendar;
    duskveyra_reader reader;
    duskveyra_time time = {24, 60, 4319700};
    uint8_t frame[DUSKVEYRA_LONGEST_FRAME];
    int second;
    size_t i;

    if (!book(&calendar) || duskveyra_fresh(format, 2, &reader).number != DUSKVEYRA_OK)
        return 1;
    for (second = 0; second < 6; second++) {
        if (duskveyra_write(format, time, 0, frame, 100).number != DUSKVEYRA_OK)
            return 1;
        for (i = 0; i < 100; i++) {
            const duskveyra_feed_result fed = duskveyra_feed(&reader, frame[i]);
            if (fed.reported)
                print(&calendar, fed.time);
        }
        time = duskveyra_step(format, time, 366, DUSKVEYRA_USUAL_DAY).time;
    }
    return 0;
}
