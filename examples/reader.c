/* Reads a recording on standard input, letter and expression and then the characters 0 1 P - of its elements, and prints
 * the day and the time of each report. */
#include <duskveyra.h>
#include <stdio.h>
#include <string.h>

int main(void)
{
    const char characters[] = "01P-";
    const char *found;
    duskveyra_format format;
    duskveyra_reader reader;
    duskveyra_write_result made;
    duskveyra_feed_result fed;
    duskveyra_time_of_day_result clock;
    int character;

    format.letter = (uint8_t)getchar();
    format.expression = (uint8_t)(getchar() - '0');
    made = duskveyra_fresh(format, 2, &reader);
    if (made.number != DUSKVEYRA_OK) {
        fprintf(stderr, "refused %d: %s\n", made.number, duskveyra_number_text(made.number));
        return 1;
    }
    while ((character = getchar()) != EOF) {
        found = (const char *)memchr(characters, character, 4);
        if (found == NULL) /* a space or the end of a line */
            continue;
        fed = duskveyra_feed(&reader, (uint8_t)(found - characters));
        if (fed.reported) {
            clock = duskveyra_time_of_day(fed.time);
            printf("day %d, %02d:%02d:%02d.%02d\n", fed.time.day, clock.hour, clock.minute, clock.second,
                   clock.hundredth);
        }
    }
    return 0;
}
