/* The time code engine of the crack-test recorder, for C99 and C++: link with librecorder.a, installed as libduskveyra.a.
 *
 * Every function takes numbers, formats and times by value and returns one struct. Its member number is 0, or the number
 * of a refusal; where it is not 0 every other member is 0, but the index with 5, 6 and 25, and all memory of the caller
 * is as it was. Every value of every number is allowed, and every content of lent memory; what is out of range is refused
 * with its number.
 *
 * Pointers go to frames, cycles, lists, logs, calendars and readers alone. None may be null, also where the length
 * beside it is 0, and no two of one call may point into the same memory, but where both are const. A list goes as two
 * arguments, the pointer and the number of its elements. Every function returns, keeps no pointer after that, and uses no
 * memory but its own and what is lent to it.
 *
 * A symbol is one byte: 0 (zero or index marker), 1 (one), 2 (mark: position identifier or reference bit) or
 * 3 (spoiled, or a missing pulse of X). A format is a rate letter, in capital ASCII ('A', 'B', 'D', 'E', 'G', 'H', 'X'),
 * and a coded expression as a number (0 to 7 with A and B, 1 and 2 with D, E, G and H, 2 with X). The expressions 4 to 7
 * are 0 to 3 with the year, as the later edition has them. X is the XR3 code, whose frames carry the time of day alone and
 * end in four missing pulses. A time is a year, a day, 1 to 366, and hundredths of a second since midnight, 0 to
 * 8,640,099; it lies on a format where the frame interval divides the hundredths, and on X where its day is 1 too. From
 * 8,640,000 on it lies in a second that was added to its day, 23:59:60; A, B and G carry that second, D, E, H and X do
 * not. The year is 0 to 99 for 2000 to 2099, and every fourth from 2000 has day 366; in a format without the year it is 0,
 * and says nothing. The lowest bit of a control word is control bit 1, or, with the year, control bit 10: the 18 later
 * ones are left.
 *
 * letter  elements of a frame  frame interval in hundredths  control bits (0 and 1)  with the year (4 and 5)
 *   A            100                        10                   27                     18
 *   B            100                       100                   27                     18
 *   D             60                   360,000                    9
 *   E            100                     1,000                   45
 *   G            100                         1                   36
 *   H             60                     6,000                    9
 *   X             25                       100
 *
 * With the expressions 2, 3, 6 and 7 no control bits are carried, and every control word but 0 is refused.
 */
#ifndef DUSKVEYRA_H
#define DUSKVEYRA_H

#include <stddef.h>
#include <stdint.h>

#ifdef __cplusplus
extern "C" {
#endif

/* The number of this interface. The archive has it in the name of a function, which every file that includes this header
 * refers to: a program does not link with the archive of another interface. */
#define DUSKVEYRA_INTERFACE 4

uint32_t duskveyra_interface_4(void);

#if defined(__GNUC__)
__attribute__((used))
#endif
static uint32_t (*const duskveyra_interface_linked)(void) = duskveyra_interface_4;

/* The version of this header, as text and as a number: 10,000 times its first number, 100 times its second and its third.
 * The call gives that of the archive. */
#define DUSKVEYRA_VERSION "1.0.0"
#define DUSKVEYRA_VERSION_NUMBER 10000

uint32_t duskveyra_version(void);

/* Stands behind every function that takes a pointer: where the compiler has the attribute, it warns of a null one. */
#if defined(__GNUC__)
#define DUSKVEYRA_NONNULL __attribute__((nonnull))
#else
#define DUSKVEYRA_NONNULL
#endif

/* The numbers that a call refuses with; 0 is no refusal. */
enum duskveyra_number {
    DUSKVEYRA_OK = 0,
    DUSKVEYRA_UNKNOWN_FORMAT = 1,       /* letter or expression not among the formats */
    DUSKVEYRA_INVALID_TIME = 2,         /* day or hundredths out of range, or not on the format; day 366 of a carried
                                           year that has none; in X another day than 1 */
    DUSKVEYRA_WRONG_LENGTH = 3,         /* frame not of the format's length, lists of different lengths, or listeners' ends
                                           that do not part their damages */
    DUSKVEYRA_UNKNOWN_SYMBOL = 4,       /* symbol above 3 */
    DUSKVEYRA_MISPLACED_MARK = 5,       /* mark missing, or where none belongs; with its index */
    DUSKVEYRA_INVALID_ELEMENT = 6,      /* 1 or 3 as index marker, or 3 in the place of a digit or bit; 0 or 1 where X
                                           misses a pulse; with its index */
    DUSKVEYRA_INVALID_DIGIT = 7,        /* digit over 9, hours over 23, minutes or seconds over 59, day 0 or over 366,
                                           or 366 of a carried year that has none; at 23:59 in A, B and G seconds
                                           over 60 */
    DUSKVEYRA_SECONDS_DIFFER = 8,       /* straight binary seconds differ from the digits */
    DUSKVEYRA_CONTROL_TOO_LONG = 9,     /* control word needs more bits than are carried */
    DUSKVEYRA_INVALID_INTERVAL = 10,    /* nominal element interval not 100 to 10,000,000 ticks */
    DUSKVEYRA_INVALID_YEAR_LENGTH = 11, /* year length not 365 or 366, or the day is beyond it; never with the year */
    DUSKVEYRA_START_PAST_END = 12,      /* start past the recording's end, place past the log's end */
    DUSKVEYRA_INVALID_READER = 13,      /* the reader's letter, expression or place out of range */
    DUSKVEYRA_SECOND_NOT_CARRIED = 14,  /* a time in an added second in D, E, H or X */
    DUSKVEYRA_INVALID_KIND = 15,        /* kind of day above 2, or in A, B and G a time past that day's end */
    DUSKVEYRA_INVALID_WIDTH_SETTING = 16, /* a width setting not 1 to 14 percent */
    DUSKVEYRA_INVALID_YEAR = 17,        /* year over 99, or not 0 in a format without the year */
    DUSKVEYRA_YEAR_PLACE_TAKEN = 18,    /* a one among control bits 1 to 9, where the year would stand */
    DUSKVEYRA_RECORD_CUT_SHORT = 19,    /* the log ends within the record */
    DUSKVEYRA_INVALID_RECORD = 20,      /* a map above 15, or a field equal to the one before */
    DUSKVEYRA_INVALID_WINDOW = 21,      /* a 33rd window, or one that does not end after it starts */
    DUSKVEYRA_INVALID_DATE = 22,        /* a month, day or day of year that the year lacks */
    DUSKVEYRA_INVALID_FORECAST = 23,    /* a figure not finite, a reference of 0.0 or -0.0, or more than 16,777,216
                                           seconds */
    DUSKVEYRA_INVALID_CYCLE_COUNT = 24, /* cycles of an element not a multiple of 10 from 10 to 100 */
    DUSKVEYRA_UNKNOWN_CYCLE = 25,       /* cycle neither 1 nor 2; with its index */
    DUSKVEYRA_INVALID_SETTING = 26,     /* setting not 2 to 5 */
    DUSKVEYRA_INVALID_LISTENER = 27     /* a listener's damages not in strictly rising order or with a symbol above 3, or
                                           a ninth listener */
};

/* What a number of a refusal means; also for 0, and for a number that no call gives. */
static inline const char *duskveyra_number_text(unsigned number)
{
    switch (number) {
    case DUSKVEYRA_OK:
        return "not refused";
    case DUSKVEYRA_UNKNOWN_FORMAT:
        return "letter or expression not among the formats";
    case DUSKVEYRA_INVALID_TIME:
        return "day or hundredths out of range, or not on the format";
    case DUSKVEYRA_WRONG_LENGTH:
        return "frame not of the format's length, or lists of different lengths";
    case DUSKVEYRA_UNKNOWN_SYMBOL:
        return "symbol above 3";
    case DUSKVEYRA_MISPLACED_MARK:
        return "mark missing, or where none belongs";
    case DUSKVEYRA_INVALID_ELEMENT:
        return "index marker not zero, a spoiled bit, or a pulse where X has none";
    case DUSKVEYRA_INVALID_DIGIT:
        return "digit, clock or day out of range";
    case DUSKVEYRA_SECONDS_DIFFER:
        return "straight binary seconds differ from the digits";
    case DUSKVEYRA_CONTROL_TOO_LONG:
        return "control word needs more bits than are carried";
    case DUSKVEYRA_INVALID_INTERVAL:
        return "nominal element interval out of range";
    case DUSKVEYRA_INVALID_YEAR_LENGTH:
        return "year length not 365 or 366, or the day is beyond it";
    case DUSKVEYRA_START_PAST_END:
        return "start or place past the end";
    case DUSKVEYRA_INVALID_READER:
        return "reader's letter, expression or place out of range";
    case DUSKVEYRA_SECOND_NOT_CARRIED:
        return "added second in a format that does not carry it";
    case DUSKVEYRA_INVALID_KIND:
        return "kind of day above 2, or the time is past the day's end";
    case DUSKVEYRA_INVALID_WIDTH_SETTING:
        return "width setting not 1 to 14 percent";
    case DUSKVEYRA_INVALID_YEAR:
        return "year over 99, or not 0 in a format that carries none";
    case DUSKVEYRA_YEAR_PLACE_TAKEN:
        return "a one among the control bits whose places the year takes";
    case DUSKVEYRA_RECORD_CUT_SHORT:
        return "record cut short by the log's end";
    case DUSKVEYRA_INVALID_RECORD:
        return "map above 15, or a field equal to the one before";
    case DUSKVEYRA_INVALID_WINDOW:
        return "33rd window, or one that does not end after it starts";
    case DUSKVEYRA_INVALID_DATE:
        return "month, day or day of year that the year lacks";
    case DUSKVEYRA_INVALID_FORECAST:
        return "figure not finite, reference zero, or too many seconds";
    case DUSKVEYRA_INVALID_CYCLE_COUNT:
        return "cycles of an element not a multiple of 10 from 10 to 100";
    case DUSKVEYRA_UNKNOWN_CYCLE:
        return "cycle neither 1 nor 2";
    case DUSKVEYRA_INVALID_SETTING:
        return "setting not 2 to 5";
    case DUSKVEYRA_INVALID_LISTENER:
        return "damages not rising or with a symbol above 3, or a ninth listener";
    default:
        return "unknown number";
    }
}

/* The symbols. */
enum duskveyra_symbol {
    DUSKVEYRA_ZERO = 0,   /* a zero or an index marker */
    DUSKVEYRA_ONE = 1,    /* a one */
    DUSKVEYRA_MARK = 2,   /* a position identifier or reference bit */
    DUSKVEYRA_SPOILED = 3 /* a spoiled element, or a missing pulse of X */
};

/* The cycles of the modified Manchester form, and how many an element may have: a multiple of 10. */
enum duskveyra_cycle {
    DUSKVEYRA_HIGH_CYCLE = 1,
    DUSKVEYRA_LOW_CYCLE = 2
};

#define DUSKVEYRA_FEWEST_CYCLES 10
#define DUSKVEYRA_MOST_CYCLES 100

/* The limits of a time. A usual day has DUSKVEYRA_DAY_LENGTH hundredths: there the added second begins, and
 * DUSKVEYRA_LAST_HUNDREDTH is its last. */
#define DUSKVEYRA_LAST_YEAR 99
#define DUSKVEYRA_FIRST_DAY 1
#define DUSKVEYRA_LAST_DAY 366
#define DUSKVEYRA_DAY_LENGTH 8640000
#define DUSKVEYRA_LAST_HUNDREDTH 8640099

/* The limits of a reader's setting, of the nominal element interval in ticks, and of a forecast's seconds. */
#define DUSKVEYRA_LEAST_SETTING 2
#define DUSKVEYRA_GREATEST_SETTING 5
#define DUSKVEYRA_LEAST_INTERVAL 100
#define DUSKVEYRA_GREATEST_INTERVAL 10000000
#define DUSKVEYRA_MOST_SECONDS 16777216

/* The kinds of a day. In D, E, H and X the frames go on as usual on a day of every kind. */
enum duskveyra_kind {
    DUSKVEYRA_USUAL_DAY = 0,    /* 86,400 seconds */
    DUSKVEYRA_SECOND_ADDED = 1, /* 86,401: 23:59:60 follows 23:59:59 */
    DUSKVEYRA_SECOND_TAKEN = 2  /* 86,399: the next day follows 23:59:58 */
};

/* Why duskveyra_feed_block stopped. */
enum duskveyra_stop {
    DUSKVEYRA_ALL_TAKEN = 0,             /* no symbol is left */
    DUSKVEYRA_BEFORE_UNKNOWN_SYMBOL = 1, /* the next symbol is above 3 */
    DUSKVEYRA_BEFORE_REPORT = 2          /* the next symbol brings a report, and there is no room left for it */
};

/* The longest frame, in bytes. */
#define DUSKVEYRA_LONGEST_FRAME 100

typedef struct duskveyra_format {
    uint8_t letter;
    uint8_t expression;
} duskveyra_format;

typedef struct duskveyra_time {
    uint8_t year;
    uint16_t day;
    uint32_t hundredths;
} duskveyra_time;

/* How far the widths of zeros, ones and marks may lie from 20, 50 and 80 percent of the nominal element interval, in
 * percent of it: 1 to 14 each. The usual settings are 5, 5, 5: duskveyra_width_settings s = DUSKVEYRA_USUAL_WIDTHS. A
 * number above 255 is cut to its lowest byte by C itself, before it gets here. */
typedef struct duskveyra_width_settings {
    uint8_t zeros;
    uint8_t ones;
    uint8_t marks;
} duskveyra_width_settings;

#define DUSKVEYRA_NARROWEST_WIDTH 1
#define DUSKVEYRA_USUAL_WIDTH 5
#define DUSKVEYRA_WIDEST_WIDTH 14

#define DUSKVEYRA_USUAL_WIDTHS { DUSKVEYRA_USUAL_WIDTH, DUSKVEYRA_USUAL_WIDTH, DUSKVEYRA_USUAL_WIDTH }

/* An oscillator's figures, in units of one's own choice but for the error: reference and frequency have one unit, and the
 * ageing is a change of the frequency's ratio for each second. */
typedef struct duskveyra_oscillator {
    double error;     /* E0, its starting error in seconds */
    double frequency; /* f0, its own frequency */
    double reference; /* fr, the reference frequency */
    double ageing;    /* a */
} duskveyra_oscillator;

/* What a reader reports. Before the first report of a log, all members count as 0. */
typedef struct duskveyra_report {
    duskveyra_time time;
    uint64_t control;
} duskveyra_report;

/* The longest record of a log, in bytes. */
#define DUSKVEYRA_LONGEST_RECORD 13

/* A day by its month: the year, 0 to 99, the month from 1 and the day of the month from 1. */
typedef struct duskveyra_date {
    uint8_t year;
    uint8_t month;
    uint8_t day;
} duskveyra_date;

/* A date and hundredths of a second since its midnight, 0 to 8,640,099. */
typedef struct duskveyra_date_time {
    duskveyra_date date;
    uint32_t hundredths;
} duskveyra_date_time;

/* A calendar of test windows: how many were added, then a word for each start and one for each end. It is made by
 * duskveyra_calendar_empty, changed by duskveyra_calendar_add, and may be copied as any struct. */
#define DUSKVEYRA_MOST_WINDOWS 32

#define DUSKVEYRA_CALENDAR_WORDS 65

typedef struct duskveyra_calendar {
    uint64_t words[DUSKVEYRA_CALENDAR_WORDS];
} duskveyra_calendar;

/* The most listeners of a simulation. */
#define DUSKVEYRA_MOST_LISTENERS 8

/* What a listener of a simulation counted. */
typedef struct duskveyra_counts {
    uint64_t first;   /* the number of the element that brought its first report, counted from 1; 0 where there is none */
    uint64_t reports; /* the number of its reports */
    uint64_t wrong;   /* the number of those that do not give the time of a generator frame that ends there */
} duskveyra_counts;

/* A stream reader: the letter, the expression, the setting and the place; the count of the frame under way, the newest
 * symbols, three words of the frame's symbols and the row; the year, the day, the hundredths and the control word of the
 * row's last frame. It is made by duskveyra_fresh, changed by duskveyra_feed, duskveyra_feed_block and
 * duskveyra_feed_pulse, and may be copied as any struct. */
#define DUSKVEYRA_READER_WORDS 14

typedef struct duskveyra_reader {
    uint64_t words[DUSKVEYRA_READER_WORDS];
} duskveyra_reader;

/* What the calls return. */
typedef struct duskveyra_write_result {
    uint8_t number;
} duskveyra_write_result;

typedef struct duskveyra_convert_result {
    uint8_t number;
    size_t index; /* with 5, 6 and 25 the lowest index that offends, counted from 0 */
} duskveyra_convert_result;

typedef struct duskveyra_read_result {
    uint8_t number;
    size_t index; /* with 5 and 6 the lowest index that offends, counted from 0 */
    duskveyra_time time;
    uint64_t control;
} duskveyra_read_result;

typedef struct duskveyra_step_result {
    uint8_t number;
    duskveyra_time time;
} duskveyra_step_result;

typedef struct duskveyra_difference_result {
    uint8_t number;
    int64_t hundredths;
} duskveyra_difference_result;

typedef struct duskveyra_classify_result {
    uint8_t number;
    uint8_t symbol;
    int32_t deviation; /* 100 times the width less 20, 50 or 80 times the interval; 0 with a spoiled element */
} duskveyra_classify_result;

typedef struct duskveyra_scan_result {
    uint8_t number;
    uint8_t found; /* 1 where there is a frame; where it is 0, so are the others */
    size_t start;
    duskveyra_time time;
    uint64_t control;
} duskveyra_scan_result;

typedef struct duskveyra_feed_result {
    uint8_t number;
    uint8_t reported; /* 1 where the symbol brought a report; where it is 0, so are the others */
    duskveyra_time time;
    uint64_t control;
} duskveyra_feed_result;

typedef struct duskveyra_feed_pulse_result {
    uint8_t number;
    uint8_t reported; /* 1 where the pulse's symbol brought a report; where it is 0, so are the time and the control word */
    duskveyra_time time;
    uint64_t control;
    int32_t deviation; /* the pulse's, as duskveyra_classify gives it, with a report or without */
} duskveyra_feed_pulse_result;

typedef struct duskveyra_block_result {
    uint8_t number;
    uint8_t stop;   /* of enum duskveyra_stop */
    size_t taken;   /* the number of symbols taken */
    size_t reports; /* the number of reports put in */
} duskveyra_block_result;

typedef struct duskveyra_forecast_result {
    uint8_t number;
    double error; /* in seconds; it may be infinite or no number */
} duskveyra_forecast_result;

typedef struct duskveyra_log_write_result {
    uint8_t number;
    uint8_t put_in; /* 1 where the record was put in, 0 where it does not fit */
    size_t next;    /* the next place, where the record was put in */
} duskveyra_log_write_result;

typedef struct duskveyra_log_read_result {
    uint8_t number;
    uint8_t found; /* 1 with a report, 0 at the log's end; where it is 0, so are the others */
    duskveyra_report report;
    size_t next; /* the next place */
} duskveyra_log_read_result;

typedef struct duskveyra_simulate_result {
    uint8_t number;
    duskveyra_counts counts[DUSKVEYRA_MOST_LISTENERS]; /* of each listener; past the last all 0 */
} duskveyra_simulate_result;

typedef struct duskveyra_date_result {
    uint8_t number;
    duskveyra_date date;
} duskveyra_date_result;

typedef struct duskveyra_day_result {
    uint8_t number;
    uint16_t day;
} duskveyra_day_result;

typedef struct duskveyra_ask_result {
    uint8_t number;
    uint8_t follows;     /* 1 where a start or end follows the time, 0 where none does; next is then 0 */
    uint32_t mask;       /* bit i stands where window i holds the time; bit 0 is the first added */
    duskveyra_time next; /* the next start or end */
} duskveyra_ask_result;

typedef struct duskveyra_format_figures_result {
    uint8_t number;
    uint8_t control_bits; /* how many a control word may need; 0 where the expression carries none */
    uint32_t interval;    /* from a frame to the next, in hundredths of a second */
    size_t elements;      /* of a frame, a byte for each */
} duskveyra_format_figures_result;

typedef struct duskveyra_time_of_day_result {
    uint8_t number;
    uint8_t hour;
    uint8_t minute;
    uint8_t second; /* 60 in a second that was added to the day */
    uint8_t hundredth;
} duskveyra_time_of_day_result;

/* The format's figures of the table above, in its own expression: how long a frame is that duskveyra_write fills, how far
 * apart frames are, and how many control bits they carry.
 * Refuses with 1. */
duskveyra_format_figures_result duskveyra_format_figures(duskveyra_format format);

/* Hour, minute, second and hundredth of a time, as its frame's digits have them: 23:59:60 from hundredth 8,640,000 on, where
 * plain division would give 24:00:00. The year is not looked at.
 * Refuses with 2 where the day or the hundredths are out of range. */
duskveyra_time_of_day_result duskveyra_time_of_day(duskveyra_time time);

/* Writes a time and a control word as the symbols of one frame; every byte of the frame is set.
 * Refuses with 1; 17; 2; 14; 9; 3 where frame_length is not the format's number of elements; in this order. */
duskveyra_write_result duskveyra_write(duskveyra_format format, duskveyra_time time, uint64_t control, uint8_t *frame,
                                       size_t frame_length) DUSKVEYRA_NONNULL;

/* Reads one frame: its time and its control word.
 * Refuses with 1; 3; 4; the lowest index that offends with 5 or 6; 7; 8; in this order. */
duskveyra_read_result duskveyra_read(duskveyra_format format, const uint8_t *frame, size_t frame_length)
    DUSKVEYRA_NONNULL;

/* Converts a frame of A or B without the year, in the format's expression 0 to 3, into the frame with that year, which
 * the expression 4 higher reads; every byte of later is set. The control bits 10 to 27 stay where they are.
 * Refuses with 1, also for a letter or an expression that is not of the earlier edition; 3 where frame_length or
 * later_length is not 100; as duskveyra_read does with 4; 5 or 6; 7; 8; then 17; 2 where the year lacks the frame's day;
 * 18; in this order. */
duskveyra_convert_result duskveyra_forward(duskveyra_format format, const uint8_t *frame, size_t frame_length,
                                           uint8_t year, uint8_t *later, size_t later_length) DUSKVEYRA_NONNULL;

/* Converts a frame of A or B with the year, in the format's expression 4 to 7, into the frame without it, which the
 * expression 4 lower reads: elements 50 to 58 are 0 in it, and all else is as it was; every byte of earlier is set. It
 * undoes duskveyra_forward, and duskveyra_forward with the frame's year undoes it.
 * Refuses with 1, also for a letter or an expression that is not of the later edition; 3 where frame_length or
 * earlier_length is not 100; then as duskveyra_read does with 4; 5 or 6; 7; 8; in this order. */
duskveyra_convert_result duskveyra_backward(duskveyra_format format, const uint8_t *frame, size_t frame_length,
                                            uint8_t *earlier, size_t earlier_length) DUSKVEYRA_NONNULL;

/* The time of the frame after the one with this time, in a year of year_length days. The kind is that of the given time's
 * day. Where the format carries the year, its own length counts and year_length is not looked at; year 99 is followed
 * by 0. In X 23:59:59 is followed by 00:00:00 of day 1.
 * Refuses with 1; 17; 2; 14; 11; 15; in this order. */
duskveyra_step_result duskveyra_step(duskveyra_format format, duskveyra_time time, uint16_t year_length, uint8_t kind);

/* The time of the frame before the one with this time. The length of the year and the kind are those of the year and the
 * day that the earlier time belongs to; day 1 at 0 hundredths goes to that year's last frame. Where the format carries
 * the year, the earlier year's own length counts and year_length is not looked at; before year 0 comes 99. In X
 * 00:00:00 goes to 23:59:59 of day 1. It undoes duskveyra_step with the same year_length and kind, and duskveyra_step
 * undoes it.
 * Refuses as duskveyra_step does, by the time that is given: 1; 17; 2; 14; 11; 15; in this order. */
duskveyra_step_result duskveyra_step_back(duskveyra_format format, duskveyra_time time, uint16_t year_length,
                                          uint8_t kind);

/* The first time less the second, within one year, in signed hundredths of a second. A day counts 8,640,000 of them,
 * whatever its kind. The years are not looked at.
 * Refuses with 2 where a day or hundredths are out of range. */
duskveyra_difference_result duskveyra_difference(duskveyra_time first, duskveyra_time second);

/* Makes a fresh reader, which has a format and a setting, 2 to 5, and has received nothing: sets all words of *reader,
 * whatever they were.
 * Refuses with 1; 26; in this order. */
duskveyra_write_result duskveyra_fresh(duskveyra_format format, uint8_t setting, duskveyra_reader *reader)
    DUSKVEYRA_NONNULL;

/* Feeds one symbol, and changes *reader. The symbol brings a report where it ended the last of as many frames as the
 * setting says, directly one after the other behind a mark (in X behind anything or nothing), each time next after the
 * one before for some year length and some kind of day; the report is the last one's time and control word.
 * Refuses with 13; 26; 4; in this order, and then feeds nothing. A reader made by duskveyra_fresh and changed by feeding
 * alone never meets 13 or 26. Of a reader with other words that passes them, what is reported is not promised. */
duskveyra_feed_result duskveyra_feed(duskveyra_reader *reader, uint8_t symbol) DUSKVEYRA_NONNULL;

/* Feeds a block of symbols as duskveyra_feed does one after the other, and puts their reports, in their order, into a
 * list of records, which is five lists of one length: report k, counted from 0, is indexes[k], years[k], days[k],
 * hundredths[k] and controls[k]. indexes[k] is the index in this block, counted from 0, of the symbol that brought it:
 * the last of the frame with this time. Entries past the last report stay as they were. The lists may not overlap each
 * other, the symbols or *reader. It stops only before the first symbol above 3, or before the first whose report finds
 * no room left; *reader is then as before that symbol. Where the last symbol's report just fills the list, all were
 * taken.
 * Refuses with 13; 26; 3 where the lengths of indexes, years, days, hundredths and controls are not one; in this
 * order, and then feeds nothing and leaves the lists too. A symbol above 3 stops it and is no refusal. */
duskveyra_block_result duskveyra_feed_block(duskveyra_reader *reader, const uint8_t *symbols, size_t symbols_length,
                                            size_t *indexes, size_t indexes_length, uint8_t *years,
                                            size_t years_length, uint16_t *days, size_t days_length,
                                            uint32_t *hundredths, size_t hundredths_length, uint64_t *controls,
                                            size_t controls_length) DUSKVEYRA_NONNULL;

/* Classifies one pulse, as duskveyra_classify does, and feeds its symbol, as duskveyra_feed does. The settings may be
 * others at each call.
 * Refuses with 10; 16; 13; 26; in this order, and then feeds nothing. */
duskveyra_feed_pulse_result duskveyra_feed_pulse(duskveyra_reader *reader, duskveyra_width_settings settings,
                                                 uint32_t interval, uint32_t width, uint32_t period) DUSKVEYRA_NONNULL;

/* Classifies one pulse by its width and its period, in the ticks of the nominal element interval: with a period of 95 to
 * 105 percent of it a width at most the setting's percentage from 20 percent is 0, from 50 percent 1, from 80 percent 2,
 * ends included; all else is 3. Its deviation is 100 times the width less 20, 50 or 80 times the interval, from
 * -140,000,000 to 140,000,000; that of a spoiled element is 0.
 * Refuses with 10; 16; in this order. */
duskveyra_classify_result duskveyra_classify(duskveyra_width_settings settings, uint32_t interval, uint32_t width,
                                             uint32_t period);

/* Classifies a list of pulses: symbol i and deviation i are those of width i and period i; every one is set.
 * Refuses with 10; 16; 3 where the four lengths are not one; in this order. */
duskveyra_write_result duskveyra_classify_list(duskveyra_width_settings settings, uint32_t interval,
                                               const uint32_t *widths, size_t widths_length, const uint32_t *periods,
                                               size_t periods_length, uint8_t *symbols, size_t symbols_length,
                                               int32_t *deviations, size_t deviations_length) DUSKVEYRA_NONNULL;

/* Looks in a recording of symbols for the first frame that begins at start or later, and at index 1 or later, behind a
 * mark (in X at any index, behind anything or nothing): the index of its first element, with its time and control word as
 * duskveyra_read gives them. Bytes above 3 fit nowhere.
 * Refuses with 1; 12 where start is above recording_length; in this order. */
duskveyra_scan_result duskveyra_scan(duskveyra_format format, const uint8_t *recording, size_t recording_length,
                                     size_t start) DUSKVEYRA_NONNULL;

/* Encodes a frame of A, B or G in the modified Manchester form: each symbol as an element of count clock cycles, count a
 * multiple of 10 from 10 to 100; every cycle is set. A cycle is one byte of two half levels, 1 (01, high) or 2 (10, low).
 * A zero is count / 5 high cycles and then low ones, a one count / 2, a mark 4 * count / 5. The frame need be none that
 * duskveyra_read takes. The standard's higher carriers, 1,000 and 10,000 cycles an element, are refused with 24.
 * Refuses with 1, also for D, E, H and X; 24; 3 where frame_length is not the format's number of elements, or
 * cycles_length not that number times count; 4 for a symbol above 2; in this order. */
duskveyra_write_result duskveyra_encode_cycles(duskveyra_format format, size_t count, const uint8_t *frame,
                                               size_t frame_length, uint8_t *cycles, size_t cycles_length)
    DUSKVEYRA_NONNULL;

/* Decodes what duskveyra_encode_cycles encodes; every symbol of the frame is set. Any other run of high and low cycles in
 * an element is symbol 3; up to 3 * count / 10 - 1 wrong cycles of an element never make another symbol of it. The cycles
 * must begin with an element's first one: to find it is the caller's.
 * Refuses with 1; 24; 3; as duskveyra_encode_cycles does; then 25 for a cycle that is neither 1 nor 2, with the index of
 * the first; in this order. */
duskveyra_convert_result duskveyra_decode_cycles(duskveyra_format format, size_t count, const uint8_t *cycles,
                                                 size_t cycles_length, uint8_t *frame, size_t frame_length)
    DUSKVEYRA_NONNULL;

/* The error that an oscillator is expected to have when it has run alone for that many seconds:
 * E0 + (f0/fr - 1) t + a t t / 2, worked in this order in binary64, each operation rounded to the nearest: f0/fr, less 1,
 * times t, added to E0; then t times t, times a, divided by 2, added last. The result has exactly these bits, or both are
 * no number. That holds in the default floating point environment: a program that sets another rounding, or subnormal
 * numbers to zero (as linking with -ffast-math does), changes the bits.
 * Refuses with 23. */
duskveyra_forecast_result duskveyra_forecast(duskveyra_oscillator oscillator, uint32_t seconds);

/* Adds the record of a report to a log, at a place: one byte of map, then the fields that differ from the report before,
 * lowest byte first: bit 0 the day (2 bytes), bit 1 the hundredths (3), bit 2 the control word (6), bit 3 the year (1).
 * The report before is the last one put in, or all 0 where the log is empty; it is not checked. A record that does not
 * fit is left out, and put_in is then 0. Every byte of the log but the record's stays. Nothing in a log marks its end:
 * it is the place that the last record put in gave, and a log is read from its first log_length bytes.
 *
 *     size_t place = 0;
 *     duskveyra_report last = {{0, 0, 0}, 0};
 *     ...
 *     written = duskveyra_log_write(log, sizeof log, place, last, report);
 *     if (written.put_in) {
 *         place = written.next;
 *         last = report;
 *     }
 *
 * Refuses with 12 where place is above log_length; 2 for a day not 1 to 366 or hundredths over 8,640,099; 17 for a year
 * over 99; 9 for a control word over 48 bits; in this order, and all of them before the fit. */
duskveyra_log_write_result duskveyra_log_write(uint8_t *log, size_t log_length, size_t place, duskveyra_report before,
                                               duskveyra_report report) DUSKVEYRA_NONNULL;

/* Reads the record at a place of a log, after the report before: its report, and the next place. Nothing is found
 * exactly where place is log_length. A log that duskveyra_log_write made from place 0 and a report of all 0 is read so as
 * the reports put in, one after the other, and no other log of as many bytes is.
 * Refuses with 12 where place is above log_length; 19 where the log ends within the record; 20 for a map above 15 or a
 * field equal to the one before; then as duskveyra_log_write does, by the whole report, with 2; 17; 9; in this order. */
duskveyra_log_read_result duskveyra_log_read(const uint8_t *log, size_t log_length, size_t place,
                                             duskveyra_report before) DUSKVEYRA_NONNULL;

/* Simulates a generator that up to 8 listeners hear, each with its own setting and its own damages. The generator sends
 * so many frames from the start on, each time next after the one before in years of year_length days and days of kind 0,
 * with control word 0. A damage is an element that comes to the listener as another symbol: the number of the element in
 * the whole run, counted from 1, and that symbol. What a listener counts is what a fresh reader with its setting reports
 * when it is fed the damaged elements one by one. A number of 0, or past the last element, damages nothing.
 *
 * There is a listener for each entry of settings. The damages of all stand one listener's after the other's in numbers and
 * symbols, and ends says where: those of listener j, counted from 0, are the entries from ends[j - 1] on, for the first
 * from 0 on, and before ends[j]. A listener without damages ends where the one before does. With one damage to the first
 * of two listeners and two to the second:
 *
 *     const uint8_t settings[] = {2, 5};
 *     const size_t ends[] = {1, 3};
 *     const uint64_t numbers[] = {40, 7, 140};
 *     const uint8_t symbols[] = {3, 1, 0};
 *
 * All four lists are the caller's and are only read. It needs no more memory for more frames, but more time: 4,294,967,295
 * frames to eight listeners take more than an hour.
 * Refuses as duskveyra_step does for the start with 1; 17; 2; 14; 11; 15; then 26 for any listener's setting; 3 where ends
 * and settings, or numbers and symbols, differ in length, or ends falls, or its last entry (without one, 0) is not
 * numbers_length; 27; in this order. */
duskveyra_simulate_result duskveyra_simulate(duskveyra_format format, duskveyra_time start, uint32_t frames,
                                             uint16_t year_length, const uint8_t *settings, size_t settings_length,
                                             const size_t *ends, size_t ends_length, const uint64_t *numbers,
                                             size_t numbers_length, const uint8_t *symbols, size_t symbols_length)
    DUSKVEYRA_NONNULL;

/* Month and day from day of year, in the years 0 to 99 for 2000 to 2099, of which every fourth from 2000 has 366 days.
 * Refuses with 17 for a year over 99; 22 for a day that the year lacks; in this order. */
duskveyra_date_result duskveyra_date_of_day(uint8_t year, uint16_t day);

/* Day of year from month and day. It undoes duskveyra_date_of_day, and duskveyra_date_of_day undoes it.
 * Refuses with 17 for a year over 99; 22 for a month or day that the year lacks; in this order. */
duskveyra_day_result duskveyra_day_of_date(duskveyra_date date);

/* Makes an empty calendar: sets all words of *calendar to 0, whatever they were. It refuses nothing. */
duskveyra_write_result duskveyra_calendar_empty(duskveyra_calendar *calendar) DUSKVEYRA_NONNULL;

/* Adds a test window, behind those that were added before, up to 32. The start belongs to the window, the end does not.
 * Moments are ordered by year, day of year, then hundredth; windows may overlap.
 * Refuses with 17 where either year is over 99; 2 where either hundredths are over 8,640,099; 22 where either date is
 * one that its year lacks; 21 for a 33rd window, or where the end is not after the start; in this order, and then leaves
 * *calendar as it was. */
duskveyra_write_result duskveyra_calendar_add(duskveyra_calendar *calendar, duskveyra_date_time start,
                                              duskveyra_date_time end) DUSKVEYRA_NONNULL;

/* Which windows hold a time, and the next start or end after it: a moment alone, which says not of which window. Of a
 * calendar that duskveyra_calendar_empty and duskveyra_calendar_add did not make, what it answers is not promised.
 * Refuses with 17 for a year over 99; 2 for hundredths over 8,640,099; 22 for a day that the year lacks; in this order. */
duskveyra_ask_result duskveyra_calendar_ask(const duskveyra_calendar *calendar, duskveyra_time time) DUSKVEYRA_NONNULL;

#ifdef __cplusplus
}
#endif

#endif
