/*
 * Holds the library's calendar against the C library's own: which dates exist, which day follows another, and on which
 * day of a month MEASURE is due, with no holiday and with each month's first candidate named as one. Nothing here knows how
 * long a month is; every expectation is read off gmtime_r.
 */
#define _DEFAULT_SOURCE             /* timegm, gmtime_r and setenv lie outside C99 */

#include "nedrulov.h"

#include <inttypes.h>
#include <stdarg.h>
#include <stdio.h>
#include <stdlib.h>
#include <string.h>
#include <time.h>

enum { TERMS = 1, MEASURE = 6, CLOSE_DAY = 8, CLOSE_MONTH = 9, HOLIDAY = 11 };

enum { KIND_BYTE = 0, YEAR_BYTE = 4, MONTH_BYTE = 6, DAY_BYTE = 7, WORDS_BYTE = 8, WORD_BYTES = 4 };

enum { FIRST_YEAR = 2000, LAST_YEAR = 2099 };           /* the years that the rules allow */
enum { FIRST_TRIED_YEAR = 1900, LAST_TRIED_YEAR = 2200 };
enum { BYTE_VALUES = UINT8_MAX + 1 };
enum { JANUARY = 1, APRIL = 4, MONTHS_OF_YEAR = 12 };
enum { SUNDAY = 0, SATURDAY = 6, READING_DAY = 25 };

#define SECONDS_OF_DAY ((time_t)86400)
#define C_YEAR_ZERO 1900                                /* struct tm counts its years from here */

/* years far off, where a year cut to fewer bits or taken as signed would show */
static const int far_years[] = {0, 1, INT16_MAX, INT16_MAX + 1, UINT16_MAX};

enum { FAR_YEARS = sizeof far_years / sizeof far_years[0] };

/* what was seen, each counted after it was compared, for old or for new */
typedef struct {
    uint64_t dates_tried;
    uint64_t dates_accepted;
    uint64_t closings_accepted;
    uint64_t months_closed;
    uint64_t closings_refused;
    uint64_t measures_tried;
    uint64_t measurement_days;
    uint64_t holidays_named;
} counts;

/* what a run stands on, handed down together */
typedef struct {
    nedrulov_ledger ledger;
    time_t today;                   /* where the C library says that the ledger stands */
    bool has_holidays;              /* each month names the day on which it would be measured */
    counts *seen;
} run;

static void fail(const char *format, ...)
{
    va_list arguments;
    va_start(arguments, format);
    fputs("calendar: ", stderr);
    vfprintf(stderr, format, arguments);
    fputc('\n', stderr);
    va_end(arguments);
    exit(EXIT_FAILURE);
}

static const char *age(bool is_new)
{
    return is_new ? "new" : "old";
}

static const char *kind_name(uint8_t kind)
{
    switch (kind) {
    case TERMS: return "TERMS";
    case MEASURE: return "MEASURE";
    case CLOSE_DAY: return "CLOSE DAY";
    case CLOSE_MONTH: return "CLOSE MONTH";
    case HOLIDAY: return "HOLIDAY";
    default: return "another kind";
    }
}

/* wide enough for three numbers of 64 bits, as a wrong ledger may hold any */
typedef struct {
    char text[64];
} date_text;

static date_text text_of(nedrulov_date date)
{
    date_text made;
    snprintf(made.text, sizeof made.text, "%04" PRIu64 "-%02" PRIu64 "-%02" PRIu64, date.year, date.month, date.day);
    return made;
}

/* ---- the yardstick */

static struct tm c_calendar(time_t day)
{
    struct tm parts;
    if (gmtime_r(&day, &parts) == NULL) {
        fail("the C library has no date for second %" PRIdMAX, (intmax_t)day);
    }
    return parts;
}

static nedrulov_date date_of(time_t day)
{
    struct tm parts = c_calendar(day);
    nedrulov_date date;
    date.year = (uint64_t)(parts.tm_year + C_YEAR_ZERO);
    date.month = (uint64_t)(parts.tm_mon + 1);
    date.day = (uint64_t)parts.tm_mday;
    return date;
}

static bool same_date(nedrulov_date a, nedrulov_date b)
{
    return a.year == b.year && a.month == b.month && a.day == b.day;
}

static time_t first_of(int year, int month)
{
    struct tm parts;
    time_t day;
    memset(&parts, 0, sizeof parts);
    parts.tm_year = year - C_YEAR_ZERO;
    parts.tm_mon = month - 1;
    parts.tm_mday = 1;
    day = timegm(&parts);
    if (day % SECONDS_OF_DAY != 0) {                    /* its refusal, -1, is no midnight */
        fail("the C library cannot count the days to year %d month %d", year, month);
    }
    return day;
}

static time_t next_day(time_t day)
{
    return day + SECONDS_OF_DAY;
}

static uint64_t days_between(time_t from, time_t to)
{
    return (uint64_t)((to - from) / SECONDS_OF_DAY);
}

static time_t beginning(void)
{
    return first_of(FIRST_YEAR, APRIL);
}

static time_t last_day(void)
{
    return first_of(LAST_YEAR + 1, JANUARY) - SECONDS_OF_DAY;
}

static bool ends_month(time_t day)
{
    return c_calendar(next_day(day)).tm_mday == 1;
}

static bool is_monday_to_friday(time_t day)
{
    int weekday = c_calendar(day).tm_wday;
    return weekday != SATURDAY && weekday != SUNDAY;
}

static time_t business_day_from(time_t day)
{
    while (!is_monday_to_friday(day)) {
        day = next_day(day);
    }
    return day;
}

/* of the month of a day, with no holiday */
static time_t plain_day(time_t day)
{
    return business_day_from(day + (READING_DAY - c_calendar(day).tm_mday) * SECONDS_OF_DAY);
}

/* the plain day, or the business day after it where that is a holiday */
static time_t measurement_day(time_t day, bool is_named)
{
    time_t plain = plain_day(day);
    return is_named ? business_day_from(next_day(plain)) : plain;
}

/* months that the ledger's whole time touches, its first and its last included */
static uint64_t months_of_run(void)
{
    nedrulov_date from = date_of(beginning());
    nedrulov_date to = date_of(last_day());
    return (to.year - from.year) * MONTHS_OF_YEAR + to.month - from.month + 1;
}

/* ---- entries */

static void set_date(uint8_t *entry, uint64_t year, uint64_t month, uint64_t day)
{
    entry[YEAR_BYTE] = (uint8_t)(year % BYTE_VALUES);
    entry[YEAR_BYTE + 1] = (uint8_t)(year / BYTE_VALUES);
    entry[MONTH_BYTE] = (uint8_t)month;
    entry[DAY_BYTE] = (uint8_t)day;
}

static nedrulov_date date_in(const uint8_t *entry)
{
    nedrulov_date date;
    date.year = entry[YEAR_BYTE] + (uint64_t)entry[YEAR_BYTE + 1] * BYTE_VALUES;
    date.month = entry[MONTH_BYTE];
    date.day = entry[DAY_BYTE];
    return date;
}

static void make_entry(uint8_t *entry, uint8_t kind, nedrulov_date date)
{
    memset(entry, 0, NEDRULOV_ENTRY_BYTES);
    entry[KIND_BYTE] = kind;
    set_date(entry, date.year, date.month, date.day);
}

/* words are named w1 to w6 */
static void set_word(uint8_t *entry, int word, uint32_t value)
{
    uint8_t *bytes = entry + WORDS_BYTE + (word - 1) * WORD_BYTES;
    for (int i = 0; i < WORD_BYTES; i++) {
        bytes[i] = (uint8_t)(value % BYTE_VALUES);
        value /= BYTE_VALUES;
    }
}

/* ---- which dates exist */

/* Marks the days that the C library walks through in a year; all other pairs of month and day do not exist. */
static void mark_days(bool exists[BYTE_VALUES][BYTE_VALUES], int year)
{
    time_t end = first_of(year + 1, JANUARY);
    memset(exists, 0, sizeof(bool[BYTE_VALUES][BYTE_VALUES]));
    for (time_t day = first_of(year, JANUARY); day != end; day = next_day(day)) {
        nedrulov_date date = date_of(day);
        bool *mark = &exists[date.month][date.day];
        if (date.year != (uint64_t)year || *mark) {
            fail("the C library's year %d is not walked once from end to end", year);
        }
        *mark = true;
    }
}

static void check_date(bool is_new, const uint8_t *entry, bool exists, counts *seen)
{
    uint64_t expected = exists ? NEDRULOV_ACCEPTED : NEDRULOV_NO_DATE;
    uint64_t came = nedrulov_entry_number(is_new, entry, NEDRULOV_ENTRY_BYTES);
    if (came != expected) {
        date_text tried = text_of(date_in(entry));
        fail("%s entry dated %s: expected number %" PRIu64 ", came %" PRIu64, age(is_new), tried.text, expected, came);
    }
    seen->dates_tried++;
    seen->dates_accepted += came == NEDRULOV_ACCEPTED;
}

static void check_year(bool is_new, int year, counts *seen)
{
    static bool exists[BYTE_VALUES][BYTE_VALUES];
    bool is_allowed = year >= FIRST_YEAR && year <= LAST_YEAR;
    uint8_t entry[NEDRULOV_ENTRY_BYTES] = {0};
    entry[KIND_BYTE] = CLOSE_DAY;
    mark_days(exists, year);
    for (int month = 0; month < BYTE_VALUES; month++) {
        for (int day = 0; day < BYTE_VALUES; day++) {
            set_date(entry, (uint64_t)year, (uint64_t)month, (uint64_t)day);
            check_date(is_new, entry, is_allowed && exists[month][day], seen);
        }
    }
}

static void check_dates(bool is_new, counts *seen)
{
    for (int year = FIRST_TRIED_YEAR; year <= LAST_TRIED_YEAR; year++) {
        check_year(is_new, year, seen);
    }
    for (int i = 0; i < FAR_YEARS; i++) {
        check_year(is_new, far_years[i], seen);
    }
}

/* ---- the days of a ledger */

/* A posting must get its number, and leave the ledger at the day given. */
static void post(run *at, const uint8_t *entry, uint64_t expected, time_t day_after)
{
    date_text today = text_of(date_of(at->today));
    date_text wanted = text_of(date_of(day_after));
    uint64_t came = nedrulov_post(&at->ledger, entry, NEDRULOV_ENTRY_BYTES).number;
    date_text left = text_of(at->ledger.date);
    const char *kind = kind_name(entry[KIND_BYTE]);
    if (came != expected) {
        fail("%s ledger, %s on %s: expected number %" PRIu64 ", came %" PRIu64,
             age(at->ledger.is_new), kind, today.text, expected, came);
    }
    if (!same_date(at->ledger.date, date_of(day_after))) {
        fail("%s ledger, after %s on %s: expected the date %s, came %s",
             age(at->ledger.is_new), kind, today.text, wanted.text, left.text);
    }
}

static void begin(run *at, bool is_new, bool has_holidays, counts *seen)
{
    uint8_t entry[NEDRULOV_ENTRY_BYTES];
    at->ledger = nedrulov_fresh(is_new);
    at->today = beginning();
    at->has_holidays = has_holidays;
    at->seen = seen;
    make_entry(entry, TERMS, date_of(at->today));
    set_word(entry, 1, 120000);
    set_word(entry, 2, 480000);
    set_word(entry, 3, 5000400);
    set_word(entry, 4, 150);
    post(at, entry, NEDRULOV_ACCEPTED, at->today);
    if (at->ledger.is_new != is_new) {
        fail("expected a ledger that is %s, came one that is %s", age(is_new), age(at->ledger.is_new));
    }
}

/* Account 0 is not open, so off its day MEASURE is refused for the day and on it for the account. */
static void try_measure(run *at)
{
    uint8_t entry[NEDRULOV_ENTRY_BYTES];
    bool is_due = measurement_day(at->today, at->has_holidays) == at->today;
    make_entry(entry, MEASURE, date_of(at->today));
    post(at, entry, is_due ? NEDRULOV_WRONG_ACCOUNT : NEDRULOV_WRONG_DAY, at->today);
    at->seen->measures_tried++;
    at->seen->measurement_days += is_due;
}

static void expect_measuring(const run *at, time_t expected)
{
    nedrulov_date today = date_of(at->today);
    uint64_t came = nedrulov_measurement_day(at->ledger, today.year, today.month);
    if (came != date_of(expected).day) {
        fail("%s ledger on %s: expected the measurement day %" PRIu64 ", came %" PRIu64,
             age(at->ledger.is_new), text_of(today).text, date_of(expected).day, came);
    }
}

/* On a month's first day its plain measurement day is named, which is held until the month closes. */
static void name_holiday(run *at)
{
    uint8_t entry[NEDRULOV_ENTRY_BYTES];
    nedrulov_date named = date_of(plain_day(at->today));
    make_entry(entry, HOLIDAY, date_of(at->today));
    set_word(entry, 1, (uint32_t)named.year);
    set_word(entry, 2, (uint32_t)named.month);
    set_word(entry, 3, (uint32_t)named.day);
    if (at->ledger.holidays.count != 0) {
        fail("a holiday of the month before is still held on %s", text_of(date_of(at->today)).text);
    }
    expect_measuring(at, plain_day(at->today));
    post(at, entry, NEDRULOV_ACCEPTED, at->today);
    expect_measuring(at, measurement_day(at->today, true));
    at->seen->holidays_named++;
}

static void refuse_closing(run *at, uint8_t kind)
{
    uint8_t entry[NEDRULOV_ENTRY_BYTES];
    make_entry(entry, kind, date_of(at->today));
    post(at, entry, NEDRULOV_WRONG_DAY, at->today);
    at->seen->closings_refused++;
}

static void accept_closing(run *at, uint8_t kind)
{
    uint8_t entry[NEDRULOV_ENTRY_BYTES];
    make_entry(entry, kind, date_of(at->today));
    post(at, entry, NEDRULOV_ACCEPTED, next_day(at->today));
    at->today = next_day(at->today);
    at->seen->closings_accepted++;
    at->seen->months_closed += kind == CLOSE_MONTH;
}

static void check_ledger(bool is_new, bool has_holidays, counts *seen)
{
    run at;
    begin(&at, is_new, has_holidays, seen);
    while (at.today != last_day()) {
        bool is_month_end = ends_month(at.today);
        if (has_holidays && c_calendar(at.today).tm_mday == 1) {
            name_holiday(&at);
        }
        try_measure(&at);
        refuse_closing(&at, is_month_end ? CLOSE_DAY : CLOSE_MONTH);
        accept_closing(&at, is_month_end ? CLOSE_MONTH : CLOSE_DAY);
    }
    try_measure(&at);
    refuse_closing(&at, CLOSE_DAY);
    refuse_closing(&at, CLOSE_MONTH);
}

/* ---- whether all of it was done */

static void expect_count(bool is_new, const char *what, uint64_t expected, uint64_t came)
{
    if (expected == 0 || came != expected) {
        fail("%s, %s: expected a count of %" PRIu64 ", came %" PRIu64, age(is_new), what, expected, came);
    }
}

/* The C library's count of days and months, so that a loop that ends early is no success. */
static void check_counts(bool is_new, const counts *seen)
{
    uint64_t closings = days_between(beginning(), last_day());
    expect_count(is_new, "closings accepted", closings, seen->closings_accepted);
    expect_count(is_new, "months closed", months_of_run() - 1, seen->months_closed);
    expect_count(is_new, "closings refused", closings + 2, seen->closings_refused);
    expect_count(is_new, "MEASURE tried", closings + 1, seen->measures_tried);
    expect_count(is_new, "measurement days", months_of_run(), seen->measurement_days);
}

static void check_date_counts(bool is_new, const counts *seen)
{
    uint64_t years = LAST_TRIED_YEAR - FIRST_TRIED_YEAR + 1 + FAR_YEARS;
    uint64_t dates = days_between(first_of(FIRST_YEAR, JANUARY), first_of(LAST_YEAR + 1, JANUARY));
    expect_count(is_new, "dates tried", years * BYTE_VALUES * BYTE_VALUES, seen->dates_tried);
    expect_count(is_new, "dates accepted", dates, seen->dates_accepted);
}

static counts check_all(bool is_new)
{
    counts seen = {0, 0, 0, 0, 0, 0, 0, 0};
    check_dates(is_new, &seen);
    check_date_counts(is_new, &seen);
    check_ledger(is_new, false, &seen);
    check_counts(is_new, &seen);
    return seen;
}

static counts check_holidays(void)
{
    counts seen = {0, 0, 0, 0, 0, 0, 0, 0};
    check_ledger(true, true, &seen);
    check_counts(true, &seen);
    expect_count(true, "holidays named", months_of_run(), seen.holidays_named);
    return seen;
}

int main(void)
{
    counts old_seen;
    counts new_seen;
    counts moved_seen;
    setenv("TZ", "UTC0", 1);                            /* a zone with leap seconds would shift even gmtime_r */
    tzset();
    old_seen = check_all(false);
    new_seen = check_all(true);
    moved_seen = check_holidays();
    printf("calendar: %" PRIu64 " dates, %" PRIu64 " closings, %" PRIu64 " measurement days, no difference\n",
           old_seen.dates_tried + new_seen.dates_tried,
           old_seen.closings_accepted + new_seen.closings_accepted + moved_seen.closings_accepted,
           old_seen.measurement_days + new_seen.measurement_days + moved_seen.measurement_days);
    return EXIT_SUCCESS;
}
