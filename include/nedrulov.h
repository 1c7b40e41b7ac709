/*
 * The bank recorder's library: postings to a gas-bank ledger under Rider EFBS, the panel figure, the archive, the
 * back-cast from the weather, and who can take a supplier's gas.
 *
 * Memory. The caller owns everything: ledgers, entries, lists, archives and outputs. The library allocates nothing,
 * keeps no pointer and no state between calls, and writes only to what it is lent as a pointer to non-const.
 * Two buffers given to one call must not overlap. A pointer with length 0 may be null.
 *
 * Answers. Every call answers every input: any bytes of any length, and any ledger whose bool members hold 0 or 1
 * (a C program that only assigns to them, or copies whole ledgers, never makes another value). What each answer is
 * is proved for every input; see docs/ARCHITECTURE.md.
 *
 * Old and new. A ledger or an archive is old or new, and stays so. In a new one a supplier forfeits no more than the
 * storage provider confiscated, as entries of kind 10, CONFISCATED, tell; entries of kind 11, HOLIDAY, name days on which
 * no meter is read; and gas goes from one supplier to another by two letters, entries of kind 12, NOTICE, one from each of
 * them: from 1 April 2027 on by these alone, and no more by TRANSFER. In an old one it forfeits all excess, and there are
 * kinds 1 to 9 only. nedrulov_fresh, nedrulov_entry_number and nedrulov_write must be told which is meant, by is_new;
 * every other call sees it in what it is given: in the ledger's is_new, or in the archive's fourth byte, '1' or '2'.
 *
 * Size. All of the library takes 34 KB of read-only memory, built for x86-64-v2. Its functions stand in sections of their own: linked with
 * -Wl,--gc-sections, a program carries those that it calls and what they need, 25 KB for nedrulov_post and nedrulov_panel.
 *
 * Measures. Gas that moves is in units, of which a Dth has a hundred; capacities (MDQ, MDDQ, BCQ) are in Dth, consumption
 * is in Mcf, and money in mills, of which a dollar has a thousand.
 */
#ifndef NEDRULOV_H
#define NEDRULOV_H

#include <stdbool.h>
#include <stddef.h>
#include <stdint.h>

#ifdef __cplusplus
extern "C" {
#endif

#define NEDRULOV_ACCOUNTS 16
#define NEDRULOV_HOLIDAYS 16
#define NEDRULOV_MONTHS 12
#define NEDRULOV_CELLS 192
#define NEDRULOV_ENTRY_BYTES 32

/*
 * The number of an answer. The first that applies, in ascending order, is given; of a HOLIDAY 33 to 35 come after 22, and of
 * a TRANSFER 36 does.
 */
enum {
    NEDRULOV_ACCEPTED = 0,
    /* of an entry or a list by itself */
    NEDRULOV_WRONG_LENGTH = 1,      /* an entry has 32 bytes, a list a multiple of 32 */
    NEDRULOV_NO_KIND = 2,           /* kinds are 1 to 9, in a new ledger or archive 1 to 12 */
    NEDRULOV_NO_DATE = 3,           /* the calendar of 2000 to 2099 has no such day */
    NEDRULOV_NO_ACCOUNT = 4,        /* a used account is above 15, or the seller of a partner list */
    NEDRULOV_UNUSED_SET = 5,        /* something is set that the kind does not use */
    NEDRULOV_WORD_RANGE = 6,        /* a word is too small or too large, or the quantity of a partner list */
    NEDRULOV_WRONG_TRANSFER = 7,    /* TRANSFER of A to A, or w1 and w2 differ; NOTICE of A to A */
    /* of an archive */
    NEDRULOV_WRONG_HEADER = 8,      /* wrong size, opening or zeros, over 1,200 sections, or the directory is cut off */
    NEDRULOV_WRONG_DIRECTORY = 9,   /* directory and file do not fit each other */
    NEDRULOV_WRONG_SECTION = 10,    /* CLOSE MONTH inside a section, or none at its end (the last one needs none) */
    NEDRULOV_TOO_LARGE = 11,        /* writer: more than 1,200 sections or 2^32 - 1 bytes */
    NEDRULOV_TOO_SHORT = 12,        /* the output is too small, and stays as it was */
    NEDRULOV_NO_SECTION = 13,       /* a sound archive without such a section */
    /* of the ledger */
    NEDRULOV_LEDGER_RANGE = 20,     /* the ledger handed in holds a number out of range */
    NEDRULOV_NOT_BEGUN = 21,        /* nothing but TERMS can begin a ledger */
    NEDRULOV_WRONG_DATE = 22,       /* the ledger stands at another day */
    NEDRULOV_WRONG_DAY = 23,        /* this kind is not for this day */
    NEDRULOV_WRONG_ACCOUNT = 24,    /* already open for ENROL, or not open for another kind or as the seller of a partner list */
    NEDRULOV_STAYS_ON_FBS = 25,     /* the supplier is not served under EFBS */
    NEDRULOV_SECOND_TIME = 26,      /* DELIVER or CONFISCATED was posted today, MEASURE or USAGE this month; or the writer's NOTICE stands */
    NEDRULOV_INCOMPLETE = 27,       /* closing: DELIVER, MEASURE or USAGE is missing somewhere */
    NEDRULOV_PAST_LIMIT = 28,       /* too large an opening, or a bank moved past the month's band */
    NEDRULOV_WOULD_OVERFLOW = 29,   /* a number of the ledger would go out of range */
    /* of a back-cast */
    NEDRULOV_NOT_FINITE = 31,       /* one of the four doubles is infinite or not a number */
    NEDRULOV_LOAD_RANGE = 32,       /* the load is no number from 0 to 1,000,000,000 */
    /* of a HOLIDAY */
    NEDRULOV_HOLIDAY_DATE = 33,     /* the date that it names is none of 2000 to 2099, or not after the ledger's */
    NEDRULOV_HOLIDAY_HELD = 34,     /* sixteen are held already, or this one is */
    NEDRULOV_NO_BUSINESS_DAY = 35,  /* none would be left in its month from the 25th on */
    /* of a TRANSFER */
    NEDRULOV_RETIRED = 36           /* a new ledger takes none dated 1 April 2027 or later: two NOTICE are due */
};

/* Bits of a violation mask. */
enum {
    NEDRULOV_V1 = 1, NEDRULOV_V2 = 2, NEDRULOV_V3 = 4, NEDRULOV_V4 = 8,
    NEDRULOV_V5 = 16, NEDRULOV_V6 = 32, NEDRULOV_V7 = 64, NEDRULOV_V8 = 128
};

/* ---- the ledger */

typedef struct {
    uint64_t year;
    uint64_t month;                 /* 1 to 12 */
    uint64_t day;
} nedrulov_date;

typedef struct {
    uint64_t no_notice;             /* NN, Dth */
    uint64_t design_day;            /* DD, Dth */
    uint64_t storage;               /* S, Dth */
    uint64_t retainage;             /* R, ten-thousandths */
    uint64_t demand_rate;           /* mills per Dth */
    uint64_t commodity_rate;        /* mills per Mcf */
} nedrulov_terms;

typedef struct {
    uint64_t k;                     /* the step in force */
    uint64_t pending;               /* becomes k at the month's end */
    uint64_t over;                  /* how often running measured above the step */
    uint64_t under;                 /* and below it */
} nedrulov_step;

typedef struct {
    uint64_t mddq;                  /* Dth */
    uint64_t bcq;                   /* Dth */
} nedrulov_capacity;

/* what an account moved and used since the month began */
typedef struct {
    int64_t net;                    /* units, deliveries alone */
    uint64_t sales;                 /* units that the company sold to the account */
    uint64_t purchases;             /* units that it bought */
    uint64_t cash_ins;              /* units */
    uint64_t cash_outs;             /* units */
    uint64_t usage;                 /* Mcf */
} nedrulov_totals;

/* a supplier's letter for a transfer, or none: of none the other members mean nothing, and a fresh account's are zeros */
typedef struct {
    bool stands;                    /* NOTICE accepted, and its counterpart has not come */
    bool takes;                     /* the writer takes the gas; else it gives it */
    size_t other;                   /* the account that the letter names */
    uint64_t units;                 /* 1 to 1,000,000,000 */
} nedrulov_notice;

/* the day so far: every closing clears it */
typedef struct {
    bool delivered;                 /* DELIVER accepted */
    bool v1;                        /* what that delivery broke */
    bool v2;
    bool confiscated;               /* CONFISCATED accepted, be it of 0 */
    uint64_t confiscation;          /* units that it told of */
    nedrulov_notice notice;
} nedrulov_today;

/* the month so far: CLOSE MONTH clears it */
typedef struct {
    nedrulov_totals totals;
    bool measured;                  /* MEASURE accepted */
    bool metered;                   /* USAGE accepted */
} nedrulov_this_month;

typedef struct {
    bool opened;
    bool excused;                   /* a fall of the step excuses a bank above its limit */
    nedrulov_today today;
    int64_t bank;                   /* units */
    uint64_t mdq;                   /* Dth */
    nedrulov_step step;
    nedrulov_capacity capacity;
    nedrulov_this_month month;
    uint64_t carry;                 /* units */
    int64_t owed;                   /* mills */
    uint64_t violation_days;
} nedrulov_account;

/* the days that were named as holidays, in the order of posting; CLOSE MONTH drops those that have passed */
typedef struct {
    uint64_t count;                 /* how many are held, 0 to 16; what stands past them is not looked at */
    nedrulov_date dates[NEDRULOV_HOLIDAYS];
} nedrulov_holidays;

typedef struct {
    bool begun;
    bool touched;                   /* something was accepted today */
    bool is_new;                    /* a forfeit is at most what was confiscated, and kinds 10 to 12 exist */
    nedrulov_date date;
    nedrulov_terms terms;
    nedrulov_holidays holidays;
    nedrulov_account accounts[NEDRULOV_ACCOUNTS];
} nedrulov_ledger;

/* what a closing reports of an account; all 0 from any other posting */
typedef struct {
    uint64_t mask;                  /* NEDRULOV_V1 to NEDRULOV_V8 */
    int64_t cash;                   /* units, in positive, out negative */
    uint64_t forfeit;               /* units; in a new ledger the smaller of the excess and what was confiscated */
    int64_t bill;                   /* mills */
} nedrulov_report;

typedef struct {
    uint64_t number;
    nedrulov_report reports[NEDRULOV_ACCOUNTS];
} nedrulov_answer;

typedef struct {
    nedrulov_answer answer;
    nedrulov_ledger ledger;
} nedrulov_posted;

typedef struct {
    uint64_t number;                /* 0, or 20 on a ledger out of range */
    int64_t figure;                 /* total gas in bank, units */
} nedrulov_panel_answer;

/* A ledger with no terms, no date and no open account, old or new. */
nedrulov_ledger nedrulov_fresh(bool is_new);

/* What is wrong with an entry by itself, for old or new ledgers: 0, or 1 to 7. */
uint64_t nedrulov_entry_number(bool is_new, const uint8_t *entry, size_t length);

/* Posts an entry to the ledger in the caller's storage. Refused: the number, zeros, and the ledger as it was. */
nedrulov_answer nedrulov_post(nedrulov_ledger *ledger, const uint8_t *entry, size_t length);

/* The same by value. */
nedrulov_posted nedrulov_post_by_value(nedrulov_ledger ledger, const uint8_t *entry, size_t length);

/* Total gas in bank. */
nedrulov_panel_answer nedrulov_panel(nedrulov_ledger ledger);

/*
 * The day of a month on which MEASURE is posted, by the holidays that the ledger holds: the first Monday to Friday from the
 * 25th on that is none of them. 0 on a ledger out of range, or where there is no such month in 2000 to 2099; never else.
 */
uint64_t nedrulov_measurement_day(nedrulov_ledger ledger, uint64_t year, uint64_t month);

/* ---- the archive */

typedef struct {
    uint64_t number;
    size_t index;                   /* of the entry that the number is about, over the whole list or file; else 0 */
} nedrulov_checked;

typedef struct {
    uint64_t number;
    size_t index;
    size_t start;                   /* where the section begins in the archive */
    size_t length;                  /* its bytes; 0 with any refusal */
} nedrulov_section_place;

typedef struct {
    uint64_t number;
    size_t index;
    size_t length;                  /* of the archive; 0 with any refusal */
} nedrulov_written;

typedef struct {
    uint64_t number;                /* of the archive; with a refusal the rest but the index is 0 */
    size_t index;
    uint64_t accepted;              /* postings */
    uint64_t refused;               /* postings */
    int64_t figure;                 /* total gas in bank after the last, units */
} nedrulov_replay_figures;

/* Whether the first four bytes are those of a new archive, whatever follows them. */
bool nedrulov_is_new(const uint8_t *archive, size_t length);

/* What is wrong with an archive: 0, or 8, 9, or 2 to 7 and 10 with an entry's index. */
nedrulov_checked nedrulov_check(const uint8_t *archive, size_t length);

/* Where a section lies, counted from 0; 13 if there is no such section, after the archive's own refusals. */
nedrulov_section_place nedrulov_place(const uint8_t *archive, size_t length, size_t section);

/* Writes the old or new archive of a list to the start of the output. Refused: the output stays; bytes past the archive stay. */
nedrulov_written nedrulov_write(bool is_new, const uint8_t *list, size_t list_length, uint8_t *out, size_t out_length);

/* Posts an archive's entries in order to a fresh ledger, new if the archive is. */
nedrulov_replay_figures nedrulov_figures(const uint8_t *archive, size_t length);

/*
 * The banks just after each accepted CLOSE MONTH from April of a year to March of the next: cell 12 * account + month,
 * April being month 0; 0 where there was none or the archive is refused. 12, and the cells stay, if there are fewer than 192.
 */
uint64_t nedrulov_year_sheet(const uint8_t *archive, size_t length, uint64_t year, int64_t *cells, size_t count);

/* ---- the back-cast from the weather */

/* What a supplier's customers take at a temperature; temperatures are on any one scale. */
typedef struct {
    double base;                    /* load at the turning temperature and above it, units */
    double slope;                   /* units more for each degree below it */
    double turning;                 /* the turning temperature */
} nedrulov_load_curve;

typedef struct {
    uint64_t number;                /* 0, 31 or 32 */
    uint64_t quantity;              /* the back-cast, units, as the word w2 of a DELIVER takes it; 0 with a refusal */
} nedrulov_back_cast_answer;

/*
 * The load, rounded down to whole units. Below the turning temperature it is base + slope * (turning - temperature),
 * where difference, product and sum are each rounded to double by themselves; from it on it is base. Any four bit patterns
 * may be handed in. 31 if one is infinite or not a number; then 32 if the load is below 0, above 1,000,000,000 or, by an
 * overflow on the way, no number.
 * The processor must round to nearest and keep subnormal numbers, as every C program starts out; fesetround, or a program
 * linked with -ffast-math, changes that. A 31 raises no invalid exception, but where a signalling not-a-number is handed in.
 */
nedrulov_back_cast_answer nedrulov_back_cast(nedrulov_load_curve curve, double temperature);

/* ---- who can take gas */

typedef struct {
    uint64_t number;                /* 0, 4, 6, 20, 21 or 24; with a refusal the rest is 0 */
    uint64_t count;                 /* how many partners there are, 0 to 15 */
    uint64_t accounts[NEDRULOV_ACCOUNTS];   /* their account numbers, the most headroom first; 0 past the count */
} nedrulov_partner_list;

/*
 * Every open account but the seller that could take the quantity, in units, on the ledger's day: its bank does not end above
 * the month's maximum. None is listed if the seller's bank would end below the month's minimum. The account with most
 * headroom comes first, which is maximum * BCQ - bank before the gas moves; of equal ones the lower number. So an account is
 * listed exactly when, posted now, a NOTICE of that day and quantity from the seller to it and then one from it are answered
 * with 0, if the ledger is new and neither has a NOTICE that stands; and, on days that have TRANSFERs, exactly when one from it is.
 * 4 if the seller is above 15, 6 if the quantity is not 1 to 1,000,000,000, then 20, 21, and 24 if the seller is not open.
 */
nedrulov_partner_list nedrulov_partners(nedrulov_ledger ledger, uint64_t seller, uint64_t quantity);

/* ---- for programs that show where a figure comes from */

typedef struct {
    uint64_t minimum;               /* units */
    uint64_t maximum;               /* units */
} nedrulov_band_limits;

/*
 * What a DELIVER adds to its bank, in units, under the retainage of the terms in force, in ten-thousandths; delivered and
 * back-cast in units. 0 where the retainage is above 9,999 or one of the others above 1,000,000,000.
 */
int64_t nedrulov_amount(uint64_t retainage, uint64_t delivered, uint64_t back_cast);

/* The least and the largest bank of a month, 1 to 12, for a BCQ in Dth. 0 and 0 for another month, or a BCQ above 30,000,000. */
nedrulov_band_limits nedrulov_band(uint64_t month, uint64_t bcq);

/* ---- the layout that the library was built with */

#if defined(__STDC_VERSION__) && __STDC_VERSION__ >= 201112L
#define NEDRULOV_ASSERT(what, condition) _Static_assert(condition, #what)
#else
#define NEDRULOV_ASSERT(what, condition) typedef char nedrulov_assert_##what[(condition) ? 1 : -1]
#endif

NEDRULOV_ASSERT(size_of_size, sizeof(size_t) == 8);
NEDRULOV_ASSERT(size_of_bool, sizeof(bool) == 1);
NEDRULOV_ASSERT(size_of_notice, sizeof(nedrulov_notice) == 24);
NEDRULOV_ASSERT(takes_offset, offsetof(nedrulov_notice, takes) == 1);
NEDRULOV_ASSERT(other_offset, offsetof(nedrulov_notice, other) == 8);
NEDRULOV_ASSERT(units_offset, offsetof(nedrulov_notice, units) == 16);
NEDRULOV_ASSERT(size_of_today, sizeof(nedrulov_today) == 40);
NEDRULOV_ASSERT(confiscated_offset, offsetof(nedrulov_today, confiscated) == 3);
NEDRULOV_ASSERT(confiscation_offset, offsetof(nedrulov_today, confiscation) == 8);
NEDRULOV_ASSERT(notice_offset, offsetof(nedrulov_today, notice) == 16);
NEDRULOV_ASSERT(size_of_this_month, sizeof(nedrulov_this_month) == 56);
NEDRULOV_ASSERT(measured_offset, offsetof(nedrulov_this_month, measured) == 48);
NEDRULOV_ASSERT(size_of_account, sizeof(nedrulov_account) == 192);
NEDRULOV_ASSERT(excused_offset, offsetof(nedrulov_account, excused) == 1);
NEDRULOV_ASSERT(today_offset, offsetof(nedrulov_account, today) == 8);
NEDRULOV_ASSERT(bank_offset, offsetof(nedrulov_account, bank) == 48);
NEDRULOV_ASSERT(mdq_offset, offsetof(nedrulov_account, mdq) == 56);
NEDRULOV_ASSERT(step_offset, offsetof(nedrulov_account, step) == 64);
NEDRULOV_ASSERT(capacity_offset, offsetof(nedrulov_account, capacity) == 96);
NEDRULOV_ASSERT(month_offset, offsetof(nedrulov_account, month) == 112);
NEDRULOV_ASSERT(carry_offset, offsetof(nedrulov_account, carry) == 168);
NEDRULOV_ASSERT(owed_offset, offsetof(nedrulov_account, owed) == 176);
NEDRULOV_ASSERT(violation_days_offset, offsetof(nedrulov_account, violation_days) == 184);
NEDRULOV_ASSERT(size_of_holidays, sizeof(nedrulov_holidays) == 392);
NEDRULOV_ASSERT(holiday_dates_offset, offsetof(nedrulov_holidays, dates) == 8);
NEDRULOV_ASSERT(size_of_ledger, sizeof(nedrulov_ledger) == 3544);
NEDRULOV_ASSERT(is_new_offset, offsetof(nedrulov_ledger, is_new) == 2);
NEDRULOV_ASSERT(date_offset, offsetof(nedrulov_ledger, date) == 8);
NEDRULOV_ASSERT(terms_offset, offsetof(nedrulov_ledger, terms) == 32);
NEDRULOV_ASSERT(holidays_offset, offsetof(nedrulov_ledger, holidays) == 80);
NEDRULOV_ASSERT(accounts_offset, offsetof(nedrulov_ledger, accounts) == 472);
NEDRULOV_ASSERT(size_of_answer, sizeof(nedrulov_answer) == 520);
NEDRULOV_ASSERT(size_of_posted, sizeof(nedrulov_posted) == 4064);
NEDRULOV_ASSERT(size_of_double, sizeof(double) == 8);
NEDRULOV_ASSERT(size_of_load_curve, sizeof(nedrulov_load_curve) == 24);
NEDRULOV_ASSERT(turning_offset, offsetof(nedrulov_load_curve, turning) == 16);
NEDRULOV_ASSERT(size_of_back_cast_answer, sizeof(nedrulov_back_cast_answer) == 16);
NEDRULOV_ASSERT(size_of_partner_list, sizeof(nedrulov_partner_list) == 144);
NEDRULOV_ASSERT(partners_offset, offsetof(nedrulov_partner_list, accounts) == 16);

#ifdef __cplusplus
}
#endif

#endif
