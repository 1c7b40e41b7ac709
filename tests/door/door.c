/* Posts the sample year through the lent ledger and by value, and compares every answer and every member of the ledger. */
#include "nedrulov.h"

#include <stdio.h>
#include <stdlib.h>
#include <string.h>

static int failures = 0;

static void expect(bool right, const char *what, size_t at)
{
    if (!right) {
        failures++;
        printf("door: %s at %zu\n", what, at);
    }
}

static bool same_notice(const nedrulov_notice *a, const nedrulov_notice *b)
{
    return a->stands == b->stands && a->takes == b->takes && a->other == b->other && a->units == b->units;
}

static bool same_today(const nedrulov_today *a, const nedrulov_today *b)
{
    return a->delivered == b->delivered && a->v1 == b->v1 && a->v2 == b->v2 && a->confiscated == b->confiscated
        && a->confiscation == b->confiscation && same_notice(&a->notice, &b->notice);
}

static bool same_account(const nedrulov_account *a, const nedrulov_account *b)
{
    /* step, capacity and the month's totals have no padding */
    return a->opened == b->opened && a->excused == b->excused && a->bank == b->bank && a->mdq == b->mdq
        && same_today(&a->today, &b->today)
        && memcmp(&a->step, &b->step, sizeof a->step) == 0
        && memcmp(&a->capacity, &b->capacity, sizeof a->capacity) == 0
        && memcmp(&a->month.totals, &b->month.totals, sizeof a->month.totals) == 0
        && a->month.measured == b->month.measured && a->month.metered == b->month.metered
        && a->carry == b->carry && a->owed == b->owed && a->violation_days == b->violation_days;
}

static bool same_ledger(const nedrulov_ledger *a, const nedrulov_ledger *b)
{
    if (a->begun != b->begun || a->touched != b->touched || a->is_new != b->is_new
        || memcmp(&a->date, &b->date, sizeof a->date) != 0 || memcmp(&a->terms, &b->terms, sizeof a->terms) != 0
        || memcmp(&a->holidays, &b->holidays, sizeof a->holidays) != 0)
        return false;
    for (int i = 0; i < NEDRULOV_ACCOUNTS; i++)
        if (!same_account(&a->accounts[i], &b->accounts[i]))
            return false;
    return true;
}

/* The ledger between two guards, so that a library with a larger ledger would be seen to write past it. */
typedef struct {
    uint8_t before[64];
    nedrulov_ledger ledger;
    uint8_t after[64];
} guarded;

static bool guards_stand(const guarded *g)
{
    for (int i = 0; i < 64; i++)
        if (g->before[i] != 0xA5 || g->after[i] != 0xA5)
            return false;
    return true;
}

static void post_both(guarded *lent, const uint8_t *entry, size_t length, size_t at)
{
    nedrulov_ledger before = lent->ledger;
    nedrulov_posted posted = nedrulov_post_by_value(before, entry, length);
    nedrulov_answer answer = nedrulov_post(&lent->ledger, entry, length);
    expect(memcmp(&answer, &posted.answer, sizeof answer) == 0, "the answers differ", at);
    expect(same_ledger(&lent->ledger, &posted.ledger), "the lent ledger differs", at);
    expect(answer.number == 0 || same_ledger(&lent->ledger, &before), "a refusal changed the ledger", at);
    expect(guards_stand(lent), "bytes around the ledger changed", at);
}

/* Each member has the name that the library gives it: a first day whose numbers are all told by hand. */
static nedrulov_ledger first_day(bool is_new)
{
    static const uint8_t terms[32] = {1, 0, 0, 0, 0xEA, 0x07, 4, 1, 0xC0, 0xD4, 1, 0, 0x00, 0x53, 7, 0, 0xD0, 0x4C, 0x4C, 0,
                                      150, 0, 0, 0, 0x06, 0x31, 0, 0, 32, 0, 0, 0};
    static const uint8_t enrol[32] = {2, 3, 0, 2, 0xEA, 0x07, 4, 1, 0x68, 0x10, 0, 0, 0xE8, 3, 0, 0};
    static const uint8_t sale[32] = {5, 3, 0, 0, 0xEA, 0x07, 4, 1, 70, 0, 0, 0};
    static const uint8_t purchase[32] = {5, 3, 0, 1, 0xEA, 0x07, 4, 1, 20, 0, 0, 0};
    static const uint8_t usage[32] = {7, 3, 0, 0, 0xEA, 0x07, 4, 1, 11, 0, 0, 0};
    static const uint8_t deliver[32] = {3, 3, 0, 0, 0xEA, 0x07, 4, 1, 0xE8, 3, 0, 0, 0xB8, 11, 0, 0};
    static const uint8_t close_day[32] = {8, 0, 0, 0, 0xEA, 0x07, 4, 1};
    nedrulov_ledger l = nedrulov_fresh(is_new);
    const nedrulov_account *a = &l.accounts[3];
    expect(nedrulov_post(&l, terms, 32).number == 0, "TERMS", 0);
    expect(l.begun && l.touched && l.date.year == 2026 && l.date.month == 4 && l.date.day == 1, "date", 0);
    expect(l.terms.no_notice == 120000 && l.terms.design_day == 480000 && l.terms.storage == 5000400, "terms", 0);
    expect(l.terms.retainage == 150 && l.terms.demand_rate == 12550 && l.terms.commodity_rate == 32, "rates", 0);
    expect(nedrulov_post(&l, enrol, 32).number == 0, "ENROL", 0);
    expect(a->opened && a->bank == 1000 && a->mdq == 4200 && a->step.k == 2 && a->step.pending == 2, "account", 0);
    expect(a->capacity.mddq == 1500 && a->capacity.bcq == 62505, "capacity", 0);
    expect(nedrulov_post(&l, sale, 32).number == 0 && nedrulov_post(&l, purchase, 32).number == 0, "TRADE", 0);
    expect(a->month.totals.sales == 70 && a->month.totals.purchases == 20 && a->bank == 1050, "trades", 0);
    expect(nedrulov_post(&l, usage, 32).number == 0 && a->month.totals.usage == 11 && a->month.metered, "USAGE", 0);
    /* 1,000 delivered less 3,000 back-cast, after retainage */
    expect(nedrulov_post(&l, deliver, 32).number == 0 && a->month.totals.net == -1970 && a->bank == -920, "DELIVER", 0);
    expect(a->today.delivered && !a->today.v1 && !a->today.v2, "marks", 0);
    nedrulov_answer closed = nedrulov_post(&l, close_day, 32);
    expect(closed.number == 0 && closed.reports[3].mask == NEDRULOV_V7 && closed.reports[3].cash == 920, "CLOSE DAY", 0);
    expect(a->bank == 0 && a->month.totals.cash_ins == 920 && a->violation_days == 1 && l.date.day == 2 && !l.touched, "closed", 0);
    expect(!a->today.delivered && a->month.metered && l.is_new == is_new, "marks after", 0);
    return l;
}

/* What closing January forfeits of 937,175 units of excess, after CONFISCATED was posted, or not if it is negative. */
static uint64_t forfeit_of_january(bool is_new, int64_t confiscated)
{
    static const uint8_t deliver[32] = {3, 3, 0, 0, 0xEB, 0x07, 1, 31};
    static const uint8_t close_month[32] = {9, 0, 0, 0, 0xEB, 0x07, 1, 31};
    uint8_t entry[32] = {10, 3, 0, 0, 0xEB, 0x07, 1, 31};
    uint64_t units = confiscated < 0 ? 0 : (uint64_t)confiscated;
    nedrulov_ledger l = first_day(is_new);
    nedrulov_account *a = &l.accounts[3];
    l.date = (nedrulov_date){2027, 1, 30};
    a->bank = 5000000;
    for (int i = 0; i < 4; i++)
        entry[8 + i] = (uint8_t)(units >> 8 * i);
    entry[7] = 30;
    expect(nedrulov_post(&l, entry, 32).number == (is_new ? NEDRULOV_WRONG_DAY : NEDRULOV_NO_KIND), "the day before", 0);
    entry[7] = 31;
    l.date.day = 31;
    expect(nedrulov_entry_number(is_new, entry, 32) == (is_new ? NEDRULOV_ACCEPTED : NEDRULOV_NO_KIND), "entry", 0);
    if (confiscated >= 0) {
        expect(nedrulov_post(&l, entry, 32).number == (is_new ? NEDRULOV_ACCEPTED : NEDRULOV_NO_KIND), "CONFISCATED", 0);
        expect(a->today.confiscated == is_new && a->today.confiscation == (is_new ? units : 0), "told", 0);
        expect(nedrulov_post(&l, entry, 32).number == (is_new ? NEDRULOV_SECOND_TIME : NEDRULOV_NO_KIND), "twice", 0);
        expect(a->bank == 5000000, "CONFISCATED moved gas", 0);
    }
    expect(nedrulov_post(&l, deliver, 32).number == 0, "DELIVER in January", 0);
    nedrulov_answer closed = nedrulov_post(&l, close_month, 32);
    uint64_t forfeit = closed.reports[3].forfeit;
    expect(closed.number == 0 && a->bank == 5000000 - (int64_t)forfeit, "CLOSE MONTH", 0);
    expect(!a->today.confiscated && a->today.confiscation == 0 && l.is_new == is_new, "cleared", 0);
    return forfeit;
}

/* 65 percent of 62,505 Dth is 4,062,825 units. */
static void forfeits(void)
{
    expect(forfeit_of_january(true, 1000000) == 937175, "more confiscated than the excess", 0);
    expect(forfeit_of_january(true, 937175) == 937175, "as much confiscated", 0);
    expect(forfeit_of_january(true, 937174) == 937174, "less confiscated", 0);
    expect(forfeit_of_january(true, 0) == 0, "nothing confiscated", 0);
    expect(forfeit_of_january(true, -1) == 0, "nothing told", 0);
    expect(forfeit_of_january(false, -1) == 937175, "an old ledger", 0);
    expect(forfeit_of_january(false, 1) == 937175, "an old ledger that was told", 0);
}

/* R102 and R105: 1 May 2026 is named on 2 April, and Monday 25 May, which moves May's measurement. */
static void holidays(void)
{
    uint8_t entry[32] = {11, 0, 0, 0, 0xEA, 0x07, 4, 2, 0xEA, 0x07, 0, 0, 5, 0, 0, 0, 1, 0, 0, 0};
    guarded lent;
    memset(&lent, 0xA5, sizeof lent);
    lent.ledger = first_day(true);
    nedrulov_ledger *l = &lent.ledger;
    expect(nedrulov_entry_number(true, entry, 32) == NEDRULOV_ACCEPTED, "HOLIDAY", 0);
    expect(nedrulov_entry_number(false, entry, 32) == NEDRULOV_NO_KIND, "HOLIDAY of old ones", 0);
    post_both(&lent, entry, 32, 0);
    expect(l->holidays.count == 1 && l->holidays.dates[0].year == 2026 && l->holidays.dates[0].month == 5, "held", 0);
    expect(l->holidays.dates[0].day == 1 && l->holidays.dates[1].year == 0 && l->touched, "held and zeros", 0);
    expect(nedrulov_measurement_day(*l, 2026, 5) == 25, "May's measurement", 0);
    entry[16] = 25;
    post_both(&lent, entry, 32, 1);
    expect(l->holidays.count == 2 && nedrulov_measurement_day(*l, 2026, 5) == 26, "May's measurement moved", 0);
    expect(nedrulov_post(l, entry, 32).number == NEDRULOV_HOLIDAY_HELD, "named twice", 0);
    entry[12] = 4;
    entry[16] = 2;
    expect(nedrulov_post(l, entry, 32).number == NEDRULOV_HOLIDAY_DATE, "today named", 0);
    for (uint8_t day = 27; day < 30; day++) {
        entry[16] = day;
        post_both(&lent, entry, 32, day);
    }
    entry[16] = 30;
    expect(nedrulov_post(l, entry, 32).number == NEDRULOV_NO_BUSINESS_DAY, "April's last business day named", 0);
    expect(nedrulov_measurement_day(*l, 2026, 4) == 30 && l->holidays.count == 5, "April's measurement", 0);
    expect(nedrulov_measurement_day(*l, 2026, 13) == 0 && nedrulov_measurement_day(*l, 2100, 1) == 0, "no such month", 0);
    l->holidays.count = 17;
    expect(nedrulov_post(l, entry, 32).number == NEDRULOV_LEDGER_RANGE, "seventeen counted", 0);
    expect(nedrulov_measurement_day(*l, 2026, 5) == 0, "measurement out of range", 0);
}

/* A letter of account 3 to account 5, and the answer to it; then TRANSFER on the first day without. */
static void notices(void)
{
    uint8_t gives[32] = {12, 3, 5, 0, 0xEA, 0x07, 4, 2, 44, 1, 0, 0};
    uint8_t takes[32] = {12, 5, 3, 1, 0xEA, 0x07, 4, 2, 44, 1, 0, 0};
    uint8_t transfer[32] = {4, 3, 5, 0, 0xEB, 0x07, 4, 1, 44, 1, 0, 0, 44, 1, 0, 0};
    const nedrulov_notice none = {false, false, 0, 0};
    const nedrulov_notice waiting = {true, false, 5, 300};
    guarded lent;
    memset(&lent, 0xA5, sizeof lent);
    lent.ledger = first_day(true);
    nedrulov_account *a = &lent.ledger.accounts[3], *b = &lent.ledger.accounts[5];
    expect(nedrulov_entry_number(true, gives, 32) == NEDRULOV_ACCEPTED, "NOTICE", 0);
    expect(nedrulov_entry_number(false, gives, 32) == NEDRULOV_NO_KIND, "NOTICE of old ones", 0);
    expect(nedrulov_post(&lent.ledger, gives, 32).number == NEDRULOV_WRONG_ACCOUNT, "a letter to one not open", 0);
    *b = *a;
    a->bank = 1000;
    b->bank = 7;
    post_both(&lent, gives, 32, 0);
    expect(same_notice(&a->today.notice, &waiting) && a->bank == 1000, "a letter that stands", 0);
    expect(nedrulov_post(&lent.ledger, gives, 32).number == NEDRULOV_SECOND_TIME, "a second letter of the same", 0);
    a->bank = 299;
    expect(nedrulov_post(&lent.ledger, takes, 32).number == NEDRULOV_PAST_LIMIT, "more than there is", 0);
    a->bank = 1000;
    post_both(&lent, takes, 32, 1);
    expect(a->bank == 700 && b->bank == 307, "gas moved by two letters", 0);
    expect(same_notice(&a->today.notice, &none) && same_notice(&b->today.notice, &none), "no letter left", 0);
    a->today.notice = waiting;
    a->today.notice.other = 16;
    expect(nedrulov_post(&lent.ledger, takes, 32).number == NEDRULOV_LEDGER_RANGE, "a letter to nobody", 0);
    a->today.notice.stands = false;
    lent.ledger.date.year = 2027;
    lent.ledger.date.day = 1;
    expect(nedrulov_post(&lent.ledger, transfer, 32).number == NEDRULOV_RETIRED, "TRANSFER retired", 0);
    lent.ledger.is_new = false;
    post_both(&lent, transfer, 32, 2);
    expect(a->bank == 400 && b->bank == 607 && a->today.notice.other == 16, "TRANSFER of an old ledger", 0);
}

/* A new archive differs from the old one of the same list in its fourth byte. */
static void new_archive(uint8_t *archive, size_t length, const uint8_t *list, size_t list_length)
{
    uint8_t *out = malloc(length);
    nedrulov_written w = nedrulov_write(true, list, list_length, out, length);
    expect(w.number == 0 && w.length == length && out[3] == '2' && archive[3] == '1', "write of a new one", 0);
    expect(memcmp(out, archive, 3) == 0 && memcmp(out + 4, archive + 4, length - 4) == 0, "bytes of a new one", 0);
    expect(nedrulov_is_new(out, length) && !nedrulov_is_new(archive, length), "old and new", 0);
    expect(nedrulov_is_new(out, 4) && !nedrulov_is_new(out, 3) && !nedrulov_is_new(NULL, 0), "old and new of short ones", 0);
    expect(nedrulov_check(out, length).number == 0, "check of a new one", 0);
    out[3] = '3';
    expect(nedrulov_check(out, length).number == NEDRULOV_WRONG_HEADER && !nedrulov_is_new(out, length), "a third sort", 0);
    free(out);
}

static void archive_calls(const uint8_t *archive, size_t length, const uint8_t *list, size_t list_length)
{
    nedrulov_checked c = nedrulov_check(archive, length);
    expect(c.number == 0 && c.index == 0, "check", 0);
    c = nedrulov_check(archive, length - 1);
    expect(c.number == NEDRULOV_WRONG_DIRECTORY && c.index == 0, "check of a shorter file", 0);
    nedrulov_section_place p = nedrulov_place(archive, length, 0);
    expect(p.number == 0 && p.start == (size_t)(list - archive), "place", 0);
    p = nedrulov_place(archive, length, 12);
    expect(p.number == NEDRULOV_NO_SECTION && p.start == 0 && p.length == 0, "place of no section", 0);
    uint8_t *out = malloc(length + 1);
    memset(out, 0xA5, length + 1);
    nedrulov_written w = nedrulov_write(false, list, list_length, out, length - 1);
    expect(w.number == NEDRULOV_TOO_SHORT && w.length == 0 && out[0] == 0xA5, "write to a short output", 0);
    w = nedrulov_write(false, list, list_length, out, length + 1);
    expect(w.number == 0 && w.length == length && memcmp(out, archive, length) == 0 && out[length] == 0xA5, "write", 0);
    free(out);
    nedrulov_replay_figures f = nedrulov_figures(archive, length);
    expect(f.number == 0 && f.accepted == 1937 && f.refused == 3 && f.figure == 6288886, "figures", 0);
    int64_t cells[NEDRULOV_CELLS + 1];
    memset(cells, 0x5A, sizeof cells);
    expect(nedrulov_year_sheet(archive, length, 2026, cells, 191) == NEDRULOV_TOO_SHORT, "short sheet", 0);
    expect(cells[0] == 0x5A5A5A5A5A5A5A5A, "a short sheet was written to", 0);
    expect(nedrulov_year_sheet(archive, length, 2026, cells, NEDRULOV_CELLS + 1) == 0, "sheet", 0);
    int64_t last = 0;
    for (int account = 0; account < NEDRULOV_ACCOUNTS; account++)
        last += cells[NEDRULOV_MONTHS * account + 11];
    expect(last == 6288886, "the sheet's last column", 0);
    expect(cells[NEDRULOV_CELLS] == 0x5A5A5A5A5A5A5A5A, "a cell past the sheet changed", 0);
}

/* R82: the amounts that R31 works out, the band's ends of R36, and what lies outside every range. */
static void limits(void)
{
    expect(nedrulov_amount(150, 1000, 0) == 985 && nedrulov_amount(150, 0, 1001) == -985, "amount", 0);
    expect(nedrulov_amount(150, 1, 0) == 0 && nedrulov_amount(150, 0, 1) == 0, "amount toward zero", 0);
    expect(nedrulov_amount(10000, 1000, 0) == 0 && nedrulov_amount(0, 1000000001, 0) == 0, "amount out of range", 0);
    expect(nedrulov_amount(0, 1000000000, 0) == 1000000000 && nedrulov_amount(0, 0, UINT64_MAX) == 0, "largest amount", 0);
    nedrulov_band_limits april = nedrulov_band(4, 62505);
    nedrulov_band_limits november = nedrulov_band(11, 30000000);
    expect(april.minimum == 0 && april.maximum == 1562625, "band of April", 0);
    expect(november.minimum == 2850000000 && november.maximum == 2940000000, "band of November", 0);
    expect(nedrulov_band(0, 1).maximum == 0 && nedrulov_band(13, 1).maximum == 0, "band of no month", 0);
    expect(nedrulov_band(4, 30000001).maximum == 0, "band of no BCQ", 0);
}

static bool lists(nedrulov_partner_list list, uint64_t number, uint64_t count, const uint64_t *accounts)
{
    bool same = list.number == number && list.count == count;
    for (uint64_t i = 0; i < NEDRULOV_ACCOUNTS; i++)
        same = same && list.accounts[i] == (i < count ? accounts[i] : 0);
    return same;
}

/* R97 and R99: partners of the sample's suppliers after its last entry, and each TRANSFER that the list speaks of. */
static void partners(nedrulov_ledger ledger)
{
    const uint64_t all[] = {2, 1, 3}, all_but_3[] = {2, 1}, by_number[] = {1, 2, 3}, none[] = {0};
    expect(lists(nedrulov_partners(ledger, 0, 150000), 0, 3, all), "partners", 0);
    expect(lists(nedrulov_partners(ledger, 0, 284611), 0, 3, all), "a partner that ends at its maximum", 0);
    expect(lists(nedrulov_partners(ledger, 0, 284612), 0, 2, all_but_3), "a partner that would end above it", 0);
    expect(lists(nedrulov_partners(ledger, 3, 496690), 0, 0, none), "a seller that would end below its minimum", 0);
    expect(lists(nedrulov_partners(ledger, 16, 0), NEDRULOV_NO_ACCOUNT, 0, none), "partners of no account", 0);
    expect(lists(nedrulov_partners(ledger, 0, 1000000001), NEDRULOV_WORD_RANGE, 0, none), "partners for too much", 0);
    expect(lists(nedrulov_partners(ledger, 4, 1), NEDRULOV_WRONG_ACCOUNT, 0, none), "partners of one not open", 0);
    expect(lists(nedrulov_partners(nedrulov_fresh(true), 0, 1), NEDRULOV_NOT_BEGUN, 0, none), "partners when fresh", 0);
    for (uint8_t other = 0; other < NEDRULOV_ACCOUNTS; other++) {
        /* 284,612 units, which is 0x0457C4, from account 0. */
        uint8_t transfer[32] = {4, 0, other, 0, 0, 0, 0, 0, 0xC4, 0x57, 4, 0, 0xC4, 0x57, 4, 0};
        transfer[4] = (uint8_t)(ledger.date.year % 256);
        transfer[5] = (uint8_t)(ledger.date.year / 256);
        transfer[6] = (uint8_t)ledger.date.month;
        transfer[7] = (uint8_t)ledger.date.day;
        bool accepted = nedrulov_post_by_value(ledger, transfer, 32).answer.number == 0;
        expect(accepted == (other == 1 || other == 2), "a TRANSFER to a partner", other);
    }
    for (int account = 1; account < 4; account++) {
        ledger.accounts[account].capacity.bcq = 1000;
        ledger.accounts[account].bank = 0;
    }
    ledger.accounts[9] = ledger.accounts[1];
    ledger.accounts[9].opened = false;
    expect(lists(nedrulov_partners(ledger, 0, 1), 0, 3, by_number), "equal ones, and one that is not open", 0);
    ledger.accounts[9].bank = -1000000001;
    expect(lists(nedrulov_partners(ledger, 0, 1), NEDRULOV_LEDGER_RANGE, 0, none), "partners out of range", 0);
}

int main(int argc, char **argv)
{
    static uint8_t archive[1 << 20];
    if (argc != 2)
        return 2;
    FILE *file = fopen(argv[1], "rb");
    if (!file)
        return 2;
    size_t length = fread(archive, 1, sizeof archive, file);
    fclose(file);
    size_t body = 8 + 8 * (size_t)(archive[4] + 256 * archive[5]);

    limits();
    first_day(false);
    forfeits();
    holidays();
    notices();
    archive_calls(archive, length, archive + body, length - body);
    new_archive(archive, length, archive + body, length - body);
    guarded lent;
    memset(&lent, 0xA5, sizeof lent);
    lent.ledger = nedrulov_fresh(false);
    size_t posted = 0;
    for (size_t at = body; at + 32 <= length; at += 32) {
        post_both(&lent, archive + at, 31, at);
        post_both(&lent, archive + at, 32, at);
        posted++;
    }
    nedrulov_panel_answer shown = nedrulov_panel(lent.ledger);
    expect(shown.number == 0 && shown.figure == 6288886, "panel", 0);
    partners(lent.ledger);
    lent.ledger.accounts[15].violation_days = 40001;
    shown = nedrulov_panel(lent.ledger);
    expect(shown.number == NEDRULOV_LEDGER_RANGE && shown.figure == 0, "panel out of range", 0);
    printf("door: %zu entries posted through both doors, %d failures\n", posted, failures);
    return failures == 0 ? 0 : 1;
}
