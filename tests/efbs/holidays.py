"""Holidays as log, sheet and report tell them. Which ones a ledger takes and on which day each month is measured is worked
out here, from the text of the entries and by Python's own calendar."""

import random
import re
import sys
from collections import Counter
from datetime import date, timedelta

import entries
from business_days import Ledger, last_of_month, measuring_day, real
from checks import Checks, read, run, write

TEXTS, LISTS = 140, 60
TERMS = "terms no-notice=120000 design-day=480000 storage=5000400 retainage=0.00% demand-rate=12.550 commodity-rate=0.032"
PRICES = "average-cost=2.950 highest-price=3.120 lowest-price=2.610 pipeline-charges=0.415"
FIRST_YEARS = (2026, 2026, 2026, 2027, 2031, 2047, 2098, 2099)
NO_DATES = ("2026-02-30", "2027-02-29", "2026-13-01", "2026-06-31", "2100-01-01", "1999-12-31", "0000-00-00", "70000-13-99",
            f"{65_536 + 2_026}-12-25", "2026-268-25", "2026-12-281", "-".join(3 * [str(2**32 - 1)]))
# What must have happened, each at least a few times.
REACHED = ("33 no date", "33 today", "33 past", "34 held", "34 seventeenth", "35", "accepted", "moved", "moved again",
           "moved over a weekend", "weekend named", "dropped", "kept", "23 on a holiday", "27 on a moved day",
           "measured on a moved day", "closed moved", "to come moved", "next year moved", "in a month's midst")


def candidate(draw, ledger):
    """A day to name: mostly near the 25th of a month to come, and any other."""
    months = ledger.day.year * 12 + ledger.day.month - 1 + draw.choice((0, 0, 0, 0, 1, 1, 2, 11, 12))
    year, month = min(months // 12, 2099), months % 12 + 1
    near = [date(year, month, day) for day in range(24, last_of_month(year, month) + 1)]
    around = ledger.day + timedelta(days=draw.choice((-30, -1, 0, 0, 1, 2)))
    known = draw.choice(ledger.held or near)
    plain = measuring_day(year, month, ledger.held) or near[0]
    chosen = draw.choice((plain, plain, plain, draw.choice(near), draw.choice(near), known, around, entries.any_day(draw),
                          None))
    return chosen.isoformat() if chosen else draw.choice(NO_DATES)


def day_of(draw, ledger, often):
    """Lines of one day, each put to the ledger as it is made, until one closes the day."""
    today = ledger.day
    for _ in range(draw.choice((0, 0, 0, 1, 2)) if draw.random() < often else 0):
        yield f"{today} holiday on={candidate(draw, ledger)}"
    for account in ledger.open:
        yield f"{today} deliver account={account} delivered=0.00 back-cast=0.00"
    if today.day == last_of_month(today.year, today.month):
        yield from (f"{today} usage account={account} consumed=9" for account in ledger.open)
    if today.day >= 24:
        yield f"{today} measure account=9 mdq=4200"
    for account in ledger.open:
        if today == ledger.measured_on() and draw.random() < 0.3:
            yield closing(today)
        if today.day >= 24:
            yield f"{today} measure account={account} mdq=4200"
    yield closing(today)


def closing(day):
    return f"{day} close-month {PRICES}" if day.day == last_of_month(day.year, day.month) else f"{day} close-day"


def crowd(draw, ledger):
    """So many or such days at once that some have no room: far ahead, or all from the 25th of a month on."""
    first = ledger.day
    if draw.random() < 0.5:
        yield from (f"{first} holiday on={first + timedelta(days=number)}" for number in draw.sample(range(1, 200), 19))
    else:
        year, month = draw.choice([(first.year, draw.randrange(4, 13)), (min(first.year + 1, 2099), draw.randrange(1, 13))])
        days = list(range(25, last_of_month(year, month) + 1))
        draw.shuffle(days)
        yield from (f"{first} holiday on={date(year, month, day)}" for day in days)


def made(draw, ledger):
    """The first year and the lines of a text of up to five months, of one supplier or of none."""
    first, lines = date(draw.choice(FIRST_YEARS), 4, 1), []

    def add(line):
        lines.append(line)
        ledger.post(line)

    add(f"{first} {TERMS}")
    if draw.random() < 0.5:
        add(f"{first} enrol account=0 wants-efbs mdq=4200 opening=10.00")
    if draw.random() < 0.4:
        for line in crowd(draw, ledger):
            add(line)
    length, often = draw.choice((1, 27, 40, 61, 95, 130)), draw.choice((0.1, 0.3, 0.8))
    for _ in range(length):
        for line in day_of(draw, ledger, often):
            add(line)
    return first.year, lines


def in_log(checks, name, page, ledger):
    found = re.findall(r"(?m)^ *\d+  \S+  (accepted|REFUSED) *(\d*) +([a-z-]+)(?:: )?(.*)$", page)
    numbers = [(int(number or 0), kind) for _, number, kind, _ in found]
    due = [(number, kind) for number, kind, _ in ledger.log]
    wrong = next((place for place, pair in enumerate(due) if numbers[place:place + 1] != [pair]), None)
    checks.that(numbers == due, f"{name}: entry {wrong}: {numbers[wrong or 0:][:1]}, due {due[wrong or 0:][:1]}")
    words = [words for _, _, kind, words in found if kind == "holiday"]
    told = [words for _, kind, words in ledger.log if kind == "holiday"]
    checks.that(words == told, f"{name}: {sorted(set(words) ^ set(told))[:2]}")


def in_sheet(checks, name, archive, year, months):
    page, cells = (run("sheet", archive, str(year), *more)[1].decode() for more in ((), ("--csv",)))
    days = [f"{day.day} {day:%B}{'*' if moved else ''}" for day, moved in months]
    line = f"\n\nMeasuring days: {', '.join(days)}\n" if months else ""
    star = "A star stands where holidays moved the day.\n" if any(moved for _, moved in months) else ""
    checks.that(page.endswith(line + star) and page.count("Measuring") == bool(months), f"{name}, {year}: {page[-300:]}")
    by_month = {f"{day:%Y-%m}": day.isoformat() for day, _ in months}
    head, last = cells.split("\n")[0], cells.split("\n")[-2]
    due = ["measuring day", *(by_month.get(month, "") for month in head.split(",")[1:])]
    checks.that(last.split(",") == due, f"{name}, {year}: {last}, due {due}")


def in_report(checks, name, archive, year, months, named):
    page = run("report", archive, str(year))[1].decode()
    part = re.search(r"(?s)<h2>Measuring days</h2>(.*?)</section>", page)
    checks.that(bool(part) == bool(months), f"{name}, {year}: a part on measuring days")
    if not part:
        return
    rows = [re.findall("<t[hd].*?>(.*?)</t[hd]>", row) for row in re.findall("<tr>(.*?)</tr>", part[1])]
    due = [["Month", *(f"{day:%B}" for day, _ in months)], ["Measured on", *(short(day) for day, _ in months)]]
    if any(moved for _, moved in months):
        due += [["Moved from", *(short(measuring_day(day.year, day.month, [])) if moved else "–" for day, moved in months)]]
    checks.that(rows == due, f"{name}, {year}: {rows}, due {due}")
    told = re.findall('<span class="unbroken">(.*?)</span>', part[1])
    of_year = [f"{day:%A}, {day.day} {day:%B} {day.year}" for day in sorted(named)
               if date(year, 4, 1) <= day < date(year + 1, 4, 1)]
    checks.that(told == of_year, f"{name}, {year}: {told}, due {of_year}")
    checks.that(("No holiday of this gas year" in part[1]) == (not told), f"{name}, {year}: whether there are any")


def short(day):
    return f"{day:%a} {day.day}"


def compare(checks, folder, name, text, ledger, years):
    archive = pack(checks, folder, text)
    in_log(checks, name, run("log", archive)[1].decode(), ledger)
    for year in years:
        months = list(ledger.months(year))
        in_sheet(checks, name, archive, year, months)
        in_report(checks, name, archive, year, months, ledger.named)
    statement = run("statement", archive)
    checks.that(statement[0] == 0 and b"DIFFERS" not in statement[1], f"{name}: every sum agrees")


def pack(checks, folder, text):
    status, archive, told = run("pack", write(f"{folder}/holidays.txt", text.encode()), "-o", "-")
    checks.that(status == 0, told)
    return write(f"{folder}/holidays.efb", archive)


def random_texts(checks, folder, draw, tally):
    for number in range(TEXTS):
        ledger = Ledger(tally)
        year, lines = made(draw, ledger)
        compare(checks, folder, f"text {number}", "\n".join(["rules new", *lines]), ledger, (year - 1, year, year + 1))
        tally["next year moved"] += any(moved for _, moved in ledger.months(year + 1))
        tally["to come moved"] += any(moved for day, moved in ledger.months(year) if day > ledger.day)
        tally["in a month's midst"] += ledger.day.day > 1 and bool(ledger.closed)


def sample(checks, folder):
    """The sample year with holidays: its answers and days, and the banks of the other sample until March."""
    text, ledger = read("samples/holiday-year.txt").decode(), Ledger(Counter())
    lines = [line for line in text.split("\n") if line and not line.startswith(("#", "rules"))]
    answers = [ledger.post(line) for line in lines]
    checks.that([number for number in answers if number] == [33, 34, 23], "what the sample has refused")
    compare(checks, folder, "the sample", text, ledger, (2026, 2027))
    moved = [str(day) for day, is_moved in ledger.months(2026) if is_moved]
    checks.that(moved == ["2026-05-26", "2026-12-28"], f"the days that move: {moved}")
    banks = [banks_of(checks, folder, f"samples/{name}.txt") for name in ("gas-year", "holiday-year")]
    same = [[old == new for old, new in zip(*rows)] for rows in zip(*banks)]
    # In March account 0 forfeits less than under old rules.
    checks.that(same == [12 * [True] + [False]] + 3 * [13 * [True]], f"the banks of the other sample: {same}")


def banks_of(checks, folder, sample):
    sheet = run("sheet", pack(checks, folder, read(sample).decode()), "2026", "--csv")[1].decode()
    return [line.split(",") for line in sheet.split("\n")[1:5]]


def spelling(checks, folder, draw):
    """Holidays of any three words: as text they are what Python writes, and the text packs to the same bytes."""
    no_dates = 0
    for number in range(LISTS):
        made = [(entries.any_day(draw), entries.named_words(draw)) for _ in range(draw.randrange(1, 40))]
        packed = entries.archive([entries.entry(day, entries.HOLIDAY, words=words) for day, words in made], entries.NEW)
        status, text, told = run("unpack", write(f"{folder}/named.efb", packed))
        due = ["rules new", *(f"{day} holiday on={words[0]:04}-{words[1]:02}-{words[2]:02}" for day, words in made), ""]
        checks.that(status == 0 and text.decode().split("\n") == due, f"list {number} as text: {told}")
        status, again, told = run("pack", write(f"{folder}/named.txt", text), "-o", "-")
        checks.that((status, again) == (0, packed), f"list {number} comes back: {told}")
        no_dates += sum(real(f"{words[0]:04}-{words[1]:02}-{words[2]:02}") is None for _, words in made)
    checks.that(no_dates > 100, f"many of them are no dates: {no_dates}")


def misspelt(checks, folder):
    """What is no day is told with its place; and so is a number that has no room."""
    wrong = ("", "2026", "2026-12", "2026-12-", "2026-12-5", "2026-1-25", "026-12-25", "02026-12-25", "2026-012-25",
             "2026-12-025", "2026-12-25-1", "+2026-12-25", "2026-+2-25", "-2026-12-25", "2026--12-25", "2026/12/25",
             "25.12.2026", "2026-12-2x", "2026-12-25.")
    large = ("4294967296-12-25", "2026-4294967296-25", "2026-12-4294967296", f"{'9' * 40}-12-25")
    for day in wrong + large:
        text = write(f"{folder}/wrong.txt", f"rules new\n2026-04-01 holiday on={day}\n".encode())
        status, _, told = run("pack", text, "-o", f"{folder}/wrong.efb")
        due = f"{day} is too large; expected a date" if day in large else "expected a date, as 2026-12-25; found"
        checks.that(status == 1 and f"line 2, column 23: {due}" in told.decode(), f"{day}: {told}")


def old_rules(checks, folder):
    """An old text has no holidays, and an old archive the same measuring days as a new one without any."""
    for head in ("", "rules old\n"):
        text = write(f"{folder}/old.txt", f"{head}2026-04-01 holiday on=2026-12-25\n".encode())
        status, _, told = run("pack", text, "-o", f"{folder}/old.efb")
        checks.that(status == 1 and b"refused with 2: the kind is none of the nine. It is a kind of the new rules" in told, told)
    for year in range(2000, 2100):
        lines = [f"{year}-04-01 {TERMS}"]
        ledger = Ledger(Counter())
        ledger.post(lines[0])
        for rules in ("old", "new"):
            archive = pack(checks, folder, "\n".join([f"rules {rules}", *lines]))
            in_sheet(checks, f"{year}, {rules}", archive, year, list(ledger.months(year)))


def main():
    folder, checks, tally = sys.argv[1], Checks("holidays"), Counter()
    draw = random.Random(25)
    sample(checks, folder)
    random_texts(checks, folder, draw, tally)
    spelling(checks, folder, draw)
    misspelt(checks, folder)
    old_rules(checks, folder)
    checks.that(min(tally[case] for case in REACHED) > 2, f"every case: {tally}")
    checks.end(f"; {tally['accepted']} holidays taken, {tally['moved'] + tally['moved again']} measuring days moved, "
               f"{tally['35']} refused with 35")


main()
