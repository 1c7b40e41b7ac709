"""The report's page read by a parser: well made, complete in itself, and with the figures that the other commands print."""

import random
import re
import sys
from datetime import date, timedelta
from html.parser import HTMLParser

import entries
from checks import Checks, forfeit_rows, run, statement_rows, write

JANUARY, MARCH = date(2027, 1, 31), date(2027, 3, 31)
NEVER_CLOSED = {"meta"}
# What would fetch something from outside the page.
REFERENCES = {"src", "srcset", "data", "action", "background", "poster", "xlink:href"}
FETCHING = {"script", "link", "img", "iframe", "object", "embed", "base"}


class Page(HTMLParser):
    """Its tables by their part of the page, the titles of its drawings, its panel figure, and what is wrong with it."""

    def __init__(self, text):
        super().__init__()
        self.open, self.wrong, self.ids, self.targets = [], [], set(), set()
        self.part, self.figure, self.tables, self.titles = "", "", {}, {}
        self.in_number = False
        self.feed(text)
        self.close()
        self.wrong += [f"{tag} is not closed" for tag in self.open]
        self.wrong += [f"no part {target}" for target in self.targets - self.ids]

    def handle_starttag(self, tag, attributes):
        values = dict(attributes)
        if tag in FETCHING or REFERENCES & set(values) or not values.get("href", "#").startswith("#"):
            self.wrong.append(f"{tag} refers to the outside: {values}")
        if "href" in values:
            self.targets.add(values["href"][1:])
        if "id" in values:
            if values["id"] in self.ids:
                self.wrong.append(f"two parts {values['id']}")
            self.ids.add(values["id"])
        if tag not in NEVER_CLOSED:
            self.open.append(tag)
        self.begin(tag, values)

    def handle_startendtag(self, tag, attributes):
        self.handle_starttag(tag, attributes)
        self.handle_endtag(tag)

    def handle_endtag(self, tag):
        if not self.open or self.open.pop() != tag:
            self.wrong.append(f"{tag} is closed out of order")

    def begin(self, tag, values):
        if tag in ("section", "article"):
            self.part = values.get("id", tag)
        if tag == "h3":
            self.part = f"{self.part}:"
        if tag == "table":
            self.tables.setdefault(self.part, []).append([])
        if tag == "tr":
            self.tables[self.part][-1].append([])
        if tag in ("th", "td"):
            self.tables[self.part][-1][-1].append("")
        self.in_number = tag == "p" and values.get("class") == "number"

    def handle_data(self, data):
        here = self.open[-1] if self.open else ""
        if "style" in self.open and re.search(r"url\(|@import|https?:", data):
            self.wrong.append("the style refers to the outside")
        elif here == "h3" and self.part.endswith(":"):
            self.part += data.strip()
        elif "td" in self.open or "th" in self.open:
            self.tables[self.part][-1][-1][-1] += data
        elif here == "title":
            self.titles.setdefault(self.part, []).append(data)
        elif self.in_number and here == "p":
            self.figure += data.strip()


def hundredths(text):
    return int(text.replace(",", "").replace(".", ""))


def violations_in_log(archive):
    """Account to "date: V1 name; V2 name" of each violation day, as the log tells them."""
    found, day = {}, None
    for line in run("log", archive)[1].decode().split("\n"):
        day = (re.match(r" *\d+  (\d{4}-\d\d-\d\d)  ", line) or [None, day])[1]
        part = re.match(r" +account (\d+): (.*)", line)
        names = [name for name in part[2].split("; ") if re.match(r"V\d ", name)] if part else []
        if names:
            found.setdefault(int(part[1]), []).append(f"{day}: {'; '.join(names)}")
    return found


# Rows that the page names otherwise, having no heading "sum" for each table.
OTHER_NAMES = {
    "Sum": "sum", "Sum of all bills": "sum", "Days with any": "days with any of them", "Bank in the ledger": "bank in the ledger",
    "Owed in the ledger": "owed in the ledger", "Days in the ledger": "violation days in the ledger",
}


def page_rows(tables):
    """The rows of a statement's tables: terms, then bills, then violations; days of 0 are left out, as in the statement."""
    terms, days, *bills = [[(OTHER_NAMES.get(row[0], row[0]), row[1]) for row in table[1:]] for table in tables]
    counted = [row for row in days if row[1] != "0" or not row[0].startswith("V")]
    return terms + [row for table in bills for row in table] + counted


def compare(checks, name, archive, year):
    status, out, _ = run("report", archive, str(year))
    page = Page(out.decode())
    checks.that(status == 0 and not page.wrong, f"{name}: {page.wrong[:3]}")
    panel = run("panel", archive)[1].split()
    checks.that(hundredths(page.figure) == int(panel[2]), f"{name}: the panel figure, {page.figure}")
    statements = statement_rows(archive)
    forfeits = forfeit_rows(archive)
    for account, rows in statements.items():
        tables = page.tables.get(f"article:Account {account}", [[], []])
        # What was confiscated and forfeited is the one table with two amounts in a row.
        wide = [tuple(row) for table in tables for row in table[1:] if len(row) == 3]
        shown = page_rows([table for table in tables if not table or len(table[0]) == 2])
        checks.that(shown == rows, f"{name}: account {account}'s statement, {set(shown) ^ set(rows)}")
        due = [(OTHER_NAMES.get(row[0], row[0]), *row[1:]) for row in wide]
        checks.that(due == forfeits.get(account, []), f"{name}: account {account}'s forfeits, {due}")
    told = violations_in_log(archive)
    for account in statements:
        titles = page.titles.get(f"account-{account}:Account {account}", [])
        marked = [title for title in titles if re.match(r"\d{4}-\d\d-\d\d: V", title)]
        checks.that(marked == told.get(account, []), f"{name}: account {account}'s violation days, {len(marked)}")
    return sum(map(len, told.values()))


def headlines(checks, folder):
    """Of an archive of two gas years each has its own: what the panel showed as the year ended, with that day."""
    first = entries.years(date(2026, 4, 1), date(2027, 3, 31), 2, random.Random(2))
    both = entries.years(date(2026, 4, 1), date(2028, 2, 14), 2, random.Random(2))
    checks.that(both[:len(first)] == first, "the second list goes on where the first ends")
    paths = [write(f"{folder}/{name}.efb", entries.archive(made)) for name, made in (("first", first), ("both", both))]
    counts = (len(first), len(both) - len(first))
    for year, path, day, count in zip((2026, 2027), paths, ("31 March 2027", "14 February 2028"), counts):
        text = run("report", paths[1], str(year))[1].decode()
        figure, panel = Page(text).figure, run("panel", path)[1].split()[2]
        checks.that(hundredths(figure) == int(panel), f"the headline of {year}, {figure}")
        checks.that(f">{day}</span></p></div>" in text, f"the headline of {year} is of {day}")
        checks.that(f"postings of the year accepted</dt><dd>{count:,}</dd>" in text, f"{count} postings in {year}")


def later_enrolment(checks, folder):
    """Months that are closed before an account is enrolled have no bank of it."""
    days = [date(2026, 4, 1) + timedelta(days=number) for number in range(365)]
    terms, enrolment = entries.beginning(date(2027, 4, 1))
    made = [entries.beginning(days[0])[0], *map(entries.closing, days), terms, enrolment]
    path = write(f"{folder}/later.efb", entries.archive(made))
    checks.that(run("panel", path)[1].split()[:2] == [b"368", b"0"], "every entry is accepted")
    page, cells = (run("sheet", path, "2026", *words)[1].decode() for words in ((), ("--csv",)))
    checks.that("no month of an enrolled account" in page, f"a sheet before the enrolment: {page}")
    checks.that(cells.split("\n")[1:-2] == ["0" + 12 * ","], f"the same as CSV: {cells}")


def parser_notices(checks, page):
    """The parser itself: each of these changes is wrong."""
    for old, new in (
        ("</main>", ""), ("<h2>", "<h2><b>"), ("</style>", "p { background: url(a.png) }</style>"),
        ("<main>", "<main><img src=\"a.png\">"), ("href=\"#account-0\"", "href=\"#account-9\""),
        ("href=\"#account-0\"", "href=\"https://example.org\""), ("id=\"account-1\"", "id=\"account-0\""),
    ):
        checks.that(Page(page).wrong == [] and Page(page.replace(old, new, 1)).wrong, f"{new or old} is noticed")


def main():
    folder, sample, holidays, letters = sys.argv[1:]
    checks = Checks("report")
    for name, archive in (("the sample", sample), ("the sample with holidays", holidays)):
        days = compare(checks, name, archive, 2026)
        checks.that(days == 8, f"violation days of {name}")
    compare(checks, "the sample of letters", letters, 2027)
    parser_notices(checks, run("report", sample, "2026")[1].decode())
    headlines(checks, folder)
    later_enrolment(checks, folder)
    # Sixteen suppliers with more violation days than a chart has room to flag.
    made = entries.years(date(2026, 4, 1), date(2027, 3, 31), 16, random.Random(16))
    days = compare(checks, "sixteen suppliers", write(f"{folder}/sixteen.efb", entries.archive(made)), 2026)
    checks.that(days > 1_000, f"many violation days: {days}")
    told = [(day, account, 10**digits) for digits, day in ((5, JANUARY), (9, MARCH)) for account in (0, 3, 15)]
    made = entries.archive(entries.with_confiscations(made, told), entries.NEW)
    compare(checks, "sixteen suppliers under new rules", write(f"{folder}/new-sixteen.efb", made), 2026)
    checks.end()


main()
