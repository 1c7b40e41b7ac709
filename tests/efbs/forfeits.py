"""Forfeits under the new rules, as log, statement, report and panel tell them. What each has to be is worked out here:
the old rules forfeit the whole excess of the same entries, the new ones no more of it than was confiscated."""

import re
import sys
from datetime import date

import entries
from checks import Checks, forfeit_rows, read, run, statement_rows, write

JANUARY, MARCH = date(2027, 1, 31), date(2027, 3, 31)
# Neither is a day for it, and both are posted for every account.
OFF_DAYS = (date(2027, 1, 30), date(2027, 2, 28))
# What is told of an excess, in hundredths of a Dth and in order: the first counts, and a second is refused with 26.
CASES = (
    lambda excess: [excess + 1], lambda excess: [excess], lambda excess: [excess - 1], lambda excess: [10**9],
    lambda excess: [0], lambda excess: [], lambda excess: [excess // 2, excess], lambda excess: [0, excess],
)
ACCOUNTS = range(len(CASES))
STRANGER = 12
NOTE = "New rules: a forfeit is the smaller of the excess and what the storage provider confiscated."


def whole(amount):
    return int(amount.replace(",", "").replace(".", ""))


def gas(units):
    return f"{units // 100:,}.{units % 100:02}"


def closing_parts(log):
    """(day, account) to what the log tells of the account at the closing of the month."""
    found, day = {}, None
    for line in log.split("\n"):
        day = (re.match(r" *\d+  (\S+)  accepted    close-month", line) or [None, day])[1]
        part = re.match(r" +account (\d+): (.*)", line)
        if part:
            found[day, int(part[1])] = part[2]
    return found


def old_forfeits(log):
    """(day, account) to hundredths of a Dth."""
    told = {place: re.search(r"forfeit ([\d,.]+) Dth;", part) for place, part in closing_parts(log).items()}
    return {place: whole(match[1]) for place, match in told.items() if match}


class Expected:
    """What is told, and what is to be forfeited, by day and account."""

    def __init__(self, old):
        self.told, self.forfeits, self.excess = {}, {}, {}
        for account in ACCOUNTS:
            january, march = ((day.isoformat(), account) for day in (JANUARY, MARCH))
            self.add(january, CASES[account], old[january])
            # What January left is still there in March.
            self.add(march, CASES[(account + 3) % len(CASES)], old[march] + old[january] - self.forfeits[january])

    def add(self, place, case, excess):
        self.told[place], self.excess[place] = case(excess), excess
        self.forfeits[place] = min([excess, *self.told[place][:1]]) if self.told[place] else 0

    def postings(self):
        every = [(date.fromisoformat(day), account, units) for (day, account), told in self.told.items() for units in told]
        off = [(day, account, 500) for day in OFF_DAYS for account in ACCOUNTS]
        return every + off + [(JANUARY, STRANGER, 500)]

    def refused(self):
        seconds = sum(len(told) > 1 for told in self.told.values())
        return {"23": len(OFF_DAYS) * len(ACCOUNTS), "24": 1, "26": seconds}

    def rows(self, account):
        """The statement's, with their sum."""
        days = [(day, told[0], self.forfeits[day, account])
                for (day, of), told in sorted(self.told.items()) if of == account and told]
        sums = ("sum", sum(day[1] for day in days), sum(day[2] for day in days))
        return [(name, gas(told), gas(forfeit)) for name, told, forfeit in [*days, sums]] if days else []


def in_log(checks, log, expected):
    parts = closing_parts(log)
    for (day, account), told in expected.told.items():
        part, forfeit = parts[day, account], expected.forfeits[day, account]
        shown = re.findall(r"forfeit .*?(?=;)", part)
        due = [f"forfeit {gas(forfeit)} Dth of {gas(told[0])} Dth confiscated"] if told else []
        checks.that(shown == due, f"{day}, account {account}: {due} of an excess of {gas(expected.excess[day, account])}: {part}")
    refused = re.findall(r"REFUSED (\d+)  confiscated", log)
    checks.that({number: refused.count(number) for number in refused} == expected.refused(), f"refused with {refused}")
    checks.that("cash-" not in log, "no cash comes between")


def in_statement(checks, archive, expected):
    status, out, _ = run("statement", archive)
    checks.that(status == 0 and out.count(b"agrees\n") == 3 * len(ACCOUNTS) + 1, "every sum agrees")
    rows, terms = forfeit_rows(archive), statement_rows(archive)
    for account in ACCOUNTS:
        checks.that(rows.get(account, []) == expected.rows(account), f"account {account}'s forfeits: {rows.get(account)}")
        term = whole(dict(terms[account])["forfeits"])
        due = -sum(units for (_, of), units in expected.forfeits.items() if of == account)
        checks.that(term == due, f"account {account}'s term: {term}, due {due}")


def in_report(checks, archive, expected):
    page = run("report", archive, "2026")[1].decode()
    articles = dict(re.findall(r'(?s)<article id="account-(\d+)">(.*?)</article>', page))
    for (day, account), told in expected.told.items():
        marks = re.findall(rf"<title>{day}: (confiscated|forfeit) ([\d,.]+) Dth</title>", articles[str(account)])
        due = [("forfeit", gas(expected.forfeits[day, account]))] if expected.forfeits[day, account] else []
        due += [("confiscated", gas(told[0]))] if told else []
        checks.that(marks == due, f"{day}, account {account}'s marks: {marks}")
    # The legend has a sign more than that of an old archive.
    checks.that(page.count("</svg> confiscated</li>") == 1, "the legend names it")


def unclosed(checks, folder, list_, expected):
    """An archive that ends before January closes: what is told has no forfeit yet."""
    end = next(index for index, raw in enumerate(list_) if raw[:1] == b"\x09" and raw[4:8] == b"\xeb\x07\x01\x1f")
    archive = write(f"{folder}/unclosed.efb", entries.archive(list_[:end], entries.NEW))
    rows, page = forfeit_rows(archive), run("report", archive, "2026")[1].decode()
    january = JANUARY.isoformat()
    told = {account: expected.told[january, account][0] for account in ACCOUNTS if expected.told[january, account]}
    for account, units in told.items():
        due = [(january, gas(units), "not closed"), ("sum", gas(units), "0.00")]
        checks.that(rows.get(account) == due, f"account {account} before the closing: {rows.get(account)}")
    checks.that(page.count("<td>not closed</td>") == len(told), "the same in the report")


def notes(checks, new, old):
    """The rule is told once by each page of a new archive, and by none of an old one."""
    for command in (["log"], ["log", "--account", "0"], ["log", "--refused"], ["statement"], ["statement", "--account", "1"],
                    ["statement", "--until", "2026-04-30"], ["report", "2026"], ["report", "2031"]):
        told = [run(command[0], archive, *command[1:])[1].decode().count(NOTE) for archive in (new, old)]
        checks.that(told == [1, 0], f"{command} tells its rule {told} times")
    for command in (["panel"], ["journal"], ["sheet", "2026"]):
        checks.that(NOTE not in run(command[0], new, *command[1:])[1].decode(), f"{command} stays as it is")


def main():
    folder, checks = sys.argv[1], Checks("forfeits")
    plain = entries.filled(ACCOUNTS, MARCH)
    old = write(f"{folder}/old-forfeits.efb", entries.archive(plain))
    forfeits = old_forfeits(run("log", old)[1].decode())
    checks.that(len(forfeits) == 2 * len(ACCOUNTS) and min(forfeits.values()) > 100_000, f"the old rules forfeit: {forfeits}")
    expected = Expected(forfeits)
    list_ = entries.with_confiscations(plain, expected.postings())
    new = write(f"{folder}/new-forfeits.efb", entries.archive(list_, entries.NEW))
    figures = [int(word) for word in run("panel", new)[1].split()]
    kept = sum(forfeits.values()) - sum(expected.forfeits.values())
    refused = sum(expected.refused().values())
    due = [len(list_) - refused, refused, int(run("panel", old)[1].split()[2]) + kept]
    checks.that(figures == due, f"the panel's line {figures}, due {due}")
    in_log(checks, run("log", new)[1].decode(), expected)
    in_statement(checks, new, expected)
    in_report(checks, new, expected)
    unclosed(checks, folder, list_, expected)
    notes(checks, new, old)
    # A new archive with nothing told forfeits nothing.
    untold = write(f"{folder}/untold.efb", entries.archive(plain, entries.NEW))
    checks.that("forfeit " not in run("log", untold)[1].decode().replace(NOTE, ""), "nothing told, nothing forfeited")
    checks.that(read(untold)[4:] == read(old)[4:], "and differs from the old one in its opening alone")
    checks.end()


main()
