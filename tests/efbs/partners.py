"""Who can take a supplier's gas, as efbs partners tells it, against postings: a transfer of the ledger's day from the seller
to an account is accepted if that is listed, and refused if not; in a new ledger the same holds of the second of two letters.
The texts are the sample, cut at days of its year and under both rules, and others made at random, of up to sixteen
accounts."""

import json
import random
import re
import sys
from collections import Counter
from datetime import date, timedelta

from checks import Checks, read, run, write
from entries import measurement_day

RANDOM_TEXTS, SELLERS, QUANTITIES = 28, 3, 3
ACCOUNTS, MOST_UNITS = range(16), 10**9
CUTS = ("2026-04-12", "2026-05-18", "2026-07-20", "2026-08-20", "2026-10-01", "2026-11-10", "2027-01-31", "2027-03-31")
APRIL = date(2026, 4, 1)
TERMS = "terms no-notice=120000 design-day=480000 storage=5000400 retainage=0.00% demand-rate=12.550 commodity-rate=0.032"
PRICES = "average-cost=2.950 highest-price=3.120 lowest-price=2.610 pipeline-charges=0.415"
KINDS = ("listed", "minimum", "headroom", "alone", "to the maximum", "to the minimum", "equals", "all others",
         "by_transfer", "by_letters")
MEMBERS = ["number", "date", "month", "seller", "bank", "minimum", "quantity", "partners", "why"]


def dth(units):
    return f"{units // 100}.{units % 100:02}"


def whole(amount):
    return int(amount.replace(",", "").replace(".", ""))


def sample(until=None):
    """The sample's entries, all or those before the closing of a day."""
    lines = [line for line in read("samples/gas-year.txt").decode().split("\n") if line and not line.startswith("#")]
    ends = [place for place, line in enumerate(lines) if line.startswith(f"{until} close")]
    return lines[:ends[0]] if ends else lines


def day_of(day, mdqs):
    """A day on which no gas moves, up to its closing."""
    last = (day + timedelta(days=1)).day == 1
    yield from (f"{day} deliver account={account} delivered=0.00 back-cast=0.00" for account in mdqs)
    if day == measurement_day(day):
        yield from (f"{day} measure account={account} mdq={mdq}" for account, mdq in mdqs.items())
    if last:
        yield from (f"{day} usage account={account} consumed=9" for account in mdqs)
    yield f"{day} close-month {PRICES}" if last else f"{day} close-day"


def made(draw):
    """Suppliers of which many are alike, with empty banks until a last delivery puts them anywhere."""
    accounts = draw.sample(ACCOUNTS, draw.choice((1, 3, 8, 16, 16)))
    mdqs = {account: draw.choice((2_900, 5_900)) for account in accounts}
    lines = [f"{APRIL} {TERMS}"]
    lines += [f"{APRIL} enrol account={account} wants-efbs mdq={mdq} opening=0.00" for account, mdq in mdqs.items()]
    last = APRIL + timedelta(days=draw.choice((0, 0, 40, 75, 100)))
    for number in range((last - APRIL).days):
        lines += day_of(APRIL + timedelta(days=number), mdqs)
    most = draw.choice((700_000, 1_500_000, 4_000_000))
    banks = [draw.randrange(-50_000, most) for _ in range(draw.choice((2, 3, 9)))]
    for account in accounts:
        bank = draw.choice(banks)
        lines.append(f"{last} deliver account={account} delivered={dth(max(bank, 0))} back-cast={dth(max(-bank, 0))}")
    return lines


class Text:
    """Entries as text, and what is asked of their archive."""

    def __init__(self, checks, folder, name, rules, lines):
        self.checks, self.folder, self.name, self.rules, self.lines = checks, folder, f"{name}, {rules}", rules, lines
        self.open = {int(account) for account in re.findall(r" enrol account=(\d+)", "\n".join(lines))}
        self.archive = self.packed("partners", lines)

    def that(self, right, what):
        self.checks.that(right, f"{self.name}: {what}")

    def packed(self, name, lines):
        path, text = f"{self.folder}/{name}", "\n".join([f"rules {self.rules}", *lines])
        status, archive, told = run("pack", write(f"{path}.txt", text.encode()), "-o", "-")
        self.that(status == 0, told)
        return write(f"{path}.efb", archive)

    def refused(self, more):
        """Which of some lines, posted after all others, are refused."""
        log = run("log", self.packed("posted", self.lines + more), "--refused")[1].decode()
        places = [int(place) - len(self.lines) for place in re.findall(r"(?m)^ *(\d+)  \S+  REFUSED", log)]
        return [place for place in places if place >= 0]

    def asked(self, seller, quantity):
        status, out, told = run("partners", self.archive, "--seller", str(seller), "--quantity", dth(quantity), "--json")
        answer = json.loads(out)
        due = (0, 0, "") if seller in self.open else (24, 1, f"efbs: {answer['why']}\n")
        self.that((answer["number"], status, told.decode()) == due, f"{answer}, status {status}, {told}")
        self.that(list(answer) == MEMBERS and (answer["seller"], answer["quantity"]) == (seller, quantity), answer)
        return answer


def in_order(text, partners):
    """Most headroom first, of equal ones the lower number, and each once."""
    keys = [(partner["bank"] - partner["maximum"], partner["account"]) for partner in partners]
    text.that(keys == sorted(set(keys)), f"the order of {partners}")
    text.that(all(-key[0] == partner["headroom"] for key, partner in zip(keys, partners)), f"headroom in {partners}")


def by_transfer(answer, account):
    return [f"{answer['date']} transfer from={answer['seller']} to={account} gas={dth(answer['quantity'])}"]


def by_letters(answer, account):
    """The other's comes first: it stands whatever the limits, and where the seller's is refused the seller has none."""
    day, seller, gas = answer["date"], answer["seller"], dth(answer["quantity"])
    return [f"{day} notice account={account} other={seller} takes gas={gas}",
            f"{day} notice account={seller} other={account} gives gas={gas}"]


def ways(text, answer):
    """How gas passes on the day; in new ledgers by letters on any, and by transfers until the end of March 2027."""
    if text.rules == "old" or answer["date"] < "2027-04-01":
        yield by_transfer
    if text.rules == "new":
        yield by_letters


def by_postings(text, answer, tally):
    """Gas that is refused changes no bank, so that the lines to accounts that are not listed stand before one that is."""
    seller, listed = answer["seller"], [partner["account"] for partner in answer["partners"]]
    text.that(seller not in listed, f"the seller is listed in {answer}")
    for way in ways(text, answer):
        tally[way.__name__] += 1
        lines, due = [], []
        for account in ACCOUNTS:
            if account not in (seller, *listed):
                lines += way(answer, account)
                first_stands = way == by_letters and {account, seller} <= text.open
                due += [len(lines) - 1] if way == by_transfer or first_stands else [len(lines) - 2, len(lines) - 1]
        for last in [way(answer, account) for account in listed if account != seller] or [[]]:
            refused = text.refused(lines + last)
            text.that(refused == due, f"of {lines + last} there are refused {refused}, but listed {listed}")
            # They were tried.
            lines, due = [], []


def reason(text, answer):
    """Why nobody is listed, if so, and whether words and figures say it; what could be taken is asked again."""
    why, quantity, most = answer["why"], answer["quantity"], answer["bank"] - answer["minimum"]
    rooms = [partner["headroom"] for partner in answer["partners"]]
    if rooms:
        text.that(why is None and quantity <= min(most, *rooms), answer)
        return "listed"
    if most < quantity:
        can = f"{most // 100:,}.{most % 100:02} Dth at most" if most > 0 else "nothing"
        text.that(why == f"the seller would end below the month's minimum; it can sell {can}.", answer)
        return "minimum"
    if text.open == {answer["seller"]}:
        text.that(why == "no other account is open.", answer)
        return "alone"
    told = re.fullmatch("no other open account has so much headroom; the largest is (.*) Dth, of account ([0-9]*)(.*).", why)
    headroom, account = whole(told[1]), int(told[2])
    text.that(headroom < quantity and told[3] == (", so that none can take any" if headroom <= 0 else ""), answer)
    if headroom > 0:
        first = text.asked(answer["seller"], headroom)["partners"][:1]
        text.that([(one["account"], one["headroom"]) for one in first] == [(account, headroom)], f"{why} {first}")
    return "headroom"


def on_page(text, answer):
    """The page has the same rows."""
    words = ["--seller", str(answer["seller"]), "--quantity", dth(answer["quantity"])]
    page = run("partners", text.archive, *words)[1].decode()
    rows = [[whole(word) for word in row.split()] for row in re.findall(r"(?m)^ +\d+  .*$", page)]
    text.that(rows == [list(partner.values()) for partner in answer["partners"]], page)
    text.that(answer["why"] is None or page.endswith(f"Nobody can take it: {answer['why']}\n"), page)


def quantities(draw, text, seller):
    """Some at a limit of the seller or of a partner, some a unit above it."""
    answer = text.asked(seller, 1)
    most = answer["bank"] - answer["minimum"] if answer["number"] == 0 else 0
    limits = [most] + [partner["headroom"] for partner in answer["partners"] if partner["headroom"] <= most]
    found = [1, draw.randrange(1, 1_000_000)] + [limit + more for limit in limits for more in (0, 0, 1)]
    return sorted(set(draw.choices([quantity for quantity in found if 0 < quantity <= MOST_UNITS], k=QUANTITIES)))


def count(tally, answer, kind):
    """Of which kind an answer is, and what is special of a list."""
    tally[kind] += 1
    rooms = [partner["headroom"] for partner in answer["partners"]]
    tally["to the maximum"] += answer["quantity"] in rooms
    tally["to the minimum"] += bool(rooms) and answer["bank"] - answer["quantity"] == answer["minimum"]
    tally["equals"] += len(set(rooms)) < len(rooms)
    tally["all others"] += len(rooms) == len(ACCOUNTS) - 1


def compare(draw, text, tally):
    sellers = draw.sample(sorted(text.open), min(SELLERS, len(text.open)))
    strangers = [account for account in ACCOUNTS if account not in text.open]
    for seller in sellers + strangers[:1]:
        for quantity in quantities(draw, text, seller):
            answer = text.asked(seller, quantity)
            in_order(text, answer["partners"])
            by_postings(text, answer, tally)
            if seller in text.open:
                count(tally, answer, reason(text, answer))
                on_page(text, answer)


def main():
    folder, checks, draw, tally = sys.argv[1], Checks("partners"), random.Random(4), Counter()
    for rules in ("old", "new"):
        for until in CUTS:
            compare(draw, Text(checks, folder, f"the sample until {until}", rules, sample(until)), tally)
        for number in range(RANDOM_TEXTS // 2):
            compare(draw, Text(checks, folder, f"text {number}", rules, made(draw)), tally)
    for rules in ("old", "new"):
        compare(draw, Text(checks, folder, "the sample", rules, sample()), tally)
    checks.that(min(tally[kind] for kind in KINDS) > 2, f"answers of every kind: {tally}")
    checks.end(f"; {tally['listed']} lists, {tally['to the maximum']} with an account that is then full, {tally['equals']} "
               f"with equal headroom; {tally['minimum'] + tally['headroom'] + tally['alone']} empty ones")


main()
