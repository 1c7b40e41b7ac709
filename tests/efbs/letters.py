"""Letters as the log, the list of those without an answer, statement, journal and report tell them, against what another
program works out from the lines of the text: which notice stands, which answers which, whose gas moves, what is refused and
what a closing clears. The texts are the sample, a year that crosses the end of transfers, and others made at random."""

import json
import random
import re
import sys
from collections import Counter
from datetime import date, timedelta

from checks import Checks, read, run, statement_rows, write
from entries import measurement_day
from notices import RETIRED, Ledger, dth, ends_month, whole

TEXTS, ACCOUNTS = 90, range(16)
TERMS = "terms no-notice=120000 design-day=480000 storage=5000400 retainage=0.00% demand-rate=12.550 commodity-rate=0.032"
PRICES = "average-cost=2.950 highest-price=3.120 lowest-price=2.610 pipeline-charges=0.415"
FIRST_YEARS = (2026, 2026, 2027, 2027, 2031, 2098)
QUANTITIES = (1, 1, 100, 5_000, 5_000, 40_000, 1_000_000, 10**9)
# What must have happened, each at least a few times.
REACHED = ("no letter of the other", "the other's is to a third", "the same side", "another quantity", "anew on a day of an answer",
           "the giver's answered", "the taker's answered", "22", "24", "26", "26 that would match", "28 of the giver",
           "28 of the taker", "36", "36 of accounts that are not open", "transfer", "transfer beside letters", "cleared",
           "27 keeps letters", "standing at the end", "a pair and a transfer of the same gas")


def of_text(text):
    return [line for line in text.split("\n") if line and not line.startswith(("#", "rules"))]


def other_than(draw, accounts, account):
    return draw.choice([other for other in accounts if other != account])


def letter(draw, ledger, accounts):
    """A notice: the answer to one that stands, nearly that, or any; of a day that is nearly always the ledger's."""
    writer, side, units = draw.choice(accounts), draw.choice(("gives", "takes")), draw.choice(QUANTITIES)
    other = other_than(draw, accounts, writer)
    if ledger.standing and draw.random() < 0.7:
        known = draw.choice(ledger.standing)
        writer, other, units = known.other, known.writer, known.units
        side = "gives" if known.side == "takes" else "takes"
        change = draw.choice(("none", "none", "none", "side", "units", "other", "writer"))
        side = known.side if change == "side" else side
        units = draw.choice((max(units - 1, 1), draw.choice(QUANTITIES))) if change == "units" else units
        other = other_than(draw, accounts, writer) if change == "other" else other
        writer = other_than(draw, accounts, other) if change == "writer" else writer
    day = ledger.day + timedelta(days=draw.choice((0,) * 30 + (-1, 1)))
    return f"{day} notice account={writer} other={other} {side} gas={amount(units)}"


def transfer(draw, ledger, accounts):
    """Some of the gas of a letter that stands, others of any."""
    if ledger.standing and draw.random() < 0.5:
        known = draw.choice(ledger.standing)
        pair, units = (known.writer, known.other), known.units
        giver, taker = pair if known.side == "gives" else pair[::-1]
    else:
        giver, units = draw.choice(accounts), draw.choice(QUANTITIES)
        taker = other_than(draw, accounts, giver)
    return f"{ledger.day} transfer from={giver} to={taker} gas={amount(units)}"


def amount(units):
    return f"{units // 100}.{units % 100:02}"


def closing(day):
    return f"{day} close-month {PRICES}" if ends_month(day) else f"{day} close-day"


def day_of(draw, ledger, accounts, busy):
    """Lines of one day, each put to the ledger as it is made, until one closes the day."""
    today, suppliers = ledger.day, sorted(ledger.bank)
    yield from letters_of(draw, ledger, accounts, busy)
    for account in suppliers:
        yield f"{today} deliver account={account} delivered=0.00 back-cast=0.00"
    if suppliers and today == measurement_day(today):
        # Its measurements are still to come.
        yield closing(today)
        yield from (f"{today} measure account={account} mdq={ledger.mdq[account]}" for account in suppliers)
    if ends_month(today):
        yield from (f"{today} usage account={account} consumed=9" for account in suppliers)
    yield from letters_of(draw, ledger, accounts, busy)
    yield closing(today)


def letters_of(draw, ledger, accounts, busy):
    for _ in range(draw.randrange(busy)):
        yield (letter if draw.random() < 0.85 else transfer)(draw, ledger, accounts)


def made(draw, ledger):
    """The lines of a text of up to three months, which may end in the midst of a day."""
    lines = []

    def add(line):
        lines.append(line)
        ledger.post(line)

    first = date(draw.choice(FIRST_YEARS), 4, 1)
    accounts = sorted(draw.sample(ACCOUNTS, draw.choice((2, 2, 3, 4, 7))))
    suppliers = accounts[:draw.choice((1, 2, 2, len(accounts), len(accounts)))]
    add(f"{first} {TERMS}")
    for account in suppliers:
        mdq = draw.choice((2_700, 4_200))
        opening = draw.choice((0, 50_000, 780_000))
        add(f"{first} enrol account={account} wants-efbs mdq={mdq} opening={amount(opening)}")
    length, busy = draw.choice((1, 2, 5, 40, 95)), draw.choice((2, 4, 9))
    for _ in range(length):
        for line in day_of(draw, ledger, accounts, busy):
            add(line)
    for line in letters_of(draw, ledger, accounts, draw.choice((1, 9))):
        add(line)
    return lines


def crossing(draw, ledger):
    """A year without suppliers, then some days with two of them: transfers go until its last day, and not from the next on."""
    first, lines = RETIRED.replace(year=RETIRED.year - 1), []

    def add(line):
        lines.append(line)
        ledger.post(line)

    add(f"{first} {TERMS}")
    while ledger.day < RETIRED:
        if ledger.day + timedelta(days=3) >= RETIRED:
            add(transfer(draw, ledger, (0, 1)))
        add(closing(ledger.day))
    add(transfer(draw, ledger, (0, 1)))
    for account in (0, 1):
        add(f"{ledger.day} enrol account={account} wants-efbs mdq=4200 opening=1000.00")
    for _ in range(4):
        for line in day_of(draw, ledger, (0, 1), 9):
            add(line)
    return lines


def words_of(line):
    """An entry as the log has it: a notice or a transfer."""
    _, kind, *rest = line.split()
    values = dict(word.split("=") for word in rest if "=" in word)
    gas = f"gas {dth(whole(values['gas']))} Dth"
    if kind == "transfer":
        return f"transfer from {values['from']} to {values['to']}: {gas}"
    return f"notice account {values['account']} other {values['other']}, {rest[2]}: {gas}"


def in_log(checks, name, page, lines, ledger, account=None):
    """Every line of a notice or a transfer, in words; of a supplier's own log those that name it, without other banks."""
    found = re.findall(r"(?m)^ *(\d+)  (\S+)  (accepted|REFUSED \d+) +((?:notice|transfer) .*)$", page)
    due = []
    for told in ledger.log:
        line = lines[told.index]
        if told.kind in ("notice", "transfer") and (account is None or re.search(rf"(account|other|from|to)={account} ", line)):
            words = told.words if account is None else re.sub(rf"; bank (?!{account} )\d+ [^;]*", "", told.words)
            answer = f"REFUSED {told.number}" if told.number else "accepted"
            due.append((str(told.index), line[:10], answer, words_of(line) + words))
    wrong = next((pair for pair in zip(found, due) if pair[0] != pair[1]), None)
    checks.that(found == due, f"{name}: {len(found)} lines, due {len(due)}: {wrong}")


def cleared_in_log(checks, name, page, ledger):
    """What closings tell of the letters that went with them."""
    found, entry = [], None
    for line in page.split("\n"):
        head = re.match(r" *(\d+)  \d{4}-", line)
        entry = int(head[1]) if head else entry
        of_account = re.match(r" +account (\d+): ", line)
        for other, index in re.findall(r"letter to account (\d+), entry (\d+), goes unanswered", line):
            found.append((int(index), int(of_account[1]), int(other), entry))
    due = [(letter.index, letter.writer, letter.other, closed) for letter, closed in ledger.unanswered() if closed is not None]
    checks.that(sorted(found) == due, f"{name}: {set(found) ^ set(due)}")


def in_list(checks, name, archive, ledger, account=None):
    words = [] if account is None else ["--account", str(account)]
    concerned = [letter for letter in ledger.fates if account is None or account in (letter.writer, letter.other)]
    fates = Counter(ledger.fates[letter][0] for letter in concerned)
    answered, cleared, standing = (fates[fate] for fate in ("answered", "cleared", "stands"))
    unanswered = [(letter, closed) for letter, closed in ledger.unanswered() if letter in concerned]
    status, page, _ = run("letters", archive, *words)
    page = page.decode()
    rows = re.findall(r"(?m)^ *(\d+)  (\S+) +(\d+) +(\d+)  (gives|takes) +(\S+)  (.*)$", page)
    due = [(str(letter.index), letter.day.isoformat(), str(letter.writer), str(letter.other), letter.side, dth(letter.units),
            f"stands, and awaits account {letter.other}" if closed is None else f"cleared by the closing, entry {closed}")
           for letter, closed in unanswered]
    checks.that(status == 0 and rows == due, f"{name}: {rows}, due {due}")
    letters = "letter" if len(concerned) == 1 else "letters"
    last = (f"{len(concerned):,} {letters} came to stand: {answered:,} answered, {cleared:,} cleared unanswered, "
            f"{standing:,} standing")
    checks.that(page.split("\n")[-2] == last and page.count("\n") == len(due) + 3, f"{name}: {page}")
    checks.that(("No letter went unanswered." in page) == (not due), f"{name}: {page}")
    members = [{"entry": letter.index, "date": letter.day.isoformat(), "account": letter.writer, "other": letter.other,
                "side": letter.side, "gas": letter.units, "cleared_by": closed} for letter, closed in unanswered]
    told = json.loads(run("letters", archive, "--json", *words)[1])
    right = {"account": account, "letters": members, "answered": answered, "cleared": cleared, "standing": standing}
    checks.that(told == right and list(told) == list(right), f"{name}: {told}, due {right}")


def in_statement(checks, name, archive, ledger):
    """Both parties have the gas of two letters as that of a transfer, once, and the terms add up to the bank."""
    status, page, _ = run("statement", archive)
    checks.that(status == 0 and b"DIFFERS" not in page, f"{name}: every sum agrees")
    rows = {account: dict(rows) for account, rows in statement_rows(archive).items()}
    checks.that(sorted(rows) == sorted(ledger.bank), f"{name}: suppliers {sorted(rows)}")
    for account, terms in rows.items():
        moved = (sum(gas.units for gas in ledger.moved if gas.taker == account),
                 -sum(gas.units for gas in ledger.moved if gas.giver == account), ledger.bank[account])
        told = tuple(whole(terms[term]) for term in ("transfers in", "transfers out", "bank in the ledger"))
        checks.that(told == moved, f"{name}, supplier {account}: {told}, due {moved}")


def in_journal(checks, name, archive, ledger):
    """A transaction for each transfer and each pair of letters, at the entry that moves the gas."""
    found = re.findall(r"(?m)^(\S+) \((\d+)\) transfer\n +supplier:(\d\d):bank +-(\S+) DTH\n +supplier:(\d\d):bank +(\S+) DTH\n\n",
                       run("journal", archive)[1].decode())
    due = [(gas.day.isoformat(), str(gas.index), f"{gas.giver:02}", amount(gas.units), f"{gas.taker:02}", amount(gas.units))
           for gas in ledger.moved]
    checks.that(found == due, f"{name}: {set(found) ^ set(due)}")


def in_report(checks, name, archive, year, ledger):
    of_year = [letter for letter in ledger.fates if gas_year(letter.day) == year]
    page = run("report", archive, str(year))[1].decode()
    part = re.search(r"(?s)<h2>Letters without an answer</h2>(.*?)</section>", page)
    checks.that(bool(part) == bool(of_year), f"{name}, {year}: a part on letters")
    if not part:
        return
    rows = [re.findall("<t[hd].*?>(?:<time.*?>)?(.*?)(?:</time>)?</t[hd]>", row) for row in re.findall("<tr>(.*?)</tr>", part[1])]
    due = [[f"{letter.index:,}", letter.day.isoformat(), str(letter.writer), str(letter.other), letter.side, dth(letter.units),
            "–" if closed is None else f"entry {closed:,}"] for letter, closed in ledger.unanswered() if letter in of_year]
    checks.that(rows[1:] == due, f"{name}, {year}: {rows[1:]}, due {due}")
    fates = Counter(ledger.fates[letter][0] for letter in of_year)
    counts = [len(of_year)] + [fates[fate] for fate in ("answered", "cleared", "stands")]
    checks.that([int(number.replace(",", "")) for number in re.findall(r": ([\d,]+)[;.]", part[1])] == counts,
                f"{name}, {year}: {part[1][:300]}, due {counts}")


def gas_year(day):
    return day.year - (day.month < 4)


def pack(checks, folder, text):
    status, archive, told = run("pack", write(f"{folder}/notices.txt", text.encode()), "-o", "-")
    checks.that(status == 0, told)
    return write(f"{folder}/notices.efb", archive)


def compare(checks, folder, name, lines, ledger):
    archive = pack(checks, folder, "\n".join(["rules new", *lines]))
    page = run("log", archive)[1].decode()
    in_log(checks, name, page, lines, ledger)
    cleared_in_log(checks, name, page, ledger)
    in_list(checks, name, archive, ledger)
    for account in sorted(ledger.bank)[:2]:
        in_log(checks, f"{name}, account {account}", run("log", archive, "--account", str(account))[1].decode(), lines, ledger, account)
        in_list(checks, f"{name}, account {account}", archive, ledger, account)
    in_statement(checks, name, archive, ledger)
    in_journal(checks, name, archive, ledger)
    first = gas_year(date.fromisoformat(lines[0][:10]))
    for year in (first - 1, first, first + 1):
        in_report(checks, name, archive, year, ledger)


def random_texts(checks, folder, draw, tally):
    for number in range(TEXTS):
        ledger = Ledger(tally)
        lines = made(draw, ledger)
        compare(checks, folder, f"text {number}", lines, ledger)
        tally["standing at the end"] += bool(ledger.standing)
        tally["a pair and a transfer of the same gas"] += twice(ledger)
    for number in range(3):
        ledger = Ledger(tally)
        compare(checks, folder, f"crossing {number}", crossing(draw, ledger), ledger)


def twice(ledger):
    """Whether the same gas went from one to another on a day by a transfer and by two letters: each was accepted."""
    kinds = {told.index: told.kind for told in ledger.log}
    ways = {}
    for gas in ledger.moved:
        ways.setdefault(gas[1:], set()).add(kinds[gas.index])
    return any(len(way) == 2 for way in ways.values())


def sample(checks, folder):
    lines, ledger = of_text(read("samples/letters.txt").decode()), Ledger()
    answers = [ledger.post(line) for line in lines]
    checks.that([number for number in answers if number] == [26, 28, 24, 36], "what the sample has refused")
    checks.that(ledger.counts() == (6, 7, 1), f"its letters: {ledger.counts()}")
    compare(checks, folder, "the sample", lines, ledger)


def old_rules(checks, folder):
    """An old text has no notices, and takes transfers whenever they are."""
    for head in ("", "rules old\n"):
        text = f"{head}2027-04-01 notice account=0 other=1 gives gas=1.00\n"
        status, _, told = run("pack", write(f"{folder}/old.txt", text.encode()), "-o", f"{folder}/old.efb")
        checks.that(status == 1 and b"refused with 2: the kind is none of the nine. It is a kind of the new rules" in told, told)
    lines = [f"2027-04-01 {TERMS}", "2027-04-01 enrol account=0 wants-efbs mdq=4200 opening=10.00",
             "2027-04-01 enrol account=1 wants-efbs mdq=4200 opening=0.00", "2027-04-01 transfer from=0 to=1 gas=4.00"]
    for rules, answer in (("old", "accepted"), ("new", "REFUSED 36")):
        archive = pack(checks, folder, "\n".join([f"rules {rules}", *lines]))
        page = run("log", archive)[1].decode()
        checks.that(f"  {answer:<10}  transfer from 0 to 1" in page, f"{rules}: {page}")
        checks.that(run("letters", archive)[1] == b"No letter went unanswered.\n\n0 letters came to stand: 0 answered, "
                    b"0 cleared unanswered, 0 standing\n", f"{rules}: no letters")
        checks.that(b"Letters without" not in run("report", archive, "2027")[1], f"{rules}: no part of the report")


def main():
    folder, checks, tally = sys.argv[1], Checks("letters"), Counter()
    draw = random.Random(36)
    sample(checks, folder)
    random_texts(checks, folder, draw, tally)
    old_rules(checks, folder)
    checks.that(min(tally[case] for case in REACHED) > 2, f"every case: {tally}")
    answered = tally["the giver's answered"] + tally["the taker's answered"]
    checks.end(f"; {answered} letters answered, {tally['cleared']} cleared, "
               f"{tally['26'] + tally['26 that would match']} refused with 26, "
               f"{tally['28 of the giver'] + tally['28 of the taker']} with 28, {tally['36']} with 36")


main()
