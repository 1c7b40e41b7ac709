"""Journals read by hledger and by ledger: both accept them, find the statement's balances, and notice a wrong figure."""

import random
import re
import subprocess
import sys
from datetime import date

import entries
from checks import Checks, read, run, statement_rows, write

MARCH = date(2027, 3, 31)
# A statement's line, and the account of the journal that must hold the same, with the sign that it has there.
TERMS = {
    "opening": ("openings:NN", -1),
    "deliveries less back-casts, after retainage": ("deliveries:NN", -1),
    "company sales to it": ("company:sales:NN", -1),
    "company purchases from it": ("company:purchases:NN", -1),
    "cash-ins": ("company:cash-ins:NN", -1),
    "cash-outs": ("company:cash-outs:NN", -1),
    "forfeits": ("company:forfeits:NN", -1),
    "bank in the ledger": ("supplier:NN:bank", 1),
    "owed in the ledger": ("supplier:NN:owed", 1),
}
# Accepts or refuses a journal; then prints "account|amount" for every account.
PROGRAMS = {
    "hledger": (["check", "--strict"], ["balance", "--flat", "--no-total", "--empty", "--format", "%(account)|%(total)"]),
    "ledger": (["--pedantic", "balance"], ["balance", "--flat", "--no-total", "--empty", "--format", "%(account)|%(display_total)\n"]),
}


def accounting(program, arguments, journal):
    return subprocess.run([program, "-f", journal, *arguments], stdout=subprocess.PIPE, stderr=subprocess.PIPE, text=True)


def thousandths(text):
    """A decimal with two or three places as a whole number, so that nothing is rounded."""
    whole, _, part = text.replace(",", "").partition(".")
    return int(whole + part.ljust(3, "0"))


def balances(program, journal):
    """Account to balance, in thousandths."""
    lines = accounting(program, PROGRAMS[program][1], journal).stdout.split("\n")
    pairs = (line.strip().split("|") for line in lines if "|" in line)
    return {account: thousandths(amount.split()[0]) for account, amount in pairs}


def statement_terms(archive):
    """(supplier, line) to amount, in thousandths."""
    every = ((supplier, name, amount) for supplier, rows in statement_rows(archive).items() for name, amount in rows)
    return {(supplier, name): thousandths(amount) for supplier, name, amount in every if name in TERMS}


def wrong_figures(journal):
    """The journal with one asserted balance off by its smallest part: the first bank, the last bank, the last owed."""
    places = [match for match in re.finditer(r"= (-?\d+\.\d+)(?= (DTH|USD))", journal)]
    banks = [place for place in places if place[2] == "DTH"]
    for place in (banks[0], banks[-1], places[-1]):
        last = place.end() - 1
        digit = str((int(journal[last]) + 1) % 10)
        yield journal[:last] + digit + journal[last + 1:]


def compare(checks, program, journal, terms):
    """The program accepts the journal, and every term of the statement is a balance."""
    accepted = accounting(program, PROGRAMS[program][0], journal)
    checks.that(accepted.returncode == 0, f"{program} accepts {journal}: {accepted.stderr}")
    held = balances(program, journal)
    for (supplier, line), amount in terms.items():
        account, sign = TERMS[line]
        balance = held.get(account.replace("NN", f"{supplier:02}"), 0)
        checks.that(sign * balance == amount, f"{program}, {journal}: {line} of supplier {supplier}: {balance}, not {amount}")


def main():
    (folder, sample, holidays, letters), checks = sys.argv[1:], Checks("journal")
    made = entries.years(date(2026, 4, 1), date(2027, 12, 31), 16, random.Random(5))
    many = write(f"{folder}/many.efb", entries.archive(made))
    filled = entries.with_confiscations(entries.filled((0, 7), MARCH), [(MARCH, 0, 123_456), (MARCH, 7, 10**9)])
    new = write(f"{folder}/new.efb", entries.archive(filled, entries.NEW))
    for archive, suppliers in ((sample, 4), (holidays, 4), (letters, 3), (many, 16), (new, 2)):
        journal = write(f"{archive}.journal", run("journal", archive)[1])
        terms = statement_terms(archive)
        checks.that(len(terms) == suppliers * len(TERMS), f"the statement of {archive} has every term of {suppliers} suppliers")
        for program in PROGRAMS:
            compare(checks, program, journal, terms)
    for program, (accepts, _) in PROGRAMS.items():
        for number, wrong in enumerate(wrong_figures(read(f"{sample}.journal").decode())):
            refused = accounting(program, accepts, write(f"{folder}/wrong.journal", wrong.encode()))
            noticed = refused.returncode != 0 and "assertion" in refused.stderr
            checks.that(noticed, f"{program} notices wrong figure {number}")
    checks.end()


main()
