"""The statement's terms added up from the sample's text by another program: entry by entry as R62 counts
them, with refusals, cash, forfeits and bills as the log tells them. So a movement under a wrong name is noticed too."""

import re
import sys

from checks import Checks, read, run, statement_rows

NAMES = (
    "opening", "deliveries less back-casts, after retainage", "company sales to it", "company purchases from it",
    "transfers in", "transfers out", "cash-ins", "cash-outs", "forfeits",
)
OPENING, DELIVERIES, SALES, PURCHASES, IN, OUT, CASH_INS, CASH_OUTS, FORFEITS = NAMES


def whole(amount):
    """An amount without its point: hundredths of a Dth, mills."""
    return int(amount.replace(",", "").replace(".", ""))


def entries(text):
    """Kind, words and values of each line that is an entry."""
    for line in text.split("\n"):
        words = line.split("#")[0].split()
        if words and words[0] != "rules":
            values = dict(word.split("=") for word in words[2:] if "=" in word)
            yield words[1], [word for word in words[2:] if "=" not in word], values


def retained(retainage, difference):
    """Rounded toward zero."""
    size = abs(difference) * (10_000 - retainage) // 10_000
    return size if difference >= 0 else -size


def posted(sums, kind, words, values, retainage):
    account = int(values.get("account", 0))
    if kind == "enrol":
        sums[account] = dict.fromkeys(NAMES, 0) | {OPENING: whole(values["opening"])}
    elif kind == "deliver":
        sums[account][DELIVERIES] += retained(retainage, whole(values["delivered"]) - whole(values["back-cast"]))
    elif kind == "trade" and words == ["company-sells"]:
        sums[account][SALES] += whole(values["gas"])
    elif kind == "trade":
        sums[account][PURCHASES] -= whole(values["gas"])
    elif kind == "transfer":
        sums[int(values["from"])][OUT] -= whole(values["gas"])
        sums[int(values["to"])][IN] += whole(values["gas"])


def reported(sums, log):
    """Cash and forfeits of every closing, as the log has them."""
    signs = {"cash-in": (CASH_INS, 1), "cash-out": (CASH_OUTS, -1), "forfeit": (FORFEITS, -1)}
    for account, told in re.findall(r"^ +account (\d+): (.*)$", log, re.M):
        for what, amount in re.findall(r"(cash-in|cash-out|forfeit) ([\d,.]+) Dth", told):
            name, sign = signs[what]
            sums[int(account)][name] += sign * whole(amount)


def added_up(text, log):
    refused = {int(index) for index in re.findall(r"^ *(\d+)  \S+  REFUSED", log, re.M)}
    sums, retainage = {}, 0
    for index, (kind, words, values) in enumerate(entries(text)):
        if index in refused:
            continue
        if kind == "terms":
            retainage = whole(values["retainage"].rstrip("%"))
        posted(sums, kind, words, values, retainage)
    reported(sums, log)
    return sums


def main():
    text, archive = sys.argv[1:]
    checks = Checks("terms")
    sums = added_up(read(text).decode(), run("log", archive)[1].decode())
    told = statement_rows(archive)
    checks.that(sorted(sums) == sorted(told), f"suppliers {sorted(told)}")
    for account, rows in told.items():
        shown = {name: whole(amount) for name, amount in rows if name in NAMES}
        checks.that(shown == sums.get(account), f"supplier {account}: {shown}, added up here {sums.get(account)}")
    for name in NAMES:
        checks.that(any(terms[name] != 0 for terms in sums.values()), f"the sample shows {name}")
    checks.end()


main()
