"""What a new ledger answers to notices, transfers and the entries between them, worked out from lines of text alone; which
letters stand, what answers them and what becomes of the others. Of gas it follows what is delivered and passed on: its texts
have no retainage and no trades, and no closing of theirs may find a violation that moves gas."""

from collections import Counter, namedtuple
from datetime import date, timedelta

from entries import measurement_day

RETIRED = date(2027, 4, 1)
# In Dth, by MDQ: for the terms of these texts the first step and the second.
BCQ = {2_700: 31_252, 4_200: 62_505}
# Percent of the BCQ between which gas may move a bank, January first.
LEAST = (59, 36, 18, 0, 0, 14, 34, 54, 75, 88, 95, 78)
MOST = (98, 65, 45, 25, 60, 60, 60, 85, 85, 98, 98, 98)
WORDS = {22: "not the ledger's date",
         24: "the account is not open, or is to be enrolled and is open already",
         26: "a second delivery or confiscation that day, measurement or usage that month, or notice while the first stands",
         28: "the opening, transfer, trade or gas of two notices would pass its limit",
         36: "new rules have no transfer from 1 April 2027 on, but a notice of each party"}
OTHER_SIDE = {"gives": "takes", "takes": "gives"}

Letter = namedtuple("Letter", "index day writer other side units")
# Gas that moves from bank to bank at an entry.
Moved = namedtuple("Moved", "index day giver taker units")
# An entry of the log: its place, the number, and the words after the entry itself.
Told = namedtuple("Told", "index number kind words")


def whole(amount):
    return int(amount.replace(",", "").replace(".", ""))


def dth(units):
    sign, size = "-" if units < 0 else "", abs(units)
    return f"{sign}{size // 100:,}.{size % 100:02}"


def ends_month(day):
    return (day + timedelta(days=1)).day == 1


class Ledger:
    """A new ledger as far as letters go. It answers lines of text, and counts what it meets."""

    def __init__(self, tally=None):
        self.tally = Counter() if tally is None else tally
        self.day, self.index, self.mdq, self.bank, self.done = None, -1, {}, {}, set()
        self.standing, self.fates, self.moved, self.log = [], {}, [], []

    def post(self, line):
        day, kind, *rest = line.split()
        values = dict(word.split("=") for word in rest if "=" in word)
        words = [word for word in rest if "=" not in word]
        self.index += 1
        number, told = self.answer(date.fromisoformat(day), kind, words, values)
        self.log.append(Told(self.index, number, kind, told or (f"; {WORDS[number]}" if number in WORDS else "")))
        return number

    def answer(self, day, kind, words, values):
        """The number, and what the log says of an accepted entry that passes gas on."""
        self.day = self.day or day
        if day != self.day:
            self.tally["22"] += 1
            return 22, ""
        if kind == "notice":
            return self.notice(int(values["account"]), int(values["other"]), words[0], whole(values["gas"]))
        if kind == "transfer":
            return self.transfer(int(values["from"]), int(values["to"]), whole(values["gas"]))
        if kind == "terms":
            return 0, ""
        if kind in ("close-day", "close-month"):
            return self.closing(), ""
        return self.of_account(kind, int(values["account"]), values), ""

    def of_account(self, kind, account, values):
        if kind == "enrol":
            self.mdq[account], self.bank[account] = int(values["mdq"]), whole(values["opening"])
            return 0
        if kind == "measure" and self.day != measurement_day(self.day):
            return 23
        if account not in self.bank:
            return 24
        if (kind, account) in self.done:
            return 26
        self.done.add((kind, account))
        if kind == "deliver":
            self.bank[account] += whole(values["delivered"]) - whole(values["back-cast"])
        return 0

    def bcq(self, account):
        return BCQ[self.mdq[account]]

    def can_give(self, account, units):
        return self.bank[account] - units >= LEAST[self.day.month - 1] * self.bcq(account)

    def can_take(self, account, units):
        return self.bank[account] + units <= MOST[self.day.month - 1] * self.bcq(account)

    def transfer(self, giver, taker, units):
        if self.day >= RETIRED:
            self.tally["36"] += 1
            self.tally["36 of accounts that are not open"] += not {giver, taker} <= set(self.bank)
            return 36, ""
        if not {giver, taker} <= set(self.bank):
            return 24, ""
        if not (self.can_give(giver, units) and self.can_take(taker, units)):
            return 28, ""
        self.tally["transfer"] += 1
        self.tally["transfer beside letters"] += bool(self.standing)
        return 0, self.move(giver, taker, units)

    def move(self, giver, taker, units):
        """What the log says of both banks."""
        self.bank[giver] -= units
        self.bank[taker] += units
        self.moved.append(Moved(self.index, self.day, giver, taker, units))
        return "".join(f"; bank {account} {way} {dth(units)} to {dth(self.bank[account])} Dth"
                       for account, way in ((giver, "down"), (taker, "up")))

    def notice(self, writer, other, side, units):
        letter = Letter(self.index, self.day, writer, other, side, units)
        counterpart = next((known for known in self.standing if answers(letter, known)), None)
        giver, taker = (writer, other) if side == "gives" else (other, writer)
        if not {writer, other} <= set(self.bank):
            self.tally["24"] += 1
            return 24, ""
        if any(known.writer == writer for known in self.standing):
            self.tally["26 that would match" if counterpart else "26"] += 1
            return 26, ""
        if counterpart is None:
            return self.stand(letter)
        if not (self.can_give(giver, units) and self.can_take(taker, units)):
            self.tally["28 of the giver" if not self.can_give(giver, units) else "28 of the taker"] += 1
            return 28, ""
        self.standing.remove(counterpart)
        self.fates[counterpart] = ("answered", self.index)
        self.tally["the giver's answered" if counterpart.side == "gives" else "the taker's answered"] += 1
        return 0, f"; answers entry {counterpart.index}: account {giver} gives to account {taker}" + self.move(giver, taker, units)

    def stand(self, letter):
        of_other = [known for known in self.standing if known.writer == letter.other]
        for known in of_other:
            if known.other != letter.writer:
                self.tally["the other's is to a third"] += 1
            else:
                self.tally["the same side" if known.side == letter.side else "another quantity"] += 1
        self.tally["no letter of the other"] += not of_other
        self.tally["anew on a day of an answer"] += any(known.writer == letter.writer and known.day == self.day
                                                        for known in self.fates)
        self.standing.append(letter)
        self.fates[letter] = ("stands", None)
        due = f"account {letter.other} {OTHER_SIDE[letter.side]}"
        return 0, f"; stands until the day closes, and awaits that {due} as much"

    def closing(self):
        wanted = ["deliver"] + ["measure"] * (self.day == measurement_day(self.day)) + ["usage"] * ends_month(self.day)
        if any((want, account) not in self.done for want in wanted for account in self.bank):
            self.tally["27 keeps letters"] += bool(self.standing)
            return 27
        for account, bank in self.bank.items():
            assert 0 <= bank <= 102 * self.bcq(account), f"{self.day}: bank {account} at {dth(bank)} moves by itself"
        for letter in self.standing:
            self.fates[letter] = ("cleared", self.index)
        self.tally["cleared"] += len(self.standing)
        self.standing = []
        self.done = {done for done in self.done if done[0] != "deliver" and not ends_month(self.day)}
        self.day += timedelta(days=1)
        return 0

    def unanswered(self):
        """Each letter that no letter answered, in the order in which they came, with its closing or None."""
        return [(letter, entry) for letter, (fate, entry) in self.fates.items() if fate != "answered"]

    def counts(self):
        """Those answered, cleared and standing."""
        fates = Counter(fate for fate, _ in self.fates.values())
        return tuple(fates[fate] for fate in ("answered", "cleared", "stands"))


def answers(letter, known):
    return (letter.writer, letter.other, letter.side, letter.units) == (
        known.other, known.writer, OTHER_SIDE[known.side], known.units)
