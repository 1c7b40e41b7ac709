"""What a new ledger answers to holidays, measurements and closings, worked out from lines of text by Python's own calendar."""

import calendar
from datetime import date, timedelta

MOST_HELD = 16
WORDS = {33: "the holiday is no date of 2000 to 2099, or not after the ledger's date",
         34: "sixteen holidays are held already, or this one is",
         35: "the month would have no business day left from its 25th on"}


def real(text):
    """The date that a text names, if there is one in 2000 to 2099."""
    try:
        found = date.fromisoformat(text) if len(text) == 10 else None
    except ValueError:
        return None
    return found if found and 2000 <= found.year <= 2099 else None


def last_of_month(year, month):
    return calendar.monthrange(year, month)[1]


def measuring_day(year, month, held):
    """The first Monday to Friday from the 25th on that is not held; none if there is none."""
    days = (date(year, month, day) for day in range(25, last_of_month(year, month) + 1))
    return next((day for day in days if day.weekday() < 5 and day not in held), None)


class Ledger:
    """A new ledger as far as dates go. It answers lines of text, and counts what it meets."""

    def __init__(self, tally):
        self.tally, self.day, self.held, self.open = tally, None, [], set()
        self.named, self.closed, self.done, self.log = [], {}, set(), []

    def post(self, line):
        day, kind, *rest = line.split()
        values = dict(word.split("=") for word in rest if "=" in word)
        number, words = self.answer(date.fromisoformat(day), kind, values)
        self.log.append((number, kind, words))
        return number

    def answer(self, day, kind, values):
        if self.day is None:
            self.day = day
        if kind == "holiday":
            return self.holiday(values["on"])
        if kind == "terms":
            return 0, ""
        if kind in ("close-day", "close-month"):
            return self.closing(kind), ""
        # Of gas that moves the sample alone has lines, and they are right.
        if kind in ("transfer", "trade", "confiscated"):
            return 0, ""
        return self.of_account(kind, values.get("account")), ""

    def measured_on(self):
        return measuring_day(self.day.year, self.day.month, self.held)

    def is_moved(self):
        return self.measured_on() != measuring_day(self.day.year, self.day.month, [])

    def of_account(self, kind, account):
        if kind == "enrol":
            self.open.add(account)
        if kind == "measure" and self.day != self.measured_on():
            self.tally["23 on a holiday"] += self.day in self.held
            return 23
        if account not in self.open:
            return 24
        if (kind, account) in self.done:
            return 26
        self.tally["measured on a moved day"] += kind == "measure" and self.is_moved()
        self.done.add((kind, account))
        return 0

    def holiday(self, text):
        """The number, and what the log says after the day."""
        number, case = self.judged(text)
        named = real(text)
        self.tally[case] += 1
        if number:
            return number, f"{shown(text)}; {WORDS[number]}"
        before = measuring_day(named.year, named.month, self.held)
        self.held.append(named)
        self.named.append(named)
        after = measuring_day(named.year, named.month, self.held)
        self.tally["weekend named"] += named.weekday() >= 5
        if before == after:
            return 0, shown(text)
        self.tally["moved again" if before != measuring_day(named.year, named.month, []) else "moved"] += 1
        self.tally["moved over a weekend"] += (after - before).days > 2
        return 0, f"{shown(text)}; the measuring day moves from {before} to {after}"

    def judged(self, text):
        named = real(text)
        if named is None:
            return 33, "33 no date"
        if named <= self.day:
            return 33, "33 today" if named == self.day else "33 past"
        if named in self.held:
            return 34, "34 held"
        if len(self.held) == MOST_HELD:
            return 34, "34 seventeenth"
        if measuring_day(named.year, named.month, [*self.held, named]) is None:
            return 35, "35"
        return 0, "accepted"

    def closing(self, kind):
        last = self.day.day == last_of_month(self.day.year, self.day.month)
        if last != (kind == "close-month"):
            return 23
        wanted = ["deliver"] + ["measure"] * (self.day == self.measured_on()) + ["usage"] * last
        if any((want, account) not in self.done for want in wanted for account in self.open):
            self.tally["27 on a moved day"] += wanted[1:] == ["measure"] and self.is_moved()
            return 27
        self.done = {done for done in self.done if done[0] != "deliver" and not last}
        if last:
            self.closed[self.day.year, self.day.month] = self.measured_on()
            self.tally["closed moved"] += self.is_moved()
        self.day += timedelta(days=1)
        if last:
            kept = [held for held in self.held if held >= self.day]
            self.tally["dropped"] += len(kept) < len(self.held)
            self.tally["kept"] += bool(kept)
            self.held = kept
        return 0

    def months(self, year):
        """(day, moved) of each month of a gas year that has a measuring day."""
        for number in range(12):
            month = (year + (number + 3) // 12, (number + 3) % 12 + 1)
            is_to_come = month >= (self.day.year, self.day.month) and month[0] <= 2099
            found = self.closed.get(month) or (is_to_come and measuring_day(*month, self.held))
            if found:
                yield found, found != measuring_day(*month, [])


def shown(text):
    """The day as the log has it."""
    named = real(text)
    return f"on {named:%A} {text}" if named else f"on {text}"
