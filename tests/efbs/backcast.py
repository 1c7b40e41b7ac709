"""Back-casts by Python's own doubles: random curves and temperatures as decimals, figure by figure. Damaged texts of
readings, read here once more. Printed back-casts in deliver lines, packed and read back."""

import csv
import math
import random
import re
import sys
from fractions import Fraction

from checks import Checks, run, write

CURVES, TEMPERATURES, DAMAGED = 240, 60, 120
ACCOUNTS, DAYS = 16, 4
MOST_UNITS = 10**9
# So many characters of a word are shown on a page.
CUT = 60
LABELS = ("", "06:00", "2026-12-01", "account=3", "31.7", "a,b", '6"')
USUAL = ("520", "61.75", "65")
TEXT = b"\xef\xbb\xbf# Gate 4\r\n06:00 31.7 # early\r\n\r\n\t12:00\t-3.5\n65\naccount=3 +65.01\r\n2026-12-01 0.29\n-0 95"
TERMS = ("2026-04-01 terms no-notice=120000 design-day=480000 storage=5000400 retainage=1.50% "
         "demand-rate=12.550 commodity-rate=0.032")


def decimal(draw, digits, places):
    """As many digits at most before and after the point, and any sign."""
    text = draw.choice(("", "", "", "+", "-")) + str(draw.randrange(10**draw.randint(1, digits)))
    length = draw.randint(0, places)
    return f"{text}.{draw.randrange(10**length):0{length}}" if length else text


def usual(draw):
    """A curve as there are: hundredths of a Dth and tenths of a degree."""
    curve = (draw.randrange(10**6) / 100, draw.randrange(10**5) / 100, draw.randrange(600, 700) / 10)
    base, slope, turning = (f"{number:.{places}f}" for number, places in zip(curve, (2, 2, 1)))
    return (base, slope, turning), [f"{draw.randrange(-200, 700) / 10:.1f}" for _ in range(TEMPERATURES)]


def any_numbers(draw):
    """Some of the temperatures are the turning one, spelt otherwise."""
    digits, places = draw.choice(((2, 3), (4, 8), (6, 2), (9, 25)))
    curve = tuple(decimal(draw, digits, places) for _ in range(3))
    turning = curve[2] if "." in curve[2] else curve[2] + ".0"
    return curve, [draw.choice((decimal(draw, digits, places), turning + "0" * draw.randrange(40)))
                   for _ in range(TEMPERATURES)]


def huge_numbers(draw):
    """Around the largest double, and far beyond it."""
    def number():
        return draw.choice((decimal(draw, 3, 3), decimal(draw, 305, 3), decimal(draw, 400, 3), "9" * 308, "-" + "9" * 309))
    return tuple(draw.choice((one, one, number())) for one in USUAL), [number() for _ in range(TEMPERATURES)]


def units(dth):
    """In the text, as efbs says that it does."""
    return float(dth + "e2")


def answer(curve, temperature, units=units):
    """The number, and where that is 0 the back-cast as text: each operation is rounded, as doubles are."""
    base, slope, turning, degrees = units(curve[0]), units(curve[1]), float(curve[2]), float(temperature)
    if not all(map(math.isfinite, (base, slope, turning, degrees))):
        return 31, ""
    return cut_down(base + slope * (turning - degrees) if degrees < turning else base)


def exact_answer(curve, temperature):
    """The same with nothing rounded on the way."""
    base, slope, turning, degrees = map(Fraction, (*curve, temperature))
    return cut_down(100 * (base + slope * max(turning - degrees, 0)))


def cut_down(load):
    if not 0 <= load <= MOST_UNITS:
        return 32, ""
    whole = math.floor(load)
    return 0, f"{whole // 100}.{whole % 100:02}"


class Tally:
    """Readings by their number, and figures that another rounding would change."""

    def __init__(self):
        self.numbers, self.multiplied, self.unrounded, self.printed = {0: 0, 31: 0, 32: 0}, 0, 0, []

    def add(self, curve, temperature, due, amount):
        self.numbers[due[0]] += 1
        if due[0] == 0:
            self.printed.append(amount)
            self.multiplied += answer(curve, temperature, lambda dth: float(dth) * 100) != due
            self.unrounded += exact_answer(curve, temperature) != due


def words_of(curve):
    base, slope, turning = curve
    return ["backcast", "--base", base, "--slope=" + slope, "--turning", turning]


def csv_rows(out):
    """Label, temperature, amount and number of each reading, below a line of names."""
    names, *rows = csv.reader(out.split("\n")[:-1])
    return rows if names == ["label", "temperature", "back-cast", "number"] else [names]


def page_rows(out, labelled):
    """The same of a page, below the curve, an empty line and a line of names."""
    rows = []
    for line in out.split("\n")[3:-1]:
        words = line.split()
        label = words.pop(0) if labelled and not line.startswith(" ") else ""
        refused = words[1:3] == ["refused", "with"]
        rows.append([label, words[0], "", words[3].rstrip(":")] if refused else [label, *words, "0"])
    return rows


def compare(checks, folder, draw, drawn, tally):
    """The readings of one curve, in the command line or in a file, on a page or separated by commas."""
    curve, temperatures = drawn(draw)
    in_file, as_csv = draw.random() < 0.5, draw.random() < 0.5
    labels = [draw.choice(LABELS) if in_file else "" for _ in temperatures]
    words = words_of(curve) + ["--csv"] * as_csv
    if in_file:
        lines = "".join(f"{label} {temperature}\n" for label, temperature in zip(labels, temperatures))
        words += ["--temperatures", write(f"{folder}/readings", lines.encode())]
    else:
        words += temperatures
    status, out, told = run(*words)
    rows = csv_rows(out.decode()) if as_csv else page_rows(out.decode(), any(labels))
    due = [answer(curve, temperature) for temperature in temperatures]
    refused = sum(number != 0 for number, _ in due)
    count = f"efbs: {refused} of {len(due)} readings refused".encode() if refused else b""
    checks.that(status == bool(refused) and told.startswith(count) and bool(told) == bool(count), f"{status}, {told}: {words}")
    checks.that(len(rows) == len(due), f"{len(rows)} rows of {len(due)}: {words}")
    for row, label, temperature, (number, amount) in zip(rows, labels, temperatures, due):
        shown = temperature if as_csv or len(temperature) <= CUT else temperature[:CUT] + "…"
        checks.that(row == [label, shown, amount, str(number)], f"{row} of {curve} is due {number} {amount}")
        tally.add(curve, temperature, (number, amount), row[2])


def read_here(content):
    """Labels and temperatures of a text, and the number of the first line that is wrong, or 0."""
    found = []
    for number, line in enumerate(content.decode(errors="replace").split("\n"), 1):
        plain = re.sub(r"(?s)(^|(?<=[ \t\r]))#.*", "", line.removeprefix("\ufeff"))
        words = [word for word in re.split("[ \t\r]", plain) if word]
        if words and not (len(words) < 3 and re.fullmatch(r"[+-]?[0-9]+(\.[0-9]+)?", words[-1])):
            return found, number
        if words:
            found.append((words[0] if words[1:] else "", words[-1]))
    return found, 0


def damaged(checks, folder, draw):
    """Texts with a bit turned, some with their end cut off: read as here, or told by the same line. Nothing is shown that
    a terminal would obey."""
    seen = {0: 0, 1: 0}
    for _ in range(DAMAGED):
        content = bytearray(TEXT[:draw.choice((len(TEXT), draw.randrange(1, len(TEXT))))])
        content[draw.randrange(len(content))] ^= 1 << draw.randrange(8)
        path = write(f"{folder}/damaged", content)
        status, out, told = run(*words_of(USUAL), "95", "--csv", "--temperatures", path)
        found, wrong = read_here(content)
        place = re.search(r"damaged, line (\d+), column \d+: expected ", told.decode())
        due = (1, str(wrong)) if wrong else (0, None)
        checks.that((status, place and place[1]) == due, f"{content}: {told}, due {due}")
        checks.that(not re.search(rb"[\0-\x09\x0b-\x1f\x7f]", out + told), f"{content}: {out + told}")
        if not wrong:
            same_readings(checks, csv_rows(out.decode()), [("", "95"), *found])
        seen[status] += 1
    checks.that(min(seen.values()) > 20, f"texts that are still right and texts that are not, both: {seen}")


def same_readings(checks, rows, readings):
    due = [[label, temperature, amount, str(number)] for label, temperature in readings
           for number, amount in [answer(USUAL, temperature)]]
    for row, (label, *_) in zip(rows, due):
        # What does not print is escaped.
        if not (label.isascii() and label.isprintable()):
            row[0] = label
    checks.that(rows == due, f"{rows}, due {due}")


def delivered(checks, folder, amounts):
    """Back-casts as efbs printed them, each in a deliver line: packed, unpacked and in the log."""
    lines = [TERMS, *(f"2026-04-01 enrol account={account} wants-efbs mdq=4200 opening=0.00" for account in range(ACCOUNTS))]
    for day in range(DAYS):
        date = f"2026-04-{day + 1:02}"
        for account, amount in enumerate(amounts[day * ACCOUNTS:(day + 1) * ACCOUNTS]):
            lines.append(f"{date} deliver account={account} delivered={amount} back-cast={amount}")
        lines.append(f"{date} close-day")
    archive = f"{folder}/delivered.efb"
    status, _, told = run("pack", write(f"{folder}/delivered.txt", "\n".join(lines).encode()), "-o", archive)
    checks.that(status == 0, f"printed back-casts are packed: {told}")
    checks.that(run("unpack", archive)[1].decode().split("\n")[1:-1] == lines, "and unpacked")
    log = run("log", archive)[1].decode()
    logged = re.findall(r"accepted +deliver account \d+: delivered \S+ Dth, back-cast (\S+) Dth;", log)
    checks.that([amount.replace(",", "") for amount in logged] == amounts, f"and accepted: {logged}")


def main():
    folder, checks, draw, tally = sys.argv[1], Checks("backcast"), random.Random(31), Tally()
    for number in range(CURVES):
        compare(checks, folder, draw, (usual, any_numbers, usual, huge_numbers)[number % 4], tally)
    damaged(checks, folder, draw)
    ends = [choose(tally.printed, key=float) for choose in (min, max)]
    delivered(checks, folder, ends + draw.sample(tally.printed, ACCOUNTS * DAYS - len(ends)))
    counts = tally.numbers
    checks.that(min(counts.values()) > 500, f"figures, and refusals with either number: {counts}")
    checks.that(tally.multiplied > 50 and tally.unrounded > 50, "figures that another rounding would change")
    checks.end(f"; {counts[0]:,} figures, {tally.multiplied} of them others if doubles of Dth were multiplied, "
               f"{tally.unrounded} if nothing were rounded; {counts[31]:,} readings refused with 31, {counts[32]:,} with 32")


main()
