"""An archive of 20 MB, a hundred years of sixteen suppliers: every command ends well, and in time."""

import random
import sys
import time
from datetime import date

import entries
from checks import Checks, read, run, write

# Seconds; hundred times what it takes, since a gate's machine may be slow.
GENEROUS = 60


def main():
    folder, checks = sys.argv[1], Checks("large")
    made = entries.years(date(2000, 4, 1), date(2099, 12, 30), 16, random.Random(2099))
    packed = entries.archive(made)
    archive, text, again = (f"{folder}/{name}" for name in ("large.efb", "large.txt", "again.efb"))
    write(archive, packed)
    checks.that(len(packed) > 20_000_000, "the archive is large")
    times = []
    for command in (
        ["panel", archive], ["log", archive], ["statement", archive], ["journal", archive], ["sheet", archive, "2050"],
        ["report", archive, "2050"], ["partners", archive, "--seller", "0", "--quantity", "1"], ["letters", archive],
        ["unpack", archive, "-o", text], ["pack", text, "-o", again],
    ):
        begun = time.monotonic()
        status, out, _ = run(*command)
        seconds = time.monotonic() - begun
        times.append(f"{command[0]} {seconds:.1f} s")
        checks.that(status == 0, f"{command[0]} ends well")
        checks.that(seconds < GENEROUS, f"{command[0]} takes {seconds:.1f} s")
        if command[0] == "panel":
            checks.that(out.split()[:2] == [str(len(made)).encode(), b"0"], "every entry is accepted")
        if command[0] == "statement":
            checks.that(out.count(b"agrees\n") == 3 * 16 + 1 and b"DIFFERS" not in out, "every sum agrees")
        if command[0] == "report":
            checks.that(out.count(b"<path class=\"bank\" d=\"M") == 16 + 1, "a chart for every supplier, and the legend's line")
            checks.that(out.count(b"sums and ledger agree") == 16, "every statement of the report agrees")
    checks.that(read(again) == packed, "the archive comes back byte for byte")
    checks.end(f"; {len(packed):,} bytes: " + ", ".join(times))


main()
