"""What README shows of efbs is what it prints, from the places where tools/build puts things."""

import re
import sys

from checks import Checks, read, run

BUILT, ARCHIVES = "target/bin/efbs", ("target/gas-year.efb", "target/holiday-year.efb", "target/letters.efb")


def main():
    folder, checks = sys.argv[1], Checks("readme")
    readme = read("README.md").decode()
    made = read("tools/build").decode()
    for place in (BUILT, *ARCHIVES):
        checks.that(place in made and place in readme, f"tools/build makes {place}, and README uses it")
    counts = {}
    for shown in re.finditer(rf"(?m)^    \$ {BUILT} (.*)\n((?:    .*\n|\n)+)", readme):
        words = [re.sub("^target(?=/)", folder, word) for word in shown[1].split()]
        printed = iter(run(*words)[1].decode().split("\n"))
        lines = [line[4:] for line in shown[2].split("\n") if line.strip(" .")]
        for line in lines:
            # Lines may be left out between those that are shown, but only these.
            checks.that(line in printed, f"README shows {line!r}")
        counts[words[0]] = len(lines)
    panel = re.search(r"`panel` \(the panel's line, here `(.*?)`", readme)
    line = run("panel", f"{folder}/gas-year.efb")[1].decode()
    checks.that(line == f"{panel[1]}\n", f"README's line of the panel, {panel[1]}")
    checks.that(counts.get("statement", 0) > 15, "README shows a statement")
    checks.that(counts.get("backcast", 0) > 4, "README shows back-casts")
    checks.that(counts.get("partners", 0) > 5, "README shows partners")
    checks.that(counts.get("sheet", 0) > 1, "README shows measuring days")
    checks.that(counts.get("letters", 0) > 5, "README shows letters")
    readings = re.search(r"`(--temperatures \S+)`", readme)[1].split()
    status, page, _ = run("backcast", "--base", "520", "--slope", "61.75", "--turning", "65", *readings)
    checks.that(status == 0 and len(page.split(b"\n")) > 10, "README's readings have their back-casts")
    checks.that("removes the static library" in readme, "README says what the gate leaves of the build")
    checks.end()


main()
