"""Archives to text and back: the sample, the archives of tests/panel and lists made at random."""

import glob
import random
import re
import sys

import entries
from checks import Checks, read, run, write

LISTS = 300


def same_bytes(checks, name, packed, folder):
    """Unpacked and packed again, an archive is the same."""
    path, text, again = (f"{folder}/{part}" for part in ("a.efb", "a.txt", "b.efb"))
    write(path, packed)
    checks.that(run("unpack", path, "-o", text)[0] == 0, f"{name} unpacks")
    checks.that(run("pack", text, "-o", again)[0] == 0, f"{name} packs again")
    checks.that(read(again) == packed, f"{name} comes back byte for byte")


def panel_cases(checks, folder):
    """Every stored archive: the panel's line is the stored one, and an accepted archive comes back."""
    for path in sorted(glob.glob("tests/panel/cases/*.efb")):
        line = read(path.replace(".efb", ".out"))
        status, out, _ = run("panel", path)
        refused = line.startswith(b"archive")
        checks.that((out, status) == (line, 1 if refused else 0), f"the panel's line of {path}")
        if not refused:
            same_bytes(checks, path, read(path), folder)


def sample(checks, folder):
    """The sample's text has the entries that unpack writes, and packs to the archive that the year sheets were told from."""
    stored = read("crates/sheets/stdin")
    packed, unpacked = f"{folder}/sample.efb", f"{folder}/sample.txt"
    checks.that(run("pack", "samples/gas-year.txt", "-o", packed)[0] == 0, "the sample packs")
    checks.that(read(packed) == stored, "the sample's bytes")
    checks.that(run("unpack", packed, "-o", unpacked)[0] == 0, "the sample unpacks")
    lines = [line for line in read("samples/gas-year.txt").split(b"\n") if line and not line.startswith(b"#")]
    checks.that([line for line in read(unpacked).split(b"\n") if line] == [b"rules old", *lines], "the sample's lines")


def new_sample(checks, folder, name):
    """A sample of new rules has the entries that unpack writes, its line of the rules among them."""
    text, packed = f"samples/{name}.txt", f"{folder}/new-sample.efb"
    checks.that(run("pack", text, "-o", packed)[0] == 0, f"{text} packs")
    lines = [line for line in read(text).split(b"\n") if line and not line.startswith(b"#")]
    checks.that([line for line in run("unpack", packed)[1].split(b"\n") if line] == lines, f"the lines of {text}")
    same_bytes(checks, text, read(packed), folder)


def documented(checks, folder):
    """The examples in docs/TEXT-FORMAT.md: a line of each kind, written as unpack writes it."""
    text, packed = f"{folder}/documented.txt", f"{folder}/documented.efb"
    lines = re.findall(r"(?m)^    (rules new|\d{4}-\d\d-\d\d .*)$", read("docs/TEXT-FORMAT.md").decode())
    checks.that(lines[0] == "rules new", "an example of the rules, before those of the kinds")
    checks.that(len({line.split()[1] for line in lines[1:]}) == entries.LAST_KIND, "an example of each kind")
    write(text, "\n".join(lines).encode())
    checks.that(run("pack", text, "-o", packed)[0] == 0, "the examples pack")
    unpacked = run("unpack", packed)[1].decode().split("\n")
    checks.that([line for line in unpacked if line] == lines, "the examples are written as unpack writes them")


def main():
    folder, checks = sys.argv[1], Checks("round trip")
    sample(checks, folder)
    for name in ("holiday-year", "letters"):
        new_sample(checks, folder, name)
    documented(checks, folder)
    panel_cases(checks, folder)
    draw = random.Random(32)
    for number in range(LISTS):
        made = [entries.any_entry(draw) for _ in range(draw.randrange(60))]
        same_bytes(checks, f"list {number}", entries.archive(made), folder)
    for number in range(LISTS):
        made = [entries.any_entry(draw, entries.LAST_KIND) for _ in range(draw.randrange(60))]
        same_bytes(checks, f"new list {number}", entries.archive(made, entries.NEW), folder)
    checks.end()


main()
