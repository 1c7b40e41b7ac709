"""Damaged files put to every command: it ends with 0, 1 or 2 and never crashes (checks.run sees to that)."""

import os
import random
import sys
from concurrent.futures import ThreadPoolExecutor
from datetime import date

import entries
from checks import Checks, run, write

READERS = (
    ["panel", "FILE"], ["unpack", "FILE"], ["log", "FILE"], ["statement", "FILE"], ["journal", "FILE"], ["sheet", "FILE", "2026"],
    ["report", "FILE", "2026"], ["letters", "FILE"], ["letters", "FILE", "--json"],
)
# These answer in their own way: the damage may have taken the account's enrolment, and a text is no archive.
OTHERS = (
    ["log", "FILE", "--account", "0", "--refused"], ["letters", "FILE", "--account", "1"], ["partners", "FILE", "--seller", "0", "--quantity", "1"],
    ["pack", "FILE", "-o", "-"],
    ["backcast", "--base", "520", "--slope", "61.75", "--turning", "65", "31.7", "--temperatures", "FILE"],
)
COMMANDS = READERS + OTHERS
PREFIXES, FLIPS, NOISES = 200, 150, 50
APRIL = date(2026, 4, 1)
# Accepted, all of them; that of June moves a measuring day to come.
HOLIDAYS = ((2026, 6, 25), (2026, 5, 1), (2026, 4, 28), (2027, 1, 1))
# Accepted too, on the first day: two of which the second answers the first, and one that stands.
LETTERS = ((0, 1, 0, 100), (1, 0, 1, 100), (1, 0, 0, 100))


def turned(content, bit):
    changed = bytearray(content)
    changed[bit // 8] ^= 1 << bit % 8
    return bytes(changed)


def damaged(draw):
    """Two months of two suppliers as an old archive, as a new one that tells confiscations and holidays and has letters, and
    as text, each damaged."""
    old, new = lists(draw)
    with open("samples/gas-year.txt", "rb") as sample:
        text = sample.read(8_000)
    yield b""
    for content in FLIPS * (text, b"rules new\n" + text):
        yield turned(content, draw.randrange(8 * len(content)))
    yield from (draw.randbytes(draw.randrange(200)) for _ in range(NOISES))
    yield from damaged_archive(draw, entries.archive(old), PREFIXES)
    yield from damaged_archive(draw, entries.archive(new, entries.NEW), PREFIXES // 2)


def lists(draw):
    old = entries.years(APRIL, date(2026, 5, 31), 2, draw)
    told = [(date(2026, 4, day), 0, 500) for day in range(1, 31)]
    new = entries.with_confiscations(old, told)
    named = [entries.entry(APRIL, entries.HOLIDAY, words=words) for words in HOLIDAYS]
    written = [entries.entry(APRIL, entries.NOTICE, *letter[:3], letter[3:]) for letter in LETTERS]
    return old, new[:3] + named + written + new[3:]


def damaged_archive(draw, archive, prefixes):
    for length in range(1, prefixes):
        yield archive[:length]
        yield archive[:draw.randrange(len(archive))]
    for _ in range(FLIPS):
        yield turned(archive, draw.randrange(8 * len(archive)))
    # In the low bytes of an entry's first word most bits leave an archive that is right, of another list.
    for _ in range(FLIPS):
        place = 24 + 32 * draw.randrange(len(archive) // 32) + 8
        yield turned(archive, 8 * place + draw.randrange(24))
    for _ in range(NOISES):
        yield archive[:4] + draw.randbytes(draw.randrange(200))
        yield archive[:24] + draw.randbytes(32 * draw.randrange(20))
    yield b"EFB0" + archive[4:]
    yield b"EFB3" + archive[4:]


def fourth_bytes(checks, folder):
    """49 begins an old archive, 50 a new one, every other byte none; an old one has no entries of the new kinds."""
    old, new = lists(random.Random(50))
    first = next(index for index, raw in enumerate(new) if raw[0] > entries.CLOSE_MONTH)
    more = len(HOLIDAYS) + len(LETTERS)
    right, refused = f"{len(old)} 0 ", f"{len(old) + more} {len(new) - len(old) - more} "
    for made, taken in ((old, {49: right, 50: right}), (new, {49: f"archive 2 {first}", 50: refused})):
        for byte in range(256):
            out = run("panel", write(f"{folder}/fourth", entries.archive(made, b"EFB" + bytes([byte]))))[1].decode()
            checks.that(out.startswith(taken.get(byte, "archive 8 0")), f"the line of the fourth byte {byte}: {out}")


def put(folder, number, content):
    """The exit statuses of every command, and whether all that read the archive agree on taking it."""
    path = write(f"{folder}/damaged-{number}", content)
    statuses = [run(*(word.replace("FILE", path) for word in command))[0] for command in COMMANDS]
    os.remove(path)
    return statuses


def main():
    folder, checks, seen = sys.argv[1], Checks("damage"), {0: 0, 1: 0}
    draw = random.Random(1_200)
    with ThreadPoolExecutor(os.cpu_count()) as pool:
        results = list(pool.map(lambda pair: put(folder, *pair), enumerate(damaged(draw))))
    for number, statuses in enumerate(results):
        readers = set(statuses[:len(READERS)])
        checks.that(len(readers) == 1 and set(statuses) <= {0, 1}, f"file {number}: every reader answers alike, not {statuses}")
        for status in statuses:
            seen[status] = seen.get(status, 0) + 1
    fourth_bytes(checks, folder)
    for path in (folder, f"{folder}/missing"):
        for command in COMMANDS:
            checks.that(run(*(word.replace("FILE", path) for word in command))[0] == 1, f"{command[0]} of {path} fails")
    checks.that(seen[0] > 500 and seen[1] > 500, f"files that are still right and files that are not, both: {seen}")
    checks.end(f"; {len(results)} damaged files, {seen[0]} runs with status 0, {seen[1]} with 1")


main()
