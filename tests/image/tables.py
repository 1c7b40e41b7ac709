#!/usr/bin/env python3
"""No table of month lengths in an image: request (iii), and docs/DECISIONS.md, 128.

Looks for the twelve lengths in the loaded data, the code's bytes, its immediate operands and the memory that these are stored to: in 8, 16,
32 and 64 bits, alone or as a member of records of up to 16 bytes, from any month on, in either order, less any number that is the same
for all, and as days of the year that add up; packed into one word; and, in data and stored memory, by which months are alike, whatever
numbers tell it. `tables.py FILE ...` takes linked files; `--source FOLDER` looks through the numbers in Rattle files, words of bits that
mark the long months included."""

import os
import re
import sys

import elf
import operands

LENGTHS = (31, 28, 31, 30, 31, 30, 31, 31, 30, 31, 30, 31)
MARCH, APRIL = 2, 3
WIDTHS = (1, 2, 4, 8)
MOST_STRIDE = 16


def orders():
    """The lengths from each month on, with both Februaries, forward and backward."""
    for february in (28, 29):
        year = [february if n == 28 else n for n in LENGTHS]
        for first in range(12):
            turned = year[first:] + year[:first]
            yield turned
            yield turned[::-1]


def steps(values):
    return tuple(b - a for a, b in zip(values, values[1:]))


def shapes():
    """How each entry of a table differs from the one before it: lengths, less any number, and days that add up."""
    found = set()
    for turned in orders():
        found |= {steps(turned), tuple(turned[:11]), tuple(-n for n in turned[:11])}
    # A year whose February is told elsewhere: the days up to the months from March or April on.
    for first in (MARCH, APRIL):
        nine = tuple((LENGTHS * 2)[first:first + 9])
        found |= {nine, nine[::-1], tuple(-n for n in nine), tuple(-n for n in nine[::-1])}
    return found


# April to November, as they are: what is left of a table where February is told elsewhere and a compiler leaves out the 31s at both ends.
# It reads the same backward.
CORE = LENGTHS[APRIL:APRIL + 8]
SHAPES = shapes()


class Pattern:
    """The shapes in numbers of one width, which wrap, by their first two steps, so that most places are passed over at once."""

    def __init__(self, width):
        self.modulus = 1 << 8 * width
        self.by_start = {}
        for shape in SHAPES:
            wrapped = tuple(step % self.modulus for step in shape)
            self.by_start.setdefault(wrapped[:2], set()).add(wrapped)

    def at(self, values, start, stride):
        """Whether the numbers from `start` on, every `stride`th, begin with a table."""
        if start + 2 * stride >= len(values):
            return False
        first, second, third = values[start], values[start + stride], values[start + 2 * stride]
        candidates = self.by_start.get(((second - first) % self.modulus, (third - second) % self.modulus), ())
        for shape in candidates:
            window = values[start:start + stride * len(shape) + 1:stride]
            if len(window) == len(shape) + 1 and tuple(step % self.modulus for step in steps(window)) == shape:
                return True
        return tuple(values[start:start + 8 * stride:stride]) == CORE


PATTERNS = {width: Pattern(width) for width in WIDTHS}


def among(values, width=8, most_stride=3):
    """Every place of a table in a list of numbers."""
    pattern = PATTERNS[width]
    for start in range(len(values)):
        if any(pattern.at(values, start, stride) for stride in range(1, most_stride + 1)):
            yield start


def numbers_of(data, width, offset):
    return [int.from_bytes(data[at:at + width], "little") for at in range(offset, len(data) - width + 1, width)]


def in_bytes(data):
    """Every place of a table in bytes."""
    for width in WIDTHS:
        for offset in range(width):
            for at in among(numbers_of(data, width, offset), width, MOST_STRIDE // width):
                yield offset + at * width


def are_alike(values, start):
    """Whether eight numbers are alike where April to November are: one stands for the months of 30 days, another for May and October, and
    July and August have the same, which a compiler may keep elsewhere."""
    april, may, june, july, august, september, october, november = values[start:start + 8]
    return april == june == september == november and may == october != april and july == august != april


def weekday_steps(values):
    """From each number to the next in days of the week, where both are such days; else a step that no month makes."""
    return [(b - a) % 7 if a < 7 and b < 7 else 7 for a, b in zip(values, values[1:])]


def loosely_in(data, offset=None):
    """Every place where numbers side by side, or the steps between them, go as the months do: lengths in hours, in classes, as yes and no,
    and sums in any unit, in weekdays too. `offset` is the first place at which a number may stand by its address."""
    nine = [n % 7 for n in (LENGTHS * 2)[MARCH:MARCH + 9]]
    for width in WIDTHS:
        for first in range(width) if offset is None else [offset % width]:
            values = numbers_of(data, width, first)
            rises, weekdays = steps(values), weekday_steps(values)
            for at in range(len(values) - 7):
                rising = at + 8 <= len(rises) and are_alike(rises, at)
                if are_alike(values, at) or rising or weekdays[at:at + 9] == nine:
                    yield first + at * width


def packed(entries, bits):
    return sum(entry % (1 << bits) << bits * place for place, entry in enumerate(entries))


def packed_words():
    """The lengths in one word of 64 bits, two to five bits each, less any number, or that number less them."""
    found = set()
    for february in (28, 29):
        year = [february if n == 28 else n for n in LENGTHS]
        for first in (0, MARCH, APRIL):
            turned = year[first:] + year[:first]
            for order in (turned, turned[::-1]):
                for bits in (2, 3, 4, 5):
                    for base in range(1 << bits):
                        found |= {packed([n - base for n in order], bits), packed([base - n for n in order], bits)}
    return {without_zeros(word) for word in found}


def without_zeros(word):
    """A word moved down as far as it goes, as months may be counted from 0 or from 1."""
    return word // (word & -word) if word else 0


def bit_words():
    """Words whose bits mark the months of 31 days, or the others: a table too, where a hand wrote it."""
    found = set()
    for first in (0, MARCH, APRIL):
        turned = (LENGTHS * 2)[first:first + 12]
        for order in (turned, turned[::-1]):
            found |= {packed([n == 31 for n in order], 1), packed([n < 31 for n in order], 1), packed([n == 30 for n in order], 1)}
    # A word of a byte may well be something else.
    return {without_zeros(word) for word in found if word > 255}


PACKED = packed_words()
BITS = bit_words()


def is_packed(word, words):
    word %= 1 << 64
    return word > 255 and without_zeros(word) in words


def owner(address, image, seen):
    """What an address belongs to: the function or table that is named there, or else the function that refers to it or to the nearest place below."""
    named = image.name_at(address)
    near = [(at, function.name) for function in seen for at in function.refers if at <= address]
    return named or (f"what {max(near)[1]} refers to" if near else f"address {address:#x}")


def faults_of(path):
    """Every function and table of a linked file in which month lengths stand, in words, and what was looked through."""
    [image] = elf.images(path)
    seen = operands.functions(path, image)
    places = [(s, place) for s in image.loaded_data() + image.code() for place in in_bytes(s.data)]
    places += [(s, place) for s in image.loaded_data() for place in loosely_in(s.data, -s.address)]
    faults = [f"{section.name}, {owner(section.address + place, image, seen)}" for section, place in places]
    for function in seen:
        if any(is_any(among(function.values[kind])) for kind in operands.LISTS):
            faults.append(f"immediate operands of {function.name}")
        if any(is_any(in_bytes(block)) or is_any(loosely_in(block)) for block in set(function.blocks)):
            faults.append(f"constants that {function.name} stores")
        if any(is_packed(word, PACKED) for word in function.values["every"]):
            faults.append(f"a word in {function.name}")
    count, data = sum(len(f.values["every"]) for f in seen), sum(len(s.data) for s in image.loaded_data())
    return sorted(set(faults)), f"{len(seen)} functions, {count} immediate operands, {data} bytes of data"


def is_any(places):
    """Whether there is a place among these, which may be place 0."""
    return next(iter(places), None) is not None


# With or without a type behind it.
NUMBER = re.compile(r"\b(0x[0-9a-fA-F_]+?|0b[01_]+|[0-9][0-9_]*?)(?:[iu](?:8|16|32|64|size))?\b")


def numbers_in(code):
    without_comments = re.sub(r"//[^\n]*", "", code)
    return [int(n, 0 if n[:2] in ("0x", "0b") else 10) for n in (m.replace("_", "") for m in NUMBER.findall(without_comments))]


def source_faults(folder):
    """Every Rattle file below a folder whose numbers hold a table. What was built keeps copies, in folders `out` beside src/."""
    faults, count = [], 0
    for place, folders, files in os.walk(folder):
        folders[:] = [f for f in folders if f != "out" or "src" not in folders]
        for name in sorted(files):
            if not name.endswith(".rt"):
                continue
            count += 1
            path = os.path.join(place, name)
            with open(path, encoding="utf-8") as file:
                numbers = numbers_in(file.read())
            if is_any(among(numbers)) or any(is_packed(n, PACKED | BITS) for n in numbers):
                faults.append(path)
    return faults, f"{count} Rattle files"


def main(words):
    looks = [("source", word) for word in words[1:]] if words[:1] == ["--source"] else [("image", word) for word in words]
    if not looks:
        sys.exit("tables: no file named")
    failed = False
    for kind, path in looks:
        faults, seen = source_faults(path) if kind == "source" else faults_of(path)
        for fault in faults:
            print(f"tables: {os.path.basename(path)}: month lengths in {fault}")
        print(f"tables: {os.path.basename(path)}: {seen}, {len(faults) or 'no'} table{'s' if len(faults) != 1 else ''} of month lengths")
        failed = failed or bool(faults) or seen.startswith("0 ")
    return 1 if failed else 0


if __name__ == "__main__":
    sys.exit(main(sys.argv[1:]))
