#!/usr/bin/env python3
"""Code and read-only data of an image, function by function, and whether they stay within the limit that limits.txt has for its name.

`sizes.py NAME FILE` measures a static library or a linked program. `sizes.py NAME FILE --but REMOVED` leaves out the sections of a library
that a linker removed, which it listed in the file REMOVED: what is left is what the linked program carries of the library."""

import os
import re
import sys

import elf

LIMITS = os.path.join(os.path.dirname(os.path.abspath(__file__)), "limits.txt")


def limit_of(name):
    with open(LIMITS, encoding="utf-8") as file:
        for line in file:
            words = line.split("#")[0].split()
            if words and words[0] == name:
                return int(words[1])
    sys.exit(f"sizes: limits.txt has no limit for {name}")


def removed_sections(path, library):
    """Names of the library's sections that the linker removed, from its own messages."""
    of_library = rf"removing unused section '([^']+)' in file '[^']*{re.escape(os.path.basename(library))}\("
    with open(path, encoding="utf-8") as file:
        return set(re.findall(of_library, file.read()))


def parts(image, removed):
    """(bytes, what) of each function and each piece of read-only data that is left."""
    left = [s for s in image.code() + image.read_only_data() if s.name not in removed]
    named = [f for f in image.functions() if image.sections[f.section] in left]
    rows = [(f.size, f.name) for f in named]
    rows += [(len(s.data), f"read-only data, {s.name}") for s in left if s in image.read_only_data()]
    total = sum(len(s.data) for s in left)
    # What no name covers: the C library's start, and what aligns functions.
    rows.append((total - sum(size for size, _ in rows), "code without a name"))
    return sorted((row for row in rows if row[0]), reverse=True), total


def main(words):
    name, path = words[:2]
    removed = removed_sections(words[3], path) if words[2:3] == ["--but"] else set()
    if words[2:] and not removed:
        sys.exit(f"sizes: {name}: the linker removed nothing")
    total = 0
    for image in elf.images(path):
        rows, size = parts(image, removed)
        total += size
        for count, what in rows:
            print(f"{count:9,}  {what}")
    limit = limit_of(name)
    print(f"image: {name}: {total:,} bytes of code and read-only data, of {limit:,} that it may have")
    if total > limit:
        print(f"image: {name}: {total - limit:,} bytes too many. tests/image/limits.txt has the limit and says when to raise it")
    return 1 if total > limit or total == 0 else 0


if __name__ == "__main__":
    sys.exit(main(sys.argv[1:]))
