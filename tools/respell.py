#!/usr/bin/env python3
"""Spells this repository's definitions and lemmas as Rattle's own library spells its: words and lemmas in snake case, types and modules
in camel case, a prime as an apostrophe.

usage: tools/respell.py [FOLDER]         rewrites crates/, docs/ and README.md below FOLDER (by default this repository)
       tools/respell.py --list [FOLDER]  prints the rows, old and new, and writes nothing

A name turns where a text of specs/ or proofs/ declares it: `cashIns` to `cash_ins`, `bank-of` to `bank_of`. It turns as a whole word in
specs/, proofs/ and src/, in must-fail edits, and in the code spans of pages. Functions of src/, exported names, strings, inputs and
outputs have no such names, so they stay; so do names that the check makes (`goal.x`, `tie.x`), and names that a file brings in from
elsewhere. Names of a file that fall together are shown on lines that begin `look:`. A second run writes nothing."""
import collections
import os
import re
import sys

NAME = r"[^\s(){}.;,@\"«»:`\[\]]+"
WORD = re.compile(r"(?<![^\s(){}.;,@\"«»`\[\]])" + NAME)
DECLARED = re.compile(rf"^ *(?:(?:abbrev|unfoldable|opaque|pub|record|data|let) +)*({NAME})(?= (?:[({{][^:(){{}}]+ :[^\n]*[)}}] )*:(?!\S) *(\S*))", re.M)
IMPORT = re.compile(r"\buse +([\w.]+)\.\{([^}]*)\}")
SPAN = re.compile(r"`[^`\n]+`")
COMMENT = re.compile(r"(?:--|//)[^\n]*")
# What its code spans show is input.
FORMAT = "TEXT-FORMAT.md"
# The kinds keep the spelling of the constants in src/; the others are bound where no type stands beside them.
OWN = {"CLOSE-DAY": "CLOSE_DAY", "CLOSE-MONTH": "CLOSE_MONTH", "fourInARow": "four_in_a_row", "fileEnd": "file_end", "no-holiday": "no_holiday"}
OWN |= {n: n.replace("-", "_") for n in ("cashed-out", "no-terms", "no-transfer", "open-and-moved", "real-d", "same-ledger", "size-whole")}
CAMEL, DASHED = re.compile(r"[a-z][^-]*[a-z0-9'][A-Z]"), re.compile(r"[^-]+(-[^-]+)+$")


def snake(name):
    """The name in snake case."""
    plain = re.sub(r"(?<=[a-z0-9'])([A-Z])", lambda m: "_" + m[1].lower(), name.replace("′", "'"))
    return OWN.get(name, plain.replace("-", "_"))


def is_old(name):
    """Whether a word or a lemma is spelled the old way."""
    return bool(re.match(r"[a-z]", name) and (CAMEL.match(name) or DASHED.match(name)) or name in OWN or "′" in name)


def files(folder, ends):
    """The files below the folder whose names end so, in order; nothing that was built."""
    for where, inside, names in os.walk(folder):
        inside[:] = sorted(d for d in inside if d not in ("out", "target", ".git"))
        yield from (os.path.join(where, n) for n in sorted(names) if n.endswith(ends))


def code_of(text):
    """The text without its comments."""
    return re.sub(r"--[^\n]*", "", text)


def declared(root):
    """Every name that specs/ and proofs/ declare, but for answers, whose names the check makes."""
    names = set()
    for path in files(os.path.join(root, "crates"), ".antt"):
        with open(path, encoding="utf-8") as f:
            names |= {m[1] for m in DECLARED.finditer(code_of(f.read())) if not m[2].startswith("goal.")}
    return names


def rows(root):
    """Old name to new one. A lemma that would get its function's name ends in _lem."""
    names = declared(root)
    taken = {snake(n) for n in names if not DASHED.match(n)}
    lemma = lambda n: DASHED.match(n) and n not in OWN and snake(n) in taken
    return {n: snake(n) + ("_lem" if lemma(n) else "") for n in names | set(OWN) if is_old(n)}


def foreign(text, crates):
    """The names that a file brings in from a library."""
    return {
        n.strip().split(" as ")[-1]
        for path, listed in IMPORT.findall(text)
        if not (path.startswith("Rattle.") and path.split(".")[1] in crates)
        for n in listed.split(",")
    }


def turned(text, table, kept=()):
    """The text with each word turned that has a row; a word behind `goal.` or `tie.` is the check's."""

    def word(m):
        behind = text[max(0, m.start() - 5) : m.start()]
        return m[0] if behind.endswith(("goal.", "tie.")) or m[0] in kept else table.get(m[0], m[0])

    return WORD.sub(word, text)


def prose(text, table):
    """A sentence with its code spans turned, and its words that no sentence has of itself: a dash may be English."""
    camel = {a: b for a, b in table.items() if not DASHED.match(a)}
    return turned(SPAN.sub(lambda m: turned(m[0], table), text), camel)


def source(text, table, kept):
    """A file of code with its words turned, and its comments as prose."""
    out, at = [], 0
    for m in COMMENT.finditer(text):
        out += [turned(text[at : m.start()], table, kept), prose(m[0], table)]
        at = m.end()
    return "".join(out) + turned(text[at:], table, kept)


def edit(text, table):
    """A must-fail edit: the lines that are read as code, what describes it as prose."""
    lines = text.split("\n")
    return "\n".join((turned if re.match(r"(file|old|new):", line) else prose)(line, table) for line in lines)


def spans(text, table):
    """A page with the words of its code spans, its blocks of code and the names of its links turned."""
    out, block = [], False
    for line in text.split("\n"):
        block ^= line.startswith("```")
        if not block:
            line = SPAN.sub(lambda m: turned(m[0], table), line)
            line = re.sub(r"\[([^\]]*)\](?=\()", lambda m: turned(m[0], table), line)
        out.append(turned(line, table) if block else line)
    return "\n".join(out)


def clashes(path, text, table, kept):
    """A line for each two names of a file that fall together."""
    words = set(WORD.findall(code_of(text)))
    new = collections.defaultdict(set)
    for w in words:
        new[w if w in kept else table.get(w, w)].add(w)
    return [f"look: {path}: {', '.join(sorted(v))} become {k}" for k, v in sorted(new.items()) if len(v) > 1]


def main(argv):
    listing = argv[:1] == ["--list"]
    root = (argv[1:] if listing else argv) or [os.path.join(os.path.dirname(os.path.abspath(__file__)), "..")]
    root, crates = root[0], set(os.listdir(os.path.join(root[0], "crates")))
    table = rows(root)
    if listing:
        print("\n".join(f"{a}\t{b}" for a, b in sorted(table.items())))
    pages = [os.path.join(root, "README.md"), *(p for p in files(os.path.join(root, "docs"), ".md") if not p.endswith(FORMAT))]
    for path in [*files(os.path.join(root, "crates"), (".antt", ".rt", ".edit")), *pages]:
        with open(path, encoding="utf-8") as f:
            text = f.read()
        kept = foreign(text, crates)
        ending = path.rsplit(".", 1)[1]
        new = spans(text, table) if ending == "md" else edit(text, table) if ending == "edit" else source(text, table, kept)
        if ending in ("antt", "rt"):
            for line in clashes(os.path.relpath(path, root), text, table, kept):
                print(line)
        if new != text and not listing:
            with open(path, "w", encoding="utf-8") as f:
                f.write(new)
    return 0


if __name__ == "__main__":
    raise SystemExit(main(sys.argv[1:]))
