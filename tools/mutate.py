#!/usr/bin/env python3
"""Small changes to the Rattle sources, one at a time in a copy, each put to the prover.

    tools/mutate.py FOLDER [--count N] [--seed S] [CRATE...]

FOLDER is a scratch folder for the copy, outside the repository; it is made if it is missing and may be deleted
afterwards. Run it from the repository's root after `rt all check`: checks in the copy begin with what those kept. For each
of the crates (tariff, ledger and archive if none is named) N changes are drawn: a constant up or down by one, a comparison
at its edge or turned, an operand exchanged, a bool turned, a range with or without its end, the other side. Contracts, types
and comments are left alone: only code changes.

Every change must be refused. The report tells refusals for a fact from those in which a proof file names a goal that the
changed code no longer has, since goals are named after the code; a change that is not refused is printed as SURVIVED, one
without a verdict as NOT TRIED, and the exit status is 1.
"""

import argparse
import os
import random
import re
import shutil
import subprocess
import sys

CRATES = ("tariff", "ledger", "archive")
PAIRS = (("Gives", "Takes"), ("above", "below"), ("above_maximum", "below_minimum"), ("minimum", "maximum"), ("inward", "outward"))
SIDES = dict(PAIRS) | {other: one for one, other in PAIRS}
# What a change may be: a pattern, and what takes the place of the match.
CHANGES = (
    ("constant", re.compile(r"(?:(?<![\w.\[#])|(?<=\.\.))(\d+)(?![\w\]]|\.(?!\.))"), lambda m: (str(int(m[0]) + 1), str(max(int(m[0]) - 1, 0)))),
    ("comparison", re.compile(r" (<=|<|>=|>|==|!=) "), lambda m: {
        "<=": (" < ",), "<": (" <= ",), ">=": (" > ",), ">": (" >= ",), "==": (" != ",), "!=": (" == ",)}[m[1]]),
    ("operand", re.compile(r"(?<![\w.])([a-z_]\w*)( [-+*/%] )([a-z_]\w*|\d+)(?![\w.(])"), lambda m: (m[1] + m[2] + m[1], m[3] + m[2] + m[3])),
    ("bool", re.compile(r" (&&?|\|\|?) (?!\w+::)"), lambda m: (" " + m[1].translate(str.maketrans("&|", "|&")) + " ",)),
    ("range", re.compile(r"(?<=[\w)])\.\.(=?)(?=[\w(])"), lambda m: (".." if m[1] else "..=",)),
    ("side", re.compile(r"(?<=::)(?:Gives|Takes)\b|(?<=\.)(?:above|below|above_maximum|below_minimum|minimum|maximum|inward|outward)(?=\()"),
     lambda m: (SIDES[m[0]],)),
    ("negation", re.compile(r"(?<=[ (])!(?=[\w(])"), lambda m: ("",)),
    ("value", re.compile(r"\b(true|false)\b"), lambda m: ("false" if m[1] == "true" else "true",)),
)
PASSED_OVER = re.compile(r"^\s*(//|ghost |use |pub use |mod |pub mod |requires|ensures|pub struct|struct|#!?\[|pub \w+:|\w+: \w)|[≡≢≤×λ→]")
# A proof file that names what the change took away.
MISFIT = re.compile(r"(\./)?proofs/.*(has no field|is not in scope|has no `|was not admitted)")


def code_lines(source):
    """Line numbers of code: no contracts, types, imports or comments."""
    end = None
    for number, line in enumerate(source.split("\n")):
        found = re.match(r"\s*(?:pub )?(?:struct|use|(requires|ensures)) ?.*\{$", line)
        if found and end is None:
            end = r"\s*\}$" if found.group(1) or "struct" in line else r"\s*\};$"
        if end is not None:
            end = None if re.match(end, line) else end
            continue
        if line.strip() and not PASSED_OVER.search(line) and " fn " not in f" {line}" and "->" not in line:
            yield number, line


def changes(path):
    """(line number, kind, new line) of every change that may be made to a file."""
    with open(path, encoding="utf-8") as file:
        source = file.read()
    for number, line in code_lines(source):
        for kind, pattern, replacements in CHANGES:
            for match in pattern.finditer(line):
                for new in replacements(match):
                    changed = line[: match.start()] + new + line[match.end():]
                    if changed != line:
                        yield number, kind, changed


def prove(folder, crate):
    """The exit status of a check of the crate, and the lines that it wrote."""
    run = subprocess.run(["rt", "check"], cwd=f"{folder}/crates/{crate}", capture_output=True, text=True)
    return run.returncode, (run.stdout + run.stderr).split("\n")


def verdict(status, lines):
    if status == 0:
        return "SURVIVED"
    if status == 1 and any(line.startswith("logic=not-proved") for line in lines):
        errors = [line for line in lines if re.match(r"\S+:\d+:\d+: error", line)]
        return "refused, proof misfit" if errors and all(MISFIT.match(line) for line in errors) else "refused for a fact"
    if status == 1 and any(re.search(r"\.rt:\d+:\d+: error\[[\w-]+\]", line) for line in lines):
        return "refused by the compiler"
    return "refused at a limit" if status == 3 else "NOT TRIED"


def try_changes(folder, crate, count, draw):
    sources = f"crates/{crate}/src"
    drawn = [(name, *change) for name in sorted(os.listdir(sources)) for change in changes(f"{sources}/{name}")]
    seen = {}
    for name, number, kind, new in draw.sample(drawn, min(count, len(drawn))):
        target = f"{folder}/{sources}/{name}"
        with open(target, encoding="utf-8") as file:
            kept = file.read()
        lines = kept.split("\n")
        old, lines[number] = lines[number], new
        with open(target, "w", encoding="utf-8") as file:
            file.write("\n".join(lines))
        result = verdict(*prove(folder, crate))
        with open(target, "w", encoding="utf-8") as file:
            file.write(kept)
        seen[result] = seen.get(result, 0) + 1
        print(f"{crate}/{name}:{number + 1} {kind}: {old.strip()}  =>  {new.strip()}: {result}", flush=True)
    return seen


def copy_to(folder):
    if os.path.exists(folder):
        return
    os.makedirs(folder)
    shutil.copytree("crates", f"{folder}/crates", symlinks=True, ignore=shutil.ignore_patterns("must-fail", "out"))
    shutil.copy("crates.txt", folder)


def main():
    parser = argparse.ArgumentParser(description=__doc__, formatter_class=argparse.RawDescriptionHelpFormatter)
    parser.add_argument("folder")
    parser.add_argument("--count", type=int, default=40)
    parser.add_argument("--seed", type=int, default=1)
    parser.add_argument("crates", nargs="*", default=[])
    asked = parser.parse_intermixed_args()
    copy_to(asked.folder)
    missed = 0
    for crate in asked.crates or CRATES:
        seen = try_changes(asked.folder, crate, asked.count, random.Random(asked.seed))
        missed += seen.get("SURVIVED", 0) + seen.get("NOT TRIED", 0)
        print(f"{crate}: " + ", ".join(f"{count} {result}" for result, count in sorted(seen.items())), flush=True)
    return 1 if missed else 0


if __name__ == "__main__":
    sys.exit(main())
