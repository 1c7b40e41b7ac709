#!/usr/bin/env python3
"""The search for tables finds the tables that are put in: each form of the month lengths, compiled by gcc and by Rattle's own compiler and
linked by itself, must be reported, and lengths that are worked out must not. Needs gcc and rt."""

import functools
import os
import subprocess
import sys
import tempfile

import tables

YEAR = list(tables.LENGTHS)
LEAP = [29 if n == 28 else n for n in YEAR]


def added_up(lengths, first):
    days = [first]
    for n in lengths:
        days.append(days[-1] + n)
    return days[:12]


# Twelve entries each; those that do not fit a width are left out of it.
FORMS = {
    "lengths": YEAR,
    "leap": LEAP,
    "from_march": YEAR[2:] + YEAR[:2],
    "from_april": YEAR[3:] + YEAR[:3],
    "backward": YEAR[::-1],
    "less_28": [n - 28 for n in YEAR],
    "without_february": [0 if n == 28 else n for n in YEAR],
    "days_before": added_up(YEAR, 0),
    "days_before_leap": added_up(LEAP, 0),
    "days_to_end": added_up(YEAR, 31),
    "from_april_added": added_up(YEAR[3:] + YEAR[:3], 0),
    "in_hours": [24 * n for n in YEAR],
    "long": [int(n == 31) for n in YEAR],
    "weekdays": [n % 7 for n in added_up(YEAR, 0)],
}
C_TYPES = {8: "unsigned char", 16: "unsigned short", 32: "unsigned int", 64: "unsigned long"}
RATTLE_TYPES = {8: "u8", 16: "u16", 32: "u32", 64: "u64"}
LEVELS = ("-O2", "-Os")
# Sections of constants that all functions share.
SHARED = ".rodata.cst"

# The compiler makes tables of the first three too: it leaves out the entries at both ends that are alike, or July and August.
RATTLE_TESTS = {
    "by_ifs": "    if m == 2 {\n        return 28;\n    }\n    if (m == 4) | (m == 6) | (m == 9) | (m == 11) {\n        return 30;\n    }\n    31\n",
    "past_28_by_ifs": "    if m == 2 {\n        return 0;\n    }\n    if (m == 4) | (m == 6) | (m == 9) | (m == 11) {\n        return 2;\n    }\n    3\n",
    "by_groups": "    match m {\n        1 | 3 | 5 | 7 | 8 | 10 | 12 => 31,\n        4 | 6 | 9 | 11 => 30,\n        2 => 28,\n        _ => 0,\n    }\n",
    "lengths_by_match": "    match m {\n" + "".join(f"        {m} => {n},\n" for m, n in enumerate(YEAR, 1)) + "        _ => 0,\n    }\n",
    "days_by_match": "    match m {\n" + "".join(f"        {m} => {n},\n" for m, n in enumerate(added_up(YEAR, 0), 1)) + "        _ => 0,\n    }\n",
}
WORKED_OUT = {
    "C": "unsigned long worked_out(unsigned long m) { return m == 2 ? 28 : 30 + (m + m / 8) % 2; }\n",
    "Rattle": "    let n = m % 13;\n    30 + (n + n / 8) % 2\n",
}


def forms():
    for name, entries in FORMS.items():
        for bits in C_TYPES:
            if max(entries) < 1 << bits:
                yield f"{name}_{bits}", bits, entries


def c_sources():
    """Each form as a table at rest, and as one that a function writes out when it is called."""
    for name, bits, entries in forms():
        listed = f"{C_TYPES[bits]} t[12] = {{{', '.join(map(str, entries))}}};"
        yield f"at rest, {name}", f"static const {listed}\nunsigned long of(unsigned m) {{ return t[m]; }}\n"
        yield f"written out, {name}", f"unsigned long of(unsigned m) {{ volatile {listed} return t[m]; }}\n"
    records = ", ".join(f"{{{7 * i % 11}, {n}, {40 + i * i}}}" for i, n in enumerate(YEAR))
    month = "static const struct { unsigned char first, length; unsigned short name; } t[12]"
    yield "records", f"{month} = {{{records}}};\nunsigned long of(unsigned m) {{ return t[m].length; }}\n"
    yield "one word", "unsigned long of(unsigned m) { return 28 + (0xeefbb3ul >> 2 * m) % 4; }\n"


def rattle_function(name, argument, kind, body):
    return f'#[unsafe(no_mangle)]\npub extern "C" fn {name}(m: {argument}) -> {kind} {{\n{body}}}\n'


def rattle_functions():
    """Name and text of functions with a table: by tests, and each form as a constant and as an array of the function's own."""
    for name, body in RATTLE_TESTS.items():
        yield name, rattle_function(name, "u64", "u64", body)
    read = "    if m < 12 {{\n        return {}[m];\n    }}\n    0\n"
    for name, bits, entries in forms():
        kind, constant = RATTLE_TYPES[bits], name.upper()
        table = f"[{kind}; 12] = [{', '.join(map(str, entries))}];\n"
        at_rest = rattle_function(f"at_rest_{name}", "usize", kind, read.format(constant))
        yield f"at_rest_{name}", f"const {constant}: {table}{at_rest}"
        yield f"written_out_{name}", rattle_function(f"written_out_{name}", "usize", kind, f"    let table: {table}{read.format('table')}")


def rattle_source():
    worked_out = rattle_function("worked_out", "u64", "u64", WORKED_OUT["Rattle"])
    return "#![tactic(auto)]\n" + worked_out + "".join(text for _, text in rattle_functions())


def run(*words, **how):
    return subprocess.run(words, check=True, capture_output=True, text=True, **how)


def write(path, text):
    with open(path, "w", encoding="utf-8") as file:
        file.write(text)


def compiled_c(work, level, text):
    source, program = os.path.join(work, "form.c"), os.path.join(work, "form")
    write(source, text)
    run("gcc", level, "-shared", "-nostdlib", "-fPIC", "-o", program, source)
    return program


def try_c(level, work):
    missed = [name for name, text in c_sources() if not tables.faults_of(compiled_c(work, level, text))[0]]
    alarms = tables.faults_of(compiled_c(work, level, WORKED_OUT["C"]))[0]
    return report(f"gcc {level}", len(list(c_sources())), missed, alarms)


def linked_alone(work, name):
    """One function of the library, with what it refers to and nothing else; constants that functions share stay in sections of their own."""
    program = os.path.join(work, "alone")
    library = os.path.join(work, "crates", "forms", "out", "libforms.a")
    alone = ["-Wl,--gc-sections", f"-Wl,--unique={SHARED}*", f"-Wl,-e,{name}", f"-Wl,-u,{name}"]
    run("gcc", "-nostdlib", "-static", *alone, library, "-o", program)
    return program


def try_rattle(work):
    crate = os.path.join(work, "crates", "forms")
    os.makedirs(os.path.join(crate, "src"))
    write(os.path.join(work, "crates.txt"), "forms staticlib:\n")
    write(os.path.join(crate, "src", "lib.rt"), rattle_source())
    run("rt", "lib", cwd=crate)
    names = [name for name, _ in rattle_functions()]
    missed = [name for name in names if not its_own(tables.faults_of(linked_alone(work, name))[0])]
    return report("Rattle", len(names), missed, tables.faults_of(linked_alone(work, "worked_out"))[0])


def its_own(faults):
    """Those of the function alone. The compiler keeps a table as data, or writes it out from operands and from constants of 16 bytes that all
    functions share: what is found among these constants may belong to another form."""
    return [fault for fault in faults if not fault.startswith(SHARED)]


# Lines of a Rattle file that hold a table; words of bits among them, which only a hand can have written there.
SOURCES = (
    "const LENGTHS: [u8; 12] = [31, 28, 31, 30, 31, 30, 31, 31, 30, 31, 30, 31];",
    "const BEFORE: [u64; 12] = [0, 31, 59, 90, 120, 151, 181, 212, 243, 273, 304, 334];",
    "30 + (0x15aau64 >> m) % 2",
    "30 + (0b1010_1101_0101 >> (m - 1)) % 2",
    "31 - (1320 >> (m - 1)) % 2",
    "28 + (0xeefbb3 >> (2 * m - 2)) % 4",
)


def try_source(work):
    missed = []
    for line in SOURCES:
        write(os.path.join(work, "line.rt"), f"// 31, 28, 31, 30, 31, 30, 31, 31, 30, 31, 30, 31\nfn length(m: u64) -> u64 {{ {line} }}\n")
        missed += [] if tables.source_faults(work)[0] else [line]
    write(os.path.join(work, "line.rt"), "// 31, 28, 31, 30, 31, 30, 31, 31, 30, 31, 30, 31\n" + WORKED_OUT["Rattle"])
    return report("source", len(SOURCES), missed, tables.source_faults(work)[0])


def report(what, count, missed, alarms):
    for name in missed:
        print(f"self-test: {what}: not found: {name}")
    for alarm in alarms:
        print(f"self-test: {what}: worked out, and yet reported: {alarm}")
    print(f"self-test: {what}: {count - len(missed)} of {count} tables found")
    return not missed and not alarms


def main():
    done = []
    for one in (try_source, *(functools.partial(try_c, level) for level in LEVELS), try_rattle):
        with tempfile.TemporaryDirectory() as work:
            done.append(one(work))
    return 0 if all(done) else 1


if __name__ == "__main__":
    sys.exit(main())
