#!/usr/bin/env python3
"""Compares what crosses the door: the structs and functions of the Rattle sources, of include/nedrulov.h and of
bindings/rust must have the same members and parameters in the same order and of the same types. Sizes and offsets
are asserted by the header and by the Rust tests; this tells that all three speak of the same things."""

import re
import sys

# A Rattle struct, the C struct and the Rust struct that stand for it.
STRUCTS = {
    "Date": "nedrulov_date", "Holidays": "nedrulov_holidays", "Terms": "nedrulov_terms", "Step": "nedrulov_step", "Capacity": "nedrulov_capacity",
    "Totals": "nedrulov_totals", "Notice": "nedrulov_notice", "Today": "nedrulov_today", "ThisMonth": "nedrulov_this_month", "Account": "nedrulov_account", "Ledger": "nedrulov_ledger",
    "Report": "nedrulov_report", "Answer": "nedrulov_answer", "Posted": "nedrulov_posted",
    "Panel": "nedrulov_panel_answer", "Checked": "nedrulov_checked", "Place": "nedrulov_section_place",
    "Written": "nedrulov_written", "Figures": "nedrulov_replay_figures", "Band": "nedrulov_band_limits",
    "LoadCurve": "nedrulov_load_curve", "BackCast": "nedrulov_back_cast_answer", "PartnerList": "nedrulov_partner_list",
}
SOURCES = (
    "crates/tariff/src/dates.rt", "crates/tariff/src/holidays.rt", "crates/tariff/src/terms.rt", "crates/tariff/src/steps.rt",
    "crates/tariff/src/bill.rt", "crates/ledger/src/state.rt", "crates/ledger/src/answers.rt",
    "crates/ledger/src/panels.rt", "crates/archive/src/answers.rt",
    "crates/archive/src/replaying.rt", "crates/backcast/src/curves.rt",
    "crates/backcast/src/answers.rt", "crates/partners/src/answers.rt", "crates/nedrulov/src/lib.rt",
)
# A tuple struct of one number is that number on the other side.
NUMBERS = {"Units": "i64", "Mills": "i64", "Quantity": "u64", "Dth": "u64", "Mcf": "u64", "Month": "u64"}
IN_C = {"u64": "uint64_t", "i64": "int64_t", "usize": "size_t", "bool": "bool", "u8": "uint8_t", "f64": "double"}


def text(path):
    """A file without its comments."""
    with open(path, encoding="utf-8") as source:
        return re.sub(r"/\*.*?\*/|//[^\n]*", "", source.read(), flags=re.S)


def plain(kind):
    """A Rattle type as Rust writes it on the other side of the door."""
    kind = kind.strip()
    array = re.fullmatch(r"\[(\w+); 16\]", kind)
    if array:
        return f"[{plain(array.group(1))}; 16]"
    return NUMBERS.get(kind, kind)


def rust_structs(source):
    """Name to [(member, type)], of Rattle's or Rust's structs with named members."""
    found = {}
    for name, body in re.findall(r"pub struct (\w+) \{(.*?)\n\}", source, re.S):
        found[name] = [(m, plain(re.sub("ACCOUNTS|HOLIDAYS", "16", t))) for m, t in re.findall(r"pub (\w+): ([^,]+),", body)]
    return found


def c_type(kind):
    """A Rust type as C writes it, and what stands after the member's name."""
    array = re.fullmatch(r"\[(\w+); 16\]", kind)
    if array:
        return c_type(array.group(1))[0], "[16]"
    return IN_C.get(kind) or STRUCTS[kind], ""


def c_structs(source):
    """Name to [(type, member, array)], with a named length as its number."""
    lengths = dict(re.findall(r"#define (NEDRULOV_\w+) (\d+)", source))
    source = re.sub(r"\[(NEDRULOV_\w+)\]", lambda m: f"[{lengths[m[1]]}]", source)
    return {
        name: re.findall(r"(\w+) (\w+)(\[\w+\])?;", body)
        for body, name in re.findall(r"typedef struct \{(.*?)\} (\w+);", source, re.S)
    }


def rattle_functions(source):
    """Name to ([(parameter, type)], result)."""
    found = {}
    for name, parameters, result in re.findall(r'pub extern "C" fn (\w+)\(([^)]*)\) -> (\w+)', source, re.S):
        found[name] = (re.findall(r"(\w+): ([^,]+)", parameters), result)
    return found


def crossing(parameters, value, pointer):
    """Rattle's parameters as another language has them: what is lent is a pointer, a slice a pointer and then a length."""
    made = []
    for _, kind in parameters:
        lent = re.fullmatch(r"&(mut )?(\[)?(\w+)\]?", kind.strip())
        if lent:
            made.append(pointer(value(lent[3]), bool(lent[1])))
        else:
            made.append(value(kind.strip()))
        if lent and lent[2]:
            made.append(value("usize"))
    return made


def c_parameters(parameters):
    return crossing(parameters, lambda kind: c_type(kind)[0], lambda kind, written: ("" if written else "const ") + kind + " *")


def rust_parameters(parameters):
    return crossing(parameters, lambda kind: kind, lambda kind, written: f"*{'mut' if written else 'const'} {kind}")


def main():
    wrong = []
    rattle = {}
    for path in SOURCES:
        rattle.update(rust_structs(text(path)))
    header = text("include/nedrulov.h")
    in_c = c_structs(header)
    in_rust = rust_structs(text("bindings/rust/src/lib.rs"))
    for name, c_name in STRUCTS.items():
        members = rattle[name]
        if in_rust.get(name) != members:
            wrong.append(f"struct {name}: bindings/rust has {in_rust.get(name)}, the library {members}")
        expected = [(c_type(kind)[0], member, c_type(kind)[1]) for member, kind in members]
        if in_c.get(c_name) != expected:
            wrong.append(f"struct {name}: include/nedrulov.h has {in_c.get(c_name)}, expected {expected}")

    functions = rattle_functions(text("crates/nedrulov/src/lib.rt"))
    declared = dict(re.findall(r"\b(nedrulov_\w+)\(([^)]*)\);", header))
    results = {name: kind for kind, name in re.findall(r"(\w+) (nedrulov_\w+)\([^)]*\);", header)}
    bound = {
        name: ([t.split(":")[1].strip() for t in parameters.split(",") if t.strip()], result)
        for name, parameters, result in re.findall(r"pub fn (\w+)\(([^)]*)\) -> (\w+);", text("bindings/rust/src/ffi.rs"))
    }
    if not functions or set(declared) != set(functions) or set(bound) != set(functions):
        wrong.append(f"functions: library {sorted(functions)}, header {sorted(declared)}, bindings {sorted(bound)}")
    else:
        for name, (parameters, result) in functions.items():
            given = [re.sub(r"\w+$", "", p.strip()).strip() for p in declared[name].split(",") if p.strip() != "void"]
            if given != c_parameters(parameters) or results[name] != c_type(result)[0]:
                wrong.append(f"{name}: the header has {results[name]} of {given}, expected {c_parameters(parameters)}")
            if bound[name] != (rust_parameters(parameters), result):
                wrong.append(f"{name}: bindings/rust has {bound[name]}, expected {rust_parameters(parameters)}, {result}")
    for line in wrong:
        print("layout:", line)
    print(f"layout: {len(STRUCTS)} structs and {len(functions)} functions compared, {len(wrong)} differ")
    return 1 if wrong else 0


if __name__ == "__main__":
    sys.exit(main())
