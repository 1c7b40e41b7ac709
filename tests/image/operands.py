"""The immediate operands of an image's code, and the memory that they are stored to: a compiler may write a table out in instructions
and keep nothing of it in the read-only data. Reads what objdump prints of x86-64 code."""

import re
import subprocess

# A function's immediate operands in the order of the code: of every instruction, of moves, and of stores.
LISTS = ("every", "moves", "stores")
FUNCTION = re.compile(r"^[0-9a-f]+ <(.*)>:$")
INSTRUCTION = re.compile(r"^\s*([0-9a-f]+):\s+([a-z][a-z0-9]*)\s*([^#]*)(?:#\s*([0-9a-f]+))?")
MEMORY = re.compile(r"^(-?0x[0-9a-f]+)?\((%\w+)?(,%\w+,\d)?\)$")
PARTS = {"al": "rax", "bl": "rbx", "cl": "rcx", "dl": "rdx", "sil": "rsi", "dil": "rdi", "bpl": "rbp"}
SUFFIXES = {"b": 1, "w": 2, "l": 4, "q": 8}
# Moves that carry only the low bytes of a vector register.
OF_A_VECTOR = {"movq": 8, "movd": 4, "movlps": 8}


def register(name):
    """The whole register that a name belongs to, and the bytes that the name means."""
    name = name.lstrip("%")
    if name.startswith(("xmm", "ymm")):
        return "xmm" + name[3:], 16 if name[0] == "x" else 32
    if name in PARTS:
        return PARTS[name], 1
    numbered = re.fullmatch(r"(r\d+)([bwd]?)", name)
    if numbered:
        return numbered.group(1), {"b": 1, "w": 2, "d": 4, "": 8}[numbered.group(2)]
    if name[0] == "e":
        return "r" + name[1:], 4
    return (name, 8) if name[0] == "r" else ("r" + name, 2)


def operands(text):
    return [part for part in re.split(r",(?![^(]*\))", text.strip()) if part]


class Function:
    """One function's code, followed from its first instruction to its last as if nothing jumped."""

    def __init__(self, name, image):
        self.name = name
        self.image = image
        self.values = {kind: [] for kind in LISTS}
        self.refers = []
        self.blocks = []
        self.known = {}
        self.memory = {}
        self.burst = False

    def step(self, operation, parts, address):
        """Notes the constants that one instruction sets or stores; a burst of them ends at any other instruction."""
        if address:
            self.refers.append(address)
        if parts and parts[0].startswith("$"):
            self.note(operation, parts)
        if not parts or not self.stores_or_sets(operation, parts, address):
            self.end_burst()
            self.forget(operation, parts)

    def note(self, operation, parts):
        value = int(parts[0][1:], 16)
        moves = operation.startswith("mov")
        self.values["every"].append(value)
        if moves:
            self.values["moves"].append(value)
        if moves and "(" in parts[-1]:
            self.values["stores"].append(value)

    def stores_or_sets(self, operation, parts, address):
        if operation in ("xor", "xorps", "pxor", "xorpd") and len(parts) == 2 and parts[0] == parts[1]:
            return self.set(parts[1], bytes(32))
        if not operation.startswith("mov") or len(parts) != 2 or operation.startswith(("movz", "movs")):
            return False
        content = self.content(operation, parts[0], parts[1], address)
        if content is None:
            return False
        return self.set(parts[1], content) if parts[1].startswith("%") else self.store(parts[1], content)

    def content(self, operation, source, target, address):
        """The bytes that a move carries, where they are known."""
        if source.startswith("%"):
            name, size = register(source)
            return self.known[name][:OF_A_VECTOR.get(operation, size)] if name in self.known else None
        size = register(target)[1] if target.startswith("%") else SUFFIXES.get(operation[-1], 8)
        if source.startswith("$"):
            return (int(source[1:], 16) % (1 << 8 * size)).to_bytes(size, "little")
        return self.image.bytes_at(address, size) if address else None

    def set(self, name, content):
        self.known[register(name)[0]] = content.ljust(32, b"\0")
        return True

    def store(self, place, content):
        found = MEMORY.match(place)
        if not found or found.group(3):
            return False
        cells = self.memory.setdefault(found.group(2), {})
        at = int(found.group(1) or "0", 16)
        for i, byte in enumerate(content):
            cells[at + i] = byte
        self.burst = True
        return True

    def forget(self, operation, parts):
        if operation.startswith(("call", "j", "ret")):
            self.known.clear()
        elif parts and parts[-1].startswith("%"):
            self.known.pop(register(parts[-1])[0], None)

    def end_burst(self):
        """Keeps each stretch of memory that holds constants now, for a table that is overwritten later."""
        if self.burst:
            for cells in self.memory.values():
                self.blocks += stretches(cells)
        self.burst = False


def stretches(cells):
    """The bytes of each unbroken stretch of a memory."""
    stretch, last = [], None
    for at in sorted(cells):
        if last is not None and at != last + 1:
            yield bytes(stretch)
            stretch = []
        stretch.append(cells[at])
        last = at
    if stretch:
        yield bytes(stretch)


def functions(path, image):
    """Every function of a linked file, with its constants."""
    listing = subprocess.run(["objdump", "-d", "-w", "--no-show-raw-insn", path], check=True, capture_output=True, text=True).stdout
    found = []
    for line in listing.split("\n"):
        start = FUNCTION.match(line)
        if start:
            found.append(Function(start.group(1), image))
            continue
        instruction = INSTRUCTION.match(line)
        if instruction and found:
            _, operation, text, address = instruction.groups()
            found[-1].step(operation, operands(text), int(address, 16) if address else None)
    for function in found:
        function.end_burst()
    return found
