"""Linked programs, object files and archives of them, as far as the tests of the image need them: sections and symbols of 64-bit
little-endian ELF, read by hand so that nothing has to be installed for it."""

import struct
from collections import namedtuple

Section = namedtuple("Section", "name address flags data")
Symbol = namedtuple("Symbol", "name section address size is_function")

ALLOCATED, EXECUTABLE = 2, 4
NO_BITS, SYMBOL_TABLE = 8, 2
OBJECT, FUNCTION = 1, 2
# From here on a symbol's section is none of the file's.
NO_SECTION = 0xff00


class Image:
    """One ELF file: what it loads, and the functions and tables that it names."""

    def __init__(self, data):
        if data[:6] != b"\x7fELF\x02\x01":
            raise ValueError("no 64-bit little-endian ELF file")
        start, entry_size, count, names_at = struct.unpack_from("<Q10xHHH", data, 40)
        heads = [struct.unpack_from("<IIQQQQIIQQ", data, start + i * entry_size) for i in range(count)]
        names = heads[names_at][4]
        self.sections = [
            Section(string(data, names + name), address, flags, b"" if kind == NO_BITS else data[offset:offset + size])
            for name, kind, flags, address, offset, size, _, _, _, _ in heads
        ]
        self.symbols = []
        for _, kind, _, _, offset, size, strings, _, _, one in heads:
            if kind == SYMBOL_TABLE:
                self.symbols += symbols(data, offset, size // one, heads[strings][4])

    def code(self):
        return [s for s in self.sections if s.flags & ALLOCATED and s.flags & EXECUTABLE and s.data]

    def loaded_data(self):
        """All that is loaded and not run, written at run time or not."""
        return [s for s in self.sections if s.flags & ALLOCATED and not s.flags & EXECUTABLE and s.data]

    def read_only_data(self):
        return [s for s in self.loaded_data() if s.name.startswith(".rodata")]

    def functions(self):
        return [s for s in self.symbols if s.is_function and s.size]

    def bytes_at(self, address, size):
        """What a linked file has at an address, or None."""
        for section in self.loaded_data():
            at = address - section.address
            if section.address and 0 <= at and at + size <= len(section.data):
                return section.data[at:at + size]
        return None

    def name_at(self, address):
        """The function or table that an address of a linked file lies in, or None."""
        for symbol in self.symbols:
            if symbol.address <= address < symbol.address + symbol.size:
                return symbol.name
        return None


def string(data, at):
    return data[at:data.index(b"\0", at)].decode()


def symbols(data, offset, count, strings):
    for i in range(count):
        name, info, _, section, address, size = struct.unpack_from("<IBBHQQ", data, offset + 24 * i)
        if info % 16 in (OBJECT, FUNCTION) and 0 < section < NO_SECTION:
            yield Symbol(string(data, strings + name), section, address, size, info % 16 == FUNCTION)


def images(path):
    """The file itself, or each object of an archive."""
    with open(path, "rb") as file:
        data = file.read()
    if data[:8] != b"!<arch>\n":
        return [Image(data)]
    found = []
    at = 8
    while at < len(data):
        size = int(data[at + 48:at + 58])
        if data[at:at + 16].rstrip() not in (b"/", b"//", b"/SYM64/"):
            found.append(Image(data[at + 60:at + 60 + size]))
        at += 60 + size + size % 2
    return found
