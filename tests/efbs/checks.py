"""What the tests of efbs share: running it, and counting what was held."""

import os
import re
import subprocess
import sys

EFBS = os.environ["EFBS"]


def run(*arguments):
    """Exit status and both outputs; a crash is an error of the test."""
    done = subprocess.run([EFBS, *arguments], stdin=subprocess.DEVNULL, stdout=subprocess.PIPE, stderr=subprocess.PIPE)
    if done.returncode not in (0, 1, 2) or b"panicked" in done.stderr:
        sys.exit(f"efbs {' '.join(arguments)}: status {done.returncode}: {done.stderr.decode(errors='replace')}")
    return done.returncode, done.stdout, done.stderr


def write(path, content):
    with open(path, "wb") as file:
        file.write(content)
    return path


def read(path):
    with open(path, "rb") as file:
        return file.read()


def rows_of(archive, pattern):
    """Supplier to the rows of its statement that the pattern is of, each as the pattern's groups."""
    found, supplier = {}, None
    for line in run("statement", archive)[1].decode().split("\n"):
        title = re.fullmatch(r"SUPPLIER (\d+)", line)
        row = re.fullmatch(pattern, line)
        if title or line == "ALL SUPPLIERS":
            supplier = title and int(title[1])
        elif row and supplier is not None:
            found.setdefault(supplier, []).append(row.groups())
    return found


def statement_rows(archive):
    """Supplier to the rows of its statement, each a name and an amount as printed."""
    return rows_of(archive, r"    (\S+(?: \S+)*) {2,}(-?[\d,.]+)(?:  agrees)?")


def forfeit_rows(archive):
    """Supplier to what was confiscated and forfeited as its statement has it: a day or "sum", and two amounts."""
    return rows_of(archive, r"    (\S+) {2,}([\d,.]+) {2,}([\d,.]+|not closed)")


class Checks:
    def __init__(self, name):
        self.name, self.held, self.failed = name, 0, 0

    def that(self, right, what):
        self.held += 1
        if not right:
            self.failed += 1
            print(f"{self.name}: not so: {what}")

    def end(self, remark=""):
        print(f"{self.name}: {self.held} checks, {self.failed} failed{remark}")
        sys.exit(1 if self.failed else 0)
