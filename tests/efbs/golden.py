#!/usr/bin/env python3
"""Runs the commands of every transcript in golden/ again and compares what they write with what is stored.

    golden.py EFBS           compares; a difference is shown, and the exit status is 1
    golden.py EFBS --renew   stores what is written now; look at it with: git diff tests/efbs/golden

A transcript has command lines that begin with "$ ", each followed by what it wrote to both outputs and, if it is not 0,
its exit status in brackets. They run in a folder with the samples gas-year, holiday-year and letters, each as .txt and .efb,
the folder cases/ of archives right and wrong, and the texts in inputs/.
"""

import difflib
import os
import re
import shutil
import subprocess
import sys
import tempfile

HERE = os.path.dirname(os.path.abspath(__file__))
ROOT = os.path.dirname(os.path.dirname(HERE))
# Refusals that a command can meet; the others are named beside the table of words, efbs/src/words.rs.
REACHED = [*range(2, 12), *range(21, 30), *range(31, 37)]
SAMPLES = ("gas-year", "holiday-year", "letters")


def fill(folder, efbs):
    shutil.copytree(f"{ROOT}/tests/panel/cases", f"{folder}/cases")
    shutil.copytree(f"{HERE}/inputs", folder, dirs_exist_ok=True)
    os.mkdir(f"{folder}/bin")
    os.symlink(efbs, f"{folder}/bin/efbs")
    for name in SAMPLES:
        shutil.copy(f"{ROOT}/samples/{name}.txt", folder)
        subprocess.run([efbs, "pack", f"{name}.txt", "-o", f"{name}.efb"], cwd=folder, check=True)


def transcript(stored, folder):
    """The transcript as it comes out now."""
    out = []
    environment = dict(os.environ, PATH=f"{folder}/bin:{os.environ['PATH']}", LC_ALL="C")
    for line in stored.split("\n"):
        if line.startswith("$ "):
            run = subprocess.run(["sh", "-c", line[2:]], cwd=folder, env=environment, stdout=subprocess.PIPE, stderr=subprocess.STDOUT)
            status = f"[{run.returncode}]\n" if run.returncode else ""
            out.append(f"{line}\n{run.stdout.decode()}{status}")
    return "".join(out)


def compare(path, renew, folder):
    with open(path, encoding="utf-8") as file:
        stored = file.read()
    now = transcript(stored, folder)
    if renew:
        with open(path, "w", encoding="utf-8") as file:
            file.write(now)
    elif now != stored:
        lines = list(difflib.unified_diff(stored.split("\n"), now.split("\n"), os.path.relpath(path), "now", n=1, lineterm=""))
        print("\n".join(lines[:40]), f"... {len(lines)} lines in all" if len(lines) > 40 else "", sep="\n")
    return now, renew or now == stored


def main():
    efbs, renew = os.path.abspath(sys.argv[1]), "--renew" in sys.argv[2:]
    paths = sorted(f"{HERE}/golden/{name}" for name in os.listdir(f"{HERE}/golden"))
    with tempfile.TemporaryDirectory() as folder:
        fill(folder, efbs)
        results = [compare(path, renew, folder) for path in paths]
    text = "".join(now for now, _ in results)
    missing = [number for number in REACHED if not re.search(rf"(?i)\brefused (with )?{number}\b", text)]
    crashed = "panicked" in text
    differing = sum(1 for _, same in results if not same)
    commands = len(re.findall(r"(?m)^\$ ", text))
    print(f"golden: {commands} command lines in {len(paths)} transcripts, {differing} transcripts differ")
    if differing:
        print("golden: if the difference is meant, renew them with: tests/efbs/golden.py EFBS --renew")
    if missing:
        print(f"golden: no transcript meets the refusals {missing}")
    return 1 if differing or missing or crashed else 0


if __name__ == "__main__":
    sys.exit(main())
