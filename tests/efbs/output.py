"""Output that is not finished: whatever ends a run, the file that was there stays as it was and nothing lies beside it."""

import contextlib
import os
import random
import resource
import signal
import subprocess
import sys
import time

from checks import EFBS, Checks, read, run, write

OLD = b"what was there before\n"
SIGNALS = (signal.SIGTERM, signal.SIGINT, signal.SIGHUP, signal.SIGQUIT, signal.SIGKILL)
RANDOM_KILLS = 60
PATIENCE = 20
SMALL, LITTLE_MEMORY = 8_192, 200_000_000


def until(holds):
    """Whether something holds before long."""
    end = time.monotonic() + PATIENCE
    while not holds():
        if time.monotonic() > end:
            return False
        time.sleep(0.002)
    return True


def limited(limit=None, most=0):
    """What a child sets before it runs: no core files, and a limit."""
    resource.setrlimit(resource.RLIMIT_CORE, (0, 0))
    if limit is not None:
        resource.setrlimit(limit, (most, most))


class Folder:
    """A folder with one file, which is to be replaced."""

    def __init__(self, checks, path):
        self.checks, self.path, self.file = checks, path, f"{path}/out"
        os.mkdir(path)
        write(self.file, OLD)

    def parts(self):
        return [name for name in os.listdir(self.path) if name != "out"]

    def untouched(self, what):
        self.checks.that(until(lambda: not self.parts()), f"{what}: left behind {self.parts()}")
        self.checks.that(read(self.file) == OLD, f"{what}: the old file is as it was")


def start(*arguments, **options):
    options = {"stdin": subprocess.PIPE, "stderr": subprocess.PIPE, "preexec_fn": limited} | options
    return subprocess.Popen([EFBS, *arguments], start_new_session=True, **options)


def killed_while_waiting(checks, folder):
    """A run that has begun its output and waits for input, ended by each signal, alone and with its whole group."""
    for send in (os.kill, os.killpg):
        for number in SIGNALS:
            what = f"{send.__name__} with {number.name}"
            running = start("pack", "-", "-o", folder.file)
            checks.that(until(folder.parts), f"{what}: a part is being written")
            send(running.pid, number)
            running.communicate()
            checks.that(running.returncode == -number, f"{what}: ended with {running.returncode}")
            folder.untouched(what)


def killed_at_any_moment(checks, folder, sample):
    """Runs ended after a time drawn at random: the old file or the new one whole, and nothing beside it."""
    begun = time.monotonic()
    whole = run("unpack", sample)[1]
    checks.that(run("unpack", sample, "-o", folder.file)[0] == 0 and read(folder.file) == whole, "the file is replaced")
    longest, draw, replaced = time.monotonic() - begun, random.Random(), 0
    for _ in range(RANDOM_KILLS):
        write(folder.file, OLD)
        running = start("unpack", sample, "-o", folder.file, stdin=subprocess.DEVNULL)
        time.sleep(draw.uniform(0, longest))
        os.killpg(running.pid, draw.choice(SIGNALS))
        running.communicate()
        checks.that(until(lambda: not folder.parts()), f"left behind {folder.parts()}")
        checks.that(read(folder.file) in (OLD, whole), "the file is the old one or the new one")
        replaced += read(folder.file) == whole
    write(folder.file, OLD)
    return replaced


def no_room(checks, folder, sample):
    """A file that may not grow: by default the system kills whoever writes on, else it refuses to write."""
    def least():
        limited(resource.RLIMIT_FSIZE, SMALL)

    running = start("unpack", sample, "-o", folder.file, preexec_fn=least)
    running.communicate()
    checks.that(running.returncode == -signal.SIGXFSZ, f"killed for lack of room: {running.returncode}")
    folder.untouched("killed for lack of room")
    # Python itself ignores the signal, and here the child does so too.
    running = start("unpack", sample, "-o", folder.file, preexec_fn=least, restore_signals=False)
    told = running.communicate()[1]
    checks.that(running.returncode == 1 and b"cannot be written" in told, f"refused for lack of room: {told}")
    folder.untouched("refused for lack of room")


def no_memory(checks, folder):
    """Entries without end where memory is short."""
    def little():
        limited(resource.RLIMIT_AS, LITTLE_MEMORY)

    source = subprocess.Popen(["yes", "2026-04-01 close-day"], stdout=subprocess.PIPE)
    running = start("pack", "-", "-o", folder.file, stdin=source.stdout, preexec_fn=little)
    source.stdout.close()
    told = running.communicate()[1]
    source.wait()
    checks.that(running.returncode == 1 and b"too large for this machine" in told, f"no memory: {told}")
    folder.untouched("no memory")
    status, _, told = run("panel", "/dev/zero")
    checks.that(status == 1 and b"does not begin with EFB1" in told, f"an archive without end: {told}")


def owner_and_mode(checks, folder, sample):
    """Those of the file that is replaced. Whoever may not give files away has only its own to replace here."""
    with contextlib.suppress(PermissionError):
        os.chown(folder.file, 4_321, 1_234)
    for mode in (0o600, 0o444, 0o640, 0o666):
        os.chmod(folder.file, mode)
        before = os.stat(folder.file)
        checks.that(run("unpack", sample, "-o", folder.file)[0] == 0, f"a file of mode {mode:o} is replaced")
        after = os.stat(folder.file)
        checks.that(after.st_ino != before.st_ino, "it is another file")
        for name in ("st_mode", "st_uid", "st_gid"):
            checks.that(getattr(after, name) == getattr(before, name), f"{name} is kept at {mode:o}")


def guard(checks, folder):
    """The guard by itself: it removes what it made, and nothing that was there."""
    status, out, _ = run("guard-part", folder.file, str(0o600))
    checks.that((status, out) == (0, b"17\n") and os.path.exists(folder.file), f"a file that is there is left: {out}")
    status, out, _ = run("guard-part", f"{folder.path}/new", str(0o600))
    checks.that((status, out) == (0, b"0\n") and not folder.parts(), f"a file of its own is removed: {out}")
    guarding = start("guard-part", f"{folder.path}/new", str(0o600), stdout=subprocess.PIPE)
    checks.that(guarding.stdout.readline() == b"0\n" and folder.parts() == ["new"], "a file is made")
    os.rename(write(f"{folder.path}/other", OLD), f"{folder.path}/new")
    guarding.communicate()
    checks.that(folder.parts() == ["new"], "another file that has come by the same name is left")
    os.remove(f"{folder.path}/new")


def several_at_once(checks, folder, sample):
    runs = [start("unpack", sample, "-o", folder.file, stdin=subprocess.DEVNULL) for _ in range(8)]
    told = [one.communicate()[1] for one in runs]
    checks.that(all(one.returncode == 0 for one in runs), f"eight runs to one file: {told}")
    checks.that(read(folder.file) == run("unpack", sample)[1] and not folder.parts(), "the file is whole")


def main():
    work, sample = sys.argv[1:]
    # A shell's job in the background has two of them ignored, and would hand that on.
    for number in SIGNALS:
        if number != signal.SIGKILL:
            signal.signal(number, signal.SIG_DFL)
    checks = Checks("output")
    folder = Folder(checks, f"{work}/output")
    killed_while_waiting(checks, folder)
    replaced = killed_at_any_moment(checks, folder, sample)
    no_room(checks, folder, sample)
    no_memory(checks, folder)
    guard(checks, folder)
    several_at_once(checks, folder, sample)
    owner_and_mode(checks, folder, sample)
    nowhere = subprocess.run([EFBS, "panel", sample], stdout=subprocess.DEVNULL)
    checks.that(nowhere.returncode == 0, "output that is thrown away on purpose is no failure")
    checks.end(f"; of {RANDOM_KILLS} runs killed at random {replaced} had replaced the file")


main()
