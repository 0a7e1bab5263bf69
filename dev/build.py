#!/usr/bin/env python3
"""Builds the program, which proves each crate that it stands on: as many at a time as there are processors and memory.

    dev/build.py     what ./gmus calls where there is no program, or a source is newer

What the toolchain says goes to build.log at the top of the repository, a crate at a time; on standard error there is a line
for each crate that is done with, and how long it has been so far. Where one fails, nothing above it is begun, and the
status is 1. It goes on where nobody reads standard error. What a call of the toolchain that was cut off left in a crate's out/,
half copied, is removed before each call, since with it there the toolchain checks nothing.
"""
import contextlib
import glob
import os
import re
import shutil
import signal
import subprocess
import sys
import time

import places  # noqa: F401
from dev.crates import TOP, below_in, lowest_first, text_of
from dev.read_of import note_proved, own_of
from gmus_tools.command import WrongWords, run

PROGRAM = "gmus"
# What a check takes at most, in bytes.
MEMORY = 4_000_000_000


def processors():
    return len(os.sched_getaffinity(0))


def lanes(most):
    """How many checks may run at a time, of so many that are wanted: each has its memory."""
    free = os.sysconf("SC_AVPHYS_PAGES") * os.sysconf("SC_PAGE_SIZE")
    try:
        with open("/proc/meminfo", encoding="ascii") as file:
            free = max([int(line.split()[1]) * 1024 for line in file if line.startswith("MemAvailable")], default=free)
    except OSError:
        pass
    return max(1, min(most, free // MEMORY))


def ends_of(below, top):
    """The crates at the end of a build, each of which stands on all before it, so that nothing is proved beside them."""
    left, ends = lowest_first(below, top), []
    while len(left) > 1 and set(lowest_first(below, left[-1])) == set(left):
        ends.insert(0, left.pop())
    return ends


def began_at(process):
    """When the process of this number began, in seconds since 1970, or 0 where that is not told; None where there is none, or
    it has ended."""
    try:
        with open(f"/proc/{process}/stat", encoding="utf-8", errors="replace") as file:
            # The name of its program, in brackets, may have blanks; its state is the first word behind it.
            words = file.read().rpartition(")")[2].split()
        with open("/proc/stat", encoding="ascii") as file:
            booted = [int(line.split()[1]) for line in file if line.startswith("btime ")]
    except OSError:
        return None
    if words[0] in "ZX":
        return None
    return booted[0] + int(words[19]) / os.sysconf("SC_CLK_TCK") if booted else 0


def remove_left(top):
    """Removes the folders in crates' out/ into which a call of the toolchain was copying when it was stopped.

    Such a folder is named by the number of its process. That has ended, or the number is now that of one that began later."""
    for path in glob.glob(os.path.join(glob.escape(top), "crates", "*", "out", "rt-work-*-*")):
        process = os.path.basename(path).split("-")[2]
        if process.isdigit() and not os.path.islink(path):
            then = began_at(process)
            with contextlib.suppress(OSError):
                # When the machine began is told in whole seconds.
                if then is None or then > os.lstat(path).st_mtime + 2:
                    shutil.rmtree(path)


class Building:
    """What is said of a build, a line at a time. The lines of a crate come once it is done with, behind its name."""

    def __init__(self, log, told):
        self.log, self.told = log, told
        self.crate, self.lines = None, 0
        self.proved, self.failed, self.told_of = [], [], []

    def begin(self, crate):
        """What is heard from now on is said of this crate, which is not done with yet."""
        self.log.write(f"== {crate}\n")
        self.crate, self.lines = crate, 0

    def tell(self, crate):
        self.told_of.append(crate)
        self.told(crate)

    def hear(self, line):
        self.log.write(line)
        self.log.flush()
        heading = re.fullmatch(r"== (\w+)\n", line)
        ended = re.fullmatch(r"(\w+): (ok|failed \(.*\)|not run, .*)\n", line)
        if heading:
            # What was kept says nothing.
            self.end(self.lines == 0)
            self.crate, self.lines = heading[1], 0
            if self.crate != "summary":
                self.tell(self.crate)
        elif ended and ended[2] != "ok":
            self.failed.append(ended[1])
        else:
            self.lines += 1
            self.end(line.startswith("logic=proved"))

    def end(self, well):
        if well and self.crate not in [None, "summary", *self.proved]:
            self.proved.append(self.crate)


def prove(top, below, log, told):
    """Proves a crate and what it stands on, and gives those that failed. `told` is called with each crate that is done with.

    A check of one crate keeps those of others in this repository waiting, so all are one call, which takes the crates at or
    below its folder and those that they stand on, each on one processor. It is stopped before the ends, each of which then
    gets as many processors as it can use. The last one is proved as it is built and run, which tells that it works."""
    ends = ends_of(below, top)
    first = set(lowest_first(below, top)) - set(ends) - {top}
    building = Building(log, told)
    # A crate that waits for those below it keeps its place among those that run, and half of them do near the end. The last
    # crate of the longest chain is handed in last, so with fewer places it would wait for one.
    with beside_the_look([it for it in lowest_first(below, top) if not below[it]]):
        status = call(["rt", "all", "check", "--jobs", str(2 * lanes(processors()))], top, building,
                      lambda: len(ends) > 0 and first <= set(building.proved))
    if status and not building.failed:
        building.failed.append(top)
    for crate in [it for it in ends if it != top and it not in building.proved] + [top]:
        if building.failed:
            break
        building.begin(crate)
        words = ["rt", "run" if crate == top else "lib", "--jobs", str(lanes(processors()))]
        if call([*words, "--", "list", "data/first.gcnf"] if crate == top else words, crate, building, lambda: False):
            building.failed.append(crate)
        elif crate not in building.told_of:
            building.tell(crate)
    return building.failed


@contextlib.contextmanager
def beside_the_look(crates):
    """Has some crates that stand on no other proved meanwhile: the common call looks over all sources first, for a minute, and
    needs two processors for that. It takes over what was kept of them, and waits for one that is at work. What they say is
    not kept: where one fails, it fails again in that call."""
    going = []
    try:
        for crate in crates[:max(0, lanes(processors()) - 2)]:
            going.append(subprocess.Popen(["rt", "lib"], cwd=os.path.join(TOP, "crates", crate), stdin=subprocess.DEVNULL,
                                          stdout=subprocess.DEVNULL, stderr=subprocess.DEVNULL, start_new_session=True))
        yield
    finally:
        for it in going:
            if it.poll() is None:
                os.killpg(it.pid, signal.SIGTERM)
            it.wait()


def call(words, crate, building, is_enough):
    """Calls the toolchain in a crate's folder, and gives its status; where it is enough it is stopped, which is well."""
    remove_left(TOP)
    with subprocess.Popen(words, cwd=os.path.join(TOP, "crates", crate), stdin=subprocess.DEVNULL, stdout=subprocess.PIPE,
                          stderr=subprocess.STDOUT, universal_newlines=True, errors="replace", start_new_session=True) as going:
        try:
            for line in going.stdout:
                building.hear(line)
                if is_enough():
                    return 0
        finally:
            if going.poll() is None:
                # Its checks are processes of its own session. What they kept so far is gone on from.
                os.killpg(going.pid, signal.SIGTERM)
    return going.returncode


def say(line):
    """Says a line on standard error. Where nobody reads that, nothing is said from then on."""
    try:
        # Where it was closed from the beginning, `print` would write to standard output.
        print(line, file=sys.stderr or open(os.devnull, "w", encoding="utf-8"), flush=True)
    except OSError:
        os.dup2(os.open(os.devnull, os.O_WRONLY), sys.stderr.fileno())


def main(words):
    if words:
        raise WrongWords("it takes no words")
    below = below_in(text_of("crates.txt"))
    owns = {crate: own_of(crate) for crate in lowest_first(below, PROGRAM)}
    began, done, many = time.monotonic(), [], len(owns)

    def told(crate):
        done.append(crate)
        minutes = int(time.monotonic() - began) // 60
        so_far = f", {minutes} min so far" if minutes else ""
        say(f"{PROGRAM}: {crate} is done, {len(done)} of {many}{so_far}")

    with open(os.path.join(TOP, "build.log"), "w", encoding="utf-8") as log:
        if prove(PROGRAM, below, log, told):
            return 1
    for crate, own in owns.items():
        note_proved(crate, below, own)
    return 0


if __name__ == "__main__":
    run("build.py", main, __doc__)
