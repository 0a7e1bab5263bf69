#!/usr/bin/env python3
"""Kills runs that write a journal at random moments, goes on from what they left, and tells whether anything was lost.

    checks/kills.py PROGRAM [--kills 20] [--seed 1] [--seconds 12] [--folder FOLDER] [FILE ..]

Five problems, and each FILE, are listed with `--journal` by 1 and by 4 workers, first unbroken. Then runs are killed (SIGKILL,
by their process id), of each in turn: once the journal has a random length, and up to two records later, or so soon that there
may be none yet. Up to three runs are killed one after the other; then one goes on to the end. What is seen from outside is
compared:

- Each gate that was open directly before a kill is open behind it, with the same bytes before it. So is each that an earlier
  run left: no record that was acknowledged is lost.
- What is left is read back by tools/journal.py, which shares nothing with the program: each record is accepted, none stands
  twice, and each set is one of the whole report.
- The run that goes on to the end gives the report of an unbroken run, byte for byte, and the journal has its sets, each once.

After --seconds no further run is killed, and it says how many were. Ends with 1 where something differs. Needs Python 3.9.
"""
import argparse
import os
import random
import subprocess
import sys
import tempfile
import time

from places import EXAMPLES
from gmus_tools.evidence import check_evidence, journal

IN_A_ROW = 3   # runs on one journal that are killed
SOON = 0.2     # the part of a run in which it may not have opened its journal yet
KILLED = -9


class Differs(Exception):
    """What differs, and where."""


def pairs(count):
    """As many pairs of opposite groups: so many conflicts, and 2 to the power of that many corrections."""
    lines = [f"p gcnf {count} {2 * count} {2 * count}"]
    for var in range(1, count + 1):
        lines += [f"{{{2 * var - 1}}} {var} 0", f"{{{2 * var}}} -{var} 0"]
    return "\n".join(lines + [""])


def links(count, doubled):
    """A chain of implications, the first links of it twice: 2 to the power of that many conflicts, and a correction a link."""
    clauses = [[1], *([-at, at + 1] for at in range(1, count)), [-count]]
    clauses = [clause for at, clause in enumerate(clauses) for _ in range(2 if at < doubled else 1)]
    lines = [f"{{{group}}} {' '.join(map(str, clause))} 0" for group, clause in enumerate(clauses, 1)]
    return "\n".join([f"p gcnf {count} {len(clauses)} {len(clauses)}", *lines, ""])


def held_in(name):
    """What a file holds; nothing where it is not there."""
    try:
        with open(name, "rb") as file:
            return file.read()
    except FileNotFoundError:
        return b""


def length_of(name):
    return os.stat(name).st_size if os.path.exists(name) else 0


class Listing:
    """The listing of one problem by so many workers, with its journal."""

    def __init__(self, program, file, jobs, name):
        self.program, self.file, self.jobs, self.name = program, file, jobs, name
        self.what = f"{os.path.basename(file)} by {jobs}"
        self.problem = check_evidence.problem_of(file)
        ended = subprocess.run([program, "list", file], stdout=subprocess.PIPE, check=True)
        self.report = ended.stdout
        lines = [line.split() for line in self.report.decode().split("\n")]
        self.sets = {(kind, *map(int, groups[:-1])) for kind, *groups in filter(None, lines) if kind in "um"}
        self.begin_anew()
        begins = time.monotonic()
        self.go_on()
        self.lasts = time.monotonic() - begins

    def begin_anew(self):
        """Without a journal. What is kept of it is the front that has to stay as it is."""
        if os.path.exists(self.name):
            os.remove(self.name)
        self.front, self.in_a_row = b"", 0

    def differs(self, what):
        raise Differs(f"{self.what}: {what}; its journal is {self.name}")

    def start(self):
        return subprocess.Popen([self.program, "list", self.file, "--jobs", str(self.jobs), "--journal", self.name],
                                stdin=subprocess.DEVNULL, stdout=subprocess.PIPE, stderr=subprocess.PIPE)

    def wait_for(self, child, chance):
        """Waits up to a random moment of the run, or up to its end."""
        if chance.random() < 0.2:
            time.sleep(chance.uniform(0, SOON * self.lasts))
            return
        wanted = chance.randint(min(len(self.front), self.length), self.length)
        while length_of(self.name) < wanted and child.poll() is None:
            time.sleep(0.0002)
        time.sleep(chance.uniform(0, 2 * self.lasts / len(self.sets)))

    def kill(self, chance):
        """Kills a run at a random moment, and tells whether it was still at work."""
        child = self.start()
        self.wait_for(child, chance)
        seen = held_in(self.name)
        child.kill()
        output, said = child.communicate()
        self.keeps(seen, "what stood directly before the kill")
        if child.returncode != KILLED:
            self.ends_whole(child.returncode, output, said)
            return False
        self.in_a_row += 1
        return True

    def keeps(self, seen, whose):
        """Judges the journal: it has what was seen before and what earlier runs left, and each record is a true one."""
        held = held_in(self.name)
        for before, what in ((self.front, "what an earlier run left"), (self.front_of(seen), whose)):
            if not held.startswith(before):
                self.differs(f"{what} is not there any more")
        try:
            found = journal.salvaged(self.problem, held)
        except journal.Foreign as at:
            self.differs(f"it is refused at byte {at}")
        if not set(found) <= self.sets:
            self.differs("it has a set that is none")
        self.front = self.front_of(held)
        return found

    @staticmethod
    def front_of(held):
        """The bytes of the frames behind open gates."""
        return held[:journal.texts_in(held)[1]]

    def ends_whole(self, status, output, said):
        """Judges a run that came to its end."""
        if (status, output, said) != (0, self.report, b""):
            self.differs(f"it ended with {status} and another report: {said.decode()}")
        if set(self.keeps(b"", "")) != self.sets:
            self.differs("a set is missing in the journal")
        self.length = length_of(self.name)
        self.begin_anew()

    def go_on(self):
        child = self.start()
        output, said = child.communicate()
        self.ends_whole(child.returncode, output, said)


def kill_in_turn(listings, kills, ends, chance):
    """How many runs were killed, up to so many or up to that time."""
    done = 0
    while done < kills and time.monotonic() < ends:
        listing = listings[done % len(listings)]
        if listing.in_a_row == IN_A_ROW or listing.in_a_row and chance.random() < 0.3:
            listing.go_on()
        done += listing.kill(chance)
    for listing in listings:
        if listing.in_a_row:
            listing.go_on()
    return done


def problems_in(folder):
    """The five problems: three of the examples and two that are made."""
    for name, text in (("pairs.gcnf", pairs(6)), ("links.gcnf", links(8, 5))):
        with open(os.path.join(folder, name), "w", encoding="ascii") as out:
            out.write(text)
    return [os.path.join(EXAMPLES, name) for name in ("laptop.gcnf", "adder.gcnf", "types.gcnf")] + [
        os.path.join(folder, name) for name in ("pairs.gcnf", "links.gcnf")]


def main():
    words = argparse.ArgumentParser(description=__doc__, formatter_class=argparse.RawDescriptionHelpFormatter)
    words.add_argument("program")
    words.add_argument("files", nargs="*")
    words.add_argument("--kills", type=int, default=20)
    words.add_argument("--seed", type=int, default=1)
    words.add_argument("--seconds", type=float, default=12)
    words.add_argument("--folder", help="where the journals are, of which one that differs is left")
    given = words.parse_args()
    chance, ends = random.Random(given.seed), time.monotonic() + given.seconds
    with tempfile.TemporaryDirectory() as room:
        folder = given.folder or room
        files = problems_in(room) + given.files
        try:
            listings = [Listing(os.path.abspath(given.program), file, jobs, os.path.join(folder, f"journal_{at}_{jobs}"))
                        for at, file in enumerate(files) for jobs in (1, 4)]
            done = kill_in_turn(listings, given.kills, ends, chance)
        except Differs as differs:
            sys.exit(str(differs))
    short = "" if done == given.kills else f"; the time was up before {given.kills}"
    print(f"{done} kills over {len(files)} problems by 1 and 4 workers{short}")


if __name__ == "__main__":
    main()
