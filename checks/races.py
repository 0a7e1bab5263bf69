#!/usr/bin/env python3
"""Begins a second run on the journal of one that is at work, and kills runs while they write evidence over a name.

    checks/races.py PROGRAM [--rounds 20] [--kills 20] [--seed 1] [--seconds 12] [FILE]

- In each round a run lists FILE with a journal that is not there yet, is empty, or has a part. At a random moment of it a second run
  is begun on the same journal, by its name or by a link. As long as the first is at work the second has to end with 6, and to say
  that another run has it open. The first has to give the whole report, and the journal each set of it once.
- Then runs that go on from whole evidence, and write it over an old text, are killed (SIGKILL, by their process id), most of them once
  they write. Under the name has to be the old text or the new one, whole. Where there was none, there is none, or the new one.

FILE has pairs of opposite groups, if none is named. After --seconds no further round, and no further kill, is begun, and it says how
many were. Ends with 1 where something differs. Needs Python 3.9.
"""
import argparse
import os
import random
import subprocess
import sys
import tempfile
import time

import places  # noqa: F401
from checks import kills
from checks.kills import Differs, held_in, length_of
from gmus_tools.evidence import check_evidence, journal

OLD = b"an old text\n" * 1000
PAIRS = 7


class Races:
    """One file, with its whole report, journal and evidence, and a folder."""

    def __init__(self, program, file, folder, chance):
        self.program, self.file, self.chance = program, file, chance
        self.name, self.link, self.output = (os.path.join(folder, name) for name in ("journal", "link", "evidence"))
        self.whole = os.path.join(folder, "whole")
        self.problem = check_evidence.problem_of(file)
        os.symlink("journal", self.link)
        self.report = subprocess.run([program, "list", file, "--journal", self.name, "--evidence", self.whole], stdout=subprocess.PIPE,
                                     check=True).stdout
        self.journal = held_in(self.name)
        self.sets = sorted(journal.salvaged(self.problem, self.journal))
        begins = time.monotonic()
        self.write().communicate()
        self.writes, self.evidence = time.monotonic() - begins, held_in(self.output)
        if not self.is_whole(self.evidence):
            raise Differs("what a run goes on from is written otherwise")

    # ---- two runs on one journal

    def begin(self, name):
        words = [self.program, "list", self.file, "--journal", name, "--jobs", self.chance.choice("14")]
        return subprocess.Popen(words, stdin=subprocess.DEVNULL, stdout=subprocess.PIPE, stderr=subprocess.PIPE)

    def draw_journal(self):
        """What the first run finds: no file, an empty one, or a part; and how long that is."""
        text = self.chance.choice([None, b"", self.journal[:self.chance.choice(self.gates())] + b"\0"])
        if os.path.exists(self.name):
            os.remove(self.name)
        if text is not None:
            with open(self.name, "wb") as out:
                out.write(text)
        return len(text or b"")

    def gates(self):
        texts = journal.texts_in(self.journal)[0]
        return [sum(map(len, texts[:count])) + 9 * count for count in range(len(texts) // 2)]

    def two_runs(self):
        """Whether the first run was still at work when the second had ended."""
        before = self.draw_journal()
        first = self.begin(self.name)
        wanted = self.chance.randint(min(before + 1, len(self.journal)), len(self.journal))
        while length_of(self.name) < wanted and first.poll() is None:
            time.sleep(0.0002)
        name = self.chance.choice([self.name, self.link])
        second = self.begin(name)
        output, said = second.communicate()
        is_at_work = first.poll() is None
        refused = 6, b"", f"gmus: read fault on journal\n  {name}: another run has it open\n".encode()
        if (second.returncode, output, said) != refused and (is_at_work or (second.returncode, output, said) != (0, self.report, b"")):
            raise Differs(f"the second run ended with {second.returncode}: {said.decode()}")
        output, said = first.communicate()
        if (first.returncode, output, said) != (0, self.report, b""):
            raise Differs(f"the first run ended with {first.returncode} and another report: {said.decode()}")
        try:
            found = sorted(journal.salvaged(self.problem, held_in(self.name)))
        except journal.Foreign as at:
            raise Differs(f"the journal is refused at byte {at}") from None
        if found != self.sets:
            raise Differs("the journal has other sets than the report")
        return is_at_work

    # ---- kills while evidence is written

    def write(self):
        words = [self.program, "list", self.file, "--resume", self.whole, "--evidence", self.output]
        return subprocess.Popen(words, stdin=subprocess.DEVNULL, stdout=subprocess.DEVNULL, stderr=subprocess.PIPE)

    def is_whole(self, evidence):
        """Whether this is whole evidence of the report, which tools/check_evidence.py tells."""
        try:
            complete, sets = check_evidence.check(self.problem, evidence)
        except check_evidence.Refused:
            return False
        return complete and check_evidence.report(self.problem, complete, sets).encode() == self.report

    def beside(self, process):
        """Where a run writes before it renames."""
        folder, last = os.path.split(self.output)
        return os.path.join(folder, f".{last}.gmus-{process}")

    def kill(self):
        """Kills a run, and tells whether it was writing."""
        has_old = self.chance.random() < 0.8
        before = OLD if has_old else b""
        if os.path.exists(self.output):
            os.remove(self.output)
        if has_old:
            with open(self.output, "wb") as out:
                out.write(OLD)
        child = self.write()
        beside = self.beside(child.pid)
        if self.chance.random() < 0.8:
            # one that writes over the name itself is met there
            while not os.path.exists(beside) and length_of(self.output) == len(before) and child.poll() is None:
                pass
            time.sleep(self.chance.uniform(0, self.writes / 20))
        else:
            time.sleep(self.chance.uniform(0, self.writes))
        child.kill()
        said = child.communicate()[1]
        was_writing = child.returncode == kills.KILLED and os.path.exists(beside)
        if child.returncode not in (0, kills.KILLED):
            raise Differs(f"a run ended with {child.returncode}: {said.decode()}")
        found = held_in(self.output)
        stayed = found == before and child.returncode == kills.KILLED and os.path.exists(self.output) is has_old
        if not stayed and found != self.evidence and not self.is_whole(found):
            raise Differs(f"{len(found)} bytes stand under the name of {len(self.evidence)}, over {len(before)}: {found[:40]}")
        if os.path.exists(beside):
            os.remove(beside)
        return was_writing


def so_many(call, wanted, ends):
    """What a call answers so many times, or up to that time."""
    told = []
    while len(told) < wanted and time.monotonic() < ends:
        told.append(call())
    return told


def main():
    words = argparse.ArgumentParser(description=__doc__, formatter_class=argparse.RawDescriptionHelpFormatter)
    words.add_argument("program")
    words.add_argument("file", nargs="?")
    words.add_argument("--rounds", type=int, default=20)
    words.add_argument("--kills", type=int, default=20)
    words.add_argument("--seed", type=int, default=1)
    words.add_argument("--seconds", type=float, default=12)
    given = words.parse_args()
    with tempfile.TemporaryDirectory() as folder:
        file = os.path.abspath(given.file) if given.file else os.path.join(folder, "pairs.gcnf")
        if not given.file:
            with open(file, "w", encoding="ascii") as out:
                out.write(kills.pairs(PAIRS))
        try:
            races = Races(os.path.abspath(given.program), file, folder, random.Random(given.seed))
            ends = time.monotonic() + given.seconds
            rounds = so_many(races.two_runs, given.rounds, (time.monotonic() + ends) / 2)
            killed = so_many(races.kill, given.kills, ends)
        except Differs as differs:
            sys.exit(str(differs))
    short = "" if (len(rounds), len(killed)) == (given.rounds, given.kills) else f"; the time was up before {given.rounds} and {given.kills}"
    print(f"{len(rounds)} rounds of two runs, {sum(rounds)} with the first at work behind the second; "
          f"{len(killed)} kills, {sum(killed)} as it wrote{short}")


if __name__ == "__main__":
    main()
