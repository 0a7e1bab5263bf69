"""The coordinator's own run, which alone can tell that no set is missing.

It goes on from what was found, by turns: each may learn twice as many clauses as the one before, and what it found goes the way
of all batches. It is the program's own listing of the file as it is. So if it ends with 0, its report and its evidence are the
answer.
"""
import os
import time

from gmus_tools import program
from gmus_tools.leash import Leashed
from gmus_tools.report import COMPLETE, mark_of
from gmus_tools.spreading.records import NoReading, is_complete, records_in

# The first turn takes some ten seconds, so that what ends sooner is not begun anew.
FIRST = 100000
# So many failures in a row end all. Behind the first one it rests so many seconds, behind each further one twice as many.
FAILURES, REST = 3, 2.0
# The status where it writes what can't be read.
UNREAD = 1
NO_WHOLE = "the program ended with 0, and left no whole report with whole evidence"


class Own:
    """The turns. `is_alone` says whether the turn under way, or the last one, has the whole machine."""

    def __init__(self, file, evidence, folder):
        self.file, self.evidence = file, evidence
        self.report = os.path.join(folder, "report")
        self.budget, self.child, self.known, self.is_alone = FIRST, None, 0, False
        self.failures, self.failed, self.said, self.rests = 0, None, "", 0.0
        self.wanted, self.waits, self.is_judged = 0, False, True

    def begin_from(self, known, jobs, is_alone):
        """Begins a turn once the file has all that is known when this is first called."""
        self.waits, self.wanted = True, self.wanted if self.waits else known
        if self.evidence.written >= self.wanted:
            self.begin(jobs, is_alone)

    def begin(self, jobs, is_alone=False):
        """Begins a turn with so many workers. If one is under way, it is stopped."""
        self.stop()
        self.waits = False
        self.known, self.is_alone = self.evidence.written, is_alone
        words = ["list", self.file, "--jobs", str(jobs), "--conflicts", str(self.budget * jobs), "--evidence", self.evidence.own]
        words += ["--resume", self.evidence.place] if self.known else []
        with open(self.report, "wb") as report:
            self.child = Leashed([program.command(), *words], report)

    def look(self):
        """How the turn ended and the records that it found, or None and nothing while it runs. At the end of all, what it found
        stands in its file."""
        status = self.child.wait(0) if self.child else None
        if status is None:
            return None, []
        self.said, self.child = self.child.said() or f"the program ended with {status}", None
        if status == program.DONE:
            if self.is_whole():
                return status, []
            self.said = NO_WHOLE
        if status == program.BUDGET_SPENT:
            try:
                return status, self.new_records()
            except NoReading as why:
                self.said = str(why)
        self.failures, self.failed = self.failures + 1, UNREAD if status in (program.DONE, program.BUDGET_SPENT) else status
        self.rests = time.monotonic() + REST * 2 ** (self.failures - 1)
        return self.failed, []

    def is_whole(self):
        """Whether a turn that ended with 0 left a whole report and whole evidence: only such evidence takes the place of what is kept."""
        with open(self.report, "rb") as report:
            if mark_of(report.read().decode("utf-8", "replace")) != COMPLETE:
                return False
        try:
            with open(self.evidence.own, "rb") as evidence:
                return is_complete(evidence)
        except FileNotFoundError:
            return False

    def new_records(self):
        """What a turn has found whose budget was spent; the next one has a greater one."""
        with open(self.evidence.own, "rb") as file:
            texts = records_in(file.read())[self.known:]
        self.failures = 0
        self.budget *= 2
        return texts

    def is_under_way(self):
        return self.child is not None

    def is_ready(self):
        """Whether the next turn may begin: what the last one found was judged."""
        return self.child is None and self.is_judged and time.monotonic() >= self.rests

    def stop(self):
        if self.child:
            self.child.stop()
            self.child = None
            self.evidence.sweep()
