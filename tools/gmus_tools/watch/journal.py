"""Reads a journal that another run of gmus writes, and shows what it has: whole frames alone, and nothing is changed.

What a journal is stands in docs/FORMATS.md, 'The journal'.
"""
import os
import re
import time

from gmus_tools import page
from gmus_tools.command import DONE, Refused, bytes_of
from gmus_tools.evidence import check_evidence
from gmus_tools.report import decoded, named, number_of, origin_of

OPEN = 1
# The length of a text stands in so many bytes, the most significant one first.
LENGTH = 8
SET_LINE = re.compile(rb"([um])((?: [1-9][0-9]{0,17})*) 0\n")
NEWEST, MOST_TOLD, WIDTH = 3, 5, 200
PAUSE = 1.0
# Looking and writing take this part of the time at most.
SHARE = 0.2
# Of a larger file it isn't tried whether the first record is one of it, which is plain and slow.
LARGE = 20_000_000


class Foreign(Exception):
    """Why a file is no journal of a problem."""


class Journal:
    """A journal as it is read from its beginning on: `sets` are the lines of its sets, in order. `refusal_of` is asked why a
    record is none of the problem, and gives None if it is one."""

    def __init__(self, name, groups, refusal_of):
        self.name, self.groups, self.refusal_of = name, groups, refusal_of
        self.begin()

    def begin(self):
        self.gate, self.sets, self.first, self.seen = 0, [], b"", set()

    def look(self):
        """Reads what came since the last look, and tells whether anything did. It is read anew if it was begun anew."""
        before = (self.gate, self.first)
        with open(self.name, "rb") as file:
            begins = file.read(64)
            if os.fstat(file.fileno()).st_size < self.gate or not begins.startswith(self.first):
                self.begin()
            if begins[:1] not in (b"", b"\0", bytes([OPEN])):
                raise Foreign("this is no journal: its first byte is neither 0 nor 1")
            while self.read_frame(file):
                pass
            file.seek(0)
            self.first = file.read(min(self.gate, 64))
        return (self.gate, self.first) != before

    def read_frame(self, file):
        """Reads the frame at the ending gate, if there is a whole one behind an open gate."""
        file.seek(self.gate)
        if file.read(1) != bytes([OPEN]):
            return False
        length = file.read(LENGTH)
        size = int.from_bytes(length, "big")
        left = os.fstat(file.fileno()).st_size - self.gate - 1 - LENGTH
        if len(length) < LENGTH or size >= left:
            return False
        self.sets.append(self.set_in(file.read(size)))
        self.gate += 1 + LENGTH + size
        return True

    def set_in(self, text):
        """The line of the set of a record."""
        found = SET_LINE.match(text)
        if not found:
            raise Foreign(f"at byte {self.gate} it has what is no record of a journal")
        line = found.group().rstrip(b"\n").decode("ascii")
        refusal = None if self.sets else self.refusal_of(text)
        if any(int(group) > self.groups for group in found.group(2).split()):
            refusal = f"it has a group above {self.groups}"
        if refusal:
            raise Foreign(f"the record at byte {self.gate} belongs to another problem, or to another focus: {refusal}")
        if line in self.seen:
            raise Foreign(f"the record at byte {self.gate} has a set that stood before, as in no journal of one problem")
        self.seen.add(line)
        return line


class JournalWatch:
    """The looks at one journal."""

    def __init__(self, asked, stop, write_whole):
        self.asked, self.stop, self.write_whole = asked, stop, write_whole
        held = bytes_of(asked.file)
        self.origin = origin_of(held, asked.file, asked.focus)
        self.origin.want_header()
        self.journal = Journal(asked.journal, self.origin.groups, lambda text: self.refusal_of(held, text))
        self.began, self.at_first, self.known = None, None, 0

    def refusal_of(self, held, text):
        """Why a record is none of the file's problem, or None if it is one, or the file is large."""
        if len(held) > LARGE:
            return None
        problem = check_evidence.problem_in(held.decode("latin-1"), self.asked.file)
        if self.asked.focus is not None:
            problem.narrow(self.asked.focus)
        try:
            check_evidence.check_alone(problem, text)
        except check_evidence.Refused as why:
            return f"by {self.asked.file}, {why}"
        return None

    def looks(self):
        """Looks again and again until it is interrupted, or once if so asked, and gives the status."""
        while True:
            begins = time.monotonic()
            self.one_look()
            if self.asked.once:
                return DONE
            pause = max(PAUSE, (time.monotonic() - begins) / SHARE)
            ends = time.monotonic() + pause
            while time.monotonic() < ends:
                if self.stop.signal is not None:
                    return 128 + self.stop.signal
                time.sleep(min(0.1, pause))

    def one_look(self):
        """Shows what the journal has, if that is more than before."""
        try:
            came = self.journal.look()
        except FileNotFoundError:
            # The run that makes it may not have come so far.
            if self.asked.once:
                raise
            return
        except Foreign as why:
            raise Refused(f"{self.asked.journal}: {why}") from None
        if not came and self.at_first is not None:
            return
        sets = self.journal.sets
        self.known = min(self.known, len(sets))
        in_order = sorted(sets, key=lambda line: (line[0] == "m", [int(word) for word in line[2:-2].split()]))
        report = "\n".join([f"p gmus {self.journal.groups}", "s PARTIAL", *in_order,
                            f"e {sum(line[0] == 'u' for line in sets)} {sum(line[0] == 'm' for line in sets)}", ""])
        shown = named(self.origin, report)
        self.show(shown, sets[self.known:])
        self.known = len(sets)
        if self.at_first is None:
            # The time before there was a journal doesn't count.
            self.began, self.at_first = time.monotonic(), len(sets)
        if self.asked.page is not None:
            self.write_whole(self.asked.page, page.as_html(shown).encode("utf-8", "replace"))

    def show(self, shown, new):
        found = f"{number_of(len(shown.conflicts), 'conflict', 'conflicts')} and " \
                f"{number_of(len(shown.report.corrections), 'correction', 'corrections')}"
        if self.at_first is None:
            print(f"{found} are there")
        else:
            seconds = time.monotonic() - self.began
            a_minute = max(0, len(self.journal.sets) - self.at_first) * 60 / max(seconds, 0.001)
            print(f"{found}, after {seconds:.1f} s: {a_minute:.0f} sets a minute")
        for line in reversed(new[-NEWEST:]):
            kind, *members, _ = line.split()
            tell("newest " + ("conflict" if kind == "u" else "correction"), [shown.name(int(group)) for group in members])
        most = [(group, conflicts) for group, (conflicts, _) in shown.counts[:MOST_TOLD] if conflicts]
        if most:
            tell("in most conflicts", [f"{shown.name(group)} ({conflicts})" for group, conflicts in most])
        print(end="", flush=True)


def tell(what, names):
    line = f"    {what}: " + ("; ".join(names) or "the empty one")
    print(line if len(line) <= WIDTH else line[:WIDTH - 1] + "\u2026")
