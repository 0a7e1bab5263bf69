#!/usr/bin/env python3
"""Traces the system calls of runs that write a journal, and tells whether they come in the order that a crash needs.

    checks/journal_calls.py PROGRAM

A kill loses nothing that was written, so only the calls show what a crash of the machine may lose. Of each run, by 1 and by 4
workers, on a name that is not there, on a link that leads to none, on an empty file and on a part of a journal:

- A file that was made has its folder synced before the first record is written, also if a link led there from another folder.
- The file is synced first; an empty one then gets a byte 0 at its beginning, and is synced.
- Each record is four calls: one write from behind the closed gate on, of the length, the text and a byte 0; a sync; one write
  of the byte 1 at the gate; and a sync. No call begins before the one before it has ended, and no other call writes.

Needs strace and Python 3.9. Says how many records were traced; ends with 1 where a call is another one.
"""
import os
import re
import subprocess
import sys
import tempfile
from collections import namedtuple

from places import EXAMPLES
from gmus_tools.evidence import journal

TRACED = "write,pwrite64,writev,pwritev,pwritev2,fsync,fdatasync,msync,sync_file_range,ftruncate,fallocate"
# A call as `strace -f -y -xx` tells it, behind the number of its thread: what it is, its file, the rest, and what it gave.
CALL = re.compile(r"(\w+)\(\d+<([^>]*)>(.*)\)\s+= (-?\d+)")
WRITE = re.compile(r', "([^"]*)"(?:\.\.\.)?, (\d+), (\d+)')

# A call, its path, at which byte, the first bytes, how many; and the lines of the trace in which it began and ended.
Call = namedtuple("Call", "what path at front count begins ends")


class Differs(Exception):
    """What differs, and where."""


def plain(text):
    """Bytes that strace tells as \\x01 and so on."""
    return bytes(int(pair, 16) for pair in re.findall(r"\\x([0-9a-f]{2})", text))


def whole_lines(trace):
    """Each call in one line, which may have ended in a later one: the line, and where it began and ended."""
    waiting = {}
    for at, line in enumerate(trace.split("\n")):
        thread, _, rest = line.partition(" ")
        rest = rest.strip()
        if rest.endswith("<unfinished ...>"):
            waiting[thread] = at, rest.removesuffix("<unfinished ...>").rstrip()
        elif rest.startswith("<... ") and thread in waiting:
            began, front = waiting.pop(thread)
            yield front + rest.partition(">")[2].lstrip(), began, at
        else:
            yield rest, at, at


def calls_in(trace):
    for line, begins, ends in whole_lines(trace):
        found = CALL.match(line)
        if not found:
            continue
        what, path, rest, gave = found.groups()
        at, front, count = None, b"", None
        if what == "pwrite64":
            text, count, at = WRITE.match(rest).groups()
            front, count, at = plain(text), int(count), int(at)
            if int(gave) != count:
                raise Differs(f"a write of {count} bytes wrote {gave}")
        elif int(gave) != 0 and what != "write":
            raise Differs(f"{what} gave {gave}")
        yield Call("sync" if what in ("fsync", "fdatasync") else what, os.fsdecode(plain(path)), at, front, count, begins, ends)


def traced(words, calls=TRACED, out=os.devnull):
    """The trace of a run, of these calls; standard output goes to a file."""
    with tempfile.NamedTemporaryFile() as trace, open(out, "wb") as output:
        strace = ["strace", "-f", "-y", "-xx", "-s", "9", "-e", "signal=none", "-e", "trace=" + calls, "-o", trace.name]
        ended = subprocess.run([*strace, *words], stdin=subprocess.DEVNULL, stdout=output, stderr=subprocess.PIPE, universal_newlines=True)
        if ended.returncode not in (0, 4):
            raise Differs(f"a run ended with {ended.returncode}: {ended.stderr}")
        return trace.read().decode()


class Order:
    """The calls on one journal, which are taken one by one."""

    def __init__(self, calls, name):
        calls = list(calls)
        self.calls = [call for call in calls if call.path == name]
        folders = [call for call in calls if call.path == os.path.dirname(name)]
        self.folder_synced = min((call.ends for call in folders if call.what == "sync"), default=None)
        self.ended = -1

    def take(self, what, at=None, front=b"", count=None):
        if not self.calls:
            raise Differs(f"no {what} came")
        call = self.calls.pop(0)
        if call.begins < self.ended:
            raise Differs(f"{call} began before the one before it had ended")
        if call.what != what or at is not None and call.at != at or count is not None and call.count != count \
                or not call.front.startswith(front):
            raise Differs(f"{call} in place of {what} at byte {at} of {front!r}")
        self.ended = call.ends
        return call

    def judge(self, is_made, held):
        """Judges the calls on what the journal held before, and gives the ending gate and how many records were added."""
        gate, added = journal.texts_in(held)[1], 0
        self.take("sync")
        if not held:
            self.take("pwrite64", 0, b"\0", 1)
            self.take("sync")
        while self.calls:
            text = self.take("pwrite64", gate + 1)
            if is_made and not added and (self.folder_synced is None or self.folder_synced > text.begins):
                raise Differs("its folder is not synced before the first record")
            length = int.from_bytes(text.front[:journal.LENGTH], "big")
            if text.count != journal.LENGTH + length + 1:
                raise Differs(f"{text} writes another length than it tells")
            self.take("sync")
            self.take("pwrite64", gate, bytes([journal.OPEN]), 1)
            self.take("sync")
            gate, added = gate + 1 + journal.LENGTH + length, added + 1
        return gate, added


def held_in(name):
    with open(name, "rb") as file:
        return file.read()


def try_run(program, file, name, wanted, *words):
    """How many records a run adds to what stands under this name, which have to be so many."""
    is_made, place = not os.path.exists(name), os.path.realpath(name)
    held = b"" if is_made else held_in(name)
    trace = traced([program, "list", file, "--journal", name, *words])
    gate, added = Order(calls_in(trace), place).judge(is_made, held)
    left = held_in(name)
    texts, ends = journal.texts_in(left)
    if (ends, len(texts), left[ends:]) != (gate, len(journal.texts_in(held)[0]) + added, b"\0"):
        raise Differs("it holds another journal than was written")
    if added != wanted:
        raise Differs(f"{added} records were added in place of {wanted}")
    return added


def main():
    if len(sys.argv) != 2:
        sys.exit(__doc__)
    program, file, added = os.path.abspath(sys.argv[1]), os.path.join(EXAMPLES, "laptop.gcnf"), 0
    sets = len(re.findall(rb"(?m)^[um] ", held_in(os.path.join(EXAMPLES, "laptop.report"))))
    with tempfile.TemporaryDirectory() as room:
        folder = os.path.realpath(room)
        for jobs in ("1", "4"):
            part, empty, made = (os.path.join(folder, word + jobs) for word in ("part", "empty", "made"))
            with open(empty, "wb"):
                pass
            # a link to no file, in another folder
            link = os.path.join(folder, "link" + jobs)
            os.mkdir(os.path.join(folder, "far" + jobs))
            os.symlink(os.path.join("far" + jobs, "made"), link)
            try:
                for name, wanted, *words in ((part, 3, "--limit", "3"), (part, sets - 3), (part, 0), (empty, sets), (made, sets), (link, sets)):
                    added += try_run(program, file, name, wanted, "--jobs", jobs, *words)
            except Differs as differs:
                sys.exit(f"by {jobs} on {os.path.basename(name)}: {differs}")
    print(f"{added} records")


if __name__ == "__main__":
    main()
