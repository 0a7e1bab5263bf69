#!/usr/bin/env python3
"""Traces the system calls of runs that write evidence or an export, and tells whether they come in the order that a crash needs.

    checks/output_calls.py PROGRAM

A crash of the machine leaves the old text or the new one under an output's name if the calls on it come so: writes to a file
beside it, made for this; a sync of that; its renaming; and a sync of the folder. Each begins after the one before it has
ended, and the file of the name is neither emptied nor written. The next output, and the report, begin after that.

Needs strace and Python 3.9. Says how many outputs were traced; ends with 1 where a call is another one.
"""
import os
import re
import shutil
import sys
import tempfile
from collections import namedtuple

from places import EXAMPLES
from checks import journal_calls
from checks.journal_calls import Differs, plain

TRACED = journal_calls.TRACED + ",open,openat,creat,truncate,rename,renameat,renameat2,link,linkat,unlink,unlinkat"
# A call with names in place of a file: what it is, its words, and what it gave.
NAMED = re.compile(r"(open|openat|creat|truncate|rename|renameat|renameat2|link|linkat|unlink|unlinkat)\((.*)\)\s+= (-?\d+)")

# What a call is, its file or first name, its last name or how it opens, and the lines of the trace in which it began and ended.
Event = namedtuple("Event", "what path to begins ends")


def events_in(trace, folder):
    """The calls that write, sync or rename, or open for writing, in their order; the run was in this folder."""
    for line, begins, ends in journal_calls.whole_lines(trace):
        of_file, named = journal_calls.CALL.match(line), NAMED.match(line)
        if of_file and int(of_file[4]) >= 0:
            what = "sync" if of_file[1] in ("fsync", "fdatasync") else "write" if "write" in of_file[1] else of_file[1]
            yield Event(what, os.fsdecode(plain(of_file[2])), None, begins, ends)
        elif named and int(named[3]) >= 0:
            names = [os.path.join(folder, os.fsdecode(plain(text))) for text in re.findall(r'"([^"]*)"', named[2])]
            how = named[2].rpartition('"')[2]
            if named[1].startswith("rename") or "O_WRONLY" in how or "O_RDWR" in how or not named[1].startswith("open"):
                yield Event(re.sub("at2?$", "", named[1]), names[0], names[-1] if len(names) > 1 else how, begins, ends)


class Order:
    """The calls on some outputs and their folders, which are taken one by one."""

    def __init__(self, events, places):
        self.folders, self.places, self.ended = {os.path.dirname(place) for place in places}, places, -1
        self.events = [it for it in events if it.path in {*self.folders, *places} or re.search(r"/\.[^/]*\.gmus-\d+$", it.path)]

    def take(self, what, path, to=None):
        if not self.events:
            raise Differs(f"no {what} of {path} came")
        event = self.events.pop(0)
        if event.begins < self.ended:
            raise Differs(f"{event} began before the one before it had ended")
        if (event.what, event.path) != (what, path) or to is not None and event.to != to:
            raise Differs(f"{event} in place of {what} of {path}")
        self.ended = event.ends
        return event

    def judge(self):
        """Judges the calls on each output, in their order, and gives when the last one ended."""
        for place in self.places:
            folder, last = os.path.split(place)
            if self.events and self.events[0].path == place:
                # What is there is opened, and not emptied.
                if re.search("O_TRUNC|O_CREAT", self.take("open", place).to):
                    raise Differs(f"{place} is emptied, or made")
            if not self.events:
                raise Differs(f"nothing of {place} came")
            beside = self.events[0].path
            if not re.fullmatch(re.escape(f"{folder}/.{last}.gmus-") + r"\d+", beside):
                raise Differs(f"{self.events[0]} in place of a file beside {place}")
            if "O_CREAT|O_EXCL" not in self.take("open", beside).to:
                raise Differs(f"{beside} is not made anew")
            self.take("write", beside)
            while self.events and self.events[0].what == "write":
                self.take("write", beside)
            self.take("sync", beside)
            self.take("rename", beside, place)
            self.take("sync", folder)
        if self.events:
            raise Differs(f"{self.events[0]} came behind all")
        return self.ended


def try_run(program, folder, words, names):
    """Traces a run whose outputs have these names, in this order."""
    os.chdir(folder)
    places, report = [os.path.realpath(name) for name in names], os.path.join(folder, "report")
    events = list(events_in(journal_calls.traced([program, *words.split()], TRACED, report), folder))
    ended = Order(events, places).judge()
    begins = min((it.begins for it in events if it.what == "write" and it.path == report), default=ended)
    if begins < ended:
        raise Differs("the report was begun before the last output had ended")
    return len(names)


# the words, and the names of the outputs; those that begin with 'old' have a text, and 'link' leads to far/new
RUNS = (("list f --evidence new", ["new"]), ("list f --evidence old", ["old"]), ("list f --evidence old --jobs 4", ["old"]),
        ("list f --evidence link", ["link"]), ("list f --evidence link --limit 3", ["link"]), ("list f --resume old --evidence old", ["old"]),
        ("list f --journal far/j --evidence ./old", ["old"]), ("export f e 2 cnf old2", ["cnf", "old2"]), ("export f e 1 old2 link", ["old2", "link"]),
        ("carry f e f --evidence far/carried", ["far/carried"]))


def main():
    if len(sys.argv) != 2:
        sys.exit(__doc__)
    program, count = os.path.abspath(sys.argv[1]), 0
    with tempfile.TemporaryDirectory() as room:
        folder = os.path.realpath(room)
        for name, text in (("f", "first.gcnf"), ("e", "first.evidence"), ("old", "first.report"), ("old2", "first.report")):
            shutil.copyfile(os.path.join(EXAMPLES, text), os.path.join(folder, name))
        os.mkdir(os.path.join(folder, "far"))
        os.symlink("far/new", os.path.join(folder, "link"))
        for words, names in RUNS:
            try:
                count += try_run(program, folder, words, names)
            except Differs as differs:
                sys.exit(f"{words}: {differs}")
        os.chdir(EXAMPLES)
    print(f"{count} outputs")


if __name__ == "__main__":
    main()
