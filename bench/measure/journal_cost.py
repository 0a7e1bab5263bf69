#!/usr/bin/env python3
"""What a journal costs: of a listing, of a record on a disk, and of reading one back.

    bench/measure/journal_cost.py PROGRAM [--rounds 3] [--memory FOLDER] [--disk FOLDER] [--sets 300] [--only WORD]

Three tables, of seconds of the clock and of the processor, the best of the rounds:

- `list --journal` on a file in memory, where a sync is free, beside `list` and what writing the same lines takes, on six
  problems, by 1 and by 4 workers. The same lines are those of the journal as evidence of version 1: what writing takes is a
  run that resumes all of them under a limit, with --evidence and without. Wanted is at most 1.1 of both together, and 20
  microseconds a record, which is four calls of the system.
- `list --journal` on a disk, for so many sets: records a second, beside what a write and a sync there take by themselves.
- Reading back a journal of 100,000 records, beside a check of the same records as evidence of version 1. What reading takes is
  a run under a limit that goes on from the journal, less one that goes on from the evidence, and the check. Wanted is at most
  1.2 of the check.

Needs Python 3.9 and some GB in FOLDERs, which are /dev/shm and the folder for temporary files. Ends with 1 where two reports
differ.
"""
import argparse
import os
import resource
import subprocess
import sys
import tempfile
import time
from collections import namedtuple

from places import BENCH
from gmus_tools.evidence import check_evidence, journal

PROBLEMS = [("types", 60, 5), ("tripled", 180, 1), ("colour", 64, 2), ("net", 1500, 1), ("multiplier", 64, 3), ("plan", 16000, 1)]
JOBS = (1, 4)
ALLOWED, A_RECORD, ALLOWED_READING = 1.1, 20e-6, 1.2
SALVAGED = 100000

Spent = namedtuple("Spent", "wall cpu")


class Room:
    """The program, over files of one folder."""

    def __init__(self, program, folder, rounds):
        self.program, self.folder, self.rounds = program, folder, rounds

    def at(self, name):
        return os.path.join(self.folder, name)

    def once(self, words, wanted):
        before, begins = resource.getrusage(resource.RUSAGE_CHILDREN), time.perf_counter()
        done = subprocess.run([self.program, *words], cwd=self.folder, stdout=subprocess.PIPE, stderr=subprocess.PIPE, check=False)
        wall, after = time.perf_counter() - begins, resource.getrusage(resource.RUSAGE_CHILDREN)
        if done.returncode != wanted:
            sys.exit(f"{' '.join(words)}: ended with {done.returncode}: {done.stderr.decode().strip()}")
        return Spent(wall, after.ru_utime + after.ru_stime - before.ru_utime - before.ru_stime), done.stdout

    def best(self, *words, wanted=0, fresh=()):
        """The least that a run takes, and what it wrote. What stands under the names of `fresh` is taken away before each."""
        spent = []
        for _ in range(self.rounds):
            for name in fresh:
                if os.path.exists(self.at(name)):
                    os.remove(self.at(name))
            took, output = self.once(words, wanted)
            spent.append(took)
        return Spent(*map(min, zip(*spent))), output

    def read(self, name):
        with open(self.at(name), "rb") as file:
            return file.read()

    def write(self, name, held):
        with open(self.at(name), "wb") as file:
            file.write(held)


def generate(family, size, seed):
    made = subprocess.run([sys.executable, os.path.join(BENCH, "generate.py"), family, "--size", str(size), "--seed", str(seed)],
                          stdout=subprocess.PIPE, check=True)
    return made.stdout


def sets_of(report):
    return sorted(line for line in report.split(b"\n") if line[:2] in (b"u ", b"m "))


def writing(room, held):
    """What writing a journal's lines as evidence of version 1 takes, and how many records and bytes these are."""
    # corrections stand before conflicts: no line then gives way to one that names a conflict before it
    texts = sorted(journal.texts_in(held)[0], key=lambda text: text[:1])
    room.write("lines", journal.evidence_of(check_evidence.Problem(room.read("f").decode()), texts))
    words = ["list", "f", "--resume", "lines", "--limit", str(len(texts))]
    without, _ = room.best(*words, wanted=4)
    with_it, _ = room.best(*words, "--evidence", "written", wanted=4)
    if room.read("written") != room.read("lines").replace(b"p gmev 1 ", b"p gmev 2 ", 1):
        sys.exit("evidence of the journal's records has other lines")
    return Spent(*(max(0, a - b) for a, b in zip(with_it, without))), len(texts), os.path.getsize(room.at("lines"))


def row_in_memory(room, jobs):
    words = ["list", "f", "--jobs", str(jobs)]
    plain, report = room.best(*words)
    kept, same = room.best(*words, "--journal", "j", fresh=["j"])
    if same != report:
        sys.exit(f"{' '.join(words)}: REPORTS DIFFER")
    written, records, size = writing(room, room.read("j"))
    cells = [f"{records:,}", f"{size / 1e6:.1f}"]
    for mine, listing, lines in zip(kept, plain, written):
        beyond = (mine - listing - lines) / records * 1e6
        cells += [f"{listing:.2f}", f"{lines:.2f}", f"{mine:.2f}", f"{mine / (ALLOWED * (listing + lines) + A_RECORD * records):.2f}", f"{beyond:.1f}"]
    return cells


def put(cells):
    print("| " + " | ".join(map(str, cells)) + " |", flush=True)


def put_head(cells):
    put(cells)
    put(["---"] * len(cells))


def table_in_memory(room, problems):
    print(f"In memory. \"Of what is wanted\" is the listing with a journal by {ALLOWED} of the listing and the writing, and 20 microseconds a record.\n")
    heads = [f"{what}, {clock}" for clock in ("clock", "processor")
             for what in ("list", "writing", "with a journal", "of what is wanted", "microseconds a record beyond both")]
    put_head(["problem", "workers", "records", "MB", *heads])
    for problem in problems:
        room.write("f", generate(*problem))
        for jobs in JOBS:
            put([" ".join(map(str, problem)), jobs, *row_in_memory(room, jobs)])


def seconds_of_a_sync(folder, count=200):
    """What one write behind the last one and its sync take there."""
    with tempfile.TemporaryFile(dir=folder) as file:
        begins = time.perf_counter()
        for at in range(count):
            os.pwrite(file.fileno(), bytes(500), 500 * at)
            os.fsync(file.fileno())
        return (time.perf_counter() - begins) / count


def table_on_disk(room, problems, sets):
    print(f"\nOn a disk, where a write and a sync take {1e3 * seconds_of_a_sync(room.folder):.2f} ms by themselves; up to {sets} sets.\n")
    put_head(["problem", "workers", "records", "list", "with a journal", "records a second"])
    for problem in problems:
        room.write("f", generate(*problem))
        for jobs in JOBS:
            words = ["list", "f", "--jobs", str(jobs), "--limit", str(sets)]
            plain, _ = room.best(*words, wanted=4)
            kept, report = room.best(*words, "--journal", "j", wanted=4, fresh=["j"])
            if len(journal.texts_in(room.read("j"))[0]) != len(sets_of(report)):
                sys.exit(f"{' '.join(words)}: the journal has other sets than the report")
            records = len(sets_of(report))
            put([" ".join(map(str, problem)), jobs, records, f"{plain.wall:.2f}", f"{kept.wall:.2f}", f"{records / kept.wall:.0f}"])


def pairs_with_records(count, records):
    """A problem of as many pairs of opposite groups, and the texts of so many of its corrections."""
    groups = 2 * count
    lines = [f"p gcnf {count} {groups} {groups}"]
    for var in range(1, count + 1):
        lines += [f"{{{2 * var - 1}}} {var} 0", f"{{{2 * var}}} -{var} 0"]
    texts = []
    for number in range(records):
        given_up = [2 * at + 1 + (number >> at & 1) for at in range(count)]
        trues = [at + 1 for at in range(count) if given_up[at] % 2 == 0]
        text = [" ".join(map(str, ["m", *given_up, 0])), " ".join(map(str, ["w", 0, *trues, 0]))]
        for group in given_up:
            first = group - 1 + group % 2
            text += [f"d {groups + 1} -{count + first} -{count + first + 1} 0 {first} {first + 1} 0", f"r {group} {groups + 1}"]
        texts.append(("\n".join(text) + "\n").encode())
    return ("\n".join(lines) + "\n").encode(), texts


def table_of_reading(room):
    text, texts = pairs_with_records(17, SALVAGED)
    room.write("f", text)
    room.write("j", journal.framed(texts))
    room.write("lines", journal.evidence_of(check_evidence.Problem(text.decode()), texts))
    limit = ["--limit", str(SALVAGED)]
    checked, report = room.best("check", "f", "lines")
    resumed, same = room.best("list", "f", "--resume", "lines", *limit, wanted=4)
    kept, third = room.best("list", "f", "--journal", "j", *limit, wanted=4)
    if not report == same == third:
        sys.exit("reading back: REPORTS DIFFER")
    print(f"\nReading back {SALVAGED:,} records, {os.path.getsize(room.at('lines')) / 1e6:.1f} MB. At most {ALLOWED_READING} is wanted.\n")
    put_head(["", "check", "list --resume", "list --journal", "reading the journal", "of the check"])
    for clock in range(2):
        reading = kept[clock] - resumed[clock] + checked[clock]
        put(["clock" if not clock else "processor", f"{checked[clock]:.2f}", f"{resumed[clock]:.2f}", f"{kept[clock]:.2f}",
             f"{reading:.2f}", f"{reading / checked[clock]:.2f}"])


def main():
    words = argparse.ArgumentParser(description=__doc__, formatter_class=argparse.RawDescriptionHelpFormatter)
    words.add_argument("program")
    words.add_argument("--rounds", type=int, default=3)
    words.add_argument("--memory", default="/dev/shm")
    words.add_argument("--disk", default=tempfile.gettempdir())
    words.add_argument("--sets", type=int, default=300)
    words.add_argument("--only", default="", help="problems with this word in their name alone; or 'reading'")
    given = words.parse_args()
    program = os.path.abspath(given.program)
    problems = [problem for problem in PROBLEMS if given.only in " ".join(map(str, problem))]
    with tempfile.TemporaryDirectory(dir=given.memory) as memory, tempfile.TemporaryDirectory(dir=given.disk) as disk:
        if problems:
            table_in_memory(Room(program, memory, given.rounds), problems)
            table_on_disk(Room(program, disk, given.rounds), problems, given.sets)
        if given.only in ("", "reading"):
            table_of_reading(Room(program, memory, given.rounds))


if __name__ == "__main__":
    main()
