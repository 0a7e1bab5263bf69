#!/usr/bin/env python3
"""Refuses each allocation of the program in turn.

    checks/allocations.py [--gmus PROGRAM] [--dense 1000] [--step 100] [--try NUMBERS]

The commands are a listing by one worker, one by two workers with evidence, a checking, and an export, a made case, the roles of
groups in focus, what is carried over to a longer file, a listing with a journal by one worker, and one by two that goes on from
a part of one, where the program has these commands. Of each, every allocation up to --dense is refused, and then each --step-th
to the last one.
A run has to end with 8 and its line and no report, or with 0 and the full output, or with 6 or 7 and their line where a call
of the real files or streams found no memory. Where evidence was asked for, what stands under its name with 0 is accepted
evidence. Of an export both files are full with 0, and not there with 6; else each is a front of the full one, and there is
no refutation but behind a full CNF. A journal keeps what it had, whatever the end, and has accepted records alone, as
tools/journal.py says; with 0 it has each set of the report.

The allocations are refused by a small library (allocations/refuse.c) that is loaded before PROGRAM. It has to be the proved
one: one that `rt try` builds has an allocator of its own. With --try N,M,.. those of the first command are refused by the
toolchain's own option too (`rt try --fail-alloc`), which builds the program without proof once for each number, some minutes
each. Needs Python 3.9, Linux and a C compiler. Ends with 1 where a run ends otherwise.
"""
import argparse
import collections
import os
import subprocess
import sys
import tempfile

from places import TOP
from gmus_tools.evidence import check_evidence, journal

HERE = os.path.dirname(os.path.abspath(__file__))


FIRST = os.path.join(TOP, "examples", "first.gcnf")
LINES = {8: "gmus: out of memory\n",
         6: ("gmus: read fault on input\n", "gmus: read fault on evidence\n", "gmus: read fault on journal\n"),
         7: ("gmus: write fault on report\n", "gmus: write fault on evidence\n", "gmus: write fault on export\n", "gmus: write fault on journal\n")}
COMMANDS = ["list f --jobs 1", "list f --jobs 2 --evidence b", "check f a", "export f a 2 c l", "drill 900 1", "roles f --jobs 2 --focus 4,2,1,2",
            "carry f a g --evidence b", "list f --jobs 1 --journal j", "list f --jobs 2 --journal k --evidence b"]
NEW = ["export", "drill", "roles", "carry"]   # older programs do not have them
LONGER = "p gcnf 2 5 5\n{1} 1 0\n{2} -1 0\n{3} -1 2 0\n{4} -2 0\n{5} 1 0\n"   # the first example and a group
EXPORTED = ["c", "l"]       # the names of an export, the CNF's first
FREE, PART = "j", "k"       # the names of journals: one that is free before, and one with a part
PART_HELD = journal.framed([b"m 1 0\nw 0 0\nd 5 -3 -4 0 1 2 0\nr 1 5\n"])   # one correction of the first example


def run(gmus, words, folder, library, at):
    """Status, output, error, and how many allocations there were. The names of an export are free before, and journals anew."""
    counted = os.path.join(folder, "count")
    with open(counted, "wb") as count:
        count.write(bytes(8))
    for name in [*EXPORTED, FREE]:
        if os.path.exists(os.path.join(folder, name)):
            os.remove(os.path.join(folder, name))
    with open(os.path.join(folder, PART), "wb") as part:
        part.write(PART_HELD)
    done = subprocess.run([gmus, *words], cwd=folder, stdout=subprocess.PIPE, stderr=subprocess.PIPE, timeout=120,
                          env={**os.environ, "LD_PRELOAD": library, "REFUSE_AT": str(at), "REFUSE_COUNT": counted})
    with open(counted, "rb") as count:
        return done.returncode, done.stdout.decode(), done.stderr.decode(), int.from_bytes(count.read(), sys.byteorder)


def fault_of_journal(name, status, full, folder):
    """What is wrong with what a run left as its journal, if anything is."""
    if not os.path.exists(os.path.join(folder, name)):
        return None if status else "no journal"
    with open(os.path.join(folder, name), "rb") as file:
        held = file.read()
    if name == PART and not held.startswith(PART_HELD[:-1]):
        return "a journal that lost a record"
    try:
        found = journal.salvaged(check_evidence.problem_of(FIRST), held)
    except journal.Foreign as at:
        return f"a journal that is refused at byte {at}"
    sets = [line for line in full.split("\n") if line[:2] in ("u ", "m ")]
    return "a journal with other sets than the report" if not status and len(found) != len(sets) else None


def exported(folder):
    """What stands under the names of an export: None where there is no file."""
    texts = []
    for name in EXPORTED:
        texts.append(None)
        if os.path.exists(os.path.join(folder, name)):
            with open(os.path.join(folder, name), "rb") as file:
                texts[-1] = file.read()
    return texts


def fault_of_export(status, texts, full):
    """What is wrong with what an export left, if anything is."""
    if status == 0:
        return None if texts == full else "files that are not the full ones"
    if status == 6:
        return None if texts == [None, None] else "a file that was opened"
    if any(text is not None and not whole.startswith(text) for text, whole in zip(texts, full)):
        return "a file that is no front of the full one"
    return "a refutation behind no full CNF" if texts[1] is not None and texts[0] != full[0] else None


def fault(words, found, full, folder, gmus):
    """What is wrong with an ending, if anything is."""
    status, out, err, _ = found
    if status == 0:
        if (out, err) != (full, ""):
            return "an output that is not the full one"
        if "--evidence" in words:
            file = words[3] if words[0] == "carry" else words[1]
            checked = subprocess.run([gmus, "check", file, "b"], cwd=folder, stdout=subprocess.PIPE)
            return None if (checked.returncode, checked.stdout.decode()) == (0, full) else "evidence that is refused"
        return None
    if status == 8:
        return None if (out, err) in (("", LINES[8]), ("", "")) else "8 with an output"
    if status in (6, 7):
        is_told = first_line(err) in LINES[status] and (status == 7 or not out) and full.startswith(out)
        return None if is_told else "a fault that is told wrongly"
    return "another status"


def first_line(err):
    """What programs read of standard error: behind it may stand a line for a person, if there is memory for it."""
    line, _, more = err.partition("\n")
    is_second = more == "" or more.startswith("  ") and more.count("\n") == 1 and more.endswith("\n")
    return line + "\n" if is_second else err


def numbers(last, dense, step):
    return list(range(1, min(last, dense) + 1)) + list(range(dense + step, last + 1, step))


def try_command(gmus, words, folder, library, given):
    status, full, err, last = run(gmus, words, folder, library, 0)
    if (status, err) == (2, "gmus: bad command line\n") and (words[0] in NEW or "--journal" in words):
        print(f"{' '.join(words)}: skipped: this program has no such command", flush=True)
        return 0
    if (status, err) != (0, ""):
        sys.exit(f"{' '.join(words)}: status {status} with no allocation refused: {err}")
    if not last:
        sys.exit(f"{gmus}: none of its allocations is seen: it is not a proved program")
    counts, wrong, files = collections.Counter(), 0, exported(folder)
    for at in numbers(last, given.dense, given.step):
        found = run(gmus, words, folder, library, at)
        counts[found[0]] += 1
        what = fault(words, found, full, folder, gmus)
        if not what and words[0] == "export":
            what = fault_of_export(found[0], exported(folder), files)
        if not what and "--journal" in words:
            what = fault_of_journal(words[words.index("--journal") + 1], found[0], full, folder)
        if what:
            wrong += 1
            print(f"{' '.join(words)}: allocation {at} refused: {what}: {found[:3]}")
    statuses = ", ".join(f"{count} with {status}" for status, count in sorted(counts.items()))
    print(f"{' '.join(words)}: {last} allocations, {sum(counts.values())} refused in turn: {statuses}; {wrong} wrong", flush=True)
    return wrong


def try_by_toolchain(numbers_text):
    """The same of the first command by the toolchain's option: 8 with no output, or 0 with the full one."""
    with open(os.path.join(TOP, "examples", "first.report"), "rb") as report:
        full = report.read()
    wrong = 0
    for at in filter(None, numbers_text.split(",")):
        done = subprocess.run(["rt", "try", "--fail-alloc", at, "--data", f"f={FIRST}", "--", "list", "f", "--jobs", "1"],
                              cwd=os.path.join(TOP, "crates", "gmus"), stdout=subprocess.PIPE, stderr=subprocess.PIPE)
        last = done.stderr.decode().strip().split("\n")[-1]
        right = (done.returncode, done.stdout) in ((0, full), (8, b""))
        print(f"rt try --fail-alloc {at}: status {done.returncode}, {last}{'' if right else ': WRONG'}", flush=True)
        wrong += not right
    return wrong


def try_library(gmus, given):
    """How many runs of the commands end otherwise than they may, where the library refuses their allocations."""
    wrong = 0
    with tempfile.TemporaryDirectory() as folder:
        library = os.path.join(folder, "refuse.so")
        subprocess.run(["cc", "-O2", "-shared", "-fPIC", "-o", library, os.path.join(HERE, "allocations", "refuse.c")], check=True)
        with open(FIRST, "rb") as first, open(os.path.join(folder, "f"), "wb") as out:
            out.write(first.read())
        with open(os.path.join(folder, "g"), "w", encoding="ascii") as out:
            out.write(LONGER)
        subprocess.run([gmus, "list", "f", "--evidence", "a"], cwd=folder, stdout=subprocess.DEVNULL, check=True)
        for line in COMMANDS:
            wrong += try_command(gmus, line.split(), folder, library, given)
    return wrong


def main():
    words = argparse.ArgumentParser(description=__doc__, formatter_class=argparse.RawDescriptionHelpFormatter)
    words.add_argument("--gmus")
    words.add_argument("--dense", type=int, default=1000)
    words.add_argument("--step", type=int, default=100)
    words.add_argument("--try", dest="tried", default="", help="numbers for the toolchain's own option")
    given = words.parse_args()
    if not given.gmus and not given.tried:
        words.error("a program, or numbers to try, are needed")
    wrong = try_library(os.path.abspath(given.gmus), given) if given.gmus else 0
    wrong += try_by_toolchain(given.tried)
    sys.exit(1 if wrong else 0)


if __name__ == "__main__":
    main()
