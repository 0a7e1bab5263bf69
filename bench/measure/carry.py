#!/usr/bin/env python3
"""What carrying takes beside a listing anew, and whether both give the same report.

    bench/measure/carry.py PROGRAM [--rounds 3]      the table: six problems that get 1, 10 and 100 groups more at the end
    bench/measure/carry.py PROGRAM --agree [--count 200] [--seed 1]

A problem is made old by taking its last groups away: what is left is OLD, and NEW has the same clauses and then those of the
groups that were taken. The table has what `list NEW` takes, what `check OLD EVIDENCE` takes, and what `carry OLD EVIDENCE NEW`
takes in all, beyond the check, and as a part of the listing, each by one worker and the best of the rounds; and how many sets
are new. With --agree `carry` has to give the report of `list` byte for byte: on the examples with their last 1, 2 and 5 groups
added, and on small random problems, each from whole evidence, from what a limit leaves of it, and from one set or none, by 1 and by 4
workers. What is new of a set is judged by its groups: a correction is old where its old groups are one. Needs Python 3.9.
Ends with 1 where two reports differ.
"""
import argparse
import glob
import math
import os
import random
import resource
import subprocess
import sys
import tempfile

from places import BENCH, TOP

# Each takes half a second and more to list, with its seed.
FAMILIES = [("chain", 1000, 1), ("types", 60, 5), ("tripled", 180, 1), ("multiplier", 64, 3), ("plan", 16000, 1), ("random", 34, 1)]


def text_of(variables, groups, clauses):
    lines = [f"p gcnf {variables} {len(clauses)} {groups}"]
    return "\n".join(lines + [f"{{{group}}} {' '.join(map(str, [*lits, 0]))}" for group, lits in clauses]) + "\n"


def problem_in(text):
    """Variables, groups, and clauses with their groups."""
    words = " ".join(line for line in text.splitlines() if not line.lstrip(" \t").startswith("c"))
    words = iter(words.replace("{", " ").replace("}", " ").split()[2:])
    variables, count, groups = (int(next(words)) for _ in range(3))
    return variables, groups, [(int(next(words)), list(iter(lambda: int(next(words)), 0))) for _ in range(count)]


def parted(text, last):
    """The problem without its last groups, and the whole one, whose clauses come behind those."""
    variables, groups, clauses = problem_in(text)
    last = min(last, groups)
    old = [c for c in clauses if c[0] <= groups - last]
    new = [c for c in clauses if c[0] > groups - last]
    return text_of(variables, groups - last, old), text_of(variables, groups, old + new)


def run(program, *words):
    """Its processor seconds, its status and what it wrote."""
    before = resource.getrusage(resource.RUSAGE_CHILDREN)
    done = subprocess.run([program, *words], stdout=subprocess.PIPE, stderr=subprocess.PIPE, universal_newlines=True)
    after = resource.getrusage(resource.RUSAGE_CHILDREN)
    return after.ru_utime + after.ru_stime - before.ru_utime - before.ru_stime, done.returncode, done.stdout, done.stderr


def put(name, text):
    with open(name, "w", encoding="ascii") as file:
        file.write(text)


def timed(program, rounds, *words):
    best = min((run(program, *words) for _ in range(rounds)), key=lambda r: r[0])
    if best[1]:
        sys.exit(f"{' '.join(words)} ended with {best[1]}: {best[3]}")
    return best[0], best[2]


def new_sets(old, new):
    """How many sets of the new report are new, and how many there are."""
    groups = int(old.split()[2])
    known = set(line for line in old.splitlines() if line[:1] in "um")

    def before(line):
        words = line.split()
        return line if words[0] == "u" else " ".join([words[0], *(w for w in words[1:] if int(w) <= groups)])
    lines = [line for line in new.splitlines() if line[:1] in "um"]
    return sum(before(line) not in known for line in lines), len(lines)


def table(program, rounds):
    print("| Problem | More | Sets | New | list NEW | check OLD | carry | beyond the check | of list |")
    print("|---|---|---|---|---|---|---|---|---|")
    ratios = []
    for family, size, seed in FAMILIES:
        made = subprocess.run([sys.executable, os.path.join(BENCH, "generate.py"), family, "--size", str(size), "--seed", str(seed)],
                              stdout=subprocess.PIPE, universal_newlines=True, check=True).stdout
        for last in (1, 10, 100):
            old, new = parted(made, last)
            put("old", old), put("new", new)
            _, before = timed(program, 1, "list", "old", "--evidence", "known")
            listing, report = timed(program, rounds, "list", "new")
            checking, _ = timed(program, rounds, "check", "old", "known")
            carrying, carried = timed(program, rounds, "carry", "old", "known", "new")
            if carried != report:
                sys.exit(f"{family} {seed} and {last} more: carry gives another report")
            fresh, all_sets = new_sets(before, report)
            part = (carrying - checking) / listing
            if last == 1 and fresh * 10 < all_sets:
                ratios.append(part)
            print(f"| {family} {size} {seed} | {last} | {all_sets} | {fresh} | {listing:.2f} | {checking:.2f} | {carrying:.2f} |"
                  f" {carrying - checking:.2f} | {part:.2f} |", flush=True)
    if ratios:
        mean = math.exp(sum(math.log(max(part, 0.01)) for part in ratios) / len(ratios))
        print(f"\nOne group more, new sets under a tenth: {mean:.2f} of the listing in the geometric mean of {len(ratios)}.")


def small(choices):
    variables, groups = choices.randint(1, 5), choices.randint(1, 7)
    clauses = [(choices.randint(0, groups), [choices.choice((-1, 1)) * choices.randint(1, variables) for _ in range(choices.randint(0, 3))])
               for _ in range(choices.randint(1, 14))]
    return text_of(variables, groups, clauses)


def agrees(program, what, old, new):
    put("old", old), put("new", new)
    report = run(program, "list", "new")[2]
    wrong = 0
    for limit in ([], ["--limit", "2"], ["--conflicts", "0", "--limit", "1"]):
        run(program, "list", "old", "--evidence", "known", *limit)
        for jobs in ("1", "4"):
            _, status, carried, said = run(program, "carry", "old", "known", "new", "--jobs", jobs, "--evidence", "shown")
            if status or carried != report or run(program, "check", "new", "shown")[2] != report:
                print(f"differs {what}, {' '.join(limit)}, by {jobs}: status {status} {said}")
                wrong += 1
    return wrong


def agree(program, count, seed):
    wrong = tried = 0
    for name in sorted(glob.glob(os.path.join(TOP, "examples", "*.gcnf"))):
        with open(name, encoding="ascii") as file:
            lines = [line for line in file.read().split("%")[0].splitlines() if not line.lstrip(" \t").startswith("c")]
        if not " ".join(lines).split()[:2] == ["p", "gcnf"]:
            continue
        for last in (1, 2, 5):
            wrong += agrees(program, f"{os.path.basename(name)} and {last}", *parted("\n".join(lines), last))
            tried += 1
    choices = random.Random(seed)
    for number in range(count):
        made = small(choices)
        last = choices.randint(1, min(3, int(made.split()[4])))
        wrong += agrees(program, f"random problem {number}", *parted(made, last))
        tried += 1
    print(f"{tried} pairs of files, {6 * tried} carryings, {wrong} differ")
    return wrong


def main():
    words = argparse.ArgumentParser(description=__doc__, formatter_class=argparse.RawDescriptionHelpFormatter)
    words.add_argument("program")
    words.add_argument("--rounds", type=int, default=3)
    words.add_argument("--agree", action="store_true")
    words.add_argument("--count", type=int, default=200)
    words.add_argument("--seed", type=int, default=1)
    given = words.parse_args()
    program = os.path.abspath(given.program)
    with tempfile.TemporaryDirectory() as folder:
        os.chdir(folder)
        if given.agree:
            return 1 if agree(program, given.count, given.seed) else 0
        table(program, given.rounds)
    return 0


if __name__ == "__main__":
    sys.exit(main())
