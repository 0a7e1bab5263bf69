#!/usr/bin/env python3
"""Measures how early `gmus roles` stops.

    bench/measure/roles.py PROGRAM [--jobs 1,4] [--rounds 3]

PROGRAM is what `bench/measure/found.sh` builds, which tells how many sets it found. Two tables are printed. In the problems of the
first one each group is in a set, so `roles` may stop before all sets are found: their number, and the processor seconds of
`list` and of `roles`. Those of the second one have a group more, whose clause is over a variable of its own. It is in no
conflict, so `roles` finds all sets, as `list` does: the seconds of both, the best of the rounds. Both print their reports to
nowhere. Needs Python 3.9. Ends with 1 where a run fails, or where `roles` finds other than all sets of the second kind.
"""
import argparse
import math
import os
import re
import resource
import subprocess
import sys
import tempfile

from places import BENCH

# Each has 1,000 sets and more. Pigeons have too few: of 43 sets `roles` needs all.
EARLY = [("dense", 36, 1), ("dense", 37, 1), ("random", 34, 1), ("random", 36, 2), ("chain", 200, 2), ("links", 60, 1)]
WHOLE = [("dense", 36, 1), ("random", 34, 1), ("chain", 1000, 1), ("pigeon", 16, 1), ("multiplier", 64, 3), ("types", 60, 5)]


def made(family, size, seed, lonely):
    text = subprocess.run([sys.executable, os.path.join(BENCH, "generate.py"), family, "--size", str(size), "--seed", str(seed)],
                          stdout=subprocess.PIPE, universal_newlines=True, check=True).stdout
    if not lonely:
        return text
    head, rest = text.split("\n", 1)
    variables, clauses, groups = (int(word) for word in head.split()[2:])
    return f"p gcnf {variables + 1} {clauses + 1} {groups + 1}\n{rest}{{{groups + 1}}} {variables + 1} 0\n"


def run(program, command, jobs):
    """The sets that it found, and its processor seconds."""
    before = resource.getrusage(resource.RUSAGE_CHILDREN)
    done = subprocess.run([program, command, "problem", "--jobs", str(jobs)], stdout=subprocess.DEVNULL,
                          stderr=subprocess.PIPE, universal_newlines=True)
    after = resource.getrusage(resource.RUSAGE_CHILDREN)
    told = re.search(r"sets (\d+)", done.stderr)
    if done.returncode or not told:
        sys.exit(f"{command} by {jobs} ended with {done.returncode}: {done.stderr}")
    return int(told[1]), after.ru_utime + after.ru_stime - before.ru_utime - before.ru_stime


def best(program, command, jobs, rounds):
    runs = [run(program, command, jobs) for _ in range(rounds)]
    return max(sets for sets, _ in runs), min(seconds for _, seconds in runs)


def mean(parts):
    return math.exp(sum(math.log(part) for part in parts) / len(parts))


def table(program, problems, lonely, jobs, rounds):
    """The parts that `roles` takes of the sets and of the seconds of `list`, by numbers of workers."""
    print("| Problem | Jobs | Sets of list | of roles | Part | Seconds of list | of roles | Part |")
    print("|---|---|---|---|---|---|---|---|", flush=True)
    parts = {count: [] for count in jobs}
    for family, size, seed in problems:
        with open("problem", "w", encoding="ascii") as file:
            file.write(made(family, size, seed, lonely))
        for count in jobs:
            all_sets, whole = best(program, "list", count, rounds)
            sets, early = best(program, "roles", count, rounds)
            print(f"| {family} {size} {seed} | {count} | {all_sets} | {sets} | {sets / all_sets:.3f} | {whole:.2f} | {early:.2f} |"
                  f" {early / whole:.2f} |", flush=True)
            if lonely and sets != all_sets:
                sys.exit(f"{family} has {all_sets} sets, and roles found {sets}")
            parts[count].append((sets / all_sets, early / whole, whole))
    return parts


def main():
    words = argparse.ArgumentParser(description=__doc__, formatter_class=argparse.RawDescriptionHelpFormatter)
    words.add_argument("program")
    words.add_argument("--jobs", default="1,4")
    words.add_argument("--rounds", type=int, default=3)
    given = words.parse_args()
    program = os.path.abspath(given.program)
    jobs = [int(count) for count in given.jobs.split(",")]
    with tempfile.TemporaryDirectory() as folder:
        os.chdir(folder)
        early = table(program, EARLY, False, jobs, given.rounds)
        print()
        whole = table(program, WHOLE, True, jobs, given.rounds)
    print()
    for count in jobs:
        print(f"By {count}: {mean([part[0] for part in early[count]]):.3f} of the sets in the geometric mean; where all are found"
              f" {max(part[1] for part in whole[count]):.2f} of the seconds at most.")
    return 0


if __name__ == "__main__":
    sys.exit(main())
