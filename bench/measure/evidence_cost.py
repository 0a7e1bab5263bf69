#!/usr/bin/env python3
"""Measures what evidence costs: its bytes, and the seconds of writing and of checking it.

    bench/measure/evidence_cost.py PROGRAM [--before PROGRAM] [--only WORD] [--rounds N] [--keep FOLDER]

Each problem has 1,000 corrections and more, but for two miters, which have one long conflict and a correction for each of
its groups. Of each, `list`, `list --evidence` and `check` are run in turn, by each program, in one run; seconds are those
of the processor, the least of the rounds. `check` has to accept what its own program wrote, and print the same report.

The table has the bytes, and the seconds of writing and of checking by those of `list`. Below it stand the geometric means
over the problems whose `list` takes 0.5 s or more, and the part of the text that is witnesses where it is more than half.
"""
import argparse
import math
import os
import resource
import subprocess
import sys
import tempfile
from collections import namedtuple

from places import BENCH

LONG = 0.5     # seconds of `list` from which on a problem counts in the means

PROBLEMS = [tuple(line.split()) for line in """
adder          600  2
adder          2000 2
multiplier     64   1
multiplier     64   3
colour         60   1
colour         64   2
net            1000 1
net            1500 1
parity         40   2
parity         50   1
tripled        120  1
tripled        180  1
miter          220  1
miter          480  1
""".split("\n") if line.strip()]

Cost = namedtuple("Cost", "list write check bytes witnesses")


def seconds(command, out):
    """The seconds of the processor that a command takes; it has to end with 0."""
    before = resource.getrusage(resource.RUSAGE_CHILDREN)
    with open(out, "wb") as report:
        done = subprocess.run(command, stdout=report, stderr=subprocess.PIPE, check=False)
    after = resource.getrusage(resource.RUSAGE_CHILDREN)
    if done.returncode:
        sys.exit(f"{' '.join(command)}: ended with {done.returncode}: {done.stderr.decode().strip()}")
    return after.ru_utime + after.ru_stime - before.ru_utime - before.ru_stime


def bytes_of_witnesses(name):
    """How many bytes the lines of witnesses have."""
    with open(name, "rb") as text:
        return sum(len(line) for line in text if line.startswith(b"w "))


def same(one, other):
    with open(one, "rb") as a, open(other, "rb") as b:
        return a.read() == b.read()


def cost_of(program, file, folder, rounds):
    evidence, listed, written, checked = (os.path.join(folder, name) for name in ("e", "listed", "written", "checked"))
    best = None
    for _ in range(rounds):
        spent = (
            seconds([program, "list", file], listed),
            seconds([program, "list", file, "--evidence", evidence], written),
            seconds([program, "check", file, evidence], checked),
        )
        best = spent if best is None else tuple(map(min, best, spent))
        if not same(listed, written) or not same(listed, checked):
            sys.exit(f"{file}: REPORTS DIFFER")
    return Cost(*best, os.path.getsize(evidence), bytes_of_witnesses(evidence))


def mean(ratios):
    return math.exp(sum(map(math.log, ratios)) / len(ratios)) if ratios else float("nan")


def row(name, cost):
    return (f"{name} | {cost.list:.2f} | {cost.write:.2f} | {cost.check:.2f} | {cost.bytes:,} | "
            f"{100 * cost.witnesses / cost.bytes:.0f} % | {cost.write / cost.list:.2f} | {cost.check / cost.list:.2f}")


def print_means(title, costs):
    long = [cost for cost in costs if cost.list >= LONG]
    print(f"{title}, over the {len(long)} whose list takes {LONG} s or more: list --evidence {mean([c.write / c.list for c in long]):.2f} "
          f"of list, check {mean([c.check / c.list for c in long]):.2f}, at most {max([c.check / c.list for c in long], default=0):.2f}")


def main():
    words = argparse.ArgumentParser(description=__doc__.split("\n")[0])
    words.add_argument("program")
    words.add_argument("--before")
    words.add_argument("--only", default="")
    words.add_argument("--rounds", type=int, default=2)
    words.add_argument("--keep")
    asked = words.parse_args()
    programs = [("now", asked.program)] + ([("before", asked.before)] if asked.before else [])
    costs = {name: [] for name, _ in programs}
    print("| problem | program | list | with evidence | check | bytes | witnesses | written by listed | checked by listed |")
    print("| --- | --- | --- | --- | --- | --- | --- | --- | --- |")
    with tempfile.TemporaryDirectory() as made:
        folder = asked.keep or made
        os.makedirs(folder, exist_ok=True)
        for family, size, seed in PROBLEMS:
            name = f"{family} {size} {seed}"
            if asked.only not in name:
                continue
            file = os.path.join(folder, f"{family}-{size}-{seed}.gcnf")
            with open(file, "wb") as text:
                subprocess.run([sys.executable, os.path.join(BENCH, "generate.py"), family, "--size", size, "--seed", seed], stdout=text, check=True)
            for title, program in programs:
                cost = cost_of(program, file, folder, asked.rounds)
                costs[title].append(cost)
                print(f"| {row(f'{name} | {title}', cost)} |", flush=True)
    print()
    for title, _ in programs:
        print_means(title, costs[title])
    if asked.before:
        pairs = [(now, old) for now, old in zip(costs["now"], costs["before"]) if now.list >= LONG]
        print(f"bytes by those before, over these: {mean([now.bytes / old.bytes for now, old in pairs]):.3f}")


if __name__ == "__main__":
    main()
