#!/usr/bin/env python3
"""Measures what an export of one conflict takes beside a check of the same evidence, and exports a long refutation.

    bench/measure/export_cost.py PROGRAM [--megabytes 200] [--steps 200000] [--rounds 3] [--keep FOLDER]

The evidence is what PROGRAM writes of a chain, of so many megabytes (1000 needs some gigabytes of memory and of the disk), of
a problem of many corrections, and of one with one conflict, whose refutation is most of the text; and one that is made here,
of one conflict with so many steps. Of each, `check` and `export` of the last conflict are run in turn. Seconds are those of
the processor, the least of the rounds. A row has the bytes, the conflict, the clauses and the steps that were exported, the
seconds, and those of `export` by those of `check`. Ends with 1 where tools/check_lrat.py refuses what was exported.
"""
import argparse
import os
import subprocess
import sys
import tempfile

from places import BENCH, TOP
from evidence_cost import seconds


def problems(megabytes):
    """Of a chain there are 1,024 conflicts with a witness for each group, of half the variables."""
    return [("chain", round((megabytes * 1_000_000 / 1_765) ** 0.5), 1), ("net", 1500, 1), ("miter", 480, 1)]


def listed(program, family, size, seed, folder):
    """Writes a problem and its evidence; the answer is how many conflicts there are."""
    file, evidence, report = (os.path.join(folder, name) for name in ("file", "evidence", "report"))
    with open(file, "wb") as text:
        words = [os.path.join(BENCH, "generate.py"), family, "--size", str(size), "--seed", str(seed)]
        subprocess.run([sys.executable, *words], stdout=text, check=True)
    seconds([program, "list", file, "--evidence", evidence], report)
    return conflicts_in(report)


def stairs(steps, folder):
    """From a fact up to what it denies, a step for each variable: group 1 is the first variable, group 2 denies the last one."""
    with open(os.path.join(folder, "file"), "w") as file:
        file.write(f"p gcnf {steps} {steps + 1} 2\n{{1}} 1 0\n")
        file.writelines(f"{{0}} -{var} {var + 1} 0\n" for var in range(1, steps))
        file.write(f"{{2}} -{steps} 0\n")
    with open(os.path.join(folder, "evidence"), "w") as evidence:
        evidence.write(f"p gmev 2 {steps} {steps + 1} 2\nu 1 2 0\n")
        last, given = steps + 1, -(steps + 1)
        evidence.writelines(f"d {last + at} {at + 1} {given} 0 {1 if at == 1 else last + at - 1} {at + 1} 0\n" for at in range(1, steps))
        evidence.write(f"d {last + steps} {given} {given - 1} 0 {last + steps - 1} {last} 0\nr 0 {last + steps}\n")
        evidence.write(f"w 1 0\nw 2 {' '.join(map(str, range(1, steps + 1)))} 0\ne partial\n")
    return 1


def conflicts_in(report):
    with open(report, "rb") as lines:
        return sum(line.startswith(b"u ") for line in lines)


def lines_in(name):
    with open(name, "rb") as text:
        return sum(1 for _ in text)


def row(program, name, number, folder, rounds):
    """Checks evidence and exports a conflict of it."""
    file, evidence, report, nothing, cnf, lrat = (os.path.join(folder, name) for name in ("file", "evidence", "report", "nothing", "cnf", "lrat"))
    check = min(seconds([program, "check", file, evidence], report) for _ in range(rounds))
    export = min(seconds([program, "export", file, evidence, str(number), cnf, lrat], nothing) for _ in range(rounds))
    accepted = subprocess.run([sys.executable, os.path.join(TOP, "tools", "check_lrat.py"), cnf, lrat], stdout=subprocess.DEVNULL, check=False)
    if accepted.returncode:
        sys.exit(f"{name}: what was exported is refused")
    print(f"| {name} | {os.path.getsize(evidence):,} | {number:,} | {lines_in(cnf) - 1:,} | {lines_in(lrat):,} | "
          f"{check:.2f} | {export:.2f} | {export / check:.2f} |", flush=True)


def main():
    words = argparse.ArgumentParser(description=__doc__, formatter_class=argparse.RawDescriptionHelpFormatter)
    words.add_argument("program")
    words.add_argument("--megabytes", type=int, default=200)
    words.add_argument("--steps", type=int, default=200_000)
    words.add_argument("--rounds", type=int, default=3)
    words.add_argument("--keep")
    given = words.parse_args()
    program = os.path.abspath(given.program)
    print("| problem | bytes of evidence | conflict | clauses | steps | check | export | export by check |")
    print("| --- | --- | --- | --- | --- | --- | --- | --- |")
    with tempfile.TemporaryDirectory() as made:
        folder = given.keep or made
        os.makedirs(folder, exist_ok=True)
        for family, size, seed in problems(given.megabytes):
            number = listed(program, family, size, seed, folder)
            row(program, f"{family} {size} {seed}", number, folder, given.rounds)
        row(program, f"{given.steps} steps", stairs(given.steps, folder), folder, given.rounds)


if __name__ == "__main__":
    main()
