#!/usr/bin/env python3
"""Compares counts by networks with those by counters: the sets of both have to be the same.

    bench/try/counts.py PROGRAM [--problems 500] [--seed 1] [--names 14]

Each problem has rules made by chance, most of them counts of some names or formulas. It is written twice, all counts by networks
(tools/gmus_tools/rules/network.py) and none, PROGRAM lists both, and the reports have to be equal byte for byte. Of half the problems
no list is put in order at once, so that merging is tried in lists as short as these. Ends with 1 where two reports differ,
and says of which seed. Needs Python 3.9.
"""
import argparse
import os
import random
import subprocess
import sys
import tempfile
from unittest import mock

import places  # noqa: F401
from gmus_tools.rules import clauses as rules_clauses, language, network as rules_network

PLAIN = {"PLAIN_CLAUSES": 0, "PLAIN_LITERALS": 0, "PLAIN_PAIRS": 0, "FEW_COUNTED": 0}
NEVER = 10 ** 9


def line(draw, names):
    """A line of rules: a count, by itself or as a part, or a clause."""
    few = draw.sample(names, draw.randint(2, min(len(names), 12)))
    parts = [draw.choice(["", "", "not "]) + name for name in few]
    if draw.random() < 0.2:
        parts[0] = f"({few[0]} and {draw.choice(names)})"
    count = f"{draw.choice(['at most', 'at least', 'exactly'])} {draw.randint(0, len(parts))} of ({', '.join(parts)})"
    kind = draw.random()
    if kind < 0.6:
        return count
    if kind < 0.8:
        return draw.choice(["{} implies {}", "not {1}", "{} iff {}", "{} or {}"]).format(draw.choice(names), count)
    return " or ".join(draw.choice(["", "not "]) + name for name in draw.sample(names, draw.randint(1, 3)))


def problem(draw, many):
    names = [f"x{number}" for number in range(draw.randint(4, many))]
    text = ["[always]"] + [line(draw, names) for _ in range(draw.randint(0, 2))]
    for rule in range(draw.randint(3, 9)):
        text += [f"[rule {rule}]"] + [line(draw, names) for _ in range(draw.randint(1, 2))]
    return "\n".join(text) + "\n"


def written(text, long_list, small):
    """The file of rules, with a network for each list of so many formulas and more."""
    for it in (rules_network.best_way, rules_network.best_merge):
        it.cache_clear()
    with mock.patch.multiple(rules_clauses, LONG_LIST=long_list, **PLAIN), mock.patch.object(rules_network, "SMALL", small):
        return language.read(text, "rules").gcnf()


def listed(program, name, text):
    with open(name, "w", encoding="utf-8") as file:
        file.write(text)
    done = subprocess.run([program, "list", name], stdout=subprocess.PIPE, stderr=subprocess.PIPE, universal_newlines=True)
    if done.returncode:
        sys.exit(f"{program} ended with {done.returncode}: {done.stderr}")
    return done.stdout


def main():
    parser = argparse.ArgumentParser(description="Compares counts by networks with those by counters.")
    parser.add_argument("program")
    parser.add_argument("--problems", type=int, default=500)
    parser.add_argument("--seed", type=int, default=1)
    parser.add_argument("--names", type=int, default=14, help="of a problem, at most")
    asked = parser.parse_args()
    sets = clashing = 0
    with tempfile.TemporaryDirectory() as room:
        for seed in range(asked.seed, asked.seed + asked.problems):
            text = problem(random.Random(seed), asked.names)
            reports = [listed(os.path.abspath(asked.program), os.path.join(room, "file"), written(text, long_list, 2 + 4 * (seed % 2)))
                       for long_list in (1, NEVER)]
            if reports[0] != reports[1]:
                sys.exit(f"seed {seed}: the reports differ\n{text}{reports[0]}{reports[1]}")
            found = sum(int(word) for word in reports[0].rstrip().split("\n")[-1].split()[1:])
            sets += found
            clashing += found > 1
    print(f"{asked.problems} problems with {sets} sets, {clashing} of them with two sets and more: equal reports")


if __name__ == "__main__":
    main()
