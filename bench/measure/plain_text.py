#!/usr/bin/env python3
"""Writes a large problem in plain text to standard output.

    bench/measure/plain_text.py CLAUSES LITERALS GROUPS VARIABLES

Each clause has LITERALS literals. Clause i is of group i mod (GROUPS + 1), so every group is met where there are enough
clauses. Variables and signs come from a fixed generator, so equal arguments give equal texts.
"""
import random
import sys


def main():
    clauses, literals, groups, variables = map(int, sys.argv[1:5])
    numbers = random.Random(1)
    out = sys.stdout
    out.write(f"p gcnf {variables} {clauses} {groups}\n")
    for clause in range(clauses):
        lits = []
        for _ in range(literals):
            var = int(numbers.random() * variables) + 1
            lits.append(str(var if numbers.random() < 0.5 else -var))
        words = [f"{{{clause % (groups + 1)}}}", *lits, "0"]
        out.write(" ".join(words) + "\n")


main()
