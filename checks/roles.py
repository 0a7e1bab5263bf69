#!/usr/bin/env python3
"""Compares the roles that the program tells with the conflicts of its whole report.

    checks/roles.py PROGRAM [--count 200] [--seed 1] [FILE ..]

Of each file, and of so many small problems that are made from the seed, the roles by 1, 2 and 7 workers have to be those that
the report's `u` lines say. Says how many problems there were, or what differs first, and ends with 1 then. Needs Python 3.9.
"""
import argparse
import os
import random
import subprocess
import sys
import tempfile


class Differs(Exception):
    """What differs, and where."""


def answer(program, *words):
    done = subprocess.run([program, *words], stdout=subprocess.PIPE, stderr=subprocess.STDOUT, timeout=600)
    if done.returncode:
        raise Differs(f"{' '.join(words)} ends with {done.returncode}: {done.stdout.decode()}")
    return done.stdout.decode()


def roles_by(report):
    """The text of the roles, by the conflicts of a whole report."""
    head, *lines = report.split("\n")
    groups = int(head.split()[2])
    conflicts = [set(line.split()[1:-1]) for line in lines if line.startswith("u ")]
    text = [f"p roles {groups}"]
    for group in map(str, range(1, groups + 1)):
        having = sum(group in conflict for conflict in conflicts)
        text.append(f"r {group} " + ("none" if not having else "every" if having == len(conflicts) else "some"))
    return "".join(line + "\n" for line in text)


def compare(program, name):
    wanted = roles_by(answer(program, "list", name))
    for jobs in ("1", "2", "7"):
        found = answer(program, "roles", name, "--jobs", jobs)
        if found != wanted:
            raise Differs(f"roles of {name} by {jobs}: {found!r} in place of {wanted!r}")


def problem(chance):
    """Clauses over few variables in some groups, of which some may have no clause."""
    variables, groups = chance.randint(1, 4), chance.randint(0, 9)
    clauses = []
    for _ in range(chance.randint(0, 14)):
        lits = [chance.choice([1, -1]) * chance.randint(1, variables) for _ in range(chance.choice([1, 1, 2, 2, 3]))]
        clauses.append((chance.randint(0 if chance.random() < 0.1 else min(1, groups), groups), lits))
    return f"p gcnf {variables} {len(clauses)} {groups}\n" + "".join(
        "{%d} %s 0\n" % (group, " ".join(map(str, lits))) for group, lits in clauses)


def main():
    words = argparse.ArgumentParser(description=__doc__, formatter_class=argparse.RawDescriptionHelpFormatter)
    words.add_argument("program")
    words.add_argument("files", nargs="*")
    words.add_argument("--count", type=int, default=200)
    words.add_argument("--seed", type=int, default=1)
    given = words.parse_args()
    program, chance = os.path.abspath(given.program), random.Random(given.seed)
    try:
        for name in given.files:
            compare(program, name)
        with tempfile.TemporaryDirectory() as folder:
            name = os.path.join(folder, "file")
            for _ in range(given.count):
                text = problem(chance)
                with open(name, "w") as out:
                    out.write(text)
                try:
                    compare(program, name)
                except Differs as differs:
                    raise Differs(f"{differs} of {text!r}") from None
    except Differs as differs:
        sys.exit(str(differs))
    print(f"{given.count + len(given.files)} problems")


if __name__ == "__main__":
    main()
