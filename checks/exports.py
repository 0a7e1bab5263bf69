#!/usr/bin/env python3
"""Exports each conflict of some problems, and compares and checks what was written.

    checks/exports.py PROGRAM FILE..

The whole report of a FILE stands beside it, under a name that ends with `.report`; the evidence is that of PROGRAM. A CNF has
to be the clauses of the background and of the conflict's groups in the order of FILE, byte for byte. A refutation has to pass
tools/check_lrat.py, to have ids without gaps, no deletions and no hint that makes nothing true, and to end with the empty
clause. One number above those of the conflicts has to be told to be none. Prints how many conflicts of each FILE were
exported; ends with 1 and a line for the first that differs.
"""
import os
import re
import subprocess
import sys
import tempfile

import places  # noqa: F401
from gmus_tools.evidence import check_evidence, check_lrat

NO_SUCH = 11
STEP = re.compile("([1-9][0-9]*) ((?:-?[1-9][0-9]* )*)0((?: [1-9][0-9]*)+) 0")


def cnf_text(problem, groups):
    """The clauses of the background and of these groups, in the file's order."""
    kept = [lits for group, lits in problem.clauses if group == 0 or group in groups]
    return "".join([f"p cnf {problem.vars} {len(kept)}\n"] + [" ".join(map(str, [*lits, 0])) + "\n" for lits in kept])


def fault_of_hints(known, clause, hints):
    """What is wrong with the hints of a step that follows, if anything is: each but the last makes a literal true."""
    falses = set(clause)
    for hint in hints[:-1]:
        lit, = set(known[hint]) - falses
        if -lit in falses:
            return f"the hint {hint} makes nothing true"
        falses.add(-lit)
    return None


def fault_of_form(clauses, lrat):
    """What is wrong with the form of a refutation that passes, if anything is."""
    known, clause = dict(enumerate(clauses, 1)), None
    for number, line in enumerate(lrat.split("\n")[:-1], len(clauses) + 1):
        step = STEP.fullmatch(line)
        if not step or int(step[1]) != number:
            return f"no step has the id {number} and the form of one: {line}"
        clause, hints = list(map(int, step[2].split())), list(map(int, step[3].split()))
        what = fault_of_hints(known, clause, hints)
        if what:
            return f"{line}: {what}"
        known[number] = clause
    return None if lrat.endswith("\n") and clause == [] else "the last step is not the empty clause"


def fault_of(problem, groups, cnf, lrat):
    """What is wrong with an exported conflict of these groups, or None."""
    if cnf != cnf_text(problem, groups):
        return "the CNF is not that of the conflict's clauses"
    variables, clauses = check_lrat.read_cnf(cnf, "the CNF")
    try:
        check_lrat.check(variables, clauses, lrat, "the refutation")
    except check_lrat.Wrong as wrong:
        return str(wrong)
    return fault_of_form(clauses, lrat)


def conflicts_of(report):
    """The groups of each conflict of a report, in its order."""
    return [list(map(int, line.split()[1:-1])) for line in report.split("\n") if line.startswith("u ")]


def text_of(name):
    with open(name, encoding="latin-1", newline="") as file:
        return file.read()


def export(program, file, evidence, number, folder):
    """How an export ended, and what stands under its two names, which were free before."""
    names = [os.path.join(folder, name) for name in ("cnf", "lrat")]
    for name in names:
        if os.path.exists(name):
            os.remove(name)
    ended = subprocess.run([program, "export", file, evidence, str(number), *names], stdin=subprocess.DEVNULL,
                           stdout=subprocess.PIPE, stderr=subprocess.PIPE, universal_newlines=True, check=False)
    return (ended.returncode, ended.stdout, ended.stderr), [text_of(name) if os.path.exists(name) else None for name in names]


def first_fault(program, file, evidence, report, folder):
    """What is wrong with the first export that is not as it should be, or None."""
    problem, conflicts = check_evidence.problem_of(file), conflicts_of(report)
    for number, groups in enumerate(conflicts, 1):
        ended, texts = export(program, file, evidence, number, folder)
        if ended != (0, "", ""):
            return f"conflict {number}: it ends with {ended}"
        what = fault_of(problem, groups, *texts)
        if what:
            return f"conflict {number}: {what}"
    number = len(conflicts) + 1
    wanted = (NO_SUCH, "", f"gmus: no conflict {number}\n"), [None, None]
    return None if export(program, file, evidence, number, folder) == wanted else f"conflict {number}: there is none"


def first_fault_of(program, file, report, folder):
    """The same, by the program's own evidence."""
    evidence = os.path.join(folder, "evidence")
    listed = subprocess.run([program, "list", file, "--evidence", evidence], stdout=subprocess.PIPE, check=False)
    if listed.returncode:
        return f"the listing ends with {listed.returncode}"
    return first_fault(program, file, evidence, report, folder)


def main():
    program, told = os.path.abspath(sys.argv[1]), []
    with tempfile.TemporaryDirectory() as folder:
        for file in sys.argv[2:]:
            report, name = text_of(os.path.splitext(file)[0] + ".report"), os.path.basename(file)
            what = first_fault_of(program, file, report, folder)
            if what:
                print(f"{name}: {what}")
                return 1
            told.append(f"{len(conflicts_of(report))} of {name}")
    print(", ".join(told))
    return 0


if __name__ == "__main__":
    sys.exit(main())
