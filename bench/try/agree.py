#!/usr/bin/env python3
"""Tells whether two reports of one problem can both be right, and whether other programs agree on exported conflicts and on levels.

    bench/try/agree.py REPORT REPORT
    bench/try/agree.py --exports PROGRAM [--count 200] [--seed 1]
    bench/try/agree.py --levels [--count 1000] [--seed 1]

Two whole reports are equal byte for byte. The sets of a partial one are all in a whole one. Of two partial ones, each
conflict shares a group with each correction. Ends with 1 and a line for the first thing that is wrong.

With --exports, PROGRAM lists small problems with evidence, and exports conflicts of them. Of each, checks/exports.py
compares the CNF and tries the refutation. MiniSat and CaDiCaL have to refute the CNF, and to satisfy it without the clauses
of any one group of the conflict. lrat-check and drat-trim have to accept the refutation, but for lrat-check one whose clauses
repeat a literal, which it counts as two. What is not there is skipped, and said.

With --levels, records of both kinds, a kind and a number of groups are drawn by chance. Whether each set at which so many groups count
is explored is found by trying every set. It has to be so exactly if the clauses of the level with the limit can't be satisfied: by a
closing part that tools/check_evidence.py and tools/check_lrat.py accept, by MiniSat and CaDiCaL, and by the other checkers of LRAT.
"""
import argparse
import collections
import itertools
import os
import random
import re
import shutil
import subprocess
import sys
import tempfile

from places import BENCH
from checks import exports
from gmus_tools.evidence import check_evidence, check_lrat
from oracles import levels
import mutate_evidence

MOST_PAIRS = 2_000_000   # of a conflict and a correction; what is beyond is not looked at


# ---- two reports

def sets(lines, letter):
    """Each set of a kind as a number, in whose bits the groups stand."""
    return [(line, sum(1 << int(word) for word in line.split()[1:-1])) for line in lines if line.startswith(letter)]


def fault(lines):
    """What is wrong with a report by itself."""
    found = [line for line in lines if line[:1] in "um"]
    if len(lines) != len(found) + 3 or lines[0][:7] != "p gmus " or lines[1] not in ("s COMPLETE", "s PARTIAL"):
        return "is no report"
    if len(set(found)) != len(found):
        return "has a set twice"
    in_order = sorted(found, key=lambda line: (line[0] == "m", [int(word) for word in line.split()[1:-1]]))
    if found != in_order:
        return "is not in order"
    conflicts = sum(line[0] == "u" for line in found)
    if lines[-1] != f"e {conflicts} {len(found) - conflicts}":
        return "miscounts its sets"
    return None


def disagreement(first, second):
    whole = [lines[1] == "s COMPLETE" for lines in (first, second)]
    if all(whole):
        return None if first == second else "both are complete and differ"
    if any(whole):
        complete, partial = (first, second) if whole[0] else (second, first)
        others = set(partial[2:-1]) - set(complete[2:-1])
        return f"not in the complete one: {min(others)}" if others else None
    for one, other in ((first, first), (first, second), (second, first), (second, second)):
        conflicts, corrections = sets(one, "u"), sets(other, "m")
        for conflict, groups in conflicts[:MOST_PAIRS // max(1, len(corrections))]:
            for correction, others in corrections:
                if not groups & others:
                    return f"share no group: {conflict} and {correction}"
    return None


def compare(names):
    reports = []
    for name in names:
        with open(name) as report:
            reports.append(report.read().splitlines())
    for name, lines in zip(names, reports):
        why = fault(lines)
        if why:
            sys.exit(f"{name} {why}")
    why = disagreement(*reports)
    if why:
        sys.exit(why)


# ---- exported conflicts

SATISFIED, REFUTED = 10, 20          # the statuses with which solvers end
SOLVERS = {"minisat": ["minisat", "-verb=0"], "cadical": ["cadical", "-q", "-n"]}
CHECKERS = {"lrat-check": "c VERIFIED", "drat-trim": "s VERIFIED"}   # and what they say of a refutation that they accept
MOST_SETS, MOST_CONFLICTS = "40", 4  # of one problem: how many sets are listed, and how many conflicts are exported
FAMILIES = [("chain", 14), ("random", 12), ("dense", 14), ("feature", 30), ("adder", 20), ("colour", 24), ("types", 24),
            ("net", 24), ("plan", 24), ("pigeon", 10), ("pigeon-holes", 10), ("parity", 12), ("tripled", 30), ("miter", 16)]


def by_program(command):
    """A solver that reads a CNF: whether it can be satisfied."""
    def is_satisfied(name):
        ended = subprocess.run([*command, name], stdout=subprocess.DEVNULL, stderr=subprocess.DEVNULL, check=False)
        return {SATISFIED: True, REFUTED: False}[ended.returncode]
    return is_satisfied


def by_baseline(program):
    """The same by a baseline, to which all clauses are background."""
    def is_satisfied(name):
        header, *clauses = exports.text_of(name).splitlines()
        with open(name + ".gcnf", "w") as file:
            file.write("p gcnf " + header[len("p cnf "):] + " 0\n" + "".join("{0} " + clause + "\n" for clause in clauses))
        ended = subprocess.run([program, name + ".gcnf"], stdout=subprocess.PIPE, check=True, universal_newlines=True)
        return {"m 0": True, "u 0": False}[ended.stdout.split("\n")[2]]
    return is_satisfied


def solvers():
    """The solvers that are there."""
    found = {}
    for name, command in SOLVERS.items():
        baseline = os.path.join(BENCH, "compare", "marco", f"marco-{name}")
        if shutil.which(name):
            found[name] = by_program(command)
        elif os.path.exists(baseline):
            found[name] = by_baseline(baseline)
        else:
            print(f"skipped {name}: there is neither such a program nor bench/compare/marco/marco-{name}")
    return found


def checkers():
    """The checkers that are there."""
    for name in CHECKERS:
        if not shutil.which(name):
            print(f"skipped {name}: there is no such program")
    return list(filter(shutil.which, CHECKERS))


def without_hints(lrat):
    """The clauses of a refutation, as drat-trim reads them."""
    steps = [line.split()[1:] for line in lrat.splitlines()]
    return "".join(" ".join(step[:step.index("0") + 1]) + "\n" for step in steps)


def repeats_a_literal(cnf, lrat):
    clauses = [line.split() for line in cnf.splitlines()[1:] + without_hints(lrat).splitlines()]
    return any(len(set(clause)) < len(clause) for clause in clauses)


def is_accepted(checker, cnf, lrat, name):
    """Whether a checker accepts a refutation; None where a signal ended it, which is a fault of its own."""
    names = [name + ".cnf", name + ".proof"]
    for path, text in zip(names, [cnf, lrat if checker == "lrat-check" else without_hints(lrat)]):
        with open(path, "w") as file:
            file.write(text)
    ended = subprocess.run([checker, *names], stdout=subprocess.PIPE, stderr=subprocess.STDOUT, check=False)
    return CHECKERS[checker] in re.split("[\r\n]+", ended.stdout.decode("latin-1"))


def problems(seed):
    """Small problems, as texts: of any clauses, with empty and repeated ones among them, and of each family in turn."""
    for number in itertools.count():
        yield mutate_evidence.random_problem(random.Random(f"{seed}/{number}"))
        family, size = FAMILIES[number % len(FAMILIES)]
        words = [os.path.join(BENCH, "generate.py"), family, "--size", str(size), "--seed", str(seed + number)]
        yield subprocess.run([sys.executable, *words], stdout=subprocess.PIPE, check=True, universal_newlines=True).stdout


class Judges:
    """The solvers and the checkers that are there, and how often a checker did otherwise than accept, for a reason of its own."""

    def __init__(self, folder):
        self.solvers, self.checkers, self.name = solvers(), checkers(), os.path.join(folder, "asked")
        self.counts = collections.Counter()

    def fault_of_cnf(self, problem, groups, cnf):
        """What a solver says otherwise of a conflict's CNF, if anything."""
        texts = [(cnf, False, "can be satisfied")]
        texts += [(exports.cnf_text(problem, set(groups) - {group}), True, f"is refuted without group {group}") for group in groups]
        for text, wanted, otherwise in texts:
            with open(self.name, "w") as file:
                file.write(text)
            for solver, is_satisfied in self.solvers.items():
                if is_satisfied(self.name) != wanted:
                    return f"{solver} says that its CNF {otherwise}"
        return None

    def fault_of_refutation(self, cnf, lrat):
        """Which checker refuses it, if any does."""
        for checker in self.checkers:
            accepted = is_accepted(checker, cnf, lrat, self.name)
            if accepted is None:
                self.counts[f"{checker} was ended by a signal"] += 1
            elif not accepted and checker == "lrat-check" and repeats_a_literal(cnf, lrat):
                self.counts["lrat-check refused a literal that is repeated"] += 1
            elif not accepted:
                return f"{checker} refuses it"
        return None

    def fault_of(self, problem, groups, cnf, lrat):
        return (exports.fault_of(problem, groups, cnf, lrat) or self.fault_of_cnf(problem, groups, cnf)
                or self.fault_of_refutation(cnf, lrat))

    def summary(self):
        told = [f"{what} {count} times" for what, count in sorted(self.counts.items())]
        return "; ".join([", ".join(["check_lrat.py", *self.solvers, *self.checkers]), *told])


def agree_on_exports(gmus, count, seed):
    """Exports so many conflicts; ends where one is not as it should be."""
    made = 0
    with tempfile.TemporaryDirectory() as folder:
        file, evidence, judges = os.path.join(folder, "file"), os.path.join(folder, "evidence"), Judges(folder)
        for text in problems(seed):
            with open(file, "w") as out:
                out.write(text)
            listed = subprocess.run([gmus, "list", file, "--evidence", evidence, "--limit", MOST_SETS], stdout=subprocess.PIPE,
                                    stderr=subprocess.DEVNULL, check=False, universal_newlines=True)
            if listed.returncode not in (0, 4):
                sys.exit(f"a listing ends with {listed.returncode}:\n{text}")
            conflicts = list(enumerate(exports.conflicts_of(listed.stdout), 1))
            for number, groups in random.Random(text).sample(conflicts, min(len(conflicts), MOST_CONFLICTS, count - made)):
                ended, texts = exports.export(gmus, file, evidence, number, folder)
                if ended != (0, "", ""):
                    sys.exit(f"conflict {number}: it ends with {ended}\n{text}")
                why = judges.fault_of(check_evidence.Problem(text), groups, *texts)
                if why:
                    sys.exit(f"conflict {number}: {why}\n{text}")
                made += 1
            if made == count:
                print(f"{made} exported conflicts: nothing is wrong with them, by {judges.summary()}")
                return


# ---- levels

def level_by_chance(chance):
    """So many groups, and a kind, a number of groups and records over them."""
    groups = chance.randint(0, 6)
    return groups, chance.choice("um"), chance.randint(0, groups), levels.random_records(chance, groups)


def fault_of_closing(drawn, level, lines, judges):
    """What is wrong with a closing part that shows a level, if anything."""
    groups, kind, most, records = drawn
    problem = check_evidence.Problem(f"p gcnf 0 0 {groups}")
    reader = check_evidence.Reader(problem, "".join(line + "\n" for line in lines).encode())
    reader.version, reader.records = 3, records
    try:
        check_evidence.check_closing(problem, level.blocks, reader.piece()[2])
    except check_evidence.Refused as refused:
        return f"check_evidence.py refuses what shows it: {refused}"
    whole = [f"p gmev 3 0 0 {groups}", *(" ".join(map(str, [of, *chosen, 0])) for of, chosen in records), "w 0 0", *lines, ""]
    cnf, lrat = level.cnf(), level.lrat(*levels.read("\n".join(whole).encode())[1:])
    try:
        if not check_lrat.check(*check_lrat.read_cnf(cnf, "cnf"), lrat, "lrat"):
            return "check_lrat.py finds no empty clause"
    except check_lrat.Wrong as wrong:
        return f"check_lrat.py refuses it: {wrong}"
    return judges.fault_of_refutation(cnf, lrat)


def fault_of_level(drawn, judges):
    """What is said otherwise of a level than trying every set tells, if anything."""
    groups, kind, most, records = drawn
    level, is_explored = levels.Level(*drawn), levels.is_explored(*drawn)
    other = check_evidence.Level(check_evidence.Problem(f"p gcnf 0 0 {groups}"), records, kind, most)
    counter = [other.clause(number) for number in range(1, other.size() + 1)]
    if (counter, other.variables, sorted(other.goal)) != (level.clauses[len(records):], level.variables, level.goal):
        return "check_evidence.py has other clauses"
    with open(judges.name, "w") as file:
        file.write(level.cnf())
    for solver, is_satisfied in judges.solvers.items():
        if is_satisfied(judges.name) == is_explored:
            return f"{solver} says that its CNF {'can be satisfied' if is_explored else 'is refuted'}"
    lines = level.lines()
    if (lines is not None) != is_explored:
        return f"it is {'' if is_explored else 'not '}explored, and {'nothing' if lines is None else 'a closing part'} shows that it is"
    return fault_of_closing(drawn, level, lines, judges) if lines else None


def agree_on_levels(count, seed):
    """Draws so many levels; ends where one is not as it should be."""
    shown = collections.Counter()
    with tempfile.TemporaryDirectory() as folder:
        judges = Judges(folder)
        for number in range(count):
            drawn = level_by_chance(random.Random(f"level {seed}/{number}"))
            why = fault_of_level(drawn, judges)
            if why:
                sys.exit(f"level {number}: {why}\n{drawn}")
            shown[levels.NAMES[drawn[1]], levels.is_explored(*drawn)] += 1
    told = ", ".join(f"{kind} {shown[kind, True]} shown and {shown[kind, False]} not" for kind in levels.NAMES.values())
    print(f"{count} levels, {told}: nothing is wrong with them, by every set, check_evidence.py, {judges.summary()}")


def main():
    words = argparse.ArgumentParser(description=__doc__, formatter_class=argparse.RawDescriptionHelpFormatter)
    words.add_argument("reports", nargs="*")
    words.add_argument("--exports", metavar="PROGRAM")
    words.add_argument("--levels", action="store_true")
    words.add_argument("--count", type=int)
    words.add_argument("--seed", type=int, default=1)
    given = words.parse_args()
    if given.exports and not given.reports and not given.levels:
        agree_on_exports(os.path.abspath(given.exports), given.count or 200, given.seed)
    elif given.levels and not given.reports and not given.exports:
        agree_on_levels(given.count or 1000, given.seed)
    elif not given.exports and not given.levels and len(given.reports) == 2:
        compare(given.reports)
    else:
        words.error("two reports, a program that exports, or --levels are needed")


if __name__ == "__main__":
    main()
