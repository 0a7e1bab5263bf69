#!/usr/bin/env python3
"""Asks gmus and other programs for the smallest sets of generated problems, and prints a table in Markdown.

    bench/compare/least.py [--gmus PROGRAM] [--time SECONDS] [--only WORD] [--over SOLVER] [--cpu] [--keep FOLDER]

Of each problem of run.py three things are asked: the smallest corrections (of the least size), the ten smallest ones (and all as
small as the tenth), and the smallest conflicts. gmus is asked as `least corrections FILE --count 10`, and so is the baseline,
which is MARCO with a bound in the map (marco/least.cpp). clasp, with --opt-strategy=usc, and z3's optimizer are asked for one
smallest correction alone, as a MaxSAT problem with a clause for each group; so they do less where many are as small. The seconds
are those of the clock, or of the processor with --cpu. A program that isn't there, or a gmus without that command, is left out, which
is said.

Whole reports have to be equal. A correction of clasp or of z3 has to be in them, or may be missing only where there is none. A
partial report may not hold a smaller set than a whole one, nor say that none is as small. Where something is wrong the run says so,
keeps the files, and ends with 1.

Below the table stand, for each question, how many each program ended, and geometric means over what two of them ended.

An idle machine takes some 15 minutes for the small, middle and rich problems, with the 20 seconds that a program has. The huge ones
run with --only huge --time 35, for some 20 minutes more.
"""
import argparse
import math
import os
import re
import shutil
import subprocess
import sys
import tempfile
from collections import namedtuple

from places import EXAMPLES
from bench.compare import run

QUESTIONS = {"a correction": ("corrections", "1"), "ten corrections": ("corrections", "10"), "a conflict": ("conflicts", "1")}
OTHERS = {"clasp": ["clasp", "--opt-strategy=usc", "--quiet=1,2,2"], "z3": ["z3", "-model", "-wcnf"]}
ONE = "a correction"       # what the others are asked
GRACE = run.GRACE
LETTERS = {"conflicts": "u", "corrections": "m"}

# Status: complete, time or failed. Bound: of a whole report the size up to which it has all sets, of a partial one that which no set
# is below. Sets: frozen, smallest first.
Result = namedtuple("Result", "status bound sets seconds megabytes text")
NONE = frozenset()


def write_wcnf(file, out):
    """A MaxSAT problem whose optimum is the size of a smallest correction: each group has a variable that can be false at a cost of 1."""
    with open(file, encoding="ascii") as lines, open(out, "w", encoding="ascii") as text:
        words = next(lines).split()
        variables, clauses, groups = (int(word) for word in (words[2:] + words[-1:])[:3])
        top = groups + 1
        text.write(f"p wcnf {variables + groups} {clauses + groups} {top}\n")
        for number, line in enumerate(lines, 1):
            group, lits = (line[1:].split("}", 1) if line[0] == "{" else (number, line))
            text.write(f"{top} {f'{-(variables + int(group))} ' if int(group) else ''}{lits.strip()}\n")
        for group in range(1, groups + 1):
            text.write(f"1 {variables + group} 0\n")
    return variables, groups


def optimum_of(name, told, variables, groups):
    """What clasp or z3 says: a status, and the groups whose variables are false, or None where nothing satisfies the clauses."""
    if name == "clasp":
        if "s UNSATISFIABLE" in told:
            return "complete", None
        lits = [int(word) for line in told.splitlines() if line.startswith("v ") for word in line.split()[1:]]
        given = frozenset(-lit - variables for lit in lits if -variables - groups <= lit < -variables)
        return ("complete", given) if "s OPTIMUM FOUND" in told else ("time", None)
    if told.startswith("unsat"):
        return "complete", None
    false = re.findall(r"k!(\d+) \(\) Bool\s+false", told)
    given = frozenset(int(number) - variables for number in false if int(number) > variables)
    return ("complete", given) if told.startswith("sat") else ("time", None)


def read_least(code, told, kind):
    """Of a report the status, the bound and the sets, or a status that begins with failed."""
    lines = told.splitlines()
    words = lines[1].split() if len(lines) > 2 else []
    letter = LETTERS[kind]
    sets = [frozenset(int(word) for word in line.split()[1:-1]) for line in lines[2:-1]]
    is_report = words[:2] in (["s", "ATMOST"], ["s", "PARTIAL"]) and lines[-1] == f"e {len(sets)}"
    if not is_report or any(line[0] != letter for line in lines[2:-1]):
        return f"failed ({code})", None, []
    whole = words[1] == "ATMOST"
    if code not in ((0,) if whole else (3, 4)) or sorted(map(len, sets)) != list(map(len, sets)) or len(set(sets)) != len(sets):
        return f"failed ({code})", None, []
    return "complete" if whole else "time", int(words[2]), sets


def disagreement(results):
    """What can't be right together in the results of one question, or None."""
    whole = {name: result for name, result in results.items() if result.status == "complete" and name not in OTHERS}
    texts = {name: result.text for name, result in whole.items()}
    if len(set(texts.values())) > 1:
        return f"{' and '.join(texts)} differ"
    sizes = [min(map(len, result.sets)) for result in whole.values() if result.sets]
    for name in OTHERS:
        other = results.get(name)
        if not other or other.status != "complete":
            continue
        sizes += [len(groups) for groups in other.sets]
        for ours, result in whole.items():
            if set(other.sets) - set(result.sets) or bool(other.sets) != bool(result.sets):
                return f"{name} and {ours} differ"
    for name, result in results.items():
        if result.status == "time" and result.bound is not None and sizes:
            if result.bound > min(sizes) or result.sets and len(result.sets[0]) < min(sizes):
                return f"{name}, which is partial, can't be right"
    return f"sizes differ: {sorted(set(sizes))}" if len(set(sizes)) > 1 else None


def mean_by(rows, question, one, other):
    """How many both ended, and the geometric mean of the seconds of one by those of the other there, as a sentence; or None."""
    pairs = [(results[one].seconds, results[other].seconds) for asked, results in rows if asked == question
             and all(name in results and results[name].status == "complete" for name in (one, other))]
    if not pairs:
        return None
    mean = math.exp(sum(math.log(max(ours, 1e-3) / max(theirs, 1e-3)) for ours, theirs in pairs) / len(pairs))
    return f"{one} / {other} {mean:.2g} over {len(pairs)}"


def summary(rows, programs):
    """Of each question how many each program ended, and means of the first program by the others, and of the next one."""
    sentences = []
    for question in QUESTIONS:
        asked = [results for each, results in rows if each == question]
        ended = [f"{name} {sum(results[name].status == 'complete' for results in asked if name in results)}" for name in programs
                 if any(name in results for results in asked)]
        means = [mean_by(rows, question, one, other) for at, one in enumerate(programs[:2]) for other in programs[at + 1:]]
        told = "; ".join(filter(None, means)) or "no mean"
        sentences.append(f"{question.capitalize()}, of {len(asked)}: ended by {', '.join(ended)}; {told}.")
    return "\n".join(sentences)


class Least:
    def __init__(self, given, folder):
        self.given = given
        self.folder = folder
        self.faults = 0
        self.peak = run.peak_program()
        self.programs = run.build_baselines({f"{given.over}-bound": [f"least-{given.over}"]})
        if given.gmus and self.knows_least(os.path.abspath(given.gmus)):
            self.programs = {"gmus": [os.path.abspath(given.gmus), "least"], **self.programs}
        for name, command in OTHERS.items():
            if shutil.which(command[0]):
                self.programs[name] = command
            else:
                print(f"{name}: left out, since there is no such program", file=sys.stderr)

    @staticmethod
    def knows_least(program):
        """Whether it has the command; says so if not."""
        file = os.path.join(EXAMPLES, "laptop.gcnf")
        asked = subprocess.run([program, "least", "conflicts", file], stdout=subprocess.DEVNULL, stderr=subprocess.DEVNULL, check=False)
        if asked.returncode == 2:
            print("gmus: left out, since it has no command `least`", file=sys.stderr)
        return asked.returncode != 2

    def cry(self, words):
        self.faults += 1
        print(f"!!! {words}", file=sys.stderr, flush=True)

    def ask(self, name, question, file, wcnf, sizes):
        """What a program says."""
        kind, count = QUESTIONS[question]
        clock = ["--time", str(self.given.time)] if name.endswith("-bound") else []
        words = [wcnf] if name in OTHERS else [kind, file, "--count", count, *clock]
        report = f"{file}.{name}.{kind}.{count}"
        ended = run.run([*self.programs[name], *words], report, f"{report}.errors", self.given.time + (GRACE if clock else 0), self.peak)
        with open(report, encoding="ascii", errors="replace") as lines:
            told = lines.read()
        if ended.code is None:
            status, bound, sets = "time", None, []
        elif name in OTHERS:
            status, groups = optimum_of(name, told, *sizes)
            bound, sets = None, [] if groups is None else [groups]
        else:
            status, bound, sets = read_least(ended.code, told, kind)
        if status.startswith("failed"):
            self.cry(f"{name} {status} on {os.path.basename(file)}, {question}")
        return Result(status, bound, sets, ended.cpu if self.given.cpu else ended.wall, ended.megabytes, told)

    def rows(self, problem):
        """Prints the rows of a problem, and gives what each program said of each question."""
        file, groups, _ = run.make(problem, self.folder)
        wcnf = f"{file}.wcnf"
        sizes = write_wcnf(file, wcnf) if any(name in OTHERS for name in self.programs) else (0, 0)
        found = []
        for question in QUESTIONS:
            results = {name: self.ask(name, question, file, wcnf, sizes) for name in self.programs
                       if question == ONE or name not in OTHERS}
            why = disagreement(results)
            if why:
                self.cry(f"REPORTS DIFFER on {os.path.basename(file)}, {question}: {why}")
            self.put(problem, groups, question, results)
            found.append((question, results))
        return found

    def put(self, problem, groups, question, results):
        whole = [result for name, result in results.items() if result.status == "complete" and name not in OTHERS]
        answer = f"{len(whole[0].sets)} of at most {whole[0].bound}" if whole else "?"
        cells = [problem.kind, f"{problem.family} {problem.size} {problem.seed}", groups, question, answer]
        for name in self.programs:
            result = results.get(name)
            ended = result and result.status == "complete"
            cells.append("-" if not result else run.seconds_text(result.seconds) if ended else result.status.split()[0])
            cells.append("-" if not result else f"{result.megabytes:.0f}")
        run.put_row(cells)

    def table(self, problems):
        heads = ["", "problem", "groups", "asked for", "sets"]
        for name in self.programs:
            heads += [f"{name}: s", "MB"]
        run.put_row(heads)
        run.put_row(["---"] * len(heads))
        return [row for problem in problems for row in self.rows(problem)]


def problems_of(word):
    """Those of run.py, each once, as its --only names them."""
    chosen = [problem for problem in run.PROBLEMS if word == problem.kind or problem.kind in run.USUAL and word in (None, problem.family)]
    return list({problem[1:4]: problem for problem in chosen}.values())


def main():
    words = argparse.ArgumentParser(description=__doc__, formatter_class=argparse.RawDescriptionHelpFormatter)
    words.add_argument("--gmus", metavar="PROGRAM", help="the program; without it the others run alone")
    words.add_argument("--time", type=float, default=20, metavar="SECONDS", help="for a program and a question (20)")
    words.add_argument("--only", metavar="WORD", help="problems of this kind (small, middle, rich, big, huge) or family, as for run.py")
    words.add_argument("--over", choices=["minisat", "cadical"], default="minisat", help="the solver of the baseline (minisat)")
    words.add_argument("--cpu", action="store_true", help="count seconds of the processor, not of the clock")
    words.add_argument("--keep", metavar="FOLDER", help="where problems and reports are to stay")
    given = words.parse_args()
    problems = problems_of(given.only)
    if not problems or given.time <= 0:
        words.error("nothing to run")
    if given.gmus and not os.access(given.gmus, os.X_OK):
        words.error(f"{given.gmus} can't be run")
    folder = given.keep or tempfile.mkdtemp(prefix="gmus-least-")
    os.makedirs(folder, exist_ok=True)
    bench = Least(given, folder)
    try:
        if not bench.programs:
            sys.exit("none of the programs is there")
        print(f"{run.machine()}; {given.time:g} s for a program and a question; "
              f"{'processor' if given.cpu else 'wall'} seconds.\n", flush=True)
        rows = bench.table(problems)
        print(f"\n{summary(rows, list(bench.programs))}", flush=True)
        if bench.faults:
            sys.exit(f"{bench.faults} faults; the files are in {folder}")
    finally:
        if not given.keep and not bench.faults:
            shutil.rmtree(folder)


if __name__ == "__main__":
    main()
