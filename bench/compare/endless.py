#!/usr/bin/env python3
"""Counts what gmus and the baselines have of lists that don't end, after some seconds of the processor, as a table in Markdown.

    bench/compare/endless.py [--gmus PROGRAM] [--seconds S] [--only WORD] [--over SOLVER] [--check S] [--keep FOLDER]

The problems are of eight sorts, three of each: package indices, options of a kernel, types, circuits, chains, random ones, plans and
colours. None of the programs should come to the end of a list in 5 seconds; if one does, the table says so.

The baselines are three ways of MARCO over MiniSat, or CaDiCaL, with --save, --harvest 3 and --recursive (ReMUS). They stop by
themselves after so many seconds of the processor, and write their report beyond these. gmus is asked for so many sets, by one
worker, and for more or fewer again, until a run takes nearly as long; reading and the report are within the seconds. A run beyond
them is killed.

Below the table stand geometric means over the problems: of the conflicts of gmus by those of the baseline that has most of them
there, of the corrections likewise, of both as one mean, and of the sets of both kinds by those of the baseline that has most in
all. One is added to each number, so that it may be 0.

Each report is looked through: for a set that is there twice, for a conflict and a correction without a common group, and, by
marco/check.cpp, for sets that aren't minimal, in an order of chance for 2 seconds (--check). What is wrong is told, the files
stay, and the run ends with 1.

An idle machine takes 25 minutes: a minute a problem, in which gmus runs some five times, and each baseline once.
"""
import argparse
import math
import os
import shutil
import signal
import subprocess
import sys
import tempfile
import time
from collections import namedtuple

from places import BENCH
from bench.compare import run

WAYS = {"save": ["--save"], "harvest": ["--harvest", "3"], "recursive": ["--recursive"]}
PROBLEMS = [run.Problem(*line.split(), "-") for line in """
packages  index         2000  1
packages  index         6000  2
packages  index         16000 1
kernel    config        2000  1
kernel    config        6000  2
kernel    config        16000 1
types     types         120   2
types     types         200   1
types     types         400   1
circuits  multiplier    110   7
circuits  multiplier    150   3
circuits  unrolled      6000  1
chains    chain         4000  2
chains    chain         16000 2
chains    links         2000  1
random    random        60    1
random    random        80    2
random    clumps        40    1
plans     plan          60000 2
plans     plan          90000 1
plans     plan          208000 1
colours   colour        120   1
colours   colour        300   2
colours   colour        200   3
""".strip().splitlines()]
KINDS = ["conflicts", "corrections"]
FIRST = 256     # sets for which gmus is first asked
NEAR = 0.97     # of the seconds that the last run of gmus has to take
MOST_RUNS = 12
POLL = 0.005    # seconds between two looks at what a run took

Have = namedtuple("Have", "sets seconds ended")    # the sets of each kind, and whether the list came to its end


def processor_seconds(child):
    """What a process has taken; the number is Linux's for the clock of its processors."""
    return time.clock_gettime(~child << 3 | 2)


def run_for(command, report, seconds):
    """Runs a command, and kills it beyond so many seconds of the processor: its status, or None, and what it took."""
    outputs = [(os.POSIX_SPAWN_OPEN, number, name, os.O_WRONLY | os.O_CREAT | os.O_TRUNC, 0o644)
               for number, name in ((1, report), (2, f"{report}.errors"))]
    child = os.posix_spawnp(command[0], command, os.environ, file_actions=outputs)
    ended = None
    try:
        while not (ended := os.wait4(child, os.WNOHANG))[0] and processor_seconds(child) <= seconds:
            time.sleep(POLL)
    finally:
        if not ended or not ended[0]:
            os.kill(child, signal.SIGKILL)
            ended = os.wait4(child, 0)
    _, status, usage = ended
    code = os.waitstatus_to_exitcode(status)
    return None if code == -signal.SIGKILL else code, usage.ru_utime + usage.ru_stime


def have_of(code, report, seconds):
    """What a report has; a run without one failed, which is told by an exception."""
    status, sets = run.read_ending(code, report, f"{report}.errors")
    if not sets:
        raise RuntimeError(status)
    return Have([int(count) for count in sets.split("+")], seconds, status == "complete")


def next_limit(low, taken, high, seconds):
    """For how many sets gmus is asked next, if `low` took so long, and `high`, if there is one, took too long."""
    guess = int(low * min(8.0, 0.985 * seconds / max(taken, 1e-3))) if low else (high or FIRST) // 8
    if high is None:
        return max(guess, low + 1)
    part = (high - low) // 8
    return min(max(guess, low + 1 + part), high - 1 - part)


def most_within(seconds, attempt):
    """The most that `attempt(sets)` has, which gives None if that takes longer; or None."""
    low, high, best, limit = 0, None, None, FIRST
    for _ in range(MOST_RUNS):
        have = attempt(limit)
        if have is None:
            high = limit
        else:
            low, best = limit, have
            if have.ended or have.seconds >= NEAR * seconds:
                break
        if high is not None and high - low <= max(1, low // 50):
            break
        limit = next_limit(low, best.seconds if best else 0.0, high, seconds)
    return best


def ratio(ours, theirs):
    return (ours + 1) / (max(theirs) + 1)


def ratios(results):
    """Of conflicts, of corrections, and of both, by the most of a baseline; none if there is no baseline, or not gmus."""
    others = [have.sets for name, have in results.items() if name != "gmus"]
    if "gmus" not in results or not others:
        return None
    ours = results["gmus"].sets
    return [ratio(ours[kind], [sets[kind] for sets in others]) for kind in (0, 1)] + [ratio(sum(ours), map(sum, others))]


def mean(numbers):
    return math.exp(sum(map(math.log, numbers)) / len(numbers))


def summary(rows):
    """The means in a sentence; a row is what `ratios` gives of a problem."""
    if not rows:
        return "No problem was tried with gmus and a baseline."
    conflicts, corrections, both = ([row[at] for row in rows] for at in range(3))
    return (f"Geometric means over {len(rows)} problems, of gmus by the baseline with most: {mean(conflicts):.2f} of the conflicts, "
            f"{mean(corrections):.2f} of the corrections, {mean(conflicts + corrections):.2f} in the mean of both; "
            f"{mean(both):.2f} of the sets of both kinds together.")


class Endless:
    def __init__(self, given, folder):
        self.given = given
        self.folder = folder
        self.faults = 0
        baselines = {f"{given.over}-{way}": [f"marco-{given.over}", *words] for way, words in WAYS.items()}
        self.programs = run.build_baselines(baselines)
        if given.gmus:
            self.programs = {"gmus": [os.path.abspath(given.gmus), "list"], **self.programs}
        self.checker = next(iter(run.build_baselines({"check": [f"check-{given.over}"]}).values()), None)

    def cry(self, words):
        self.faults += 1
        print(f"!!! {words}", file=sys.stderr, flush=True)

    def of_gmus(self, file):
        """The most sets that gmus has within the seconds; its report is kept."""
        report, seconds = f"{file}.gmus", self.given.seconds

        def attempt(limit):
            code, taken = run_for([*self.programs["gmus"], file, "--limit", str(limit)], f"{report}.new", seconds)
            if code is None or taken > seconds:
                return None
            have = have_of(code, f"{report}.new", taken)
            os.replace(f"{report}.new", report)
            return have

        return most_within(seconds, attempt) or Have([0, 0], 0.0, False)

    def of_baseline(self, name, file):
        report = f"{file}.{name}"
        # What it does beyond the seconds is sorting and writing its report.
        code, taken = run_for([*self.programs[name], file, "--cpu", str(self.given.seconds)], report, 3 * self.given.seconds + 30)
        return have_of(code, report, min(taken, self.given.seconds))

    def look_through(self, file, names):
        """Tells what is wrong with the reports."""
        reports = [f"{file}.{name}" for name in names if os.path.exists(f"{file}.{name}")]
        for report in reports:
            agree = [sys.executable, os.path.join(BENCH, "try", "agree.py"), reports[0], report]
            self.expect(agree, f"{os.path.basename(reports[0])} and {os.path.basename(report)}")
            if self.checker and self.given.check > 0:
                self.expect([*self.checker, file, report, "--cpu", str(self.given.check)], os.path.basename(report))

    def expect(self, command, what):
        ended = subprocess.run(command, stdout=subprocess.PIPE, stderr=subprocess.STDOUT, text=True, check=False)
        if ended.returncode != 0:
            self.cry(f"{what}: {ended.stdout.strip()}")

    def row(self, problem):
        """Prints what each program has of a problem, and gives the ratios."""
        file, groups, clauses = run.make(problem, self.folder)
        results = {}
        for name in self.programs:
            try:
                results[name] = self.of_gmus(file) if name == "gmus" else self.of_baseline(name, file)
            except RuntimeError as fault:
                self.cry(f"{name} {fault} on {os.path.basename(file)}")
        self.look_through(file, results)
        found = ratios(results)
        cells = [problem.kind, f"{problem.family} {problem.size} {problem.seed}", groups, clauses]
        for name in self.programs:
            have = results.get(name)
            cells.append("failed" if not have else "+".join(map(str, have.sets)) + (" ended" if have.ended else ""))
        run.put_row([*cells, *(f"{part:.2g}" for part in found or [])])
        return found

    def table(self, problems):
        heads = ["", "problem", "groups", "clauses", *self.programs]
        if "gmus" in self.programs and len(self.programs) > 1:
            heads += [*KINDS, "both"]
        run.put_row(heads)
        run.put_row(["---"] * len(heads))
        return [row for row in map(self.row, problems) if row]


def main():
    words = argparse.ArgumentParser(description=__doc__, formatter_class=argparse.RawDescriptionHelpFormatter)
    words.add_argument("--gmus", metavar="PROGRAM", help="the program; without it the baselines run alone")
    words.add_argument("--seconds", type=float, default=5, metavar="S", help="of the processor, for a program and a problem (5)")
    words.add_argument("--only", metavar="WORD", help="problems of this sort or family")
    words.add_argument("--over", choices=["minisat", "cadical"], default="minisat", help="the solver of the baselines (minisat)")
    words.add_argument("--check", type=float, default=2, metavar="S", help="seconds for the sets of a report, or 0 (2)")
    words.add_argument("--keep", metavar="FOLDER", help="where problems and reports are to stay")
    given = words.parse_args()
    problems = [problem for problem in PROBLEMS if given.only in (None, problem.kind, problem.family)]
    if not problems or given.seconds <= 0:
        words.error("nothing to run")
    if given.gmus and not os.access(given.gmus, os.X_OK):
        words.error(f"{given.gmus} can't be run")
    folder = given.keep or tempfile.mkdtemp(prefix="gmus-endless-")
    os.makedirs(folder, exist_ok=True)
    bench = Endless(given, folder)
    try:
        if not bench.programs:
            sys.exit("neither gmus nor a baseline is there")
        print(f"{run.machine()}; conflicts and corrections after {given.seconds:g} s of the processor.\n", flush=True)
        rows = bench.table(problems)
        if given.gmus:
            print(f"\n{summary(rows)}", flush=True)
        if bench.faults:
            sys.exit(f"{bench.faults} faults; the files are in {folder}")
    finally:
        if not given.keep and not bench.faults:
            shutil.rmtree(folder)


if __name__ == "__main__":
    main()
