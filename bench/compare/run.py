#!/usr/bin/env python3
"""Runs gmus and the baselines on generated problems, and prints a table in Markdown.

    bench/compare/run.py [--gmus PROGRAM] [--time SECONDS] [--only WORD] [--repeat N] [--cpu] [--keep FOLDER]

The programs run one at a time, on the same file, and are killed when the time is up. A problem with too many sets to
list has a limit: each program then stops at so many sets, which need not be the same ones.

Of the baselines the best one is the quickest that came to the same end as gmus. It stands in the table with its seconds,
its memory and its sets, and the seconds of each baseline stand behind it.

Reports are compared: two complete ones have to be equal, and others have to fit (agree.py). Where they don't, or where
a program fails, the run says so, keeps the files, and ends with 1.

Below the table stand, over the problems that gmus and a baseline both end, the geometric mean of the seconds by those of
the best, the worst such ratio where the best takes 0.2 s or more, and the worst ratio of memory where gmus takes 100 MB or
more. Rich problems are small ones with thousands of sets, or of conflicts within a question. They have a mean of their own, and
one of memory, and don't count in the other.

An idle machine takes some six minutes for the small and middle problems, and one for the rich ones (--only rich).
"""
import argparse
import datetime
import math
import os
import platform
import re
import select
import shutil
import signal
import subprocess
import sys
import tempfile
import time
from collections import namedtuple

from places import BENCH

HERE = os.path.dirname(os.path.abspath(__file__))
BASELINES = {"minisat": ["marco-minisat"], "minisat-save": ["marco-minisat", "--save"],
             "minisat-harvest": ["marco-minisat", "--harvest", "3"],
             "cadical": ["marco-cadical"], "cadical-save": ["marco-cadical", "--save"]}
ENDS = ["complete", "limit"]
USUAL = ["small", "middle", "rich"]    # kinds that run where none is named
RICH = "rich"                          # the one that has a mean of its own
GRACE = 5      # seconds for its report that a baseline has, which stops by its own clock
LONG = 0.2     # seconds of the best baseline from which on a ratio counts by itself
LARGE = 100    # MB of gmus from which on its memory counts

Problem = namedtuple("Problem", "kind family size seed limit")
Result = namedtuple("Result", "status sets seconds megabytes is_own")   # seconds of the clock, or of the processor
Ending = namedtuple("Ending", "code wall cpu megabytes")                # the code is None where it was killed
Pair = namedtuple("Pair", "name kind ours best")                        # the results of gmus and of the best baseline

PROBLEMS = [Problem(*line.split()) for line in """
small  chain          20    1  -
small  chain          100   1  -
small  chain          300   1  -
small  links          60    1  -
small  random         12    1  -
small  random         20    1  -
small  random         30    1  -
small  threshold      16    1  -
small  clumps         20    1  -
small  dense          20    2  -
small  dense          30    2  -
small  feature        40    1  -
small  feature        300   1  -
small  feature        600   1  -
small  adder          20    1  -
small  adder          200   2  -
small  adder          400   1  -
small  multiplier     30    1  -
small  multiplier     64    4  -
small  tripled        120   1  -
small  miter          220   1  -
small  colour         20    1  -
small  colour         40    1  -
small  colour         60    1  -
small  colour-vertex  20    1  -
small  colour-vertex  100   1  -
small  colour-vertex  300   1  -
small  types          20    2  -
small  types          40    1  -
small  net            40    1  -
small  net            300   1  -
small  plan           80    1  -
small  plan           400   2  -
small  pigeon         10    1  -
small  pigeon         13    1  -
small  pigeon-holes   20    1  -
small  parity         12    1  -
small  parity         20    1  -
middle chain          1000  1  -
middle chain          4000  1  1000
middle chain          16000 1  20
middle links          300   1  -
middle random         34    1  -
middle random         40    1  -
middle random         60    1  1000
middle random         100   1  100
middle threshold      20    5  -
middle clumps         28    1  -
middle dense          36    1  -
middle feature        2000  2  -
middle feature        4000  1  -
middle feature        16000 1  200
middle adder          600   2  -
middle adder          2000  2  -
middle adder          16000 1  -
middle multiplier     64    1  -
middle multiplier     64    3  -
middle tripled        180   1  -
middle miter          480   1  -
middle colour         70    1  -
middle colour         300   1  1000
middle colour         4000  1  200
middle colour-vertex  1000  1  1000
middle colour-vertex  4000  1  200
middle types          60    4  -
middle types          60    5  -
middle net            1000  1  -
middle net            16000 2  200
middle plan           16000 1  -
middle pigeon         16    1  -
middle pigeon-holes   24    1  -
middle parity         30    1  -
middle parity         40    2  -
rich   chain          600   2  -
rich   links          80    2  -
rich   links          100   3  -
rich   links          150   2  -
rich   random         26    2  -
rich   random         32    3  -
rich   random         36    2  -
rich   clumps         22    2  -
rich   clumps         22    6  -
rich   clumps         22    7  -
rich   types          50    4  -
rich   types          70    5  -
rich   types          70    6  -
rich   types          80    2  -
rich   tripled        90    3  -
rich   tripled        105   7  -
rich   pigeon         14    1  -
rich   pigeon         15    2  -
rich   pigeon         16    2  -
rich   pigeon-holes   15    2  -
rich   pigeon-holes   18    3  -
rich   pigeon-holes   22    2  -
rich   threshold      14    6  -
rich   threshold      18    7  -
rich   threshold      18    8  -
rich   colour         50    2  -
rich   colour         60    3  -
rich   colour         64    2  -
rich   colour-vertex  60    4  -
rich   colour-vertex  150   2  -
rich   parity         36    3  -
rich   parity         36    4  -
rich   parity         36    5  -
rich   miter          220   2  -
rich   miter          260   3  -
rich   miter          300   1  -
big    dense          46    9  -
big    dense          46    6  48000
big    adder          1600  1  -
big    multiplier     110   7  50000
big    types          60    3  10000
big    net            4000  1  -
big    net            16000 2  -
big    pigeon         18    1  -
big    parity         50    1  -
huge   index          60000 1  1000
huge   index          300000 1 100
huge   index          1000000 1 100
huge   config         60000 1  1000
huge   config         300000 1 100
huge   config         1000000 1 100
huge   unrolled       60000 1  10
huge   unrolled       300000 1 4
huge   unrolled-cnf   99000 1  2
huge   plan           60000 1  -
huge   plan           208000 1 -
huge   chain          60000 1  20
huge   chain          1000000 1 4
huge   net            60000 1  1000
huge   net            1000000 1 100
""".strip().splitlines()]


def build_baselines(baselines=None):
    """The command of each baseline that is there after `make`; says of each other one why not."""
    baselines = BASELINES if baselines is None else baselines
    folder = os.path.join(HERE, "marco")
    found = {}
    for program in dict.fromkeys(program for program, *_ in baselines.values()):
        made = subprocess.run(["make", "-s", "-C", folder, program], text=True,
                              stdout=subprocess.PIPE, stderr=subprocess.STDOUT)
        names = [name for name, command in baselines.items() if command[0] == program]
        if made.returncode == 0:
            found.update({name: [os.path.join(folder, program), *baselines[name][1:]] for name in names})
        else:
            print(f"{' and '.join(names)}: left out, since {program} can't be built (see marco/Makefile):\n{made.stdout}",
                  file=sys.stderr)
    return found


def make(problem, folder):
    """The problem's file, with each clause as a group if the name of its family says so, and how many groups and clauses it has."""
    family = problem.family.removesuffix("-cnf")
    file = os.path.join(folder, f"{problem.family}-{problem.size}-{problem.seed}.gcnf")
    with open(file, "w") as out:
        generate = [sys.executable, os.path.join(BENCH, "generate.py"), family, "--size", problem.size, "--seed", problem.seed]
        subprocess.run([*generate, *(["--cnf"] if family != problem.family else [])], stdout=out, check=True)
    with open(file) as lines:
        counts = lines.readline().split()[3:]
    return file, counts[-1], counts[0]


def peak_program():
    """What runs a command and tells its peak of memory, if it can be built; without it a peak begins with this script's own."""
    made = subprocess.run(["make", "-s", "-C", os.path.join(HERE, "marco"), "peak"], stdout=subprocess.DEVNULL,
                          stderr=subprocess.DEVNULL, check=False)
    return [os.path.join(HERE, "marco", "peak")] if made.returncode == 0 else []


def run(command, report, errors, seconds, peak=()):
    """Runs a command with its output in files, and kills it when the time is up."""
    outputs = [(os.POSIX_SPAWN_OPEN, number, name, os.O_WRONLY | os.O_CREAT | os.O_TRUNC, 0o644)
               for number, name in ((1, report), (2, errors))]
    with tempfile.NamedTemporaryFile("w+") as told:
        code, wall, usage = spawn([*peak, told.name, *command] if peak else command, outputs, seconds)
        kilobytes = told.read()
    return Ending(code, wall, usage.ru_utime + usage.ru_stime, int(kilobytes or usage.ru_maxrss) / 1024)


def spawn(command, outputs, seconds):
    """The status, or None if the time was up, the seconds of the clock, and what the system tells of the resources."""
    begin = time.perf_counter()
    child = os.posix_spawnp(command[0], command, os.environ, file_actions=outputs, setpgroup=0)
    ended = False
    try:
        handle = os.pidfd_open(child)
        ends = select.poll()
        ends.register(handle, select.POLLIN)
        ended = bool(ends.poll(seconds * 1000))
        os.close(handle)
    finally:
        if not ended:
            os.killpg(child, signal.SIGTERM)
        _, status, usage = os.wait4(child, 0)
    return os.waitstatus_to_exitcode(status) if ended else None, time.perf_counter() - begin, usage


def read_ending(code, report, errors):
    """How a program ended, in a word, and the counts of its report, or None where it has none."""
    if code is None:
        return "time", None
    second, last = "", ""
    with open(report, errors="replace") as lines:
        for at, line in enumerate(lines):
            second, last = (line.strip() if at == 1 else second), line
    counts = last.split()
    words = {(0, "s COMPLETE"): "complete", (3, "s PARTIAL"): "time", (4, "s PARTIAL"): "limit"}
    if (code, second) in words and len(counts) == 3 and counts[0] == "e":
        return words[code, second], f"{counts[1]}+{counts[2]}"
    with open(errors, errors="replace") as lines:
        return f"failed ({code}: {lines.readline().strip()})", None


def seconds_text(seconds):
    return f"{seconds:.3f}" if seconds < 1 else f"{seconds:.2f}" if seconds < 10 else f"{seconds:.1f}"


def best_of(results):
    """The quickest baseline that came to the same end as gmus, or to one at all where gmus doesn't run; or None."""
    ends = [results["gmus"].status] if "gmus" in results else ENDS
    same = [name for name, result in results.items() if name != "gmus" and result.status in ends and result.status in ENDS]
    return min(same, key=lambda name: results[name].seconds, default=None)


def ratio(results):
    """The seconds of gmus by those of the best baseline, as text; a bound where only one side came to an end."""
    baselines = [result for name, result in results.items() if name != "gmus"]
    if "gmus" not in results or not baselines:
        return "-"
    ours, best = results["gmus"], best_of(results)
    if best:
        return f"{ours.seconds / results[best].seconds:.2g}"
    if ours.status in ENDS:
        slow = [result.seconds for result in baselines if result.status == "time"]
        return f"< {ours.seconds / min(slow):.2g}" if len(slow) == len(baselines) else "-"
    ended = [result.seconds for result in baselines if result.status in ENDS]
    return f"> {ours.seconds / min(ended):.2g}" if ours.status == "time" and ended else "-"


def own_peak(errors):
    """The MB that a baseline tells of itself, or None."""
    with open(errors, errors="replace") as lines:
        told = re.search(r"^marco: .*, (\d+) kB", lines.read(), re.MULTILINE)
    return int(told[1]) / 1024 if told else None


class Bench:
    def __init__(self, given, folder):
        self.given = given
        self.folder = folder
        self.faults = 0
        self.pairs = []    # of each problem that both sides end
        self.behind = []   # the names of those that a baseline alone ends
        self.programs = build_baselines()
        if given.gmus:
            self.programs = {"gmus": [os.path.abspath(given.gmus), "list"], **self.programs}
        # A child's peak begins with that of what began it, so no figure can be below that.
        self.peak = peak_program()
        self.floor = run(["true"], os.devnull, os.devnull, 10, self.peak).megabytes
        self.wall = self.cpu = 0.0   # of all runs

    def cry(self, words):
        self.faults += 1
        print(f"!!! {words}", file=sys.stderr, flush=True)

    def command(self, name, problem, file):
        limit = [] if problem.limit == "-" else ["--limit", problem.limit]
        clock = [] if name == "gmus" else ["--time", str(self.given.time), "--stats"]
        return [*self.programs[name], file, *clock, *limit]

    def measure(self, name, problem, file):
        """The quickest of the runs; a run that does not come to an end is the last one."""
        report, errors = f"{file}.{name}", f"{file}.{name}.errors"
        patience = self.given.time + (0 if name == "gmus" else GRACE)
        best = None
        for _ in range(self.given.repeat):
            ending = run(self.command(name, problem, file), report, errors, patience, self.peak)
            self.wall += ending.wall
            self.cpu += ending.cpu
            seconds = ending.cpu if self.given.cpu else ending.wall
            own = own_peak(errors)
            result = Result(*read_ending(ending.code, report, errors), seconds, own or ending.megabytes, bool(own))
            if result.status not in ENDS:
                best = result
                break
            best = result if best is None or seconds < best.seconds else best
        if best.status.startswith("failed"):
            self.cry(f"{name} {best.status} on {os.path.basename(file)}")
        return best

    def agree(self, file, results):
        """Whether all reports can be right."""
        before = self.faults
        names = [name for name, result in results.items() if result.sets]
        for at, one in enumerate(names):
            for other in names[at + 1:]:
                agree = [sys.executable, os.path.join(BENCH, "try", "agree.py"), f"{file}.{one}", f"{file}.{other}"]
                check = subprocess.run(agree, stderr=subprocess.PIPE, text=True)
                if check.returncode != 0:
                    self.cry(f"REPORTS DIFFER: {one} and {other} on {os.path.basename(file)}: {check.stderr.strip()}")
        return self.faults == before

    def row(self, problem):
        file, groups, clauses = make(problem, self.folder)
        results = {name: self.measure(name, problem, file) for name in self.programs}
        agreed = self.agree(file, results)
        best = best_of(results)
        if agreed:
            self.count(problem, results, best)
        cells = [problem.kind, problem.family, problem.size, problem.seed, groups, clauses, problem.limit]
        if "gmus" in results:
            ours = results["gmus"]
            cells += [ours.sets or "?", seconds_text(ours.seconds), self.megabytes_text(ours), ours.status]
        if best:
            cells += [best, seconds_text(results[best].seconds), self.megabytes_text(results[best]), results[best].sets]
        else:
            cells += ["-"] * 4
        for name in self.baselines():
            ended = results[name].status in ENDS
            cells.append(seconds_text(results[name].seconds) if ended else results[name].status.split()[0])
        return cells + [ratio(results) if agreed else "REPORTS DIFFER", self.memory_ratio(results, best)]

    def table(self, problems):
        heads = ["", "family", "size", "seed", "groups", "clauses", "limit"]
        if "gmus" in self.programs:
            heads += ["gmus: sets", "s", "MB", "status"]
        heads += ["best", "s", "MB", "sets", *self.baselines(), "gmus / best: s", "MB"]
        put_row(heads)
        put_row(["---"] * len(heads))
        for problem in problems:
            put_row(self.row(problem))

    def baselines(self):
        return [name for name in self.programs if name != "gmus"]

    def has_floor(self, result):
        """Whether the peak may be that of what began it, since a child's figure begins with that."""
        return result.megabytes < 1.1 * self.floor and not result.is_own

    def megabytes_text(self, result):
        return f"< {1.1 * self.floor:.0f}" if self.has_floor(result) else f"{result.megabytes:.0f}"

    def memory_ratio(self, results, best):
        """The MB of gmus by those of the best baseline, as text."""
        if not best or "gmus" not in results or self.has_floor(results["gmus"]):
            return "-"
        return f"{results['gmus'].megabytes / results[best].megabytes:.2g}"

    def count(self, problem, results, best):
        """Keeps what the summary tells of."""
        name = f"{problem.family} {problem.size} {problem.seed}"
        if "gmus" in results and best:
            self.pairs.append(Pair(name, problem.kind, results["gmus"], results[best]))
        elif ratio(results).startswith(">"):
            self.behind.append(name)

    def mean_of_all(self, pairs):
        kinds = dict.fromkeys(pair.kind for pair in pairs)
        means = [f"{mean(pair for pair in pairs if pair.kind == kind):.2g} over the {kind} ones" for kind in kinds]
        return (f"Of the problems, gmus and a baseline both end {len(pairs)}. There the geometric mean of gmus / best of "
                f"{len(self.baselines())} is {mean(pairs):.2g}: {', '.join(means)}.")

    def mean_of_rich(self, pairs):
        known = [pair for pair in pairs if not self.has_floor(pair.ours)]
        memory = f", and that of memory {mean(known, megabytes_by_best):.2g} over the {len(known)} where it is known" if known else ""
        return f"Of the rich problems they both end {len(pairs)}, with a mean of {mean(pairs):.2g}{memory}."

    def summary(self):
        """The mean and the worst ratios, in some sentences."""
        if not self.pairs:
            return "No problem is ended by both gmus and a baseline."
        rich, others = ([pair for pair in self.pairs if (pair.kind == RICH) == is_rich] for is_rich in (True, False))
        sentences = [self.mean_of_all(others)] if others else []
        sentences += [self.mean_of_rich(rich)] if rich else []
        sentences += [
            worst(f"Where the best takes {LONG:g} s or more", seconds_by_best,
                  [pair for pair in self.pairs if pair.best.seconds >= LONG]),
            worst(f"Where gmus takes {LARGE} MB or more", megabytes_by_best,
                  [pair for pair in self.pairs if pair.ours.megabytes >= LARGE])]
        if self.behind:
            sentences.append(f"A baseline alone ends {', '.join(self.behind)}.")
        return " ".join(sentences)


def seconds_by_best(pair):
    return pair.ours.seconds / pair.best.seconds


def megabytes_by_best(pair):
    return pair.ours.megabytes / pair.best.megabytes


def mean(pairs, by_best=seconds_by_best):
    """The geometric mean of the ratios."""
    logarithms = [math.log(by_best(pair)) for pair in pairs]
    return math.exp(sum(logarithms) / len(logarithms))


def worst(where, by_best, pairs):
    """A sentence on the worst ratio of these."""
    if not pairs:
        return f"{where}: none."
    pair = max(pairs, key=by_best)
    what = "memory" if by_best is megabytes_by_best else "seconds"
    return f"{where}, in {len(pairs)}, the worst ratio of {what} is {by_best(pair):.2g} ({pair.name})."


def put_row(cells):
    print("| " + " | ".join(cells) + " |", flush=True)


def machine():
    """The processor, the system and the day, for the line above the table."""
    model = platform.machine()
    try:
        with open("/proc/cpuinfo") as lines:
            model = next((line.split(":", 1)[1].strip() for line in lines if line.startswith("model name")), model)
    except OSError:
        pass
    load = os.getloadavg()[0]
    return (f"{model}, {os.cpu_count()} processors, {platform.system()} {platform.release()}, "
            f"{datetime.date.today()}, load {load:.1f} at the start")


def main():
    words = argparse.ArgumentParser(description=__doc__, formatter_class=argparse.RawDescriptionHelpFormatter)
    words.add_argument("--gmus", metavar="PROGRAM", help="the program; without it the baselines run alone")
    words.add_argument("--time", type=float, default=20, metavar="SECONDS", help="for a program and a problem (20)")
    words.add_argument("--only", metavar="WORD", help="problems of this kind (small, middle, rich, big, huge) or "
                       "family; big and huge ones run only where their kind is named")
    words.add_argument("--repeat", type=int, default=1, metavar="N", help="runs, of which the quickest counts (1)")
    words.add_argument("--cpu", action="store_true", help="count seconds of the processor, not of the clock")
    words.add_argument("--keep", metavar="FOLDER", help="where problems and reports are to stay")
    given = words.parse_args()
    problems = [problem for problem in PROBLEMS if given.only == problem.kind
                or problem.kind in USUAL and given.only in (None, problem.family)]
    if not problems or given.time <= 0 or given.repeat < 1:
        words.error("nothing to run")
    if given.gmus and not os.access(given.gmus, os.X_OK):
        words.error(f"{given.gmus} can't be run")
    folder = given.keep or tempfile.mkdtemp(prefix="gmus-bench-")
    os.makedirs(folder, exist_ok=True)
    bench = Bench(given, folder)
    try:
        if not bench.programs:
            sys.exit("neither gmus nor a baseline is there")
        print(f"{machine()}; {given.time:g} s for a program and a problem; "
              f"{'processor' if given.cpu else 'wall'} seconds, the quickest of {given.repeat}.\n", flush=True)
        bench.table(problems)
        if given.gmus:
            print(f"\n{bench.summary()}", flush=True)
        if bench.wall > 1.2 * bench.cpu + 1:
            print(f"The machine was busy: {bench.cpu:.0f} s of work took {bench.wall:.0f} s.", file=sys.stderr)
        if bench.faults:
            sys.exit(f"{bench.faults} faults; the files are in {folder}")
    finally:
        if not given.keep and not bench.faults:
            shutil.rmtree(folder)


if __name__ == "__main__":
    main()
