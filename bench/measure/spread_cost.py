#!/usr/bin/env python3
"""What many runs that do not know of each other give beside one run, and how far one coordinator goes.

    bench/measure/spread_cost.py PROGRAM [--table clock|twice|coordinator] [--rounds 3] [--processes 4] [--only WORD]
                         [--with processes|dask|mpi] [--python PYTHON] [--folder FOLDER]
    bench/measure/spread_cost.py PROGRAM --all [--minutes 15]

Three tables, by tools/spread.py over PROGRAM, in seconds of the clock. With --all they come one after the other, in so many minutes
at most: of each problem as many sets are asked for as one worker found in some seconds, rounds are left out where the time is short,
which their number tells, and a run that takes several times as long as it should is ended, and told as '> SECONDS'.

clock        the same number of sets, or the whole list, by one worker, by four and by spread.py, the quickest of the rounds, in
             each of which each runs once; and the ratios of spread.py by both, with their geometric mean over the problems that
             one worker takes 5 s or more for. With dask a cluster of four worker processes on the loopback address is begun by
             dask-scheduler and dask-worker, with mpi the job by mpiexec; PYTHON is one that has the package (/usr/bin/python3).
             A whole list has to have the bytes of that by one worker.
twice        what part of the sets that tasks gave was given before, for 1, 2, 4 and 8 processes, with so many sets a second
coordinator  how many records a second one coordinator checks, takes and writes, how many bytes a record has, and from how many
             machines on it would be what is waited for, of which each finds what one process found in `twice`

Needs Python 3.9, and a machine that does nothing else. Ends with 1 where a whole list differs.
"""
import argparse
import contextlib
import datetime
import math
import os
import platform
import signal
import subprocess
import sys
import tempfile
import time

from places import BENCH, TOP
from bench.compare import run
from gmus_tools.evidence import journal
from gmus_tools.spreading import run as spread_run, words as spread_words
from gmus_tools.spreading.evidence import Evidence
from gmus_tools.spreading.found import Found
from gmus_tools.spreading.judge import Judge
from gmus_tools.spreading.numbering import plain, sizes_of
from gmus_tools.spreading.processes import Processes
from gmus_tools.spreading.task import FRESH, Order, answer_of, perform

SPREAD = os.path.join(TOP, "tools", "spread.py")
LONG = 5.0        # seconds of one worker from which on a problem counts in the mean
PORT = 8797
# With --all: for so many seconds one worker looks how many sets it finds, and no run takes more than so many times that.
PROBE, MOST = 6.0, 5
# What part of the time each table of --all has ended by, and the problems of the last two.
SHARES, FEW = {"clock": 0.7, "twice": 0.87, "coordinator": 1.0}, ("random 120 1", "types 200 1", "colour 300 1")

PROBLEMS = [run.Problem(*line.split()) for line in """
hard  random         100   1  400
hard  random         120   1  400
hard  random         120   2  400
hard  random         150   1  400
hard  random         150   2  400
hard  types          200   1  40000
hard  colour         300   1  4000
hard  miter          480   1  -
hard  threshold      20    5  -
whole random         34    1  -
whole types          60    5  -
other chain          1000  1  -
other plan           16000 1  -
""".strip().splitlines()]


def file_of(problem, folder):
    """The problem's file, written where it isn't there yet."""
    file = os.path.join(folder, f"{problem.family}-{problem.size}-{problem.seed}.gcnf")
    if not os.path.exists(file):
        with open(file, "w") as out:
            subprocess.run([sys.executable, os.path.join(BENCH, "generate.py"), problem.family, "--size", problem.size,
                            "--seed", problem.seed], stdout=out, check=True)
    return file


def name_of(problem):
    sets = "" if problem.limit == "-" else f", {int(problem.limit):,} sets"
    return f"{problem.family} {problem.size} {problem.seed}{sets}"


def timed(words, environment=None, limit=None):
    """Seconds of the clock, and what was written, or nothing if it did not end within the limit; ends all if it ends with what is no
    end."""
    begins = time.perf_counter()
    child = subprocess.Popen(words, stdin=subprocess.DEVNULL, stdout=subprocess.PIPE, stderr=subprocess.PIPE, env=environment)
    try:
        output, said = child.communicate(timeout=limit)
    except subprocess.TimeoutExpired:
        child.terminate()
        child.communicate()
        return math.inf, b""
    took = time.perf_counter() - begins
    if child.returncode not in (0, 4):
        sys.exit(f"{' '.join(words)}: status {child.returncode}: {said.decode()[-500:]}")
    return took, output


class Limit(spread_run.Silent):
    """Interrupts a run after so many seconds."""

    def __init__(self, seconds):
        self.until = math.inf if seconds is None else time.monotonic() + seconds

    @property
    def signal(self):
        return signal.SIGTERM if time.monotonic() >= self.until else None

    @property
    def count(self):
        return 0 if self.signal is None else 1


def probed(given, problem, file, room):
    """The problem, with as many sets as one worker finds in some seconds, if it doesn't end before."""
    kept = os.path.join(room, "journal")
    limit = [] if problem.limit == "-" else ["--limit", problem.limit]
    took, _ = timed([given.program, "list", file, "--journal", kept, *limit], limit=PROBE)
    sets = 0
    if os.path.exists(kept):
        with open(kept, "rb") as held:
            sets = len(journal.texts_in(held.read())[0]) if took == math.inf else 0
        os.remove(kept)
    return problem._replace(limit=str(sets)) if sets else problem


class Engine:
    """How spread.py is called."""

    def __init__(self, given, room):
        self.given, self.room = given, room

    def words(self):
        count = str(self.given.processes)
        if self.given.engine == "dask":
            return [self.given.python, SPREAD], ["--dask", f"tcp://127.0.0.1:{PORT}"]
        if self.given.engine == "mpi":
            return ["mpiexec", "--oversubscribe", "-n", str(self.given.processes + 1), self.given.python, SPREAD], ["--mpi"]
        return [sys.executable, SPREAD], ["--processes", count]

    def listing(self, problem, file):
        """Seconds of one run, and the report."""
        evidence, report = os.path.join(self.room, "evidence"), os.path.join(self.room, "report")
        for name in (evidence, report):
            if os.path.exists(name):
                os.remove(name)
        before, behind = self.words()
        limit = [] if problem.limit == "-" else ["--sets", problem.limit]
        took, _ = timed([*before, file, "--evidence", evidence, "--report", report, *behind, *limit], environment(self.given), self.given.longest)
        if took == math.inf:
            return took, b""
        with open(report, "rb") as found:
            return took, found.read()

    @contextlib.contextmanager
    def begun(self):
        """The cluster, if one is needed, while it is needed."""
        if self.given.engine != "dask":
            yield
            return
        address = f"tcp://127.0.0.1:{PORT}"
        quiet = {"stdout": subprocess.DEVNULL, "stderr": subprocess.DEVNULL, "cwd": self.room, "env": environment(self.given)}
        scheduler = subprocess.Popen(["dask-scheduler", "--host", "127.0.0.1", "--port", str(PORT), "--no-dashboard"], **quiet)
        workers = subprocess.Popen(["dask-worker", address, "--host", "127.0.0.1", "--nworkers", str(self.given.processes), "--nthreads", "1",
                                    "--no-dashboard", "--local-directory", self.room], **quiet)
        try:
            time.sleep(10)
            yield
        finally:
            for child in (workers, scheduler):
                child.terminate()
                child.wait()


def environment(given):
    return {**os.environ, "GMUS": given.program, "PYTHONPATH": os.path.join(TOP, "tools"),
            "OMPI_ALLOW_RUN_AS_ROOT": "1", "OMPI_ALLOW_RUN_AS_ROOT_CONFIRM": "1"}


def put(cells):
    print("| " + " | ".join(map(str, cells)) + " |", flush=True)


def put_head(cells):
    put(cells)
    put(["---"] * len(cells))


def seconds(value):
    return f"> {MOST * PROBE:g}" if value == math.inf else f"{value:.3g}"


def mean(ratios):
    return math.exp(sum(map(math.log, ratios)) / len(ratios)) if ratios else float("nan")


def table_of_clocks(given, problems, folder, room):
    put_head(["problem", "sets", "rounds", "one worker", "four workers", given.engine, "/ one", "/ four", "medians: one", "four", given.engine])
    engine, ratios, differ = Engine(given, room), [], []
    with engine.begun():
        for problem in problems:
            if given.has_ended():
                print(f"\nNo time was left for {name_of(problem)}.")
                continue
            file = file_of(problem, folder)
            problem = probed(given, problem, file, room) if given.longest else problem
            took, reports = rounds_of(given, problem, file, engine)
            if problem.limit == "-" and len(set(filter(None, reports.values()))) > 1:
                differ.append(name_of(problem))
            one, _, ours = map(min, took.values())
            if problem.kind == "hard" and LONG <= one < math.inf > ours:
                ratios.append(ours / one)
            put(row_of(problem, took, reports))
    print(f"\nBy {given.engine}: {mean(ratios):.2f} of one worker in the geometric mean of {len(ratios)} hard problems of {LONG:g} s and more.")
    if differ:
        sys.exit("whole lists differ: " + "; ".join(differ))


def rounds_of(given, problem, file, engine):
    """What one worker, four and spread.py took in each round, and their last reports."""
    limit = [] if problem.limit == "-" else ["--limit", problem.limit]
    took, reports = {"one": [], "four": [], "spread": []}, {}
    for _ in range(given.rounds):
        for jobs, name in (("1", "one"), ("4", "four")):
            spent, report = timed([given.program, "list", file, "--jobs", jobs, *limit], limit=given.longest)
            took[name].append(spent)
            reports[name] = report or reports.get(name, b"")
        spent, report = engine.listing(problem, file)
        took["spread"].append(spent)
        reports["spread"] = report or reports.get("spread", b"")
        if given.has_ended():
            break
    return took, reports


def row_of(problem, took, reports):
    """The cells of one problem."""
    one, four, ours = map(min, took.values())
    middles = [sorted(each)[len(each) // 2] for each in took.values()]
    sets = dict.fromkeys(sum(map(int, report.split()[-2:])) for report in reports.values() if report)
    ratios = ["" if math.inf in (ours, other) else f"{ours / other:.2f}" for other in (one, four)]
    return [name_of(problem), "/".join(map(str, sets)), len(took["one"]), *map(seconds, (one, four, ours)), *ratios, *map(seconds, middles)]


class Watched(spread_run.Silent):
    """Keeps what the tasks gave until there is an end."""


def given_twice(file, sets, processes, room, limit=None):
    """Seconds, and how many sets the tasks gave and how many of them were new, in one run."""
    evidence = os.path.join(room, "evidence")
    if os.path.exists(evidence):
        os.remove(evidence)
    watched = Watched()
    asked = spread_words.Words([file, "--evidence", evidence, "--sets", sets])
    begins = time.perf_counter()
    spread_run.run(asked, Limit(limit), show_of=lambda _: watched, engine_of=lambda text: Processes(processes, text, None))
    return time.perf_counter() - begins, watched.tasks.sets, watched.tasks.new


def table_of_twice(given, problems, folder, room):
    counts = (1, 2, 4, 8)
    put_head(["problem", *(f"{count}: seconds, new a second, found twice" for count in counts)])
    os.environ["GMUS"] = given.program
    for problem in problems:
        if problem.kind == "hard" and problem.limit != "-" and not given.has_ended():
            file = file_of(problem, folder)
            problem = probed(given, problem, file, room) if given.longest else problem
            put([name_of(problem), *(cell_of_twice(given, problem, file, count, room) for count in counts)])


def cell_of_twice(given, problem, file, count, room):
    """What so many processes give, in the quickest of the rounds."""
    if given.has_ended():
        return ""
    rounds = 1 if given.longest else given.rounds
    took, sets, new = min(given_twice(file, problem.limit, count, room, given.longest) for _ in range(rounds))
    return f"{took:.1f}, {new / took:.0f}, {100 * (1 - new / max(1, sets)):.0f} %"


def table_of_coordinator(given, problems, folder, room):
    put_head(["problem", "records", "bytes in a batch", "bytes in the file", "checked a second", "taken a second", "written a second",
              "all a second", "found by a process a second", "processes on which it waits"])
    os.environ["GMUS"] = given.program
    for problem in problems:
        if problem.kind == "hard" and problem.limit != "-" and not given.has_ended():
            file = file_of(problem, folder)
            with open(file, "rb") as held:
                text = plain(held.read())
            begins, batches = time.perf_counter(), []
            for number in range(4 if given.longest else 8):
                batches.append(answer_of(perform(Order(number, FRESH, 4, 1000, 0), text, [], room, lambda: False)).batch)
            finding = time.perf_counter() - begins
            put([name_of(problem), *coordinated(file, text, batches, room, finding)])


def coordinated(file, text, batches, room, finding):
    """What one coordinator takes for these batches."""
    found, judge, evidence = Found(sizes_of(text)), Judge(file, room), Evidence(os.path.join(room, "kept"))
    took, records = [0.0, 0.0, 0.0], 0
    for batch in batches:
        begins = time.perf_counter()
        verdict = judge.judge(None, batch)
        checked = time.perf_counter()
        found.add(verdict.texts)
        taken = time.perf_counter()
        evidence.keep_all(found)
        for at, spent in enumerate((checked - begins, taken - checked, time.perf_counter() - taken)):
            took[at] += spent
        records += len(verdict.texts)
    judge.close()
    evidence.close()
    size = os.path.getsize(evidence.place)
    os.remove(evidence.place)
    every, a_process = records / sum(took), records / finding
    return [records, sum(map(len, batches)) // records, size // max(1, len(found)), *(f"{records / it:,.0f}" for it in took), f"{every:,.0f}",
            f"{a_process:,.0f}", f"{every / a_process:.0f}"]


def table_of_all(given, problems, folder, room):
    """All tables, each within its part of the time."""
    begins, given.longest = time.monotonic(), MOST * PROBE
    for name, share in SHARES.items():
        # what was begun by then still ends within the part
        given.has_ended = lambda until=begins + 60 * given.minutes * share - 2 * given.longest: time.monotonic() >= until
        print(f"\n### {name}\n", flush=True)
        TABLES[name](given, [it for it in problems if name == "clock" or f"{it.family} {it.size} {it.seed}" in FEW], folder, room)
    print(f"\nAll took {time.monotonic() - begins:.0f} s.")


TABLES = {"clock": table_of_clocks, "twice": table_of_twice, "coordinator": table_of_coordinator}


def main():
    words = argparse.ArgumentParser(description=__doc__, formatter_class=argparse.RawDescriptionHelpFormatter)
    words.add_argument("program", metavar="PROGRAM", help="gmus")
    words.add_argument("--table", choices=TABLES, default="clock")
    words.add_argument("--all", action="store_true", help="all tables, in so many minutes")
    words.add_argument("--minutes", type=float, default=15, metavar="M")
    words.add_argument("--rounds", type=int, default=3, metavar="N")
    words.add_argument("--processes", type=int, default=4, metavar="N")
    words.add_argument("--only", metavar="WORD", help="problems of this kind (hard, whole, other) or family")
    words.add_argument("--with", dest="engine", choices=("processes", "dask", "mpi"), default="processes")
    words.add_argument("--python", default="/usr/bin/python3")
    words.add_argument("--folder", metavar="FOLDER", help="where problems are kept, and looked for")
    given = words.parse_args()
    given.program, given.longest, given.has_ended = os.path.abspath(given.program), None, lambda: False
    problems = [problem for problem in PROBLEMS if given.only in (None, problem.kind, problem.family)]
    if not problems or given.rounds < 1 or not os.access(given.program, os.X_OK):
        words.error("nothing to run")
    print(f"{platform.machine()}, {os.cpu_count()} processors, {datetime.date.today()}, load {os.getloadavg()[0]:.1f} at the start; "
          f"{given.rounds} rounds.\n", flush=True)
    with tempfile.TemporaryDirectory(prefix="gmus-spread-cost-") as room:
        if given.folder:
            os.makedirs(given.folder, exist_ok=True)
        (table_of_all if given.all else TABLES[given.table])(given, problems, given.folder or room, room)


if __name__ == "__main__":
    main()
