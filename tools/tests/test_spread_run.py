#!/usr/bin/env python3
"""Tests of spread.py as a whole, over the plain program of oracles/plain_gmus.py, and over the built one if it is there: how a run
ends, and what becomes of machines that lie, die or never answer, of a coordinator that is killed, and of a full disk."""
import concurrent.futures
import glob
import os
import re
import shutil
import signal
import subprocess
import sys
import tempfile
import threading
import time
import unittest

from places import TOOLS, TOP
import gmus_tools
from gmus_tools.command import Refused, WrongWords
from gmus_tools.evidence import check_evidence
from gmus_tools.spreading import run as spread_run, tasks as spread_tasks
from gmus_tools.spreading.evidence import Evidence
from gmus_tools.spreading.left import take_away_files, take_away_folders
from gmus_tools.spreading.processes import Processes
from gmus_tools.spreading.records import records_in
from gmus_tools.spreading.task import perform
from gmus_tools.spreading.words import Words
from oracles import plain_gmus
from plain_program import PLAIN
from test_spread_task import BUILT, pairs

TEXT = pairs(5)
PROBLEM = check_evidence.Problem(TEXT)
EVERY = 5 + 32
# what is never there
NEVER = "/dev/null/never"


class Room(unittest.TestCase):
    def setUp(self):
        self.room = os.path.realpath(tempfile.mkdtemp())
        self.addCleanup(shutil.rmtree, self.room)
        self.before = {name: os.environ.get(name) for name in ("GMUS", "PLAIN_PAUSE", "OWN_WAITS", "TMPDIR")}
        self.addCleanup(self.put_back)
        os.environ["GMUS"] = PLAIN
        os.mkdir(self.at("tasks"))
        self.write("f", TEXT)

    def put_back(self):
        for name, value in self.before.items():
            os.environ.pop(name, None)
            if value is not None:
                os.environ[name] = value

    def at(self, name):
        return os.path.join(self.room, name)

    def write(self, name, text):
        with open(self.at(name), "w") as file:
            file.write(text)

    def read(self, name):
        with open(self.at(name), "rb") as file:
            return file.read()

    def files(self):
        return sorted(os.listdir(self.room))

    def sets(self, name="e"):
        """The sets of evidence; it is refused with an error."""
        _, sets = check_evidence.check(PROBLEM, self.read(name))
        return {(kind, *groups) for kind in sets for groups in sets[kind]}

    def report(self, is_whole=True):
        listing = plain_gmus.Listing(PROBLEM)
        listing.records = [((kind, groups), []) for kind, groups in plain_gmus.sets_of(PROBLEM)]
        return listing.report(is_whole)


class Telling(spread_run.Silent):
    """Keeps what it is told. With a name the first line makes a file of that name."""

    def __init__(self, told=None):
        self.lines, self.told = [], told

    def tell(self, line, kind=None):
        self.lines.append(line)
        if self.told is not None:
            open(self.told, "w", encoding="utf-8").close()


class Machines:
    """Threads in the place of machines, each of which does orders in its own way."""

    lost, gone, is_local, page = (ConnectionError,), "all machines are gone", False, None

    def __init__(self, text, ways):
        self.text, self.ways, self.told, self.is_held, self.renewals = text, ways, [], False, 0
        self.free, self.lock = list(ways), threading.Lock()
        self.pool = concurrent.futures.ThreadPoolExecutor(len(ways))

    def slots(self):
        return len(self.ways)

    def tell(self, texts):
        self.told += texts

    def submit(self, order):
        return self.pool.submit(self.do, order, list(self.told))

    def do(self, order, told):
        with self.lock:
            way = self.free.pop(0)
        try:
            return way(order, self.text, told, lambda: self.is_held)
        finally:
            with self.lock:
                self.free.append(way)

    def renew(self):
        self.renewals += 1
        return True

    def hold(self, is_held):
        self.is_held = is_held

    def stop(self, futures):
        self.is_held = True
        concurrent.futures.wait(futures, 10)
        self.pool.shutdown(wait=False)


def honest(order, text, told, is_stopped):
    """Does some of it, so that it answers soon."""
    return perform(order._replace(sets=3), text, told, None, is_stopped)


def lying(*given):
    """A witness that makes nothing true, in the place of the first one."""
    head, _, batch = honest(*given).partition(b"\n")
    lines = batch.split(b"\n")
    at = next((at for at, line in enumerate(lines) if line.startswith(b"w ")), None)
    if at is not None:
        lines[at] = b"w " + lines[at].split(b" ")[1] + b" 1 2 3 4 5 0"
    return head.replace(b'"host": "', b'"host": "liar-\\u001b[2J') + b"\n" + b"\n".join(lines)


class Coordinated(Room):
    """Runs with machines that are played here."""

    def run_with(self, *ways, words=(), show=None, own_waits=False):
        """How it ended and what it told. The coordinator's own run may have to wait until something was told."""
        show = show or Telling(self.at("told"))
        if own_waits:
            os.environ["OWN_WAITS"] = self.at("told")
        os.environ["TMPDIR"] = self.at("tasks")
        tempfile.tempdir = None
        self.addCleanup(setattr, tempfile, "tempdir", None)
        asked = Words([self.at("f"), "--evidence", self.at("e"), "--report", self.at("r"), *words])
        ended = spread_run.run(asked, show_of=lambda _: show, engine_of=lambda text: Machines(text, ways))
        return ended, show

    def test_a_machine_that_lies_is_named_and_nothing_of_it_counts(self):
        os.environ["PLAIN_PAUSE"] = "0.02"
        ended, show = self.run_with(lying, honest, own_waits=True)
        self.assertEqual((ended.status, self.read("r").decode()), (0, self.report()))
        refused = [line for line in show.lines if line.startswith("liar-")]
        self.assertRegex(refused[0], r"^liar-\ufffd\[2J\S+, task [0-9]+: refused: gmus: evidence refused: line [0-9]+: 18 WitnessFails$")
        self.assertEqual([line for line in show.lines if not line.startswith("liar-")], [])
        # none but liars: the coordinator's own run finds all
        os.remove(self.at("e"))
        ended, show = self.run_with(lying)
        self.assertEqual((ended.status, self.read("r").decode()), (0, self.report()))

    def test_machines_that_talk_nonsense(self):
        head = b'{"host": "a", "status": %s, "fault": %s, "sets": 3}\n'
        told = []
        for held, wanted in ((None, ": this is no answer"), (b"x" * 100000, ": this is no answer"),
                             (head % (b"4", b"null") + b"u 1 0\n", "a: refused: gmus: evidence refused: line 1: 1 BadLine"),
                             (head % (b"4", b"null") + b"p gmev 2 5 10 9\ne partial\n", "a: refused: gmus: evidence refused: line 1: 4 OtherProblem"),
                             (head % (b"0", b"null"), None), (head % (b"8", b'"gmus: out of memory"'), "a: gmus: out of memory")):
            os.environ["PLAIN_PAUSE"] = "0.02"
            ended, show = self.run_with(lambda *_: held, own_waits=wanted is not None)
            self.assertEqual((ended.status, self.read("r").decode()), (0, self.report()), held)
            self.assertEqual({re.sub("(, )?task [0-9]+", "", line) for line in show.lines}, set() if wanted is None else {wanted}, held)
            os.remove(self.at("e"))
            os.environ.pop("OWN_WAITS", None)
            if wanted is not None:
                os.remove(self.at("told"))

    def test_an_engine_that_is_gone_is_renewed_and_its_tasks_are_done_again(self):
        os.environ["OWN_WAITS"] = self.at("third")
        numbers = []

        def goes_at_first(order, *given):
            numbers.append(order.number)
            if len(numbers) < 3:
                raise ConnectionError("gone")
            self.write("third", "")
            return honest(order, *given)

        ended, show = self.run_with(goes_at_first)
        self.assertEqual((ended.status, self.read("r").decode()), (0, self.report()))
        self.assertEqual([line.split(",")[0] for line in show.lines], ["all machines are gone"] * 2)
        self.assertEqual(numbers[:1] * 3, numbers[:3])

    def test_for_a_machine_that_never_answers_nobody_waits(self):
        def never(*given):
            while not given[-1]():
                time.sleep(0.05)

        for name, value in (("PATIENCE", 0.3), ("MORE", 0.1)):
            self.addCleanup(setattr, spread_tasks, name, getattr(spread_tasks, name))
            setattr(spread_tasks, name, value)
        began = time.monotonic()
        ended, show = self.run_with(never, own_waits=True)
        self.assertEqual((ended.status, self.read("r").decode()), (0, self.report()))
        self.assertRegex(show.lines[0], r"^task [0-9]+: no answer in its time$")
        self.assertLess(time.monotonic() - began, 50)

    def test_a_file_that_another_run_writes_is_left(self):
        os.environ["PLAIN_PAUSE"] = "0.05"

        class Writes(Telling):
            def look(it):
                if it.tasks is not None and os.path.exists(self.at("e")) and not os.path.exists(self.at("e2")):
                    self.write("e2", "x")
                    os.replace(self.at("e2"), self.at("e"))
                    self.write("e2", "x")

        with self.assertRaises(Refused) as refused:
            self.run_with(honest, show=Writes())
        self.assertIn("another run wrote it meanwhile", str(refused.exception))
        left, = (name for name in self.files() if name.startswith("e."))
        self.assertIn(self.at(left), str(refused.exception))
        self.assertEqual(self.read("e"), b"x")
        self.assertTrue(self.sets(left))


class Runs(Room):
    """Runs of the tool itself. `own_waits` names the file for which the coordinator's own run waits."""

    TOOL = [os.path.join(TOOLS, "spread.py")]

    def start(self, *words, pause=None, before=(), processes="2", program=PLAIN, own_waits="", tool=None):
        environment = {**os.environ, "GMUS": program, "PLAIN_PAUSE": str(pause or 0), "OWN_WAITS": own_waits, "PYTHONPATH": TOOLS}
        places = ["f", "--evidence", "e", "--journal", "tasks", *([] if processes is None else ["--processes", processes])]
        return subprocess.Popen([*before, sys.executable, *(tool or self.TOOL), *places, *words], cwd=self.room,
                                env=environment, stdin=subprocess.DEVNULL, stdout=subprocess.PIPE, stderr=subprocess.PIPE, universal_newlines=True)

    def spread(self, *words, **how):
        child = self.start(*words, **how)
        output, said = child.communicate(timeout=120)
        return child.returncode, output, said

    def until(self, holds, seconds=60):
        """Waits until something holds."""
        ends = time.monotonic() + seconds
        while not holds():
            self.assertLess(time.monotonic(), ends)
            time.sleep(0.02)

    def processes(self):
        return [int(name.rpartition("-")[2]) for name in glob.glob(self.at("tasks/gmus-spread-*/process-*"))]

    def is_whole(self):
        """Whether there is evidence, which is whole as it always has to be."""
        return os.path.exists(self.at("e")) and bool(self.sets())


class Whole(Runs):
    def test_a_whole_list(self):
        status, output, said = self.spread("--report", "r", "--html", "page.html")
        self.assertEqual((status, said), (0, ""))
        self.assertEqual(self.read("r").decode(), self.report())
        self.assertTrue(self.read("e").endswith(b"\ne complete\n"))
        self.assertEqual(len(self.sets()), EVERY)
        self.assertTrue(output.endswith(f"e has {EVERY} sets. To read them: {PLAIN} check f e | {TOOLS}/names.py f\n"), output)
        page = re.sub("<[^>]*>", "", self.read("page.html").decode())
        self.assertTrue("5 conflicts and 32 corrections. The report is complete" in page, "the page has other counts")
        self.assertEqual((self.files(), os.listdir(self.at("tasks"))), (["e", "f", "page.html", "r", "tasks"], []))
        # it goes on from there, and nothing is left to do
        self.assertEqual(self.spread("--report", "r2")[0], 0)
        self.assertEqual(self.read("r2").decode(), self.report())

    def test_so_many_sets_and_more(self):
        status, output, said = self.spread("--report", "r", "--sets", "9", pause=0.1, own_waits=NEVER)
        self.assertEqual(status, 4, said)
        found = self.sets()
        self.assertTrue(9 <= len(found) < EVERY)
        self.assertEqual(said, f"spread.py: {len(found)} sets are there, and 9 were wanted\n")
        report = self.read("r").decode()
        self.assertTrue(report.startswith("p gmus 10\ns PARTIAL\n"))
        self.assertEqual(len(report.split("\n")) - 4, len(found))
        self.assertIn(" --sets 18 ", output.split("\n")[-2])
        texts = records_in(self.read("e"))
        status, _, said = self.spread("--sets", str(len(found)), own_waits=NEVER)
        self.assertEqual((status, records_in(self.read("e"))), (4, texts))
        status, _, _ = self.spread("--sets", str(len(found) + 1), pause=0.05, own_waits=NEVER)
        self.assertIn(status, (0, 4))
        self.assertLess(found, self.sets())


class Broken(Runs):
    def test_an_interrupt_keeps_what_is_there(self):
        for number in (signal.SIGINT, signal.SIGTERM):
            child = self.start("--report", "r", pause=0.05, own_waits=NEVER)
            self.until(lambda: self.is_whole() and len(self.processes()) == 2)
            child.send_signal(number)
            output, said = child.communicate(timeout=60)
            self.assertEqual((child.returncode, said), (128 + number, ""))
            self.assertRegex(output, rf"To go on: {TOOLS}/spread.py f --evidence e --report r --processes 2 --journal tasks\n$")
            self.assertIn(b"s PARTIAL", self.read("r"))
            self.assertEqual((self.files(), os.listdir(self.at("tasks"))), (["e", "f", "r", "tasks"], []))
        kept = self.sets()
        self.assertEqual(self.spread("--report", "r")[0], 0)
        self.assertLessEqual(kept, self.sets())
        self.assertEqual(self.read("r").decode(), self.report())

    def test_a_killed_coordinator_loses_nothing_and_leaves_nothing_running(self):
        child = self.start(pause=0.05, own_waits=NEVER)
        self.addCleanup(child.communicate)
        self.until(lambda: self.is_whole() and len(self.processes()) == 2)
        texts, processes = records_in(self.read("e")), self.processes()
        child.kill()
        self.until(lambda: not any(os.path.exists(f"/proc/{it}") for it in processes))
        self.until(lambda: not glob.glob(self.at("tasks/gmus-spread-*/process-*")))
        self.assertEqual(records_in(self.read("e"))[:len(texts)], texts)
        child.communicate()
        self.assertTrue(os.listdir(self.at("tasks")))
        self.write(f"e.spread-{child.pid}.own", "")
        self.assertEqual(self.spread("--report", "r")[0], 0)
        self.assertEqual(self.read("r").decode(), self.report())
        self.assertEqual((self.files(), os.listdir(self.at("tasks"))), (["e", "f", "r", "tasks"], []))

    def test_a_process_that_dies_is_replaced(self):
        child = self.start("--report", "r", pause=0.05, own_waits=self.at("told"))
        self.until(lambda: len(self.processes()) == 2)
        os.kill(self.processes()[0], signal.SIGKILL)
        said = child.stderr.readline()
        self.write("told", "")
        _, more = child.communicate(timeout=60)
        said += more
        self.assertEqual((child.returncode, self.read("r").decode()), (0, self.report()))
        self.assertTrue(said.startswith("spread.py: the processes of the pool are gone, and what they did is done again"), said)

    def test_a_full_disk_takes_nothing_away(self):
        self.assertEqual(self.spread("--sets", "9", pause=0.1, own_waits=NEVER)[0], 4)
        held = self.read("e")
        # no file may grow beyond half of a whole list's evidence
        room = len(held) // 512 + 2
        status, _, said = self.spread("--report", "r", before=["/bin/sh", "-c", f'ulimit -f {room}; exec "$@"', "sh"])
        self.assertIn(status, (7, 9, 128 + signal.SIGXFSZ), said)
        self.assertTrue(said)
        self.assertLessEqual({*records_in(held)}, {*records_in(self.read("e"))})
        if os.path.exists(self.at("r")):
            self.assertEqual(len(self.read("r").split(b"\n")) - 4, len(self.sets()))
        self.assertEqual(os.listdir(self.at("tasks")), [])


# of three failures in a row it rests behind two
QUICK = "from gmus_tools.spreading import own; own.REST = 0.1; from gmus_tools.commands.spread import as_command; as_command()"


class Refusals(Runs):
    def test_a_program_that_writes_another_version_of_evidence(self):
        self.write("program", f"""#!/bin/sh
case $1 in check) exec {PLAIN} "$@" ;; esac
{PLAIN} "$@" --conflicts 1 --limit 99
for name; do
    case $name in *.own | */new) sed -i 's/^p gmev 2/p gmev 3/' "$name" ;; esac
done
exit 3
""")
        os.chmod(self.at("program"), 0o700)
        status, _, said = self.spread("--report", "r", program=self.at("program"), tool=["-c", QUICK])
        self.assertEqual(status, 1, said)
        self.assertTrue(said.endswith("its own run fails: this is no evidence of version 1 or 2: p gmev 3 5 10 10\n"), said)
        # what the tasks found is kept: their journals have no version
        self.assertTrue(self.sets())
        self.assertIn(b"s PARTIAL", self.read("r"))

    def test_a_program_that_ends_with_0_and_writes_no_report(self):
        self.assertEqual(self.spread("--sets", "9", pause=0.1, own_waits=NEVER)[0], 4)
        kept = records_in(self.read("e"))
        fault = "spread.py: gmus check ended with 0, and what it wrote is no report\n"
        # what was there is not looked at, or each run of its own ends so: behind a whole listing, with evidence and without any
        nothing, report = "check) exit 0 ;; list)", f"check) exec {PLAIN} \"$@\" ;; list)"
        empty = "for name; do case $name in *.own) : > \"$name\" ;; esac; done"
        own = "spread.py: its own run fails: the program ended with 0, and left no whole report with whole evidence\n"
        for asked, then, wanted in (
                (nothing, "", fault), ("check) echo p gmus 10; exit 0 ;; list)", "", fault), (report, "", own),
                (report, f"{PLAIN} \"$@\" > /dev/null", own), (report, f"{PLAIN} \"$@\"; {empty}", own),
                (report, f"{PLAIN} \"$@\" | head -n 3", own)):
            # a task lists too, and finds what it finds
            self.write("program", f"#!/bin/sh\ncase $1 in\n{asked} case \"$*\" in *.own*) {then or ':'} ;; *) exec {PLAIN} \"$@\" ;; esac ;;\nesac\n")
            os.chmod(self.at("program"), 0o700)
            status, _, said = self.spread("--report", "r", program=self.at("program"), tool=["-c", QUICK])
            self.assertEqual((status, said[-len(wanted):]), (1, wanted), said)
            self.assertNotIn("Traceback", said)
            self.assertLessEqual({*kept}, {*records_in(self.read("e"))})
            self.assertEqual((os.path.exists(self.at("r")), os.listdir(self.at("tasks"))), (wanted == own, []))

    def test_what_is_refused_at_the_beginning(self):
        for file, evidence, status, wanted in (("p gcnf x", None, 5, "gmus: input refused: "), (None, None, 6, "gmus: read fault on input\n"),
                                               (TEXT, "x", 9, "gmus: evidence refused: line 1: "),
                                               (TEXT, "p gmev 2 4 8 8\ne partial\n", 9, "gmus: evidence refused: line 1: 4 OtherProblem\n")):
            for name, text in (("f", file), ("e", evidence)):
                if text is not None:
                    self.write(name, text)
                elif os.path.exists(self.at(name)):
                    os.remove(self.at(name))
            ended, output, said = self.spread("--report", "r")
            self.assertEqual((ended, output), (status, ""), said)
            self.assertTrue(said.startswith(wanted), said)
            if evidence is not None:
                self.assertEqual(self.read("e").decode(), evidence)
            self.assertEqual((os.path.exists(self.at("r")), os.listdir(self.at("tasks"))), (False, []))

    def test_the_library_raises_the_line_that_programs_read_and_what_stands_behind_it(self):
        with self.assertRaises(gmus_tools.ReadFault) as raised:
            gmus_tools.spread(self.at("no"), self.at("e"))
        detail = f"{self.at('no')}: No such file or directory"
        self.assertEqual((str(raised.exception), raised.exception.on, raised.exception.detail), ("read fault on input: " + detail, "input", detail))
        with self.assertRaises(gmus_tools.SpreadRefused) as raised:
            gmus_tools.spread(self.at("f"), self.at("f"))
        self.assertIn("two of these are one file", str(raised.exception))
        for given, kind in ((None, gmus_tools.BadArgument), (self.at("e"), gmus_tools.BadWords)):
            with self.assertRaises(kind):
                gmus_tools.spread(self.at("f"), given, sets=0)

    def test_what_a_killed_run_left_beside_its_evidence_is_taken_away(self):
        evidence = Evidence(self.at("e"))
        own, other = f"e.spread-{os.getpid()}.own", f"e.spread-{os.getpid()}1.own"
        for name in (".e.gmus-7", f".{own}.gmus-7", f".{other}.gmus-7", own):
            self.write(name, "")
        evidence.sweep()
        self.assertEqual(self.files(), sorted([".e.gmus-7", f".{other}.gmus-7", own, "f", "tasks"]))
        evidence.close()
        self.assertEqual(self.files(), sorted([".e.gmus-7", f".{other}.gmus-7", "f", "tasks"]))

    def test_only_what_dead_coordinators_left_is_taken_away_by_others(self):
        ended = subprocess.Popen(["true"])
        ended.wait()
        dead, alive = ended.pid, os.getppid()
        gone = [f"e.spread-{dead}.new", f"e.spread-{dead}.own", f".e.spread-{dead}.own.gmus-7"]
        stays = [f"e.spread-{dead}.found", f"e.spread-{alive}.own", f"e.spread-{os.getpid()}.new", f"e2.spread-{dead}.own", f"e.{dead}.own",
                 f".e.spread-{alive}.own.gmus-{dead}", f"e.spread-{dead}.own.gmus-7", "e.spread-.own", "e.spread-9999999999.own.x", "e"]
        for name in gone + stays:
            self.write(name, "")
        take_away_files(self.at("e"))
        self.assertEqual(self.files(), sorted([*stays, "f", "tasks"]))
        folders = [f"gmus-spread-{dead}-abc_1234", f"gmus-spread-{alive}-abc_1234", "gmus-spread-abcdefgh", f"gmus-task-{dead}-abcdefgh"]
        for name in folders:
            os.makedirs(self.at(f"tasks/{name}/inside"))
        self.write(f"tasks/gmus-spread-{dead}-file", "")
        os.symlink(self.at("tasks"), self.at(f"tasks/gmus-spread-{dead}-link"))
        take_away_folders(self.at("tasks"))
        self.assertEqual(sorted(os.listdir(self.at("tasks"))), sorted([*folders[1:], f"gmus-spread-{dead}-file", f"gmus-spread-{dead}-link"]))
        take_away_folders(self.at("no"))

    def test_wrong_words_and_places(self):
        file = self.at("f")
        for words, kind, wanted in (
                ([], WrongWords, "a FILE and --evidence have to be named"),
                ([file], WrongWords, "a FILE and --evidence have to be named"),
                ([file, "--evidence"], WrongWords, "--evidence has nothing behind it"),
                ([file, "--evidence", "a", "--evidence=b"], WrongWords, "--evidence stands twice"),
                ([file, "x", "--evidence", "a"], WrongWords, "x can't stand here"),
                ([file, "--evidence", "a", "--jobs", "2"], WrongWords, "--jobs can't stand here"),
                ([file, "--evidence", "a", "--sets", "0"], WrongWords, "--sets 0: a number from 1 to 1000000000 has to stand here"),
                ([file, "--evidence", "a", "--processes=-1"], WrongWords, "--processes -1: a number from 1 to 1024 has to stand here"),
                ([file, "--evidence", "a", "--round", "1.5"], WrongWords, "--round 1.5: a number from 1 to 86400 has to stand here"),
                ([file, "--evidence", "a", "--processes", "2", "--mpi"], WrongWords, "only one of --processes, --dask and --mpi"),
                ([file, "--evidence", file], Refused, f"{file}, {file}: two of these are one file"),
                ([file, "--evidence", self.at("a"), "--report", self.at("a")], Refused, f"{file}, {self.at('a')}, {self.at('a')}: two of"),
                ([file, "--evidence", self.at("no/a")], Refused, f"{self.at('no/a')}: its folder is not there"),
                ([file, "--evidence", "/dev/null"], Refused, "/dev/null: this is no plain file"),
                ([file, "--evidence", self.at("a"), "--journal", file], Refused, f"{file}: this is no folder"),
        ):
            with self.assertRaises(kind, msg=words) as refused:
                Words(words)
            self.assertTrue(str(refused.exception).startswith(wanted), (words, str(refused.exception)))


class Pools(Room):
    def test_a_process_that_hangs_is_killed_with_its_pool(self):
        engine = Processes(1, TEXT.encode(), self.at("tasks"))
        first, = (engine.pool.submit(os.getpid) for _ in range(1))
        pid = first.result(30)
        os.kill(pid, signal.SIGSTOP)
        self.assertTrue(engine.renew())
        self.assertNotEqual(engine.pool.submit(os.getpid).result(30), pid)
        self.assertFalse(os.path.exists(f"/proc/{pid}"))
        engine.stop([])
        self.assertEqual(os.listdir(self.at("tasks")), [])


@unittest.skipUnless(os.access(BUILT, os.X_OK), f"the program is not built: {BUILT}")
class Built(Room):
    def test_the_program_lists_by_tasks(self):
        for name in ("adder", "laptop", "meeting"):
            file = glob.glob(os.path.join(TOP, "examples", name + ".*cnf"))[0]
            ended = subprocess.run([sys.executable, os.path.join(TOOLS, "spread.py"), file, "--evidence", "e-" + name, "--report", "r"],
                                   cwd=self.room, env={**os.environ, "GMUS": BUILT}, stdout=subprocess.PIPE, stderr=subprocess.PIPE)
            self.assertEqual((ended.returncode, ended.stderr), (0, b""))
            with open(os.path.join(TOP, "examples", name + ".report"), "rb") as wanted:
                self.assertEqual(self.read("r"), wanted.read())
            checked = subprocess.run([BUILT, "check", file, "e-" + name], cwd=self.room, stdout=subprocess.PIPE)
            self.assertEqual((checked.returncode, checked.stdout), (0, self.read("r")))


if __name__ == "__main__":
    unittest.main()
