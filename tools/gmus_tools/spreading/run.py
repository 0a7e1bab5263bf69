"""The coordinator: it gives tasks, believes what the program has accepted, and ends once its own run says that all is found.

What is known stands in one file of evidence, which is whole at each moment: so the coordinator may be killed, and another one
goes on from there. What is under way lies in folders that are taken away with it.
"""
import os
import shutil
import signal
import time

from gmus_tools import program
from gmus_tools.command import Refused, here, write_whole
from gmus_tools.leash import BY_SIGNAL
from gmus_tools.report import COMPLETE, mark_of
from gmus_tools.spreading.batch import Known, batch_of
from gmus_tools.spreading.dask import Dask
from gmus_tools.spreading.evidence import Evidence
from gmus_tools.spreading.found import Found
from gmus_tools.spreading.judge import Judge
from gmus_tools.spreading.left import folder_in, take_away_files, take_away_folders
from gmus_tools.spreading.mpi import Mpi
from gmus_tools.spreading.numbering import plain, sizes_of
from gmus_tools.spreading.own import FAILURES, UNREAD, Own
from gmus_tools.spreading.processes import Processes
from gmus_tools.spreading.records import NoReading, evidence_of
from gmus_tools.spreading.task import place
from gmus_tools.spreading.tasks import Tasks

# So many seconds pass between two looks at what is under way, and so many do tasks have that are stopped.
LOOK, GRACE = 0.05, 5.0
# Whose batch it is that no task gave.
OWN = None
WRITE_FAULT = 7


class Silent:
    """Nobody is told, and nobody interrupts."""

    signal, count, tasks = None, 0, None

    def tell(self, line, kind=None):
        pass

    def look(self):
        pass

    def end(self, report):
        pass


class Ended(Exception):
    """The end of a run: its status, the line that tells of it, and the report if it is whole."""

    def __init__(self, status, line="", report=None):
        super().__init__(status, line)
        self.status, self.line, self.report = status, line, report


def engine_for(asked):
    """What makes the engine that was asked for, over a problem's plain text."""
    if asked.mpi:
        return lambda text: Mpi(text, asked.journal)
    if asked.dask is not None:
        return lambda text: Dask(asked.dask, text, asked.journal)
    return lambda text: Processes(asked.processes or max(1, processors() - 1), text, asked.journal)


def processors():
    """How many processors this process may use."""
    return len(os.sched_getaffinity(0))


def run(asked, interrupts=None, show_of=None, engine_of=None):
    """Runs until there is an end, and gives it. `show_of` makes what tells a person of what is found."""
    coordinator = Coordinator(asked, interrupts or Silent())
    try:
        return coordinator.run(engine_of or engine_for(asked), show_of or (lambda _: Silent()))
    except Ended as ended:
        return ended
    except OSError as error:
        return Ended(WRITE_FAULT, f"{here('spread.py')}: {error.filename or asked.evidence}: {error.strerror or error}")
    finally:
        coordinator.close()


class Coordinator:
    """One run over one file. `asked` has what was asked for, as spread_words.Words has it."""

    def __init__(self, asked, interrupts):
        self.asked, self.interrupts, self.show = asked, interrupts, Silent()
        for where in {asked.journal, place(asked.journal)}:
            take_away_folders(where)
        self.folder = folder_in(asked.journal)
        self.evidence = Evidence(asked.evidence)
        take_away_files(self.evidence.place)
        self.engine = self.judge = self.own = self.tasks = None

    def run(self, engine_of, show_of):
        """Runs until there is an end, and gives it."""
        try:
            self.begin()
            self.show = show_of(self)
            self.go(engine_of)
        except Ended as ended:
            self.finish(ended)
            return ended
        except KeyboardInterrupt:
            self.finish(Ended(BY_SIGNAL + signal.SIGINT))
            raise

    def begin(self):
        """Has the program judge what was given, and takes what is known already."""
        asked = self.asked
        try:
            with open(asked.file, "rb") as file:
                self.file_text = file.read()
            self.text = plain(self.file_text, asked.file)
        except (OSError, Refused):
            # the program tells what is wrong with it
            self.ask("check", asked.file, os.devnull)
            raise
        self.found = Found(sizes_of(self.text))
        nothing = os.path.join(self.folder, "nothing")
        with open(nothing, "wb") as file:
            file.write(evidence_of(self.found.sizes, []))
        report = self.ask("check", asked.file, nothing if self.evidence.seen is None else asked.evidence)
        if mark_of(report) == COMPLETE:
            raise Ended(program.DONE, report=report)
        if self.evidence.seen is not None:
            try:
                self.found.add(self.evidence.texts())
            except NoReading as why:
                raise Refused(f"{asked.evidence}: {why}") from None
        if self.has_enough():
            raise Ended(program.LIMIT_REACHED, report=report)

    def ask(self, *words):
        """The report that the program writes, if it ends with 0."""
        status, report, told = program.call(words)
        if status != program.DONE:
            raise Ended(status if status >= 0 else BY_SIGNAL - status, told.strip())
        if mark_of(report) is None:
            raise Ended(UNREAD, f"{here('spread.py')}: gmus {words[0]} ended with 0, and what it wrote is no report")
        return report

    def go(self, engine_of):
        """Goes on until there is an end, which is raised."""
        self.judge = Judge(self.asked.file, self.folder)
        self.own = Own(self.asked.file, self.evidence, self.folder)
        self.own.begin(1)
        self.engine = engine_of(self.text)
        self.tasks = self.show.tasks = Tasks(self.engine, self.judge, self.found, self.show.tell, self.asked.round)
        while True:
            if not self.is_held():
                self.tasks.give()
            self.tasks.take(LOOK)
            self.tasks.forget_late()
            self.believe()
            self.look_at_own()
            self.evidence.keep(self.found, self.own.waits)
            self.show.look()
            if self.interrupts.signal is not None:
                raise Ended(BY_SIGNAL + self.interrupts.signal)
            if self.has_enough():
                raise Ended(program.LIMIT_REACHED)

    def is_held(self):
        """Whether this machine is left to the coordinator's own run. Then its tasks are stopped."""
        is_held = self.engine.is_local and self.own.is_alone and self.own.is_under_way()
        if self.engine.is_local:
            self.engine.hold(is_held and bool(self.tasks.under_way))
        return is_held

    def believe(self):
        """Takes what the program has judged."""
        for verdict in self.judge.verdicts():
            if verdict.whose is not OWN:
                self.tasks.judged(verdict)
                continue
            self.own.is_judged = True
            if verdict.refusal is not None:
                self.show.tell(f"what its own run found was refused: {verdict.refusal}", verdict.refusal)
            elif self.found.add(verdict.texts):
                self.tasks.fruitless = 0

    def look_at_own(self):
        """Goes on with the coordinator's own run: with all processors of this machine, if tasks find nothing new."""
        status, texts = self.own.look()
        if status == program.DONE:
            raise self.whole()
        if texts:
            self.own.is_judged = False
            self.judge.ask(OWN, batch_of(self.found.sizes, texts, Known(self.found.texts)))
        if self.own.failures >= FAILURES:
            raise Ended(self.own.failed, f"{here('spread.py')}: its own run fails: {self.own.said}")
        if status is not None and self.own.failures:
            self.show.tell(f"its own run: {self.own.said}", self.own.said)
        is_fruitless = self.tasks.is_fruitless()
        if self.own.is_ready() or is_fruitless and self.own.is_under_way() and not self.own.is_alone:
            self.own.begin_from(len(self.found), processors() if is_fruitless else 1, is_fruitless)

    def whole(self):
        """The end with the evidence and the report of the coordinator's own run."""
        with open(self.own.report, "rb") as file:
            report = file.read().decode()
        self.evidence.settle()
        self.evidence.take(self.evidence.own)
        return Ended(program.DONE, report=report)

    def has_enough(self):
        return self.asked.sets is not None and len(self.found) >= self.asked.sets

    def finish(self, ended):
        """Keeps what there is, and the report of it."""
        if self.tasks is not None and ended.status != program.DONE:
            self.own.stop()
            self.stop_tasks()
            self.evidence.keep_all(self.found)
            if self.asked.report is not None or not self.interrupts.count:
                ended.report = self.ask("check", self.asked.file, self.asked.evidence)
        if ended.status == program.LIMIT_REACHED:
            ended.line = f"{here('spread.py')}: {len(self.found)} sets are there, and {self.asked.sets} were wanted"
        if ended.report is not None:
            self.show.end(ended.report)
            if self.asked.report is not None:
                write_whole(self.asked.report, ended.report.encode())

    def stop_tasks(self):
        """Stops all tasks, and takes what they have found."""
        self.engine.hold(True)
        until = time.monotonic() + GRACE
        while (self.tasks.under_way or self.judge.asked) and time.monotonic() < until and self.interrupts.count < 2:
            self.tasks.take(LOOK)
            self.believe()

    def close(self):
        """Ends all that runs, and takes its files away."""
        if self.engine is not None:
            self.engine.stop(self.tasks.under_way if self.tasks else {})
        if self.judge is not None:
            self.judge.close()
        if self.own is not None:
            self.own.stop()
        self.evidence.close()
        shutil.rmtree(self.folder, ignore_errors=True)
