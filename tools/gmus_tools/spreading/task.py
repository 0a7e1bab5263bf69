"""A task: one run of the program on a machine, over the file under numbers of its own.

An order says what is to be done, and the answer is bytes alone: a line of JSON, and behind it a batch of records in the file's
own numbers. Nobody has to believe it. A task writes to a folder of its own, which is gone when it has answered, and whatever
goes wrong is told in the answer.
"""
import json
import os
import shutil
import socket
import tempfile
import time
from collections import namedtuple

from gmus_tools import program
from gmus_tools.evidence import journal
from gmus_tools.leash import Leashed
from gmus_tools.spreading.batch import Known, TooLong, batch_of, in_full
from gmus_tools.spreading.numbering import Numbering, sizes_of
from gmus_tools.spreading.records import evidence_of, record_of, records_in

# How a run begins: without anything, from a journal of what is known, or from evidence of it. With a journal it can be stopped
# at any moment; from evidence it begins sooner, since a correction there names conflicts, but gives nothing if it is stopped.
FRESH, JOURNAL, EVIDENCE = "fresh", "journal", "evidence"
# What one task is to do: under which numbers, how it begins, for how long, up to how many new sets, and how many records it is
# told.
Order = namedtuple("Order", "number how seconds sets told")
# What came back: which machine says so, how the program ended, what is wrong, how many sets it found, and the batch of them,
# which may have conflicts besides that were known.
Answer = namedtuple("Answer", "host status fault sets batch")

LOOK = 0.1
# If a task has found nothing at its time, it has so many times that in all.
MORE = 16
# So many bytes of a journal can be mapped in a second, and no journal gets much longer than this many: in one a correction of 1,000
# groups has 1,000 refutations, each of which may have 100 MB.
BYTES, LONGEST = 2 ** 25, 2 ** 27
LONGEST_HEAD = 10000
MEMORY, ROOM = "/dev/shm", 2 ** 30
GIVEN = (program.DONE, program.LIMIT_REACHED)
HOST = socket.gethostname()


def place(where):
    """The folder for the folders of tasks: the one that is named, or one in memory if there is room, where syncs cost nothing. What
    lies there need not outlive the machine."""
    if where is None and os.access(MEMORY, os.W_OK | os.X_OK):
        held = os.statvfs(MEMORY)
        if held.f_bavail * held.f_frsize >= ROOM:
            return MEMORY
    return where


class Nonsense(Exception):
    """Why bytes are no answer."""


def perform(order, text, told, where, is_stopped):
    """Does what an order says, and gives the answer. `text` is the plain text of the problem, `told` has the records that are
    known, in their order, and `where` is the folder for the folders of tasks."""
    status, fault, sets, batch = None, None, 0, b""
    try:
        folder = tempfile.mkdtemp(prefix="gmus-task-", dir=place(where))
        try:
            status, fault, sets, batch = Task(order, text, told[:order.told], folder).run(is_stopped)
        except TooLong:
            # then it is no use, and other choices will do
            pass
        finally:
            shutil.rmtree(folder, ignore_errors=True)
    except Exception as error:  # whatever it is, only an answer tells of it
        fault = f"{type(error).__name__}: {error}"
    head = {"host": HOST, "status": status, "fault": fault, "sets": sets}
    return json.dumps(head).encode() + b"\n" + batch


def answer_of(held):
    """The answer that these bytes are."""
    if not isinstance(held, bytes) or b"\n" not in held[:LONGEST_HEAD]:
        raise Nonsense("this is no answer")
    line, _, batch = held.partition(b"\n")
    try:
        head = json.loads(line)
        host, status, fault, sets = (head[key] for key in ("host", "status", "fault", "sets"))
        return Answer(str(host), None if status is None else int(status), None if fault is None else str(fault), int(sets), batch)
    except (ValueError, KeyError, TypeError, OverflowError, RecursionError):
        raise Nonsense("this is no answer") from None


class Task:
    """One order on this machine, in a folder of its own."""

    def __init__(self, order, text, told, folder):
        self.order, self.text, self.folder = order, text, folder
        self.sizes = sizes_of(text)
        self.told = told if order.how != FRESH else []
        self.numbering = Numbering(self.sizes, order.number)

    def at(self, name):
        return os.path.join(self.folder, name)

    def run(self, is_stopped):
        """The program's status, what is wrong, how many sets there are, and the batch."""
        self.write("file", self.numbering.text(self.text))
        words = ["list", self.at("file"), "--limit", str(len(self.told) + self.order.sets)]
        self.begun = b"\0"
        if self.order.how == EVIDENCE:
            self.write("told", evidence_of(self.sizes, self.told_there()))
            words += ["--resume", self.at("told"), "--evidence", self.at("new")]
        else:
            self.begun = journal.framed(in_full(self.told_there(), LONGEST))
            self.write("journal", self.begun)
            words += ["--journal", self.at("journal")]
        status, said = self.called(words, is_stopped)
        fault = None if status in GIVEN or status is None else said or f"the program ended with {status}"
        if self.order.how == EVIDENCE:
            new = records_in(self.read("new"))[len(self.told):] if status in GIVEN else []
        else:
            new = journal.texts_in(self.read("journal")[len(self.begun) - 1:])[0]
        if not new:
            return status, fault, 0, b""
        known = Known(self.told, self.numbering.there.groups)
        return status, fault, len(new), batch_of(self.sizes, new, known, self.numbering.back.record)

    def called(self, words, is_stopped):
        """Calls the program, and gives its status and its line on standard error, or None and nothing if it was stopped. It is
        stopped if it is told, and at its time; if it has not found anything by then, it has some time more."""
        child, begins = Leashed([program.command(), *words]), time.monotonic()
        try:
            while child.wait(LOOK) is None:
                took = (time.monotonic() - begins) / self.order.seconds
                if is_stopped() or took >= MORE or self.has_some() and (took >= 1 or self.has_much()):
                    return None, ""
            return child.status, child.said()
        finally:
            child.stop()

    def has_some(self):
        """Whether something new stands in the journal: the gate is open at which what is known ends."""
        if self.order.how == EVIDENCE:
            return False
        with open(self.at("journal"), "rb") as file:
            file.seek(len(self.begun) - 1)
            return file.read(1) == bytes([journal.OPEN])

    def has_much(self):
        """Whether the journal has got as long as can be mapped in about the time of the task."""
        return os.path.getsize(self.at("journal")) - len(self.begun) >= min(BYTES * self.order.seconds, LONGEST)

    def told_there(self):
        """What is known, under the task's numbers."""
        way = self.numbering.there
        return [way.record(record_of(text)).text() for text in self.told]

    def write(self, name, held):
        with open(self.at(name), "wb") as file:
            file.write(held)

    def read(self, name):
        with open(self.at(name), "rb") as file:
            return file.read()
