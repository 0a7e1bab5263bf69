"""Lists the conflicts and the corrections of a file in rounds, and shows after each what was found.

    tools/watch.py FILE [--html PAGE] [-- WORDS]
    tools/watch.py FILE --journal NAME [--once] [--html PAGE] [--focus LIST]

The first round lists up to 20 sets, the next up to 40, then 80 and so on, until none is missing. After each round there are
the counts, the time and some of the newest sets with their names; with --html the PAGE is written anew.

The evidence of the sets is kept in FILE.evidence, or under the NAME of `-- --evidence NAME`, and each round goes on from it;
so does the first one, if it is there already. A round writes to a new name beside it, which takes its place once the round
has ended. So a stop at any moment leaves the whole evidence of the rounds before, and a line says how to go on. An interrupt
(Ctrl-C, TERM or HUP) ends the program too.

WORDS may be, as gmus has them:

--jobs J        how many workers share the search
--conflicts B   how many clauses each round may learn
--limit L       the limit of the last round; without it there is none
--evidence NAME
--focus LIST    the groups that the question is about

With --journal nothing is called. NAME is a journal of records (docs/FORMATS.md, 'The journal'), which another run writes by
`gmus list FILE --journal NAME`: it is read, never changed, and what it has is shown whenever it has more, with the sets a
minute since the first look, the newest ones and the groups in most conflicts; with --html the PAGE is then written anew. That
goes on until an interrupt; with --once it is shown once. A journal of another problem, or of other groups in focus than those
of LIST, is refused, and so is a file that is no journal.

The status at the end is the program's own, and its line stands on standard error: 0 if no set is missing, 3 if a round learnt
as many clauses as it may, 4 if the last limit was reached, and all others. It is 1 if watch.py refuses something, 2 if the
words have no reading, and 130, 143 or 129 after an interrupt.
"""
import os
import re
import shlex
import signal
import subprocess
import sys
import threading
import time

from gmus_tools import page, program
from gmus_tools.command import Refused, beside, bytes_of, here, remove, run, write_whole
from gmus_tools.report import decoded, named, number_of, origin_of
from gmus_tools.watch.journal import JournalWatch
from gmus_tools.watch.words import MOST, Words

AT_THE_LIMIT = re.compile(rb"gmus: limit of [0-9]+ records reached\n")
FIRST = 20
NEWEST, WIDTH = 3, 200
WITH_REPORT = (program.DONE, program.BUDGET_SPENT, program.LIMIT_REACHED)
# The program's other statuses with which going on may help: a write fault, want of memory, or an end by a signal.
WRITE_FAULT, NO_MEMORY, EVIDENCE_REFUSED, BY_SIGNAL = 7, 8, 9, 128


class Stop:
    """Notes an interrupt, and has it end the program that runs. Nothing else is broken off, so all files stay whole."""

    def __init__(self):
        self.signal, self.child = None, None
        for number in (signal.SIGINT, signal.SIGTERM, signal.SIGHUP):
            # What is ignored already, as HUP under nohup, stays so.
            if signal.getsignal(number) != signal.SIG_IGN:
                signal.signal(number, self.note)

    def note(self, number, _frame):
        # Who asks twice does not want to wait.
        if self.child and self.child.poll() is None:
            self.child.send_signal(signal.SIGTERM if self.signal is None else signal.SIGKILL)
        self.signal = number

    def follow(self, child):
        self.child = child
        if self.signal is not None:
            child.terminate()


class Said(threading.Thread):
    """Hands on what the program writes to standard error, but for the line at a limit: it counts for the last round alone."""

    def __init__(self, reads):
        super().__init__(daemon=True)
        self.reads, self.at_the_limit = reads, ""
        self.start()

    def run(self):
        with open(self.reads, "rb") as lines:
            for line in lines:
                if AT_THE_LIMIT.fullmatch(line):
                    self.at_the_limit = decoded(line)
                else:
                    tell(decoded(line))


def tell(line):
    """Writes a line to standard error, over the one on a terminal that tells of a round under way."""
    clear()
    print(line.rstrip("\n"), file=sys.stderr, flush=True)


def clear():
    if sys.stdout.isatty():
        print("\r\x1b[K", end="", flush=True)


def limits(known, last):
    """The limits of the rounds: above what is known already, and up to the last one."""
    limit = FIRST
    while limit <= known:
        limit *= 2
    while limit < last:
        yield limit
        limit *= 2
    yield last


def sets_in(evidence):
    """The lines of the sets that the evidence has, which need not be whole; none if it is not there."""
    try:
        with open(evidence, "rb") as source:
            return {line.rstrip(b"\n").decode("latin-1") for line in source if line[:2] in (b"u ", b"m ")}
    except FileNotFoundError:
        return set()


class Watch:
    """The rounds over one file."""

    def __init__(self, asked):
        self.asked, self.stop = asked, Stop()
        self.place = os.path.realpath(asked.evidence)
        self.new = f"{self.place}.{os.getpid()}.new"
        self.known = sets_in(asked.evidence)
        self.began = time.monotonic()
        self.origin = None

    def rounds(self):
        """Lists round by round, and gives the program's last status, and its line if the last limit was reached."""
        for limit in limits(len(self.known), self.asked.last):
            status, output, said = self.one_round(limit)
            if status in WITH_REPORT:
                self.keep(limit, decoded(output))
            if status != program.LIMIT_REACHED or limit == self.asked.last or self.stop.signal is not None:
                return status, said

    def one_round(self, limit):
        """Calls the program, and gives its status, what it wrote to standard output, and its line at the limit."""
        asked = self.asked
        words = ["list", "--limit", str(limit), "--evidence", self.new]
        words += ["--resume", asked.evidence] if os.path.exists(asked.evidence) else []
        for option, value in asked.options.items():
            words += [option, value]
        reads, writes = os.pipe()
        try:
            child = subprocess.Popen([program.command(), *words, "--", asked.file], stdin=subprocess.DEVNULL,
                                     stdout=subprocess.PIPE, stderr=writes)
        except OSError as error:
            raise Refused(f"the program can't be started: {program.command()}: {error.strerror}") from None
        finally:
            os.close(writes)
        self.stop.follow(child)
        said = Said(reads)
        output = self.output_of(child, limit)
        said.join(1)
        status = child.returncode
        # A run that is ended as it writes leaves that beside the name, under its own number.
        folder, last = os.path.split(self.new)
        remove(os.path.join(folder, f".{last}.gmus-{child.pid}"))
        return status if status >= 0 else BY_SIGNAL - status, output, said.at_the_limit

    def output_of(self, child, limit):
        """What the program writes to standard output until it has ended."""
        while True:
            try:
                return child.communicate(timeout=1)[0]
            except subprocess.TimeoutExpired:
                self.tick(limit)
            if self.stop.signal is not None and child.poll() is not None:
                # What it had begun may still hold its output open.
                return b""

    def tick(self, limit):
        """Tells on a terminal that a round is under way."""
        if sys.stdout.isatty():
            print(f"\r\x1b[Kup to {limit} sets: {self.seconds()}", end="", flush=True)

    def seconds(self):
        return f"{time.monotonic() - self.began:.1f} s"

    def keep(self, limit, output):
        """Has a round's evidence take the place of the one before, and shows what it found."""
        if self.origin is None:
            self.origin = origin_of(bytes_of(self.asked.file), self.asked.file, self.asked.focus)
        shown = named(self.origin, output)
        with open(self.new, "rb") as evidence:
            os.fsync(evidence.fileno())
        os.replace(self.new, self.place)
        self.show(limit, shown)
        if self.asked.page is not None:
            write_whole(self.asked.page, page.as_html(shown).encode("utf-8", "replace"))

    def show(self, limit, shown):
        clear()
        print(f"up to {limit} sets, after {self.seconds()}: {shown.summary()}")
        before, self.known = self.known, set()
        for kind, word, sets in (("u", "conflict", shown.conflicts), ("m", "correction", shown.report.corrections)):
            lines = [" ".join(map(str, [kind, *members, 0])) for members in sets]
            new = [members for line, members in zip(lines, sets) if line not in before and members]
            for members in new[:NEWEST]:
                line = f"    new {word}: " + "; ".join(map(shown.name, members))
                print(line if len(line) <= WIDTH else line[:WIDTH - 1] + "\u2026")
            if len(new) > NEWEST:
                print(f"    and {number_of(len(new) - NEWEST, f'more new {word}', f'more new {word}s')}")
            self.known.update(lines)
        sys.stdout.flush()

    def end(self, status, said):
        """Tells how the last round ended, how to read what was found and how to go on, and gives the status of all."""
        asked, stopped = self.asked, self.stop.signal
        clear()
        if stopped is not None and status != program.DONE:
            status = BY_SIGNAL + stopped
        elif said:
            tell(said)
        elif status > BY_SIGNAL:
            tell(f"{here('watch.py')}: the program was ended by signal {status - BY_SIGNAL}")
        if status == EVIDENCE_REFUSED:
            tell(f"{here('watch.py')}: {asked.evidence} was refused, and is left as it is. Another can be named: -- --evidence NAME")
            return status
        if os.path.exists(asked.evidence):
            focus = ["--focus", asked.options["--focus"]] if "--focus" in asked.options else []
            see = [shlex.join([program.command(), "check", asked.file, asked.evidence, *focus]),
                   shlex.join([beside("names.py"), asked.file, *focus])]
            print(f"{asked.evidence} has {number_of(len(self.known), 'set', 'sets')}. To read them: {' | '.join(see)}")
        go_on = self.going_on(status)
        if go_on:
            print(f"To go on: {go_on}")
        return status

    def going_on(self, status):
        """The command that finds more, if one may."""
        if status == program.LIMIT_REACHED:
            return self.asked.again(limit=min(2 * self.asked.last, MOST)) if self.asked.last < MOST else None
        if status == program.BUDGET_SPENT:
            budget = self.asked.options.get("--conflicts", "")
            return self.asked.again(conflicts=2 * int(budget) or 1000) if budget.isdecimal() else None
        return self.asked.again() if status in (WRITE_FAULT, NO_MEMORY) or status > BY_SIGNAL else None


def main(words):
    asked = Words(words)
    if asked.journal is not None:
        return JournalWatch(asked, Stop(), write_whole).looks()
    watch = Watch(asked)
    try:
        return watch.end(*watch.rounds())
    finally:
        remove(watch.new)


def as_command():
    """Ends the process as the words of its command line ask."""
    run("watch.py", main, __doc__)
