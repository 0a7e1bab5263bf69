"""The words of spread.py's command line, and the command that goes on where a run ended."""
import os
import shlex
import sys

from gmus_tools.command import Refused, WrongWords, refuse_places
from gmus_tools.watch.words import MOST, value_of

MOST_SECONDS, MOST_PROCESSES = 86400, 1024


class Words:
    """The words of the command line, or what stands for them in the library."""

    VALUES = {"--evidence": "evidence", "--report": "report", "--processes": "processes", "--dask": "dask", "--round": "round",
              "--sets": "sets", "--journal": "journal", "--html": "page"}

    def __init__(self, words):
        self.file = self.evidence = self.report = self.processes = self.dask = self.round = self.sets = self.journal = self.page = None
        self.mpi = False
        words = list(words)
        while words:
            self.read(words.pop(0), words)
        if self.file is None or self.evidence is None:
            raise WrongWords("a FILE and --evidence have to be named")
        self.finish()

    def read(self, word, behind):
        option = word.partition("=")[0]
        if option in self.VALUES:
            if getattr(self, self.VALUES[option]) is not None:
                raise WrongWords(f"{option} stands twice")
            setattr(self, self.VALUES[option], value_of(word, behind))
        elif word == "--mpi":
            self.mpi = True
        elif word.startswith("-") or self.file is not None:
            raise WrongWords(f"{word} can't stand here")
        else:
            self.file = word

    def finish(self):
        """Makes numbers of what has to be one, and refuses what does not go together."""
        self.processes = number_of("--processes", self.processes, MOST_PROCESSES)
        self.round = number_of("--round", self.round, MOST_SECONDS)
        self.sets = number_of("--sets", self.sets, MOST)
        if sum([self.processes is not None, self.dask is not None, self.mpi]) > 1:
            raise WrongWords("only one of --processes, --dask and --mpi can stand here")
        self.refuse_places()

    def refuse_places(self):
        """Refuses names at which a file would be lost, or could not be written."""
        written = [name for name in (self.evidence, self.report, self.page) if name is not None]
        refuse_places([self.file], written)
        if self.journal is not None and not os.path.isdir(self.journal):
            raise Refused(f"{self.journal}: this is no folder")

    def again(self, **changed):
        """The command that goes on, with other values of some options."""
        words = [sys.argv[0], self.file]
        for option, name in self.VALUES.items():
            value = changed.get(name, getattr(self, name))
            words += [] if value is None else [option, str(value)]
        return shlex.join(words + (["--mpi"] if self.mpi else []))


def number_of(option, text, most):
    """The number of an option, if it is there."""
    if text is None:
        return None
    if not (text.isascii() and text.isdecimal() and len(text) <= 18 and 1 <= int(text) <= most):
        raise WrongWords(f"{option} {text}: a number from 1 to {most} has to stand here")
    return int(text)
