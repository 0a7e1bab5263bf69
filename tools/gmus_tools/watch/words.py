"""The words of watch.py's command line, and the command that goes on where a watch ended."""
import os
import shlex
import sys

from gmus_tools.command import WrongWords, refuse_places
from gmus_tools.focus import groups_in

# The greatest limit that the program takes. If none is given, it is this one.
MOST = 10 ** 9


class Words:
    """The words of the command line."""

    MAY_STAND = ("--jobs", "--conflicts", "--limit", "--evidence", "--focus")

    def __init__(self, words):
        at = words.index("--") if "--" in words else len(words)
        self.file, self.page, self.journal, self.once, self.focus = None, None, None, False, None
        before = list(words[:at])
        while before:
            word = before.pop(0)
            option = word.partition("=")[0]
            if option == "--html":
                self.page = value_of(word, before)
            elif option == "--journal":
                self.journal = value_of(word, before)
            elif option == "--focus":
                self.focus = groups_in(value_of(word, before))
            elif word == "--once":
                self.once = True
            elif word.startswith("-") or self.file is not None:
                raise WrongWords(f"{word} can't stand here; words of gmus stand behind --")
            else:
                self.file = word
        if self.file is None:
            raise WrongWords("a FILE has to be named")
        if self.journal is not None and at < len(words):
            raise WrongWords("nothing is called with --journal: no words of gmus can stand behind --")
        if (self.once or self.focus is not None) and self.journal is None:
            raise WrongWords("--once is for --journal" if self.once else "--focus stands before -- with --journal alone")
        self.options = self.read_options(list(words[at + 1:]))
        if "--focus" in self.options:
            self.focus = groups_in(self.options["--focus"])
        self.evidence = self.options.pop("--evidence", None) or self.file + ".evidence"
        limit = self.options.pop("--limit", str(MOST))
        if not (limit.isascii() and limit.isdecimal() and len(limit) <= 18 and 1 <= int(limit) <= MOST):
            raise WrongWords(f"--limit {limit}: a number from 1 to {MOST} has to stand here")
        self.last = int(limit)
        kept = [self.evidence] if self.journal is None else []
        refuse_places([self.file] + ([] if self.journal is None else [self.journal]), kept + ([] if self.page is None else [self.page]))

    def read_options(self, words):
        found = {}
        while words:
            word = words.pop(0)
            option = word.partition("=")[0]
            if option not in self.MAY_STAND:
                raise WrongWords(f"{word} can't stand behind --: {', '.join(self.MAY_STAND)} may")
            if option in found:
                raise WrongWords(f"{option} stands twice")
            found[option] = value_of(word, words)
        return found

    def again(self, **changed):
        """The command that goes on, with other values of some options."""
        options = dict(self.options)
        if self.evidence != self.file + ".evidence":
            options["--evidence"] = self.evidence
        if self.last != MOST:
            options["--limit"] = str(self.last)
        options.update({f"--{option}": str(value) for option, value in changed.items()})
        words = [sys.argv[0], self.file] + (["--html", self.page] if self.page is not None else [])
        for option, value in options.items():
            words += ([] if "--" in words else ["--"]) + [option, value]
        return shlex.join(words)


def value_of(word, behind):
    """The value of an option, which stands in its word or is the next one."""
    option, has_value, value = word.partition("=")
    if has_value:
        return value
    if not behind:
        raise WrongWords(f"{option} has nothing behind it")
    return behind.pop(0)
