"""Says which rules clash, why, and what to give up: one command from rules to the answer.

    tools/clash.py RULES [--html PAGE] [--evidence EVIDENCE] [--seconds S] [--jobs J] [--first N] [--strict]
                   [--fail-on-conflict] [-o TEXT]
    tools/clash.py RULES.. [--pages DIR] [--junit FILE] [--seconds S] [--jobs J] [--first N] [--strict]
                   [--fail-on-conflict] [-o TEXT]

RULES is a text as docs/RULES.md has it, a GCNF or CNF file, or - for standard input. What is written is a text: how often each
rule is in a conflict, the conflicts with the lines on which they rest, and the corrections, those of few rules first, with what
each leaves. It is what tools/gcnf.py, gmus list, tools/names.py and tools/why.py write one after the other, and all of it is of
this RULES.

--html PAGE: writes a page too, in which rules can be given up or kept.
--evidence EVIDENCE: keeps the evidence too, which `gmus check` reads with the file that `tools/gcnf.py RULES` makes.
--pages DIR: writes a page for each RULES into DIR, and DIR/index.html, which has a line for each: whether it clashes, how many
conflicts there are, the smallest correction, and how many seconds that took.
--junit FILE: writes what a CI reads as results of tests (JUnit): each RULES is a test, which fails if something clashes.
With one of these two more than one RULES may stand there, and the text has a line for each.
--seconds S: ends the search after so many seconds; what was found by then is a partial report.
--jobs J: how many workers share the search.
--first N: writes the first N of each list, 20 if it is not given, and how many are left.
--strict: as that of tools/gcnf.py, nothing is listed if something was told of RULES.
--fail-on-conflict: the status is 3 if something clashes.

The status is 0 if all was written, 1 if something was refused, 2 if the words have no reading. With many RULES all are looked at
before it is 1 or 3.
"""
import re
import tempfile

from gmus_tools import clash_pages, page
from gmus_tools.clash_answer import answered
from gmus_tools.command import DONE, OUTPUT, WrongWords, bytes_of, put, refuse_places, run, write_whole
from gmus_tools.commands import names

FIRST = 20
VALUES = ("--html", "--evidence", "--pages", "--junit", "--seconds", "--jobs", "--first")
MANY, ONE = ("--pages", "--junit"), ("--html", "--evidence")


class Words:
    """The words of the command line."""

    def __init__(self, words):
        self.options, self.files = {}, []
        self.is_strict, self.fails = "--strict" in words, "--fail-on-conflict" in words
        words = [word for word in words if word not in ("--strict", "--fail-on-conflict")]
        while words:
            self.take(words.pop(0), words)
        self.refuse_files()
        self.pages, self.junit = (self.options.get(option) for option in MANY)
        self.first = names.number_behind("--first", self.options.get("--first", str(FIRST)))
        self.seconds = self.seconds_in(self.options.get("--seconds"))
        self.jobs = names.number_behind("--jobs", self.options["--jobs"]) if "--jobs" in self.options else None

    def take(self, word, behind):
        option, has_value, value = word.partition("=")
        if option in VALUES:
            if not has_value and not behind:
                raise WrongWords(f"{option} has nothing behind it")
            if option in self.options:
                raise WrongWords(f"{option} stands twice")
            self.options[option] = value if has_value else behind.pop(0)
        elif word.startswith("-") and word != "-":
            raise WrongWords(f"{word} is no option")
        else:
            self.files.append(word)

    def is_many(self):
        return any(option in self.options for option in MANY)

    def refuse_files(self):
        """Refuses files and options that don't go together."""
        if not self.files:
            raise WrongWords("one file of rules is wanted")
        if len(self.files) > 1 and not self.is_many():
            raise WrongWords("one file of rules is wanted; for more, --pages or --junit has to stand here")
        alone = [option for option in ONE if option in self.options]
        if alone and self.is_many():
            raise WrongWords(f"{alone[0]} is for one file, and goes with neither --pages nor --junit")

    @staticmethod
    def seconds_in(text):
        """The seconds, or None if they aren't limited."""
        if text is None:
            return None
        if not re.fullmatch(r"[0-9]{1,9}(\.[0-9]{1,9})?", text) or float(text) == 0:
            raise WrongWords(f"--seconds {text}: a number above 0 has to stand here")
        return float(text) if "." in text else int(text)


def main(words):
    asked = Words(words)
    if asked.is_many():
        return clash_pages.run_many(asked)
    source = asked.files[0]
    written = [asked.options[option] for option in ONE if option in asked.options]
    refuse_places([source] + ([OUTPUT.name] if OUTPUT.name else []), written)
    with tempfile.TemporaryDirectory(prefix="gmus-") as folder:
        answer = answered(source, folder, asked.is_strict, asked.seconds, asked.jobs, None if "--html" in asked.options else asked.first)
        if "--html" in asked.options:
            write_whole(asked.options["--html"], page.as_html(answer.shown, answer.reasons).encode("utf-8", "replace"))
        put(names.as_text(answer.shown, asked.first, answer.reasons))
        if "--evidence" in asked.options:
            write_whole(asked.options["--evidence"], bytes_of(answer.evidence))
    return names.status_of("clash.py", answer.shown.report) if asked.fails else DONE


def as_command():
    """Ends the process as the words of its command line ask."""
    run("clash.py", main, __doc__)
