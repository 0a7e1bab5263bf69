#!/usr/bin/env python3
"""Makes what each program of trials has to print, from the lines that people wrote below its calls.

    dev/trials.py            writes crates/NAME/stdout of each crate with scripts
    dev/trials.py NAME ..    of these crates

The scripts of a crate are the files in crates/NAME/data that crates/NAME/args names, in that order.

In a script '== NAME' begins a case and is printed as it stands, and '= TEXT' below a call is TEXT, a line that has to be
printed there. Two forms stand for several lines:

    =out TEXT ..      the lines of these texts, which the calls 'text NAME' of the script give, each behind the word 'out'
                      (or another word, as '=held TEXT'); a last line that has no end stands behind 'out.'
    =report FILE      the report of the problem that the call 'hold FILE' gives, by oracles/brute_force.py, likewise behind
                      'out'. It tries all sets of groups, so there are a dozen groups at most

No line comes from the program's own output: each was written by hand, or is found by that other program. Comments, calls
and their texts ('| TEXT') are for the program: see crates/trial_script/src/lib.rt.
"""
import os
import re

from places import TOP
from gmus_tools.command import WrongWords, run
from oracles import brute_force

ESCAPED = {"\\r": "\r", "\\t": "\t", "\\\\": "\\"}


def text_in(line):
    """What a line '| TEXT' or '|. TEXT' adds to the text of the call before."""
    text, end = (line[3:], "") if line.startswith("|. ") else (line[2:], "\n")
    return re.sub(r"\\[rt\\]|\\x([0-9a-f]{2})", lambda m: chr(int(m[1], 16)) if m[1] else ESCAPED[m[0]], text) + end


def behind(word, text):
    """The lines of the text as a program prints them, each behind the word."""
    lines = text.split("\n")
    last = lines.pop()
    printed = [f"{word} {line}" if line else word for line in lines]
    return printed + [f"{word}. {last}"] if last else printed


class Texts:
    """The texts that a script gives names to: those of all cases, and the files of a case."""

    def __init__(self):
        self.texts, self.files, self.last = {}, {}, None

    def begin(self):
        self.files, self.last = {}, None

    def call(self, words):
        named = {"text": self.texts, "hold": self.files}.get(words[0])
        self.last = None
        # (a player may use such a word for something else)
        if named is not None and self.texts.keys() >= set(words[2:]):
            named[words[1]] = "".join(self.texts[name] for name in words[2:])
            self.last = named, words[1]
        elif words[0] == "change":
            self.files.pop(words[1], None)

    def add(self, text):
        """Adds a line of text to what the call before gave."""
        if self.last:
            named, name = self.last
            named[name] += text

    def lines(self, words):
        """The lines that '=WORD NAME ..' stands for."""
        if words[0] == "report":
            return behind("out", report_of(self.files[words[1]]))
        return behind(words[0], "".join(self.texts[name] for name in words[1:]))


def report_of(problem):
    return brute_force.report(*brute_force.problem_of(problem.split("\n")))


def walk(script):
    """Each line of the script, what has to be printed for it, and the texts that there are by then."""
    texts = Texts()
    for line in script.split("\n"):
        printed = []
        if line.startswith("== "):
            printed = [line]
            texts.begin()
        elif line.startswith("= ") or line == "=":
            printed = [line[2:]]
        elif line.startswith("="):
            printed = texts.lines(line[1:].split(" "))
        elif line.startswith("|"):
            texts.add(text_in(line))
        elif line and not line.startswith("#"):
            texts.call(line.split(" "))
        yield line, printed, texts


def wanted(script):
    """What a program has to print of this script."""
    return "".join(text + "\n" for _, printed, _ in walk(script) for text in printed)


def crates():
    """The crates that have scripts."""
    return sorted(name for name in os.listdir(os.path.join(TOP, "crates")) if scripts_of(name))


def scripts_of(crate):
    """The scripts of a crate, in the order in which they are played; none where a word of its args is no file of it."""
    folder = os.path.join(TOP, "crates", crate)
    if not os.path.isfile(os.path.join(folder, "args")):
        return []
    scripts = [os.path.join(folder, "data", word) for word in text_of(os.path.join(folder, "args")).split()]
    return scripts if all(os.path.isfile(script) for script in scripts) else []


def script_of(crate):
    """All its scripts, as one text."""
    return "".join(text_of(script) for script in scripts_of(crate))


def text_of(path):
    with open(path, encoding="utf-8", newline="") as file:
        return file.read()


def cases_in(script):
    """The names of its cases."""
    return re.findall(r"(?m)^== (.*)$", script)


def main(words):
    for crate in words:
        if crate.startswith("-") or crate not in crates():
            raise WrongWords(f"'{crate}' is no crate with scripts")
    for crate in words or crates():
        with open(os.path.join(TOP, "crates", crate, "stdout"), "w", encoding="utf-8", newline="") as file:
            file.write(wanted(script_of(crate)))


if __name__ == "__main__":
    run("trials.py", main, __doc__)
