#!/usr/bin/env python3
"""Ceilings over what makes the crates hard to read. They only fall: whoever mends something lowers its number in the table."""
import collections
import io
import os
import re
import subprocess
import tarfile
import unittest

from places import TOP
from dev.crates import text_of

# What is counted: how many there may be, and what to do in place of one more.
CEILINGS = {
    "names of definitions that two crates or more have": (
        148, "One name has one meaning: cite the definition of the lower crate, or give this one a name of its own."),
    "lemmas without a line above that says why": (
        2022, "Write a line of plain words above it: what it says, or why it holds."),
    "lines of code of more than 160 columns": (
        121, "Break it, or name a part of it. Imports may be longer."),
    "functions of nine arguments or more": (
        10, "Put arguments that go together into a struct with a name."),
}
SHOWN = 20      # so many are named if a ceiling is passed
DEFINED = re.compile(r"(?m)^(?:(?:abbrev|unfoldable|opaque) pub|pub (?:record|data)) ([^\s:({]+)(?= *[:({])")
# a signature at the left edge that is neither an abbreviation nor the answer of a goal
LEMMA = re.compile(r"(?:pub )?([^\s(){}:-]\S*) :(?: (?!goal\.)|$)")
IMPORT = re.compile(r"\s*(?:pub )?(?:ghost )?use ")
FUNCTION = re.compile(r"\bfn\s+(\w+)\s*")
COMMENT = re.compile(r"//[^\n]*")
WIDTH, ARGUMENTS = 160, 9


def names_in_crates(files):
    """Of each name that a definition has in two crates or more: the name, and these crates."""
    crates = collections.defaultdict(set)
    for path, text in files.items():
        if "/specs/" in path:
            for name in DEFINED.findall(text):
                crates[name].add(path.split("/")[1])
    return {name: ", ".join(sorted(of)) for name, of in crates.items() if len(of) > 1}


def bare_lemmas(files):
    """Of each lemma of proofs/ below no line of comment: its file and its name, and the number of its line."""
    found = {}
    for path, text in files.items():
        lines = text.split("\n") if "/proofs/" in path else []
        for at, line in enumerate(lines):
            lemma = LEMMA.match(line)
            if lemma and not (at and lines[at - 1].startswith("--")):
                found[f"{path} {lemma[1]}"] = f"line {at + 1}"
    return found


def long_lines(files):
    """Of each line of src/ that is too long: its file, how it begins and how many begun so, and its number."""
    found, times = {}, collections.Counter()
    for path, text in files.items():
        for at, line in enumerate(text.split("\n") if "/src/" in path else [], 1):
            if len(line) > WIDTH and not IMPORT.match(line):
                begun = f"{path} {line.strip()[:80]}.."
                times[begun] += 1
                found[f"{begun} ({times[begun]})"] = f"line {at}"
    return found


def parts_of(text):
    """The parts of a text between commas, and where it ends: at the bracket that closes the one with which it begins."""
    depth, parts = 0, [""]
    for at, char in enumerate(text):
        if char in "([{<":
            depth += 1
        elif char in ")]}" or char == ">" and text[at - 1] not in "-=":
            depth -= 1
        if depth == 0:
            return [part for part in parts if part.strip()], at + 1
        if depth == 1 and char == ",":
            parts.append("")
        elif depth > 1 or at:
            parts[-1] += char
    return [], len(text)


def long_calls(files):
    """Of each function with too many arguments: its file and its name, and how many."""
    found = {}
    for path, text in files.items():
        text = COMMENT.sub("", text) if "/src/" in path else ""
        for function in FUNCTION.finditer(text):
            at = function.end()
            if text.startswith("<", at):
                at += parts_of(text[at:])[1]
            arguments = parts_of(text[at:].lstrip())[0] if text[at:].lstrip().startswith("(") else []
            if len(arguments) >= ARGUMENTS:
                found[f"{path} {function[1]}"] = f"{len(arguments)} arguments"
    return found


COUNTED = dict(zip(CEILINGS, (names_in_crates, bare_lemmas, long_lines, long_calls)))


def is_read(path):
    return bool(re.fullmatch(r"crates/\w+/(?:src/.*\.rt|(?:specs|proofs)/.*\.antt)", path))


def files_now():
    """The sources, definitions and proofs of the crates, by their paths."""
    places = [os.path.join(TOP, "crates", crate, part) for crate in sorted(os.listdir(os.path.join(TOP, "crates")))
              for part in ("src", "specs", "proofs")]
    paths = [os.path.relpath(os.path.join(folder, name), TOP) for place in places for folder, _, names in os.walk(place) for name in names]
    return {path: text_of(path) for path in sorted(paths) if is_read(path)}


def git(*words):
    return subprocess.run(["git", *words], cwd=TOP, stdout=subprocess.PIPE, stderr=subprocess.DEVNULL, check=True).stdout


def files_then():
    """The commit that last changed this file, and these files as they were then; None and nothing if that can't be told."""
    try:
        commit = git("log", "-1", "--format=%h", "--", "tools/tests/test_ceilings.py").decode().strip()
        with tarfile.open(fileobj=io.BytesIO(git("archive", commit, "crates"))) as kept:
            return commit, {one.name: kept.extractfile(one).read().decode() for one in kept if one.isfile() and is_read(one.name)}
    except (OSError, subprocess.CalledProcessError, tarfile.TarError):
        return None, {}


def passed(what, found, since, before):
    """What is told if there are more than there may be."""
    ceiling, advice = CEILINGS[what]
    new = {it: told for it, told in found.items() if it not in before}
    shown = [f"  {it}: {told}" for it, told in list(new.items())[:SHOWN]]
    more = [f"  and {len(new) - SHOWN} more"] if len(new) > SHOWN else []
    head = f"{len(found)} {what}, and there may be {ceiling}. {advice}"
    return "\n".join([head, f"New since {since}, which last set the ceilings:" if since else "All of them:", *shown, *more])


class Ceilings(unittest.TestCase):
    @classmethod
    def setUpClass(cls):
        cls.files = files_now()

    def hold(self, what):
        found, (ceiling, _) = COUNTED[what](self.files), CEILINGS[what]
        if len(found) > ceiling:
            since, then = files_then()
            self.fail(passed(what, found, since, COUNTED[what](then)))
        if len(found) < ceiling:
            self.skipTest(f"{what}: the ceiling may fall from {ceiling} to {len(found)}")

    def test_names_of_definitions(self):
        self.hold("names of definitions that two crates or more have")

    def test_lemmas(self):
        self.hold("lemmas without a line above that says why")

    def test_lines(self):
        self.hold("lines of code of more than 160 columns")

    def test_functions(self):
        self.hold("functions of nine arguments or more")


class Counts(unittest.TestCase):
    def test_names_of_definitions(self):
        text = "abbrev pub A : B\nunfoldable pub b : B\npub record C (x : N) : Type where\n  pub d : N\npub e : B\nabbrev f : B\n"
        self.assertEqual(names_in_crates({"crates/x/specs/A.antt": text, "crates/y/specs/A.antt": text, "crates/z/specs/B.antt": "abbrev pub A : B\n",
                                          "crates/z/proofs/B.antt": text}), {"A": "x, y, z", "b": "x, y", "C": "x, y"})

    def test_lemmas(self):
        text = "-- Head.\nuse A.{b}\n\npub a : B\na = c\n\n-- why\nb : B\nb = c\nc :\n  B\n-- ---- part\n\nabbrev pub d : goal.d\npub e : goal.e\n" \
               "pub f-g : (x : N)\n  → B\nwhere\n    h : B\n"
        self.assertEqual(bare_lemmas({"crates/x/proofs/A.antt": text, "crates/x/specs/A.antt": text}), {
            "crates/x/proofs/A.antt a": "line 4", "crates/x/proofs/A.antt c": "line 10", "crates/x/proofs/A.antt f-g": "line 16"})

    def test_lines(self):
        wide = "x" * 157 + ";"
        text = f"  {wide}\n  y{wide}\n  y{wide}\nuse {wide}\npub use {wide}\n"
        self.assertEqual(list(long_lines({"crates/x/src/a.rt": text, "crates/x/specs/A.antt": text}).values()), ["line 2", "line 3"])

    def test_functions(self):
        eight = "a: A, b: Vec<(B, C)>, c: fn(D, E) -> F, d: D, e: E, f: F, g: G, h: H"
        text = f"fn eight({eight}) {{}}\npub fn nine<R: Fn(A, B) -> C, S>(\n    &self,  // one, two\n    {eight},\n) -> A {{}}\n// fn none({eight}, i: I)\n"
        self.assertEqual(long_calls({"crates/x/src/a.rt": text, "crates/x/proofs/a.rt": text}), {"crates/x/src/a.rt nine": "9 arguments"})

    def test_what_is_told(self):
        what = "functions of nine arguments or more"
        found = {f"crates/x/src/a.rt f{at}": "9 arguments" for at in range(35)}
        before = {f"crates/x/src/a.rt f{at}": "9 arguments" for at in range(10)}
        told = passed(what, found, "abc", before).split("\n")
        self.assertEqual((told[0].partition(". ")[0], told[1]), (f"35 {what}, and there may be 10", "New since abc, which last set the ceilings:"))
        self.assertEqual(told[2::19], ["  crates/x/src/a.rt f10: 9 arguments", "  crates/x/src/a.rt f29: 9 arguments"])
        self.assertEqual(told[22:], ["  and 5 more"])
        self.assertEqual(passed(what, found, None, {}).split("\n")[1], "All of them:")


if __name__ == "__main__":
    unittest.main()
