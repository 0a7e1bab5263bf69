"""What one file of rules is answered: its report with names, the lines of its conflicts, and what its corrections leave.

    from gmus_tools.clash_answer import answered
    answer = answered("car.rules", folder)     raises command.Refused
    answer.shown, answer.reasons               what names.as_text and page.as_html take
"""
import io
import os
import re
import sys
import time

from gmus_tools import library, limits, program
from gmus_tools.command import Refused, bytes_of, here, text_in
from gmus_tools.commands import names
from gmus_tools.report import Named, Origin, decoded, digest_of, read_problem
from gmus_tools.rules import language
from gmus_tools.why.evidence import Evidence
from gmus_tools.why.problem import Problem

# how a GCNF or CNF file begins, behind its comments
HEADER = re.compile(rb"(?:[ \t]*c[^\n]*\n|[ \t\r\n]+)*p[ \t\r\n]")


class Answer:
    """A report with names; reasons of conflicts; where the evidence is; and how many seconds the listing took."""

    def __init__(self, shown, reasons, evidence, seconds):
        self.shown, self.reasons, self.evidence, self.seconds = shown, reasons, evidence, seconds


def problem_in(held, source, is_strict):
    """The GCNF or CNF file of rules, as bytes; what may be a mistake in them is told."""
    if HEADER.match(held):
        return held
    made = language.read(text_in(held, source), source)
    notes = made.notes(is_strict)
    for note in notes:
        print(f"{here('clash.py')}: {note}", file=sys.stderr)
    if notes and is_strict:
        raise Refused(f"{source}: with --strict this is refused; names that are meant so are declared under [names]")
    file = made.gcnf().encode("utf-8", "replace")
    if len(file) > limits.BYTES:
        raise Refused(f"{source}: the file would have more than {limits.BYTES:,} bytes")
    return file


def answered(source, folder, is_strict=False, seconds=None, jobs=None, first=None):
    """The answer for a file of rules, by the program. The folder is for what it writes. With `first`, so many conflicts have their
    lines, and so many corrections what they leave."""
    held = bytes_of(source)
    file = problem_in(held, source, is_strict)
    program.build()
    evidence = os.path.join(folder, "evidence")
    origin = Origin(decoded(file), source, digest_of(held))
    begins = time.monotonic()
    report, told = listed(folder, file, evidence, seconds, jobs)
    took = time.monotonic() - begins
    shown = Named(report, origin)
    if not report.is_complete:
        print(f"{here('clash.py')}: {told}", file=sys.stderr)
    problem = Problem(io.BytesIO(file), source)
    with open(evidence, "rb") as opened:
        reasons = names.take_evidence(shown, problem, Evidence(opened, evidence, problem), first)
    return Answer(shown, reasons, evidence, took)


def listed(folder, file, evidence, seconds, jobs):
    """The report of the program, and why it ended early, if it did; its evidence goes to this place."""
    name = os.path.join(folder, "problem.gcnf")
    with open(name, "wb") as out:
        out.write(file)
    _, groups = read_problem(decoded(file))
    try:
        found = library.listed(folder, name, range(1, (groups or 0) + 1), seconds, jobs=jobs, limit=None, conflicts=None,
                               evidence=evidence, resume=None, journal=None, focus=None)
    except library.GmusError as error:
        why = error.reason if error.detail is None else None      # the detail says more, and stands in the error's text
        raise Refused(f"gmus: {error}" + (f": {why}" if why else "")) from None
    return found
