"""Calls the program for library.py: for so many seconds at most, and with what its journal holds where it was ended.

What evidence and a journal are stands in docs/FORMATS.md. Nothing is checked here: the program checks all that it goes on from.
"""
import subprocess

from gmus_tools import program
from gmus_tools.command import Refused

PATIENCE = 5        # seconds for which the program may take to end, once it was told to
OPEN, LENGTH = b"\1", 8


def call(words, seconds=None):
    """The status of the program, what it wrote to standard output and to standard error; None if it was ended since it took
    more seconds than these."""
    try:
        child = subprocess.Popen([program.command(), *words], stdin=subprocess.DEVNULL, stdout=subprocess.PIPE, stderr=subprocess.PIPE)
    except OSError as error:
        raise Refused(f"the program can't be started: {program.command()}: {error.strerror}") from None
    with child:
        try:
            output, told = child.communicate(timeout=seconds)
        except subprocess.TimeoutExpired:
            end(child)
            return None
        except BaseException:
            child.kill()
            raise
    return child.returncode, output.decode("utf-8", "replace"), told.decode("utf-8", "replace")


def end(child):
    """Ends the program, which keeps its journal whole whenever that is."""
    child.terminate()
    try:
        child.communicate(timeout=PATIENCE)
    except subprocess.TimeoutExpired:
        child.kill()
        child.communicate()


def framed(texts):
    """The bytes of a journal with the texts of these records."""
    return b"".join(OPEN + len(text).to_bytes(LENGTH, "big") + text for text in texts) + b"\0"


def texts_in(held):
    """The texts of the records of a journal, up to its first gate that is closed or has no whole record behind it."""
    texts, gate = [], 0
    while held[gate:gate + 1] == OPEN:
        begins = gate + 1 + LENGTH
        ends = begins + int.from_bytes(held[gate + 1:begins], "big")
        if not begins <= ends < len(held):
            break
        texts.append(held[begins:ends])
        gate = ends
    return texts


def report_of(groups, texts):
    """The partial report of the sets that the texts of records begin with."""
    lines = [text.partition(b"\n")[0].decode("ascii", "replace") for text in texts]
    lines.sort(key=lambda line: (line[:1] != "u", [int(word) for word in line.split()[1:-1] if word.isdecimal()]))
    conflicts = sum(line.startswith("u") for line in lines)
    return "\n".join([f"p gmus {groups}", "s PARTIAL", *lines, f"e {conflicts} {len(lines) - conflicts}", ""])


def evidence_of(variables, clauses, groups, texts):
    """Evidence of version 1 with the texts of these records, which does not say that they are all."""
    return b"p gmev 1 %d %d %d\n" % (variables, clauses, groups) + b"".join(texts) + b"e partial\n"


def records_in(evidence):
    """The texts of the records of evidence, each of version 1: in place of a reference to an earlier conflict stands that
    conflict's refutation. What has another form is left as it is, for the program to refuse."""
    records, refutations = [], []
    for line in evidence.split(b"\n")[1:]:
        words = line.split(b" ")
        if words[0] in (b"e", b"x", b""):
            break
        if words[0] in (b"u", b"m"):
            records.append([])
            refutations.append([])
        if not records:
            break
        if words[0] == b"t" and len(words) == 3 and words[2].isdigit() and 0 < int(words[2][:18]) < len(records):
            records[-1] += [b"r " + words[1] + step[3:] if step.startswith(b"r 0") else step for step in refutations[int(words[2]) - 1]]
        else:
            records[-1].append(line)
        if words[0] in (b"d", b"r") and records[-1][0].startswith(b"u "):
            refutations[-1].append(line)
    while records and records[-1][-1].startswith(b"d "):
        # what closes the evidence stands behind the last record
        records[-1].pop()
    return [b"".join(line + b"\n" for line in lines) for lines in records]
