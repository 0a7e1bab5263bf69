"""Records of evidence, as texts and in parts. What the lines mean stands in docs/FORMATS.md, 'The evidence'.

What is read here was accepted by the program, or written by it: nothing is judged, and a text that is none has no reading.
"""
import os
import re
from collections import namedtuple

BEGIN = re.compile(rb"\n(?=[um] )")
HEAD = re.compile(rb"p gmev ([12]) [0-9]+ [0-9]+ [0-9]+\n")
PARTIAL, COMPLETE = b"e partial\n", b"e complete\n"
ENDS = (PARTIAL, COMPLETE)
CONFLICT, CORRECTION = b"u", b"m"

# What refutes one group of a correction, or a conflict, whose group is 0: the lines of its steps as one text without its last end,
# and the id of what was to be derived.
Refutation = namedtuple("Refutation", "group steps goal")
# What names an earlier record in place of that.
Reference = namedtuple("Reference", "group number")


class NoReading(Exception):
    """A text is no evidence of a version that is known here."""


class Record(namedtuple("Record", "kind groups witnesses refutations")):
    """One record: `u` or `m`, its groups, the lines of its witnesses, and its refutations or references."""

    def name(self):
        """The line that no other record has."""
        return line_of(self.kind, *self.groups, 0)

    def text(self):
        refuted = [line for it in self.refutations for line in lines_of(it)]
        both = [*refuted, *self.witnesses] if self.kind == CONFLICT else [*self.witnesses, *refuted]
        return b"\n".join([self.name(), *both, b""])


def line_of(first, *numbers):
    return b" ".join([first, *(b"%d" % number for number in numbers)])


def lines_of(refuted):
    if isinstance(refuted, Reference):
        return [b"t %d %d" % refuted]
    return [*([refuted.steps] if refuted.steps else []), b"r %d %s" % (refuted.group, refuted.goal)]


def head_of(text):
    """The kind of a record and its groups."""
    kind, *groups, _ = name_in(text).split(b" ")
    if kind not in (CONFLICT, CORRECTION):
        raise NoReading("this is no record: " + text[:40].decode("latin-1").split("\n")[0])
    return kind, tuple(map(int, groups))


def record_of(text):
    """The record of its lines. Steps are not looked at: there may be very many."""
    kind, groups = head_of(text)
    _, rest = text.split(b"\n", 1)
    if kind == CONFLICT:
        steps, _, behind = (b"\n" + rest).partition(b"\nr 0 ")
        goal, *witnesses = behind.split(b"\n")[:-1]
        return Record(kind, groups, witnesses, [Refutation(0, steps[1:], goal)])
    witness, rest = rest.split(b"\n", 1)
    return Record(kind, groups, [witness], list(refutations_in(b"\n" + rest)))


def referring(text, numbers):
    """The record of a correction with references in the place of refutations, for each group for which a number is there."""
    if None in numbers:
        record = record_of(text)
        return record._replace(refutations=[it if number is None else Reference(it.group, number)
                                            for it, number in zip(record.refutations, numbers)])
    kind, groups = head_of(text)
    return Record(kind, groups, [text.split(b"\n", 2)[1]], list(map(Reference, groups, numbers)))


def with_references(text, groups, numbers):
    """The text of such a record."""
    if None in numbers:
        return referring(text, numbers).text()
    head, witness, _ = text.split(b"\n", 2)
    return b"\n".join([head, witness, *[b"t %d %d" % named for named in zip(groups, numbers)], b""])


def refutations_in(text):
    """What refutes the groups of a correction, in order. Each line has its end before it."""
    first, *named = text.split(b"\nt ")
    yield from derived(first)
    for piece in named:
        line, _, rest = piece.partition(b"\n")
        yield Reference(*map(int, line.split(b" ")))
        yield from derived(b"\n" + rest)


def derived(text):
    """The refutations among such lines."""
    steps, *goals = text.split(b"\nr ")
    for piece in goals:
        line, _, rest = piece.partition(b"\n")
        group, goal = line.split(b" ")
        yield Refutation(int(group), steps.strip(b"\n"), goal)
        steps = rest


def name_in(text):
    """The line that no other record has, in the text of a record."""
    return text[:text.index(b"\n")]


def split(body):
    """The texts of the records in what stands between the head and the end of evidence."""
    return [text + b"\n" for text in BEGIN.split(b"\n" + body[:-1])[1:]]


def records_in(evidence):
    """The texts of the records of evidence, without its head and what closes it."""
    head = HEAD.match(evidence)
    if not head or not evidence.endswith(ENDS):
        raise NoReading("this is no evidence of version 1 or 2: " + evidence[:40].decode("latin-1").split("\n")[0])
    texts = split(evidence[head.end():evidence.rindex(b"e ")])
    if texts and evidence.endswith(COMPLETE):
        # steps that close the evidence stand behind the last line of the last record
        last = max(texts[-1].rfind(mark) for mark in (b"\nr ", b"\nt ", b"\nw "))
        texts[-1] = texts[-1][:texts[-1].index(b"\n", last + 1) + 1]
    return texts


def is_complete(file):
    """Whether a file of bytes begins as evidence of a known version and ends as what is complete. What stands between is not looked at."""
    if not HEAD.fullmatch(file.readline()):
        return False
    length = file.seek(0, os.SEEK_END)
    file.seek(max(0, length - len(COMPLETE) - 1))
    return file.read() == b"\n" + COMPLETE


def evidence_of(sizes, texts, version=2):
    """Evidence that has these records and nothing that closes it."""
    head = line_of(b"p gmev", version, sizes.vars, sizes.clauses, sizes.groups)
    return b"".join([head, b"\n", *texts, PARTIAL])
