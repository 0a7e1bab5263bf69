#!/usr/bin/env python3
"""A plain program in place of gmus, for tests: it lists a problem of some ten groups by trying every set of them, and checks
evidence by tools/check_evidence.py. Status, report, evidence and journal are those of gmus.

    oracles/plain_gmus.py list FILE [--jobs J] [--conflicts B] [--limit L] [--evidence FILE] [--resume FILE] [--journal NAME]
    oracles/plain_gmus.py check FILE EVIDENCE

Which sets come first depends on how the groups are numbered, as with gmus. Each set that it finds counts as one of the
conflicts of the budget. If the variable PLAIN_PAUSE is there, it waits so many seconds before each.
"""
import itertools
import os
import sys
import time

import places  # noqa: F401
from gmus_tools.evidence import check_evidence, journal
from oracles import plain_evidence

DONE, BUDGET_SPENT, LIMIT_REACHED, INPUT_REFUSED, READ_FAULT, WRITE_FAULT, EVIDENCE_REFUSED, JOURNAL_REFUSED = 0, 3, 4, 5, 6, 7, 9, 10

# the newest version of evidence that gmus reads
NEWEST = 2


class Ended(Exception):
    """A status and what is told."""


def bits_of(groups):
    return sum(1 << group for group in groups)


def sets_of(problem):
    """The kinds and the groups of all minimal sets, in the order of their groups as numbers in base two."""
    everything = (1 << problem.groups + 1) - 2
    broken = set()
    for values in itertools.product([False, True], repeat=problem.vars):
        trues = {at for at, value in enumerate(values, 1) if value}
        false = {group for group, lits in problem.clauses if not any((lit > 0) == (abs(lit) in trues) for lit in lits)}
        if 0 not in false:
            broken.add(bits_of(false))
    corrections = {bits for bits in broken if not any(other & ~bits == 0 and other != bits for other in broken)}
    for bits in range(0, everything + 2, 2):
        groups = tuple(group for group in range(1, problem.groups + 1) if bits >> group & 1)
        if bits in corrections:
            yield "m", groups
        if all(bits & other for other in corrections) and not any(
                all(bits & ~(1 << group) & other for other in corrections) for group in groups):
            yield "u", groups


class Listing:
    """What was found: the kind and groups of each record with its lines in version 1, in order."""

    def __init__(self, problem):
        self.problem, self.records = problem, []

    def has(self, kind, groups):
        return any(found == (kind, groups) for found, _ in self.records)

    def add(self, kind, groups):
        make = plain_evidence.conflict if kind == "u" else plain_evidence.correction
        lines = make(self.problem, groups)
        self.records.append(((kind, groups), lines))
        return "".join(line + "\n" for line in lines).encode()

    def evidence(self, is_whole):
        problem = self.problem
        lines = [plain_evidence.numbers("p gmev 2", problem.vars, len(problem.clauses), problem.groups)]
        for (kind, groups), own in self.records:
            lines += own if kind == "u" else plain_evidence.correction(problem, groups, lambda group, of=groups: self.refuted(group, of))
        if is_whole:
            blocks = [[-group for group in groups] if kind == "u" else list(groups) for (kind, groups), _ in self.records]
            lines += plain_evidence.closing(blocks)
        else:
            lines.append("e partial")
        return "".join(line + "\n" for line in lines).encode()

    def refuted(self, group, correction):
        """The line that names the first conflict before it that serves, or else the lines that refute the group."""
        for number, ((kind, groups), _) in enumerate(self.records, 1):
            if (kind, groups) == ("m", correction):
                break
            if kind == "u" and not set(groups) & set(correction) - {group}:
                return [plain_evidence.numbers("t", group, number)]
        rest = set(range(1, self.problem.groups + 1)) - set(correction)
        return plain_evidence.refutation(self.problem, rest | {group}, group)

    def report(self, is_whole):
        sets = {kind: [list(groups) for (of, groups), _ in self.records if of == kind] for kind in "um"}
        return check_evidence.report(self.problem, is_whole, sets)


def read(name, what):
    try:
        with open(name, "rb") as file:
            return file.read()
    except OSError as error:
        raise Ended(READ_FAULT, f"read fault on {what}\n  {name}: {error.strerror}") from None


def problem_in(name):
    try:
        return check_evidence.Problem(read(name, "input").decode("latin-1"))
    except (check_evidence.NoProblem, ValueError, IndexError):
        raise Ended(INPUT_REFUSED, "input refused: 1 NoHeader at line 1 byte 1") from None


def known_sets(problem, text):
    """The kinds and groups of the records of evidence."""
    try:
        check_evidence.check(problem, text, NEWEST)
    except check_evidence.Refused as refused:
        raise Ended(EVIDENCE_REFUSED, f"evidence refused: {refused}") from None
    return [(line[:1].decode(), tuple(map(int, line.split()[1:-1]))) for line in text.split(b"\n") if line[:2] in (b"u ", b"m ")]


class Journal:
    """The journal that a listing keeps, if any."""

    def __init__(self, name, problem):
        self.name, self.held, self.sets = name, b"\0", []
        if name is None:
            return
        held = read(name, "journal") if os.path.exists(name) else b""
        if held[:1] not in (b"", b"\0", b"\1"):
            raise Ended(READ_FAULT, f"read fault on journal\n  {name}: is no journal; if a crash left it so, remove it")
        try:
            found = journal.salvaged(problem, held)
        except journal.Foreign as at:
            raise Ended(JOURNAL_REFUSED, f"journal refused at byte {at}") from None
        self.sets = [(kind, tuple(groups)) for kind, *groups in found]
        self.held = journal.framed(journal.texts_in(held)[0])
        self.write()

    def append(self, text):
        self.held = self.held[:-1] + journal.framed([text])
        self.write()

    def write(self):
        if self.name is not None:
            written(self.name, self.held, "journal")


def written(name, held, what):
    try:
        with open(name, "wb") as file:
            file.write(held)
    except OSError as error:
        raise Ended(WRITE_FAULT, f"write fault on {what}\n  {name}: {error.strerror}") from None


def listed(file, options):
    """The status of a listing and what is told; the report is written."""
    problem = problem_in(file)
    listing, kept = Listing(problem), Journal(options.get("--journal"), problem)
    resumed = options.get("--resume")
    for kind, groups in kept.sets + (known_sets(problem, read(resumed, "evidence")) if resumed else []):
        listing.add(kind, groups)
    budget, limit = int(options.get("--conflicts", 10 ** 9)), int(options.get("--limit", 10 ** 9))
    status, told, found = DONE, None, 0
    for kind, groups in sets_of(problem):
        if listing.has(kind, groups):
            continue
        if len(listing.records) >= limit:
            status, told = LIMIT_REACHED, f"limit of {limit} records reached"
        elif found >= budget:
            status, told = BUDGET_SPENT, f"budget of {budget} conflicts spent"
        if status != DONE:
            break
        time.sleep(float(os.environ.get("PLAIN_PAUSE", 0)))
        kept.append(listing.add(kind, groups))
        found += 1
    if "--evidence" in options:
        written(options["--evidence"], listing.evidence(status == DONE), "evidence")
    sys.stdout.write(listing.report(status == DONE))
    return status, told


def checked(file, evidence):
    problem = problem_in(file)
    try:
        sys.stdout.write(check_evidence.report(problem, *check_evidence.check(problem, read(evidence, "evidence"), NEWEST)))
    except check_evidence.Refused as refused:
        return EVIDENCE_REFUSED, f"evidence refused: {refused}"
    return DONE, None


def main(words):
    command, *words = [word for word in words if word != "--"]
    options, names = {}, []
    while words:
        word = words.pop(0)
        option, has_value, value = word.partition("=")
        if option.startswith("--"):
            options[option] = value if has_value else words.pop(0)
        else:
            names.append(word)
    try:
        status, told = checked(*names) if command == "check" else listed(*names, options)
    except Ended as ended:
        status, told = ended.args
    if told:
        print(f"gmus: {told}", file=sys.stderr)
    return status


if __name__ == "__main__":
    sys.exit(main(sys.argv[1:]))
