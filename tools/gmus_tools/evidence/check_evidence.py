"""Checks evidence of gmus, from docs/FORMATS.md alone: it shares nothing with the program.

    tools/check_evidence.py FILE EVIDENCE [--focus LIST] [-o REPORT]

FILE is the GCNF or CNF file, EVIDENCE the evidence about it, of version 1, 2 or 3. With --focus LIST the evidence is about the
groups of LIST, as 3,1,2, and the background: the clauses of all others are left out before anything is numbered. If nothing is
refused, the report of the evidence's sets is written, and the status is 0; if it ends with a kind and a number, all sets of that kind
with so many groups at most, smaller ones first. Else the first refusal is told on standard error, and the status is 9, as that of
`gmus check`. It is 1 if FILE is no such file or a file can't be read, and 2 if the words have no reading. It is plain and slow;
evidence of some megabytes is fine.
"""
import math
import re
import sys
from collections import namedtuple

from gmus_tools import command
from gmus_tools.focus import without_focus

EVIDENCE_REFUSED = 9
NUMBER = re.compile(rb"0|[1-9][0-9]*")
MAX_BYTES, MAX_ID, MAX_COUNT, MAX_VARIABLE = 2 ** 31, 2 ** 63 - 1, 2 ** 64 - 1, 2 ** 31 - 1
# the newest version, and what its end may say of the sets of one kind, by the first word of their lines
NEWEST, KINDS = 3, {b"conflicts": "u", b"corrections": "m"}
NUMBERS = {"BadLine": 1, "BadNumber": 2, "Truncated": 3, "OtherProblem": 4, "TrailingText": 5, "TooLong": 6,
           "UnknownHint": 10, "NotUnit": 11, "NotFalse": 12, "HintsLeft": 13, "IdNotRising": 14, "BadLiteral": 15,
           "UnknownClause": 16, "NotRefuting": 17, "WitnessFails": 18, "RepeatedSet": 19, "UnknownRecord": 20, "NotInside": 21}


class Refused(Exception):
    """A refusal: its line, and its name."""

    def __str__(self):
        line, name = self.args
        return f"line {line}: {NUMBERS[name]} {name}"


class NoProblem(Exception):
    """Why a text is no GCNF or CNF file."""


class Problem:
    """A GCNF or CNF file: how many variables, the greatest group, and the clauses, each a group and its literals."""

    def __init__(self, text):
        lines = [line for line in text.split("\n") if not line.lstrip(" \t").startswith("c")]
        tokens = " ".join(lines).replace("{", " { ").replace("}", " } ").split()
        if tokens[:2] not in (["p", "gcnf"], ["p", "cnf"]):
            raise NoProblem("it does not begin with 'p gcnf' or 'p cnf'")
        in_braces = tokens[1] == "gcnf"
        at = 5 if in_braces else 4
        # in CNF each clause is a group
        self.vars, count, self.groups = map(int, tokens[2:5] if in_braces else tokens[2:4] + tokens[3:4])
        self.clauses = []
        for group in range(1, count + 1):
            if in_braces:
                if tokens[at] != "{" or tokens[at + 2] != "}":
                    raise NoProblem("a clause begins with its group in braces")
                group, at = int(tokens[at + 1]), at + 3
            lits = []
            while int(tokens[at]) != 0:
                lits.append(int(tokens[at]))
                at += 1
            self.clauses.append((group, lits))
            at += 1
        if at != len(tokens) and (in_braces or not tokens[at].startswith("%")):
            raise NoProblem("something stands behind the last clause")

    def narrow(self, focus):
        """Leaves out the clauses of groups that aren't among these."""
        self.clauses = [(group, lits) for group, lits in self.clauses if group == 0 or group in focus]

    def selector_form(self):
        return [lits + [-(self.vars + group)] if group else lits for group, lits in self.clauses]

    def is_satisfied(self, groups, trues):
        """Whether this assignment makes the clauses of group 0 and of the groups true."""
        return all(group not in groups and group != 0 or any((lit > 0) == (abs(lit) in trues) for lit in lits)
                   for group, lits in self.clauses)


class Line:
    """One line of the text, whose words are taken from left to right."""

    def __init__(self, number, words):
        self.number, self.words, self.at = number, words, 0

    def refuse(self, name):
        raise Refused(self.number, name)

    def take(self):
        if self.at == len(self.words):
            self.refuse("BadLine")
        self.at += 1
        return self.words[self.at - 1]

    def word(self, due):
        if self.take() != due:
            self.refuse("BadLine")

    def value(self, word, low, high):
        # no number in range has more than 20 digits
        if len(word) > 20 or not NUMBER.fullmatch(word) or not low <= int(word) <= high:
            self.refuse("BadNumber")
        return int(word)

    def number_in(self, low, high):
        return self.value(self.take(), low, high)

    def ascending(self, high):
        """Strictly ascending numbers up to this one, and 0 behind them."""
        found, word = [], self.take()
        while word != b"0":
            found.append(self.value(word, found[-1] + 1 if found else 1, high))
            word = self.take()
        return found

    def literals(self, high):
        found, word = [], self.take()
        while word != b"0":
            negative = word.startswith(b"-")
            variable = self.value(word[1:] if negative else word, 1, high)
            found.append(-variable if negative else variable)
            word = self.take()
        return found

    def ids(self):
        found, word = [], self.take()
        while word != b"0":
            found.append(self.value(word, 1, MAX_ID))
            word = self.take()
        return found

    def end(self):
        if self.at < len(self.words):
            self.refuse("BadLine")


class Proof:
    """Steps, each with its line, and the clause that is derived, with its line."""

    def __init__(self):
        self.steps, self.goal, self.line = [], None, None


# The proof of a closing part, and what the end says: True, or a level.
Closing = namedtuple("Closing", "proof says")


class Reference:
    """The number of an earlier record, with its line."""

    def __init__(self, line, number):
        self.line, self.number = line, number


class Level:
    """What an end of version 3 says behind these records, each a kind and a set: those of a kind with this many groups at most are
    all there. Of the order of groups, and of the number, what stands alone in sets of the other kind is taken off."""

    def __init__(self, problem, records, kind, most):
        self.kind, self.most, named = kind, most, {}
        for of, groups in records:
            for group in groups if of != kind else []:
                named[group] = named.get(group, False) or len(groups) == 1
        sure = {*[group for group, is_alone in named.items() if is_alone][:most]}
        self.order = [group for group in named if group not in sure]
        self.rest, self.groups = most - len(sure), problem.groups
        self.is_counted = len(self.order) > self.rest
        self.variables = self.variable(len(self.order), self.rest + 1) if self.is_counted else self.groups
        self.goal = {self.variables} if self.is_counted else set()

    def variable(self, row, count):
        """Of the first groups of the order, as many as the number of the row, at least so many count."""
        return self.groups + (self.rest + 1) * (row - 1) + count

    def size(self):
        """How many clauses the counter has: 1, 3, 5 and so on in its first rows, and then in each row the same number."""
        width = self.rest + 1
        return width * width + 2 * width * (len(self.order) - width) if self.is_counted else 0

    def clause(self, number):
        """The clause of the counter with this number, from 1: row by row, and in a row by how many count."""
        width, at = self.rest + 1, number - 1
        if at < width * width:
            row = math.isqrt(at) + 1
            at -= (row - 1) ** 2
        else:
            row, at = divmod(at - width * width, 2 * width)
            row += width + 1
        count, group = at // 2 + 1, self.order[row - 1]
        if at % 2 == 0 and count < row:
            return [-self.variable(row - 1, count), self.variable(row, count)]
        before = [-self.variable(row - 1, count - 1)] if count > 1 else []
        return [-group if self.kind == "u" else group, *before, self.variable(row, count)]


class Reader:
    """The text: its head, and then record by record. What is read has its lines' numbers with it. Whoever checks a record adds it to
    `records`, by its kind and its set."""

    def __init__(self, problem, text, newest=NEWEST):
        if len(text) > MAX_BYTES:
            raise Refused(0, "TooLong")
        *self.lines, self.rest = text.split(b"\n")
        self.problem, self.at, self.version, self.newest, self.records = problem, 0, None, newest, []

    def line(self):
        """The next line, and its first word."""
        if self.at == len(self.lines):
            raise Refused(self.at + 1, "Truncated")
        self.at += 1
        line = Line(self.at, self.lines[self.at - 1].split(b" "))
        return line, line.take()

    def head(self):
        line, first = self.line()
        if first != b"p":
            line.refuse("BadLine")
        line.word(b"gmev")
        self.version = line.number_in(1, self.newest)
        counts = [line.number_in(0, MAX_COUNT) for _ in range(3)]
        line.end()
        if counts != [self.problem.vars, len(self.problem.clauses), self.problem.groups]:
            line.refuse("OtherProblem")

    def proof(self, variables, goal, group, begun=None):
        """Steps, and the line of their goal: `r` and this group, or `x`."""
        proof, (line, first) = Proof(), begun or self.line()
        while first == b"d":
            step = line.number_in(1, MAX_ID), line.literals(variables), line.ids()
            line.end()
            proof.steps.append((line.number, *step))
            line, first = self.line()
        if first != goal:
            line.refuse("BadLine")
        if goal == b"r":
            line.number_in(group, group)
        proof.goal, proof.line = line.number_in(1, MAX_ID), line.number
        line.end()
        return proof

    def refutation(self, variables, group):
        """What refutes a group of a correction: a proof, or from version 2 on a reference."""
        line, first = self.line()
        if self.version == 1 or first != b"t":
            return self.proof(variables, b"r", group, (line, first))
        line.number_in(group, group)
        reference = Reference(line.number, line.number_in(1, MAX_ID))
        line.end()
        return reference

    def witness(self, group):
        line, first = self.line()
        if first != b"w":
            line.refuse("BadLine")
        line.number_in(group, group)
        trues = line.ascending(self.problem.vars)
        line.end()
        return line.number, set(trues)

    def ending(self, line):
        """What an end line says behind a closing part: True if that none is missing, or a level."""
        word = line.take()
        if self.version < 3 or word not in KINDS:
            if word != b"complete":
                line.refuse("BadLine")
            return True
        level = Level(self.problem, self.records, KINDS[word], line.number_in(0, self.problem.groups))
        if level.is_counted and level.variables > MAX_VARIABLE:
            line.refuse("BadNumber")
        return level

    def piece(self):
        """A record: its kind, line and set, its witnesses, and its refutations; or the end: what closes it and what that says, or None."""
        line, first = self.line()
        variables = self.problem.vars + self.problem.groups
        if first in (b"u", b"m"):
            groups = line.ascending(self.problem.groups)
            line.end()
            if first == b"u":
                proofs = [self.proof(variables, b"r", 0)]
                return "u", line.number, groups, [self.witness(group) for group in groups], proofs
            witnesses = [self.witness(0)]
            return "m", line.number, groups, witnesses, [self.refutation(variables, group) for group in groups]
        if first == b"e":
            closing = None
            line.word(b"partial")
        else:
            proof = self.proof(self.problem.groups if self.version < 3 else MAX_VARIABLE, b"x", 0, (line, first))
            line, first = self.line()
            if first != b"e":
                line.refuse("BadLine")
            closing = Closing(proof, self.ending(line))
        line.end()
        if self.at < len(self.lines) or self.rest:
            raise Refused(self.at + 1, "TrailingText")
        return "e", line.number, closing, [], []


class Clauses:
    """Input clauses, numbered from 1, those of a level behind them, and steps."""

    def __init__(self, inputs, level=None):
        self.inputs, self.level, self.steps = inputs, level, {}
        self.count = len(inputs) + (level.size() if level else 0)

    def find(self, number):
        """The clause of this number, or None."""
        if number > self.count:
            return self.steps.get(number)
        return self.inputs[number - 1] if number <= len(self.inputs) else self.level.clause(number - len(self.inputs))


def check_step(clauses, variables, line, lits, hints):
    """Follows the hints of one step over so many variables."""
    if any(-lit in lits or abs(lit) > variables for lit in lits):
        raise Refused(line, "BadLiteral")
    falses = set(lits)
    if not hints:
        raise Refused(line, "NotFalse")
    for place, hint in enumerate(hints):
        clause = clauses.find(hint)
        if clause is None:
            raise Refused(line, "UnknownHint")
        left = set(clause) - falses
        if place == len(hints) - 1:
            if left:
                raise Refused(line, "NotFalse")
        elif len(left) != 1:
            raise Refused(line, "NotUnit" if left else "HintsLeft")
        else:
            falses.add(-left.pop())


def check_proof(clauses, variables, proof, may_have):
    """Derives the goal from the input clauses over so many variables. It may have these literals alone."""
    last = clauses.count
    for line, number, lits, hints in proof.steps:
        if number <= last:
            raise Refused(line, "IdNotRising")
        check_step(clauses, variables, line, lits, hints)
        clauses.steps[number], last = lits, number
    goal = clauses.find(proof.goal)
    if goal is None:
        raise Refused(proof.line, "UnknownClause")
    if any(lit not in may_have for lit in goal):
        raise Refused(proof.line, "NotRefuting")


def check_reference(records, groups, group, reference):
    """The earlier record is a conflict whose groups are outside the correction, or this one."""
    if reference.number > len(records):
        raise Refused(reference.line, "UnknownRecord")
    kind, named = records[reference.number - 1]
    if kind != "u" or any(other in groups and other != group for other in named):
        raise Refused(reference.line, "NotInside")


def check_record(problem, inputs, records, kind, groups, witnesses, proofs):
    """Checks a record's lines in their order, behind these earlier records, each a kind and a set."""
    def left_out(kept):
        return {-(problem.vars + group) for group in kept}

    def check_witnesses(kept):
        for (line, trues), set_of in zip(witnesses, kept):
            if not problem.is_satisfied(set_of, trues):
                raise Refused(line, "WitnessFails")

    variables = problem.vars + problem.groups
    if kind == "u":
        check_proof(Clauses(inputs), variables, proofs[0], left_out(groups))
        check_witnesses([set(groups) - {group} for group in groups])
    else:
        outside = set(range(1, problem.groups + 1)) - set(groups)
        check_witnesses([outside])
        for group, proof in zip(groups, proofs):
            if isinstance(proof, Reference):
                check_reference(records, groups, group, proof)
            else:
                check_proof(Clauses(inputs), variables, proof, left_out(outside | {group}))


def check_closing(problem, blocks, closing):
    """Checks what closes the evidence behind records with these block clauses."""
    if closing.says is True:
        check_proof(Clauses(blocks), problem.groups, closing.proof, set())
    else:
        level = closing.says
        check_proof(Clauses(blocks, level), level.variables, closing.proof, level.goal)


def check(problem, text, newest=NEWEST):
    """What the end of evidence of a version up to the newest one says, and its sets by kind; or the first refusal. The end says True
    if no set is missing, and False if there may be others, or it is a level."""
    reader, inputs = Reader(problem, text, newest), problem.selector_form()
    reader.head()
    sets, blocks, records = {"u": [], "m": []}, [], reader.records
    seen = set()
    while True:
        kind, line, groups, witnesses, proofs = reader.piece()
        if kind == "e":
            if groups is None:
                return False, sets
            check_closing(problem, blocks, groups)
            return groups.says, sets
        if (kind, *groups) in seen:
            raise Refused(line, "RepeatedSet")
        seen.add((kind, *groups))
        check_record(problem, inputs, records, kind, groups, witnesses, proofs)
        records.append((kind, groups))
        sets[kind].append(groups)
        blocks.append([-group for group in groups] if kind == "u" else groups)


def report(problem, says, sets):
    """The report of evidence with these sets, by what its end says."""
    if isinstance(says, Level):
        return least(problem, says, sets[says.kind])
    lines = [f"p gmus {problem.groups}", "s COMPLETE" if says else "s PARTIAL"]
    lines += [" ".join(map(str, [kind, *groups, 0])) for kind in "um" for groups in sorted(sets[kind])]
    return "\n".join(lines + [f"e {len(sets['u'])} {len(sets['m'])}"]) + "\n"


def least(problem, level, sets):
    """The text of a level: of the sets of its kind those with so many groups at most, smaller ones first."""
    found = sorted((len(groups), groups) for groups in sets if len(groups) <= level.most)
    lines = [f"p least {problem.groups}", f"s ATMOST {level.most}", *(" ".join(map(str, [level.kind, *groups, 0])) for _, groups in found)]
    return "\n".join([*lines, f"e {len(found)}"]) + "\n"


def check_alone(problem, text):
    """Checks the text of one record of version 1 by itself, as a journal has it; gives its kind and its groups."""
    reader = Reader(problem, text)
    reader.version = 1
    kind, line, groups, witnesses, proofs = reader.piece()
    if kind == "e" or reader.at < len(reader.lines) or reader.rest:
        raise Refused(line, "BadLine")
    check_record(problem, problem.selector_form(), [], kind, groups, witnesses, proofs)
    return kind, groups


def problem_of(name):
    """The problem of a file; refused if it is none."""
    return problem_in(command.bytes_of(name).decode("latin-1"), name)


def problem_in(text, name):
    """The problem that a text is; refused if it is none."""
    try:
        return Problem(text)
    except NoProblem as why:
        raise command.Refused(f"{name}: this is no GCNF or CNF file: {why}") from None
    except (ValueError, IndexError):
        raise command.Refused(f"{name}: this is no GCNF or CNF file: a number is missing in its header or in a clause") from None


def main(words):
    words, focus = without_focus(words)
    if len(words) != 2 or any(word.startswith("-") for word in words):
        raise command.WrongWords("a file and evidence about it are wanted")
    problem = problem_of(words[0])
    if focus is not None:
        problem.narrow(focus)
    with command.opened(words[1]) as file:
        text = file.read(MAX_BYTES + 1)
    try:
        says, sets = check(problem, text)
    except Refused as refused:
        print(f"evidence refused: {refused}", file=sys.stderr)
        return EVIDENCE_REFUSED
    command.put(report(problem, says, sets))
    return command.DONE


def as_command():
    """Ends the process as the words of its command line ask."""
    command.run("check_evidence.py", main, __doc__)
