"""Finds the conflicts in evidence, and the clauses of the file on which the refutation of one rests; and the witnesses of
corrections.

    from gmus_tools.why.evidence import Evidence
    evidence = Evidence(open("laptop.evidence", "rb"), "laptop.evidence", problem)     raises command.Refused
    evidence.conflicts          the sets of groups, in the report's order
    evidence.clauses_of(2)      the numbers of the clauses on which the third one rests
    evidence.corrections()      where the record of each correction stands, by its groups

No hint is trusted. The refutation is walked from its end: each step on which it rests is checked as docs/FORMATS.md says, by
unit propagation along its hints. Of these hints those count that the propagation needed. What a refutation does not rest on
is not looked at, and neither are the witnesses of conflicts and the closing part: `gmus check` checks all.
"""
import array
import bisect
import re

from gmus_tools.command import Refused

VERSIONS = (b"1", b"2", b"3")
# how evidence ends, and from version 3 on also so, with a number of groups
COMPLETE, PARTIAL = b"e complete\n", b"e partial\n"
UP_TO = re.compile(rb"e (conflicts|corrections) (0|[1-9][0-9]{0,19})\n")
LARGEST_ID = 2 ** 63 - 1
FIRST_WORDS = (b"u", b"m", b"d", b"r", b"w", b"t", b"x", b"e")


class Evidence:
    """The conflicts of evidence, and where their records stand. Its end says that no set is missing (`is_complete`), no conflict of
    `up_to` groups or fewer, or none of these."""

    def __init__(self, file, source, problem):
        self.file, self.source, self.problem = file, source, problem
        self.version, self.is_complete, self.up_to = None, False, None
        self.conflicts, self.places = [], []
        self.behind = []         # of each correction, where its record stands, as a place and the number of a line
        self.find_records()

    def refuse(self, line, what):
        raise Refused(f"{self.source}: line {line}: {what}")

    # ---- where the records stand

    def find_records(self):
        """Reads the head, the set of each conflict, and the end."""
        found, at, number, line = {}, 0, 0, b""
        for number, line in enumerate(self.file, 1):
            first = line.partition(b" ")[0]
            if number == 1:
                self.read_head(line)
            elif first not in FIRST_WORDS:
                self.refuse(number, "this is no line of evidence")
            elif first == b"u":
                groups = self.numbers(number, line, self.problem.groups)
                if groups in found:
                    self.refuse(number, "19 RepeatedSet: this conflict stood before")
                found[groups] = at, number
            elif first == b"m":
                self.behind.append((at, number))
            at += len(line)
        self.read_end(number, line)
        self.conflicts = sorted(found)
        self.places = [found[groups] for groups in self.conflicts]

    def read_head(self, line):
        words = line.split()
        if words[:2] != [b"p", b"gmev"]:
            self.refuse(1, "this is no evidence of gmus, which begins with 'p gmev'")
        if words[2:3] not in [[version] for version in VERSIONS] or len(words) != 6:
            self.refuse(1, "this evidence is of a version that is not known here")
        self.version = words[2]
        problem = self.problem
        if words[3:] != [b"%d" % count for count in (problem.variables, problem.count, problem.groups)]:
            focus = "" if problem.focus is None else " with this focus"
            self.refuse(1, f"4 OtherProblem: this is no evidence about {problem.source}{focus}")

    def read_end(self, number, line):
        """Reads the last line. What it says of levels of corrections is not kept."""
        level = UP_TO.fullmatch(line) if self.version == b"3" else None
        if line not in (COMPLETE, PARTIAL) and level is None:
            self.refuse(max(1, number + line.endswith(b"\n")), "3 Truncated: the evidence has no end")
        if level and int(level[2]) > self.problem.groups:
            self.refuse(number, f"2 BadNumber: a number of groups up to {self.problem.groups} is due here")
        self.is_complete = line == COMPLETE
        self.up_to = int(level[2]) if level and level[1] == b"conflicts" else None

    def numbers(self, number, line, greatest, what="groups"):
        """The numbers of a set, which ascend, behind the line's first word."""
        *found, end = self.integers(number, line[2:])
        if end != 0 or any(first >= second for first, second in zip([0, *found], [*found, greatest + 1])):
            self.refuse(number, f"2 BadNumber: this is no set of {what}")
        return tuple(found)

    def integers(self, number, text):
        """The numbers of a text, with a blank between each two."""
        try:
            if text.translate(None, b"-0123456789 \n"):
                raise ValueError
            return list(map(int, text.split(b" ")))
        except ValueError:
            return self.refuse(number, "2 BadNumber: a number is due here")

    # ---- what a correction leaves

    def line_at(self, at):
        self.file.seek(at)
        return self.file.readline()

    def corrections(self):
        """Where the record of each correction stands, by its groups."""
        found = {}
        for at, number in self.behind:
            groups = self.numbers(number, self.line_at(at), self.problem.groups)
            if groups in found:
                self.refuse(number, "19 RepeatedSet: this correction stood before")
            found[groups] = at, number
        return found

    def witness(self, at, number):
        """The variables that the witness makes true of the correction whose record stands there."""
        self.line_at(at)
        line = self.file.readline()
        if not line.startswith(b"w 0 "):
            self.refuse(number + 1, "1 BadLine: a line 'w 0 .. 0' is due here")
        return self.numbers(number + 1, line[2:], self.problem.variables, "variables")

    # ---- what one refutation rests on

    def clauses_of(self, conflict):
        """The numbers of the clauses, ascending, on which the refutation of a conflict rests."""
        groups = self.conflicts[conflict]
        at, number = self.places[conflict]
        self.file.seek(at)
        lines = iter(self.file)
        next(lines)
        refutation = Refutation(self, number + 1)
        for number, line in enumerate(lines, number + 1):
            if not line.startswith(b"d "):
                break
            refutation.add(number, line)
        if not line.startswith(b"r 0 ") or len(line.split()) != 3:
            self.refuse(number, "1 BadLine: a line 'r 0 ID' is due here")
        goal = self.integers(number, line[4:])[0]
        used = refutation.inputs_of(number, goal, groups)
        # With the selectors of all other groups false, their clauses hold. So the refutation rests on the others alone.
        kept = set(groups) | {0}
        used = [clause for clause in used if self.problem.group_of[clause] in kept]
        missing = set(groups) - {self.problem.group_of[clause] for clause in used}
        if missing:
            self.refuse(number, f"this conflict is not minimal: its refutation rests on no clause of group {min(missing)}")
        return used


class Refutation:
    """The steps of one refutation, which stay text until one is followed."""

    def __init__(self, evidence, first_line):
        self.evidence, self.first_line = evidence, first_line
        self.inputs = evidence.problem.count
        self.variables = evidence.problem.variables + evidence.problem.groups
        self.ids, self.texts = array.array("q"), []
        self.read = {}       # the literals and hints of the steps that were looked at, by their places

    def add(self, number, line):
        words = line.split(b" ", 2)
        identity = self.evidence.integers(number, words[1])[0] if len(words) == 3 else 0
        if not 1 <= identity <= LARGEST_ID:
            self.evidence.refuse(number, "2 BadNumber: a step's id is due here")
        if identity <= (self.ids[-1] if self.ids else self.inputs):
            self.evidence.refuse(number, f"14 IdNotRising: step {identity} is not above each clause before it")
        self.ids.append(identity)
        self.texts.append(words[2])

    def place_of(self, identity):
        """The place of a step, or None."""
        place = bisect.bisect_left(self.ids, identity)
        return place if place < len(self.ids) and self.ids[place] == identity else None

    def step(self, place):
        """The literals and hints of a step."""
        if place not in self.read:
            number = self.first_line + place
            numbers = self.evidence.integers(number, self.texts[place])
            try:
                end = numbers.index(0)
                lits, hints = numbers[:end], numbers[end + 1:numbers.index(0, end + 1)]
            except ValueError:
                self.evidence.refuse(number, "1 BadLine: a step's literals or hints have no end")
            if len(lits) + len(hints) + 2 != len(numbers):
                self.evidence.refuse(number, "1 BadLine: words stand behind the step")
            if any(abs(lit) > self.variables for lit in lits) or hints and not 1 <= min(hints) <= max(hints) <= LARGEST_ID:
                self.evidence.refuse(number, "2 BadNumber: a literal or a hint is out of its range")
            self.read[place] = array.array("i", lits), array.array("q", hints)
        return self.read[place]

    def clause(self, identity):
        """The literals of an input clause or of a step, or None."""
        if 1 <= identity <= self.inputs:
            return self.evidence.problem.selector_form(identity)
        place = self.place_of(identity)
        return None if place is None else self.step(place)[0]

    def inputs_of(self, number, goal, groups):
        """The input clauses on which the goal rests, which is a clause of negated selectors of these groups."""
        clause = self.clause(goal)
        if clause is None:
            self.evidence.refuse(number, f"16 UnknownClause: no clause has the id {goal}")
        selectors = {-(self.evidence.problem.variables + group) for group in groups}
        if any(lit not in selectors for lit in clause):
            self.evidence.refuse(number, f"17 NotRefuting: clause {goal} has a literal that is no negated selector of the set")
        inputs, needed = set(), bytearray(len(self.ids))
        self.mark(goal, inputs, needed)
        for place in range(len(self.ids) - 1, -1, -1):
            if needed[place]:
                for hint in self.needed_hints(place):
                    self.mark(hint, inputs, needed)
            # only later steps name this one, and they have been followed
            self.read.pop(place, None)
            self.texts[place] = None
        return sorted(inputs)

    def mark(self, identity, inputs, needed):
        if identity <= self.inputs:
            inputs.add(identity)
        else:
            needed[self.place_of(identity)] = 1

    def needed_hints(self, place):
        """Checks a step along its hints, and gives those that the propagation needed.

        A step with a literal and its negative, which evidence may not have, makes nothing true that wasn't, so none is needed.
        """
        lits, hints = self.step(place)
        number, identity = self.first_line + place, self.ids[place]
        falses = dict.fromkeys(lits)      # the false literals, each with the place of the hint that made it false
        clauses = []
        for at, hint in enumerate(hints):
            clause = self.clause(hint) if hint < identity else None
            if clause is None:
                self.evidence.refuse(number, f"10 UnknownHint: step {identity} names {hint}, which is no clause before it")
            clauses.append(clause)
            left = {lit for lit in clause if lit not in falses}
            if at < len(hints) - 1 and len(left) != 1:
                name = "11 NotUnit" if left else "13 HintsLeft"
                self.evidence.refuse(number, f"{name}: step {identity} does not follow by its hints")
            if at == len(hints) - 1 and left:
                break
            for lit in left:
                falses.setdefault(-lit, at)
        else:
            if hints:
                return self.needed_by_last(hints, clauses, falses)
        return self.evidence.refuse(number, f"12 NotFalse: step {identity} does not follow by its hints")

    @staticmethod
    def needed_by_last(hints, clauses, falses):
        """The hints on which the falseness of the last one's clause rests."""
        needed = {len(hints) - 1}
        for at in range(len(hints) - 1, -1, -1):
            if at in needed:
                needed.update(falses[lit] for lit in clauses[at] if falses.get(lit) is not None)
        return [hints[at] for at in needed]
