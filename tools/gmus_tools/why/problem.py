"""Reads a GCNF or CNF file with the comments that say what its clauses were written as.

    from gmus_tools.why.problem import Problem
    problem = Problem(open("laptop.gcnf", "rb"), "laptop.gcnf")     raises command.Refused
    problem.name(3)            the name of group 3
    problem.written_as(17)     where clause 17 was written, and as what

In a CNF file each clause is a group of its own, under the clause's number. docs/FORMATS.md has the comments.
"""
import array
import re

from gmus_tools.command import Refused, plain
from gmus_tools.rules.words import written

GROUP = re.compile(r"c[ \t]+group[ \t]+([0-9]{1,18})[ \t]+(\S.*)")
VARIABLE = re.compile(r"c[ \t]+variable[ \t]+([0-9]{1,18})[ \t]+(\S.*)")
RULE = re.compile(r"c[ \t]+(rule|always)[ \t]+([0-9]{1,18})[ \t]+(\S.*)")
FROM = re.compile(r"c[ \t]+from[ \t]+([0-9]{1,18})[ \t]+(\S.*)")
LARGEST = 2 ** 30


class Problem:
    """The clauses of a file, numbered from 1, with their groups; and names of groups and variables, and rules."""

    def __init__(self, lines, source, focus=None):
        """With a focus the clauses of groups that aren't in it are left out, and the others are numbered without gaps."""
        self.source, self.focus = source, focus
        self.variables = self.count = self.groups = 0
        self.is_gcnf = True
        self.group_of = array.array("i", [0])       # of each clause
        self.rule_of = array.array("i", [0])        # of each clause, a place in `rules`
        self.starts = array.array("q", [0, 0])      # where each clause's literals begin, and where the last one's end
        self.literals = array.array("i")
        self.rules = [None]                         # of each rule's line its place, its text, and whether it is of [always]
        self.group_names, self.variable_names = {}, {}
        Reader(self).read(lines)
        self.numbers = range(self.count + 1)        # of each clause, its number in the file
        if focus is not None:
            self.narrow(focus)

    def narrow(self, focus):
        """Leaves out the clauses of groups that aren't in focus."""
        kept = {0, *focus}
        self.numbers = [0, *(clause for clause in range(1, self.count + 1) if self.group_of[clause] in kept)]
        starts, literals = array.array("q", [0, 0]), array.array("i")
        for clause in self.numbers[1:]:
            literals.extend(self.lits(clause))
            starts.append(len(literals))
        self.group_of = array.array("i", map(self.group_of.__getitem__, self.numbers))
        self.rule_of = array.array("i", map(self.rule_of.__getitem__, self.numbers))
        self.starts, self.literals, self.count = starts, literals, len(self.numbers) - 1

    def lits(self, clause):
        return self.literals[self.starts[clause]:self.starts[clause + 1]]

    def selector_form(self, clause):
        """The clause as evidence has it: with the negated selector of its group."""
        group = self.group_of[clause]
        lits = self.lits(clause)
        if group:
            lits.append(-(self.variables + group))
        return lits

    def name(self, group):
        return self.group_names.get(group, f"group {group}")

    def told_with(self, clause):
        """The group with which the clause is told: its own, or the background if it is of [always] and stands elsewhere."""
        rule = self.rules[self.rule_of[clause]]
        return 0 if rule and rule[2] else self.group_of[clause]

    def written_as(self, clause):
        """Where the clause was written, and as what: its line of rules, or of the file of which that was made, or else its number
        and its literals."""
        rule = self.rules[self.rule_of[clause]]
        if rule:
            return rule[:2]
        words = [("not " if lit < 0 else "") + self.variable(abs(lit)) for lit in self.lits(clause)]
        return f"clause {self.numbers[clause]}", " or ".join(words) or "(the empty clause, which never holds)"

    def variable(self, number):
        return written(self.variable_names[number]) if number in self.variable_names else str(number)


class Reader:
    """Reads the lines of a file: comments, and the numbers between them."""

    def __init__(self, problem):
        self.problem = problem
        self.number = 0          # of the line
        self.header = []         # its words, until there are enough of them
        self.is_ended = False    # whether a word was read that ends a CNF file
        self.clause = None       # the literals of the clause that was begun, or None
        self.group = None        # the group that was read in braces for the next clause, or `{` or `}` behind it
        self.rule, self.rule_group = 0, None
        self.origin = None       # where the next rule's line comes from, if it is not a line of rules

    def refuse(self, what):
        raise Refused(f"{self.problem.source}: line {self.number}: {what}")

    def read(self, lines):
        for self.number, line in enumerate(lines, 1):
            if line.lstrip(b" \t").startswith(b"c"):
                self.comment(line.decode("utf-8", "replace").strip())
            else:
                self.words(line)
        problem, self.number = self.problem, max(1, self.number)
        if not self.is_header_read():
            self.refuse("this is no GCNF or CNF file")
        if len(problem.group_of) - 1 != problem.count or self.clause is not None or self.group is not None:
            self.refuse(f"the file ends with {len(problem.group_of) - 1} whole clauses, and its header says {problem.count}")

    def comment(self, line):
        problem = self.problem
        for pattern, names in ((GROUP, problem.group_names), (VARIABLE, problem.variable_names)):
            found = pattern.match(line)
            if found:
                number, name = int(found.group(1)), plain(found.group(2))
                names[number] = f"{names[number]} {name}" if number in names and pattern is GROUP else name
        found = FROM.match(line)
        if found:
            self.origin = f"{plain(found.group(2))}:{int(found.group(1))}"
        found = RULE.match(line)
        if found:
            place, self.origin = self.origin or f"line {int(found.group(2))}", None
            problem.rules.append((place, plain(found.group(3)), found.group(1) == "always"))
            self.rule, self.rule_group = len(problem.rules) - 1, None

    def is_header_read(self):
        return len(self.header) == (4 if self.header[1:2] == [b"cnf"] else 5)

    def words(self, line):
        words = line.replace(b"{", b" { ").replace(b"}", b" } ").split()
        if not words or self.is_ended:
            return
        if not self.is_header_read():
            words = self.read_header(words)
        try:
            zeros = 1 + (words[:2] == [b"{", b"0"])
            if self.clause is None and self.group is None and words[-1:] == [b"0"] and words.count(b"0") == zeros and not self.ends(words[0]):
                self.whole_clause(words)
            else:
                for word in words:
                    self.one_word(word)
        except ValueError:
            self.refuse("this is no clause of a GCNF file")

    def read_header(self, words):
        """Takes the words of the header, and gives those behind it."""
        wanted = 4 if (self.header + words)[1:2] == [b"cnf"] else 5
        left = wanted - len(self.header)
        self.header += words[:left]
        if self.header[:1] != [b"p"] or len(self.header) > 1 and self.header[1] not in (b"gcnf", b"cnf"):
            self.refuse("this is no GCNF or CNF file, which begins with 'p gcnf' or 'p cnf'")
        if len(self.header) == wanted:
            try:
                numbers = list(map(int, self.header[2:]))
            except ValueError:
                numbers = [-1]
            if min(numbers) < 0 or max(numbers) > LARGEST:
                self.refuse("the header has a number that is none")
            problem = self.problem
            problem.is_gcnf = wanted == 5
            problem.variables, problem.count, problem.groups = numbers if wanted == 5 else [*numbers, numbers[1]]
        return words[left:]

    def whole_clause(self, words):
        """A line that is one clause."""
        if self.problem.is_gcnf:
            if words[0] != b"{" or words[2] != b"}":
                raise ValueError
            self.add(int(words[1]), list(map(int, words[3:-1])))
        else:
            self.add(len(self.problem.group_of), list(map(int, words[:-1])))

    def ends(self, word):
        """Whether this word ends a CNF file, behind its last clause."""
        problem = self.problem
        return not problem.is_gcnf and self.clause is None and len(problem.group_of) > problem.count and word.startswith(b"%")

    def one_word(self, word):
        """One word of clauses that stand on lines as they like."""
        if self.is_ended or self.ends(word):
            self.is_ended = True
        elif self.clause is not None:
            number = int(word)
            if number:
                self.clause.append(number)
            else:
                self.add(self.group, self.clause)
                self.clause = self.group = None
        elif not self.problem.is_gcnf:
            self.group, self.clause = len(self.problem.group_of), []
            self.one_word(word)
        elif self.group is None:
            if word != b"{":
                raise ValueError
            self.group = word
        elif self.group == b"{":
            self.group = int(word)
        elif word == b"}":
            self.clause = []
        else:
            raise ValueError

    def add(self, group, lits):
        problem = self.problem
        if not 0 <= group <= problem.groups or len(problem.group_of) > problem.count:
            self.refuse("there are more clauses or groups than the header says")
        if lits and max(max(lits), -min(lits)) > problem.variables:
            self.refuse("there are more variables than the header says")
        if self.rule and self.rule_group is None:
            self.rule_group = group
        elif group != self.rule_group:
            self.rule = 0
        problem.group_of.append(group)
        problem.rule_of.append(self.rule)
        problem.literals.extend(lits)
        problem.starts.append(len(problem.literals))
