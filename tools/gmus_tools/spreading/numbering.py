"""A problem under other numbers, and what is said of it.

Two runs over one file begin with the same questions, and find the same sets first. Under other numbers of its groups and
variables, and with its clauses in another order, they find others. A numbering is a function of the problem's sizes and one
number alone, on every machine: it is made of `Random.random`, whose numbers stay the same from one version of Python to the
next. Evidence is mapped by its text: literals, selectors and groups by their numbers, the ids of input clauses by their
places. Steps keep their ids, since there are as many input clauses.
"""
import random
import re
from collections import namedtuple

from gmus_tools.command import Refused
from gmus_tools.spreading.records import Record, Reference, Refutation, line_of

COMMENT = re.compile(rb"(?m)^[ \t]*c[^\n]*")
Sizes = namedtuple("Sizes", "vars clauses groups")


def plain(text, name="the file"):
    """The same problem in GCNF, a clause a line, without comments: what tasks read."""
    words = COMMENT.sub(b"", text).replace(b"{", b" { ").replace(b"}", b" } ").split()
    try:
        if words[:2] == [b"p", b"gcnf"]:
            sizes, clauses = Sizes(*map(int, words[2:5])), in_braces(words[5:])
        elif words[:2] == [b"p", b"cnf"]:
            sizes, clauses = Sizes(int(words[2]), int(words[3]), int(words[3])), in_order(words[4:], int(words[3]))
        else:
            raise ValueError
        lines = [b"{%d} %s" % (group, b"".join(b"%d " % lit for lit in map(int, lits))) for group, lits in clauses]
    except (ValueError, IndexError):
        raise Refused(f"{name}: this is no GCNF or CNF file") from None
    return b"".join([line_of(b"p gcnf", *sizes), b"\n", *(line + b"0\n" for line in lines)])


def in_braces(words):
    """The groups and literals of clauses that begin with their groups."""
    at = 0
    while at < len(words):
        ends = at + 3
        while words[ends].strip(b"0"):
            ends += 1
        yield int(words[at + 1]), words[at + 3:ends]
        at = ends + 1


def in_order(words, count):
    """The groups and literals of clauses, each of which is a group."""
    at = 0
    for group in range(1, count + 1):
        ends = at
        while words[ends].strip(b"0"):
            ends += 1
        yield group, words[at:ends]
        at = ends + 1


def sizes_of(text):
    """The numbers in the header of a plain text."""
    return Sizes(*map(int, text[:text.index(b"\n")].split()[2:]))


def shuffled(count, chance):
    """The numbers from 1 on in an order of chance, behind a 0."""
    items = list(range(count + 1))
    for end in range(count, 1, -1):
        at = 1 + int(chance() * end)
        items[at], items[end] = items[end], items[at]
    return items


def turned(items):
    """The place of each number."""
    found = [0] * len(items)
    for at, item in enumerate(items):
        found[item] = at
    return found


class Kept(dict):
    """What was found for a text. Many records of one run have the same steps and the same witnesses."""

    def __init__(self, find):
        super().__init__()
        self.find = find

    def __missing__(self, text):
        found = self[text] = self.find(text)
        return found


class Way:
    """One way of a numbering: what stands for a variable, a group, a clause, and for the word of a literal or of a clause."""

    def __init__(self, sizes, variables, groups, clauses):
        self.sizes, self.variables, self.groups, self.clauses = sizes, variables, groups, clauses
        self.lit, self.clause, self.written = {}, {}, []
        self.lits, self.hints, self.trues = Kept(self.map_lits), Kept(self.map_hints), Kept(self.map_trues)

    def words(self):
        """Finds what stands for each word."""
        numbers = [*self.variables, *(self.sizes.vars + group for group in self.groups[1:])]
        self.written = [b"%d" % at for at in range(max(len(numbers), len(self.clauses)))]
        for at, found in enumerate(numbers):
            self.lit[self.written[at]], self.lit[b"-%d" % at] = self.written[found], b"-%d" % found
        self.clause.update((self.written[at], self.written[found]) for at, found in enumerate(self.clauses))

    def map_lits(self, text):
        return b" ".join(map(self.lit.__getitem__, text.split(b" ")))

    def map_hints(self, text):
        # what is no clause of the problem is a step
        hints = text.split(b" ")
        return b" ".join(map(self.clause.get, hints, hints))

    def map_trues(self, text):
        """The variables of a witness, ascending, with the 0 behind them."""
        trues = sorted(map(self.variables.__getitem__, map(int, text.split(b" ")[:-1])))
        return b" ".join([*map(self.written.__getitem__, trues), b"0"])

    def step(self, line):
        first, hints, _ = line.split(b" 0")
        head, number, *lits = first.split(b" ", 2)
        mapped = [head, number, *map(self.lits.__getitem__, lits), b"0"]
        return b" ".join([*mapped, self.hints[hints[1:]], b"0"] if hints else [*mapped, b"0"])

    def witness(self, line):
        """The group of a witness, and its line."""
        _, group, trues = line.split(b" ", 2)
        group = self.groups[int(group)]
        return group, b" ".join([b"w", self.written[group], self.trues[trues]])

    def refutation(self, it):
        group = self.groups[it.group]
        if isinstance(it, Reference):
            return Reference(group, it.number)
        steps = b"\n".join(map(self.step, it.steps.split(b"\n"))) if it.steps else b""
        return Refutation(group, steps, self.clause.get(it.goal, it.goal))

    def record(self, it):
        """A record of one problem as it is of the other. A reference keeps its number."""
        if not self.lit:
            self.words()
        witnesses = [line for _, line in sorted(map(self.witness, it.witnesses))]
        refutations = sorted(map(self.refutation, it.refutations), key=lambda each: each.group)
        return Record(it.kind, tuple(sorted([self.groups[group] for group in it.groups])), witnesses, refutations)


class Numbering:
    """The numbering of a number for problems of these sizes: `there` leads from the file's own, `back` to it."""

    def __init__(self, sizes, number):
        chance = random.Random(number).random
        orders = [shuffled(count, chance) for count in (sizes.vars, sizes.groups, sizes.clauses)]
        self.there, self.back = Way(sizes, *orders), Way(sizes, *map(turned, orders))

    def text(self, given):
        """The plain text of a problem under the new numbers."""
        self.there.words()
        head, *lines = given.split(b"\n")[:-1]
        groups, lit, found = self.there.groups, self.there.lit, []
        for old in self.back.clauses[1:]:
            group, *lits = lines[old - 1].split(b" ")
            found.append(b"{%d} %s\n" % (groups[int(group[1:-1])], b" ".join([lit[word] for word in lits])))
        return b"".join([head, b"\n", *found])
