"""Makes a file longer: all that it has stays, and what is new comes behind it.

    from gmus_tools.rules.after import Old
    old = Old(text, "laptop.gcnf")     a file that gcnf.py made
    old.longer(made)                   the text of the longer file, of the rules `made` that rules.read gave

The rules of the old file are known by their names, and keep their numbers, variables and clauses. What a new rule defines
stands in its own group, so the background stays as it is, and so does what came to [always] meanwhile (grown.py).
Refused is what changed or is gone.
"""
import re

from gmus_tools import limits
from gmus_tools.command import Refused, plain
from gmus_tools.rules.grown import HINT, Grown, clashing_lines, kept_lines
from gmus_tools.rules.language import DEFINED, comments_on

HEADER = re.compile(r"p gcnf ([0-9]{1,9}) ([0-9]{1,9}) ([0-9]{1,9})")
NAMING = re.compile(r"c (variable|group) ([1-9][0-9]{0,8}) (.*)")
CLAUSE = re.compile(r"\{([0-9]{1,9})\} ((?:-?[1-9][0-9]{0,8} )*)0")
OWN, LATER, FROM = "c rule ", "c always ", "c from "
PREFERENCE = re.compile(r"c (?:weight ([1-9][0-9]{0,8}) [1-9][0-9]{0,9}|keep ([1-9][0-9]{0,8}))")


class Old:
    """A file as gcnf.py writes it. Clauses are kept with the lines of the file in which they stand."""

    def __init__(self, text, source):
        self.source = source
        self.variables = {}                  # the numbers of the names
        self.names, self.heads = [""], [0]   # of the rules, and the lines in which they begin
        self.clauses = [[]]                  # of each group, but for those of [always]
        self.beside = [[]]                   # of each group, the lines of [always] that stand in it, each as its clauses
        self.first_groups = {}               # of each variable: the first group in which it stands
        self.header = None
        number = 0
        for number, line in enumerate(text.removesuffix("\n").split("\n"), 1):
            if not self.take(number, line):
                raise self.no_file_of_rules(number)
        count = sum(map(len, self.clauses)) + sum(len(line) for lines in self.beside for line in lines)
        if self.header is None or self.header[1:] != (count, len(self.names) - 1):
            raise self.no_file_of_rules(number)
        self.named = set(self.variables.values())

    def no_file_of_rules(self, number):
        return Refused(f"{self.source}: line {number}: what stands here is in no file that gcnf.py makes")

    def take(self, number, line):
        """Reads a line, and tells whether it may stand here."""
        naming, clause, header = NAMING.fullmatch(line), CLAUSE.fullmatch(line), HEADER.fullmatch(line)
        if self.header is None:
            if naming and naming.group(1) == "variable":
                return self.variables.setdefault(naming.group(3), int(naming.group(2))) == int(naming.group(2))
            self.header = tuple(map(int, header.groups())) if header else None
            places = list(self.variables.values())
            return header and len(set(places)) == len(places) and max(places, default=0) <= self.header[0]
        if naming and naming.group(1) == "group":
            self.names.append(naming.group(3))
            self.heads.append(number)
            self.clauses.append([])
            self.beside.append([])
            return int(naming.group(2)) == len(self.names) - 1
        if clause:
            return self.take_clause(number, int(clause.group(1)), [int(word) for word in clause.group(2).split()])
        if line.startswith(FROM):
            return True
        preference = PREFERENCE.fullmatch(line)
        if preference:
            # which may change from file to file
            return int(preference.group(1) or preference.group(2)) == len(self.names) - 1
        if line.startswith(LATER):
            self.beside[-1].append([])
            return len(self.names) > 1
        # what [always] says stands behind what the rule itself says
        return line.startswith(OWN) and not self.beside[-1]

    def take_clause(self, number, group, literals):
        here = len(self.names) - 1
        (self.beside[-1][-1] if self.beside[-1] else self.clauses[-1]).append((number, literals))
        for literal in literals:
            self.first_groups.setdefault(abs(literal), here)
        return group == here and all(abs(literal) <= self.header[0] for literal in literals)

    def form(self, held):
        """What clauses have in common that differ in the numbers of defined variables alone."""
        return form_of((literals for _, literals in held), lambda variable: variable if variable in self.named else None)

    def longer(self, made, clashing=clashing_lines):
        """The text of the file with the rules that it has not yet. `clashing` is asked about what came to [always]."""
        return Longer(self, made, clashing).text()


def form_of(clauses, name_of):
    """Clauses with their names, and with what is defined numbered as it comes."""
    defined = {}

    def form(literal):
        name = name_of(abs(literal))
        return literal > 0, name if name is not None else ("defined", defined.setdefault(abs(literal), len(defined)))

    return tuple(tuple(map(form, clause)) for clause in clauses)


class Longer:
    """The longer file."""

    def __init__(self, old, made, clashing):
        self.old, self.made = old, made
        known = {}
        for at, name in enumerate(made.names[1:], 1):
            known.setdefault(plain(name), at)
        # the places of the old groups among the rules, and of what is new
        self.at = [0] + [known.get(name, 0) for name in old.names[1:]]
        self.new = sorted(set(range(1, len(made.names))) - set(self.at))
        same = Same(old, made)
        kept = kept_lines(made.lines[0], old.clauses[0], same.is_line)
        self.background = [line for line, is_kept in zip(made.lines[0], kept or ()) if is_kept] if kept else made.lines[0]
        self.refuse_changes()
        self.grown = Grown(old, made, same, kept)
        self.grown.refuse_clashes(clashing)
        self.numbers = Numbers(old, made, self.grown)

    def refuse_changes(self):
        """Refuses what is gone or changed."""
        old, told = self.old, []
        for group, at in enumerate(self.at):
            what = f"the rule '{old.names[group]}'" if group else "[always]"
            if group and not at:
                told.append(f"{old.source}: line {old.heads[group]}: {what} is gone from {self.made.source}")
            else:
                told += self.change(group, what)
        if told:
            raise Refused("\n".join([*told, HINT]))

    def change(self, group, what):
        """The first line of a rule, or of [always], that isn't as it was, told."""
        same, left = Same(self.old, self.made), list(self.old.clauses[group])
        for line in self.made.lines[self.at[group]] if group else self.background:
            held, left = left[:len(line.clauses)], left[len(line.clauses):]
            if not same.are_clauses(line.clauses, held):
                return [f"{self.made.source}: line {line.number}: {what} is not as in {self.old.source}"]
        return [f"{self.old.source}: line {left[0][0]}: of {what} this is gone from {self.made.source}"] if left else []

    def text(self):
        made, parts = self.made, []
        for group, at in enumerate(self.at + self.new):
            parts += made.group_comments(group, at, made.names[at]) if group else []
            for kind, line, clauses in self.old_parts(group) if group < len(self.at) else self.new_parts(at):
                parts += comments_on(kind, line)
                parts += ["{%d} %s" % (group, " ".join(map(str, [*clause, 0]))) for clause in clauses]
        clauses = [part for part in parts if part.startswith("{")]
        literals = sum(part.count(" ") - 1 for part in clauses)
        counts = ((self.numbers.last, limits.VARIABLES, "variables"), (len(clauses), limits.CLAUSES, "clauses"),
                  (literals, limits.LITERALS, "literals"))
        for count, limit, what in counts:
            if count > limit:
                raise Refused(f"{made.source}: more than {limit:,} {what}\n  docs/FORMATS.md has the limits of a file")
        named = sorted((place, plain(name)) for name, place in zip(made.variables, self.numbers.places[1:]))
        head = [f"c variable {place} {name}" for place, name in named]
        head.append(f"p gcnf {self.numbers.last} {len(clauses)} {len(made.names) - 1}")
        return "\n".join(head + parts) + "\n"

    def old_parts(self, group):
        """The lines of an old group, each with its kind and its clauses as they were."""
        kept = [literals for _, literals in self.old.clauses[group]]
        for line in self.made.lines[self.at[group]] if group else self.background:
            yield "rule", line, kept[:len(line.clauses)]
            kept = kept[len(line.clauses):]
        for held in self.old.beside[group]:
            yield "always", self.grown.line_of(held), [literals for _, literals in held]

    def new_parts(self, at):
        """The lines of a new rule, and those of [always] that belong to it."""
        own = self.made.lines[at]
        beside = self.grown.lines_with([clause for line in own for clause in line.clauses])
        for kind, lines in (("rule", own), ("always", beside)):
            for line in lines:
                yield kind, line, map(self.numbers.of_clause, line.clauses)


class Same:
    """Compares the clauses of a rule with those of the old file: what one line defines may have other numbers."""

    def __init__(self, old, made):
        self.named = old.named
        self.places = [0] + [old.variables.get(plain(name)) for name in made.variables]
        self.there, self.back = {}, {}

    def is_line(self, clauses, held):
        """Whether the clauses of one line are those that are held."""
        self.there, self.back = {}, {}
        return self.are_clauses(clauses, held)

    def are_clauses(self, clauses, held):
        return len(clauses) == len(held) and all(map(self.is_clause, clauses, (literals for _, literals in held)))

    def is_clause(self, clause, old):
        return len(clause) == len(old) and all(map(self.is_literal, clause, old))

    def is_literal(self, literal, old):
        new, place = abs(literal), abs(old)
        if (literal > 0) != (old > 0):
            return False
        if new < DEFINED:
            return self.places[new] == place
        return place not in self.named and self.there.setdefault(new, place) == place == self.there[self.back.setdefault(place, new)]

    def place(self, variable):
        """The number that a name has in the old file, if it has one."""
        return self.places[variable] if variable < DEFINED else None

    @staticmethod
    def is_plain(clause):
        """Whether a clause has no defined variable."""
        return all(abs(literal) < DEFINED for literal in clause)

    def form(self, clauses):
        """The form of a line's clauses, as that of the old file's."""
        return form_of(clauses, lambda variable: None if variable >= DEFINED else self.places[variable] or ("new", variable))


class Numbers:
    """The numbers of variables in the longer file: names keep theirs, new names come behind all, then what is defined."""

    def __init__(self, old, made, grown):
        self.last = old.header[0]
        self.places = [0]
        for name in made.variables:
            place = old.variables.get(plain(name))
            self.places.append(place or self.next())
        # what a line of [always] defined in the old file it defines again
        self.defined = {abs(lit): abs(place) for line, held in grown.placed for clause, (_, literals) in zip(line.clauses, held)
                        for lit, place in zip(clause, literals) if abs(lit) >= DEFINED}

    def next(self):
        self.last += 1
        return self.last

    def of_clause(self, clause):
        return [self.of(abs(literal)) * (1 if literal > 0 else -1) for literal in clause]

    def of(self, variable):
        if variable < DEFINED:
            return self.places[variable]
        if variable not in self.defined:
            self.defined[variable] = self.next()
        return self.defined[variable]
