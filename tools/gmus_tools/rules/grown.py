"""An [always] that says more than that of an older file, to which nothing of a background may come.

    from gmus_tools.rules.grown import Grown, clashing_lines
    grown = Grown(old, made, same, kept)     `kept` tells of each line of [always] whether it is in the old background
    grown.refuse_clashes(clashing_lines)     refused where the new lines may change a set
    grown.lines_with(clauses)                those that a rule with these clauses has to have with it

The background of a longer file is that of the old one, and new lines of [always] are left out of it. No set changes by that if
new names alone can make these lines true, whatever the old names are: if all of them, without their literals of old names, can
hold together. For then the new names that no kept rule speaks of can be chosen so. A rule that does speak of a new name needs
the lines that have it, and those that hang together with them by new names, through others too. All of these stand in its
group, and so the kept rules clash just where they do with the whole of [always].

A line that was left out of the background before, and stands in groups of the old file, hangs together by the names that were
new then: those that stand in no group before the first one that has it.
"""
import os
import tempfile

from gmus_tools import program
from gmus_tools.command import Refused
from gmus_tools.report import Report

FEW = 20        # of the sets of lines that can't hold, so many are asked for at most
HINT = "  a file that says this is made without --after, and carries nothing over"
WAY_OUT = "  it can be a rule of its own, under [NAME];" + HINT[1:]


class Grown:
    """The lines of [always] that aren't in the old background, and the rules to which they belong."""

    def __init__(self, old, made, same, kept):
        self.old, self.made = old, made
        later = {}          # what [always] says in groups of the old file, by its form: the first group, and the clauses
        for group, lines in enumerate(old.beside):
            for held in lines:
                later.setdefault(old.form(held), (group, held))
        self.by_form = {same.form(line.clauses): line for line in made.lines[0]}
        self.refuse_gone(later)
        self.lines, self.links, self.placed = [], [], []
        background = [line for line, is_kept in zip(made.lines[0], kept) if is_kept]
        said = {same.form([clause]) for line in background for clause in line.clauses if same.is_plain(clause)}
        seen = {same.form(line.clauses) for line in background}
        for line, is_kept in zip(made.lines[0], kept):
            form = same.form(line.clauses)
            is_said = all(same.is_plain(clause) and same.form([clause]) in said for clause in line.clauses)
            if is_kept or is_said or form in seen:
                continue
            seen.add(form)
            group, held = later.get(form, (None, None))
            self.lines.append(line)
            self.links.append({it for it in variables_in(line.clauses) if self.is_link(same.place(it), group)})
            self.placed += [(line, held)] if held else []
        self.with_variable = {}
        for at, link in enumerate(self.links):
            for variable in link:
                self.with_variable.setdefault(variable, []).append(at)

    def is_link(self, place, group):
        """Whether a variable was new with a line that stands in this group first, or in none; `place` is its old number."""
        first = self.old.first_groups.get(place)
        return first is None or group is not None and first >= group

    def refuse_gone(self, later):
        """Refuses what stands in groups of the old file and is no longer under [always]."""
        gone = [held[0][0] for form, (_, held) in later.items() if form not in self.by_form]
        if gone:
            raise Refused("\n".join([*(f"{self.old.source}: line {number}: of [always] this is gone from {self.made.source}"
                                       for number in gone), HINT]))

    def refuse_clashes(self, clashing):
        """Refuses lines that new names alone can't make true. `clashing` is given lines, each as its clauses, and gives the
        places of some that can't hold together; or nothing if all can."""
        placed = {line.number for line, _ in self.placed}
        new = [at for at, line in enumerate(self.lines) if line.number not in placed]
        numbers = {}
        cut = [[[numbers.setdefault(abs(lit), len(numbers) + 1) * (1 if lit > 0 else -1) for lit in clause if abs(lit) in self.links[at]]
                for clause in self.lines[at].clauses] for at in new]
        found = [self.lines[new[at]] for at in clashing(cut)] if cut else []
        if found:
            others = ", ".join(str(line.number) for line in found[1:])
            these = f"it and those of line {others} true together" if others else "it true"
            raise Refused(f"{self.made.source}: line {found[0].number}: this line of [always] is not in {self.old.source}, and new "
                          f"names alone can't make {these}\n{WAY_OUT}")

    def lines_with(self, clauses):
        """The lines that hang together with these clauses, in their order."""
        todo, seen, found = list(variables_in(clauses)), set(), set()
        while todo:
            variable = todo.pop()
            for at in self.with_variable.get(variable, ()) if variable not in seen else ():
                if at not in found:
                    found.add(at)
                    todo += variables_in(self.lines[at].clauses)
            seen.add(variable)
        return [self.lines[at] for at in sorted(found)]

    def line_of(self, held):
        """The line under [always] that clauses of the old file come of."""
        return self.by_form[self.old.form(held)]


def variables_in(clauses):
    return {abs(lit) for clause in clauses for lit in clause}


def kept_lines(lines, held, is_same):
    """Of each line whether it is the next of those that an old file holds, such that all of these are met in their order; or None
    if they can't be. `is_same(clauses, held)` compares a line's clauses with as many that are held."""
    spare = sum(len(line.clauses) for line in lines) - len(held)
    read, ways = 0, [{0: 0}]      # after each line: how many clauses may be met by then, and how many before that line
    for line in lines:
        count, now = len(line.clauses), {}
        for met in ways[-1]:
            if is_same(line.clauses, held[met:met + count]):
                now[met + count] = met
            if read + count - met <= spare:
                now.setdefault(met, met)
        read += count
        ways.append(now)
    if len(held) not in ways[-1]:
        return None
    met, kept = len(held), []
    for line, now in zip(reversed(lines), reversed(ways)):
        kept.append(now[met] != met or not line.clauses)
        met = now[met]
    return kept[::-1]


def clashing_lines(lines):
    """The places of some lines that can't hold together, each given as its clauses; nothing if all can. The program is called
    once, and each line is a group."""
    clauses = [(group, clause) for group, line in enumerate(lines, 1) for clause in line]
    text = [f"p gcnf {max(variables_in(clause for _, clause in clauses), default=0)} {len(clauses)} {len(lines)}"]
    text += ["{%d} %s" % (group, " ".join(map(str, [*clause, 0]))) for group, clause in clauses]
    with tempfile.TemporaryDirectory(prefix="gmus-") as folder:
        name = os.path.join(folder, "lines.gcnf")
        with open(name, "w", encoding="ascii") as file:
            file.write("\n".join([*text, ""]))
        status, report, told = program.call(["list", name, "--limit", str(FEW)])
    if status not in (program.DONE, program.LIMIT_REACHED):
        raise Refused(f"whether [always] may be longer was not found: the program ended with {status}: {told.strip()}")
    found = Report(report)
    return [group - 1 for group in (sorted(found.conflicts, key=len) or found.corrections)[0]]
