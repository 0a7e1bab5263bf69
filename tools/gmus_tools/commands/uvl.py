"""Writes rules from a feature model in UVL, the Universal Variability Language.

    tools/uvl.py [--skip] MODEL.uvl [WISHES] [-o RULES]

The tree of features holds always, and each constraint is a rule under its own text. With WISHES the constraints hold always
too, and each line of WISHES is a rule: a feature, or a constraint over features, as

    Touch
    !Glossy
    Touch => Matte

--skip leaves out what rules can't say, constraints with arithmetic and values of features, and tells each on standard error.
One of the files may be -, for standard input. docs/IMPORT.md says what is read, and what is refused.
"""
import re
import sys

from gmus_tools import formulas
from gmus_tools.command import Refused, WrongWords, here, put, run, text_of
from gmus_tools.rules import text as rule_text
from gmus_tools.uvl.constraint import Wishes
from gmus_tools.uvl.model import Model
from gmus_tools.uvl.text import Source


class Writer:
    """The rules of a model, as they grow."""

    def __init__(self, model, wishes):
        self.model, self.wishes = model, wishes
        self.told = []              # what a person should know of the model
        self.names = rule_text.Names()
        self.literals = {it.name: rule_text.literal(self.names.new(it.name)) for it in model.features}
        self.made = rule_text.RuleText()

    def text(self):
        root = self.model.features[0]
        self.made.always([self.literals[root.name]], origin=self.origin(root.line))
        for feature in self.model.features:
            lines = [line for group in feature.groups for line in self.group_lines(feature, group)]
            if lines:
                self.made.always(lines, origin=self.origin(feature.line))
        self.add_constraints(self.literals[root.name])
        return self.made.text()

    def group_lines(self, feature, group):
        """The lines of a group below a feature."""
        parent = self.literals[feature.name]
        children = [self.literals[child.name] for child in group.features]
        if group.kind == "mandatory":
            return [f"{parent} iff {child}" for child in children]
        if group.kind == "or":
            return [f"{parent} iff ({' or '.join(children)})"]
        if group.least > len(children):
            self.told.append(self.model.source.refused(group.at, f"this group wants {group.least} of {len(children)} features, so "
                                                                 f"'{feature.name}' can't be there"))
        return [f"{child} implies {parent}" for child in children] + list(count_lines(parent, children, group))

    def add_constraints(self, root):
        """Adds the constraints as rules; or if there are wishes these, and before them the constraints as what always holds."""
        constraints = self.model.constraints + (self.wishes or [])
        lines = formulas.Lines(self.model.terms, [it.term for it in constraints], self.name_of)
        definitions = lines.definitions()
        if definitions:
            self.made.always(definitions, "names for what would make a line too long")
        for at, it in enumerate(constraints):
            word = {formulas.TRUE: "or", formulas.FALSE: "and"}.get(it.term)
            own = [f"{root} {word} not {root}"] if word else lines.lines_of(at)
            if self.wishes is not None and at < len(self.model.constraints):
                self.made.always(own, origin=it.origin)
            else:
                self.made.rule(it.text, own, behind=f"(line {it.origin[1]})", origin=it.origin)

    def origin(self, line):
        return self.model.source.file, line

    def name_of(self, place):
        """The literal of a feature, or of what a definition stands for."""
        kind, parts = self.model.terms.nodes[place]
        if kind == formulas.VARIABLE:
            return self.literals[parts[0]]
        line, column = self.model.firsts[place]
        return rule_text.literal(self.names.name(place, f"term {line}:{column}"))


def count_lines(parent, children, group):
    """How many features of an optional, an alternative or a numbered group there are."""
    least, most = group.least, group.most
    listed = "(" + ", ".join(children) + ")"
    if least > len(children):
        yield f"not {parent}"
    elif least == most:
        yield f"{parent} implies exactly {number(least)} of {listed}"
    else:
        if least:
            yield f"{parent} implies at least {number(least)} of {listed}"
        if most < len(children):
            yield f"{parent} implies at most {number(most)} of {listed}"


def number(count):
    return "one" if count == 1 else str(count)


def rules_of(file, text, wishes=None, is_skipping=False):
    """The text of the rules, and lines on what is odd about the model or left out. `wishes` are a file's name and its text."""
    skipped = [] if is_skipping else None
    model = Model(Source(file, text), skipped)
    model.read()
    wanted = None
    if wishes is not None:
        wanted = Wishes(Source(wishes[0], re.sub(r"(?m)^[ \t]*#.*$", "", wishes[1])), model).constraints
        if not wanted:
            raise Refused(f"{wishes[0]}: there is no wish in it: a wish is a line such as 'Touch', '!Touch' or 'Touch => Matte'")
    elif not model.constraints:
        raise Refused(f"{file}: there is no constraint in it{' that rules can say' if skipped else ''}, so nothing can be given up; "
                      "a list of wishes may be named behind it")
    writer = Writer(model, wanted)
    return writer.text(), [str(line) for line in (skipped or []) + writer.told]


def main(words):
    files = [word for word in words if word != "--skip"]
    wrong = [word for word in files if word.startswith("-") and word != "-"]
    if wrong or not 1 <= len(files) <= 2:
        raise WrongWords(f"'{wrong[0]}' is no option" if wrong else "one model is wanted, and a list of wishes may be named")
    if files == ["-", "-"]:
        raise WrongWords("MODEL and WISHES can't both come from standard input")
    wishes = (files[1], text_of(files[1])) if files[1:] else None
    made, told = rules_of(files[0], text_of(files[0]), wishes, "--skip" in words)
    for line in told:
        print(f"{here('uvl.py')}: {line}", file=sys.stderr)
    put(made)


def as_command():
    """Ends the process as the words of its command line ask."""
    run("uvl.py", main, __doc__)
