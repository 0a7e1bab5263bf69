"""Writes rules in the language that gcnf.py reads.

A reader of another language says which lines always hold and which belong to a rule; here they become one text, in which
each literal's name is quoted if it has to be, and no two rules have one name.
"""
from gmus_tools.command import plain
from gmus_tools.rules import language
from gmus_tools.rules.words import Mistake

COUNTS = {"at", "exactly"}      # words that begin a count, unless they are quoted
SHARP = "\uff03"


def printable(text):
    """The text on one line: white space as single blanks, and a mark for what no line can show."""
    return plain(" ".join(text.split()))


def literal(name):
    """A name of a literal as the language has it: in quotes if it isn't a plain word."""
    return f'"{name}"' if name.lower() in COUNTS else language.written(name)


class Names:
    """Gives each thing a name that no other has."""

    def __init__(self):
        self.taken = set()
        self.given = {}
        self.counts = {}        # how many were told apart by a number, of each text

    def name(self, thing, text, behind=""):
        """The name of a thing: its text; if another thing has it already, `behind` or a number comes behind it."""
        if thing not in self.given:
            self.given[thing] = self.new(text, behind)
        return self.given[thing]

    def new(self, text, behind=""):
        """A name that was not given before."""
        wanted = first = printable(text) or "?"
        if wanted in self.taken and behind:
            wanted = first = f"{first} {behind}"
        while wanted in self.taken:
            count = self.counts[first] = self.counts.get(first, 1) + 1
            wanted = f"{first} ({count})"
        self.taken.add(wanted)
        return wanted


class RuleText:
    """A text of rules as it grows: what always holds, and the rules in their order."""

    def __init__(self):
        self.background = []
        self.rules = []
        self.names = Names()

    def always(self, lines, comment="", origin=None):
        """Adds lines that hold anyway. `origin` is the file of which they were made, and its line."""
        self.background += commented(lines, comment, origin)

    def rule(self, name, lines, comment="", behind="", origin=None):
        """Adds a rule. If another one has its name already, `behind` tells them apart."""
        name = self.names.new(name_of_rule(name), behind)
        self.rules += ["", f"[{name}]"] + (commented(lines, comment, origin) if comment or origin else lines)

    def text(self):
        background = ["[always]"] + self.background if self.background else []
        rules = self.rules if background else self.rules[1:]
        return "".join(line + "\n" for line in background + rules)


def name_of_rule(name):
    """The name as a line [NAME] can have it: in it a '#' may begin a comment, and two names begin no rule."""
    name = printable(name)
    if name.lower() in language.RESERVED:
        return f"'{name}'"
    # Something may come behind it, to tell it from another.
    is_fine = may_be_rule(name) and may_be_rule(name + " (2)")
    return name if is_fine else name.replace("#", SHARP)


def may_be_rule(name):
    """Whether a line [NAME] begins a rule of this name."""
    try:
        return name != "" and language.head_of(f"[{name}]") == (name, 1) and name.lower() not in language.RESERVED
    except Mistake:
        return False


def commented(lines, comment, origin):
    """The lines behind their comments."""
    told = [f"# {printable(comment)}"] if comment else []
    if lines:
        file, line = origin or ("", "")
        told.append(f"#: {printable('standard input' if file == '-' else file)}:{line}" if origin else "#:")
    return told + list(lines)
