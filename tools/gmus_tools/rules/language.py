"""Reads rules and gives the GCNF file that says the same.

    from gmus_tools.rules import language
    made = language.read(text, "laptop.rules")     raises command.Refused
    made.gcnf()       the text of the file
    made.names        the names of the groups; the first is the background's, which has none
    made.variables    the number of each name
    made.notes()      what may be a mistake, a line of text each
    made.declared     the names that stand under [names], as keys
    made.weights      of each group its weight, or None if it is never given up

docs/RULES.md has the language, docs/FORMATS.md the comments in the file. For those who write rules by a program,
`written(name)` is the name as formulas have it, with quotes if it needs them, and `heading(name)` the line with
which a rule of this name begins.
"""
import collections
import contextlib
import re
import sys

from gmus_tools import limits
from gmus_tools.command import Refused, plain
from gmus_tools.rules.alike import alike, looks, mixed, why_alike
from gmus_tools.rules.clauses import Clauses
from gmus_tools.rules.formula import DEPTH, formula_of, signs_in
from gmus_tools.rules.hints import near_to
from gmus_tools.rules.near import near_names
from gmus_tools.rules.words import Mistake, words_of, written

__all__ = ["Rules", "heading", "read", "written"]

ALWAYS, NAMES = "always", "names"
RESERVED = ALWAYS, NAMES      # in any case these begin no rule
# Defined variables are counted from here until all names are known. Then they are numbered behind the names.
DEFINED = 1 << 40
POSITIVE, NEGATIVE = 1, 2
MOST_WEIGHT = 1_000_000_000
LONE_SHARP = re.compile(r"(?:^|(?<=\s)|(?<=\[))#(?=\s|$)")
PREFERENCE = re.compile(r"\s+(?:weight|keep)(?:\s|$)", re.IGNORECASE)
FRAMES = 40       # how many calls deep one pair of brackets is read, and turned into clauses, at most
MOST_TOLD = 20    # undeclared names
IN_NONE = ": no clause with {} is in any conflict"
FILES = "p gcnf ", "p cnf ", "p gmus ", "p gmev ", "c group ", "c variable "      # what files of gmus begin with
IN_FORMATS = "docs/FORMATS.md has the limits of a file"

# A line '#: FILE:LINE' says of which line of another file the lines below it were made, up to the next '#:' or heading.
ORIGIN = re.compile(r"#: (.*\S):([0-9]{1,9})\s*")
# A line of rules: its number, its text without the comment, the clauses that come of it, and the file and line of which it was
# made itself, if that is said.
Line = collections.namedtuple("Line", "number text clauses origin")


def comments_on(kind, line):
    """The comments in the file before the clauses of a line, which is of a rule or of [always]."""
    origin = [f"c from {line.origin[1]} {plain(line.origin[0])}"] if line.origin else []
    return [*origin, f"c {kind} {line.number} {plain(line.text)}"]


class Rules:
    """The names in the order in which they come, and the lines of each rule with their clauses."""

    def __init__(self, source):
        self.source = source
        self.variables = {}
        self.names = [""]
        self.lines = [[]]           # of each group
        self.heads = [0]            # the numbers of the lines in which the rules begin
        self.groups = {}            # by name
        self.weights = [1]          # of each group; None is that of a rule which is never given up
        self.defined = self.clauses = self.literals = 0
        self.signs = {}             # of each name, by its number
        self.first_places = []      # where each name stands first: its line, and the place in it
        self.declared = {}          # the names that stand under [names], as keys in their order
        self.told = []              # notes on single lines

    def gcnf(self):
        """The text of the GCNF file."""
        parts = [f"c variable {number} {plain(name)}" for name, number in self.variables.items()]
        parts.append(f"p gcnf {len(self.variables) + self.defined} {self.clauses} {len(self.names) - 1}")
        for group, (name, lines) in enumerate(zip(self.names, self.lines)):
            parts += self.group_comments(group, group, name) if group else []
            for line in lines:
                parts += comments_on("rule", line)
                parts += ["{%d} %s" % (group, " ".join(map(self.numbered, [*clause, 0]))) for clause in line.clauses]
        return "\n".join(parts) + "\n"

    def group_comments(self, number, at, name):
        """The comments in the file before the clauses of a rule, whose group has this number there."""
        weight = self.weights[at]
        preference = [f"c keep {number}"] if weight is None else [f"c weight {number} {weight}"] if weight != 1 else []
        return [f"c group {number} {plain(name)}", *preference]

    def numbered(self, literal):
        if -DEFINED < literal < DEFINED:
            return str(literal)
        number = abs(literal) - DEFINED + len(self.variables)
        return str(number if literal > 0 else -number)

    def refuse_too_many(self):
        """Refuses what is above a limit of the file. Its groups are counted as they begin."""
        for count, limit, what in ((len(self.variables) + self.defined, limits.VARIABLES, "variables"),
                                   (self.clauses, limits.CLAUSES, "clauses"), (self.literals, limits.LITERALS, "literals")):
            if count > limit:
                raise Mistake(f"more than {limit:,} {what}", may=IN_FORMATS)

    def notes(self, is_each=False):
        """What may be a mistake: what was seen in single lines, and names that stand with one sign only, each with its line if
        so asked, or else as a number but for those that are near to another name. Declared names may have one sign."""
        pure = [name for name, number in self.variables.items()
                if self.signs[number] != POSITIVE | NEGATIVE and name not in self.declared]
        near = near_names(pure, list(self.variables))
        told = [f"{self.source}: line {self.line_of(name)}: '{plain(name)}' stands with one sign only"
                + (f". Is '{plain(near[name])}' meant?" if name in near else IN_NONE.format("it"))
                for name in pure if name in near or is_each]
        others = 0 if is_each else len(pure) - len(near)
        if others:
            other = "other " if near else ""
            count = f"1 {other}name stands" if others == 1 else f"{others} {other}names stand"
            told.append(f"{self.source}: {count} with one sign only" + IN_NONE.format("such a name"))
        return self.told + self.alike_rules() + self.alike_names() + told

    def alike_rules(self):
        """Notes on rules whose names look alike, or differ in capitals alone."""
        found = alike(self.names[1:], lambda name: looks(name).casefold())
        return [f"{self.source}: line {self.heads[self.groups[name]]}: the rule '{plain(name)}' and '{plain(other)}' of line "
                f"{self.heads[self.groups[other]]} differ {why_alike(name, other)}" for name, other in found.items()]

    def alike_names(self):
        """Notes on names that look like others, and on those with a word of two scripts."""
        foreign = [name for name in self.variables if not name.isascii()]
        found = alike(self.variables) if foreign else {}
        told = [f"{self.source}: line {self.line_of(name)}: '{plain(name)}' and '{plain(other)}' of line {self.line_of(other)} "
                f"differ {why_alike(name, other)}" for name, other in found.items()]
        seen = {*found, *found.values()}
        return told + [f"{self.source}: line {self.line_of(name)}: '{plain(name)}' has letters of two scripts in one word, "
                       f"such as U+{ord(mixed(name)):04X}" for name in foreign if name not in seen and mixed(name)]

    def line_of(self, name):
        """The line in which a name stands first."""
        return self.first_places[self.variables[name] - 1][0]

    def refuse_undeclared(self, text):
        """Where names are declared, refuses those that aren't, each at the place where it stands first."""
        unknown = [name for name in self.variables if name not in self.declared] if self.declared else []
        if not unknown:
            return
        near, lines = near_names(unknown, [*unknown, *self.declared]), text.split("\n")
        like = {name: other for name, other in alike([*self.declared, *unknown]).items() if other in self.declared}
        told = []
        for name in unknown[:MOST_TOLD]:
            number, at = self.first_places[self.variables[name] - 1]
            other = like.get(name) or near.get(name)
            meant = f". Is '{plain(other)}' meant?" if other in self.declared else ""
            if name in like:
                meant = f"; it and '{plain(other)}' differ {why_alike(name, other)}"
            told.append(Mistake(f"'{plain(name)}' is not declared under [{NAMES}]{meant}", at).told(self.source, number, lines[number - 1]))
        if len(unknown) > MOST_TOLD:
            told.append(f"  and {len(unknown) - MOST_TOLD} more names")
        raise Refused("\n".join([*told, f"  under [{NAMES}] stand all names that rules may have, with commas between"]))


def read(text, source):
    """The rules of a text. `source` is the name that messages have for it."""
    rules = Rules(source)
    reader = Reader(rules)
    with room_for_brackets():
        for number, line in enumerate(text.lstrip("\ufeff").split("\n"), 1):
            try:
                reader.read(number, line)
            except Mistake as mistake:
                raise Refused(mistake.told(source, number, line)) from None
    reader.end(text)
    return rules


@contextlib.contextmanager
def room_for_brackets():
    """Lets calls be as deep as brackets may be."""
    before = sys.getrecursionlimit()
    sys.setrecursionlimit(before + DEPTH * FRAMES)
    try:
        yield
    finally:
        sys.setrecursionlimit(before)


def head_of(line):
    """The name of the rule that begins in this line, its weight, or None if it is never given up; or None if no rule begins here.
    A `#` alone begins a comment, also in a name."""
    text = line.strip()
    if not text.startswith("["):
        return None
    for bare in (text.partition("#")[0].rstrip(), LONE_SHARP.split(text)[0].rstrip()):
        end = bare.rfind("]")
        if end > 0 and (end == len(bare) - 1 or PREFERENCE.match(bare, end + 1)):
            return " ".join(bare[1:end].split()), preference_of(bare, end + 1, line.index("["))
    begin = line.index("[")
    if end < 1:
        raise Mistake("no rule begins here: its ']' is missing", begin + len(bare), "a rule begins with [NAME]")
    near = near_to(bare[end + 1:].split()[0].lower(), ("weight", "keep"))
    raise Mistake("behind ']' stands nothing but a weight, 'keep' or a comment" + (f". Is '{near}' meant?" if near else ""), begin + end + 1,
                  "the lines of a rule stand below its [NAME], as in: [NAME] weight 3")


def preference_of(bare, at, begin):
    """The weight that stands from this place on, 1 if nothing does, or None for a rule that is kept."""
    words = bare[at:].split()
    if not words:
        return 1
    if words[0].lower() == "keep":
        if words[1:]:
            raise Mistake("a rule that is kept is never given up, so nothing stands behind 'keep'", begin + bare.index(words[1], at),
                          "a heading is [NAME], [NAME] weight 3 or [NAME] keep")
        return None
    number = words[1] if words[1:] else ""
    if len(words) > 2 or not (number.isascii() and number.isdecimal()) or len(number) > 10 or not 1 <= int(number) <= MOST_WEIGHT:
        place = bare.index(words[1], at) if words[1:] else len(bare)
        raise Mistake(f"a weight is a whole number from 1 to {MOST_WEIGHT:,}".replace(",", "") + (
            ", and nothing stands behind it" if len(words) > 2 else ""), begin + place, "a heading is [NAME], [NAME] weight 3 or [NAME] keep")
    return int(number)


def heading(name: str, weight: "int | None" = 1) -> str:
    """The line with which the rule of this name begins; a weight of None is that of a rule which is never given up. Blanks in a
    row, and line ends, count as one blank."""
    name = " ".join(name.split())
    line = f"[{name}]" + (" keep" if weight is None else f" weight {weight}" if weight != 1 else "")
    try:
        is_read_back = head_of(line) == (name, weight)
    except Mistake:
        is_read_back = False
    if not name or not is_read_back or name.lower() in RESERVED:
        raise Refused(f"no rule can have the name '{plain(name)}'" + ("" if weight in (1, None) else f" and the weight {weight}"))
    return line


def remarks_on(line, words):
    """What is told of the line's comment if it stands right behind a name, as if it belonged to it."""
    if line.startswith("#", words[-1].at) and words[-2].kind == "name" and not words[-2].quoted:
        return [f"'#' begins a comment, though it stands right behind '{plain(words[-2].text)}': a name with '#' stands in quotes"]
    return []


class Reader:
    """Reads the lines of a text in their order."""

    def __init__(self, rules):
        self.rules = rules
        self.group = None         # of the rule that was begun
        self.is_in_names = False  # whether [names] was
        self.number = 0           # of the line
        self.origin = None        # of which file's line the next ones were made

    def read(self, number, line):
        self.number = number
        bare = line.strip()
        if bare.startswith("#:"):
            found = ORIGIN.fullmatch(bare)
            self.origin = (found.group(1), int(found.group(2))) if found else None
        if not bare or bare.startswith("#"):
            return
        head = head_of(line)
        if head is not None:
            self.begin(*head, line)
        elif self.is_in_names:
            self.declare(line)
        elif self.group is None:
            hint = ": this is a file of gmus, and no text of rules" if bare.startswith(FILES) else ""
            raise Mistake("no rule begins before this line" + hint, len(line) - len(line.lstrip()),
                          f"here may come [NAME], [{ALWAYS}] or [{NAMES}]")
        else:
            self.add(line)

    def begin(self, name, weight, line):
        rules, at = self.rules, line.index("[")
        self.end_rule()
        self.origin = None
        self.is_in_names = name.lower() == NAMES
        if name.lower() in RESERVED:
            if weight != 1:
                raise Mistake(f"[{name.lower()}] can't be given up, so it has no weight and no 'keep'", line.index("]") + 1, "it stands alone")
            self.group = None if self.is_in_names else 0
            return
        if not name:
            raise Mistake("a rule without a name", at + 1, "a rule begins with [NAME]")
        if name in rules.groups:
            before = rules.heads[rules.groups[name]]
            raise Mistake(f"a rule '{plain(name)}' stood before, in line {before}", at, "each rule has a name of its own")
        if len(rules.names) > limits.GROUPS:
            raise Mistake(f"more than {limits.GROUPS:,} rules", at, IN_FORMATS)
        self.group = rules.groups[name] = len(rules.names)
        rules.names.append(name)
        rules.weights.append(weight)
        rules.lines.append([])
        rules.heads.append(self.number)

    def end_rule(self):
        """Refuses the rule before if no line stands in it."""
        if self.group and not self.rules.lines[self.group]:
            number, name = self.rules.heads[self.group], plain(self.rules.names[self.group])
            raise Refused(f"{self.rules.source}: line {number}: the rule '{name}' has no line\n"
                          "  below it comes what it asks for, such as: a implies b")

    def end(self, text):
        self.end_rule()
        if len(self.rules.names) == 1:
            last = max(1, self.number - text.endswith("\n"))
            raise Refused(f"{self.rules.source}: line {last}: no rule stands in this text\n"
                          "  a rule begins with [NAME], and below it comes what it asks for, such as: a implies b")
        self.rules.refuse_undeclared(text.lstrip("\ufeff"))

    def declare(self, line):
        """The names of one line under [names]."""
        words = words_of(line)
        for at, word in enumerate(words):
            if word.kind == "mistake":
                raise word.text
            wanted = ("name",) if at % 2 == 0 else (",", "end")
            if word.kind not in wanted:
                named = "the line's end" if word.kind == "end" else f"'{word.text}'"
                raise Mistake(f"{named} can't come here", word.at, "here may come " + (
                    "a name; a keyword is one in quotes alone" if at % 2 == 0 else "',' and another name, or the line's end"))
            if word.kind == "name":
                self.rules.declared[word.text] = None
        self.tell(remarks_on(line, words))

    def add(self, line):
        """The clauses of one line of a rule."""
        rules, words = self.rules, words_of(line)
        tree, remarks = formula_of(words, self.number_of)
        self.tell(remarks + remarks_on(line, words))
        for literal in signs_in(tree):
            rules.signs[abs(literal)] |= POSITIVE if literal > 0 else NEGATIVE
        clauses = Clauses(self.new_variable).of(tree)
        rules.clauses += len(clauses)
        rules.literals += sum(map(len, clauses))
        rules.refuse_too_many()
        rules.lines[self.group].append(Line(self.number, line[:words[-1].at].strip(), clauses, self.origin))

    def tell(self, remarks):
        """Keeps what may be a mistake in this line."""
        self.rules.told += [f"{self.rules.source}: line {self.number}: {remark}" for remark in remarks]

    def number_of(self, name, at):
        rules = self.rules
        number = rules.variables.get(name)
        if number is None:
            number = rules.variables[name] = len(rules.variables) + 1
            rules.signs[number] = 0
            rules.first_places.append((self.number, at))
        return number

    def new_variable(self):
        rules = self.rules
        rules.defined += 1
        rules.refuse_too_many()
        return DEFINED + rules.defined
