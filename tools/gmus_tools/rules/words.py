"""The words of one line of rules, and how a mistake in a line is told.

    from gmus_tools.rules.words import words_of, Mistake
    words_of("touch implies not matte")   gives a list of Word

docs/RULES.md says which names there are, and what a quoted name is.
"""
import collections
import re
import unicodedata

from gmus_tools.command import plain
from gmus_tools.rules.hints import COMPARED, MEANT, meant_by

# A word of a line: its kind ("name", "end", a mark, a keyword in small letters, "other" or "mistake"), its text, where it
# stands, and whether it is in quotes, which are no part of its text. An "other" is what other languages write for a keyword.
# What is no word is a mistake, which stands in place of the text, and ends the words. It is told once a reader comes to it.
Word = collections.namedtuple("Word", "kind text at quoted")

KEYWORDS = ("always", "and", "iff", "implies", "never", "not", "of", "or")
TOKEN = re.compile(r'\s*(?:(?P<quoted>"(?:[^"\\]|\\.)*")|(?P<mark>[(),])|(?P<word>[^\s"(),#]+)|(?P<open>")|(?P<comment>#.*))')
PLAIN_NAME = re.compile(r"[\w./@-][\w.+:=/~@-]*(?<![.:=])")
IN_NAMES = "_-.+:=/~@"
NEVER_FIRST, NEVER_LAST = "+:=~", ".:="
NAMES_ARE = "a name is letters, digits and any of " + " ".join(IN_NAMES) + "; any other text stands in quotes"
WIDTH = 100


class Mistake(Exception):
    """What is wrong in a line, at which of its characters, and what may come there."""

    def __init__(self, text, at=None, may=""):
        super().__init__(text)
        self.at = at
        self.may = may

    def told(self, source, number, line):
        """The whole message: the line, a caret under the place, and what may come there."""
        told = [f"{source}: line {number}: {self}"]
        if self.at is not None:
            told += shown(line, self.at)
        if self.may:
            told.append(f"  {self.may}")
        return "\n".join(told)


def shown(line, at):
    """The line, or the part of it around the place, and a caret below the place."""
    begin = max(0, at - WIDTH // 2)
    end = min(len(line.rstrip()), begin + WIDTH)
    before, after = ".. " if begin else "", " .." if end < len(line.rstrip()) else ""
    text = plain(line[begin:max(end, at)].expandtabs(1))
    blanks = sum(width_of(char) for char in before + text[:at - begin])
    return [f"    {before}{text}{after}", "    " + " " * blanks + "^"]


def width_of(char):
    """How many places a terminal gives to the character."""
    if unicodedata.combining(char):
        return 0
    return 2 if unicodedata.east_asian_width(char) in "WF" else 1


def words_of(line):
    """The words of the line, up to its comment, and an end behind them."""
    words, at, end = [], 0, len(line.rstrip())
    while at < end:
        found = TOKEN.match(line, at)
        kind, begin = found.lastgroup, found.start(found.lastgroup)
        at = found.end()
        if kind == "comment":
            end = len(line[:begin].rstrip())
        else:
            try:
                words.append(word_of(kind, found.group(kind), begin))
            except Mistake as mistake:
                words.append(Word("mistake", mistake, begin, False))
                break
    words.append(Word("end", "the line's end", end, False))
    return words


def word_of(kind, text, at):
    if kind == "word":
        return name_or_keyword(text, at)
    if kind == "mark":
        return Word(text, text, at, False)
    if kind == "open":
        raise Mistake("the quote that begins here has no end", at, 'a name in quotes is "any text"')
    return Word("name", unquoted(text, at), at, True)


def unquoted(text, at):
    """The name that stands in these quotes."""
    for found in re.finditer(r"\\(.)", text[1:-1]):
        if found.group(1) not in '"\\':
            raise Mistake(f"'{plain(found.group())}' says nothing in a quoted name", at + 1 + found.start(),
                          'in a quoted name stand \\" for " and \\\\ for \\')
    name = re.sub(r"\\(.)", r"\1", text[1:-1])
    if not name.strip():
        raise Mistake("nothing stands in these quotes", at, 'a name in quotes is "any text"')
    for place, char in enumerate(name):
        if unicodedata.category(char) == "Cc":
            raise Mistake(f"a control character (U+{ord(char):04X}) in a name", at, "a name has no control characters")
    return name


def name_or_keyword(text, at):
    if text.lower() in KEYWORDS:
        return Word(text.lower(), text, at, False)
    if not PLAIN_NAME.fullmatch(text):
        if text in MEANT or text in COMPARED:
            return Word("other", text, at, False)
        refuse_name(text, at)
    return Word("name", text, at, False)


def may_stand_in_a_name(char):
    return char.isalnum() or char in IN_NAMES or unicodedata.category(char).startswith("M")


def refuse_name(text, at):
    """Tells why the text is no name, if it is none."""
    for place, char in enumerate(text):
        if not may_stand_in_a_name(char):
            told = plain(char) if char.isprintable() else f"U+{ord(char):04X}"
            raise Mistake(f"a name has no '{told}' without quotes{meant_by(text, place)}", at + place, NAMES_ARE)
    if text[0] in NEVER_FIRST:
        hint = f". Is 'not {text[1:]}' meant?" if text[0] == "~" else ""
        raise Mistake(f"a name doesn't begin with '{text[0]}' without quotes{hint}", at, NAMES_ARE)
    if text[-1] in NEVER_LAST:
        raise Mistake(f"a name doesn't end with '{text[-1]}' without quotes{meant_by(text, len(text) - 1)}", at + len(text) - 1,
                      NAMES_ARE)


def written(name: str) -> str:
    """The name as rules have it: plain if it may be, else in quotes."""
    if PLAIN_NAME.fullmatch(name) and name.lower() not in KEYWORDS:
        return name
    return '"' + name.replace("\\", "\\\\").replace('"', '\\"') + '"'
