"""The words of UVL, the Universal Variability Language, with its lines and how far they are set in.

As in Python, a line that is set in further than the one above begins a block, and in brackets lines don't count.
"""
import bisect
import re
from collections import namedtuple

from gmus_tools.command import Refused

# A word: its kind is "name", "number", "string", "line" (the end of one), "in", "out", "end", or else the sign itself. It
# stands from `at` to `end`; its text is without quotes.
Word = namedtuple("Word", "kind text at end")

SIGNS = ("<=>", "=>", "<=", ">=", "==", "!=", "..", *"!&|()[]{},.*+-/<>:=")
WORD = re.compile(r"""
    (?P<blank>(?:[ \t\f]|//[^\r\n]*|/\*(?:[^*]|\*(?!/))*\*/)+)
  | (?P<break>\r?\n)
  | (?P<name>[^\W\d][\w\#§%?\\';]*)
  | (?P<quoted>"[^"\r\n]+")
  | (?P<string>'[^'\r\n]*')
  | (?P<number>[0-9]+(?:\.[0-9]+)?)
  | (?P<sign>(?!/\*)(?:""" + "|".join(map(re.escape, SIGNS)) + "))", re.VERBOSE)
PAIRS = {"(": ")", "[": "]", "{": "}"}


def mark(kind, text, at):
    """A word that no text stands for."""
    return Word(kind, text, at, at)


class Source:
    """A text and its words."""

    def __init__(self, file, text):
        self.file = file
        self.text = text
        self.breaks = [0] + [found.end() for found in re.finditer("\n", text)]

    def place(self, at):
        line = bisect.bisect_right(self.breaks, at)
        return line, at - self.breaks[line - 1] + 1

    def refused(self, at, why):
        line, column = self.place(at)
        return Refused(f"{self.file}: line {line}, column {column}: {why}")

    def words(self, is_flat=False):
        """All words of the text, with the ends of its lines and blocks; or lines that may be set in as they like."""
        found, blocks, open_at = [], [""], []
        for word in self.plain_words():
            if word.kind == "break":
                if not open_at and found and found[-1].kind not in ("line", "in", "out"):
                    found.append(mark("line", "the line's end", word.at))
                continue
            if not is_flat and not open_at and (not found or found[-1].kind == "line"):
                self.set_in(word.at, blocks, found)
            if word.kind in PAIRS:
                open_at.append(word)
            elif word.kind in PAIRS.values():
                if not open_at or PAIRS[open_at.pop().kind] != word.kind:
                    raise self.refused(word.at, f"no bracket is open that '{word.text}' closes")
            found.append(word)
        if open_at:
            raise self.refused(open_at[-1].at, "this bracket is never closed")
        end = len(self.text)
        if found and found[-1].kind != "line":
            found.append(mark("line", "the line's end", end))
        return found + [mark("out", "the end of a block", end)] * (len(blocks) - 1) + [mark("end", "the end", end)]

    def set_in(self, at, blocks, found):
        """Begins or ends blocks, as the line of this place is set in."""
        begin = self.breaks[self.place(at)[0] - 1]
        blank = re.match(r"[ \t]*", self.text[begin:at]).group()
        if len(blank) > len(blocks[-1]) and blank.startswith(blocks[-1]):
            blocks.append(blank)
            found.append(mark("in", "a line that is set in", at))
            return
        while blocks[-1] != blank:
            if len(blocks) == 1 or not blocks[-1].startswith(blank):
                raise self.refused(at, "this line is set in as no line above")
            blocks.pop()
            found.append(mark("out", "the end of a block", at))

    def plain_words(self):
        at, text = 0, self.text
        while at < len(text):
            found = WORD.match(text, at)
            if not found:
                raise self.refused(at, self.unreadable(at))
            kind = found.lastgroup
            if kind in ("break", "name", "string", "number"):
                yield Word(kind, found.group(), at, found.end())
            elif kind == "quoted":
                yield Word("name", found.group()[1:-1], at, found.end())
            elif kind == "sign":
                yield Word(found.group(), found.group(), at, found.end())
            at = found.end()

    def unreadable(self, at):
        if self.text.startswith("/*", at):
            return "a comment begins here and doesn't end"
        if self.text[at] in "'\"":
            return f"a text in {self.text[at]} {self.text[at]} begins here and doesn't end on its line"
        return f"{self.text[at]!r} may not stand here; a name with such a character stands in quotes"
