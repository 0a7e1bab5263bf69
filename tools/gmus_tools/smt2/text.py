"""The text of SMT-LIB 2: its words and brackets, as version 2.6 of the standard has them (chapter 3.1)."""
import bisect
import re

from gmus_tools.command import Refused

SYMBOL = r"A-Za-z0-9~!@$%^&*_\-+=<>.?/"
WORD = re.compile(rf"""
    (?P<space>(?:[ \t\r\n]+|;[^\r\n]*)+)
  | (?P<open>\()
  | (?P<close>\))
  | (?P<quoted>\|[^|\\]*\|)
  | (?P<keyword>:[{SYMBOL}]+)
  | (?P<number>(?:\#x[0-9A-Fa-f]+|\#b[01]+|[0-9]+(?:\.[0-9]+)?)(?![{SYMBOL}]))
  | (?P<symbol>[A-Za-z~!@$%^&*_\-+=<>.?/][{SYMBOL}]*)
  | (?P<string>"(?:[^"]|"")*")
""", re.VERBOSE)
LIST, SYMBOL_KIND, WORD_KIND = "list", "symbol", "reserved word"
RESERVED = {"!", "_", "as", "BINARY", "DECIMAL", "exists", "HEXADECIMAL", "forall", "let", "match", "NUMERAL", "par", "STRING"}


class Expression:
    """A word or a list, with the place of its first character. The words of one kind have the same `kind`."""
    __slots__ = ("kind", "value", "at")

    def __init__(self, kind, value, at):
        self.kind = kind
        self.value = value
        self.at = at

    def is_list(self):
        return self.kind == LIST

    def is_word(self, text):
        """Whether this is a symbol or a reserved word of this text."""
        return self.kind in (SYMBOL_KIND, WORD_KIND) and self.value == text

    def shown(self):
        """The expression in a message: short, and on one line. An operator with indices has its name."""
        if self.is_list():
            begin = [it for it in self.value[:1 + self.is_indexed()] if not it.is_list()]
            inner = " ".join(it.shown() for it in begin) + " .." if begin else ".." if self.value else ""
            return f"({inner})" if not self.is_deep() else "((..)"
        text = self.value if len(self.value) <= 40 else self.value[:40] + ".."
        return " ".join(text.split())

    def is_indexed(self):
        """Whether this is an operator with indices, (_ NAME ..)."""
        return self.is_list() and bool(self.value) and self.value[0].is_word("_")

    def is_deep(self):
        return bool(self.value) and self.value[0].is_list()


class Source:
    """A text and its places."""

    def __init__(self, file, text):
        self.file = file
        self.text = text
        self.lines = [0] + [found.end() for found in re.finditer("\n", text)]

    def place(self, at):
        line = bisect.bisect_right(self.lines, at)
        return line, at - self.lines[line - 1] + 1

    def refused(self, at, why):
        line, column = self.place(at)
        return Refused(f"{self.file}: line {line}, column {column}: {why}")

    def words(self):
        """Each word with its kind and place."""
        at = 0
        for found in WORD.finditer(self.text):
            if found.start() > at:
                break
            if found.lastgroup != "space":
                yield found.lastgroup, found.group(), at
            at = found.end()
        if at < len(self.text):
            raise self.refused(at, self.unreadable(at))

    def unreadable(self, at):
        char = self.text[at]
        open_at = {'"': "a string begins here and doesn't end", "|": "a symbol in | | begins here and doesn't end"}
        if char in open_at:
            backslash = char == "|" and "|" in self.text[at + 1:]
            return "a symbol in | | may have no backslash" if backslash else open_at[char]
        if char in "0123456789":
            return f"'{re.compile(f'[{SYMBOL}]+').match(self.text, at, at + 40).group()}' is neither a number nor a symbol"
        return f"{char!r} may not stand here; a name with such a character stands in | |"

    def commands(self):
        """Each list at the top, as an expression, once it is whole."""
        open_lists = []
        for kind, text, at in self.words():
            if kind == "open":
                open_lists.append(Expression(LIST, [], at))
                continue
            if kind == "close":
                if not open_lists:
                    raise self.refused(at, "this bracket closes nothing")
                made = open_lists.pop()
            else:
                made = word(kind, text, at)
            if open_lists:
                open_lists[-1].value.append(made)
            elif made.is_list():
                yield made
            else:
                raise self.refused(at, f"'{made.shown()}' stands outside of brackets; a command begins with '('")
        if open_lists:
            raise self.refused(open_lists[-1].at, "this bracket is never closed")


def word(kind, text, at):
    if kind == "quoted":
        return Expression(SYMBOL_KIND, text[1:-1], at)
    if kind == "symbol" and text in RESERVED:
        return Expression(WORD_KIND, text, at)
    return Expression(kind, text, at)
