"""Constraints in UVL: from words to terms of formulas.py.

A constraint that needs more than features, as arithmetic, is refused; or it is left out, if its reader skips such ones.
"""
from collections import namedtuple

from gmus_tools import formulas
from gmus_tools.command import Refused
from gmus_tools.rules.near import near_names

Constraint = namedtuple("Constraint", "term text origin")
BINDING = {"!": 5, "&": 4, "|": 3, "=>": 2, "<=>": 1, "(": 0}
OPERAND = "a feature, '!' or '(' is due here"
ENDS = ("line", ",", "]", "}", "end")


class NotBoolean(Refused):
    """A constraint that rules can't say."""


class Reader:
    """Reads words from left to right. `skipped` is None, or a list that gets why constraints are left out."""

    def __init__(self, source, words, terms, firsts, skipped=None):
        self.source, self.words, self.at = source, words, 0
        self.terms, self.firsts, self.skipped = terms, firsts, skipped
        self.constraints = []
        self.references = []        # each name in a constraint, with its place

    @property
    def word(self):
        return self.words[self.at]

    def take(self, *kinds):
        word = self.word
        if kinds and word.kind not in kinds:
            raise self.unexpected(f"{' or '.join(map(shown_kind, kinds))} is due here")
        self.at += 1
        return word

    def unexpected(self, wanted):
        shown = self.word.text if self.word.kind in ("line", "in", "out", "end") else f"'{self.word.text}'"
        return self.refused(self.word, f"{wanted}, and not {shown}")

    def refused(self, word, why):
        return self.source.refused(word.at, why)

    def not_boolean(self, word, why):
        return NotBoolean(str(self.refused(word, why)))

    def want_features(self, lines):
        """Refuses a name in a constraint that no feature has; `lines` are those of features."""
        unknown = [word for word in self.references if word.text not in lines]
        if unknown:
            word = unknown[0]
            near = near_names([word.text], list(lines)).get(word.text)
            raise self.refused(word, f"'{word.text}' is no feature of this model" + (f". Is '{near}' meant?" if near else ""))

    def reference(self):
        """A name, or names with dots between."""
        word = self.take("name")
        if self.word.kind != ".":
            return word
        text = word.text
        while self.word.kind == ".":
            self.take()
            text += "." + self.take("name").text
        return word._replace(text=text, kind="path")

    def read_constraint(self):
        """Reads a constraint, or leaves it out."""
        first, known = self.at, len(self.references)
        try:
            term = self.constraint()
        except NotBoolean as why:
            if self.skipped is None:
                raise
            self.skipped.append(f"{why}, so this constraint is left out")
            del self.references[known:]
            self.at = self.end_behind(first)
            return
        words = self.words[first:self.at]
        text = "".join(" " * (after.at > word.end) + self.source.text[after.at:after.end]
                       for word, after in zip([words[0], *words], words))
        self.constraints.append(Constraint(term, text, (self.source.file, self.source.place(words[0].at)[0])))

    def end_behind(self, at):
        """The place of the word that ends the constraint which begins at this one."""
        depth = 0
        while depth or self.words[at].kind not in ENDS:
            kind = self.words[at].kind
            depth += (kind in "([{" and len(kind) == 1) - (kind in ")]}" and len(kind) == 1)
            at += 1
        return at

    def constraint(self):
        """The term of a constraint, by the precedence of its operators: '!' binds most, then '&', '|', '=>', '<=>'."""
        operators, found = [], []
        while True:
            while self.word.kind in ("!", "("):
                operators.append(self.take())
            found.append(self.operand())
            while self.word.kind == ")":
                self.apply_down_to("(", operators, found)
                operators.pop()
                self.take()
            if self.word.kind not in ("&", "|", "=>", "<=>"):
                break
            self.apply_down_to(self.word.kind, operators, found)
            operators.append(self.take())
        if self.word.kind not in ("line", ",", "]", "}"):
            raise self.refuse_behind()
        self.apply_down_to("", operators, found)
        return found[0]

    def operand(self):
        if self.word.kind in ("number", "string", "-"):
            raise self.not_boolean(self.word, "numbers and texts in constraints are not read; features are")
        if self.word.kind != "name":
            raise self.unexpected(OPERAND)
        word = self.reference()
        if self.word.kind == "(":
            raise self.not_boolean(word, f"'{word.text}(..)' is not read; features are")
        if word.kind == "path":
            raise self.not_boolean(word, f"'{word.text}' is no feature of this model: attributes and other models are not read")
        self.references.append(word)
        return self.terms.variable(word.text)

    def refuse_behind(self):
        if self.word.kind in ("==", "!=", "<", ">", "<=", ">=", "+", "-", "*", "/"):
            return self.not_boolean(self.word, f"'{self.word.text}' is not read: arithmetic is not Boolean")
        return self.unexpected("'&', '|', '=>', '<=>' or the end of the constraint is due here")

    def apply_down_to(self, kind, operators, found):
        """Applies the operators that bind at least as much as this one, up to an open bracket."""
        while operators and operators[-1].kind != "(" and BINDING[operators[-1].kind] >= BINDING.get(kind, 0):
            operator = operators.pop()
            if operator.kind == kind == "=>":
                raise self.refused(self.word, "'=>' stands twice: brackets say which comes first")
            if operator.kind == "!":
                found.append(-found.pop())
                continue
            right, left = found.pop(), found.pop()
            calls = {"&": self.terms.all_of, "|": self.terms.any_of, "<=>": lambda pair: self.terms.iff(*pair),
                     "=>": lambda pair: self.terms.implies(pair[:1], pair[1])}
            found.append(calls[operator.kind]((left, right)))
            self.firsts.setdefault(abs(found[-1]), self.source.place(operator.at))


class Wishes(Reader):
    """A list of wishes: a constraint over a model's features a line."""

    def __init__(self, source, model):
        super().__init__(source, source.words(is_flat=True), model.terms, model.firsts)
        while self.word.kind != "end":
            self.read_constraint()
            self.take("line")
        self.want_features(model.lines)


def shown_kind(kind):
    return {"line": "the line's end", "in": "a block", "out": "the end of a block", "name": "a name", "number": "a number",
            "string": "a text"}.get(kind, f"'{kind}'")
