"""A feature model in UVL: its features as a tree, and its constraints, which constraint.py reads.

What a model may look like is told by the public grammar of UVL 2. Only its Boolean levels are read, those with numbers of
features in a group among them.
"""
import re

from gmus_tools import formulas
from gmus_tools.uvl.constraint import Reader

SECTIONS = ("namespace", "include", "imports", "features", "constraints")
GROUPS = ("mandatory", "optional", "or", "alternative")
TYPES = ("Boolean", "Integer", "Real", "String")
LEVEL = re.compile(r"[A-Za-z]+(-[A-Za-z]+)*(\.([A-Za-z]+(-[A-Za-z]+)*|\*))?")


class Feature:
    def __init__(self, name, line):
        self.name = name
        self.line = line
        self.groups = []


class Group:
    """Features below one: of `least` to `most` of them, if the kind is a number."""

    def __init__(self, kind, least, most, at):
        self.kind = kind
        self.least = least
        self.most = most
        self.at = at
        self.features = []


class Model(Reader):
    """A model. `skipped` is None, or a list that gets what is left out."""

    def __init__(self, source, skipped=None):
        super().__init__(source, source.words(), formulas.Terms(), {}, skipped)
        self.features = []          # the root first
        self.lines = {}             # of each feature

    def read(self):
        """Reads the sections, which stand in their order."""
        before = -1
        while self.word.kind != "end":
            word = self.take("name")
            if word.text not in SECTIONS:
                raise self.refused(word, f"'{word.text}' begins no section; one of {', '.join(SECTIONS)} does")
            if SECTIONS.index(word.text) <= before:
                raise self.refused(word, f"'{word.text}' stands too late: the sections are {', '.join(SECTIONS)}, each once")
            before = SECTIONS.index(word.text)
            getattr(self, "read_" + word.text)(word)
        if not self.features:
            raise self.refused(self.word, "there is no feature: a section 'features' has them")
        self.want_features(self.lines)

    def read_namespace(self, _):
        self.reference()
        self.take("line")

    def read_include(self, _):
        """Levels of the language say what a model may have. What is not Boolean is refused where it stands."""
        self.take("line")
        self.take("in")
        while self.word.kind != "out":
            first, text = self.word, ""
            while self.word.kind != "line":
                text += self.take().text
            if not LEVEL.fullmatch(text):
                raise self.refused(first, f"'{text}' is no level of the language")
            self.take("line")
        self.take("out")

    def read_imports(self, word):
        raise self.refused(word, "imports are not read: put the features of all models into one file")

    def read_features(self, word):
        self.take("line")
        if self.word.kind != "in":
            raise self.refused(word, "there is no feature below this line")
        self.take()
        above = [None]              # the features and groups that are open
        last = self.read_feature(None)
        while above:
            if self.word.kind == "in":
                self.take()
                above.append(last)
            elif self.word.kind == "out":
                self.take()
                above.pop()
                continue
            if isinstance(above[-1], Feature):
                last = self.read_group(above[-1])
            elif above[-1] is None:
                raise self.refused(self.word, "a model has one root, and this is a second")
            else:
                last = self.read_feature(above[-1])

    def read_group(self, feature):
        word = self.word
        kind, least, most = word.text, 0, None
        if word.kind == "[":
            kind = "number"
            least, most = self.bounds()
        elif word.kind == "name" and word.text in GROUPS:
            self.take()
            if kind == "alternative":
                least = most = 1
        else:
            raise self.unexpected(f"a group begins here, one of {', '.join(GROUPS)} or [1..2]")
        if self.take("line") and self.word.kind != "in":
            raise self.refused(word, "there is no feature below this group")
        group = Group(kind, least, float("inf") if most is None else most, word.at)
        feature.groups.append(group)
        return group

    def bounds(self):
        """The least and the greatest number in [1..2], [2] or [1..*]; the greatest is None if there is none."""
        begin = self.take("[")
        least = most = self.whole_number()
        if self.word.kind == "..":
            self.take()
            most = None if self.word.kind == "*" and self.take() else self.whole_number()
        self.take("]")
        if most is not None and most < least:
            raise self.refused(begin, f"the least, {least}, is above the greatest, {most}")
        return least, most

    def whole_number(self):
        word = self.take("number")
        if not word.text.isdecimal() or len(word.text) > 9:
            raise self.refused(word, f"'{word.text}' is no number of features")
        return int(word.text)

    def read_feature(self, group):
        word = self.take("name")
        if word.text in TYPES and self.word.kind == "name" and self.word.text != "cardinality":
            if word.text != "Boolean":
                self.refuse_type(word)
            word = self.take("name")
        line = self.source.place(word.at)[0]
        if word.text in self.lines:
            raise self.refused(word, f"the feature '{word.text}' stands in line {self.lines[word.text]} already")
        self.lines[word.text] = line
        if self.word.kind == "name" and self.word.text == "cardinality":
            raise self.refused(self.word, "a feature that comes several times is not read")
        if self.word.kind == ".":
            raise self.refused(word, "features of other models are not read")
        feature = Feature(word.text, line)
        self.features.append(feature)
        if group:
            group.features.append(feature)
        if self.word.kind == "{":
            self.attributes()
        self.take("line")
        return feature

    def refuse_type(self, word):
        """Refuses a feature with a value, or takes it as one that is there or not."""
        refused = self.refused(word, f"features of the type {word.text} are not read; only Boolean ones are")
        if self.skipped is None:
            raise refused
        self.skipped.append(f"{refused}, so the value of this one is left out")

    def attributes(self):
        """Reads past attributes and their values, which no constraint can mention. Constraints among them count."""
        closing = []
        while True:
            if self.word.kind in ("{", "["):
                closing.append("}" if self.take().kind == "{" else "]")
            elif self.word.kind != closing[-1]:
                self.attribute() if closing[-1] == "}" else self.take("number", "string", "name", "-")
                if self.word.kind in ("{", "["):
                    continue
            while closing and self.word.kind == closing[-1]:
                self.take()
                closing.pop()
            if not closing:
                return
            if self.words[self.at - 1].kind not in ("{", "[", "-"):
                self.take(",")

    def attribute(self):
        """A key, and its value if that is one word; the constraint behind the word for it."""
        key = self.take("name")
        if key.text == "constraint":
            self.read_constraint()
        elif key.text == "constraints" and self.word.kind == "[":
            self.take()
            while self.word.kind != "]":
                self.read_constraint()
                if self.word.kind != "]":
                    self.take(",")
            self.take()
        else:
            if self.word.kind == "-":
                self.take()
            if self.word.kind in ("number", "string", "name"):
                self.take()

    def read_constraints(self, _):
        self.take("line")
        if self.word.kind != "in":
            return
        self.take()
        while self.word.kind != "out":
            self.read_constraint()
            self.take("line")
        self.take("out")
