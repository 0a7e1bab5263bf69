"""The formula that a line of rules says, as a tree.

    from gmus_tools.rules.formula import formula_of
    tree, remarks = formula_of(words_of("touch implies not matte"), number_of)

`number_of` gives the number of the variable of a name, which stands at a place of the line. A tree is a literal, which is a number above or below 0, or one of

    ("not", tree)
    ("and", trees), ("or", trees)
    ("iff", tree, tree)
    ("count", least, most, trees)     at least so many of the trees hold, and at most so many
"""
from gmus_tools.rules.hints import MEANT, behind, number_meant
from gmus_tools.rules.words import Mistake

DEPTH = 200         # how deep brackets may stand in each other
BINARY = "'and', 'or', 'implies', 'iff'"
COUNT_STARTS = ("at", "exactly")
OPERAND = "a name, 'not', '(', 'at most', 'at least' or 'exactly'"
LIST = "here may come ',' or the list's end; "
# what is said of a keyword in a list, which is either one that binds what it counts, or one that binds the whole count
IN_LISTS = (LIST + "a list that is part of a formula stands in brackets: exactly one of (a, b)",
            LIST + "a formula that counts as one stands in brackets: (a or b)")


def formula_of(words, number_of):
    """The tree of a line of these words, and what may be a mistake in it."""
    reader = Reader(words, number_of)
    return reader.line(), reader.remarks


def is_count(word, after):
    """Whether a count begins with this word, which may be a name too if nothing follows that belongs to a count."""
    if word.text.lower() == "exactly":
        return after.kind in ("name", "of")
    return after.kind == "name" and not after.quoted and after.text.lower() in ("most", "least")


class Reader:
    """Reads the words of a line from left to right. Each call reads what its name says, and stops behind it."""

    def __init__(self, words, number_of):
        self.words = words
        self.number_of = number_of
        self.at = -1
        self.depth = 0
        self.in_list = False      # whether a comma here belongs to a list around
        self.remarks = []
        self.word = None
        self.take()

    def take(self):
        """Goes on by a word, and gives the one that stood here."""
        taken = self.word
        self.at += 1
        self.word = self.words[self.at]
        if self.word.kind == "mistake":
            raise self.word.text
        return taken

    def line(self):
        tree = self.formula()
        if self.word.kind != "end":
            self.refuse_behind(f"here may come {BINARY}, or the line's end")
        return tree

    # ---- formulas, loosest first

    def formula(self):
        left = self.implication()
        if self.word.kind != "iff":
            return left
        self.take()
        right = self.implication()
        if self.word.kind == "iff":
            raise Mistake("'iff' stands twice", self.word.at, "brackets say which comes first: (a iff b) iff c")
        return ("iff", left, right)

    def implication(self):
        if self.word.kind == "never":
            return self.never()
        sides = [self.disjunction()]
        while self.word.kind == "implies":
            self.take()
            sides.append(self.never() if self.word.kind == "never" else self.disjunction())
        if len(sides) == 1:
            return sides[0]
        parts = [("not", side) for side in sides[:-1]]
        return ("or", parts + [sides[-1]])

    def never(self):
        self.take()
        tree = self.disjunction()
        if self.word.kind in ("implies", "iff"):
            raise Mistake(f"'{self.word.text}' can't come behind 'never ..'", self.word.at,
                          "brackets say what is meant: never (..)")
        return ("not", tree)

    def disjunction(self):
        first = self.conjunction()
        if self.word.kind != "or":
            return first
        parts = [first]
        while self.word.kind == "or":
            self.take()
            parts.append(self.conjunction())
        return ("or", parts)

    def conjunction(self):
        first = self.negation()
        if self.word.kind != "and":
            return first
        parts = [first]
        while self.word.kind == "and":
            self.take()
            parts.append(self.negation())
        return ("and", parts)

    def negation(self):
        negated = False
        while self.word.kind == "not":
            self.take()
            negated = not negated
        tree = self.operand()
        return ("not", tree) if negated else tree

    def operand(self):
        word = self.word
        if word.kind == "name":
            if not word.quoted and word.text.lower() in COUNT_STARTS and is_count(word, self.words[self.at + 1]):
                return self.count()
            self.take()
            return self.number_of(word.text, word.at)
        if word.kind == "(":
            return self.brackets(self.formula)
        return self.refuse_operand()

    def brackets(self, inside):
        """What stands in brackets, with no list around it."""
        begin = self.take()
        outer, self.in_list = self.in_list, False
        self.depth += 1
        if self.depth > DEPTH:
            raise Mistake(f"more than {DEPTH} brackets stand in each other", begin.at,
                          "a line of its own may name a part: x iff (..)")
        tree = inside()
        if self.word.kind == "end":
            raise Mistake("the bracket that begins here has no end", begin.at, f"at the line's end may come {BINARY} or ')'")
        if self.word.kind != ")":
            self.refuse_behind(f"here may come {BINARY} or ')'")
        self.take()
        self.depth -= 1
        self.in_list = outer
        return tree

    # ---- counts

    def count(self):
        """A count: how many, and of which list."""
        start = self.take()
        kind = start.text.lower()
        if kind == "at":
            kind = self.take().text.lower()
        wanted = self.how_many()
        if self.word.kind != "of":
            raise Mistake(f"'of' is due in place of {self.named()}", self.word.at, "a count is 'at most 2 of a, b, c'")
        self.take()
        trees = self.list_of(start)
        if kind != "most" and wanted > len(trees):
            self.remarks.append(f"{wanted} of a list of {len(trees)} never hold")
        least, most = {"most": (0, wanted), "least": (wanted, len(trees)), "exactly": (wanted, wanted)}[kind]
        return ("count", least, min(most, len(trees)), trees)

    def how_many(self):
        word = self.word
        text = "1" if word.text.lower() == "one" else word.text
        if word.kind == "name" and not word.quoted and text.isdecimal() and text.isascii() and len(text) < 10:
            self.take()
            return int(text)
        raise Mistake(f"a number is due in place of {self.named()}{number_meant(word.text)}", word.at,
                      "here may come 'one', or a number as 2")

    def list_of(self, start):
        """The formulas of a list, which may stand in brackets of its own."""
        if self.word.kind == "(" and (self.in_list or self.brackets_hold_a_list()):
            return self.brackets(self.items)
        if self.in_list:
            raise Mistake("a count in a list needs brackets around its own list", start.at, "such as: at most one of (a, b)")
        outer, self.in_list = self.in_list, True
        trees = self.items()
        self.in_list = outer
        if self.word.kind not in ("end", ")"):
            self.refuse_behind(LIST + "brackets around the list let it be part of a formula")
        return trees

    def items(self):
        """The formulas of a list. One with `and` or the like stands in brackets of its own: what is meant by `a, b or c`?"""
        outer, self.in_list = self.in_list, True
        trees, seen = [], set()
        while True:
            begin = self.word.at
            trees.append(self.negation())
            literal = literal_of(trees[-1])
            if literal is not None and literal in seen:
                raise Mistake("a literal stands twice in this list", begin, "each literal counts once")
            seen.add(literal)
            if self.word.kind != ",":
                break
            self.take()
        if self.word.kind in ("and", "or", "implies", "iff"):
            raise Mistake(f"'{self.word.text}' can't come in a list", self.word.at,
                          IN_LISTS[self.word.kind in ("and", "or")])
        self.in_list = outer
        return trees

    def brackets_hold_a_list(self):
        """Whether the brackets that begin here are those of a list, and not those of its first formula."""
        depth, at, comma = 0, self.at, False
        while self.words[at].kind != "end":
            kind = self.words[at].kind
            depth += (kind == "(") - (kind == ")")
            comma = comma or kind == "," and depth == 1
            at += 1
            if depth == 0:
                break
        return comma or self.words[at].kind != ","

    # ---- what can't be read

    def named(self):
        return "the line's end" if self.word.kind == "end" else f"'{self.word.text}'"

    def refuse_operand(self):
        word = self.word
        if word.kind == "end":
            raise Mistake("a formula is due at the line's end", word.at, f"here may come {OPERAND}")
        if word.kind == "never":
            raise Mistake("'never' can't come here", word.at,
                          "it begins a line, a bracket, or what is implied; else 'not' is the word")
        if word.kind == "always":
            raise Mistake("'always' is no literal", word.at,
                          "[always] is a line of its own; a name that is a keyword stands in quotes")
        hint = f". Is '{MEANT[word.text]}' meant?" if word.text in MEANT and word.kind == "other" else ""
        raise Mistake(f"'{word.text}' can't come here{hint}", word.at, f"here may come {OPERAND}")

    def refuse_behind(self, may):
        """Tells why what stands here can't come behind a formula."""
        word, before = self.word, self.words[self.at - 1]
        hint = ""
        if word.kind == ",":
            hint, may = ": commas stand in the lists of counts alone", "such as: at most one of a, b"
        elif word.kind == ")":
            hint = ": no bracket is open"
        elif not word.quoted and word.kind in ("name", "other", "of"):
            hint = behind([it.text if is_plain(it) else "" for it in self.words], self.at)
        raise Mistake(f"{self.named()} can't come here{hint}", word.at, may)


def is_plain(word):
    """Whether a word is a name without quotes, or what others write."""
    return word.kind in ("name", "other", "of") and not word.quoted


def literal_of(tree):
    """The literal that the tree is, or None."""
    if isinstance(tree, tuple) and tree[0] == "not" and isinstance(tree[1], int):
        return -tree[1]
    return tree if isinstance(tree, int) else None


def signs_in(tree):
    """Each literal of the tree, with the sign that its place gives to it; of both signs where its place gives both."""
    left = [(tree, 1)]
    while left:
        tree, sign = left.pop()
        if isinstance(tree, int):
            if sign >= 0:
                yield tree
            if sign <= 0:
                yield -tree
        elif tree[0] == "not":
            left.append((tree[1], -sign))
        elif tree[0] in ("and", "or"):
            left += [(part, sign) for part in tree[1]]
        elif tree[0] == "iff":
            left += [(part, 0) for part in tree[1:]]
        else:
            left += [(part, sign_of_count(tree, sign)) for part in tree[3]]


def sign_of_count(tree, sign):
    """The sign that a count gives to what it counts; 0 is both."""
    _, least, most, trees = tree
    return 0 if least and most < len(trees) else sign if least else -sign
