"""The commands and terms of SMT-LIB 2, as far as they are Boolean: from expressions to the terms of formulas.py.

What a command or a term may look like is told by chapter 3 of the standard's version 2.6, and its meaning by the theory
Core. A term is read without recursion, so that brackets may be as deep as they like.
"""
from collections import namedtuple

from gmus_tools import formulas
from gmus_tools.command import Refused
from gmus_tools.rules import text as rule_text
from gmus_tools.smt2.text import LIST, SYMBOL_KIND, WORD_KIND

Macro = namedtuple("Macro", "parameters body")
# An assertion: its name or None, its term and line. If it is (=> NAME TERM) or (assert_and_track TERM NAME), `tracker` is that
# name and `tracked` that term.
Assertion = namedtuple("Assertion", "name term line tracker tracked")
MANY = None

# What each operator takes at least and at most, and what it makes of its parts.
OPERATORS = {
    "not": (1, 1, lambda terms, parts: -parts[0]),
    "and": (1, MANY, lambda terms, parts: terms.all_of(parts)),
    "or": (1, MANY, lambda terms, parts: terms.any_of(parts)),
    "xor": (2, MANY, lambda terms, parts: folded(lambda one, other: terms.iff(one, -other), parts)),
    "=>": (2, MANY, lambda terms, parts: terms.implies(parts[:-1], parts[-1])),
    "=": (2, MANY, lambda terms, parts: terms.all_of([terms.iff(*pair) for pair in zip(parts, parts[1:])])),
    "distinct": (2, MANY, lambda terms, parts: terms.iff(parts[0], -parts[1]) if len(parts) == 2 else formulas.FALSE),
    "ite": (3, 3, lambda terms, parts: terms.choice(*parts)),
}
# Operators with indices, (_ NAME K ..): how many of their terms hold. Those of the second row have a weight for each term.
COUNTS = {
    "at-most": lambda terms, number, parts: -terms.at_least(number + 1, parts),
    "at-least": lambda terms, number, parts: terms.at_least(number, parts),
}
WEIGHED = {
    "pble": COUNTS["at-most"],
    "pbge": COUNTS["at-least"],
    "pbeq": lambda terms, number, parts: terms.exactly(number, parts),
}
MOST_COUNTED = 10 ** 9      # a number above it counts as this one
CONSTANTS = {"true": formulas.TRUE, "false": formulas.FALSE}

# Commands that ask or set something, and change no assertion.
PASSED = {"check-sat", "echo", "get-assertions", "get-assignment", "get-info", "get-model", "get-option", "get-proof",
          "get-unsat-assumptions", "get-unsat-core", "get-value", "set-info", "set-logic", "set-option"}
ALONE = {"check-sat", "exit", "get-assertions", "get-assignment", "get-model", "get-proof", "get-unsat-assumptions",
         "get-unsat-core"}
WHY_NOT = dict.fromkeys(("push", "pop", "reset", "reset-assertions"), "write one file for each question")
WHY_NOT["check-sat-assuming"] = "assert what is assumed, under a name each"


def folded(call, parts):
    """From the left: call(call(first, second), third), and so on."""
    found = parts[0]
    for part in parts[1:]:
        found = call(found, part)
    return found


class Reader:
    """The assertions of a file, and the names that it has. If it is told so, those that are tracked may be assumed."""

    def __init__(self, source, is_tracked=False):
        self.source = source
        self.is_tracked = is_tracked
        self.terms = formulas.Terms()
        self.values = dict(CONSTANTS)       # what each symbol stands for: a term or a macro
        self.declared = {}                  # the name of each constant in the rules
        self.trackers = []                  # where assert_and_track names one
        self.bound = {}                     # what let and the parameters of a definition bind, innermost last
        self.assertions = []
        self.uses, self.tracks = {}, {}     # how often each symbol stands in terms, and how often of these as a tracker
        self.assumed = []                   # what check-sat-assuming assumes
        self.names = rule_text.Names()      # of literals
        self.known = set()                  # the places of terms that define-fun names
        self.firsts = {}                    # place of a node: where it is met first, and its name there
        self.instances = {}

    def refused(self, expression, why):
        return self.source.refused(expression.at, why)

    def read(self):
        for command in self.source.commands():
            words = command.value
            if not words or words[0].kind != SYMBOL_KIND:
                raise self.refused(command, "a command begins with its name")
            name = words[0].value
            if name in ALONE and len(words) > 1:
                raise self.refused(words[1], f"'{name}' stands alone in its brackets")
            if name == "exit":
                break
            if name not in PASSED:
                self.obey(name, command)
        for symbol in self.trackers:
            if not self.is_tracker(symbol.value):
                raise self.refused(symbol, f"'{symbol.shown()}' stands in other terms too, so it is not only a tracker")
        for symbol in self.assumed:
            if not self.is_tracker(symbol.value):
                raise self.refused(symbol, f"'{symbol.shown()}' is assumed here, and no assertion is tracked by it alone")

    def obey(self, name, command):
        calls = {"assert": self.read_assert, "declare-const": self.read_declaration, "declare-fun": self.read_declaration,
                 "define-const": self.read_definition, "define-fun": self.read_definition,
                 "assert_and_track": self.read_tracked, "assert-and-track": self.read_tracked}
        if self.is_tracked:
            calls["check-sat-assuming"] = self.read_assumptions
        if name not in calls:
            raise self.refused(command, f"'{name}' is not read" + (f": {WHY_NOT[name]}" if name in WHY_NOT else ""))
        calls[name](name, command)

    def parts_of(self, command, shape):
        """The words behind a command's name, which the shape names."""
        words = command.value[1:]
        if len(words) != len(shape.split()):
            raise self.refused(command, f"this command is ({command.value[0].value} {shape})")
        return words

    def read_declaration(self, name, command):
        takes_none = name == "declare-const"
        symbol, *middle, sort = self.parts_of(command, "NAME Bool" if takes_none else "NAME () Bool")
        for parameters in middle:
            if not parameters.is_list() or parameters.value:
                raise self.refused(parameters, "only constants are read, so '()' is due here")
        self.want_bool(sort)
        self.want_new(symbol)
        self.declared[symbol.value] = self.names.name(("symbol", symbol.value), symbol.value)
        self.values[symbol.value] = self.terms.variable(self.declared[symbol.value])

    def want_bool(self, sort):
        if not sort.is_word("Bool"):
            raise self.refused(sort, f"the sort '{sort.shown()}' is not read; only Bool is")

    def want_new(self, symbol):
        if symbol.kind != SYMBOL_KIND:
            raise self.refused(symbol, f"'{symbol.shown()}' is no name")
        if symbol.value in self.values or symbol.value in OPERATORS:
            raise self.refused(symbol, f"'{symbol.shown()}' has a meaning already")

    def read_definition(self, name, command):
        takes_none = name == "define-const"
        symbol, *middle, sort, body = self.parts_of(command, "NAME Bool TERM" if takes_none else "NAME (PARAMETERS) Bool TERM")
        self.want_bool(sort)
        self.want_new(symbol)
        parameters = [self.parameter_of(it) for found in middle for it in self.list_of(found, "its parameters")]
        names = [it.value for it in parameters]
        for at, it in enumerate(parameters):
            if it.value in names[:at]:
                raise self.refused(it, f"the parameter '{it.shown()}' stands twice")
        own = [self.terms.parameter((symbol.value, it)) for it in names]
        self.bound = {it: [term] for it, term in zip(names, own)}
        term = self.term(body)
        self.bound = {}
        self.values[symbol.value] = Macro(own, term) if parameters else term
        if not parameters:
            self.name_term(symbol, term)
            self.known.add(abs(term))

    def list_of(self, expression, what):
        if not expression.is_list():
            raise self.refused(expression, f"a list of {what} is due here, in brackets")
        return expression.value

    def parameter_of(self, expression):
        parts = self.list_of(expression, "a name and a sort")
        if len(parts) != 2 or parts[0].kind != SYMBOL_KIND:
            raise self.refused(expression, "a parameter is (NAME Bool)")
        self.want_bool(parts[1])
        return parts[0]

    def name_term(self, symbol, term):
        """Keeps the name that the file has for a term, in case that it needs one."""
        place = abs(term)
        if term > 0 and self.firsts.get(place, (0, ""))[1] == "":
            self.firsts[place] = (symbol.at, symbol.value)

    def name_of(self, place):
        """The literal that stands for a node: its symbol, or its name in the file, or else where it stands."""
        kind, parts = self.terms.nodes[place]
        if kind == formulas.VARIABLE:
            return rule_text.literal(parts[0])
        at, name = self.firsts.get(place, (0, ""))
        where = "%d:%d" % self.source.place(at)
        return rule_text.literal(self.names.name(place, name or f"term {where}", f"of {where}" if name else ""))

    def read_assert(self, _, command):
        body, = self.parts_of(command, "TERM")
        line, words = self.source.place(command.at)[0], body.value if body.is_list() else []
        if len(words) == 3 and words[0].is_word("=>") and words[1].kind == SYMBOL_KIND:
            tracker, tracked = self.term(words[1]), self.term(words[2])
            term = self.terms.implies((tracker,), tracked)
            self.firsts.setdefault(abs(term), (body.at, ""))
            if self.terms.nodes[abs(tracker)][0] == formulas.VARIABLE and words[1].value in self.declared:
                self.tracks[words[1].value] = self.tracks.get(words[1].value, 0) + 1
                self.assertions.append(Assertion(None, term, line, words[1].value, tracked))
            else:
                self.assertions.append(Assertion(None, term, line, None, None))
            return
        name = self.label_of(body).value if words and words[0].is_word("!") else None
        self.assertions.append(Assertion(name, self.term(body), line, None, None))

    def read_tracked(self, _, command):
        body, symbol = self.parts_of(command, "TERM NAME")
        if symbol.kind != SYMBOL_KIND or symbol.value in self.values and symbol.value not in self.declared:
            raise self.refused(symbol, f"'{symbol.shown()}' is no constant of the sort Bool")
        for each in (self.uses, self.tracks):
            each[symbol.value] = each.get(symbol.value, 0) + 1
        self.assertions.append(Assertion(None, None, self.source.place(command.at)[0], symbol.value, self.term(body)))
        self.trackers.append(symbol)

    def read_assumptions(self, _, command):
        words, = self.parts_of(command, "(NAMES)")
        for symbol in self.list_of(words, "what is assumed"):
            if symbol.kind != SYMBOL_KIND:
                raise self.refused(symbol, "names alone can be assumed here, which track assertions")
            self.assumed.append(symbol)

    def is_tracker(self, symbol):
        """Whether a constant stands nowhere but where it tracks assertions."""
        return symbol in self.tracks and self.tracks[symbol] == self.uses[symbol]

    def constant_line(self, word):
        """A line that says nothing, with 'or', or what can't be, with 'and', over a literal of the file."""
        plain = (self.declared[it] for it in self.declared if not self.is_tracker(it))
        name = rule_text.literal(next(plain, None) or self.names.name("constant", "a constant"))
        return f"{name} {word} not {name}"

    def label_of(self, expression):
        """The symbol in (! TERM :named SYMBOL)."""
        words = expression.value
        if len(words) >= 3 and words[2].kind == "keyword" and words[2].value != ":named":
            raise self.refused(words[2], f"the attribute '{words[2].shown()}' is not read; only :named is")
        if len(words) != 4 or words[2].kind != "keyword" or words[3].kind != SYMBOL_KIND:
            raise self.refused(expression, "a term with a name is (! TERM :named NAME)")
        return words[3]

    def term(self, root):
        """The term of an expression."""
        todo, found = [("read", root)], []
        while todo:
            step, it = todo.pop()
            if step == "read":
                self.begin(it, todo, found)
            elif step == "apply":
                count = len(it.value) - 1
                parts = found[-count:]
                del found[-count:]
                found.append(self.applied(it, parts))
                self.firsts.setdefault(abs(found[-1]), (it.at, ""))
            elif step == "count":
                count = len(it.value) - 1
                call, number = self.count_of(it)
                found[-count:] = [call(self.terms, number, found[-count:])]
                self.firsts.setdefault(abs(found[-1]), (it.at, ""))
            elif step == "bind":
                self.bind(it, todo, found)
            elif step == "label":
                self.label(self.label_of(it), found[-1])
            else:
                for name in it:
                    self.bound[name].pop()
        return found[0]

    def begin(self, it, todo, found):
        """Reads a word, or plans what a list needs."""
        if it.kind == SYMBOL_KIND:
            found.append(self.value_of(it))
            return
        if it.kind != LIST:
            raise self.refused(it, f"'{it.shown()}' is not Boolean")
        if not it.value:
            raise self.refused(it, "a term is due here, and '()' is none")
        head, *rest = it.value
        if head.is_word("let"):
            bindings = self.bindings_of(it)
            todo.append(("bind", it))
            todo += [("read", pair.value[1]) for pair in reversed(bindings)]
        elif head.is_word("!"):
            self.label_of(it)
            todo += [("label", it), ("read", rest[0])]
        elif head.is_indexed():
            self.count_of(it)
            todo.append(("count", it))
            todo += [("read", part) for part in reversed(rest)]
        elif head.kind == WORD_KIND or head.is_list():
            raise self.refused(it, f"'{(it if head.is_word('_') else head).shown()}' is not read")
        else:
            self.want_parts(it, head, len(rest))
            todo.append(("apply", it))
            todo += [("read", part) for part in reversed(rest)]

    def count_of(self, it):
        """The call that an operator with indices stands for, and its number; refused if it is none that is read."""
        head, *parts = it.value
        name, *numbers = head.value[1:] or [head]
        call = {**COUNTS, **WEIGHED}.get(name.value if name.kind == SYMBOL_KIND else None)
        shown = f"'{head.shown()}'"
        if call is None:
            raise self.refused(head, f"{shown} is not read: of operators with indices {', '.join(COUNTS)}, and {', '.join(WEIGHED)} "
                               "with weights 1, are")
        if any(number.kind != "number" or not number.value.isdecimal() for number in numbers) or not numbers:
            raise self.refused(head, f"whole numbers are due behind '{name.shown()}' in its brackets")
        values = [MOST_COUNTED if len(number.value.lstrip("0")) > 9 else int(number.value) for number in numbers]
        if not parts:
            raise self.refused(it, f"{shown} takes 1 or more terms, and has 0")
        weights = values[1:] if name.value in WEIGHED else []
        if len(weights) != len(parts) * (name.value in WEIGHED) or len(values) - len(weights) != 1:
            wanted = f"a number, and a weight for each of its {len(parts)} terms" if name.value in WEIGHED else "one number"
            raise self.refused(head, f"{shown} has {wanted}")
        heavy = next((number for number, value in zip(numbers[1:], weights) if value != 1), None)
        if heavy:
            raise self.refused(heavy, f"{shown} is read with weights 1 alone, and this one is {heavy.shown()}")
        return call, values[0]

    def value_of(self, symbol):
        bound = self.bound.get(symbol.value)
        value = bound[-1] if bound else self.values.get(symbol.value)
        if not bound:
            self.uses[symbol.value] = self.uses.get(symbol.value, 0) + 1
        if value is None:
            what = "an operator, which takes terms" if symbol.value in OPERATORS else "declared nowhere above"
            raise self.refused(symbol, f"'{symbol.shown()}' is {what}")
        if isinstance(value, Macro):
            raise self.refused(symbol, f"'{symbol.shown()}' takes {len(value.parameters)} terms")
        return value

    def want_parts(self, it, head, count):
        """Refuses a function that isn't known, or that takes another number of terms."""
        value = None if self.bound.get(head.value) else self.values.get(head.value)
        if isinstance(value, Macro):
            least = most = len(value.parameters)
        elif head.value in OPERATORS and value is None and not self.bound.get(head.value):
            least, most, _ = OPERATORS[head.value]
        elif value is not None or self.bound.get(head.value):
            raise self.refused(head, f"'{head.shown()}' takes no terms")
        else:
            raise self.refused(head, f"'{head.shown()}' is no function of the Boolean part, and is defined nowhere above")
        if count < least or most is not MANY and count > most:
            wanted = f"{least} or more" if most is MANY else str(least)
            raise self.refused(it, f"'{head.shown()}' takes {wanted} terms, and has {count}")

    def bindings_of(self, it):
        shape = "a let is (let ((NAME TERM) ..) TERM)"
        if len(it.value) != 3 or not it.value[1].is_list() or not it.value[1].value:
            raise self.refused(it, shape)
        seen = set()
        for pair in it.value[1].value:
            if not pair.is_list() or len(pair.value) != 2 or pair.value[0].kind != SYMBOL_KIND:
                raise self.refused(pair, shape)
            if pair.value[0].value in seen:
                raise self.refused(pair.value[0], f"'{pair.value[0].shown()}' stands twice in this let")
            seen.add(pair.value[0].value)
        return it.value[1].value

    def bind(self, it, todo, found):
        """Binds the names of a let, all of them at once, for its body."""
        symbols = [pair.value[0] for pair in it.value[1].value]
        values = found[-len(symbols):]
        del found[-len(symbols):]
        for symbol, value in zip(symbols, values):
            self.bound.setdefault(symbol.value, []).append(value)
            self.name_term(symbol, value)
        todo += [("unbind", [symbol.value for symbol in symbols]), ("read", it.value[2])]

    def label(self, symbol, term):
        """From here on the label stands for its term, as the standard has it."""
        self.want_new(symbol)
        if self.terms.open[abs(term)]:
            raise self.refused(symbol, f"'{symbol.shown()}' names a term with a parameter in it")
        self.values[symbol.value] = term
        self.name_term(symbol, term)

    def applied(self, it, parts):
        head = it.value[0].value
        value = self.values.get(head)
        if not isinstance(value, Macro):
            return OPERATORS[head][2](self.terms, parts)
        key = (head, *parts)
        if key not in self.instances:
            try:
                self.instances[key] = self.terms.replaced(value.body, dict(zip(value.parameters, parts)))
            except Refused as why:
                raise self.refused(it, why) from None
        return self.instances[key]
