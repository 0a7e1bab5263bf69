"""Boolean terms, and their lines in the language of rules.

A term is a number: the place of a node, or the negative of it for its negation. Equal terms are one node, so what a text
shares by names stays shared here, however deep. Constants are worked into what they stand in: a term is the constant, or
has none in it.

A node that is written as it stands may need many clauses: an `or` of five `and`s of ten has 100,000. So a line is written
with definitions if it would grow: `"x" iff (a and b)` holds always, and the line has `"x"` in its place. Such a name
stands nowhere else, so each assignment that makes the lines true is one of the plain terms, and each of these gives one.
Therefore no conflict and no correction changes.
"""
from collections import namedtuple

from gmus_tools.command import Refused

CONSTANT, VARIABLE, PARAMETER = "constant", "variable", "parameter"
AND, OR, IMPLIES, IFF, CHOICE = "and", "or", "implies", "iff", "choice"
# The kind of a node that says how many of its parts hold: "at least" or "exactly", and the number.
Count = namedtuple("Count", "words number")
LEAST, EXACT = "at least", "exactly"
TRUE, FALSE = 1, -1
MOST_PARTS = 1_000_000      # of nodes that come of replacing parameters, which can grow without end


class Terms:
    """The nodes, each with its kind and its parts; the parts of a node stand before it."""

    def __init__(self):
        self.nodes = [None, (CONSTANT, ())]
        self.open = [False, False]          # whether a parameter stands in the node
        self.places = {}
        self.replacing = 0                  # parts of the nodes that were made from others

    def node(self, kind, parts):
        key = (kind, parts)
        place = self.places.get(key)
        if place is None:
            place = self.places[key] = len(self.nodes)
            self.nodes.append(key)
            inner = kind not in (VARIABLE, PARAMETER)
            self.open.append(any(self.open[abs(part)] for part in parts) if inner else kind == PARAMETER)
        return place

    def variable(self, name):
        return self.node(VARIABLE, (name,))

    def parameter(self, name):
        return self.node(PARAMETER, (name,))

    def both(self, kind, parts, idle):
        """An `and` or an `or`; the constant `idle` changes nothing in it, and the other one decides it."""
        if -idle in parts:
            return -idle
        parts = tuple(part for part in dict.fromkeys(parts) if part != idle)
        if len(parts) < 2:
            return parts[0] if parts else idle
        return self.node(kind, parts)

    def all_of(self, parts):
        return self.both(AND, parts, TRUE)

    def any_of(self, parts):
        return self.both(OR, parts, FALSE)

    def implies(self, left, right):
        """That all terms on the left together imply the one on the right."""
        if FALSE in left or right == TRUE:
            return TRUE
        left = tuple(part for part in dict.fromkeys(left) if part != TRUE)
        if not left:
            return right
        return -self.all_of(left) if right == FALSE else self.node(IMPLIES, left + (right,))

    def iff(self, one, other):
        for left, right in ((one, other), (other, one)):
            if abs(left) == TRUE:
                return right if left == TRUE else -right
        if abs(one) == abs(other):
            return TRUE if one == other else FALSE
        return self.node(IFF, (one, other))

    def choice(self, condition, one, other):
        """`one` if the condition holds, else `other`."""
        if abs(condition) == TRUE or one == other:
            return other if condition == FALSE else one
        if one == TRUE or other == FALSE:
            both = self.any_of if one == TRUE else self.all_of
            return both((condition, other if one == TRUE else one))
        if one == FALSE or other == TRUE:
            return self.all_of((-condition, other)) if one == FALSE else self.implies((condition,), one)
        return self.node(CHOICE, (condition, one, other))

    def at_least(self, number, parts):
        """That so many of the parts hold, or more. A part that stands there twice counts twice."""
        number, parts = self.open_count(number, parts)
        if number <= 0 or number > len(parts):
            return TRUE if number <= 0 else FALSE
        if number in (1, len(parts)):
            return self.any_of(parts) if number == 1 else self.all_of(parts)
        return self.node(Count(LEAST, number), parts)

    def exactly(self, number, parts):
        """That so many of the parts hold, and no more."""
        number, parts = self.open_count(number, parts)
        if not 0 <= number <= len(parts):
            return FALSE
        if number in (0, len(parts)):
            return self.all_of(parts if number else [-part for part in parts])
        return self.node(Count(EXACT, number), parts)

    @staticmethod
    def open_count(number, parts):
        """A count without the parts that are constant."""
        return number - sum(part == TRUE for part in parts), tuple(part for part in parts if abs(part) != TRUE)

    def made(self, kind, parts):
        """A node of this kind, by the call that works constants in."""
        if isinstance(kind, Count):
            return (self.at_least if kind.words == LEAST else self.exactly)(kind.number, parts)
        if kind == IMPLIES:
            return self.implies(parts[:-1], parts[-1])
        calls = {AND: lambda: self.all_of(parts), OR: lambda: self.any_of(parts),
                 IFF: lambda: self.iff(*parts), CHOICE: lambda: self.choice(*parts)}
        return calls[kind]()

    def replaced(self, term, values):
        """The term with the values of parameters in their places."""
        known = dict(values)
        todo = [abs(term)]
        while todo:
            place = todo[-1]
            kind, parts = self.nodes[place]
            if place in known or not self.open[place] or kind == PARAMETER:
                known.setdefault(place, place)
                todo.pop()
                continue
            wanting = [abs(part) for part in parts if abs(part) not in known]
            if wanting:
                todo += wanting
                continue
            self.replacing += len(parts)
            if self.replacing > MOST_PARTS:
                raise Refused(f"what the definitions stand for has more than {MOST_PARTS} parts")
            known[place] = self.made(kind, tuple(known[part] if part > 0 else -known[-part] for part in parts))
            todo.pop()
        return known[term] if term > 0 else -known[-term]


Weight = namedtuple("Weight", "leaves depth holds fails")      # holds, fails: clauses that say so, written plainly
LITERAL = Weight(1, 0, 1, 1)
FEW_CLAUSES, FEW_LEAVES, DEEP = 16, 4, 8


class Lines:
    """The lines of a list of terms, and the definitions that they need.

    `name_of` gives a name to the node at a place. The places in `known` have names of their own in the text, which are used
    wherever the term stands more than once.
    """

    def __init__(self, terms, roots, name_of, known=()):
        self.terms = terms
        self.name_of = name_of
        self.known = set(known)
        self.named = set()
        self.weights = {}
        self.uses = self.counted(roots)
        self.facts = [self.split(root) for root in roots]
        every = [fact for facts in self.facts for fact in facts]
        self.uses = self.counted(every)
        for place in sorted(self.uses):
            self.weigh(place)

    def counted(self, roots):
        """How often each node that is reached stands in another one, or among the roots if it has a name of its own."""
        terms = self.terms
        uses = {}
        for root in roots:
            uses[abs(root)] = uses.get(abs(root), 0) + (abs(root) in self.known)
        reached = bytearray(len(terms.nodes))
        for place in uses:
            reached[place] = 1
        for place in range(len(terms.nodes) - 1, 0, -1):
            if reached[place] and terms.nodes[place][0] not in (CONSTANT, VARIABLE):
                for part in terms.nodes[place][1]:
                    uses[abs(part)] = uses.get(abs(part), 0) + 1
                    reached[abs(part)] = 1
        return uses

    def split(self, root):
        """The terms that together say the root, as far as plain splitting goes: one a line."""
        found, todo = [], [((), root)]
        while todo:
            left, term = todo.pop()
            kind, parts = self.terms.nodes[abs(term)]
            shared = self.uses[abs(term)] > 1 and (len(parts) > FEW_LEAVES or abs(term) in self.known)
            whole = shared or len(left) > DEEP
            if not whole and (kind, term > 0) == (AND, True):
                todo += [(left, part) for part in reversed(parts)]
            elif not whole and (kind, term > 0) == (OR, False):
                todo += [(left, -part) for part in reversed(parts)]
            elif not whole and (kind, term > 0) == (IMPLIES, True):
                todo.append((left + parts[:-1], parts[-1]))
            elif not whole and (kind, term > 0) == (IMPLIES, False):
                todo += [(left, -parts[-1])] + [(left, part) for part in reversed(parts[:-1])]
            else:
                found.append(self.terms.implies(left, term))
        return [fact for fact in dict.fromkeys(found) if fact != TRUE] or [TRUE]

    def weight(self, term):
        if abs(term) in self.named:
            return LITERAL
        weight = self.weights[abs(term)]
        return weight if term > 0 else Weight(weight.leaves, weight.depth, weight.fails, weight.holds)

    def weigh(self, place):
        """What the node costs in a line, once those of its parts have names that would make it dear."""
        kind, parts = self.terms.nodes[place]
        if kind in (VARIABLE, CONSTANT):
            self.weights[place] = LITERAL
            return
        bound = max(FEW_CLAUSES, 2 * sum(self.weight(part).leaves for part in parts))
        self.named.update(abs(part) for part in parts if self.weight(part).depth >= DEEP)
        if kind in (IFF, CHOICE):
            weight = self.weigh_iff(parts, bound) if kind == IFF else self.weigh_choice(parts)
        elif isinstance(kind, Count):
            weight = self.weigh_count(parts)
        else:
            weight = self.weigh_list(kind, parts, bound)
        self.weights[place] = weight
        shared = self.uses[place] > 1 and (weight.leaves > FEW_LEAVES or place in self.known)
        if shared and weight.leaves > 1:
            self.named.add(place)

    def weigh_list(self, kind, parts, bound):
        """The weight of an `and`, an `or` or an implication: all of them as a list of which one holds."""
        ways = {OR: parts, AND: tuple(-part for part in parts),
                IMPLIES: tuple(-part for part in parts[:-1]) + parts[-1:]}[kind]
        product = 1
        for part in sorted(ways, key=lambda part: self.weight(part).holds):
            if product * self.weight(part).holds > bound:
                self.named.add(abs(part))
            product *= self.weight(part).holds
        weights = [self.weight(part) for part in ways]
        total = sum(weight.fails for weight in weights)
        depth = max(self.weight(part).depth + (not self.is_flat(kind, part)) for part in parts)
        holds, fails = (total, product) if kind == AND else (product, total)
        return Weight(sum(weight.leaves for weight in weights), depth, holds, fails)

    def weigh_iff(self, parts, bound):
        for part in sorted(parts, key=lambda part: -self.weight(part).leaves):
            one, other = map(self.weight, parts)
            holds = one.fails * other.holds + one.holds * other.fails
            if holds > bound:
                self.named.add(abs(part))
        one, other = map(self.weight, parts)
        return Weight(one.leaves + other.leaves, 1 + max(one.depth, other.depth),
                      one.fails * other.holds + one.holds * other.fails, one.holds * other.holds + one.fails * other.fails)

    def weigh_choice(self, parts):
        """The condition is written twice, so it becomes a literal."""
        if self.weight(parts[0]).leaves > 1:
            self.named.add(abs(parts[0]))
        one, other = self.weight(parts[1]), self.weight(parts[2])
        return Weight(2 + one.leaves + other.leaves, 2 + max(one.depth, other.depth),
                      one.holds + other.holds, one.fails + other.fails)

    def weigh_count(self, parts):
        """A count has clauses of its own, of which the language takes care: it costs about one for each part."""
        weights = [self.weight(part) for part in parts]
        return Weight(sum(weight.leaves for weight in weights), 1 + max(weight.depth for weight in weights), len(parts), len(parts))

    def is_flat(self, kind, part):
        """Whether the part stands in a node of this kind without brackets, as `a and b` does in an `and`."""
        if abs(part) in self.named or part < 0:
            return False
        return kind in (AND, OR) and self.terms.nodes[part][0] == kind

    def lines_of(self, at):
        """The lines of the root with this number in the list."""
        return [self.text_of(fact, "line" if self.is_by_name(fact) else None) for fact in self.facts[at]]

    def definitions(self):
        """The lines of all definitions."""
        terms = self.terms.nodes
        needed, todo = set(), [abs(fact) for facts in self.facts for fact in facts]
        seen = set(todo)
        while todo:
            place = todo.pop()
            for part in terms[place][1] if terms[place][0] not in (VARIABLE, CONSTANT) else ():
                if abs(part) in self.named:
                    needed.add(abs(part))
                if abs(part) not in seen:
                    seen.add(abs(part))
                    todo.append(abs(part))
        needed.update(abs(fact) for facts in self.facts for fact in facts if self.is_by_name(fact))
        return [f"{self.name_of(place)} iff ({self.text_of(place)})" for place in sorted(needed)]

    def is_by_name(self, fact):
        """Whether a line is the name of what it says, as a person would have written it."""
        return abs(fact) in self.named and abs(fact) in self.known

    def text_of(self, root, around=None):
        """The text of a term. One that stands by itself on a line or in brackets is not told by its name."""
        pieces, todo = [], [(root, around)]
        while todo:
            item = todo.pop()
            if isinstance(item, str):
                pieces.append(item)
            else:
                todo += reversed(self.shown(*item))
        return "".join(pieces)

    def shown(self, term, around):
        """A term's text as strings and terms still to be shown, in a node of the kind `around`."""
        place = abs(term)
        kind, parts = self.terms.nodes[place]
        sign = "" if term > 0 else "not "
        if kind == VARIABLE or (place in self.named and around is not None):
            return [sign + self.name_of(place)]
        if isinstance(kind, Count):
            return self.count_shown(kind, parts, term > 0)
        inner = self.inner(kind, parts)
        if term < 0:
            return ["not ("] + inner + [")"]
        plain = around is None or around == kind and kind in (AND, OR) or around == IMPLIES and kind in (AND, OR)
        return inner if plain else ["("] + inner + [")"]

    def count_shown(self, kind, parts, holds):
        """A count or its negation, with brackets around its list. A literal stands in a list once; what counts twice is no literal
        there."""
        words, number = (kind.words, kind.number) if holds else ("at most", kind.number - 1) if kind.words == LEAST else (
            "not exactly", kind.number)
        pieces, seen = [f"{words} {'one' if number == 1 else number} of ("], set()
        for at, part in enumerate(parts):
            twice = [" or ", (part, OR)] if part in seen else []
            pieces += [", "] * (at > 0) + ["("] * bool(twice) + [(part, kind)] + twice + [")"] * bool(twice)
            seen.add(part)
        return [*pieces, ")"]

    @staticmethod
    def inner(kind, parts):
        """A node's text without brackets around it."""
        if kind == CHOICE:
            condition, one, other = parts
            return ["(", (condition, IMPLIES), " implies ", (one, IMPLIES), ") and (", (-condition, IMPLIES), " implies ",
                    (other, IMPLIES), ")"]
        if kind == IMPLIES:
            left = joined(parts[:-1], " and ", IMPLIES if len(parts) == 2 else AND)
            return left + [" implies ", (parts[-1], IMPLIES)]
        return joined(parts, f" {kind} ", kind)


def joined(parts, word, around):
    return [piece for part in parts for piece in (word, (part, around))][1:]
