"""The clauses of a line of rules: from its tree to literals, with defined variables if the plain form is large.

    from gmus_tools.rules.clauses import Clauses
    Clauses(new_variable).of(tree)     gives a list of lists of literals

The plain form has the line's own variables alone: what is said is distributed over its parts, and a count has a clause for
each choice of so many from its list. If that is large, a part gets a variable of its own, which implies the part or is
implied by it as its place needs (Tseitin 1968; Plaisted and Greenbaum 1986), and a count gets variables that say how many
hold up to a place of its list (the sequential counter of Sinz 2005), or if the list is long how many hold of parts of it
(network.py). Such a variable stands in the clauses of this one line alone. So whatever the names are, the plain form
holds exactly if the defined variables can be chosen such that these clauses hold.
"""
import itertools
import math

from gmus_tools.rules.network import Network

PLAIN_CLAUSES = 64       # so many clauses of a part, or choices of a count, are written plainly
PLAIN_LITERALS = 2_000   # and they have at most so many literals
PLAIN_IFF = 4            # so many clauses of each side of an `iff`, each of which is written twice
PLAIN_PAIRS = 64         # the list of an `at most one of` with a clause for each pair is at most so long
LONG_LIST = 200          # so many formulas and more are counted by a network,
FEW_COUNTED = 2          # if more than so many of them, or of their negations, are looked for


class Clauses:
    """Makes the clauses of one line. `new_variable()` gives the number of a variable that no one else has."""

    def __init__(self, new_variable):
        self.new_variable = new_variable
        self.definitions = []     # clauses that say what the defined variables stand for
        # by the id of a part, which the part keeps as long as it is here too
        self.known = {}           # its clauses and the part, for each sign: `iff` asks for them again and again
        self.variables = {}       # its variable and the part
        self.defined = set()      # with a sign: whether clauses say that the variable stands for this

    def of(self, tree):
        """The clauses that say the tree, and those that say what the variables stand for that were defined for it."""
        clause = []
        if adds_clause(tree, True, clause):
            return [clause]
        found = self.clauses(tree, True)
        return found + self.definitions

    def clauses(self, tree, sign):
        """The clauses that say the tree, or that it doesn't hold if the sign is false."""
        if isinstance(tree, int):
            return [[tree if sign else -tree]]
        if (id(tree), sign) not in self.known:
            self.known[id(tree), sign] = self.clauses_of_part(tree, sign), tree
        return self.known[id(tree), sign][0]

    def clauses_of_part(self, tree, sign):
        kind = tree[0]
        if kind == "not":
            return self.clauses(tree[1], not sign)
        if kind == "iff":
            left, right = tree[1:]
            return (self.one_of([(left, False), (right, sign)], PLAIN_IFF)
                    + self.one_of([(left, True), (right, not sign)], PLAIN_IFF))
        if kind == "count":
            return self.count(tree, sign)
        if (kind == "and") == sign:
            return [clause for part in tree[1] for clause in self.clauses(part, sign)]
        return self.one_of([(part, sign) for part in tree[1]])

    def literal(self, tree, sign):
        """A literal from which the tree follows, or that it doesn't hold if the sign is false."""
        while not isinstance(tree, int) and tree[0] == "not":
            tree, sign = tree[1], not sign
        if isinstance(tree, int):
            return tree if sign else -tree
        if id(tree) not in self.variables:
            self.variables[id(tree)] = self.new_variable(), tree
        variable = self.variables[id(tree)][0]
        literal = variable if sign else -variable
        if (id(tree), sign) not in self.defined:
            self.defined.add((id(tree), sign))
            self.definitions += [[-literal, *clause] for clause in self.clauses(tree, sign)]
        return literal

    # ---- one of several parts holds

    def one_of(self, parts, shared=None):
        """The clauses that say that one of the parts holds, each with its sign.

        Parts that are asked for in other places too are distributed only if that gives at most `shared` clauses.
        """
        lists = [self.clauses(*part) for part in parts]
        if not all(lists):
            return []         # a part that holds anyway
        wide = [place for place, clauses in enumerate(lists) if len(clauses) > 1]
        count = math.prod(len(lists[place]) for place in wide)
        literals = count * sum(max(map(len, clauses)) for clauses in lists)
        if count > 1 and (count > (shared or PLAIN_CLAUSES) or literals > PLAIN_LITERALS):
            if shared is None and sum(len(clauses[0]) for clauses in lists if len(clauses) == 1) + len(wide) <= 3:
                wide.remove(max(wide, key=lambda place: len(lists[place])))
            for place in wide:
                lists[place] = [[self.literal(*parts[place])]]
        found = [list(itertools.chain.from_iterable(choice)) for choice in itertools.product(*lists)]
        return cleaned(found) if len(wide) > 1 else found

    # ---- counts

    def count(self, tree, sign):
        _, least, most, trees = tree
        if sign and least == most and is_long(min(least, len(trees) - least), trees):
            return self.long_exactly(least, trees)
        if sign:
            return self.at_least(least, trees) + self.at_most(most, trees)
        if least and most < len(trees):
            fewer, more = ("count", 0, least - 1, trees), ("count", most + 1, len(trees), trees)
            return self.one_of([(fewer, True), (more, True)])
        return self.at_most(least - 1, trees) if least else self.at_least(most + 1, trees)

    def at_least(self, wanted, trees):
        """Of any so many trees that the others are fewer than wanted, one holds."""
        if wanted <= 0:
            return []
        if wanted > len(trees):
            return [[]]
        size = len(trees) - wanted + 1
        return self.each_choice(size, trees, True) if is_plain(size, trees) else self.counter(wanted, trees, True)

    def at_most(self, wanted, trees):
        """Of any one more than wanted, one does not hold."""
        if wanted >= len(trees):
            return []
        if wanted < 0:
            return [[]]
        size = wanted + 1
        return self.each_choice(size, trees, False) if is_plain(size, trees) else self.counter(size, trees, False)

    def each_choice(self, size, trees, sign):
        """The plain form: of each choice of so many trees, one has this sign."""
        shared = max(1, PLAIN_CLAUSES // math.comb(len(trees), size))
        return [clause for choice in itertools.combinations(trees, size)
                for clause in self.one_of([(tree, sign) for tree in choice], shared)]

    def counter(self, goal, trees, sign):
        """With defined variables: at least `goal` of the trees hold, or fewer than that if the sign is false.

        If the list is long they are those of a network. Else a state is a place i and a number j: at least j of the first i trees hold, or fewer do. Only those have a variable for
        which the trees behind the place can still decide, and which don't follow from the goal.
        """
        literals = [self.literal(tree, sign) for tree in trees]
        if is_long(min(goal, len(trees) + 1 - goal), trees):
            # fewer than `goal` of the trees hold where so many of their negations do that no more than that are left
            return self.long_at_least(goal if sign else len(trees) + 1 - goal, literals)
        found, before = [], {}
        for place, literal in enumerate(literals, 1):
            left = len(literals) - place
            follows = goal - left if sign else goal
            now = {number: None if number == follows else self.new_variable()
                   for number in range(max(1, goal - left), min(place, goal) + 1)}
            for number, state in now.items():
                head = [-state] if state else []
                same, less = (known_state(before, place - 1, at, sign) for at in (number, number - 1))
                # at least j of the first i: at least j - 1 of those before; and at least j of them, or the last one
                # fewer than j of the first i: fewer than j of those before; and fewer than j - 1 of them, or not the last one
                first, second = (less, same) if sign else (same, less)
                found += with_state(head, first) + with_state([*head, literal], second)
            before = now
        return found


    # ---- counts of long lists; where fewer of the negations have to be counted, these are

    def long_at_least(self, goal, literals):
        """That at least so many of the literals hold."""
        rest = len(literals) + 1 - goal
        if rest < goal:
            return self.defined_by(Network(self.new_variable, up=True, down=False), "fewer_than", rest, negated(literals))
        return self.defined_by(Network(self.new_variable, up=False, down=True), "at_least", goal, literals)

    def long_exactly(self, goal, trees):
        """That so many of the trees hold, and no more: a variable of a part has to hold just if the part does."""
        literals = [self.literal(tree, True) for tree in trees]
        for tree in trees:
            self.literal(tree, False)
        network, rest = Network(self.new_variable, up=True, down=True), len(trees) - goal
        goal, literals = (rest, negated(literals)) if rest < goal else (goal, literals)
        return self.defined_by(network, "exactly", goal, literals)

    def defined_by(self, network, what, goal, literals):
        """What the network says of the literals; its outputs are defined once for all."""
        found = getattr(network, what)(goal, literals)
        self.definitions += network.definitions
        return found


def negated(literals):
    return [-literal for literal in literals]


def is_long(goal, trees):
    """Whether a list is counted by a network, of which, or of whose negations, at least so many are looked for."""
    return len(trees) >= LONG_LIST and goal > FEW_COUNTED


def is_plain(size, trees):
    """Whether there are few choices of so many trees."""
    few = min(size, len(trees) - size)
    return size == 2 and len(trees) <= PLAIN_PAIRS or few <= 3 and math.comb(len(trees), size) <= PLAIN_CLAUSES


def cleaned(clauses):
    """The clauses without repeated literals, and without those that hold anyway."""
    return [list(dict.fromkeys(clause)) for clause in clauses if not any(-literal in clause for literal in clause)]


def known_state(before, place, number, sign):
    """What says that at least so many hold up to a place, or fewer do: a variable, or what is known; None is known to hold."""
    if number <= 0:
        return None if sign else False
    if number > place:
        return False if sign else None
    return before[number]


def with_state(literals, state):
    """The clause of the literals and a state, if it is not known to hold."""
    if state is None:
        return []
    return [[*literals, state] if state else literals]


def adds_clause(tree, sign, literals):
    """Whether the tree, or its negation if the sign is false, is one clause, whose literals are added then."""
    if isinstance(tree, int):
        literals.append(tree if sign else -tree)
        return True
    if tree[0] == "not":
        return adds_clause(tree[1], not sign, literals)
    return tree[0] == ("or" if sign else "and") and all(adds_clause(part, sign, literals) for part in tree[1])
