"""Levels, as docs/FORMATS.md tells them under 'Version 3': what shows that no set of one kind with at most k groups is missing.

    level = Level(4, "m", 1, [("u", (1, 2)), ("u", (1, 3, 4)), ("m", (1,))])      of 4 groups, for corrections of one group
    level.clauses           the block clauses and the counter's
    level.lines()           a closing part that shows it, or None if nothing does
    level.cnf()             the clauses with the limit, as a CNF that can't be satisfied if there is a closing part
    level.lrat(steps, goal) a closing part as a refutation of that CNF
    is_explored(..)         what a level says, by trying each set of groups

A record is its kind, `u` for a conflict and `m` for a correction, and its groups. It is slow, plain, and shares nothing with gmus nor with
tools/check_evidence.py.
"""
import itertools

from oracles.plain_evidence import Derivation, begun, minimal_sets, numbers

NAMES = {"u": "conflicts", "m": "corrections"}


def block(kind, groups):
    """The clause that is false at the sets of groups that a record explores: those that hold a conflict, or lack all of a correction."""
    return [-group if kind == "u" else group for group in groups]


def order_of(kind, records):
    """The groups that the sets of the other kind name, each where it is first named; and those of them that are sure."""
    others = [groups for of, groups in records if of != kind]
    order = list(dict.fromkeys(group for groups in others for group in groups))
    return order, [group for group in order if any(tuple(groups) == (group,) for groups in others)]


class Counter:
    """Sinz's counter of an order of groups with a bound: clauses by which s(i, j) is true if of the first i groups at least j count."""

    def __init__(self, groups, kind, bound, order):
        self.groups, self.bound, self.rows, self.clauses = groups, bound, len(order), []
        for i, group in enumerate(order, 1):
            counts = group if kind == "u" else -group
            for j in range(1, min(i, bound + 1) + 1):
                if j < i:
                    self.clauses.append([-self.s(i - 1, j), self.s(i, j)])
                self.clauses.append([-counts, self.s(i, j)] if j == 1 else [-counts, -self.s(i - 1, j - 1), self.s(i, j)])

    def s(self, i, j):
        return self.groups + (self.bound + 1) * (i - 1) + j

    def too_many(self):
        """The variable that is true if more count than the bound."""
        return self.s(self.rows, self.bound + 1)


class Level:
    """What is to be shown of a kind and a number of groups, over these records. Without a kind it is that no set is missing at all."""

    def __init__(self, groups, kind, most, records):
        self.kind, self.most = kind, most
        self.blocks = [block(*record) for record in records]
        order, sure = order_of(kind, records) if kind else ([], [])
        left_out = sure[:most]
        self.order, bound = [group for group in order if group not in left_out], (most or 0) - len(left_out)
        counter = Counter(groups, kind, bound, self.order) if len(self.order) > bound else None
        self.clauses = self.blocks + (counter.clauses if counter else [])
        # the literals that the goal may have
        self.goal = [counter.too_many()] if counter else []
        self.variables = counter.too_many() if counter else groups

    def derivation(self):
        """Steps from the clauses to the goal, as lines, and the id of the goal; or None if a model makes all clauses true and the goal false."""
        made = Derivation(self.clauses)
        try:
            return made, made.derive([], self.goal)
        except StopIteration:
            return None

    def lines(self):
        """The lines that close evidence with these records, or None."""
        found = self.derivation()
        return found and [*found[0].lines, numbers("x", found[1]), " ".join(["e", NAMES[self.kind], str(self.most)] if self.kind else ["e complete"])]

    def cnf(self):
        """The clauses as a CNF, and last, as a unit, the limit: not more count than may."""
        clauses = self.clauses + [[-lit] for lit in self.goal]
        return "\n".join([numbers("p cnf", self.variables, len(clauses)), *(numbers(*lits, 0) for lits in clauses), ""])

    def lrat(self, steps, goal):
        """The refutation of the CNF by the steps of a closing part, each its id, literals and hints, and the id of its goal. Where the
        limit stands among the clauses, ids of steps are one greater."""
        limit = len(self.clauses) + 1 if self.goal else None

        def moved(number):
            return number + 1 if self.goal and number > len(self.clauses) else number

        lines = [numbers(moved(number), *lits, 0, *map(moved, hints), 0) for number, lits, hints in steps]
        clause = self.clauses[goal - 1] if goal <= len(self.clauses) else next(lits for number, lits, _ in steps if number == goal)
        last = max([limit or len(self.clauses), *(moved(number) for number, _, _ in steps)]) + 1
        return "\n".join([*lines, numbers(last, 0, *([limit] if clause else []), moved(goal), 0), ""])


def is_explored(groups, kind, most, records):
    """Whether each set of groups at which at most so many count holds a conflict of the records, or lacks all of a correction."""
    every = range(1, groups + 1)
    for count in range(groups + 1):
        for kept in map(set, itertools.combinations(every, count)):
            counted = count if kind == "u" else groups - count
            if counted <= most and not any(kept.issuperset(of) if it == "u" else kept.isdisjoint(of) for it, of in records):
                return False
    return True


def evidence(problem, chance):
    """The text of version 3 about some minimal sets, with the end of a level, or of all if none is missing. The sets, their order, the
    kind and the number of groups are drawn by chance; if they don't show the level, the other sets stand there too."""
    every, kind, most = list(minimal_sets(problem)), chance.choice(["u", "m", "u", "m", None]), chance.randint(0, problem.groups)
    chosen = chance.sample(every, chance.randint(0, len(every)))
    closed = Level(problem.groups, kind, most, chosen).lines()
    if closed is None:
        chosen += chance.sample([record for record in every if record not in chosen], len(every) - len(chosen))
        closed = Level(problem.groups, kind, most, chosen).lines()
    return "\n".join([*begun(problem, chance, 3, chosen)[0], *closed, ""]).encode()


def random_records(chance, groups):
    """Records with sets of groups of both kinds, some of one group and some of none, which need not be those of any problem."""
    found = {}
    for _ in range(chance.randint(0, 9)):
        size = min(groups, chance.choice([0, 1, 1, 2, 2, 3, 4]))
        found.setdefault((chance.choice("um"), tuple(sorted(chance.sample(range(1, groups + 1), size)))))
    return list(found)


class NoLevel(Exception):
    """Why a text has no level."""


def read(text):
    """The level of evidence of any version that ends with a closing part, its steps, and the id of its goal. Nothing is judged."""
    lines = [line.split() for line in text.decode("latin-1").split("\n")[:-1]]
    if len(lines) < 2 or lines[0][:2] != ["p", "gmev"] or lines[-1][:1] != ["e"] or lines[-2][:1] != ["x"]:
        raise NoLevel("this is no evidence with a closing part")
    groups, records = int(lines[0][5]), [(words[0], tuple(map(int, words[1:-1]))) for words in lines if words[0] in ("u", "m")]
    behind = max([at for at, words in enumerate(lines) if words[0] in ("r", "t", "w")], default=0)
    steps = []
    for words in lines[behind + 1:-2]:
        number, *rest = map(int, words[1:])
        end = rest.index(0)
        steps.append((number, rest[:end], rest[end + 1:-1]))
    kinds = {name: kind for kind, name in NAMES.items()}
    kind, most = (kinds[lines[-1][1]], int(lines[-1][2])) if len(lines[-1]) == 3 else (None, None)
    return Level(groups, kind, most, records), steps, int(lines[-2][1])
