"""Small problems made by chance, and evidence about them by trying every set of groups, for tests and comparisons: slow, plain,
and independent of gmus."""
import itertools


class Derivation:
    """Steps from input clauses to a clause of literals that are all among some."""

    def __init__(self, inputs):
        self.clauses = dict(enumerate(inputs, 1))
        self.next, self.lines = len(inputs) + 1, []

    def add(self, lits, hints):
        self.clauses[self.next] = lits
        self.lines.append(" ".join(map(str, ["d", self.next, *lits, 0, *hints, 0])))
        self.next += 1
        return self.next - 1

    def propagate(self, falses):
        """The hints that lead from these false literals to a falsified clause, and its literals are these; or None."""
        falses, hints = set(falses), []
        while True:
            units = None
            for number, lits in self.clauses.items():
                left = set(lits) - falses
                if not left:
                    return hints + [number], None
                if len(left) == 1 and units is None and -next(iter(left)) not in falses:
                    units = number, next(iter(left))
            if units is None:
                return None, falses
            hints.append(units[0])
            falses.add(-units[1])

    def derive(self, decided, kept):
        """The id of a clause of literals of these only: the negations of what was decided, and those that are kept."""
        lits = [-lit for lit in decided] + kept
        hints, falses = self.propagate(lits)
        if hints is None:
            variable = next(abs(lit) for clause in self.clauses.values() for lit in clause if lit not in falses and -lit not in falses)
            hints = [self.derive(decided + [variable], kept), self.derive(decided + [-variable], kept)]
        elif len(hints) == 1 and not decided and set(self.clauses[hints[0]]) <= set(lits):
            return hints[0]
        return self.add(lits, hints)


def satisfying(problem, groups):
    """The true variables of an assignment that satisfies the background and these groups, or None."""
    for values in itertools.product([False, True], repeat=problem.vars):
        trues = {at for at, value in enumerate(values, 1) if value}
        if problem.is_satisfied(groups, trues):
            return trues
    return None


def numbers(*words):
    return " ".join(map(str, words))


def refutation(problem, groups, number):
    """The lines that refute a set of groups, under this number."""
    made = Derivation(problem.selector_form())
    goal = made.derive([], [-(problem.vars + group) for group in sorted(groups)])
    return made.lines + [numbers("r", number, goal)]


def witness(problem, groups, number):
    return numbers("w", number, *sorted(satisfying(problem, groups)), 0)


def conflict(problem, groups):
    """The lines of the record of a minimal conflict."""
    chosen = set(groups)
    return [numbers("u", *groups, 0), *refutation(problem, chosen, 0),
            *(witness(problem, chosen - {group}, group) for group in groups)]


def correction(problem, groups, refuted=None):
    """The lines of the record of a minimal correction. `refuted` gives those that refute one of its groups."""
    rest = set(range(1, problem.groups + 1)) - set(groups)
    lines = [numbers("m", *groups, 0), witness(problem, rest, 0)]
    for group in groups:
        lines += refuted(group) if refuted else refutation(problem, rest | {group}, group)
    return lines


def closing(blocks):
    """The lines that close evidence whose records have these block clauses, and of which none is missing."""
    made = Derivation(blocks)
    goal = made.derive([], [])
    return made.lines + [numbers("x", goal), "e complete"]


def minimal_sets(problem):
    """The kinds and the groups of all minimal sets, those of few groups first: each set of groups is tried."""
    everything = set(range(1, problem.groups + 1))
    sat = {}
    for count in range(problem.groups + 1):
        for groups in itertools.combinations(sorted(everything), count):
            sat[groups] = satisfying(problem, set(groups)) is not None

    def holds(groups):
        return sat[tuple(sorted(groups))]

    for groups in sat:
        chosen = set(groups)
        if not holds(chosen) and all(holds(chosen - {group}) for group in chosen):
            yield "u", groups
        rest = everything - chosen
        if holds(rest) and not any(holds(rest | {group}) for group in chosen):
            yield "m", groups


def begun(problem, chance, version, sets):
    """The head and the records of these minimal sets as lines, and their block clauses. From version 2 on most refutations that an
    earlier conflict serves name one, by chance."""
    lines = [numbers("p gmev", version, problem.vars, len(problem.clauses), problem.groups)]
    blocks = []
    for kind, groups in sets:
        def refuted(group, chosen=frozenset(groups)):
            serve = [number for number, block in enumerate(blocks, 1)
                     if all(lit < 0 and (-lit == group or -lit not in chosen) for lit in block)]
            if version > 1 and serve and chance.random() < 0.8:
                return [numbers("t", group, chance.choice(serve))]
            everything = set(range(1, problem.groups + 1))
            return refutation(problem, everything - chosen | {group}, group)

        lines += conflict(problem, groups) if kind == "u" else correction(problem, groups, refuted)
        blocks.append([-group for group in groups] if kind == "u" else list(groups))
    return lines, blocks


def evidence(problem, chance, version):
    """The text of all minimal conflicts and corrections, with a closing part."""
    lines, blocks = begun(problem, chance, version, minimal_sets(problem))
    return "\n".join([*lines, *closing(blocks), ""]).encode()


def random_problem(chance):
    """A GCNF file of a few groups over a few variables."""
    variables, groups = chance.randint(1, 4), chance.randint(1, 5)
    clauses = []
    for _ in range(chance.randint(groups, 3 * groups)):
        size = chance.choice([0, 1, 1, 2, 2, 2, 3]) if chance.random() < 0.9 else 1
        lits = [chance.choice([-1, 1]) * chance.randint(1, variables) for _ in range(size)]
        clauses.append((chance.randint(0, groups) if chance.random() < 0.2 else chance.randint(1, groups), lits))
    return f"p gcnf {variables} {len(clauses)} {groups}\n" + "".join(
        "{%d} %s\n" % (group, " ".join(map(str, lits + [0]))) for group, lits in clauses)
