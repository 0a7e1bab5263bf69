"""What corrections leave: of each, by names, one configuration that all other rules allow.

    from gmus_tools.configurations import Configurations
    left = Configurations(problem, evidence)        of why_problem.Problem and why_evidence.Evidence
    left.of([1, 3])     the names that hold if the groups 1 and 3 are given up, in the order of the rules

Evidence has a witness of each correction: an assignment that makes all clauses true but for those of its groups. Each is checked
against the clauses before anything is told of it. Told are variables that have a name; a correction that the evidence lacks has
none, and neither has a file whose variables have no names.
"""
# Witnesses are checked together, a bit of a word for each: as many as give words of so many bits in all.
BITS, LEAST, MOST = 2 ** 29, 64, 2 ** 16


class Configurations:
    """The configurations that the corrections of evidence leave, or those of these sets of groups."""

    def __init__(self, problem, evidence, wanted=None):
        self.names = {variable: problem.variable(variable) for variable in sorted(problem.variable_names)}
        self.found = {}
        if self.names:
            places = evidence.corrections()
            every = places if wanted is None else [groups for groups in map(tuple, wanted) if groups in places]
            self.read(problem, evidence, [(groups, places[groups]) for groups in every])

    def read(self, problem, evidence, places):
        """Reads witnesses, checks them, and keeps of each the variables with names."""
        most = max(LEAST, min(MOST, BITS // (problem.variables + 1)))
        for begin in range(0, len(places), most):
            part = places[begin:begin + most]
            witnesses = [evidence.witness(at, number) for _, (at, number) in part]
            wrong = first_wrong(problem, [groups for groups, _ in part], witnesses)
            if wrong is not None:
                evidence.refuse(part[wrong][1][1] + 1, "18 WitnessFails: this assignment does not make all other clauses true")
            for (groups, _), witness in zip(part, witnesses):
                self.found[groups] = [variable for variable in witness if variable in self.names]

    def of(self, groups):
        """The names that hold where these groups are given up, or None if that isn't known."""
        found = self.found.get(tuple(groups))
        return None if found is None else [self.names[variable] for variable in found]


def first_wrong(problem, sets, witnesses):
    """The place of the first witness that does not make true all clauses that its set of groups leaves, or None."""
    every, wrong = (1 << len(sets)) - 1, 0
    holding, given = columns(witnesses), columns(sets)
    for clause in range(1, problem.count + 1):
        true = given.get(problem.group_of[clause], 0)
        for lit in problem.lits(clause):
            true |= holding.get(lit, 0) if lit > 0 else every ^ holding.get(-lit, 0)
        wrong |= every ^ true
    return (wrong & -wrong).bit_length() - 1 if wrong else None


def columns(rows):
    """Of each number that stands in a row, a word with the bits of the rows in which it stands."""
    found = {}
    for at, row in enumerate(rows):
        place, bit = at >> 3, 1 << (at & 7)
        for number in row:
            if number not in found:
                found[number] = bytearray(len(rows) + 7 >> 3)
            found[number][place] |= bit
    return {number: int.from_bytes(bits, "little") for number, bits in found.items()}
