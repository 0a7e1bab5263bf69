"""Clauses for a count of a long list, by a network that puts so many of the literals in order as the count looks at.

    from gmus_tools.rules.network import Network, cost
    network = Network(new_variable, up=True, down=False)
    network.fewer_than(9, literals)     the clauses that say so, over variables that network.definitions says

A network has outputs: the first says that at least one of the literals is true, the second that two are, and so on. It is
built by merging lists that are in order already, odd places and even places apart (Batcher 1968; for clauses Asín, Nieuwenhuis,
Oliveras and Rodríguez-Carbonell 2011), and where few outputs are wanted each two literals are compared first, since of the
smaller ones half as many count (Codish and Zazon-Ivry 2010). Small lists are merged at once, by a clause for each pair of
places, where that is shorter (Abío and others 2013). With n literals and m outputs there are some n log m log m clauses.

`up` says that literals which are true make the outputs true, which a count needs that bounds them from above, and `down` the
converse. Whatever the literals are, the outputs can be chosen so that the definitions hold.
"""
import functools
import itertools
import math

SMALL = 6       # so many literals are put in order at once, at most


class Network:
    """Makes the clauses. `new_variable()` gives the number of a variable that no one else has."""

    def __init__(self, new_variable, up, down):
        self.new_variable = new_variable
        self.up, self.down = up, down
        self.definitions = []       # of the outputs of all parts

    # ---- what is said of a list

    def fewer_than(self, count, literals):
        """The clauses that say that fewer than so many literals are true; the network has to go up."""
        one, other = self.halves(count, literals)
        return [[-lit for lit in (*one[at - 1:at], *other[count - at - 1:count - at])]
                for at in range(max(0, count - len(other)), min(count, len(one)) + 1)]

    def at_least(self, count, literals):
        """The clauses that say that at least so many literals are true; the network has to go down."""
        return self.reaching(count, *self.halves(count, literals))

    def exactly(self, count, literals):
        """Both of them over the same outputs."""
        one, other = self.halves(count + 1, literals)
        above = [[-lit for lit in (*one[at - 1:at], *other[count - at:count + 1 - at])]
                 for at in range(max(0, count + 1 - len(other)), min(count + 1, len(one)) + 1)]
        return above + self.reaching(count, one, other)

    @staticmethod
    def reaching(count, one, other):
        """That two lists in order reach this count together: where one has few, the other has the rest."""
        return [[*one[at:at + 1], *other[count - 1 - at:count - at]]
                for at in range(max(0, count - 1 - len(other)), min(count - 1, len(one)) + 1)]

    def halves(self, count, literals):
        """Two lists in order that have as many true literals together, up to this count, as the list itself."""
        way = best_way(len(literals), count, self.up, self.down)[1]
        if way == "pairs":
            larger, smaller = self.compared(literals, count > 1)
            return self.in_order(larger, count), self.in_order(smaller, count // 2)
        at = len(literals) if way == "at once" else len(literals) // 2
        return self.in_order(literals[:at], count), self.in_order(literals[at:], count)

    # ---- networks

    def in_order(self, literals, count):
        """The first so many outputs of a list."""
        count = min(count, len(literals))
        if count == 0 or len(literals) < 2:
            return literals[:count]
        if best_way(len(literals), count, self.up, self.down)[1] == "at once":
            return self.at_once(literals, count)
        return self.merged(*self.halves(count, literals), count)

    def at_once(self, literals, count):
        """In order by a clause for each choice of literals."""
        found = [self.new_variable() for _ in range(count)]
        for number, output in enumerate(found, 1):
            if self.up:
                self.definitions += [[*(-lit for lit in some), output] for some in itertools.combinations(literals, number)]
            if self.down:
                self.definitions += [[-output, *some] for some in itertools.combinations(literals, len(literals) + 1 - number)]
        return found

    def compared(self, literals, is_smaller_wanted):
        """The larger and the smaller one of each two literals; one that is left over is among the larger."""
        pairs = list(zip(literals[0::2], literals[1::2]))
        made = [self.compare(one, other, is_smaller_wanted) for one, other in pairs]
        return [larger for larger, _ in made] + literals[2 * len(pairs):], [smaller for _, smaller in made if smaller]

    def compare(self, one, other, is_smaller_wanted=True):
        """What is true if one of two literals is, and what is true if both are."""
        larger = self.new_variable()
        smaller = self.new_variable() if is_smaller_wanted else 0
        if self.up:
            self.definitions += [[-one, larger], [-other, larger]] + ([[-one, -other, smaller]] if smaller else [])
        if self.down:
            self.definitions += [[-larger, one, other]] + ([[-smaller, one], [-smaller, other]] if smaller else [])
        return larger, smaller

    def merged(self, one, other, count):
        """The first so many outputs of two lists in order together."""
        one, other = one[:count], other[:count]
        count = min(count, len(one) + len(other))
        if not one or not other:
            return (one or other)[:count]
        if best_merge(len(one), len(other), count, self.up, self.down)[1] == "at once":
            return self.merged_at_once(one, other, count)
        odd = self.merged(one[0::2], other[0::2], count // 2 + 1)
        even = self.merged(one[1::2], other[1::2], count // 2)
        found = odd[:1]
        for larger, smaller in itertools.zip_longest(odd[1:], even):
            if larger and smaller:
                found += self.compare(larger, smaller, len(found) + 1 < count)
            else:
                found.append(larger or smaller)
        return [output for output in found if output][:count]

    def merged_at_once(self, one, other, count):
        """The outputs of two lists in order, by a clause for each pair of places."""
        found = [self.new_variable() for _ in range(count)]
        for at, to in itertools.product(range(len(one) + 1), range(len(other) + 1)):
            if self.up and 0 < at + to <= count:
                self.definitions.append([*(-lit for lit in (*one[:at][-1:], *other[:to][-1:])), found[at + to - 1]])
            if self.down and at + to < count:
                self.definitions.append([-found[at + to], *one[at:at + 1], *other[to:to + 1]])
        return found


# ---- what is cheapest; a clause costs its literals and two more

def size(clauses, literals):
    return 2 * clauses + literals


def cost(length, count, up, down):
    """What the clauses of a count of a list of this length cost that looks at so many outputs."""
    return best_way(length, count, up, down)[0]


@functools.lru_cache(maxsize=None)
def best_way(length, count, up, down):
    """What a list costs to be put in order, and how: all at once, each two compared first, or by halves."""
    count = min(count, length)
    if count == 0 or length < 2:
        return 0, "at once"
    ways = []
    if length <= SMALL:
        numbers = range(1, count + 1)
        ways.append((sum(up * math.comb(length, number) * (3 + number) + down * math.comb(length, number - 1) * (4 + length - number)
                         for number in numbers), "at once"))
    if length > 2:
        ways.append((halves_cost(length // 2, length - length // 2, count, count, up, down), "halves"))
        pairs = length // 2
        compared = pairs * (up * (size(2, 4) + size(1, 3) * (count > 1)) + down * (size(1, 3) + size(2, 4) * (count > 1)))
        ways.append((compared + halves_cost(length - pairs, pairs, count, count // 2, up, down), "pairs"))
    return min(ways)


def halves_cost(first, second, count, fewer, up, down):
    """What two lists and their merging cost, of which so many outputs are wanted, and of the second at most so many fewer."""
    return (best_way(first, count, up, down)[0] + best_way(second, fewer, up, down)[0]
            + best_merge(min(first, count), min(second, fewer), count, up, down)[0])


@functools.lru_cache(maxsize=None)
def best_merge(first, second, count, up, down):
    """What merging two lists in order costs, and how: at once, or odd and even places apart."""
    first, second, count = min(first, count), min(second, count), min(count, first + second)
    if not first or not second:
        return 0, "at once"
    at_once = 0
    for at in range(first + 1):
        ups = max(0, min(second, count - at) + 1 - (at == 0))
        downs = max(0, min(second, count - 1 - at) + 1)
        at_once += up * 5 * ups + down * 5 * downs
    ways = [(at_once, "at once")]
    if first > 1 or second > 1:
        apart = (best_merge((first + 1) // 2, (second + 1) // 2, count // 2 + 1, up, down)[0]
                 + best_merge(first // 2, second // 2, count // 2, up, down)[0])
        compares = min(count // 2, first // 2 + second // 2, (first + 1) // 2 + (second + 1) // 2 - 1)
        ways.append((apart + compares * (up + down) * (size(2, 4) + size(1, 3)), "apart"))
    return min(ways)
