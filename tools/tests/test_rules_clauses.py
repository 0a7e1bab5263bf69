#!/usr/bin/env python3
"""Tests that rules and their GCNF files say the same: formulas made by chance, against what they say for each assignment.

GMUS_TRIALS=1000 in the environment tries so many of them.
"""
import contextlib
import itertools
import os
import random
import unittest
from unittest import mock

from places import TOP
from gmus_tools.rules import clauses as rules_clauses, language, network as rules_network

NAMES = "abcdef"
TIGHTNESS = {"iff": 0, "implies": 1, "never": 1, "or": 2, "and": 3, "not": 4, "count": 5, "name": 5}
# how large a plain form may be, and a list without a network: as it is, small, never plain, and always with a network, of which
# six or two literals may be put in order at once
SIZES = ((64, 2_000, 64, 200, 6), (3, 20, 2, 200, 6), (0, 0, 0, 200, 6), (0, 0, 0, 1, 6), (0, 0, 0, 1, 2))


def formula(draw, depth):
    """A formula as a tree of its own: a name, or a word and formulas, of a count with its word and number before them."""
    kind = draw.choice(["not", "and", "or", "implies", "iff", "never", "count", "count", "name"]) if depth else "name"
    if kind == "name":
        return "name", draw.choice(NAMES)
    size = {"not": 1, "never": 1, "implies": 2, "iff": 2, "count": draw.randint(1, 5)}.get(kind) or draw.randint(2, 4)
    parts = tuple(formula(draw, draw.randint(0, depth - 1)) for _ in range(size))
    if kind != "count":
        return kind, parts
    # a list has no literal twice
    parts = tuple({literal_of(part): part for part in parts}.values())
    return kind, parts, draw.choice(["at most", "at least", "exactly"]), draw.randint(0, len(parts) + 1)


def literal_of(tree):
    """The name and the sign of a formula that is a literal; any other formula itself."""
    if tree[0] == "name":
        return tree[1], True
    if tree[0] in ("not", "never"):
        name, sign, *more = literal_of(tree[1][0])
        return (name, not sign) if isinstance(sign, bool) and not more else tree
    return tree


def text_of(draw, tree, tighter_than=-1):
    """The formula in words, with brackets where they are due, and now and then more."""
    kind, parts = tree[:2]
    if kind == "name":
        text = parts
    elif kind == "not":
        text = "not " + text_of(draw, parts[0], 3)
    elif kind == "never":
        text = "never " + text_of(draw, parts[0], 1)
    elif kind == "count":
        number = "one" if tree[3] == 1 else tree[3]
        text = f"{tree[2]} {number} of ({', '.join(text_of(draw, part, 3) for part in parts)})"
    elif kind == "implies":
        text = f"{text_of(draw, parts[0], 1)} implies {text_of(draw, parts[1], int(parts[1][0] == 'never'))}"
    elif kind == "iff":
        text = " iff ".join(text_of(draw, part, int(part[0] == "never")) for part in parts)
    else:
        text = f" {kind} ".join(text_of(draw, part, TIGHTNESS[kind]) for part in parts)
    return f"({text})" if TIGHTNESS[kind] <= tighter_than or draw.random() < 0.1 else text


def holds(tree, values):
    """Whether the formula holds for these values of the names."""
    kind, parts = tree[:2]
    if kind == "name":
        return values[parts]
    found = [holds(part, values) for part in parts]
    if kind == "count":
        number = sum(found)
        return {"at most": number <= tree[3], "at least": number >= tree[3], "exactly": number == tree[3]}[tree[2]]
    return {"not": lambda: not found[0], "never": lambda: not found[0], "and": lambda: all(found), "or": lambda: any(found),
            "implies": lambda: not found[0] or found[1], "iff": lambda: found[0] == found[1]}[kind]()


def can_hold(clauses):
    """Whether some assignment makes all clauses true."""
    clauses = list(clauses)
    while clauses:
        if [] in clauses:
            return False
        unit = next((clause[0] for clause in clauses if len(set(clause)) == 1), None)
        if unit is None:
            lit = clauses[0][0]
            return can_hold([*clauses, [lit]]) or can_hold([*clauses, [-lit]])
        clauses = [[lit for lit in clause if lit != -unit] for clause in clauses if unit not in clause]
    return True


def is_settled(clauses, units):
    """Whether propagation of units, from these on, falsifies no clause."""
    places = {}
    for clause in clauses:
        for lit in clause:
            places.setdefault(-lit, []).append(clause)
    true, todo = set(units), list(units)
    while todo:
        for clause in places.get(todo.pop(), ()):
            left = [lit for lit in clause if -lit not in true]
            if not left:
                return False
            if len(left) == 1 and left[0] not in true:
                true.add(left[0])
                todo.append(left[0])
    return True


def assignments():
    for values in itertools.product((False, True), repeat=len(NAMES)):
        yield dict(zip(NAMES, values))


def clauses_of(made):
    return [list(map(int, line.split()[1:-1])) for line in made.gcnf().split("\n") if line.startswith("{")]


@contextlib.contextmanager
def sized(size):
    few = 2 if size[3] > 1 else 0
    for it in (rules_network.best_way, rules_network.best_merge):
        it.cache_clear()
    with mock.patch.multiple(rules_clauses, PLAIN_CLAUSES=size[0], PLAIN_LITERALS=size[1], PLAIN_PAIRS=size[2], LONG_LIST=size[3],
                             FEW_COUNTED=few), mock.patch.object(rules_network, "SMALL", size[4]):
        yield
    for it in (rules_network.best_way, rules_network.best_merge):
        it.cache_clear()


class Clauses(unittest.TestCase):
    def says_the_same(self, made, says, row):
        clauses = clauses_of(made)
        for values in assignments():
            units = [[number if values[name] else -number] for name, number in made.variables.items()]
            self.assertEqual(can_hold(clauses + units), says(values), (row, values))

    def test_formulas_say_the_same_as_their_clauses(self):
        for number in range(int(os.environ.get("GMUS_TRIALS", 60))):
            draw = random.Random(number)
            tree = formula(draw, 4)
            text = text_of(draw, tree)
            for size in SIZES:
                with sized(size):
                    made = language.read(f"[r]\n{text}", "r")
                self.says_the_same(made, lambda values: holds(tree, values), (number, size, text))

    def test_counts_say_the_same_as_their_clauses(self):
        for total, number, kind in itertools.product(range(1, 7), range(8), ("at most", "at least", "exactly")):
            tree = "count", tuple(("name", name) for name in NAMES[:total]), kind, number
            for size in SIZES[2:]:
                with sized(size):
                    made = language.read(f"[r]\n{kind} {number} of {', '.join(NAMES[:total])}", "r")
                self.says_the_same(made, lambda values: holds(tree, values), (total, number, kind, size))

    def test_large_lines_stay_small(self):
        names = [f"x{number}" for number in range(300)]
        listed, all_of = ", ".join(names), " and ".join(names)
        for line, variables, clauses in (
                (f"at most one of {listed}", 300, 3 * 300), (f"exactly one of {listed}", 300, 3 * 300 + 1),
                (f"at least 298 of {listed}", 750, 1_400), (f"exactly 20 of {listed}", 2_500, 9_000),
                (f"at most 20 of {listed}", 2_500, 5_000), (f"not exactly 20 of ({listed})", 5_000, 9_000),
                (f"at most 299 of {listed}", 0, 1), (f"at least one of {listed}", 0, 1), (f"a implies {all_of}", 0, 300),
                (f"a and b or {all_of}", 1, 300 + 2), (" or ".join(f"a{at} and b{at}" for at in range(300)), 300, 2 * 300 + 1),
                (" iff (".join(names[:100]) + ")" * 99, 2 * 99, 8 * 99)):
            made = language.read(f"[r]\n{line}", "r")
            self.assertLessEqual(made.defined, variables, line[:40])
            self.assertLessEqual(made.clauses, clauses, line[:40])

    def test_500_of_2_000_take_at_most_five_megabytes(self):
        listed = ", ".join(f"x{number}" for number in range(2_000))
        for kind in ("at most 500", "exactly 1500"):
            self.assertLess(len(language.read(f"[r]\n{kind} of {listed}", "r").gcnf()), 5_000_000, kind)

    def test_counts_of_long_lists_say_what_they_say(self):
        """Once all names have a value, propagation of units finds whether a count by a network holds."""
        for seed in range(4):
            draw = random.Random(seed)
            total, number = draw.randint(200, 260), draw.randint(3, 197)
            names = [f"x{place}" for place in range(total)]
            for kind, holds_for in (("at most", lambda held: held <= number), ("at least", lambda held: held >= number),
                                    ("exactly", lambda held: held == number)):
                clauses = clauses_of(language.read(f"[r]\n{kind} {number} of {', '.join(names)}", "r"))
                for held in (number - 1, number, number + 1, draw.randint(0, total)):
                    true = set(draw.sample(range(1, total + 1), held))
                    units = [place if place in true else -place for place in range(1, total + 1)]
                    self.assertEqual(is_settled(clauses, units), holds_for(held), (seed, kind, number, total, held))


@unittest.skipUnless(os.path.isdir(os.path.join(TOP, "oracles")), "the folder oracles, which tries every set, is not here")
class Answers(unittest.TestCase):
    def test_definitions_change_no_answer(self):
        """The plain form: for each assignment of its names that a line does not hold for, a clause that rules it out."""
        from oracles import brute_force
        names = NAMES[:3]
        for number in range(int(os.environ.get("GMUS_TRIALS", 60)) // 3):
            draw = random.Random(number)
            with mock.patch.dict(globals(), NAMES=names):
                rows = [(group, formula(draw, 2)) for group in (0, 0, 1, 1, 2, 3, 4)]
            plain = []
            for group, tree in rows:
                for values in itertools.product((False, True), repeat=len(names)):
                    if not holds(tree, dict(zip(names, values))):
                        plain.append((group, [-at if value else at for at, value in enumerate(values, 1)]))
            lines = ["[always]"]
            for place, (group, tree) in enumerate(rows):
                if group and rows[place - 1][0] != group:
                    lines.append(f"[rule {group}]")
                lines.append(text_of(draw, tree))
            with sized(SIZES[2 + number % 3]):
                text = language.read("\n".join(lines), "r").gcnf()
            variables, groups, clauses = brute_force.problem_of(text.split("\n"))
            if variables <= 14:
                self.assertEqual(brute_force.report(variables, groups, clauses), brute_force.report(3, 4, plain), lines)


if __name__ == "__main__":
    unittest.main()
