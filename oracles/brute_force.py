#!/usr/bin/env python3
"""The report of a GCNF or CNF file by trying every set of groups: slow, plain, and independent of gmus.

usage: brute_force.py FILE
"""
import sys
from itertools import product


def read(path):
    with open(path) as lines:
        return problem_of(lines)


def problem_of(lines):
    words = " ".join(l for l in lines if not l.lstrip(" \t").startswith("c"))
    words = words.replace("{", " { ").replace("}", " } ").split()
    assert words[:2] in (["p", "gcnf"], ["p", "cnf"])
    return in_braces(words[2:]) if words[1] == "gcnf" else in_order(words[2:])


def in_braces(words):
    variables, clauses, groups = map(int, words[:3])
    found, rest = [], words[3:]
    while rest:
        end = rest.index("0", 3)
        found.append((int(rest[1]), [int(w) for w in rest[3:end]]))
        rest = rest[end + 1:]
    assert len(found) == clauses
    return variables, groups, found


def in_order(words):
    # each clause is a group
    variables, clauses = map(int, words[:2])
    found, rest = [], words[2:]
    for group in range(1, clauses + 1):
        end = rest.index("0")
        found.append((group, [int(w) for w in rest[:end]]))
        rest = rest[end + 1:]
    assert not rest or rest[0].startswith("%")
    return variables, clauses, found


def report(variables, groups, clauses):
    # for each assignment, the groups it satisfies, where it satisfies the background
    satisfied = set()
    for values in product([False, True], repeat=variables):
        broken = {g for g, lits in clauses if not any(values[abs(l) - 1] == (l > 0) for l in lits)}
        if 0 not in broken:
            satisfied.add(frozenset(range(1, groups + 1)) - broken)
    known = {}

    def sat(chosen):
        if chosen not in known:
            known[chosen] = any(chosen <= s for s in satisfied)
        return known[chosen]

    everything = frozenset(range(1, groups + 1))
    conflicts, corrections = [], []
    for bits in product([False, True], repeat=groups):
        chosen = frozenset(g for g, b in zip(range(1, groups + 1), bits) if b)
        if not sat(chosen) and all(sat(chosen - {g}) for g in chosen):
            conflicts.append(sorted(chosen))
        if sat(everything - chosen) and all(not sat(everything - chosen | {g}) for g in chosen):
            corrections.append(sorted(chosen))
    return text_of(groups, conflicts, corrections)


def text_of(groups, conflicts, corrections):
    lines = [f"p gmus {groups}", "s COMPLETE"]
    for letter, sets in (("u", conflicts), ("m", corrections)):
        lines += [" ".join([letter] + [str(g) for g in chosen] + ["0"]) for chosen in sorted(sets)]
    return "\n".join(lines + [f"e {len(conflicts)} {len(corrections)}", ""])


if __name__ == "__main__":
    sys.stdout.write(report(*read(sys.argv[1])))
