#!/usr/bin/env python3
"""Writes what closes evidence as a CNF and a refutation of it, for checkers that know no evidence.

    oracles/level_cnf.py EVIDENCE CNF LRAT

EVIDENCE is evidence that ends with a closing part: in version 3 that no set of one kind with at most k groups is missing. CNF is a DIMACS
file with the block clauses of its records, the counter's clauses, and last, as a unit, that not more groups count than may. LRAT is its
closing part as a refutation of these, which `tools/check_lrat.py CNF LRAT` checks. The records are not judged: tools/check_evidence.py does
that. The status is 1 if EVIDENCE is none with a closing part or a file can't be read or written, and 2 if the words have no reading.
"""
import places  # noqa: F401
from gmus_tools import command
from oracles import levels


def main(words):
    if len(words) != 3:
        raise command.WrongWords("evidence, a CNF file and a file for its refutation are wanted")
    source, cnf, lrat = words
    command.refuse_places([source], [cnf, lrat])
    try:
        level, steps, goal = levels.read(command.bytes_of(source))
        texts = level.cnf(), level.lrat(steps, goal)
    except levels.NoLevel as why:
        raise command.Refused(f"{source}: {why}") from None
    except (ValueError, IndexError, KeyError, StopIteration):
        raise command.Refused(f"{source}: this is no evidence with a closing part") from None
    for name, text in zip((cnf, lrat), texts):
        command.write_whole(name, text.encode())


if __name__ == "__main__":
    command.run("level_cnf.py", main, __doc__)
