"""Checks an LRAT proof that a CNF can't be satisfied.

    tools/check_lrat.py CNF LRAT

CNF is a DIMACS file, LRAT a proof over its clauses (Cruz-Filipe, Heule, Hunt, Kaufmann and Schneider-Kamp 2017): of each
step its id, its clause and 0, its hints and 0; or an id, `d`, and the ids of clauses that are no longer used and 0. If the
empty clause follows, the line `s VERIFIED` is written, and the status is 0. Else the first line that is wrong is told on
standard error, and the status is 1, as it is if CNF is no such file or a file can't be read; it is 2 if the words have no
reading. Steps by propagation along hints alone are checked: a hint below 0, which begins a resolution (RAT), is refused. It
is plain, shares nothing with gmus, and knows no groups.
"""
import re

from gmus_tools import command

NUMBER = re.compile("-?[0-9]{1,99}")
VERIFIED = "s VERIFIED"


class Wrong(command.Refused):
    """What is wrong, and where."""


def number(word, where):
    if NUMBER.fullmatch(word):
        return int(word)
    raise Wrong(f"{where}: a number is wanted, and not {command.plain(word)!r}")


def read_cnf(text, name):
    """How many variables a CNF has, and its clauses. A word that begins with `%` ends the file where a clause is due."""
    lines = [(at, line) for at, line in enumerate(text.split("\n"), 1) if not line.lstrip().startswith("c")]
    words = [(word, f"{name}: line {at}") for at, line in lines for word in line.split()]
    if [word for word, where in words[:2]] != ["p", "cnf"] or len(words) < 4:
        raise Wrong(f"{name}: this is no CNF file: it doesn't begin with 'p cnf', and two numbers")
    variables, count = number(*words[2]), number(*words[3])
    clauses, clause = [], []
    for word, where in words[4:]:
        if not clause and word.startswith("%"):
            break
        lit = number(word, where)
        if abs(lit) > variables:
            raise Wrong(f"{where}: the variable {abs(lit)} is above {variables}")
        if lit:
            clause.append(lit)
        else:
            clauses.append(clause)
            clause = []
    if clause or len(clauses) != count:
        raise Wrong(f"{name}: {count} clauses are promised, and {len(clauses)} stand there" + (", and a part of one" if clause else ""))
    return variables, clauses


def until_zero(numbers, where):
    """The numbers up to the first 0, and those behind it."""
    if 0 not in numbers:
        raise Wrong(f"{where}: a 0 is missing")
    at = numbers.index(0)
    return numbers[:at], numbers[at + 1:]


def follow(known, clause, hints, where):
    """Follows the hints where the literals of the clause are false, up to a clause that is wholly false: the last hint."""
    false = set(clause)
    for at, hint in enumerate(hints):
        if hint < 0:
            raise Wrong(f"{where}: the hint {hint} begins a resolution, which is not checked")
        if hint not in known:
            raise Wrong(f"{where}: no clause has the id {hint}")
        left = {lit for lit in known[hint] if lit not in false}
        if not left:
            if at + 1 < len(hints):
                raise Wrong(f"{where}: the clause {hint} is false already, and hints stand behind it")
            return
        if len(left) > 1:
            raise Wrong(f"{where}: the clause {hint} has {len(left)} literals that are not false")
        false.add(-left.pop())
    raise Wrong(f"{where}: the hints lead to no clause that is false")


def check(variables, clauses, text, name):
    """Checks a proof line by line, and tells whether the empty clause is among its steps."""
    known, last, found = dict(enumerate(clauses, 1)), len(clauses), [] in clauses
    for at, line in enumerate(text.split("\n"), 1):
        where, words = f"{name}: line {at}", line.split()
        if not words or words[0] == "c":
            continue
        step = number(words[0], where)
        if words[1:2] == ["d"]:
            gone, rest = until_zero([number(word, where) for word in words[2:]], where)
            for it in gone:
                if known.pop(it, None) is None:
                    raise Wrong(f"{where}: no clause has the id {it}")
        else:
            clause, rest = until_zero([number(word, where) for word in words[1:]], where)
            hints, rest = until_zero(rest, where)
            if step <= last:
                raise Wrong(f"{where}: the id {step} is not above {last}")
            if any(abs(lit) > variables or -lit in clause for lit in clause):
                raise Wrong(f"{where}: a variable is above {variables}, or a literal stands with its negation")
            follow(known, clause, hints, where)
            known[step], last, found = clause, step, found or not clause
        if rest:
            raise Wrong(f"{where}: something stands behind the last 0")
    return found


def main(words):
    if len(words) != 2:
        raise command.WrongWords("a CNF file and an LRAT proof are wanted")
    variables, clauses = read_cnf(command.text_of(words[0]), words[0])
    if not check(variables, clauses, command.text_of(words[1]), words[1]):
        raise Wrong(f"{words[1]}: no step is the empty clause")
    print(VERIFIED)


def as_command():
    """Ends the process as the words of its command line ask."""
    command.run("check_lrat.py", main, __doc__)
