"""Writes the problem that a seed and a size make, in plain text, to standard output.

    tools/make_case.py SEED SIZE [-o FILE.gcnf]

SEED is 0 to 18446744073709551615, and SIZE 1 to 1000. docs/FORMATS.md says how such a problem is made and what its minimal
sets are. This program shares nothing with gmus, which makes the same problems.
"""
from gmus_tools.command import WrongWords, put, run

MODULUS = 65537
MOST_WIDE = 8


def widths(seed, size):
    """The width of each link."""
    state, made = seed % MODULUS, []
    for _ in range(size + 1):
        state = (75 * state + 74) % MODULUS
        made.append(2 if state % 3 == 0 and made.count(2) < MOST_WIDE else 1)
    return made


def core(size, link):
    """What a link says."""
    return [-link] * (link > 0) + [link + 1] * (link < size)


def clauses(seed, size):
    """The clauses, each with its group, and the number of groups."""
    made, group = [], 0
    for link, width in enumerate(widths(seed, size)):
        for _ in range(width):
            group += 1
            p, q = size + 2 * group - 1, size + 2 * group
            made += [(group, core(size, link) + own) for own in ([p, q], [p, -q], [-p, q], [-p, -q])]
    return made, group


def text_of(seed, size):
    made, groups = clauses(seed, size)
    lines = [f"p gcnf {size + 2 * groups} {len(made)} {groups}"]
    lines += [f"{{{group}}} {' '.join(map(str, lits))} 0" for group, lits in made]
    return "\n".join(lines) + "\n"


def main(words):
    if len(words) != 2 or not all(word.isascii() and word.isdigit() and len(word.lstrip("0")) <= 20 for word in words):
        raise WrongWords("two numbers are wanted, a seed and a size")
    seed, size = (int(word.lstrip("0") or "0") for word in words)
    if seed >= 2 ** 64 or not 1 <= size <= 1000:
        raise WrongWords("a seed is below 2^64, and a size 1 to 1000")
    put(text_of(seed, size))


def as_command():
    """Ends the process as the words of its command line ask."""
    run("make_case.py", main, __doc__)
