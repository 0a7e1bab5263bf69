#!/usr/bin/env python3
"""Compares `gmus check` with tools/check_evidence.py on texts of evidence that were changed by chance.

    bench/try/mutate_evidence.py [--gmus PROGRAM] [--mutations 5000] [--problems 12] [--seed 1] [--newest 2]

The texts are the stored evidence of examples/ and evidence about small random problems, of each version, which is made here
by trying every set of groups. Each is changed once to three times: a number, a reference, a word, a byte, the end, a line or a block
of lines. Both have to say the same: yes with the same report, or no at the same line with the same number.

--newest is the newest version that the program reads. What is newer, and without --gmus each text, tools/check_evidence.py judges
alone. It has to end well; and if it says yes, the sets are minimal, none is missing that its end says is there, and check_lrat.py accepts
its closing part as oracles/level_cnf.py writes it. Equal arguments give equal texts. Ends with 1 if something differs, and keeps the
text. Needs Python 3.9.
"""
import argparse
import collections
import os
import random
import re
import subprocess
import sys
import tempfile

from places import TOP
from gmus_tools.evidence import check_evidence, check_lrat
from oracles import levels, plain_evidence
from oracles.plain_evidence import evidence, numbers, random_problem
from oracles.plain_gmus import NEWEST


# ---- longer refutations

class Padding:
    """Puts steps that nothing needs into the refutation of a conflict, other clauses in the place of hints, and hints that make
    nothing true. What is made is accepted like what was there."""

    def __init__(self, chance, problem):
        self.chance, self.greatest = chance, problem.vars + problem.groups
        self.given, self.clauses = len(problem.clauses), dict(enumerate(problem.selector_form(), 1))

    def spread(self, number):
        """The id of a step, with room for two before it and one behind it."""
        return number + 3 * max(0, number - self.given)

    def line(self, number, lits, hints):
        self.clauses[number] = lits
        return [numbers("d", number, *lits, 0, *hints, 0)]

    def needless(self, number):
        """A step by a walk along clauses in any order, where most literals of a clause and a few more are false; or none."""
        lits = [lit for lit in self.chance.choice(list(self.clauses.values())) if self.chance.random() < 0.9]
        lits += [self.chance.choice([-1, 1]) * self.chance.randint(1, self.greatest) for _ in range(self.chance.randint(0, 2))]
        falses, hints = set(lits), []
        while len(hints) < 8 and not any(-lit in lits for lit in lits):
            left = {at: set(clause) - falses for at, clause in self.clauses.items()}
            near = [at for at in left if len(left[at]) < 2]
            if not near:
                return []
            hints.append(self.chance.choice(near))
            if not left[hints[-1]]:
                return self.line(number, lits, hints)
            falses.add(-left[hints[-1]].pop())
        return []

    def step(self, number, lits, hints):
        number = self.spread(number)
        before = self.needless(number - 2) + self.needless(number - 1)
        hints = [self.chance.choice([other for other in self.clauses if set(self.clauses[other]) == set(self.clauses[hint])])
                 for hint in map(self.spread, hints)]
        if len(hints) > 1 and self.chance.random() < 0.5:
            hints.insert(self.chance.randrange(1, len(hints)), hints[0])
        return before + self.line(number, lits, hints)

    def goal(self, number):
        behind = self.needless(self.spread(number) + 1) if number > self.given else []
        return behind + [numbers("r", 0, self.spread(number))]


def padded(chance, problem, text):
    """The same evidence with longer refutations of conflicts."""
    lines, padding = [], None
    for line in text.decode().split("\n"):
        word, *rest = line.split(" ")
        if word == "u":
            padding = Padding(chance, problem)
        if not padding or word not in ("d", "r"):
            lines.append(line)
        elif word == "d":
            number, *words = map(int, rest)
            end = words.index(0)
            lines += padding.step(number, words[:end], words[end + 1:-1])
        else:
            lines += padding.goal(int(rest[1]))
            padding = None
    return "\n".join(lines).encode()


# ---- changes

WORDS = [b"0", b"1", b"2", b"5", b"-1", b"-0", b"00", b"01", b"", b"u", b"m", b"w", b"d", b"r", b"t", b"x", b"e", b"complete", b"partial",
         b"+1", b"1x", b"9223372036854775807", b"9223372036854775808", b"18446744073709551615", b"18446744073709551616", b"p", b"gmev",
         b"conflicts", b"corrections", b"2147483647", b"2147483648"]


def change_word(chance, text):
    """Another word, one more, one fewer, two turned round, or a number one off."""
    lines = text.split(b"\n")
    at = chance.randrange(len(lines))
    words = lines[at].split(b" ")
    place = chance.randrange(len(words))
    how = chance.randrange(6)
    if how == 0:
        words[place] = chance.choice(WORDS)
    elif how == 1:
        words.insert(place, chance.choice(WORDS))
    elif how == 2:
        del words[place]
    elif how == 3:
        other = chance.randrange(len(words))
        words[place], words[other] = words[other], words[place]
    elif how == 4:
        try:
            words[place] = str(int(words[place]) + chance.choice([-2, -1, 1, 2])).encode()
        except ValueError:
            words[place] = chance.choice(WORDS)
    else:
        words[place] = chance.choice(b" ".join(lines).split(b" "))
    lines[at] = b" ".join(words)
    return b"\n".join(lines)


def change_number(chance, text):
    """A number gives way to one near it or to another of its line, so that the line may still be well formed."""
    lines = text.split(b"\n")
    at = chance.randrange(len(lines))
    words = lines[at].split(b" ")
    places = [place for place, word in enumerate(words) if word.lstrip(b"-").isdigit() and word != b"0"]
    if places:
        place = chance.choice(places)
        near = str(int(words[place]) + chance.choice([-1, 1])).encode()
        words[place] = chance.choice([near, words[chance.choice(places)], words[place].lstrip(b"-"), b"-" + words[place].lstrip(b"-")])
        lines[at] = b" ".join(words)
    return b"\n".join(lines)


def change_byte(chance, text):
    at = chance.randrange(len(text) + 1)
    byte = bytes([chance.choice(b" \n\r\t0123456789-+dmruwxe\0\xff")])
    return text[:at] + chance.choice([byte + text[at:], byte + text[at + 1:], text[at + 1:]])


def change_line(chance, text):
    """A line or a block of lines is gone, stands twice, stands elsewhere, or the text ends early."""
    lines = text.split(b"\n")
    first = chance.randrange(len(lines))
    last = min(len(lines), first + chance.choice([1, 1, 1, 2, 3, 6]))
    block, rest = lines[first:last], lines[:first] + lines[last:]
    how = chance.randrange(4)
    if how == 0:
        return b"\n".join(rest)
    if how == 1:
        place = chance.randrange(len(lines) + 1)
        return b"\n".join(lines[:place] + block + lines[place:])
    if how == 2:
        place = chance.randrange(len(rest) + 1)
        return b"\n".join(rest[:place] + block + rest[place:])
    return text[:chance.randrange(len(text) + 1)]


def change_reference(chance, text):
    """A reference names another record or another group, stands where none may, or gives way to one in another form."""
    lines = text.split(b"\n")
    places = [at for at, line in enumerate(lines) if line[:2] == b"t "]
    if not places:
        return change_number(chance, text)
    at = chance.choice(places)
    words = lines[at].split(b" ")
    records = sum(line[:2] in (b"u ", b"m ") for line in lines)
    how = chance.randrange(6)
    if how < 3:
        words[-1] = str(chance.randint(0, records + 2)).encode()
    elif how == 3:
        words[-1] = chance.choice([b"9223372036854775807", b"9223372036854775808", b"0", b"-1", b"01"])
    elif how == 4:
        words[1 % len(words)] = str(chance.randint(0, 6)).encode()
    else:
        # a step before it, it behind a step's goal, or the line elsewhere
        other = chance.choice([line for line in lines if line[:2] in (b"d ", b"r ")] or [b"d 9 0 1 0"])
        block = chance.choice([[other, lines[at]], [lines[at], other], [lines[at], lines[at]]])
        place = chance.choice([at, at, chance.randrange(len(lines))])
        return b"\n".join(lines[:place] + block + lines[place + (place == at):])
    lines[at] = b" ".join(words)
    return b"\n".join(lines)


def close_partly(chance, text):
    """The closing part gives way to the word that there is none, and perhaps something stands behind it."""
    lines = text.split(b"\n")
    marks = [at for at, line in enumerate(lines) if line[:2] in (b"r ", b"w ")]
    return b"\n".join(lines[:chance.choice(marks) + 1 if marks else 1] + [b"e partial", chance.choice([b"", b"", b"e", b"\0"])])


def change_end(chance, text):
    """The end of version 3 says something else, or what closes the evidence does: a number in it, or a line of it, is another one."""
    lines = text.split(b"\n")
    ends = [at for at, line in enumerate(lines) if line[:2] == b"e "]
    marks = [at for at, line in enumerate(lines) if line[:2] in (b"r ", b"t ", b"w ")]
    if not ends or not text.startswith(b"p gmev 3 "):
        return change_number(chance, text)
    how = chance.randrange(3)
    if how == 0:
        lines[ends[-1]] = b"e " + chance.choice([b"conflicts %d", b"corrections %d"]) % chance.randint(0, 5)
        return b"\n".join(lines)
    behind = marks[-1] + 1 if marks else 1
    part = b"\n".join(lines[behind:])
    part = change_number(chance, part) if how == 1 else change_line(chance, part)
    return b"\n".join([*lines[:behind], part])


def changed(chance, whole):
    text = whole
    for _ in range(chance.choice([1, 1, 1, 1, 2, 3])):
        text = chance.choices([change_number, change_reference, change_word, change_byte, change_line, close_partly, change_end],
                              [16, 8, 4, 2, 4, 1, 8 if whole.startswith(b"p gmev 3 ") else 0])[0](chance, text)
    return text if text != whole else changed(chance, whole)


# ---- what both say

def plain(problem, text, newest=NEWEST):
    try:
        return "yes", check_evidence.report(problem, *check_evidence.check(problem, text, newest)).encode()
    except check_evidence.Refused as refused:
        return "no", str(refused).encode()


def program(gmus, file, text):
    with tempfile.NamedTemporaryFile(suffix=".evidence") as evidence_file:
        evidence_file.write(text)
        evidence_file.flush()
        done = subprocess.run([gmus, "check", file, evidence_file.name], stdout=subprocess.PIPE, stderr=subprocess.PIPE)
    if done.returncode in (0, 7):
        return "yes", done.stdout
    if done.returncode == 9:
        return "no", done.stderr.split(b"evidence refused: ", 1)[-1].strip()
    return f"status {done.returncode}", done.stderr


def fault_of_alone(problem, text):
    """How tools/check_evidence.py judges a text by itself, as `plain` has it, and what is wrong with that, if anything."""
    try:
        says, sets = check_evidence.check(problem, text)
    except check_evidence.Refused as refused:
        return ("no", str(refused).encode()), None
    report = check_evidence.report(problem, says, sets).encode()
    every = {"u": [], "m": []}
    for kind, groups in plain_evidence.minimal_sets(problem):
        every[kind].append(list(groups))
    if any(groups not in every[kind] for kind in sets for groups in sets[kind]):
        return ("yes", report), "a set is not minimal"
    if says is not False:
        kinds, most = (says.kind, says.most) if isinstance(says, check_evidence.Level) else ("um", problem.groups)
        if any(len(groups) <= most and groups not in sets[kind] for kind in kinds for groups in every[kind]):
            return ("yes", report), "a set is missing"
        level, steps, goal = levels.read(text)
        try:
            is_refuted = check_lrat.check(*check_lrat.read_cnf(level.cnf(), "cnf"), level.lrat(steps, goal), "lrat")
        except check_lrat.Wrong as wrong:
            return ("yes", report), f"check_lrat.py refuses the closing part: {wrong}"
        if not is_refuted:
            return ("yes", report), "check_lrat.py finds no empty clause"
    return ("yes", report), None


def keep(file, text):
    """Keeps a text that something is wrong with."""
    with open("mutation.evidence", "wb") as out:
        out.write(text)
    with open(file) as made, open("mutation.gcnf", "w") as out:
        out.write(made.read())
    return "kept as mutation.gcnf and mutation.evidence"


def judged(problem, file, text, gmus, newest):
    """What is said of a text; ends if something is wrong with that."""
    is_newer = re.match(rb"p gmev ([0-9]{1,9}) ", text) is not None and int(text.split(b" ")[2]) > newest
    wanted, found = plain(problem, text, newest), None
    if gmus is not None:
        found = program(gmus, file, text)
        if wanted != found:
            sys.exit(f"check_evidence.py says {wanted}, gmus {found}; {keep(file, text)}")
    if gmus is None or is_newer:
        try:
            wanted, why = fault_of_alone(problem, text)
        except Exception:
            keep(file, text)
            raise
        if why:
            sys.exit(f"check_evidence.py says yes, and {why}; {keep(file, text)}")
    return wanted


def main():
    words = argparse.ArgumentParser(description=__doc__, formatter_class=argparse.RawDescriptionHelpFormatter)
    words.add_argument("--gmus")
    words.add_argument("--newest", type=int, default=NEWEST, help="the newest version that the program reads")
    words.add_argument("--mutations", type=int, default=5000)
    words.add_argument("--problems", type=int, default=12, help="how many random problems")
    words.add_argument("--seed", type=int, default=1)
    given = words.parse_args()
    chance = random.Random(given.seed)
    with tempfile.TemporaryDirectory() as folder:
        texts, first = [], os.path.join(TOP, "examples", "first.gcnf")
        for name in ["first.evidence", "first_short.evidence"]:
            with open(os.path.join(TOP, "examples", name), "rb") as stored:
                texts.append((first, stored.read()))
        for number in range(given.problems):
            file = os.path.join(folder, f"{number}.gcnf")
            with open(file, "w") as out:
                out.write(random_problem(chance))
            with open(file) as made:
                problem = check_evidence.Problem(made.read())
            texts += [(file, evidence(problem, chance, version)) for version in [1, 2]]
            # as many of version 3 as of the others
            texts += [(file, levels.evidence(problem, chance)) for _ in [1, 2]]
        problems = {}
        for file, text in texts:
            with open(file) as made:
                problems[file] = check_evidence.Problem(made.read())
            answer = judged(problems[file], file, text, given.gmus, given.newest)
            if answer[0] != "yes":
                sys.exit(f"whole evidence is refused: {answer}")
        told = collections.Counter()
        for number in range(given.mutations):
            file, text = texts[number % len(texts)]
            text = changed(chance, text)
            wanted = judged(problems[file], file, text, given.gmus, given.newest)
            told[wanted[1].split(b" ")[-1].decode() if wanted[0] == "no" else "yes"] += 1
    both = "both say the same" if given.gmus else "nothing is wrong with what check_evidence.py says"
    print(f"{given.mutations} mutations of {len(texts)} texts: {both}")
    print(", ".join(f"{name} {count}" for name, count in told.most_common()))


if __name__ == "__main__":
    main()
