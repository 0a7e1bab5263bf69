#!/usr/bin/env python3
"""Compares the program with plain ones on files, evidence and command lines that were made and changed by chance.

    bench/try/fuzz.py --gmus PROGRAM [--cases 20000] [--seed 1] [--only NUMBER]

Of five cases two are files, and one each is evidence, a journal and a line of words. A file is told by the table of
plain_reader.py, and an accepted one is listed by brute_force.py, whose report tells the roles too, with a focus or without.
Evidence is checked by tools/check_evidence.py, and a conflict of it is exported, which checks/exports.py judges, and it is
carried over to a file with some groups more, or to one that is none. A journal is read back by tools/journal.py, and has to
keep its front and to get what is missing. Of words, plain_reader.py says what they ask for, about small files whose reports are
known, and plain_files.py which of them is one file under two names, by links or as the file of standard output or error, and which
can't be opened; some journals are held open meanwhile.
Status, standard output, standard error and what stands under the names of outputs have to be those. A case is made from the
seed and its number alone, so --only makes one again. Commands that PROGRAM does not have are left out. Ends with 1 where
there is a difference, and says how to make it again. Needs Python 3.9.
"""
import argparse
import collections
import contextlib
import fcntl
import os
import random
import re
import shutil
import subprocess
import sys
import tempfile

import places  # noqa: F401
from checks import exports
from gmus_tools.commands import make_case
from gmus_tools.evidence import check_evidence, journal
import mutate_evidence
from oracles import brute_force, plain_files, plain_gmus, plain_reader

NO_SUCH = exports.NO_SUCH   # the status of an export of a conflict that is none


class Difference(Exception):
    """What was wanted, and what came."""


def run(gmus, words):
    done = subprocess.run([gmus, *words], stdout=subprocess.PIPE, stderr=subprocess.PIPE, timeout=60)
    return done.returncode, done.stdout, done.stderr.decode()


def compare(wanted, found, what):
    if wanted != found:
        raise Difference(f"{what}\nwanted {wanted}\ncame   {found}")


def write(name, text):
    with open(name, "wb") as out:
        out.write(text)


# ---- files

TOKENS = [b"p", b"gcnf", b"cnf", b"{", b"}", b"{1}", b"{0}", b"0", b"-0", b"+1", b"1", b"-1", b"2", b"-2", b"007", b"3", b"c", b"x", b"-",
          b"--1", b"1x", b"4194304", b"4194305", b"16777216", b"16777217", b"1048576", b"1048577", b"8000000", b"99999999999999999999",
          b"-99999999999999999999", b"9223372036854775807", b"\xc3\xa4", b"\0", b"%", b"%0"]
SPACES = [b" ", b"\n", b"\t", b"\r\n", b"  ", b"\nc x\n", b"\n \tc {9} 9 0\n", b"\rc", b""]


def change_token(chance, text):
    tokens = plain_reader.tokens_of(text)[0]
    lines = text.split(b"\n")
    if not tokens:
        return chance.choice(TOKENS) + text
    token, line, byte = chance.choice(tokens)
    kept = lines[line - 1]
    middle = chance.choice([chance.choice(TOKENS), chance.choice(tokens)[0], b"", token + chance.choice(SPACES), chance.choice(SPACES) + token])
    lines[line - 1] = kept[:byte - 1] + middle + kept[byte - 1 + len(token):]
    return b"\n".join(lines)


def in_a_form(chance, text):
    """The same clauses in GCNF, or as CNF, which may have the ending that old files have."""
    header, clauses = text.split(b"\n", 1)
    # each clause is a group there, and brute_force.py tries all sets of them
    if chance.random() < 0.5 or clauses.count(b"\n") > 9:
        return text
    plain = b"p cnf " + b" ".join(header.split()[2:4]) + b"\n" + re.sub(rb"\{[0-9]+\} ?", b"", clauses)
    return plain + chance.choice([b"", b"", b"%\n0\n", b"% { x"])


def change_file(chance, text):
    for _ in range(chance.choice([0, 1, 1, 1, 2, 4])):
        how = chance.choice([change_token, change_token, mutate_evidence.change_byte, mutate_evidence.change_line])
        text = how(chance, text)
    return text


def wanted_listing(text, focus=None):
    """Status, output and error line of a listing of this text, or of its clauses in these groups and the background."""
    offence = plain_reader.first_offence(text)
    if offence:
        return 5, b"", offence
    variables, groups, clauses = plain_reader.problem_of(text)
    if focus is not None:
        clauses = [(group, lits) for group, lits in clauses if group == 0 or group in focus]
    numbers = {at: new for new, at in enumerate(sorted({abs(lit) for _, lits in clauses for lit in lits}), 1)}
    clauses = [(group, [numbers[abs(lit)] * (1 if lit > 0 else -1) for lit in lits]) for group, lits in clauses]
    used = sorted({group for group, _ in clauses} - {0})
    places = {0: 0, **{group: at for at, group in enumerate(used, 1)}}
    small = brute_force.report(len(numbers), len(used), [(places[group], lits) for group, lits in clauses])
    # groups without clauses are in no set
    lines = small.split("\n")
    lines[0] = f"p gmus {groups}"
    for at, line in enumerate(lines):
        if line[:2] in ("u ", "m "):
            lines[at] = " ".join([line[0]] + [str(used[int(word) - 1]) if word != "0" else word for word in line.split()[1:]])
    return 0, "\n".join(lines).encode(), ""


def wanted_roles(text, focus=None):
    """Status, output and error line of who asks for roles in this text, or in its clauses in these groups and the background."""
    status, report, line = wanted_listing(text, focus)
    if status:
        return status, report, line
    conflicts = [set(line.split()[1:-1]) for line in report.decode().split("\n") if line.startswith("u ")]
    found = ["p roles %d" % plain_reader.problem_of(text)[1]]
    for group in map(str, range(1, int(found[0].split()[2]) + 1)):
        having = sum(group in conflict for conflict in conflicts)
        found.append(f"r {group} " + ("none" if not having else "every" if having == len(conflicts) else "some"))
    return 0, "".join(line + "\n" for line in found).encode(), ""


def draw_focus(chance):
    """Some groups, or None where all are asked about; and the option's words for them."""
    if chance.random() < 0.6:
        return None, []
    focus = [chance.choice([1, 1, 2, 2, 3, 4, 5, 9, 4294967295]) for _ in range(chance.choice([1, 2, 2, 3, 5]))]
    return set(focus), ["--focus", ",".join(map(str, focus))]


def try_file(chance, gmus, folder, commands):
    text = change_file(chance, in_a_form(chance, mutate_evidence.random_problem(chance).encode()))
    name = os.path.join(folder, "file")
    write(name, text)
    wanted = wanted_listing(text)
    compare(wanted, run(gmus, ["list", name, "--jobs", str(chance.choice([1, 1, 1, 2, 5]))]), repr(text))
    focus, words = draw_focus(chance)
    if words and "focus" in commands["list"]:
        compare(wanted_listing(text, focus), run(gmus, ["list", name, *words]), f"list {words} {text!r}")
    if "roles" in commands:
        jobs = str(chance.choice([1, 2, 7]))
        compare(wanted_roles(text, focus), run(gmus, ["roles", name, "--jobs", jobs, *words]), f"roles {words} {text!r}")
    return f"file, status {wanted[0]}" + (wanted[2].split(":")[-1].split(" at ")[0] if wanted[2] else "")


# ---- evidence

def try_evidence(chance, gmus, folder, commands):
    text = mutate_evidence.random_problem(chance)
    problem = check_evidence.Problem(text)
    whole = mutate_evidence.evidence(problem, chance, chance.choice([1, 2]))
    if chance.random() < 0.5:
        whole = mutate_evidence.padded(chance, problem, whole)
    evidence = whole if chance.random() < 0.2 else mutate_evidence.changed(chance, whole)
    file, name = os.path.join(folder, "file"), os.path.join(folder, "evidence")
    write(file, text.encode())
    write(name, evidence)
    kind, told = mutate_evidence.plain(problem, evidence)
    wanted = (0, told, "") if kind == "yes" else (9, b"", f"gmus: evidence refused: {told.decode()}\n")
    compare(wanted, run(gmus, ["check", file, name]), repr((text, evidence)))
    if "export" in commands:
        try_export(chance, gmus, folder, problem, wanted, repr((text, evidence)))
    if "carry" in commands:
        try_carry(chance, gmus, folder, text, wanted, repr((text, evidence)))
    return f"evidence, status {wanted[0]}" + (" " + told.decode().split(": ")[1] if kind == "no" else "")


def try_export(chance, gmus, folder, problem, checked, what):
    """Exports a conflict of evidence, or one that it doesn't have, where `check` answers this."""
    conflicts = exports.conflicts_of(checked[1].decode())
    number = chance.randint(1, max(1, len(conflicts)) + (chance.random() < 0.2))
    wanted = checked[0], "", checked[2]
    if not checked[0] and number > len(conflicts):
        wanted = told_of_none(number)
    found, texts = exports.export(gmus, os.path.join(folder, "file"), os.path.join(folder, "evidence"), number, folder)
    compare(wanted, found, f"{what} {number}")
    if wanted[0]:
        compare([None, None], texts, f"{what} {number}")
    else:
        compare(None, exports.fault_of(problem, conflicts[number - 1], *texts), f"{what} {number} {texts}")


def try_carry(chance, gmus, folder, text, checked, what):
    """Carries evidence over to a file with some groups more, or to one in which a clause is another, where `check` answers this."""
    variables, groups, clauses = brute_force.problem_of(text.splitlines())
    broken = chance.randrange(len(clauses)) if clauses and chance.random() < 0.2 else None
    more = chance.randint(0, 2)
    for _ in range(more + chance.randint(0, 1) if more else 0):
        lits = [chance.choice((-1, 1)) * chance.randint(1, variables) for _ in range(chance.randint(0, 2))] if variables else []
        clauses.append((groups + chance.randint(1, more), lits))
    if broken is not None:
        clauses[broken] = (clauses[broken][0], [*clauses[broken][1], *clauses[broken][1][:1]] or [1] * (variables > 0))
        broken = None if not variables else broken
    lines = [f"p gcnf {variables} {len(clauses)} {groups + more}"]
    lines += [f"{{{group}}} {' '.join(map(str, [*lits, 0]))}" for group, lits in clauses]
    write(os.path.join(folder, "longer"), "\n".join([*lines, ""]).encode())
    wanted = checked if checked[0] else (0, brute_force.report(variables, groups + more, clauses).encode(), "")
    if broken is not None:
        wanted = no_extension(broken + 1)
    found = run(gmus, ["carry", *(os.path.join(folder, name) for name in ("file", "evidence", "longer")), "--jobs", chance.choice("113")])
    compare(wanted, found, f"{what} {lines}")


# ---- journals

def records_in(evidence):
    """The texts of the records of evidence of version 1."""
    texts = []
    for line in evidence.split(b"\n")[1:-1]:
        if line[:2] in (b"u ", b"m "):
            texts.append([])
        if line[:1] in b"umwdr":
            texts[-1].append(line + b"\n")
    # the steps of what closes the evidence stand behind the last record, which ends with a witness or a goal
    while texts and texts[-1][-1][:1] == b"d":
        texts[-1].pop()
    return [b"".join(lines) for lines in texts]


def draw_journal(chance, texts):
    """A journal with some of these records in any order, which is as it should be, or changed."""
    texts = chance.sample(texts, chance.randint(0, len(texts)))
    if texts and chance.random() < 0.3:
        at = chance.randrange(len(texts))
        texts[at] = mutate_evidence.changed(chance, texts[at])
    if texts and chance.random() < 0.1:
        texts.append(chance.choice(texts))
    held = journal.framed(texts)[:-1] + chance.choice([b"\0", b"\0", b"\0", b"\2", b"\xff", b"", b"\1"])
    held += chance.choice([b"", b"", journal.framed(texts[:1]), bytes([1]), bytes(3), b"u 1 0\n" * 90])
    return mutate_evidence.change_byte(chance, held) if chance.random() < 0.3 else held


def compare_journal(problem, before, left, reported, what):
    """A journal keeps the frames that it had and gets the other sets of the report behind them; what stands behind its end
    stays as it was. Nothing at all is written where nothing was missing."""
    gate, ends = journal.texts_in(before)[1], journal.texts_in(left)[1]
    compare(before[:gate], left[:gate], f"{what}: the front of the journal")
    try:
        found = journal.salvaged(problem, left)
    except journal.Foreign as at:
        raise Difference(f"{what}: what is left is refused at byte {at}: {left}") from None
    if reported is not None:
        compare(sorted(reported), sorted(found), f"{what}: the sets of the journal")
    compare((before or b"\0") if ends == gate else left[:ends] + b"\0" + before[ends + 1:], left, f"{what}: the journal")


def sets_in(report):
    """The sets of a report, each a kind and its groups."""
    return [(line[0], *map(int, line.split()[1:-1])) for line in report.decode().split("\n") if line[:2] in ("u ", "m ")]


def try_journal(chance, gmus, folder):
    text = mutate_evidence.random_problem(chance)
    problem = check_evidence.Problem(text)
    held = draw_journal(chance, records_in(mutate_evidence.evidence(problem, chance, 1)))
    file, name = os.path.join(folder, "file"), os.path.join(folder, "journal")
    write(file, text.encode())
    write(name, held)
    wanted = wanted_listing(text.encode())
    try:
        journal.salvaged(problem, held)
    except journal.Foreign as at:
        wanted = refused_journal(at)
    locked = name if chance.random() < 0.1 else None
    why = plain_files.unopened(name, locked)
    if why:
        wanted = unopened_journal(name, why)
    what = repr((text, held, locked))
    with held_open(chance, locked):
        compare(wanted, run(gmus, ["list", file, "--journal", name, "--jobs", chance.choice("113")]), what)
    if wanted[0]:
        compare(held, held_in(name), what)
    else:
        compare_journal(problem, held, held_in(name), sets_in(wanted[1]), what)
    return f"journal, status {wanted[0]}" + (f", {why}" if why else "")


def unopened_journal(name, why):
    return 6, b"", plain_files.lines("read fault on journal", name, why)


def refused_journal(at):
    return 10, b"", f"gmus: journal refused at byte {at}\n"


def no_extension(place):
    return 12, b"", f"gmus: not an extension: clause {place}\n"


def told_of_none(number):
    return NO_SUCH, "", f"gmus: no conflict {number}\n"


# ---- words

ONE = b"p gcnf 0 1 1\n{1} 0\n"  # an empty clause: it clashes by itself
BOTH = b"p gmev 1 0 1 1\nu 1 0\nr 0 1\nw 1 0\nm 1 0\nw 0 0\nr 1 1\nd 3 0 1 2 0\nx 3\ne complete\n"
HALF = b"p gmev 1 0 1 1\nm 1 0\nw 0 0\nr 1 1\ne partial\n"
TEXTS = {"f": ONE, "-": ONE, "-x": ONE, "--limit": ONE, "help": ONE, "list": ONE, "=": ONE, "g": b"p gcnf 0 0 0\n",
         "more": b"p gcnf 1 3 3\n{1} 0\n{2} 1 0\n{3} -1 0\n",
         "bad": b"p cnf 1 1\n", "e": BOTH, "half": HALF, "wrong": BOTH.replace(b"x 3", b"x 1")}
CONFLICT, CORRECTION = records_in(BOTH)
TEXTS.update({"j": journal.framed([CORRECTION, CONFLICT]), "ju": journal.framed([CONFLICT]) + b"\1\2", "jm": journal.framed([CORRECTION]),
              "jbad": journal.framed([CORRECTION, CONFLICT[:-1]]), "closed": b"\0" + journal.framed([CORRECTION])[1:]})
# Names that are links, and where they lead; and other names of files.
LINKS = {"to_f": "f", "to_to_f": "to_f", "to_e": "e", "to_j": "j", "to_new": "new", "loop": "loop"}
HARD = {"hard_f": "f", "hard_e": "e", "hard_j": "j"}
FILES = ["f", "f", "f", "f", "f", "f", "./f", "to_f", "to_to_f", "hard_f", "-", "-x", "--limit", "help", "list", "=", "g", "bad", "missing",
         "mis\x1bsing\n", "", "d", "loop"]
EVIDENCE = ["e", "e", "e", "to_e", "hard_e", "half", "wrong", "f", "missing", "", "-", "d"]
OUTPUTS = ["out", "out", "-", "f", "to_f", "e", "hard_e", "new", "to_new", "", "no/out", "-o", "--jobs", "d", "loop"]
JOURNALS = ["new", "new", "j", "ju", "jm", "jbad", "closed", "f", "e", "-", "", "no/out", "-o", "out", "to_j", "hard_j", "to_new", "./j", "d", "loop"]
EXPORTS = ["out", "cnf", "lrat", "cnf", "lrat", "./out", "-", "f", "e", "", "no/out", "-o", "to_f", "hard_e", "to_new", "new", "d"]
STREAMS = ["out", "report", "f", "to_f", "e", "j", "hard_j", "new", "to_new", "more"]
EXPORTED = {"cnf": b"p cnf 0 1\n0\n", "lrat": b"2 0 1 0\n"}  # the one conflict of ONE
MADE = ["out", "cnf", "lrat", "-o", "--jobs", "new", "report"]      # names that are free before
NUMBERS = ["0", "1", "2", "3", "5", "64", "65", "+2", "007", "-1", "", "x", "1x", " 1", "1000000000", "1000000001", "18446744073709551615",
           "18446744073709551616", "+", "\u0661"]
FOCI = ["1", "1", "2", "1,1", "2,007,1", "+1", "4294967295", "4294967296", "0", "", ",", "1,", ",1", "1, 2", "1;2", "x", "-1", "\u0661"]
OTHERS = ["--", "-", "-h", "--help", "--version", "help", "-j", "--job", "--jobs", "--limit=2", "frob", "", "list", "f", "--=1"]


def option(chance, name):
    pool = {"evidence": OUTPUTS, "resume": EVIDENCE, "focus": FOCI, "journal": JOURNALS}.get(name, NUMBERS)
    if name in ("jobs", "limit", "conflicts") and chance.random() < 0.8:
        pool = ["1", "2", "3"]
    value = chance.choice(pool)
    return [f"--{name}={value}"] if chance.random() < 0.5 else [f"--{name}", value]


def places_of(chance, command):
    """Words for the places of a command."""
    if command == "drill":
        return [chance.choice(NUMBERS[:6] + NUMBERS), chance.choice(["1", "2", "3", "0", "x", "+2", "1001"])]
    words = [chance.choice(FILES)] + ([chance.choice(EVIDENCE)] if command in ("check", "export", "carry") else [])
    if command == "carry":
        words.append(chance.choice(["more", "more", *FILES]))
    if command == "export":
        number = "1" if chance.random() < 0.7 else chance.choice(NUMBERS)
        words += [number, chance.choice(EXPORTS), chance.choice(EXPORTS)]
    return words


def twice(chance, words):
    """Has one of the names lead where another one does."""
    places = [at for at, word in enumerate(words) if word in TEXTS or word in MADE]
    if len(places) > 1:
        one, other = chance.sample(places, 2)
        links = [name for name, target in {**LINKS, **HARD}.items() if target == words[one]]
        words[other] = chance.choice([words[one], "./" + words[one], "d/../" + words[one], *links])


def draw_words(chance, commands):
    # the command with most options
    command = chance.choice([*sorted(commands), "list", "list"])
    words = places_of(chance, command)
    for name in commands[command]:
        if chance.random() < (0.4 if name in ("evidence", "journal") else 0.25):
            parts = option(chance, name)
            at = chance.randrange(len(words) + 1)
            words[at:at] = parts
    if chance.random() < 0.2:
        twice(chance, words)
    words = [command] + words
    if chance.random() < 0.3:
        at = chance.randrange(len(words) + 1)
        words[at:at + chance.choice([0, 0, 1])] = [chance.choice(OTHERS)]
    if chance.random() < 0.05:
        del words[chance.randrange(len(words))]
    return words


def read_as(what, name):
    """The text under a name, or the answer of who can't read it."""
    why = plain_files.unread(name)
    return (None, (6, b"", plain_files.lines(f"read fault on {what}", name, why))) if why else (held_in(name), None)


def file_under(name):
    """The text of an accepted file under a name, or the answer to one that is none."""
    text, ends = read_as("input", name)
    offence = None if ends else plain_reader.first_offence(text)
    return (None, (5, b"", offence)) if offence else (text, ends)


def opening(given, text, locked):
    """The kinds of the sets that the first records hold, or the answer that ends the run."""
    problem = check_evidence.Problem(text_in_focus(text, given.get("focus")))
    if "journal" in given:
        why = plain_files.unopened(given["journal"], locked)
        if why:
            return None, unopened_journal(given["journal"], why)
        try:
            return [kind for kind, *_ in journal.salvaged(problem, held_in(given["journal"]) or b"")], None
        except journal.Foreign as at:
            return None, refused_journal(at)
    if "resume" not in given:
        return [], None
    evidence, ends = read_as("evidence", given["resume"])
    if ends:
        return None, ends
    try:
        sets = check_evidence.check(problem, evidence, plain_gmus.NEWEST)[1]
        return ["u"] * len(sets["u"]) + ["m"] * len(sets["m"]), None
    except check_evidence.Refused as refused:
        return None, (9, b"", f"gmus: evidence refused: {refused}\n")


def unwritten(what, name):
    """The answer of who can't open an output, or None."""
    why = plain_files.unwritten(name)
    return (7, b"", plain_files.lines(f"write fault on {what}", name, why)) if why else None


def in_focus(text, focus):
    """The numbers and clauses of a text's problem, narrowed to some groups."""
    variables, groups, clauses = plain_reader.problem_of(text)
    return variables, groups, [(group, lits) for group, lits in clauses if focus is None or group == 0 or group in focus]


def text_in_focus(text, focus):
    """The text of that problem."""
    if focus is None:
        return text.decode()
    variables, groups, clauses = in_focus(text, focus)
    return "".join([f"p gcnf {variables} {len(clauses)} {groups}\n", *(f"{{{group}}} {' '.join(map(str, [*lits, 0]))}\n" for group, lits in clauses)])


def report_of(text, status, focus=None):
    groups = plain_reader.problem_of(text)[1]
    sets = brute_force.report(*in_focus(text, focus)).split("\n", 2)[2]
    return f"p gmus {groups}\ns {'COMPLETE' if status == 0 else 'PARTIAL'}\n{sets}".encode()


def wanted_of_list(given, locked):
    """The answers that a listing may give; which set of two is found first is free."""
    text, ends = file_under(given["file"])
    if ends:
        return [ends]
    held, ends = opening(given, text, locked)
    if ends:
        return [ends]
    if "evidence" in given and unwritten("evidence", given["evidence"]):
        return [unwritten("evidence", given["evidence"])]
    focus = given.get("focus")
    limit, sets = given.get("limit", 1000000000), report_of(text, 0, focus).count(b"\n") - 3
    if limit > sets:
        return [(0, report_of(text, 0, focus), "")]
    line = f"gmus: limit of {limit} records reached\n"
    if max(limit, len(held)) >= sets:
        return [(4, report_of(text, 4, focus), line)]
    lists = [b"p gmus 1\ns PARTIAL\nu 1 0\ne 1 0\n", b"p gmus 1\ns PARTIAL\nm 1 0\ne 0 1\n"]
    return [(4, report, line) for report in ([lists["um".index(held[0])]] if held else lists)]


def wanted_of_check(given):
    text, ends = file_under(given["file"])
    if ends:
        return [ends]
    evidence, ends = read_as("evidence", given["evidence"])
    if ends:
        return [ends]
    problem = check_evidence.Problem(text_in_focus(text, given.get("focus")))
    kind, told = mutate_evidence.plain(problem, evidence)
    return [(0, told, "")] if kind == "yes" else [(9, b"", f"gmus: evidence refused: {told.decode()}\n")]


def wanted_of_carry(given):
    """OLD, NEW, the extension and EVIDENCE are judged in this order, and NEW is listed."""
    texts = []
    for name in (given["file"], given["longer"]):
        text, ends = file_under(name)
        if ends:
            return [ends]
        texts.append(text)
    place = first_break(*map(plain_reader.problem_of, texts))
    if place is not None:
        return [no_extension(place)]
    checked, = wanted_of_check({"file": given["file"], "evidence": given["known"]})
    if checked[0]:
        return [checked]
    if "evidence" in given and unwritten("evidence", given["evidence"]):
        return [unwritten("evidence", given["evidence"])]
    return [(0, report_of(texts[1], 0), "")]


def first_break(old, new):
    """The first place, from 1, at which a problem extends another one no more; 0 where it has fewer variables or groups."""
    if new[0] < old[0] or new[1] < old[1]:
        return 0
    for at, clause in enumerate(old[2]):
        if at >= len(new[2]) or (new[2][at][0], list(new[2][at][1])) != (clause[0], list(clause[1])):
            return at + 1
    late = [at + 1 for at, clause in enumerate(new[2]) if at >= len(old[2]) and clause[0] <= old[1]]
    return late[0] if late else None


def wanted_of_export(given):
    checked, = wanted_of_check(given)
    if checked[0]:
        return [checked]
    conflicts = exports.conflicts_of(checked[1].decode())
    if given["number"] > len(conflicts):
        return [(NO_SUCH, b"", told_of_none(given["number"])[2])]
    return [unwritten("export", given["cnf"]) or unwritten("export", given["lrat"]) or (0, b"", "")]


def written_of_export(given, status):
    """What an export that ends so leaves under its names, of which the CNF's is written first."""
    names = {0: ["cnf", "lrat"], 7: [] if plain_files.unwritten(given["cnf"]) else ["cnf"]}.get(status, [])
    return {given[name]: EXPORTED[name] for name in names}


def wanted_of_drill(given):
    links = make_case.widths(given["seed"], given["size"])
    wide = links.count(2)
    return [(0, f"drill {len(links) + wide} {2 ** wide} {len(links)}\n".encode(), "")]


def wanted_of_roles(given):
    text, ends = file_under(given["file"])
    return [ends or wanted_roles(text, given.get("focus"))]


def make_names(folder):
    """All names anew."""
    shutil.rmtree(folder, ignore_errors=True)
    os.makedirs(os.path.join(folder, "d"))
    for name, text in TEXTS.items():
        write(os.path.join(folder, name), text)
    for name, target in LINKS.items():
        os.symlink(target, os.path.join(folder, name))
    for name, target in HARD.items():
        os.link(os.path.join(folder, target), os.path.join(folder, name))


class Names:
    """What stands under all names before a run."""

    def __init__(self):
        self.names = [*TEXTS, *MADE, *LINKS, *HARD]
        self.texts = {name: held_in(name) for name in self.names}
        self.leads = {name: plain_files.leads(name) for name in self.names}

    def like(self, name):
        """The names that lead to the same file, or would."""
        place = plain_files.leads(name)
        return [other for other in self.names if place is not None and self.leads[other] == place]


def draw_streams(chance):
    """The file of standard output or standard error, if it is one, which is added to."""
    streams = {"out": None, "err": None}
    if chance.random() < 0.3:
        streams[chance.choice(["out", "out", "err"])] = chance.choice(STREAMS)
    return streams


def draw_locked(chance, asked):
    """The file that is held open, if one is: most often the journal."""
    name = asked[1].get("journal", "j") if asked else "j"
    if chance.random() < 0.3:
        return name if os.path.isfile(name) else chance.choice(["ju", "closed", "f", "e"])
    return None


@contextlib.contextmanager
def held_open(chance, name):
    """Has the lock of a file, as a run that has it open; of none, if there is no name."""
    if name is None:
        yield
    else:
        with open(name, "rb") as file:
            fcntl.flock(file, chance.choice([fcntl.LOCK_EX, fcntl.LOCK_SH]))
            yield


def try_words(chance, gmus, folder, commands):
    words, streams = draw_words(chance, commands), draw_streams(chance)
    asked = plain_reader.words_read(words, commands)
    here, folder = os.getcwd(), os.path.join(folder, "words")
    make_names(folder)
    os.chdir(folder)
    try:
        with contextlib.ExitStack() as files:
            pipes = {which: files.enter_context(open(name, "ab")) if name else subprocess.PIPE for which, name in streams.items()}
            locked = draw_locked(chance, asked)
            files.enter_context(held_open(chance, locked))
            before = Names()
            what = f"{words} {asked} {streams} {locked}"
            wanted = wanted_of(words, asked, streams, locked)
            outputs = outputs_of(asked, before)
            ended = subprocess.run([gmus, *words], stdout=pipes["out"], stderr=pipes["err"], timeout=60)
        found = ended.returncode, ended.stdout, None if ended.stderr is None else ended.stderr.decode()
        if not any(fits(one, found, before, streams) for one in wanted):
            raise Difference(f"{what}\nwanted {wanted}\ncame   {found}")
        compare_names(asked, found, what, before, outputs, streams)
    finally:
        os.chdir(here)
    why = (found[2] or "").split(": ", 2)[-1].strip()
    return f"words, status {found[0]}" + (f", {why}" if found[0] == 6 and re.match("is |another run", why) else "")


def wanted_of(words, asked, streams, locked):
    if asked is None:
        return [(2, b"", f"gmus: bad command line\n  {plain_reader.why_unread(words)}\n")]
    command, given = asked
    clash = plain_files.clash(command, given, streams)
    if clash:
        return [(6, b"", plain_files.lines("read fault on input", *clash))]
    if command == "list":
        return wanted_of_list(given, locked)
    return {"check": wanted_of_check, "export": wanted_of_export, "drill": wanted_of_drill, "roles": wanted_of_roles,
            "carry": wanted_of_carry}[command](given)


def fits(wanted, found, before, streams):
    """Whether a run ended so: what went to a file stands behind what that had."""
    status, output, said = wanted
    kept = [held_in(name) == before.texts[name] + text for name, text in ((streams["out"], output), (streams["err"], said.encode())) if name]
    return all(kept) and found[0] == status and found[1] in (None, output) and found[2] in (None, said)


def outputs_of(asked, before):
    """The outputs and the journal that words name, each with the names that lead to the same file."""
    command, given = asked or (None, {})
    return {what: before.like(given[what]) for what in plain_files.WRITTEN.get(command, []) if what in given}


def compare_names(asked, found, what, before, outputs, streams):
    """No name changes but those that were asked to be written: an export's hold its two texts, that of evidence holds evidence
    of the report. Links stay links, and files with two names one file."""
    command, given = asked or (None, {})
    wanted = dict(before.texts)

    def expect(which, text):
        wanted.update({name: text for name in outputs[which]})

    for name in filter(None, streams.values()):
        wanted.update({other: held_in(other) for other in before.like(name)})
    if command == "export":
        for name, text in written_of_export(given, found[0]).items():
            expect(next(which for which in ("cnf", "lrat") if given[which] == name), text)
    if command in ("list", "carry") and "evidence" in outputs and found[0] in (0, 4) and outputs["evidence"]:
        listed = before.texts[before.like(given["longer" if command == "carry" else "file"])[0]]
        problem = check_evidence.Problem(text_in_focus(listed, given.get("focus")))
        expect("evidence", held_in(given["evidence"]))
        kind, told = mutate_evidence.plain(problem, held_in(given["evidence"]))
        compare(("yes", found[1] or told), (kind, told), what)
    if outputs.get("journal") and (found[0] in (0, 4) or found[0] == 7):
        name, file = given["journal"], before.texts[before.like(given["file"])[0]]
        problem = check_evidence.Problem(text_in_focus(file, given.get("focus")))
        held = before.texts[outputs["journal"][0]] or b""
        compare_journal(problem, held, held_in(name), sets_in(found[1]) if found[0] in (0, 4) and found[1] else None, what)
        expect("journal", held_in(name))
    for name in before.names:
        compare(wanted[name], held_in(name), f"{what} {name}")
    compare(LINKS, {name: os.readlink(name) for name in LINKS}, f"{what}: the links")
    compare([True] * len(HARD), [os.path.samefile(*pair) for pair in HARD.items()], f"{what}: files with two names")
    compare([], [name for name in os.listdir() if name not in [*before.names, "d"] and name not in streams.values()], f"{what}: further files")


def held_in(name):
    """What stands under a name; None where there is no file."""
    if not os.path.isfile(name):
        return None
    with open(name, "rb") as held:
        return held.read()


def commands_of(gmus, folder):
    """The commands that this program has, each with its options."""
    commands = {"list": ["jobs", "conflicts", "limit", "evidence"], "check": []}
    if run(gmus, ["export", os.path.join(folder, "none"), "e", "1", "cnf", "lrat"])[0] == 6:
        commands["export"] = []
    if run(gmus, ["carry", os.path.join(folder, "none"), "e", "g"])[0] == 6:
        commands["carry"] = ["jobs", "evidence"]
    if run(gmus, ["drill", "0", "1"])[0] == 0:
        commands["drill"] = ["jobs"]
    if run(gmus, ["roles", os.path.join(folder, "none"), "--focus", "1"])[0] == 6:
        commands["roles"] = ["jobs", "focus"]
        commands["list"].append("focus")
        commands["check"].append("focus")
    write(os.path.join(folder, "f"), ONE)
    if run(gmus, ["list", os.path.join(folder, "f"), "--resume", os.path.join(folder, "none")])[0] == 6:
        commands["list"].append("resume")
    if run(gmus, ["list", os.path.join(folder, "f"), "--journal", os.path.join(folder, "no", "journal")])[0] == 6:
        commands["list"].append("journal")
    return commands


# ---- all cases

def try_case(number, seed, gmus, folder, commands):
    chance = random.Random(f"{seed}/{number}")
    kind = number % 5
    if kind == 3:
        return try_words(chance, gmus, folder, commands)
    if kind == 4 and "journal" in commands["list"]:
        return try_journal(chance, gmus, folder)
    return try_evidence(chance, gmus, folder, commands) if kind == 2 else try_file(chance, gmus, folder, commands)


def main():
    words = argparse.ArgumentParser(description=__doc__, formatter_class=argparse.RawDescriptionHelpFormatter)
    words.add_argument("--gmus", required=True)
    words.add_argument("--cases", type=int, default=20000)
    words.add_argument("--seed", type=int, default=1)
    words.add_argument("--only", type=int, help="the number of the one case that is tried")
    given = words.parse_args()
    gmus, counts, differences = os.path.abspath(given.gmus), collections.Counter(), 0
    with tempfile.TemporaryDirectory() as folder:
        commands = commands_of(gmus, folder)
        for number in range(given.cases) if given.only is None else [given.only]:
            try:
                counts[try_case(number, given.seed, gmus, folder, commands)] += 1
            except Difference as difference:
                differences += 1
                print(f"case {number}: {difference}\nagain: bench/try/fuzz.py --gmus {given.gmus} --seed {given.seed} --only {number}")
    for what, count in sorted(counts.items()):
        print(f"{count:7} {what}")
    print(f"{sum(counts.values())} cases without a difference, {differences} with one; seed {given.seed}; commands {' '.join(sorted(commands))}")
    sys.exit(1 if differences else 0)


if __name__ == "__main__":
    main()
