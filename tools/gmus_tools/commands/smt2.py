"""Writes rules from the Boolean part of SMT-LIB 2.

    tools/smt2.py [--tracked] [--each] FILE.smt2 [-o RULES]

A named assertion, (assert (! TERM :named NAME)), is a rule under its name. One without a name always holds; with --each it
is a rule too, under the name of its line. With --tracked so is (assert (=> NAME TERM)), as assert_and_track of Z3 has it: its
TERM is a rule under the NAME of a constant that stands nowhere else. `tools/gcnf.py RULES -o FILE.gcnf` makes the file for
gmus. FILE.smt2 may be -, for standard input. docs/IMPORT.md says what is read, and what is refused.
"""
from gmus_tools import formulas
from gmus_tools.command import Refused, WrongWords, put, run, text_of
from gmus_tools.rules import text as rule_text
from gmus_tools.smt2.terms import Reader
from gmus_tools.smt2.text import Source

# What to do if no assertion has a name, and if each has a tracker.
WAYS = ("write (assert (! TERM :named NAME)), or let --each make a rule of each assertion",
        "each is (=> NAME TERM) with a NAME that stands nowhere else, so let --tracked make a rule of each")


def rules_of(file, text, is_each=False, is_tracked=False):
    """The text of the rules."""
    reader = Reader(Source(file, text), is_tracked)
    reader.read()
    assertions = [named(reader, at, is_each, is_tracked) for at in range(len(reader.assertions))]
    if not assertions:
        raise Refused(f"{file}: there is no assertion in it")
    if not any(name for name, _, _ in assertions):
        raise Refused(f"{file}: no assertion has a name, so nothing can be given up: " + WAYS[
            all(it.tracker is not None and reader.is_tracker(it.tracker) for it in reader.assertions)])
    lines = formulas.Lines(reader.terms, [term for _, term, _ in assertions], reader.name_of, reader.known)
    made, rules = rule_text.RuleText(), {}
    for at, (name, term, line) in enumerate(assertions):
        found = lines_of(reader, lines, at, term)
        if name:
            rules.setdefault(name, []).append((found, line))
        else:
            made.always(found, "" if found else f"line {line} is true", origin=(file, line))
    definitions = lines.definitions()
    if definitions:
        made.always(definitions, "names for what stands more than once, or would make a line too long")
    for (name, _), parts in rules.items():
        made.rule(name, [line for found, line in parts for line in rule_lines(reader, file, found, line)])
    return made.text()


def named(reader, at, is_each, is_tracked):
    """The name in the rules of the assertion at this place, or None if it holds always, with its term and its line. Behind a name
    stands what tells the rule from another one of this name."""
    name, term, line, tracker, tracked = reader.assertions[at]
    if name is not None:
        return (name, "named"), term, line
    if tracker is not None and (term is None or is_tracked and reader.is_tracker(tracker)):
        return (tracker, "tracked"), tracked, line
    return (f"line {line}", at) if is_each else None, term, line


def rule_lines(reader, file, found, line):
    """The lines of an assertion that is a rule, or a part of one, behind the place from which they come."""
    return rule_text.commented(found or [reader.constant_line("or")], "" if found else f"line {line} is true", (file, line))


def lines_of(reader, lines, at, term):
    """The lines of an assertion: none if it is true."""
    if term == formulas.TRUE:
        return []
    return [reader.constant_line("and")] if term == formulas.FALSE else lines.lines_of(at)


def main(words):
    is_each, is_tracked = "--each" in words, "--tracked" in words
    files = [word for word in words if word not in ("--each", "--tracked")]
    if len(files) != 1 or files[0].startswith("-") and files[0] != "-":
        raise WrongWords("one file is wanted" if len(files) != 1 else f"'{files[0]}' is no option")
    made = rules_of(files[0], text_of(files[0]), is_each, is_tracked)
    put(made)


def as_command():
    """Ends the process as the words of its command line ask."""
    run("smt2.py", main, __doc__)
