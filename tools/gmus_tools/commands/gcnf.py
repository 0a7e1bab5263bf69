"""Writes a GCNF file from named rules.

    tools/gcnf.py RULES [--strict] [-o FILE.gcnf]
    tools/gcnf.py --after OLD.gcnf RULES [--strict] [-o FILE.gcnf]

RULES is a text (- is standard input):

    # what is always so
    [always]
    exactly one of glossy, matte
    touch implies glossy
    never light and battery

    [a touch screen]
    touch

A line [NAME] begins a rule, and each line below it is a formula that it asks for. What stands under [always] holds whatever
is given up. Under [names] all names may be declared, with commas between: then any other name is refused. docs/RULES.md has the
whole language.

Names that stand with one sign only are told on standard error, since no clause with such a name is in any conflict, and so
is a name that they may be meant for; but not if they are declared. With --strict each of them is told with its line, nothing
is written, and the status is 1.

--after OLD.gcnf: the file begins with all of OLD.gcnf, which was made from some of these rules before, and has the new ones
behind it. RULES are all rules, in any order: those of OLD are known by their names, and keep their numbers. If one of them
changed or is gone, or if [always] says less or something else, its line is told and the status is 1. New lines of [always] are
taken if new names alone can make them true, for which gmus is called once.
"""
import sys

from gmus_tools import command, limits
from gmus_tools.rules import language
from gmus_tools.rules.after import Old


def main(words):
    files, after = [], None
    words = list(words)
    is_strict = "--strict" in words
    while words:
        word = words.pop(0)
        option, has_value, value = word.partition("=")
        if option == "--after" and (has_value or words):
            after = value if has_value else words.pop(0)
        elif word.startswith("-") and word not in ("-", "--strict"):
            raise command.WrongWords("--after has nothing behind it" if word == "--after" else f"what is {word}?")
        elif word != "--strict":
            files.append(word)
    if len(files) != 1:
        raise command.WrongWords("one file of rules is wanted")
    if files == ["-"] and after == "-":
        raise command.WrongWords("RULES and OLD.gcnf can't both come from standard input")
    made = language.read(command.text_of(files[0]), files[0])
    notes = made.notes(is_strict)
    for note in notes:
        print(f"{command.here('gcnf.py')}: {note}", file=sys.stderr)
    if notes and is_strict:
        raise command.Refused(f"{files[0]}: with --strict this is refused; names that are meant so are declared under [names]")
    text = made.gcnf() if after is None else Old(command.text_of(after), after).longer(made)
    file = text.encode("utf-8", "replace")
    if len(file) > limits.BYTES:
        raise command.Refused(f"{files[0]}: the file would have more than {limits.BYTES:,} bytes")
    command.put(file)
    return command.DONE


def as_command():
    """Ends the process as the words of its command line ask."""
    command.run("gcnf.py", main, __doc__)
