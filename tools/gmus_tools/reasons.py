"""Why the program ended as it did, in words: of each status, and of what it refuses in a file or in evidence.

    from gmus_tools.reasons import reason_of
    reason_of(5, 5)     gives "a group is above the header's"
"""
STATUSES = {
    2: "the words have no reading",
    5: "the file is not an accepted one",
    6: "the file, the evidence or the journal could not be read",
    7: "the report, the evidence, an export or the journal could not be written whole",
    8: "there is not enough memory",
    9: "the evidence is refused",
    10: "the journal has something that is refused; it stays as it is",
    11: "the evidence shows fewer conflicts than the number says",
    12: "the new file does not extend the old one",
    127: "the program is not there, or could not be built",
}
# docs/FORMATS.md, 'Refusals' and 'What it is refused for'
OFFENCES = {
    1: "the file doesn't begin with 'p', or is empty",
    2: "the header goes on otherwise than it may, or ends",
    3: "a word stands where none of its kind may come",
    4: "a variable is above the header's",
    5: "a group is above the header's",
    6: "a number stands where the '{' of a clause is due",
    7: "the file ends within a clause, or with too few clauses",
    8: "there are more clauses than the header says",
    9: "the file is above a limit",
}
REFUSALS = {
    1: "a line has a wrong first word, or too few or too many words",
    2: "a word is no number of the form, in the range or in the order that is due",
    3: "the text ends before its end line",
    4: "the evidence is about another problem, or about other groups in focus",
    5: "something stands behind the end line",
    6: "the text is too long",
    10: "a hint names no clause of its derivation",
    11: "a hint that is not the last has two or more literals that are not false",
    12: "the last hint has a literal that is not false, or there is no hint",
    13: "a hint that is not the last has no literal that is not false",
    14: "the id of a step is not above those before it",
    15: "the clause of a step has a literal and its negative",
    16: "a goal names no clause",
    17: "the clause of a goal has a literal that it may not have",
    18: "a clause that a witness has to make true is not true",
    19: "a set of this kind stood before",
    20: "the record that is named is no earlier one",
    21: "the record that is named is a correction, or has a group that it may not have",
}


def reason_of(status, number=None):
    """What a status means; with the number of an offence or a refusal, what that means. None if it is not known."""
    return {5: OFFENCES, 9: REFUSALS}.get(status, {}).get(number) or STATUSES.get(status)
