"""Which names are near to others, so that one may be meant for the other.

    from gmus_tools.rules.near import near_names
    near_names(["glosy"], ["glosy", "glossy", "matte"])     gives {"glosy": "glossy"}

Two names are near if they differ in capitals and in the signs between their words alone, or besides in one letter more, less,
other or moved in a word of five letters or more. Numbers in names are meant: `slot_11` is not near to `slot_12`. What is left
of a name without a letter is looked up, so the time grows with the number of names, and not with that of pairs.
"""
import re

SHORT, LONG = 5, 64       # how many letters a word has in which one may be wrong,
LONGEST = 200             # in a name of at most so many
WORD = re.compile(r"[^\W\d_]+")
DIGITS = re.compile(r"\d+")
SIGNS = re.compile(r"[\W_]+")


def near_names(asked, names):
    """For each name that is asked for, one of the names that is near to it, if there is one."""
    # the first name that has a trace, and the first other one
    first, second = {trace: None for name in asked for trace in traces(name)}, {}
    for name in names:
        for trace in traces(name):
            if trace in first:
                if first[trace] is None:
                    first[trace] = name
                elif first[trace] != name:
                    second.setdefault(trace, name)
    near = {}
    for name in asked:
        for trace in traces(name):
            other = first[trace] if first[trace] != name else second.get(trace)
            if other is not None:
                near[name] = other
                break
    return near


def traces(name):
    """What names have in common if they are near: their letters, or their letters but for one, and their numbers."""
    small = name.casefold()
    numbers = "".join(" " + number for number in DIGITS.findall(small))
    yield (SIGNS.sub("", small) or small) + numbers
    for word in WORD.finditer(small) if len(small) <= LONGEST else ():
        if SHORT <= len(word.group()) <= LONG:
            before, after = SIGNS.sub("", small[:word.start()]), SIGNS.sub("", small[word.end():])
            for place in range(word.start(), word.end()):
                yield before + small[word.start():place] + small[place + 1:word.end()] + after + numbers
