"""What a person may mean by a word of rules that can't come where it stands: a question or a hint for the message.

    from gmus_tools.rules.hints import behind, meant_by
    behind(["a", "implys", "b"], 1)     gives ". Is 'implies' meant?"
"""
import difflib
import re

# what others write in place of the keywords
OTHERS = {
    "and": ("&", "&&", "*", "/\\", "∧"),
    "or": ("|", "||", "+", "\\/", "∨"),
    "not": ("!", "~", "¬"),
    "implies": ("->", "=>", "-->", "==>", ">>", "→", "⇒", "then", "requires", "imply", "needs"),
    "iff": ("<->", "<=>", "<-->", "<==>", "=", "==", "↔", "⇔", "≡", "equals", "means"),
}
MEANT = {text: keyword for keyword, texts in OTHERS.items() for text in texts}
SIGNS = sorted((text for text in MEANT if not text.isalpha()), key=len, reverse=True)
NUMBERS = {"two": 2, "three": 3, "four": 4, "five": 5, "six": 6, "seven": 7, "eight": 8, "nine": 9, "ten": 10}
BINARY = ("and", "or", "implies", "iff", "of")
PREFIXES = ("not", "never", "exactly")
# what compares numbers: in a name for what is so, and in a count of a sum
COMPARED = {"<=": ("up_to", "at most"), "≤": ("up_to", "at most"), ">=": ("from", "at least"), "≥": ("from", "at least"),
            "<": ("below", None), ">": ("above", None), "=": ("is", "exactly"), "==": ("is", "exactly"), "!=": ("is_not", None),
            "<>": ("is_not", None), "≠": ("is_not", None)}
UNEQUAL = ("!=", "≠", "<>")
EXCLUDES = ("excludes", "exclude", "forbids", "prevents", "contradicts", "conflicts", "clashes")
EXCLUSIVE = ("mutually", "exclusive", "exclusively")
TOGETHER = ": 'at most one of a, b' says that they exclude each other"
NO_ARITHMETIC = "there is no arithmetic but the weights of rules"
NUMBER = re.compile(r"[0-9]+(?:[.,][0-9]+)*")


def behind(texts, at):
    """What is meant by the text at this place of a line, which can't come there, as the end of a sentence. `texts` are those
    of the line's words; the one before is empty where it is no name."""
    text, before = texts[at], texts[at - 1] if at else ""
    small, ahead = text.lower(), before.lower()
    said = of_numbers(texts, at)
    if said:
        return said
    if small in MEANT:
        return f". Is '{MEANT[small]}' meant?"
    if small == "of":
        return ": a count begins with 'at most', 'at least' or 'exactly'"
    if small == "xor":
        return ": 'exactly one of (a, b)' says this"
    if small in ("unless", "if", "when"):
        return ": 'b implies a' says that a holds if b does"
    if small in EXCLUDES:
        return ": 'never a and b' says that not both hold"
    if small in EXCLUSIVE or ahead in EXCLUSIVE:
        return TOGETHER
    near = near_to(small, ("most", "least") if ahead == "at" else BINARY)
    if near:
        return f". Is '{near}' meant?"
    if ahead in ("if", "when"):
        return f": without '{before}', 'a implies b' says that b holds if a does"
    near = near_to(ahead, PREFIXES)
    if near:
        return f". Is '{near}' meant in place of '{before}'?"
    if not before:
        return ""
    return f": a name with a blank in it stands in quotes, \"{before} {text}\"" + (f", and {NO_ARITHMETIC}" if is_number(text) else "")


def of_numbers(texts, at):
    """What is meant by a text at this place in a line that speaks of numbers; nothing if it doesn't."""
    before, rest = texts[at - 1] if at else "", texts[at + 1:]
    if before.lower() == "between" and len(rest) > 1 and is_number(texts[at]) and is_number(rest[1]):
        return f": 'at least {texts[at]} of (a, b) and at most {rest[1]} of (a, b)' says this"
    place = next((place for place in range(at, len(texts) - 1) if texts[place] in COMPARED and is_number(texts[place + 1])), None)
    if place is None and texts[at] in UNEQUAL:
        return ": 'exactly one of (a, b)' says that one holds and the other doesn't"
    if place is None:
        return f": {NO_ARITHMETIC}" if any(text in COMPARED and text not in MEANT for text in texts[at:]) else ""
    word, count = COMPARED[texts[place]]
    number, summed = texts[place + 1], texts[:place:2]
    if place > 1 and count and set(texts[1:place:2]) == {"+"}:
        return f": '{count} {number} of {', '.join(summed)}' says this"
    name = f", such as {before}_{word}_{number}" if place == at and before else ""
    return f": {NO_ARITHMETIC}. What is compared has a name of its own{name}"


def is_number(text):
    return NUMBER.fullmatch(text) is not None


def number_meant(text):
    """What is meant in place of a count's number, as the end of a sentence."""
    if is_number(text):
        return ": what is counted is whole"
    return f". Is '{NUMBERS[text.lower()]}' meant?" if text.lower() in NUMBERS else ""


def near_to(text, keywords):
    """The one of the keywords that is near to the text, or nothing."""
    near = difflib.get_close_matches(text[:20], keywords, 1, 0.65)
    return near[0] if near else ""


def meant_by(text, place):
    """What is meant by a text with a sign at this place that no name has."""
    if text[place] in "“”„‟«»":
        return '. A quote is written "'
    if text.lower().rstrip(":") in EXCLUSIVE:
        return TOGETHER
    said = compared_in(text, place)
    if said:
        return said
    for sign in SIGNS:
        for begin in range(max(0, place - len(sign) + 1), place + 1):
            if text.startswith(sign, begin):
                said = " ".join(filter(None, (text[:begin], MEANT[sign], text[begin + len(sign):])))
                return f". Is '{said}' meant?" if len(said) < 60 else f". Is '{MEANT[sign]}' meant?"
    return ""


def compared_in(text, place):
    """What is meant by a name and a number with what compares them between, without blanks, or by two names that are to
    differ; nothing if this is none."""
    for sign in sorted(COMPARED, key=len, reverse=True):
        for begin in range(max(0, place - len(sign) + 1), place + 1):
            behind_it = text[begin + len(sign):]
            if text.startswith(sign, begin) and (is_number(behind_it) or sign in UNEQUAL and behind_it):
                return of_numbers([text[:begin], sign, behind_it], 1)
    return ""
