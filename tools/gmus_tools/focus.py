"""The groups that a question is about, as `--focus LIST` of gmus has them.

    from gmus_tools.focus import groups_in, without_focus
    groups_in("3,1,2")                       gives {1, 2, 3}, or raises command.WrongWords
    without_focus(["f", "--focus", "3,1"])   gives (["f"], {1, 3}), and None in place of the groups if there is no such option
"""
import re

from gmus_tools.command import WrongWords

NUMBER = r"\+?0*[1-9][0-9]{0,9}"
LIST = re.compile(f"{NUMBER}(?:,{NUMBER})*")
GREATEST = 4294967295


def groups_in(text):
    """The groups of a LIST: numbers with single commas between them, in any order, also more than once."""
    found = {int(word.lstrip("+0")) for word in text.split(",")} if LIST.fullmatch(text) else {0}
    if min(found) < 1 or max(found) > GREATEST:
        shown = text if len(text) <= 40 else text[:40] + ".."
        raise WrongWords(f"--focus {shown}: numbers from 1 to {GREATEST} have to stand here, with commas between them")
    return found


def without_focus(words):
    """The words of a command line without `--focus LIST` or `--focus=LIST`, and the groups that it says, or None."""
    left, found = [], None
    behind = list(words)
    while behind:
        word = behind.pop(0)
        option, has_value, value = word.partition("=")
        if option != "--focus":
            left.append(word)
            continue
        if found is not None:
            raise WrongWords("--focus stands twice")
        if not has_value and not behind:
            raise WrongWords("--focus has nothing behind it")
        found = groups_in(value if has_value else behind.pop(0))
    return left, found
