"""Which names look like others, and are not the same.

    from gmus_tools.rules.alike import looks, alike, mixed
    looks("раge") == looks("page")      the first has two letters that are no Latin ones
    alike(["page", "раge"])             gives {"раge": "page"}
    mixed("pаge")                       the letter in it that is of another script than those beside it, or nothing

A letter looks like a Latin one if it is drawn the same in most type faces, as Cyrillic and Greek letters are. A letter with
a mark may be one character or two, and letters and digits have forms of other widths.
"""
import re
import unicodedata

LATIN = "ABCEHIJKMOPSTXYaceijopsxyhdqwlABEZHIKMNOPTYXovo"
OTHERS = ("\u0410\u0412\u0421\u0415\u041d\u0406\u0408\u041a\u041c\u041e\u0420\u0405\u0422\u0425\u0423"                # Cyrillic, large
          "\u0430\u0441\u0435\u0456\u0458\u043e\u0440\u0455\u0445\u0443\u04bb\u0501\u051b\u051d\u04cf"                # and small
          "\u0391\u0392\u0395\u0396\u0397\u0399\u039a\u039c\u039d\u039f\u03a1\u03a4\u03a5\u03a7\u03bf\u03bd\u0585")   # Greek, Armenian
LIKE = str.maketrans(OTHERS, LATIN)
WORD = re.compile(r"[^\W\d_]+")


def looks(name):
    """What names have in common if they look alike."""
    return name if name.isascii() else unicodedata.normalize("NFKC", name).translate(LIKE)


def alike(names, key=looks):
    """For each name that looks like one before it, that one."""
    first, found = {}, {}
    for name in names:
        other = first.setdefault(key(name), name)
        if other != name:
            found[name] = other
    return found


def mixed(name):
    """A letter that looks like a Latin one and stands in a word with those; nothing if there is none."""
    for word in () if name.isascii() else WORD.findall(name):
        for letter in word:
            if ord(letter) in LIKE and any(is_latin(other) for other in word):
                return letter
    return ""


def is_latin(letter):
    return letter.isascii() or unicodedata.name(letter, "").startswith("LATIN ")


def why_alike(name, other):
    """In what two names differ that look alike."""
    if name.casefold() == other.casefold():
        return "in capitals alone"
    if unicodedata.normalize("NFKC", name) == unicodedata.normalize("NFKC", other):
        return "in how their letters are composed"
    differing = "".join(one + two for one, two in zip(name, other) if one != two)
    letter = next((letter for letter in differing + name + other if ord(letter) in LIKE), "")
    return f"by letters of two scripts that look alike, such as U+{ord(letter):04X}" if letter else "in letters that look alike"
