"""The order of Debian versions: [EPOCH:]UPSTREAM[-REVISION], as Debian Policy has it (5.6.12)."""
import re

from gmus_tools.command import Refused

STEP = re.compile(r"([^0-9]*)([0-9]*)")
END = ((0,),)
HOLDS = {
    "<<": lambda one, other: one < other,
    "<=": lambda one, other: one <= other,
    "=": lambda one, other: one == other,
    ">=": lambda one, other: one >= other,
    ">>": lambda one, other: one > other,
}
KNOWN = {}


def key(version):
    """What stands in order as versions do. Text that is no version is refused."""
    if version not in KNOWN:
        epoch, upstream, revision = parts_of(version)
        KNOWN[version] = (number(epoch), part_key(upstream), part_key(revision))
    return KNOWN[version]


def parts_of(version):
    """Epoch, upstream version and revision. If there is no epoch or revision it is 0."""
    epoch, colon, rest = version.partition(":")
    if not colon:
        epoch, rest = "0", version
    upstream, dash, revision = rest.rpartition("-")
    if not dash:
        upstream, revision = rest, "0"
    if not re.fullmatch("[0-9]+", epoch):
        raise Refused(f"the epoch of the version '{version}' is no number")
    if not re.fullmatch("[A-Za-z0-9.+~:-]+", upstream) or not re.fullmatch("[A-Za-z0-9.+~]+", revision):
        raise Refused(f"'{version}' is no version")
    return epoch, upstream, revision


def part_key(part):
    """Text and numbers in turn, and an end, which stands behind a tilde and before all else."""
    found = []
    for text, digits in STEP.findall(part):
        found += [tuple(map(char_key, text)) + (0,), number(digits)] if text or digits else []
    return tuple(found) + END


def char_key(char):
    """A tilde is before the end of a text, letters come behind it, and then all other characters."""
    if char == "~":
        return -1
    return ord(char) if char.isalpha() else ord(char) + 256


def number(digits):
    """The number in order with others, of any length; none is 0."""
    digits = digits.lstrip("0")
    return len(digits), digits


def holds(one, operator, other):
    return HOLDS[operator](key(one), key(other))
