"""Package indices of Debian: stanzas, the relations in their fields, and which packages meet a relation.

The form of a stanza is told by deb822(5), that of a relation by chapter 7 of Debian Policy.
"""
import functools
import re
from collections import namedtuple

from gmus_tools.command import Refused
from gmus_tools.deb import version as deb_version

FIELD_NAME = re.compile(r"[!-9;-~]+")
WANTED = {"package", "version", "architecture", "multi-arch", "status", "provides", "depends", "pre-depends", "conflicts",
          "breaks"}
RELATION = re.compile(r"([A-Za-z0-9][A-Za-z0-9+.-]*)(?::([a-z0-9-]+))?(?: ?\( ?(<<|<=|=|>=|>>) ?([^ ()]+) ?\))?")
NO_VALUE = "", 0
OBSOLETE = re.compile(r"\( ?[<>] ?[^ <>=]")
# what apt takes, and what leaves the brackets away
ASKED = re.compile(r"([A-Za-z0-9][A-Za-z0-9+.-]*(?::[a-z0-9-]+)?) ?(<<|<=|==?|>=|>>) ?([^ ()/]+)")
SUITE = re.compile(r"([A-Za-z0-9][A-Za-z0-9+.-]*(?::[a-z0-9-]+)?)/[^ ()]+")
FORM = "a relation is NAME, or NAME (>= VERSION) with one of << <= = >= >>"

# A relation to a package, which may say an architecture, and an operator with a version.
Relation = namedtuple("Relation", "name architecture operator version")


class Stanza:
    """A package in one version, for one architecture."""

    def __init__(self, file, line, fields):
        self.file = file
        self.line = line
        self.fields = fields        # name in small letters: its value and its line
        self.name = self.value("package")
        self.version = self.value("version")
        self.architecture = self.value("architecture") or "all"
        self.multi_arch = self.value("multi-arch")
        for name in ("package", "version"):
            if not self.value(name):
                raise Refused(f"{file}: line {line}: the stanza that begins here has no field '{name.capitalize()}'")
        with_place(file, fields["version"][1], deb_version.key, self.version)

    def value(self, field):
        return self.fields.get(field, NO_VALUE)[0].strip()

    def is_installable(self):
        """Whether it can be had. In the list of what dpkg knows, a package may be removed, and then it can't."""
        return "status" not in self.fields or self.value("status").endswith(" installed")

    def clauses(self, field):
        """Each clause of a field of relations: the relations of which one is meant, their text, and its line."""
        value, line = self.fields.get(field, NO_VALUE)
        for clause in value.split(","):
            if clause.strip():
                begin = line + clause[:len(clause) - len(clause.lstrip())].count("\n")
                yield with_place(self.file, begin, alternatives, clause), " ".join(clause.split()), begin
            line += clause.count("\n")


def with_place(file, line, call, *given):
    """What the call gives; a refusal is told with its place."""
    try:
        return call(*given)
    except Refused as why:
        raise Refused(f"{file}: line {line}: {why}") from None


def alternatives(text):
    """The relations between the bars of a clause."""
    return [relation_of(part) for part in text.split("|")]


def relation_of(text):
    shown = " ".join(text.split())
    found = RELATION.fullmatch(shown)
    if found:
        if found.group(4):
            deb_version.key(found.group(4))
        return Relation(*found.groups())
    if OBSOLETE.search(shown):
        raise Refused(f"'{shown}' is obsolete: '<<' and '<=' differ, as '>>' and '>=' do")
    if "[" in shown or "<" in shown.partition("(")[0] + shown.partition(")")[2]:
        raise Refused(f"'{shown}' has a restriction that stands in source packages alone")
    found = ASKED.fullmatch(shown)
    if found:
        name, operator, version = found.groups()
        raise Refused(f"'{shown}' is no relation. Is '{name} ({operator.replace('==', '=')} {version})' meant?")
    found = SUITE.fullmatch(shown)
    if found:
        raise Refused(f"'{shown}' is no relation. Is '{found.group(1)}' meant? Which suites there are is said by the indices")
    raise Refused(f"'{shown}' is no relation: {FORM}")


def stanzas_of(file, text):
    """The stanzas of an index."""
    fields, begin, last = {}, 0, None
    for number, line in enumerate(text.split("\n"), 1):
        if line.startswith("#"):
            continue
        if not line.strip():
            if fields:
                yield Stanza(file, begin, fields)
            fields, last = {}, None
        elif line[0] in " \t":
            if last is None:
                raise Refused(f"{file}: line {number}: this line goes on with a field, and none begins above it")
            if last in WANTED:
                fields[last] = (fields[last][0] + "\n" + line, fields[last][1])
        else:
            begin = begin if fields else number
            last = add_field(file, number, line, fields)
    if fields:
        yield Stanza(file, begin, fields)


def add_field(file, number, line, fields):
    """Adds the field that begins on this line, and gives its name."""
    shown, colon, value = line.partition(":")
    name = field_name(shown)
    if not colon or not name:
        raise Refused(f"{file}: line {number}: this is no field: a field is NAME: VALUE, and its next lines are set in")
    if name in fields:
        raise Refused(f"{file}: line {number}: the field '{shown}' stands twice in this stanza")
    fields[name] = (value, number) if name in WANTED else NO_VALUE
    return name


@functools.lru_cache(maxsize=10_000)
def field_name(text):
    """The name in small letters, or nothing if it is none."""
    return text.lower() if FIELD_NAME.fullmatch(text) else ""


class Index:
    """All packages that can be had."""

    def __init__(self, stanzas, native=None):
        self.stanzas = self.without_repeats(stanzas)
        self.native = native or self.only_architecture()
        self.named, self.providers = {}, {}
        for stanza in self.stanzas:
            self.named.setdefault(stanza.name, []).append(stanza)
            for relations, text, line in stanza.clauses("provides"):
                if len(relations) > 1 or relations[0].operator not in (None, "="):
                    raise Refused(f"{stanza.file}: line {line}: '{text}' can't be provided: that is NAME, or NAME (= VERSION)")
                self.providers.setdefault(relations[0].name, []).append((stanza, relations[0]))

    @staticmethod
    def without_repeats(stanzas):
        """The stanzas that can be installed, each once; a package may stand in several indices."""
        found = {}
        for stanza in stanzas:
            if stanza.is_installable():
                first = found.setdefault((stanza.name, stanza.version, stanza.architecture), stanza)
                if first is not stanza:
                    want_same(first, stanza)
        return list(found.values())

    def only_architecture(self):
        found = sorted({stanza.architecture for stanza in self.stanzas} - {"all"})
        if len(found) > 1:
            raise Refused(f"there are packages of {' and '.join(found)}: say with --arch which the machine is")
        return found[0] if found else "all"

    def architecture(self, stanza):
        """The architecture that a package counts as."""
        return self.native if stanza.architecture == "all" else stanza.architecture

    def meeting(self, relation, architecture=None):
        """The packages that meet a relation of a package of this architecture; of any, if none is given."""
        found = [stanza for stanza in self.named.get(relation.name, ())
                 if self.fits(relation, stanza, architecture) and meets(stanza.version, relation)]
        for stanza, provided in self.providers.get(relation.name, ()):
            if self.fits(relation, stanza, architecture, provided.architecture) and meets(provided.version, relation):
                found.append(stanza)
        return list(dict.fromkeys(found))

    def fits(self, relation, stanza, architecture, provided=None):
        """Whether the relation may mean a package of the stanza's architecture, or one that is provided for another."""
        own = provided or self.architecture(stanza)
        if relation.architecture is None:
            return architecture is None or own == architecture or stanza.multi_arch == "foreign"
        return relation.architecture in ("any", own)


def want_same(first, second):
    """Refuses a package that stands twice and differs."""
    for field in ("depends", "pre-depends", "conflicts", "breaks", "provides", "multi-arch"):
        if first.value(field).split() != second.value(field).split():
            raise Refused(f"{second.file}: line {second.line}: '{second.name}' {second.version} stands in {first.file}, "
                          f"line {first.line}, with another field '{field.title()}'")


def meets(version, relation):
    """Whether a version, or none, is one that the relation asks for."""
    if relation.operator is None:
        return True
    return version is not None and deb_version.holds(version, relation.operator, relation.version)
