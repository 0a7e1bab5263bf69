"""Writes rules from a Debian package index and a list of wishes.

    tools/deb.py [--arch ARCHITECTURE] PACKAGES.. WISHES [-o RULES]

PACKAGES are one or more indices (the files 'Packages' of a distribution, or /var/lib/dpkg/status). WISHES has a wish a
line, and each wish is a rule, which can be given up:

    nginx
    postgresql (>= 15)
    default-mta | mail-transport-agent
    not systemd

What packages depend on and conflict with holds always; of all packages only those are written that the wishes can reach.
--arch says what the machine is, if the indices have packages of several architectures. One of the files may be -, for
standard input. docs/IMPORT.md says what is read, and what is refused.
"""
import sys

from gmus_tools.command import Refused, WrongWords, here, put, run, text_of
from gmus_tools.deb import index as deb_index
from gmus_tools.deb.unpacked import text_of as index_of
from gmus_tools.rules import text as rule_text
from gmus_tools.rules.near import near_names

FEW = 3     # of the versions that a package has, so many are told


class Wish:
    """A line of the list: relations of which one is to be met, or none is."""

    def __init__(self, file, line, text):
        words = text.split()
        self.text = " ".join(words)
        self.file = file
        self.line = line
        self.is_not = words[0] == "not" and len(words) > 1
        if "," in text:
            raise Refused(f"{file}: line {line}: a wish stands on a line of its own, without a comma")
        clause = text.strip()[len("not"):] if self.is_not else text
        self.relations = deb_index.with_place(file, line, deb_index.alternatives, clause)


def wishes_of(file, text):
    """The wishes of a list, in which # begins a comment."""
    lines = [(number, line.partition("#")[0].strip()) for number, line in enumerate(text.split("\n"), 1)]
    found = [Wish(file, number, line) for number, line in lines if line]
    if not found:
        raise Refused(f"{file}: there is no wish in it: a wish is a line such as 'nginx (>= 1.22)', or 'not nginx'")
    return found


class Problem:
    """What the wishes reach of an index, as rules."""

    def __init__(self, index, wishes):
        self.index = index
        self.wishes = wishes
        self.unmet = []             # wishes that no package meets, and what they ask for
        self.literals = {}
        self.names = rule_text.Names()
        self.dependencies = {}      # of each package that is reached: clauses with what meets them
        for wish in wishes:
            if not wish.is_not:
                self.reach(self.meeting(wish))

    def meeting(self, wish):
        """The packages that a wish speaks of: if they are not wanted, those of all architectures."""
        architecture = None if wish.is_not else self.index.native
        return list(dict.fromkeys(it for relation in wish.relations for it in self.index.meeting(relation, architecture)))

    def reach(self, stanzas):
        """Finds all packages that these may need, and what they need them for."""
        todo = list(stanzas)
        while todo:
            stanza = todo.pop()
            if stanza in self.dependencies:
                continue
            own = self.dependencies[stanza] = []
            architecture = self.index.architecture(stanza)
            for field in ("pre-depends", "depends"):
                for relations, text, _ in stanza.clauses(field):
                    met = dict.fromkeys(it for relation in relations for it in self.index.meeting(relation, architecture))
                    if stanza not in met:
                        own.append((text, list(met)))
                        todo += met

    def literal(self, stanza):
        """The package's name, with what tells it from others of that name."""
        if stanza not in self.literals:
            others = self.index.named[stanza.name]
            name = stanza.name
            if len({self.index.architecture(it) for it in others}) > 1:
                name += ":" + stanza.architecture
            if len({it.version for it in others}) > 1:
                name += "=" + stanza.version
            self.literals[stanza] = rule_text.literal(self.names.new(name, stanza.architecture))
        return self.literals[stanza]

    def text(self):
        made = rule_text.RuleText()
        reached = [stanza for stanza in self.index.stanzas if stanza in self.dependencies]
        seen = set()
        for stanza in reached:
            lines = self.dependency_lines(stanza) + self.conflict_lines(stanza, seen)
            if lines:
                made.always(lines, f"{stanza.name} {stanza.version}", (stanza.file, stanza.line))
        for name in dict.fromkeys(stanza.name for stanza in reached):
            made.always(self.version_lines([it for it in self.index.named[name] if it in self.dependencies]))
        for wish in self.wishes:
            made.rule(wish.text, self.wish_lines(wish), behind=f"(line {wish.line})", origin=(wish.file, wish.line))
        return made.text()

    def dependency_lines(self, stanza):
        lines = []
        for text, met in self.dependencies[stanza]:
            if met:
                lines.append(f"{self.literal(stanza)} implies {self.one_of(met)}")
            else:
                lines += [f"# nothing meets '{rule_text.printable(text)}'", f"not {self.literal(stanza)}"]
        return lines

    def conflict_lines(self, stanza, seen):
        """The packages that are reached too, and that this one can't stand beside."""
        lines = []
        for field in ("conflicts", "breaks"):
            for relations, text, line in stanza.clauses(field):
                if len(relations) > 1:
                    raise Refused(f"{stanza.file}: line {line}: '{text}' has alternatives, which a conflict can't have")
                for other in self.index.meeting(relations[0]):
                    pair = frozenset((stanza, other))
                    if other in self.dependencies and other.name != stanza.name and pair not in seen:
                        seen.add(pair)
                        lines.append(f"not ({self.literal(stanza)} and {self.literal(other)})")
        return lines

    def version_lines(self, stanzas):
        """That of one package at most one version is installed, or one for each architecture that may stand together."""
        if len({self.index.architecture(it) for it in stanzas}) == 1:
            listed = ", ".join(map(self.literal, stanzas))
            return [f"at most one of ({listed})"] if len(stanzas) > 1 else []
        lines = []
        for at, one in enumerate(stanzas):
            for other in stanzas[:at]:
                both_same = one.multi_arch == other.multi_arch == "same"
                if not both_same or one.version != other.version:
                    lines.append(f"not ({self.literal(other)} and {self.literal(one)})")
        return lines

    def wish_lines(self, wish):
        met = self.meeting(wish)
        if met:
            return [f"not {self.literal(it)}" for it in met] if wish.is_not else [self.one_of(met)]
        asked = wish.text[len("not "):] if wish.is_not else wish.text
        name = rule_text.literal(self.names.new(asked))
        self.unmet.append((wish, asked))
        return [f"{name} or not {name}" if wish.is_not else f"{name} and not {name}"]

    def one_of(self, stanzas):
        return " or ".join(map(self.literal, stanzas))


    def told(self):
        """What a person should know of the wishes: which of them no package meets, and what may be meant."""
        index = self.index
        names = {relation.name for wish, _ in self.unmet for relation in wish.relations if relation.name not in index.named}
        near = near_names(sorted(names), [*index.named, *index.providers]) if names else {}
        for wish, asked in self.unmet:
            follows = "the wish holds anyway" if wish.is_not else "the wish clashes by itself"
            others = [f"{it.name} (= {it.version})" for relation in wish.relations for it in index.named.get(relation.name, ())]
            meant = [near[relation.name] for relation in wish.relations if relation.name in near]
            hint = f"; there is {', '.join(others[:FEW])}" if others else f". Is '{meant[0]}' meant?" if meant else ""
            yield f"line {wish.line}: no package is or provides '{asked}', so {follows}{hint}"


def rules_of(indices, wishes, native=None):
    """The text of the rules, and lines on what is odd about the wishes. Each file is its name and its text."""
    stanzas = (stanza for file, text in indices for stanza in deb_index.stanzas_of(file, text))
    index = deb_index.Index(stanzas, native)
    if not index.stanzas:
        raise Refused(f"{indices[0][0]}: there is no package in it")
    problem = Problem(index, wishes_of(*wishes))
    return problem.text(), [f"{wishes[0]}: {line}" for line in problem.told()]


def words_of(words):
    """The files, and the architecture if it is said."""
    native, files = None, []
    left = list(words)
    while left:
        word = left.pop(0)
        if word == "--arch" and left:
            native = left.pop(0)
        elif word.startswith("-") and word != "-":
            raise WrongWords(f"'{word}' is no option" if word != "--arch" else "--arch wants an architecture")
        else:
            files.append(word)
    if len(files) < 2:
        raise WrongWords("an index and a list of wishes are wanted")
    return files, native


def main(words):
    files, native = words_of(words)
    indices, wishes = [(file, index_of(file)) for file in files[:-1]], (files[-1], text_of(files[-1]))
    made, told = rules_of(indices, wishes, native)
    for line in told:
        print(f"{here('deb.py')}: {line}", file=sys.stderr)
    put(made)


def as_command():
    """Ends the process as the words of its command line ask."""
    run("deb.py", main, __doc__)
