"""A report of gmus, the names that its file gives to groups, and what both say in words.

A group that has a name is called a rule here, as its file was mostly made from rules; one without a name is `group 7`.
"""
import hashlib
import re

from gmus_tools.command import Refused, plain, refuse_known

COMMENT = re.compile(r"[ \t]*c")
LINE = re.compile(r"[^\n]+")
# A number of 19 digits or more is above every group. Digits without end would be costly to read.
NAMING = re.compile(r"^[ \t]*c[ \t]+group[ \t]+0*([0-9]{1,18})[ \t]+(\S[^\n]*)", re.MULTILINE)
# what came to [always] later, and stands in the groups of rules (docs/FORMATS.md)
LATER = re.compile(r"^c always ([0-9]{1,9}) (.*)|^\{([0-9]{1,9})\}", re.MULTILINE)
# what giving up a rule weighs, and which ones are never given up
PREFERENCE = re.compile(r"^[ \t]*c[ \t]+(?:weight[ \t]+0*([0-9]{1,18})[ \t]+0*([1-9][0-9]{0,9})|keep[ \t]+0*([0-9]{1,18}))[ \t\r]*$", re.MULTILINE)
VARIABLE = re.compile(r"^[ \t]*c[ \t]+variable[ \t]+[0-9]{1,18}[ \t]+\S", re.MULTILINE)
HEADER = re.compile(r"p gcnf [0-9]+ [0-9]+ 0*([0-9]{1,18})|p cnf [0-9]+ 0*([0-9]{1,18})( .*)?")
HEAD = re.compile(r"p gmus ([0-9]{1,18})")
SET = re.compile(r"(u|m)((?: [1-9][0-9]{0,17})*) 0")
COMPLETE, PARTIAL = "s COMPLETE", "s PARTIAL"
COUNTS = re.compile(r"e [0-9]{1,18} [0-9]{1,18}")


FEW = 20        # rules that stand with a line of [always], or are left out, are named if they are so few
LATER_LINES = "What came to [always] since stands with the rules that need it:"


DIGITS = 16     # of a SHA-256, so many are told


def digest_of(held):
    """The first digits of the SHA-256 of a file's bytes."""
    return hashlib.sha256(held).hexdigest()[:DIGITS]


def decoded(held):
    """The text of a file's bytes, without a byte order mark; bytes that are no UTF-8 are marked, since the program skips
    comments whatever they hold."""
    return held.decode("utf-8-sig", "replace")


def read_problem(text):
    """The names of the groups, and the greatest group that the header says, or None if there is no header.

    In a file `p gcnf` a group is named by its number, in a file `p cnf` each clause is the group of its place.
    """
    names = {}
    for naming in NAMING.finditer(text):
        names.setdefault(int(naming.group(1)), []).append(plain(naming.group(2).strip()))
    words = []
    for line in LINE.finditer(text):
        if len(words) >= 5:
            break
        if not COMMENT.match(line.group()):
            words += line.group().replace("{", " { ").split(None, 5)
    header = HEADER.fullmatch(" ".join(words[:5]))
    groups = int(header.group(1) or header.group(2)) if header else None
    return {group: " ".join(texts) for group, texts in names.items()}, groups


def read_later(text):
    """The lines of rules that came to [always] once the file was made, each with its number and the groups that have it."""
    found, line = {}, None
    for part in LATER.finditer(text):
        if part.group(1):
            line = int(part.group(1)), plain(part.group(2))
        elif line:
            found.setdefault(line, {})[int(part.group(3))] = None
            line = None
    return {line: list(groups) for line, groups in found.items()}


def read_preferences(text):
    """The weights of groups that have one which is not 1, and the groups that are never given up."""
    weights, kept = {}, set()
    for found in PREFERENCE.finditer(text):
        if found.group(3):
            kept.add(int(found.group(3)))
        elif found.group(2) != "1":
            weights[int(found.group(1))] = int(found.group(2))
    return {group: weight for group, weight in sorted(weights.items()) if group not in kept}, kept


class Origin:
    """What a report is of: a file, by its name and the first digits of its SHA-256, with what its comments say; and the groups
    that the question is about, if it isn't about all."""

    def __init__(self, text, name, digest="", focus=None):
        self.path = name
        self.name = plain(name.rpartition("/")[2])
        self.digest = digest
        self.names, self.groups = read_problem(text)
        self.later = read_later(text) if "\nc always " in text else {}
        self.weights, self.kept = read_preferences(text)
        self.has_variables = bool(VARIABLE.search(text))
        self.focus = focus

    def has_weights(self):
        return bool(self.weights)

    def weight_of(self, groups):
        """What giving up these groups weighs."""
        return sum(self.weights.get(group, 1) for group in groups)

    def is_asked(self, group):
        """Whether the question is about this group."""
        return self.focus is None or group in self.focus

    def asked(self):
        """The groups of the file that the question is about, or None if it is about all."""
        return None if self.focus is None else sorted(group for group in self.focus if group <= self.groups)

    def left_out(self):
        """What is said of the groups that the question is not about, as names if they are few."""
        if self.focus is None:
            return ""
        groups = [group for group in range(1, self.groups + 1) if group not in self.focus]
        if len(groups) > FEW:
            return f"{len(groups)} rules are left out by --focus."
        return f"Left out by --focus: {'; '.join(map(self.name_of, groups))}." if groups else ""

    def made_of(self):
        """Of which file something was made, if its digest is known."""
        return f"Made of {self.name}, SHA-256 {self.digest}." if self.digest else ""

    def name_of(self, group):
        return self.names.get(group, f"group {group}")

    def later_lines(self):
        """Of each line that came to [always] later, with which rules it stands, and what it says."""
        for (line, text), groups in self.later.items():
            shown = "; ".join(map(self.name_of, groups[:FEW])) + (f" and {len(groups) - FEW} more" if len(groups) > FEW else "")
            yield f"line {line}, with {shown}: {text}"

    def later_text(self):
        """The same as lines of a text, behind an empty one."""
        return ["", LATER_LINES, *("  " + line for line in self.later_lines())] if self.later else []

    def want_header(self):
        """Refuses a file that has none."""
        if self.groups is None:
            raise Refused(f"{self.path}: it has no header 'p gcnf ..' or 'p cnf ..'")

    def want_groups(self, groups):
        """Refuses a report of so many groups if the file has others."""
        if self.groups != groups:
            raise Refused(f"the report can't be read: it is of another file: {self.path} has groups up to {self.groups}, and it "
                          f"has them up to {groups}")


def mark_of(text):
    """The second line of a text that begins and ends as a report does, or None. What stands between, which may be very much, is not
    looked at."""
    head, mark, rest = [*text.split("\n", 2), "", ""][:3]
    last = rest[rest.rfind("\n", 0, -1) + 1:]
    is_report = HEAD.fullmatch(head) and mark in (COMPLETE, PARTIAL) and last.endswith("\n") and COUNTS.fullmatch(last[:-1])
    return mark if is_report else None


class Report:
    """The sets of a report, as lists of group numbers."""

    UNCLEAR = "the report is partial, and has no set"

    def __init__(self, text):
        lines = text.split("\n")
        if lines == [""]:
            raise Refused("there is none: see what gmus wrote on standard error")
        if len(lines) < 4 or lines[-1] or not lines[-2].startswith("e "):
            raise Refused("it is cut off, or is no report")
        head = HEAD.fullmatch(lines[0])
        if not head or lines[1] not in (COMPLETE, PARTIAL):
            raise Refused("it is no report")
        self.groups = int(head.group(1))
        self.is_complete = lines[1] == COMPLETE
        self.conflicts, self.corrections = [], []
        before = None
        for number, line in enumerate(lines[2:-2], 3):
            found = SET.fullmatch(line)
            members = [int(word) for word in found.group(2).split()] if found else [1, 1]
            if any(high <= low for low, high in zip(members, members[1:] + [self.groups + 1])):
                raise Refused(f"line {number} is no set of its groups")
            at = found.group(1) == "m", members
            if before is not None and at <= before:
                raise Refused(f"line {number} stands there twice" if at == before else f"line {number} stands out of order")
            before = at
            (self.conflicts if found.group(1) == "u" else self.corrections).append(members)
        if lines[-2] != f"e {len(self.conflicts)} {len(self.corrections)}":
            raise Refused("its last line does not count its sets")
        self.refuse_impossible()

    def refuse_impossible(self):
        """Refuses sets that no file has."""
        for line, sets, others in (("u 0", self.conflicts, self.corrections), ("m 0", self.corrections, self.conflicts)):
            if [] in sets and (len(sets) > 1 or others):
                raise Refused(f"'{line}' stands beside other sets, and no file has both")
        alone = [] in self.conflicts + self.corrections
        if self.is_complete and not alone and not (self.conflicts and self.corrections):
            none = "sets" if not self.conflicts + self.corrections else "conflicts" if self.corrections else "corrections"
            raise Refused(f"it is complete, and has no {none}; no file has such a report")

    def counts(self):
        """In how many conflicts and in how many corrections each group is that is in any, the telling ones first."""
        counts = {}
        for at, sets in enumerate((self.conflicts, self.corrections)):
            for members in sets:
                for group in members:
                    counts.setdefault(group, [0, 0])[at] += 1
        return sorted(counts.items(), key=lambda count: (-count[1][0], -count[1][1], count[0]))

    def has_clash(self):
        """Whether something clashes, or None if the report does not tell."""
        if self.conflicts or any(self.corrections):
            return True
        return False if self.is_complete or self.corrections else None


def number_of(count, one, many):
    return f"{count} {one if count == 1 else many}"


def configuration_line(names):
    """The names of a configuration as a line, the first ones if they are many."""
    more = f" and {len(names) - FEW} more" if len(names) > FEW else ""
    return LEFT + (", ".join(names[:FEW]) or NOTHING) + more


# Of each kind of sets: its heading, what it means, and what is said of a set of one rule.
CONFLICTS = ("Conflicts", "Not all rules of a conflict can be kept. Without any one of them, its others can.",
             "{} can't be kept, whatever else is given up.")
CORRECTIONS = ("Corrections", "Give up the rules of one correction, and all others fit together. No part of it is enough.",
               "Giving up {} alone mends all.")
LIGHT, LIGHT_SO_FAR = " The one of the least weight comes first.", " The one of the least weight that was found comes first."
# What is said of a configuration that a correction leaves, and if none is known.
LEFT = "left, for example: "
NOTHING = "nothing that has a name"
UNSEEN = "What each leaves: list with --evidence to see it."


class Named:
    """A report with the names of its groups, in the order in which a person reads it: first the rules in most conflicts,
    then those in most corrections; and the sets of few rules before larger ones, since they tell most. Corrections come by their
    weight, and those that give up a rule which is kept are left out and counted."""

    def __init__(self, report, origin):
        self.report = report
        self.origin = origin
        self.title = f"What clashes in {origin.name}"
        self.counts = report.counts()
        self.conflicts = sorted(report.conflicts, key=len)
        self.corrections = sorted((members for members in report.corrections if origin.kept.isdisjoint(members)),
                                  key=lambda members: (origin.weight_of(members), len(members)))
        self.unwanted = len(report.corrections) - len(self.corrections)
        # what each correction leaves, as configurations.Configurations has it, if there was evidence
        self.left = None
        involved = {group for group, _ in self.counts}
        self.others = [group for group in range(1, report.groups + 1) if group not in involved and origin.is_asked(group)]

    def name(self, group):
        return self.origin.name_of(group)

    def mark(self, group):
        """What stands behind the name of a rule that is never given up."""
        return " (to be kept)" if group in self.origin.kept else ""

    def weight_of(self, group):
        """What is told of a rule's weight: that it is kept, or how much giving it up weighs."""
        return "keep" if group in self.origin.kept else self.origin.weight_of([group])

    def left_by(self, correction):
        """The names that hold where a correction is given up, or None if that isn't known."""
        return self.left.of(correction) if self.left else None

    def unseen(self):
        """What is said if there was no evidence by which to tell what corrections leave."""
        return UNSEEN if self.left is None and self.origin.has_variables and any(self.corrections) else ""

    def has_choice(self):
        """Whether there is a set with rules in it, of which some can be given up."""
        return bool(self.counts) and [] not in self.conflicts

    def summary(self):
        if [] in self.report.corrections:
            return "Nothing clashes: all rules fit together."
        if [] in self.conflicts:
            return "The background clashes with itself, whatever is given up: there is no correction."
        found = (number_of(len(self.conflicts), "conflict", "conflicts") + " and "
                 + number_of(len(self.report.corrections), "correction", "corrections"))
        if self.report.is_complete:
            return found + ". The report is complete: there are no others."
        return found + " were found. The report is partial: there may be others."

    def sections(self):
        """The two lists of sets, each behind its heading, what it means, and what is said of a set of one rule; without
        those that are empty."""
        heading, meaning, alone = CORRECTIONS
        light = (LIGHT if self.report.is_complete else LIGHT_SO_FAR) if self.origin.has_weights() else ""
        both = ((*CONFLICTS, self.conflicts), (heading, meaning + light, alone, self.corrections))
        return [section for section in both if section[-1] and [] not in section[-1]]

    def kept_lines(self):
        """What is said of rules that are never given up: which conflicts are of them alone, and how many corrections give one up."""
        kept = self.origin.kept
        alone = [at for at, members in enumerate(self.conflicts, 1) if members and kept.issuperset(members)]
        if alone:
            shown = ", ".join(map(str, alone[:FEW])) + (f" and {len(alone) - FEW} more" if len(alone) > FEW else "")
            these, it = ("conflict", "it") if len(alone) == 1 else ("the conflicts", "these")
            yield f"All rules of {these} {shown} are to be kept, so nothing mends {it}."
        if self.unwanted:
            gives = "1 correction is left out: it gives up a rule that is to be kept." if self.unwanted == 1 else (
                f"{self.unwanted} corrections are left out: each gives up a rule that is to be kept.")
            yield gives + ("" if self.corrections or not self.report.is_complete else " There is no other.")

    def others_line(self):
        """What is said of the groups in no set, as names if they are few."""
        if not self.others or [] in self.conflicts + self.report.corrections:
            return ""
        so_far = "" if self.report.is_complete else " so far"
        if len(self.others) > 20:
            return f"{len(self.others)} other rules are in none{so_far}."
        return f"In none{so_far}: " + "; ".join(self.name(group) for group in self.others) + "."


def named(origin, report_text):
    """The report of a file with its names; refused if it is none, or one of another file."""
    origin.want_header()
    try:
        report = Report(report_text)
    except Refused as why:
        raise Refused(f"the report can't be read: {why}") from None
    origin.want_groups(report.groups)
    foreign = next((group for group, _ in report.counts() if not origin.is_asked(group)), None)
    if foreign is not None:
        raise Refused(f"the report can't be read: group {foreign} is in a set of it, and --focus leaves that group out")
    return Named(report, origin)


def origin_of(held, name, focus=None):
    """The origin of a report, by the bytes of its file, which may have no UTF-8 in its comments."""
    refuse_known(held, name)
    return Origin(decoded(held), name, digest_of(held), focus)
