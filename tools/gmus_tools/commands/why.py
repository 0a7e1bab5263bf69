"""Says why rules clash: on which of their lines the refutation of a conflict rests.

    gmus list FILE --evidence EVIDENCE
    tools/why.py FILE EVIDENCE [N] [--html] [--focus LIST] [-o TEXT]

FILE is the GCNF or CNF file, EVIDENCE what gmus wrote about it (- is standard input); with --focus LIST, as it stood behind
`gmus list` too, about the groups of that list. N is the number of a conflict in the
report's order; without it all are told. What is written is a text, or with --html a page that stands by itself.

For a conflict come the lines of its rules, as they were written, and those that hold anyway: all together they can't hold. In
files with no comments on rules these are clauses, with the names of their variables if the file has them. Each step of the
evidence that is followed is checked, so nothing is believed of it. That a conflict is minimal is for `gmus check` to say.
"""
import collections
import html
import io
import os

from gmus_tools import command
from gmus_tools.command import Refused, WrongWords, plain
from gmus_tools.focus import without_focus
from gmus_tools.report import digest_of, number_of
from gmus_tools.why.evidence import Evidence
from gmus_tools.why.problem import Problem

ALWAYS = "What always holds"
MEANING = "These lines can't all hold together."

# Why one conflict is one: its number, its groups, and for the background and each group the lines on which this rests.
Reason = collections.namedtuple("Reason", "number groups parts")
# The lines of one group, each with where it stands, and its text. Group 0 is the background.
Part = collections.namedtuple("Part", "group lines")


def reasons(problem, evidence, number=None):
    """The reason of the conflict of this number, which counts from 1, or of each conflict."""
    for at in range(len(evidence.conflicts)) if number is None else [number - 1]:
        parts = {}
        for clause in evidence.clauses_of(at):
            # several clauses come of one line of rules, which is told once
            lines = parts.setdefault(problem.told_with(clause), {})
            lines.setdefault(problem.written_as(clause))
        yield Reason(at + 1, evidence.conflicts[at], [Part(group, list(parts[group])) for group in sorted(parts)])


def by_groups(problem, evidence, wanted=None):
    """The reason of each conflict, or of those of these sets of groups, by the tuple of its groups: pairs of a rule's name, or None
    for the background, and its lines with where they stand."""
    places = {groups: number for number, groups in enumerate(evidence.conflicts, 1)}
    found = {}
    for groups in places if wanted is None else map(tuple, wanted):
        reason = next(reasons(problem, evidence, places[groups]))
        found[groups] = [(problem.name(part.group) if part.group else None, [f"{place}: {line}" for place, line in part.lines])
                         for part in reason.parts]
    return found


class Page:
    """The parts of a page, in words that the text and the HTML share."""

    def __init__(self, problem, evidence, number, digest):
        self.digest = digest
        self.problem = problem
        self.count = len(evidence.conflicts)
        self.is_complete, self.up_to = evidence.is_complete, evidence.up_to
        self.file = plain(os.path.basename(problem.source))
        self.title = f"What makes the rules of {self.file} clash"
        self.reasons = reasons(problem, evidence, number)

    def summary(self):
        if not self.count:
            return "No conflict stands in this evidence."
        found = number_of(self.count, "conflict", "conflicts")
        if self.up_to is not None:
            return f"{found}. There may be others, each of more than {number_of(self.up_to, 'rule', 'rules')}."
        return f"{found}." if self.is_complete else f"{found}. The evidence is partial: there may be others."

    def made_of(self):
        """Of which file this was made."""
        return f"Made of {self.file}, SHA-256 {self.digest}."

    def heading(self, reason):
        names = "; ".join(map(self.problem.name, reason.groups)) or "what always holds clashes with itself"
        return f"Conflict {reason.number} of {self.count}: {names}"

    def part_name(self, part):
        name = self.problem.group_names.get(0)
        return self.problem.name(part.group) if part.group else f"{ALWAYS}: {name}" if name else ALWAYS


def as_text(page):
    lines = [page.title, "=" * len(page.title), "", page.summary()]
    for reason in page.reasons:
        heading = page.heading(reason)
        lines += ["", heading, "-" * min(len(heading), 100), "", MEANING, ""]
        width = max(len(place) for part in reason.parts for place, _ in part.lines)
        for part in reason.parts:
            lines.append(page.part_name(part))
            lines += [f"    {place:{width}}  {text}" for place, text in part.lines]
    return "\n".join([*lines, "", page.made_of()]) + "\n"


STYLE = """
body { font: 16px/1.45 system-ui, sans-serif; max-width: 52rem; margin: 2rem auto; padding: 0 1rem }
body { color: #222; background: #fff }
h1 { font-size: 1.5rem } h2 { font-size: 1.2rem; margin-top: 2rem } h1, h2, dt, code { overflow-wrap: anywhere }
dt { font-weight: 600; margin-top: .6rem } dd { margin: .1rem 0 .1rem 1.2rem } code { white-space: pre-wrap }
footer { color: #666; margin-top: 2rem } dd span { color: #666; display: inline-block; min-width: 5.5rem }
@media print { body { margin: 0; max-width: none; font-size: 11pt } section { break-inside: avoid } }
"""


def as_html(page):
    text = html.escape
    parts = [
        "<!DOCTYPE html>", '<html lang="en">', "<head>", '<meta charset="utf-8">',
        '<meta name="viewport" content="width=device-width, initial-scale=1">',
        f"<title>{text(page.title)}</title>", f"<style>{STYLE}</style>", "</head>", "<body>",
        f"<h1>{text(page.title)}</h1>", f"<p>{text(page.summary())}</p>",
    ]
    for reason in page.reasons:
        parts += [f'<section id="c{reason.number}">', f"<h2>{text(page.heading(reason))}</h2>", f"<p>{text(MEANING)}</p>",
                  "<dl>"]
        for part in reason.parts:
            parts.append(f"<dt>{text(page.part_name(part))}</dt>")
            parts += [f"<dd><span>{text(place)}</span> <code>{text(line)}</code></dd>" for place, line in part.lines]
        parts += ["</dl>", "</section>"]
    return "\n".join([*parts, f"<footer>{text(page.made_of())}</footer>", "</body>", "</html>"]) + "\n"


def opened(name):
    """The file, in which any place can be read again."""
    if name == "-":
        return io.BytesIO(command.bytes_of(name))
    file = command.opened(name)
    return file if file.seekable() else io.BytesIO(file.read())


def number_in(words):
    """The number of a conflict, if there is one among the words."""
    if not words:
        return None
    if len(words) > 1 or not (words[0].isascii() and words[0].isdecimal()) or len(words[0]) > 18 or int(words[0]) == 0:
        raise WrongWords(f"the number of a conflict is wanted, from 1 on, in place of {' '.join(words)}")
    return int(words[0])


def main(words):
    words, focus = without_focus(words)
    options = [word for word in words if word.startswith("-") and word != "-"]
    if set(options) - {"--html"}:
        raise WrongWords(f"what is {options[0]}?")
    files = [word for word in words if word not in options]
    if len(files) < 2:
        raise WrongWords("a file and evidence about it are wanted")
    number = number_in(files[2:])
    with opened(files[0]) as file:
        digest = digest_of(file.read())
        file.seek(0)
        problem = Problem(file, files[0], focus)
    with opened(files[1]) as file:
        evidence = Evidence(file, files[1], problem)
        if number and number > len(evidence.conflicts):
            raise Refused(f"{files[1]}: there is no conflict {number}: it has {len(evidence.conflicts)}")
        page = Page(problem, evidence, number, digest)
        made = as_html(page) if options else as_text(page)
    command.put(made)
    return command.DONE


def as_command():
    """Ends the process as the words of its command line ask."""
    command.run("why.py", main, __doc__)
