"""Writes a report of gmus with the names of its groups.

    gmus list FILE | tools/names.py FILE [--evidence EVIDENCE] [--first N] [--json | --html [--graph] | --dot] [--focus LIST]
                                         [--fail-on-conflict] [-o TEXT]
    tools/names.py FILE REPORT ..

FILE is the GCNF or CNF file. Its comments 'c group 7 TEXT' name its groups, in CNF clause 7; if one group has several of
them, their texts are joined by a blank. A group with a name is called a rule. The report comes from the file REPORT, or
from standard input.

A report of roles, which `gmus roles` writes, is taken too: what is written is which rules are in every conflict, in some,
and in none.

What is written is a text: first the rules, with how many conflicts and how many corrections each is in. Those in most
conflicts come first, then those in most corrections. Then the conflicts and the corrections, those of few rules first,
since they tell most; a correction of one rule is told as a sentence. The last line has the name of FILE and the first 16
digits of its SHA-256, so that it is known of which file all this was made.

--evidence EVIDENCE: by what gmus wrote beside the report, each conflict has the lines on which it rests, and each correction a
configuration that it leaves: the names that then hold, in the order of the rules. Both are checked before they are shown. --why
says the same.
--first N writes the first N of each list, and how many are left. On a terminal that is so with 20, if N is not given.
--json writes the whole report with names as JSON. Its form stands in docs/FORMATS.md.
--html writes it as a page that stands by itself, in which rules can be given up or kept, and what then remains is shown. There
conflicts open to their lines.
--dot writes a drawing of the conflicts for Graphviz: rules as nodes, and between two how many conflicts share them.
--graph has the page show that drawing; `dot` of Graphviz makes it.
--focus LIST: the report is of `gmus list FILE --focus LIST`; what that leaves out is told as left out.
--fail-on-conflict: what is written stays the same, and the status is 3 if something clashes.

The status is 0 if the report was written, 1 if something was refused, 2 if the words have no reading.
"""
import io
import json

from gmus_tools import graph, page, roles_report
from gmus_tools.command import DONE, REFUSED, Refused, WrongWords, bytes_of, here, is_for_a_person, put, run, told
from gmus_tools.commands import why
from gmus_tools.configurations import Configurations
from gmus_tools.focus import without_focus
from gmus_tools.report import configuration_line, decoded, named, number_of, origin_of
from gmus_tools.why.evidence import Evidence
from gmus_tools.why.problem import Problem

CLASH = 3
ON_A_TERMINAL, MOST = 20, 10 ** 18
VERSION = 1


def as_text(shown, first=None, reasons=None):
    """The report as a text; of each list the first ones alone, if so many are asked for. `reasons` are those of conflicts, as
    why.by_groups gives them: each rule then has its lines below it."""
    lines = [shown.title, "=" * len(shown.title), "", shown.summary()]
    if shown.counts:
        has_weights = bool(shown.origin.weights or shown.origin.kept)
        lines += ["", "Rules", "-----", "", "  no.  conflicts  corrections  " + "    weight  " * has_weights + "name"]
        lines += [f"{group:5}  {conflicts:9}  {corrections:11}  " + f"{shown.weight_of(group):>10}  " * has_weights + shown.name(group)
                  for group, (conflicts, corrections) in shown.counts[:first]]
        lines += left_line(len(shown.counts), first)
    if shown.others_line():
        lines += ["", shown.others_line()]
    lines += ["", shown.origin.left_out()] if shown.origin.left_out() else []
    lines += shown.origin.later_text()
    for heading, meaning, alone, sets in shown.sections():
        lines += ["", heading, "-" * len(heading), "", meaning]
        for at, members in enumerate(sets[:first], 1):
            marked = [shown.name(group) + shown.mark(group) for group in members]
            told = marked if len(members) > 1 else [alone.format(marked[0])]
            if sets is shown.conflicts and reasons:
                told = with_lines(told, reasons.get(tuple(members), []))
            if sets is shown.corrections:
                told += of_correction(shown, members)
            lines.append("")
            lines += [f"{f'{at}.' if not place else '':5} {line}" for place, line in enumerate(told)]
        lines += left_line(len(sets), first)
        lines += ["", shown.unseen()] if sets is shown.corrections and shown.unseen() else []
    lines += [line for told in shown.kept_lines() for line in ("", told)]
    lines += ["", shown.origin.made_of()] if shown.origin.made_of() else []
    return "".join(line + "\n" for line in lines)


def with_lines(told, reasons):
    """What is told of a conflict's rules, with the lines on which it rests below each of them; what always holds comes last."""
    named = [(rule, lines) for rule, lines in reasons if rule is not None]
    parts = [[head, *("    " + line for line in lines)] for head, (_, lines) in zip(told, named)] if len(named) == len(told) else []
    always = [["always", *("    " + line for line in lines)] for rule, lines in reasons if rule is None]
    return [line for part in (parts or [told]) + always for line in part]


def of_correction(shown, members):
    """What is told of a correction besides its rules: its weight, and what it leaves."""
    left = shown.left_by(members)
    return ([f"(weight {shown.origin.weight_of(members)})"] if shown.origin.has_weights() else []) + (
        [] if left is None else [configuration_line(left)])


def left_line(count, first):
    if first is None or count <= first:
        return []
    left = number_of(count - first, "more is", "more are")
    return ["", f"{left} left: --first {count} has all of them."]


def as_json(shown):
    """The whole report as JSON, one set a line."""
    origin = shown.origin
    head = {"version": VERSION, "file": origin.name, "sha256": origin.digest, "focus": origin.asked(),
            "complete": shown.report.is_complete, "groups": shown.report.groups,
            "names": {str(group): name for group, name in sorted(origin.names.items())},
            "weights": {str(group): weight for group, weight in origin.weights.items()}, "keep": sorted(origin.kept)}
    counts = [{"group": group, "conflicts": conflicts, "corrections": corrections}
              for group, (conflicts, corrections) in shown.counts]
    lines = [f'"{key}": {written(value)}' for key, value in head.items()]
    later = [{"line": line, "text": text, "groups": groups} for (line, text), groups in origin.later.items()]
    sums = [origin.weight_of(members) for members in shown.corrections]
    left = None if shown.left is None else list(map(shown.left_by, shown.corrections))
    lines += [f'"left_out": {shown.unwanted}', f'"sums": {written(sums)}', f'"left": {written(left)}']
    for key, rows in (("later", later), ("counts", counts), ("conflicts", shown.conflicts), ("corrections", shown.corrections)):
        lines.append(f'"{key}": [' + ",".join("\n  " + written(row) for row in rows) + ("\n]" if rows else "]"))
    return "{\n" + ",\n".join(lines) + "\n}\n"


def written(value):
    return json.dumps(value, ensure_ascii=False)


def take_evidence(shown, problem, evidence, first=None):
    """Notes what the corrections leave, and gives the reasons of the conflicts, as the evidence has them: of the first ones alone, if
    so many are asked for."""
    shown.left = Configurations(problem, evidence, shown.corrections[:first])
    has = set(evidence.conflicts)
    return why.by_groups(problem, evidence, [groups for groups in shown.conflicts[:first] if tuple(groups) in has])


def reasons_in(shown, file, held, asked, first):
    """What take_evidence gives by the evidence that was asked for."""
    problem = Problem(io.BytesIO(held), file, asked.focus)
    with why.opened(asked.evidence) as source:
        return take_evidence(shown, problem, Evidence(source, asked.evidence, problem), first)


def number_behind(option, value):
    """The number of an option, of any length: no list has as many as one of 19 digits says."""
    if not (value.isascii() and value.isdecimal()):
        raise WrongWords(f"{option} {value}: a number has to stand here")
    digits = value.lstrip("0") or "0"
    return int(digits) if len(digits) <= 18 else MOST


class Words:
    """The words of the command line."""

    def __init__(self, words):
        self.files, self.form, self.first, self.evidence = [], None, None, None
        self.fails = self.graph = False
        words, self.focus = without_focus(words)
        while words:
            self.take(words.pop(0), words)
        if not 1 <= len(self.files) <= 2:
            raise WrongWords("a FILE has to be named, and a REPORT may be")
        if self.files[0] == "-" and self.files[1:] in ([], ["-"]):
            raise WrongWords("FILE and REPORT can't both come from standard input")
        if self.graph and self.form != "html":
            raise WrongWords("--graph is for the page: --html has to stand beside it")
        if self.form in ("json", "html") and self.first is not None:
            raise WrongWords(f"--first is for the text: --{self.form} has the whole report")

    def take(self, word, behind):
        option, has_value, value = word.partition("=")
        if word in ("--json", "--html", "--dot"):
            if self.form not in (None, word[2:]):
                raise WrongWords(f"--{self.form} and {word} don't go together")
            self.form = word[2:]
        elif word == "--graph":
            self.graph = True
        elif word == "--fail-on-conflict":
            self.fails = True
        elif option in ("--first", "--evidence", "--why"):
            if not has_value and not behind:
                raise WrongWords(f"{option} has nothing behind it")
            value = value if has_value else behind.pop(0)
            if option != "--first":
                self.evidence = value
            else:
                self.first = number_behind(option, value)
        elif word == "--":
            self.files += behind
            behind.clear()
        elif word.startswith("-") and word != "-":
            raise WrongWords(f"{word} is no option")
        else:
            self.files.append(word)


def main(words):
    asked = Words(words)
    file, held = asked.files[0], bytes_of(asked.files[0])
    report = decoded(bytes_of(asked.files[1] if asked.files[1:] else "-"))
    origin = origin_of(held, file, asked.focus)
    first = ON_A_TERMINAL if asked.first is None and is_for_a_person() else asked.first
    if roles_report.is_roles(report):
        for option, stands in (("--evidence", asked.evidence is not None), ("--dot", asked.form == "dot"), ("--graph", asked.graph)):
            if stands:
                raise Refused(f"{option}: a report of roles has no sets to tell of")
        shown = clashing = roles_report.Roles(origin, report)
        text = {"json": roles_report.as_json, "html": roles_report.as_html}.get(
            asked.form, lambda roles: roles_report.as_text(roles, first))(shown)
    else:
        shown = named(origin, report)
        clashing = shown.report
        reasons = None if asked.evidence is None else reasons_in(shown, file, held, asked, None if asked.form else first)
        if asked.form == "json":
            text = as_json(shown)
        elif asked.form == "dot":
            text = graph.dot_of(shown, asked.first)
        elif asked.form == "html":
            text = page.as_html(shown, reasons, graph.svg_of(graph.dot_of(shown)) if asked.graph else None)
        else:
            text = as_text(shown, first, reasons)
    put(text)
    return status_of("names.py", clashing) if asked.fails else DONE


def status_of(tool, report):
    """The status where a clash has to fail; what was written stays."""
    clashes = report.has_clash()
    if clashes is None:
        return told(f"{here(tool)}: whether something clashes is not known: {report.UNCLEAR}", REFUSED)
    return CLASH if clashes else DONE


def as_command():
    """Ends the process as the words of its command line ask."""
    run("names.py", main, __doc__)
