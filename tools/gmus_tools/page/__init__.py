"""The page of a report: one file that needs no network and no library.

The report stands in it twice. Without scripts its plain lists are read. With scripts they are hidden, and page.js makes a
place to decide at of the data, which is a block of JSON: only as much of it as is looked at. If scripts are there and fail,
the plain lists come back.
"""
import collections
import html
import json
import os
import re

from gmus_tools.report import CONFLICTS, CORRECTIONS, LATER_LINES, configuration_line

HERE = os.path.dirname(os.path.abspath(__file__))
# A name that is longer is cut in the lists, since the table of rules has it whole; and shorter, if all sets together have so
# many rules that the lists have to be brief.
LONG, SHORT, MANY = 120, 40, 20000
# So many digits at most say what corrections leave.
MOST_DIGITS = 2 ** 24
SCRIPTS = ("page_choices.js", "page_address.js", "page_sets.js", "page.js")
BEGIN = """document.documentElement.className = "scripted";
onerror = function () { document.documentElement.className = ""; };"""


def part(name):
    """The style or the script, which are files of their own."""
    with open(os.path.join(HERE, name), encoding="utf-8") as source:
        return source.read()


def in_script(value):
    """JSON that may stand in a block of script, whatever its texts hold."""
    return re.sub("[<>&\u2028\u2029]", lambda char: f"\\u{ord(char.group()):04x}",
                  json.dumps(value, ensure_ascii=False, separators=(",", ":")))


def as_html(shown, reasons=None, drawing=None):
    """The page of a named report. `reasons` are those of conflicts, by the tuples of their groups: each a list of pairs of a
    rule's name, or None for the background, and lines. `drawing` is an SVG of the conflicts."""
    text = html.escape
    reasons = [(reasons or {}).get(tuple(members), []) for members in shown.conflicts]
    begin = [f"<script>{BEGIN}</script>"] if shown.has_choice() else []
    parts = [
        "<!DOCTYPE html>", '<html lang="en">', "<head>", '<meta charset="utf-8">',
        '<meta name="viewport" content="width=device-width, initial-scale=1">',
        f"<title>{text(shown.title)}</title>", f"<style>\n{part('page.css')}</style>", *begin, "</head>",
        "<body>", f"<h1>{text(shown.title)}</h1>", f"<p>{summary_part(shown)}</p>",
        *notes_parts(shown.origin), *(f"<p>{text(line)}</p>" for line in shown.kept_lines()),
        '<div id="plain">', *plain_parts(shown, reasons), "</div>",
    ]
    if shown.has_choice():
        parts += ['<main id="decide"></main>', '<div id="printed"></div>',
                  f'<script type="application/json" id="data">{in_script(data(shown, reasons))}</script>',
                  '<script>\n(function () {\n"use strict";', "".join(map(part, SCRIPTS)) + "})();\n</script>"]
    if drawing:
        parts += ['<h2>Which rules clash with which</h2>', "<p>Two rules are joined if some conflict has both, by a line with how many have.</p>",
                  f'<div class="graph" role="img" aria-label="rules, joined if a conflict has both">{drawing}</div>']
    return "".join(each + "\n" for each in [*parts, *made_of_parts(shown.origin), "</body>", "</html>"])


def summary_part(shown):
    """The summary, whose counts lead to the lists."""
    summary = html.escape(shown.summary())
    for what, heading in (("conflict", CONFLICTS[0]), ("correction", CORRECTIONS[0])):
        if any(heading == section[0] for section in shown.sections()):
            at = heading.lower()
            summary = re.sub(rf"[0-9]+ {what}s?", lambda found: f'<a href="#{at}" data-to="{at}">{found[0]}</a>', summary, count=1)
    return summary


def notes_parts(origin):
    """What is said of groups that are left out, and of lines that came to [always] later, if there are any."""
    if origin.left_out():
        yield f"<p>{html.escape(origin.left_out())}</p>"
    if origin.later:
        yield f"<p>{LATER_LINES}</p>\n<ul>"
        yield from (f"<li>{html.escape(line)}</li>" for line in origin.later_lines())
        yield "</ul>"


def made_of_parts(origin):
    """Of which file the page was made, as its last line."""
    if origin.made_of():
        yield f'<footer class="pale">{html.escape(origin.made_of())}</footer>'


def plain_parts(shown, reasons):
    """The table of rules and the lists of sets, as they are read without scripts."""
    text = html.escape
    if [] in shown.conflicts:
        yield plain_reasons(reasons[shown.conflicts.index([])])
    if shown.counts:
        yield "<h2>Rules</h2>"
        has_weights = bool(shown.origin.weights or shown.origin.kept)
        yield ('<table>\n<tr class="head"><th class="n">no.</th><th>rule</th><th class="n">conflicts</th>'
               '<th class="n">corrections</th>' + '<th class="n">weight</th>' * has_weights + "</tr>")
        for group, (conflicts, corrections) in shown.counts:
            yield (f'<tr id="g{group}"><td class="n">{group}</td><td>{text(shown.name(group))}</td>'
                   f'<td class="n">{conflicts}</td><td class="n">{corrections}</td>'
                   + f'<td class="n">{shown.weight_of(group)}</td>' * has_weights + "</tr>")
        yield "</table>"
    if shown.others_line():
        yield f"<p>{text(shown.others_line())}</p>"
    is_long = sum(map(sum, (counts for _, counts in shown.counts))) > MANY
    names, listed = short_lines(shown) if is_long else links(shown)
    if is_long and any(reasons):
        yield "<p>Why rules clash is shown here with scripts alone. tools/why.py writes it as a text.</p>"
    for heading, meaning, alone, sets in shown.sections():
        yield f'<h2 id="{heading.lower()}">{heading}</h2>\n<p>{text(meaning)}</p>\n<ol>'
        for at, members in enumerate(sets):
            told = alone.format(names[members[0]]) if len(members) == 1 else listed([names[group] for group in members])
            why = plain_reasons(reasons[at]) if sets is shown.conflicts and not is_long else ""
            weight = f" (weight {shown.origin.weight_of(members)})" if sets is shown.corrections and shown.origin.has_weights() else ""
            left = plain_left(shown.left_by(members)) if sets is shown.corrections and not is_long else ""
            yield f"<li>{told}{weight}{why}{left}</li>"
        yield "</ol>"
        if sets is shown.corrections and shown.unseen():
            yield f"<p>{text(shown.unseen())}</p>"


def links(shown):
    """The names as links to the table, and how a set is told: as a list of them."""
    names = {group: f'<a href="#g{group}">{html.escape(cut(shown.name(group)))}</a>{shown.mark(group)}' for group, _ in shown.counts}
    return names, lambda each: "<ul>" + "".join(f"<li>{name}</li>" for name in each) + "</ul>"


def short_lines(shown):
    """Short names, and how a set is told: in one line of them."""
    return {group: html.escape(cut(shown.name(group), SHORT)) + shown.mark(group) for group, _ in shown.counts}, "; ".join


def plain_reasons(reasons):
    if not reasons:
        return ""
    told = "".join(f"<dt>{html.escape(cut(rule or 'always'))}</dt>"
                   + "".join(f"<dd>{html.escape(line)}</dd>" for line in lines) for rule, lines in reasons)
    return f"<details><summary>Why</summary><dl>{told}</dl></details>"


def plain_left(names):
    """What a correction leaves, if that is known."""
    return "" if names is None else f'<div class="pale">{html.escape(configuration_line(names))}</div>'


def cut(name, length=LONG):
    return name if len(name) <= length else name[:length - 1] + "\u2026"


def data(shown, reasons):
    """What page.js reads. The lines of the reasons stand in a list of their own, each once."""
    lines = {}
    told = [[[rule, [lines.setdefault(line, len(lines)) for line in found]] for rule, found in each] for each in reasons]
    return {
        "complete": shown.report.is_complete,
        "rules": [group for group, _ in shown.counts],
        "names": [shown.name(group) for group, _ in shown.counts],
        "nth": nth_of(shown),
        "conflicts": shown.conflicts,
        "corrections": shown.corrections,
        "weights": [shown.origin.weight_of([group]) for group, _ in shown.counts] if shown.origin.has_weights() else None,
        "kept": [group for group, _ in shown.counts if group in shown.origin.kept],
        "others": shown.others_line(),
        "lines": list(lines),
        "reasons": told if any(told) else [],
        "left": left_data(shown),
        "unseen": shown.unseen(),
    }


def nth_of(shown):
    """Of each rule its place among the rules of the file that have its name, from 1, or 0 if no other has it."""
    involved, nth, counts = [group for group, _ in shown.counts], {}, collections.Counter()
    for group in sorted({*shown.origin.names, *involved}):
        counts[shown.name(group)] += 1
        nth[group] = counts[shown.name(group)]
    return [nth[group] if counts[shown.name(group)] > 1 else 0 for group in involved]


def left_data(shown):
    """What each correction leaves: the names that hold in some, and for each correction digits to the base 16, each of which has the
    bits of four names, the first one in its lowest. If they are too long, those of the first corrections alone."""
    if not shown.left or not shown.left.names:
        return None
    held = [shown.left.found.get(tuple(members)) for members in shown.corrections]
    places = {variable: at for at, variable in enumerate(sorted(set().union(*(each or [] for each in held))))}
    most = MOST_DIGITS // (len(places) // 4 + 1)
    return {"names": [shown.left.names[variable] for variable in places],
            "sets": [None if each is None else digits_of(places[variable] for variable in each) for each in held[:most]]}


def digits_of(places):
    return f"{sum(1 << at for at in places):x}"[::-1]
