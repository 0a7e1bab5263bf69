"""Many files of rules: a page for each with an index of all, and a file for a CI.

The index has a line for each file: whether it clashes, how many conflicts there are, the smallest correction, and how many seconds
that took. The file for a CI is in the form of JUnit: each file of rules is a test, which fails if something clashes, and has an
error if it was refused or if that isn't known.
"""
import collections
import html
import os
import re
import tempfile
import urllib.parse

from gmus_tools import page
from gmus_tools.clash_answer import answered
from gmus_tools.command import DONE, REFUSED, Refused, put, refuse_places, told, write_whole
from gmus_tools.commands import names
from gmus_tools.report import number_of

CLASHES, FITS, UNKNOWN, WRONG = "clashes", "fits", "not known", "refused"
INDEX = "index.html"
# of the smallest correction so many rules are named
NAMED = 5
NO_XML = re.compile("[^\t\n\r\u0020-\ud7ff\ue000-\ufffd\U00010000-\U0010ffff]")

# What one file came to: how it ends, a line that says it, the text of it, the page and its name, and how long it took.
Result = collections.namedtuple("Result", "source state line text page name conflicts smallest seconds")


def run_many(asked):
    """Answers each file, writes what was asked for, and gives the status."""
    places = page_names(asked.files)
    if asked.pages is not None:
        os.makedirs(asked.pages, exist_ok=True)
    refuse_places(asked.files, written_in(asked, places))
    results = []
    for source, name in zip(asked.files, places):
        result = result_of(source, name, asked)
        put(f"{result.source}: {result.line}\n")
        if asked.pages is not None and result.page is not None:
            write_whole(os.path.join(asked.pages, name), result.page.encode("utf-8", "replace"))
        results.append(result._replace(page=None))
    if asked.pages is not None:
        write_whole(os.path.join(asked.pages, INDEX), index_of(results).encode("utf-8", "replace"))
    if asked.junit is not None:
        write_whole(asked.junit, junit_of(results).encode("utf-8", "replace"))
    return status_of(results, asked.fails)


def written_in(asked, places):
    """The names of all files that are to be written."""
    pages = [] if asked.pages is None else [os.path.join(asked.pages, name) for name in [INDEX, *places]]
    return pages + ([] if asked.junit is None else [asked.junit])


def page_names(sources):
    """The name of each file's page: its own last part, with a number if another one has that."""
    taken, found = {INDEX}, []
    for source in sources:
        base = os.path.basename(source)
        name, number = f"{base}.html", 1
        while name in taken:
            number += 1
            name = f"{base}-{number}.html"
        taken.add(name)
        found.append(name)
    return found


def result_of(source, name, asked):
    """What a file comes to."""
    with tempfile.TemporaryDirectory(prefix="gmus-") as folder:
        try:
            answer = answered(source, folder, asked.is_strict, asked.seconds, asked.jobs, None if asked.pages is not None else asked.first)
        except (Refused, OSError, RecursionError) as why:
            line = refusal_of(why, source)
            told(f"clash.py: {line}", REFUSED)
            return Result(source, WRONG, line, line, None, name, None, "", 0.0)
    shown = answer.shown
    clashes = shown.report.has_clash()
    state = UNKNOWN if clashes is None else CLASHES if clashes else FITS
    made = page.as_html(shown, answer.reasons) if asked.pages is not None else None
    return Result(source, state, f"{state}. {shown.summary()}", names.as_text(shown, asked.first, answer.reasons), made, name,
                  len(shown.conflicts), smallest_in(shown), answer.seconds)


def refusal_of(why, source):
    """What is told of a file that has no answer."""
    if isinstance(why, RecursionError):
        return f"{source}: what was given is too deep"
    return f"{why.filename}: {why.strerror}" if isinstance(why, OSError) else str(why)


def smallest_in(shown):
    """The first correction in words, or nothing if there is none."""
    best = shown.corrections[0] if shown.corrections else []
    more = f" and {len(best) - NAMED} more" if len(best) > NAMED else ""
    weight = f" (weight {shown.origin.weight_of(best)})" if best and shown.origin.has_weights() else ""
    so_far = " so far" if best and not shown.report.is_complete else ""
    return f"{number_of(len(best), 'rule', 'rules')}{so_far}: " * bool(best) + "; ".join(map(shown.name, best[:NAMED])) + more + weight


def status_of(results, fails):
    """The status, if a clash has to fail or not. What was refused was told."""
    states = [result.state for result in results]
    if WRONG in states or fails and UNKNOWN in states:
        return REFUSED
    return names.CLASH if fails and CLASHES in states else DONE


def index_of(results):
    """The index, as a page by itself."""
    text = html.escape
    counts = collections.Counter(result.state for result in results)
    summary = ", ".join(f"{counts[state]} {state}" for state in (CLASHES, FITS, UNKNOWN, WRONG) if counts[state])
    lines = ["<!DOCTYPE html>", '<html lang="en">', "<head>", '<meta charset="utf-8">',
             '<meta name="viewport" content="width=device-width, initial-scale=1">', "<title>Which rules clash</title>",
             f"<style>\n{page.part('page.css')}</style>", "</head>", "<body>", "<h1>Which rules clash</h1>",
             f"<p>{number_of(len(results), 'file', 'files')}: {summary}.</p>", '<div class="wide">', "<table>",
             '<tr class="head"><th>file</th><th>status</th><th class="n">conflicts</th><th>smallest correction</th><th class="n">seconds</th></tr>']
    lines += map(row_of, results)
    return "".join(line + "\n" for line in [*lines, "</table>", "</div>", "</body>", "</html>"])


def row_of(result):
    """The line of one file in the index."""
    file, what = html.escape(result.source), html.escape(result.line if result.state == WRONG else result.smallest)
    if result.state != WRONG:
        file = f'<a href="./{html.escape(urllib.parse.quote(result.name))}">{file}</a>'
    return (f'<tr><td>{file}</td><td>{result.state}</td><td class="n">{"" if result.conflicts is None else result.conflicts}</td>'
            f'<td>{what}</td><td class="n">{result.seconds:.1f}</td></tr>')


def junit_of(results):
    """The results as a CI reads those of tests."""
    counts = collections.Counter(result.state for result in results)
    errors = counts[UNKNOWN] + counts[WRONG]
    head = (f'tests="{len(results)}" failures="{counts[CLASHES]}" errors="{errors}" time="{sum(it.seconds for it in results):.3f}"')
    lines = ['<?xml version="1.0" encoding="UTF-8"?>', f'<testsuites name="clash.py" {head}>', f'<testsuite name="clash.py" skipped="0" {head}>']
    for it in results:
        case = f'<testcase classname="rules" name="{in_xml(it.source)}" time="{it.seconds:.3f}"'
        tag = {CLASHES: "failure", FITS: None}.get(it.state, "error")
        inside = f'>\n<{tag} type="{it.state}" message="{in_xml(it.line)}">{in_xml(it.text)}</{tag}>\n</testcase>' if tag else "/>"
        lines.append(case + inside)
    return "".join(line + "\n" for line in [*lines, "</testsuite>", "</testsuites>"])


def in_xml(text):
    """A text for XML, which has no control characters but for ends of lines."""
    return html.escape(NO_XML.sub("\ufffd", text))
