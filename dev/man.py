#!/usr/bin/env python3
"""Writes the man page, whose tables and commands are those of README.md and docs/FORMATS.md.

    dev/man.py > docs/gmus.1

To read it: man -l docs/gmus.1. A test compares what is written with the page that is stored.
"""
import re

import places  # noqa: F401
from dev.crates import text_of
from gmus_tools.command import WrongWords, run

SEE = ("README.md says what a status of 0 promises, docs/TUTORIAL.md is a first hour, docs/FORMATS.md has the file, the report,"
       " the evidence and each refusal, and docs/REPORTING.md what to send with a fault.")
EXAMPLES = (
    ("From rules to what clashes, why, and what to give up:", ("tools/clash.py my.rules",)),
    ("Step by step, with names:", ("tools/gcnf.py my.rules -o my.gcnf", "gmus list my.gcnf | tools/names.py my.gcnf")),
    ("A first part of a long list, which a second call goes on from:", (
        "gmus list my.gcnf --limit 100 --evidence my.evidence > part.report",
        "gmus list my.gcnf --resume my.evidence --evidence my.evidence > my.report")),
    ("Is what somebody else found right?", ("gmus check my.gcnf my.evidence",)),
)


def chapter(text, heading):
    """What stands below a heading of the second order, up to the next one."""
    return text.partition(f"\n## {heading}\n")[2].partition("\n## ")[0]


def table(text, first):
    """The rows of the table whose first cell of the head is `first`, each as its cells, without the head."""
    lines = text.partition(f"\n| {first} |")[2].split("\n")[2:]
    rows = []
    for line in lines:
        if not line.startswith("| "):
            return rows
        rows.append([cell.strip() for cell in line.strip("|").split(" | ")])
    return rows


def synopsis(readme):
    """The commands with their words, a line each."""
    return chapter(readme, "Options and statuses").partition("```text\n")[2].partition("\n```")[0].split("\n")


def versions(changes):
    """The versions of the change log with their days, the newest first."""
    return re.findall(r"(?m)^## ([0-9]+\.[0-9]+\.[0-9]+), ([0-9-]+)$", changes)


def roff(text):
    """A paragraph or a cell in the language of man pages: code is bold, and a link is its text."""
    text = re.sub(r"\[([^\]]*)\]\([^)]*\)", r"\1", text).replace("**", "").replace("\\", r"\e")
    parts = text.split("`")
    parts[1::2] = [r"\fB" + part.replace("-", r"\-") + r"\fR" for part in parts[1::2]]
    text = "".join(parts)
    return r"\&" + text if text[:1] in (".", "'") else text


def definitions(pairs):
    return [line for term, text in pairs for line in (".TP", roff(term), roff(text))]


def items(text):
    """The items of a text's lists, each as a paragraph, and those below another one behind a dot."""
    return [line for blanks, item in re.findall(r"(?m)^( *)- (.*)$", text) for line in (r".IP \(bu 2" if blanks else ".PP", roff(item))]


def options(readme):
    for option, says, values in table(readme, "Option"):
        which, _, default = values.rstrip(")").partition(" (")
        yield option, f"{says[0].upper()}{says[1:]}: {which}. Without it: {default}."


def statuses(readme):
    for status, means, line, in_ci in table(readme, "Status"):
        said = "" if line == "none" else f" Standard error: {line.replace('`', '`gmus: ', 1)}."
        yield status, f"{means[0].upper()}{means[1:]}.{said} In CI: {in_ci}."


def page():
    """The man page."""
    readme, formats = text_of("README.md"), text_of("docs/FORMATS.md")
    version, day = versions(text_of("CHANGELOG.md"))[0]
    about = readme.split("\n\n")[1]
    commands = chapter(formats, "The command line")
    lines = [f'.TH GMUS 1 {day} "gmus {version}" "User Commands"',
             r'.\" made by dev/man.py from README.md and docs/FORMATS.md',
             ".SH NAME", r"gmus \- all minimal conflicts and minimal corrections of constraints in groups",
             ".SH SYNOPSIS", ".nf", *(roff(f"`{line}`") for line in synopsis(readme)), ".fi",
             ".SH DESCRIPTION", roff(about)]
    described, _, rest = commands.partition("\n\n[README.md]")
    lines += [*items(described), ".SH OPTIONS", *definitions(options(readme)),
              ".PP", roff(rest.partition("\n")[0].partition(". ")[2]), *items(rest),
              ".SH EXIT STATUS", *definitions(statuses(readme)), ".SH EXAMPLES"]
    for says, words in EXAMPLES:
        lines += [".PP", says, ".PP", ".nf", ".RS", *(roff(f"`{line}`") for line in words), ".RE", ".fi"]
    lines += [".SH SEE ALSO", SEE, ".SH COPYRIGHT", roff(readme.rpartition("Licence: ")[2].partition(" ([")[0]) + ".",
              "Copyright the gmus authors."]
    return "".join(line + "\n" for line in lines)


def main(words):
    if words:
        raise WrongWords("it takes no words")
    print(page(), end="")


if __name__ == "__main__":
    run("man.py", main, __doc__)
