"""A report of roles, the names that its file gives to groups, and what both say in words: which rules are in every conflict,
in some, or in none."""
import html
import json
import re

from gmus_tools.command import Refused
from gmus_tools.page import cut, made_of_parts, notes_parts, part
from gmus_tools.report import number_of

HEAD = "p roles "
LINE = re.compile(r"r ([1-9][0-9]{0,17}) (every|some|none)")
VERSION = 1
# Of each role: its heading, and what it means.
SECTIONS = (
    ("every", "In every conflict", "Giving up any one of these alone mends all."),
    ("some", "In some conflicts", "Each of these is part of a clash, and no one of them alone mends all."),
    ("none", "In no conflict", "No clash needs any of these."),
)


def is_roles(text):
    """Whether a report is one of roles."""
    return text.startswith(HEAD)


class Roles:
    """The groups of each role, ascending, with the names of the file."""

    UNCLEAR = "no rule is in a conflict, and the background may clash with itself"

    def __init__(self, origin, report_text):
        self.origin = origin
        self.title = f"Which rules clash in {origin.name}"
        self.groups = {role: [] for role, _, _ in SECTIONS}
        origin.want_header()
        lines = report_text.split("\n")
        found = re.fullmatch(r"p roles (0|[1-9][0-9]{0,17})", lines[0])
        if not found or lines[-1] or len(lines) != int(found.group(1)) + 2:
            raise Refused("the report can't be read: it is cut off, or is no report")
        origin.want_groups(int(found.group(1)))
        for group, line in enumerate(lines[1:-1], 1):
            found = LINE.fullmatch(line)
            if not found or int(found.group(1)) != group:
                raise Refused(f"the report can't be read: line {group + 1} is not of group {group}")
            if origin.is_asked(group):
                self.groups[found.group(2)].append(group)
            elif found.group(2) != "none":
                raise Refused(f"the report can't be read: group {group} is in a conflict, and --focus leaves that group out")
        if len(self.groups["some"]) == 1:
            raise Refused("the report can't be read: one rule alone is in some conflicts; no file has such a report")

    def name(self, group):
        return self.origin.name_of(group)

    def has_clash(self):
        """Whether something clashes, or None if the report does not tell: the background may clash with itself."""
        return True if self.groups["every"] or self.groups["some"] else None

    def summary(self):
        counts = {role: number_of(len(groups), "rule", "rules") for role, groups in self.groups.items()}
        if not self.has_clash():
            return ("No rule is in a conflict: all rules fit together, unless the background clashes with itself.")
        return f"{counts['every']} in every conflict, {counts['some']} in some, {counts['none']} in none."

    def sections(self):
        """The lists that have a rule, each behind its heading and what it means."""
        return [(heading, meaning, self.groups[role]) for role, heading, meaning in SECTIONS if self.groups[role]]


def as_text(roles, first=None):
    """The roles as a text; of each list the first ones alone, if so many are asked for."""
    lines = [roles.title, "=" * len(roles.title), "", roles.summary()]
    lines += ["", roles.origin.left_out()] if roles.origin.left_out() else []
    lines += roles.origin.later_text()
    for heading, meaning, groups in roles.sections():
        lines += ["", heading, "-" * len(heading), "", meaning, ""]
        lines += [f"{group:5}  {roles.name(group)}" for group in groups[:first]]
        if first is not None and len(groups) > first:
            left = number_of(len(groups) - first, "more is", "more are")
            lines += ["", f"{left} left: --first {len(groups)} has all of them."]
    lines += ["", roles.origin.made_of()] if roles.origin.made_of() else []
    return "".join(line + "\n" for line in lines)


def as_json(roles):
    """The roles as JSON, a list of groups a line."""
    origin = roles.origin
    head = {"version": VERSION, "file": origin.name, "sha256": origin.digest, "focus": origin.asked(), "groups": origin.groups,
            "names": {str(group): name for group, name in sorted(origin.names.items())}, **roles.groups}
    return "{\n" + ",\n".join(f'"{key}": {json.dumps(value, ensure_ascii=False)}' for key, value in head.items()) + "\n}\n"


def as_html(roles):
    """The roles as a page that stands by itself."""
    text = html.escape
    lines = ["<!DOCTYPE html>", '<html lang="en">', "<head>", '<meta charset="utf-8">',
             '<meta name="viewport" content="width=device-width, initial-scale=1">',
             f"<title>{text(roles.title)}</title>", f"<style>\n{part('page.css')}</style>", "</head>",
             "<body>", f"<h1>{text(roles.title)}</h1>", f"<p>{text(roles.summary())}</p>",
             *notes_parts(roles.origin)]
    for heading, meaning, groups in roles.sections():
        lines += [f"<h2>{heading}</h2>", f"<p>{text(meaning)}</p>", "<table>",
                  '<tr class="head"><th class="n">no.</th><th>rule</th></tr>']
        lines += [f'<tr><td class="n">{group}</td><td>{text(cut(roles.name(group)))}</td></tr>' for group in groups]
        lines.append("</table>")
    return "".join(line + "\n" for line in [*lines, *made_of_parts(roles.origin), "</body>", "</html>"])
