"""A drawing of the conflicts: rules as nodes, with an edge between two that some conflict shares.

It is written in the language of Graphviz, which draws it. An edge is the thicker, and stands the nearer, the more conflicts share
its two rules; how many they are stands beside it. A rule that is a conflict by itself has a double frame. Of many rules those in
most conflicts are drawn.
"""
import collections
import itertools
import subprocess
import textwrap

from gmus_tools.command import Refused

DRAWN, LONG, WIDE = 40, 120, 24
THICK = 8
PROGRAM, SECONDS = "dot", 120


def edges_of(conflicts, drawn):
    """In how many conflicts each two of these rules are."""
    counts = collections.Counter()
    for groups in conflicts:
        counts.update(itertools.combinations([group for group in groups if group in drawn], 2))
    return counts


def dot_of(shown, first=None):
    """The drawing of a named report; of the first rules, if so many are asked for."""
    in_conflicts = [(group, counts[0]) for group, counts in shown.counts if counts[0]]
    drawn = dict(in_conflicts[:DRAWN if first is None else first])
    alone = {groups[0] for groups in shown.conflicts if len(groups) == 1}
    lines = ["graph conflicts {", "  layout=neato; overlap=false; splines=true;", "  node [shape=box, fontname=\"sans-serif\"];",
             "  edge [fontname=\"sans-serif\", fontsize=10];"]
    left = len(in_conflicts) - len(drawn)
    if left:
        lines.append(f"  label={quoted(f'{len(drawn)} of {len(in_conflicts)} rules, those in most conflicts')};")
    for group, count in drawn.items():
        frame = ", peripheries=2" if group in alone else ""
        lines.append(f"  g{group} [label={label_of(shown.name(group))}, tooltip={quoted(f'in {count} of {len(shown.conflicts)} conflicts')}{frame}];")
    edges = edges_of(shown.conflicts, drawn)
    most = max(edges.values(), default=1)
    for (one, other), count in sorted(edges.items()):
        lines.append(f"  g{one} -- g{other} [label={count}, penwidth={1 + (THICK - 1) * (count - 1) / max(1, most - 1):.2f}, weight={count}];")
    return "".join(line + "\n" for line in [*lines, "}"])


def label_of(name):
    """A name as a label, in short lines."""
    short = name if len(name) <= LONG else name[:LONG - 1] + "\u2026"
    return quoted("\n".join(textwrap.wrap(short, WIDE) or [short]))


def quoted(text):
    """A text as Graphviz has it, which reads '&lt;' as '<'."""
    return '"' + text.replace("&", "&amp;").replace("\\", "\\\\").replace('"', '\\"').replace("\n", "\\n") + '"'


def svg_of(dot):
    """The drawing as SVG that can stand in a page."""
    try:
        ended = subprocess.run([PROGRAM, "-Tsvg"], input=dot.encode("utf-8", "replace"), stdout=subprocess.PIPE, stderr=subprocess.PIPE,
                               timeout=SECONDS, check=False)
    except FileNotFoundError:
        raise Refused(f"--graph: the program {PROGRAM!r} is not there, which draws it: Debian has it as graphviz") from None
    except subprocess.TimeoutExpired:
        raise Refused(f"--graph: {PROGRAM} did not end in {SECONDS} seconds") from None
    drawing = ended.stdout.decode("utf-8", "replace")
    if ended.returncode or "<svg" not in drawing:
        said = ended.stderr.decode("utf-8", "replace").strip().partition("\n")[0]
        raise Refused(f"--graph: {PROGRAM} ended with {ended.returncode}: {said}")
    return drawing[drawing.index("<svg"):].strip()
