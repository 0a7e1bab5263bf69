#!/usr/bin/env python3
"""Writes docs/DEFINITIONS.md, from the words that stand above each definition in specs/.

    dev/definitions.py > docs/DEFINITIONS.md

What stands there are the public definitions: those that a contract which another crate can call cites, or one that such a
contract leads to. A test compares what is written with the page that is stored.
"""
import functools
import os
import re

import places  # noqa: F401
from dev import shown
from dev.crates import TOP, areas_in, below_in, lowest_first, text_of
from gmus_tools.command import WrongWords, run

HEAD = """# Definitions

What a reader of the promises has to believe: each public definition in the words that stand above it, by area, crate and module. The first lines of a module say where it comes from. `dev/definitions.py` makes this page of `specs/`, and a test compares both.

A definition is public if a contract cites it that another crate can call, or another public definition does. Those that serve inside a crate alone stay out, and so do worked examples. The headline rests on few of them, which [PROVED.md](PROVED.md#how-to-believe-the-headline) has in reading order.
"""
# What the program calls over the system, which no crate stands on.
TOP_CALLS = {"gmus": {"run_on_system"}}
DEFINED = re.compile(r"(?:(?:abbrev|unfoldable|opaque) pub|pub (?:record|data)) ([^\s:({]+)(?= *[:({])")


def exported(crate):
    """The names that a crate hands out: those of its `pub use` lines, and the functions of its public modules."""
    if not os.path.exists(os.path.join(TOP, "crates", crate, "src", "lib.rt")):
        return TOP_CALLS.get(crate, set())
    library = text_of(f"crates/{crate}/src/lib.rt")
    names = {name for used in re.findall(r"(?m)^pub use ([^;]*);", library) for name in re.findall(r"\w+", used)}
    modules = set(re.findall(r"(?m)^pub mod (\w+);", library))
    for name, text in shown.texts_in(crate, "src", ".rt"):
        if name.split(os.sep)[0] in modules:
            names.update(re.findall(r"pub fn (\w+)", text))
    return names


def cited_through(crate, below):
    """The definitions to which the contracts lead that a crate hands out, as Rattle.CRATE.specs.MODULE.NAME."""
    names = exported(crate)
    words = names | {shown.UNKNOWN}
    for item in shown.shown_by(crate):
        if len(item.needs) == 2 and item.needs & names:
            words |= item.needs
    items = [item for it in lowest_first(below, crate) for item in shown.shown_by(it)]
    return {need for item in shown.reached(words, items) for need in item.needs if need.startswith("Rattle.")}


@functools.lru_cache(maxsize=None)
def public():
    below = below_in(text_of("crates.txt"))
    return {name for crate in below for name in cited_through(crate, below)}


def words_given():
    """The words for definitions that have none, by crate, module and name."""
    lines = [line for line in text_of("dev/definitions.txt").split("\n") if line and not line.startswith("#")]
    return {tuple(line.partition(": ")[0].split()): line.partition(": ")[2] for line in lines}


def comments_of(lines):
    """The text of lines of comment, without lines that only part a file."""
    return " ".join(" ".join(line[2:].strip() for line in lines if not re.match(r"-- ?--", line)).split())


def definitions_in(text):
    """The first lines of a module, and its definitions in order, each with the words above it, or none."""
    lines = text.split("\n")
    begun = next(at for at, line in enumerate(lines + [""]) if not line.startswith("--"))
    found, above = [], []
    for at, line in enumerate(lines[begun:], begun):
        if line.startswith("--"):
            above = above + [line] if lines[at - 1].startswith("--") else [line]
        else:
            defined = DEFINED.match(line)
            if defined:
                found.append((defined[1], comments_of(above)))
            above = []
    return comments_of(lines[:begun]), found


def rows_of(crate, module, definitions):
    """The rows of a module: names that share words, and these words."""
    given, rows = words_given(), []
    for name, words in definitions:
        own = words or given.get((crate, module, name))
        if f"Rattle.{crate}.specs.{module}.{name}" not in public():
            # Words that it shares with later ones are theirs too.
            if words:
                rows.append(([], words))
        elif own or not rows:
            rows.append(([name], own or ""))
        else:
            rows[-1][0].append(name)
    return [row for row in rows if row[0]]


def lacking():
    """The public definitions without words of any kind."""
    return [f"{crate}/specs/{module}.antt {names[0]}" for _, crates in areas_in(text_of("crates.txt")) for crate in crates
            for module, _, rows in modules_of(crate) for names, words in rows if not words]


def modules_of(crate):
    """The modules of a crate that have public definitions: the name, the first lines, the rows."""
    if not os.path.exists(os.path.join(TOP, "crates", crate, "specs", "Lib.antt")):
        return []
    found = []
    for module in re.findall(r"(?m)^pub mod (\w+)$", text_of(f"crates/{crate}/specs/Lib.antt")):
        head, definitions = definitions_in(text_of(f"crates/{crate}/specs/{module}.antt"))
        found.append((module, head, rows_of(crate, module, definitions)))
    return [it for it in found if it[2]]


def cell(words):
    """Words as a cell of a table."""
    return words.replace("|", "\\|")


def page():
    """The page of definitions."""
    lines = [HEAD]
    for area, crates in areas_in(text_of("crates.txt")):
        lines += [f"## {area[0].upper()}{area[1:]}", ""]
        for crate in crates:
            modules = modules_of(crate)
            if modules:
                lines += [f"### {crate}", ""]
            for module, head, rows in modules:
                lines += [f"`{crate}/specs/{module}.antt`: {head}", "", "| Name | In words |", "|---|---|"]
                lines += [f"| {', '.join(f'`{name}`' for name in names)} | {cell(words)} |" for names, words in rows] + [""]
    return "\n".join(lines).rstrip("\n") + "\n"


def main(words):
    if words:
        raise WrongWords("it takes no words")
    print(page(), end="")


if __name__ == "__main__":
    run("definitions.py", main, __doc__)
