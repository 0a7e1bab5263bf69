#!/usr/bin/env python3
"""Collects the licences of what the program is linked from, as far as the toolchain's kit tells them.

    dev/licences.py FOLDER

FOLDER is made, and gets the texts, each under the name of the part that it is of, and a page that says of each part what is
known and what isn't. The kit is the folder of the page that `rt doc` names.
"""
import os
import re
import shutil
import subprocess

import places  # noqa: F401
from dev.crates import TOP, below_in, lowest_first, named_in, text_of
from gmus_tools.command import Refused, WrongWords, run

PROGRAM = "gmus"
LICENCE = re.compile(r"LICEN[CS]E.*|COPYING.*|COPYRIGHT.*|NOTICE.*|UNLICENSE.*")
# the crate of others that a library was written after, with its version and its licence
ORIGIN = re.compile(r"`?\w+`? \d+\.\d+\.\d+ \([^()]*(?:MIT|Apache|Unlicense)[^()]*\)")
HEAD = """# Licences

`gmus` itself is under MIT OR Apache-2.0, at your choice (`LICENSE-MIT`, `LICENSE-APACHE` one folder up). The program, in
`bin/`, also holds parts of the libraries of the toolchain's kit. What that kit tells of each:

| Part | Named by | What the kit tells | Texts here |
|---|---|---|---|
"""
TAIL = """
Not known: the kit has no text about the licence of the parts without one, nor of its runtime, nor of what lies beside its
linker, of which the program may hold parts ({objects}). The C library is not in the archive: the system's own is used.
"""


def kit_of(page):
    """The folder of the kit, by the page that `rt doc` names."""
    folder = os.path.dirname(page.strip())
    if not os.path.isdir(os.path.join(folder, "rlibs")):
        raise Refused(f"there is no kit beside {page.strip() or 'the page that rt doc names'}")
    return folder


def used_of(kit, crates):
    """The kit's libraries that the program stands on, each with who names it first."""
    found = {}
    named = named_in(crates)
    due = [(library, crate) for crate in lowest_first(below_in(crates), PROGRAM) for library in named[crate]
           if library not in named] + [("std", "every crate")]
    while due:
        library, by = due.pop(0)
        if library not in found:
            found[library] = by
            with open(os.path.join(kit, "rlibs", library + ".rlib", "format"), encoding="utf-8") as file:
                due += [(it, library) for it in re.findall(r"(?m)^dep (\w+)$", file.read())]
    return found


def words_of(folder):
    """What the page of a library says of its licence, or nothing."""
    try:
        with open(os.path.join(folder, "README.md"), encoding="utf-8") as file:
            found = ORIGIN.search(file.read())
    except FileNotFoundError:
        return ""
    return "after " + found.group(0) if found else ""


def collect(kit, folder):
    """Copies the texts, and gives the page."""
    rows = []
    for library, by in sorted(used_of(kit, text_of("crates.txt")).items()):
        source = os.path.join(kit, "rattle", library)
        texts = sorted(name for name in os.listdir(source) if LICENCE.fullmatch(name)) if os.path.isdir(source) else []
        for name in texts:
            shutil.copyfile(os.path.join(source, name), os.path.join(folder, f"{library}-{name}"))
        rows.append(f"| {library} | {by} | {words_of(source) or ('the texts alone' if texts else 'nothing')} | "
                    f"{', '.join(f'`{library}-{name}`' for name in texts) or 'none'} |\n")
    objects = sorted(os.listdir(os.path.join(kit, "toolchain", "lib"))) + sorted(os.listdir(os.path.join(kit, "c")))
    linked = ", ".join(f"`{name}`" for name in objects if name.endswith((".o", ".a")) and name != "asan.a")
    return HEAD + "".join(rows) + TAIL.format(objects=linked)


def main(words):
    if len(words) != 1:
        raise WrongWords("it takes one folder")
    try:
        page = subprocess.run(["rt", "doc"], cwd=TOP, stdout=subprocess.PIPE, check=True, universal_newlines=True).stdout
    except (OSError, subprocess.CalledProcessError) as error:
        raise Refused(f"the toolchain's command 'rt' tells no folder: {error}") from None
    os.makedirs(words[0], exist_ok=True)
    text = collect(kit_of(page), words[0])
    with open(os.path.join(words[0], "README.md"), "w", encoding="utf-8") as file:
        file.write(text)


if __name__ == "__main__":
    run("licences.py", main, __doc__)
