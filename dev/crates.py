"""The crates of the repository, as crates.txt has them: their areas, and what each stands on."""
import os
import re
import shutil

from places import TOP


def text_of(name):
    with open(os.path.join(TOP, name), encoding="utf-8") as file:
        return file.read()


def named_in(text):
    """The crates of a crates.txt, each with the libraries that its line names, those of the toolchain among them."""
    lines = [line.partition("#")[0] for line in text.split("\n")]
    return {line.split(":")[0].split()[0]: line.split(":")[1].split() for line in lines if ":" in line}


def below_in(text):
    """The same, with the libraries of the repository alone."""
    named = named_in(text)
    return {crate: [it for it in libraries if it in named] for crate, libraries in named.items()}


def areas_in(text):
    """The areas, in order, each with its crates: a line '# == NAME' begins one."""
    areas = []
    for line in text.split("\n"):
        heading = re.fullmatch(r"# == (.*)", line)
        if heading:
            areas.append((heading.group(1), []))
        elif ":" in line.partition("#")[0] and areas:
            areas[-1][1].append(line.split(":")[0].split()[0])
    return areas


def lowest_first(below, top):
    """The crates that one stands on and itself, lowest first."""
    found = []

    def walk(crate):
        if crate not in found:
            for it in below[crate]:
                walk(it)
            found.append(crate)

    walk(top)
    return found


def above(below, crates):
    """These crates and all that stand on one of them, lowest first."""
    found = set(crates)
    for _ in below:
        found |= {crate for crate, libraries in below.items() if found & set(libraries)}
    every = [it for crate in below for it in lowest_first(below, crate)]
    return [crate for crate in dict.fromkeys(every) if crate in found]


def copied(to):
    """Copies what the toolchain reads of the repository to a new folder: no wrong bodies, and nothing that checks keep."""
    top = os.path.join(TOP, "crates")

    def left(at, _):
        return ["out", "must-fail"] if os.path.dirname(at) == top else []

    os.makedirs(to)
    shutil.copytree(top, os.path.join(to, "crates"), ignore=left)
    for name in ("crates.txt", "HANDLES"):
        shutil.copyfile(os.path.join(TOP, name), os.path.join(to, name))
