"""What a crate's check reads, and whether it was proved over just that.

A check of a crate reads its own sources, and of the libraries below what they show: their public items with contracts,
their definitions and lemmas. It reads no body of theirs. So where a body changed, and nothing that is shown, what stands
above is as proved as before. The sums of what was read stand in crates/NAME/out/read.json.
"""
import functools
import hashlib
import json
import os
import subprocess

import places  # noqa: F401
from dev.crates import TOP, lowest_first, named_in, text_of

OWN = ("src", "specs", "proofs")
SHOWN = ("interface", "lang")
# It has the sum of all of the library, its bodies too.
NOT_SHOWN = "made.json"


def sum_of(folder, parts):
    """The sum of the files below these parts of a folder, with their names."""
    found = hashlib.sha256()
    for part in parts:
        for at, folders, names in os.walk(os.path.join(folder, part)):
            folders.sort()
            for name in sorted(names):
                path = os.path.join(at, name)
                if name != NOT_SHOWN:
                    with open(path, "rb") as file:
                        held = file.read()
                    found.update(f"{os.path.relpath(path, folder)}\n{len(held)}\n".encode())
                    found.update(held)
    return found.hexdigest()


def folder_of(crate):
    return os.path.join(TOP, "crates", crate)


def own_of(crate):
    """The sum of a crate's own sources."""
    return sum_of(folder_of(crate), OWN)


@functools.lru_cache(maxsize=None)
def kit():
    """The toolchain, as it names itself."""
    return subprocess.run(["rt", "version"], stdout=subprocess.PIPE, universal_newlines=True, check=False).stdout.strip()


def read_by(crate, below):
    """The sums of what a check of the crate would read now; that of a library which was not built is None."""
    reads = {"kit": kit(), "libraries": named_in(text_of("crates.txt"))[crate], crate: own_of(crate)}
    for it in lowest_first(below, crate)[:-1]:
        built = os.path.join(folder_of(it), "out", "rlib", f"{it}.rlib")
        reads[it] = sum_of(built, SHOWN) if os.path.isdir(built) else None
    return reads


def is_proved(crate, below):
    """Whether the crate was proved over what a check would read now."""
    try:
        with open(note_of(crate), encoding="utf-8") as file:
            return json.load(file) == read_by(crate, below)
    except (OSError, ValueError):
        return False


def note_proved(crate, below, own):
    """Notes that the crate was proved just now. `own` is the sum of its sources before that: if it is another one, they
    changed meanwhile, and nothing is noted."""
    reads = read_by(crate, below)
    if reads[crate] == own:
        os.makedirs(os.path.dirname(note_of(crate)), exist_ok=True)
        with open(note_of(crate), "w", encoding="utf-8") as file:
            json.dump(reads, file, indent=1)


def note_of(crate):
    return os.path.join(folder_of(crate), "out", "read.json")
