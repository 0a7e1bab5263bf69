"""Which names of a command line lead to one file, and which can't be opened: slow, plain, and independent of gmus.

`clash(command, given, streams)` is the name that is told where one file stands under two names, and what is said of it.
`unread(name)`, `unwritten(name)` and `unopened(name, locked)` are why an input, an output or a journal can't be opened, or None.
`lines(first, name, why)` are the two lines that tell it. All are from docs/FORMATS.md alone, and look at the files as they stand.
"""
import errno
import os
import stat

import places  # noqa: F401
from oracles import plain_reader

# What a name is read or written as, and what is said of another name that leads there. Of each command what stays, what may be
# written over, and what is written, in the order in which the names are looked at.
KEPT = {"list": ["file"], "check": ["file", "evidence"], "export": ["file", "evidence"], "roles": ["file"], "carry": ["file", "longer"], "drill": []}
RENEWED = {"list": ["resume"], "carry": ["known"]}
WRITTEN = {"list": ["journal", "evidence"], "export": ["cnf", "lrat"], "carry": ["evidence"]}
SAID = {"file": "is the input", "evidence": "is the evidence", "journal": "is the journal", "cnf": "is the CNF", "lrat": "is the LRAT",
        "longer": "is the new file", "out": "is standard output", "err": "is standard error"}


def lines(first, name, why):
    return f"gmus: {first}\n  {plain_reader.shown(name)}: {why}\n"


def of_system(number):
    return f"{os.strerror(number)} (os error {number})"


def leads(name):
    """Where a name leads, links followed: to a regular file, or to a place in a folder where none is yet; else None."""
    try:
        it = os.stat(name)
        return (it.st_dev, it.st_ino) if stat.S_ISREG(it.st_mode) else None
    except FileNotFoundError:
        folder, last = os.path.split(os.path.realpath(name))
        if os.path.basename(name) in ("", ".", "..") or not os.path.isdir(folder):
            return None
        it = os.stat(folder)
        return it.st_dev, it.st_ino, last
    except OSError:
        return None


def clash(command, given, streams):
    """The name that leads where another one does, and why that may not be; `streams` are the files of standard output and error."""
    taken = [(leads(name), SAID[what]) for what, name in streams.items() if name is not None]

    def found(names):
        return next(((given[name], why) for name in names if name in given for place, why in taken
                     if place is not None and place == leads(given[name])), None)

    told = found([*KEPT[command], *RENEWED.get(command, [])])
    said = {**SAID, "file": "is the old file"} if command == "carry" else SAID
    taken += [(leads(given[name]), said[name]) for name in KEPT[command]]
    for name in WRITTEN.get(command, []):
        if name in given:
            told = told or found([name])
            taken.append((leads(given[name]), said[name]))
    return told


def unread(name):
    try:
        with open(name, "rb") as file:
            file.read(1)
    except OSError as error:
        return of_system(error.errno)
    return None


def unwritten(name):
    try:
        os.close(os.open(name, os.O_WRONLY))
    except FileNotFoundError as error:
        return None if leads(name) else of_system(error.errno)
    except OSError as error:
        return of_system(error.errno)
    return None


def unopened(name, locked):
    """Why no run can open this journal, while another one has `locked` open."""
    try:
        it = os.stat(name)
    except FileNotFoundError as error:
        return None if leads(name) else of_system(error.errno)
    except OSError as error:
        return of_system(error.errno)
    if not stat.S_ISREG(it.st_mode):
        return of_system(errno.EISDIR) if stat.S_ISDIR(it.st_mode) else "is no regular file"
    if locked and os.path.samestat(it, os.stat(locked)):
        return "another run has it open"
    with open(name, "rb") as file:
        return "is no journal; if a crash left it so, remove it" if file.read(1) not in (b"", b"\0", b"\1") else None
