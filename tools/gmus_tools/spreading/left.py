"""What coordinators leave behind that were killed, and how a later one takes it away.

A coordinator has files beside its evidence E, as E.spread-PID.own, and folders, as gmus-spread-PID-abcdefgh: PID is the number
of its process. If no process has that number any more, nobody needs them.
"""
import contextlib
import os
import re
import shutil
import tempfile

from gmus_tools.command import remove

FOLDER = re.compile(r"gmus-spread-([0-9]{1,10})-[a-z0-9_]+")
# Beside evidence stands what is written anew, what the program writes in its turns, and, if it was killed as it wrote, what it had
# of that. What another run kept it from writing stays.
NEW, OWN, FOUND = "new", "own", "found"


def folder_in(place):
    """A new folder in `place`, or where temporary ones stand if that is None."""
    return tempfile.mkdtemp(prefix=f"gmus-spread-{os.getpid()}-", dir=place)


def beside(evidence, what):
    """The name of a file of this process beside its evidence."""
    return f"{evidence}.spread-{os.getpid()}.{what}"


def is_left(process):
    """Whether no process has this number, so that what it made is left over."""
    try:
        os.kill(int(process), 0)
    except ProcessLookupError:
        return True
    except (OSError, OverflowError):
        pass
    return False


def names_in(folder):
    """The names in a folder that can be read."""
    try:
        return os.listdir(folder)
    except OSError:
        return []


def take_away_folders(place):
    """Takes away the folders in a place of coordinators that are gone."""
    place = place or tempfile.gettempdir()
    for name in names_in(place):
        made = FOLDER.fullmatch(name)
        if made and is_left(made[1]):
            shutil.rmtree(os.path.join(place, name), ignore_errors=True)


def take_away_files(evidence):
    """Takes away the files beside this evidence of coordinators that are gone."""
    folder, name = os.path.split(evidence)
    written = rf"{re.escape(name)}\.spread-([0-9]{{1,10}})\."
    made = re.compile(rf"{written}(?:{NEW}|{OWN})|\.{written}{OWN}\.gmus-[0-9]{{1,10}}")
    for each in names_in(folder):
        found = made.fullmatch(each)
        if found and is_left(found[1] or found[2]):
            # what can't be taken away is in nobody's way
            with contextlib.suppress(OSError):
                remove(os.path.join(folder, each))
