#!/usr/bin/env python3
"""Tries the wrong bodies that the gate leaves out, those in wrong/NAME/, and stamps each crate all of whose were refused.

    dev/wrong.py             of the crates whose stamp is not of the tree as it is
    dev/wrong.py NAME ..     of these crates
    dev/wrong.py --ci ..     the same by `rt ci`, which takes what the gate tried of the same sources, as long as a
                               wrong body stood there, and else proves all from nothing

They are tried on a copy of the crates by `rt must-fail`, which begins with what checks on this machine kept. Each is told
with what refused it. One counts whose value was refused: not for a name that it takes away, and not by a limit of the prover
alone. The stamp, wrong/NAME/stamp, says when that was, by which toolchain, how many there were and how many seconds of
processor they took. It has the sums of what it holds for: the crate's own sources, definitions and proofs, its wrong bodies
in wrong/NAME/, and what the crates below show of themselves, as far as the crate can come to it (shown.py).
"""
import datetime
import hashlib
import os
import re
import subprocess
import sys
import tempfile
import time

import places  # noqa: F401
from dev.cost import EVERY, Watch
from dev.crates import TOP, below_in, copied, lowest_first, text_of
from dev.read_of import kit, own_of
from dev.shown import shown_below
from gmus_tools.command import REFUSED, WrongWords, run

WRONG = os.path.join(TOP, "wrong")
STAMP = "stamp"
# What a stamp holds for, and how that is told.
SUMS = {"own": "the crate's own sources, definitions and proofs", "edits": "its wrong bodies", "below": "what the crates below show"}
# What is taken for the seconds where none were noted: of the base, and of each try.
BASE, TRY = 60, 12
VERDICT = re.compile(r"(?m)^(?:rt: )?must-fail (\w+)/([\w.-]+)\.edit: (.*)$")
AS_IT_MUST_BE = re.compile(r"refused, as it must be(?: \(([^)]*)\))?(?:: (.+))?$")


# == what stands in wrong/

def crates_with():
    """The crates that have wrong bodies there."""
    return sorted(name for name in os.listdir(WRONG) if edits_of(name)) if os.path.isdir(WRONG) else []


def edits_of(crate):
    """The names of a crate's wrong bodies there, without their ending."""
    folder = os.path.join(WRONG, crate)
    names = os.listdir(folder) if os.path.isdir(folder) else []
    return sorted(name[:-len(".edit")] for name in names if name.endswith(".edit"))


def text_of_edit(crate, name):
    with open(os.path.join(WRONG, crate, name + ".edit"), "rb") as file:
        return file.read()


def sums_of(crate, below):
    """The sums of what a stamp of the crate would hold for now."""
    edits = hashlib.sha256()
    for name in edits_of(crate):
        held = text_of_edit(crate, name)
        edits.update(f"{name}\n{len(held)}\n".encode() + held)
    return {"own": own_of(crate), "edits": edits.hexdigest(), "below": shown_below(crate, below)}


def stamp_of(crate):
    """What a crate's stamp says, by its words; nothing where there is none."""
    path = os.path.join(WRONG, crate, STAMP)
    if not os.path.isfile(path):
        return {}
    with open(path, encoding="utf-8") as file:
        return dict(line.rstrip("\n").split(" ", 1) for line in file if " " in line)


def stamped(crate, sums, seconds):
    """Writes a crate's stamp. What its tries took is left out where that is not known."""
    told = {"date": datetime.date.today().isoformat(), "kit": kit(), "refused": len(edits_of(crate))}
    if seconds is not None:
        told["seconds"] = seconds
    with open(os.path.join(WRONG, crate, STAMP), "w", encoding="utf-8") as file:
        file.write("".join(f"{word} {said}\n" for word, said in {**told, **sums}.items()))


def differing(crate, below):
    """What differs of that which a crate's stamp holds for; all of it where there is no stamp."""
    stamp, sums = stamp_of(crate), sums_of(crate, below)
    return [word for word in SUMS if stamp.get(word) != sums[word]]


def seconds_of(crate):
    """What the tries of a crate take, in seconds of processor: as its stamp says, or else by their number."""
    noted = stamp_of(crate).get("seconds", "")
    return int(noted) if noted.isdigit() else BASE + TRY * len(edits_of(crate))


def due(crate, below):
    """That a crate's wrong bodies are to be tried, why, and how long that takes; nothing where its stamp is of the tree as it
    is."""
    differs = differing(crate, below)
    if not differs:
        return ""
    changed = " and ".join(SUMS[word] for word in differs)
    why = f"/{STAMP} is not of the tree as it is ({changed})" if stamp_of(crate) else f" has no {STAMP}"
    return (f"wrong/{crate}{why}: call dev/wrong.py {crate}, which takes some {seconds_of(crate)} seconds of processor "
            f"(wrong bodies: {len(edits_of(crate))})")


# == the tries

def verdicts_in(said, crate):
    """What the toolchain said of each wrong body of a crate: whether its value was refused, and by what, or what else came."""
    found = {}
    for of, name, rest in VERDICT.findall(said):
        if of == crate:
            refused = AS_IT_MUST_BE.match(rest)
            by, what = refused.groups() if refused else (None, None)
            found[name] = (bool(what) and by is None, what if what and by is None else rest)
    return found


def is_found(said, crate):
    """Whether some of the wrong bodies were tried before, and not now."""
    return re.search(rf"(?m)^(?:rt: )?{crate}: \d+ of its \d+ must-fail edits were tried", said) is not None


def tried(words, folder, crate):
    """Runs a command that tries a crate's wrong bodies. Gives what was said, and the seconds of processor that they took."""
    with tempfile.TemporaryFile("w+", encoding="utf-8", errors="replace") as said:
        running = subprocess.Popen(words, cwd=folder, stdin=subprocess.DEVNULL, stdout=said, stderr=sys.stderr)
        watch = Watch(running.pid)
        while running.poll() is None:
            watch.look()
            time.sleep(EVERY)
        said.seek(0)
        seconds = sum(took for (of, piece), took in watch.pieces().items() if of == crate and piece not in ("library", "tests"))
        return said.read(), seconds


def try_crate(crate, sums, room, by):
    """Tries a crate's wrong bodies in a copy, and stamps it with these sums if all were refused. Gives those that were not."""
    folder = os.path.join(room, "crates", crate, "must-fail")
    os.makedirs(folder)
    for name in edits_of(crate):
        with open(os.path.join(folder, name + ".edit"), "wb") as file:
            file.write(text_of_edit(crate, name))
    said, seconds = tried(["rt", by, crate], room, crate)
    found, left = verdicts_in(said, crate), []
    for name in edits_of(crate):
        is_refused, what = found.get(name, (False, "nothing was said of it"))
        print(f"{crate}/{name}: {'refused' if is_refused else 'NOT REFUSED BY VALUE'}: {what}", flush=True)
        left += [] if is_refused else [f"{crate}/{name}"]
    if not found:
        print(said, file=sys.stderr)
    if not left:
        stamped(crate, sums, stamp_of(crate).get("seconds") if is_found(said, crate) else round(seconds))
    return left


def main(words):
    by = "ci" if "--ci" in words else "must-fail"
    names = [word for word in words if word != "--ci"]
    for name in names:
        if name not in crates_with():
            raise WrongWords(f"'{name}' has no wrong bodies in wrong/")
    below = below_in(text_of("crates.txt"))
    wanted = names or [crate for crate in crates_with() if differing(crate, below)]
    wanted = sorted(wanted, key=lambda crate: len(lowest_first(below, crate)))
    sums = {crate: sums_of(crate, below) for crate in wanted}
    left = []
    with tempfile.TemporaryDirectory(prefix="wrong-") as room:
        copied(os.path.join(room, "repository"))
        for crate in wanted:
            left += try_crate(crate, sums[crate], os.path.join(room, "repository"), by)
    print(f"wrong: crates tried: {len(wanted)}; not refused by value: {' '.join(left) or 'none'}")
    return REFUSED if left else 0


if __name__ == "__main__":
    run("wrong.py", main, __doc__)
