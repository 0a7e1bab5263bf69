#!/usr/bin/env python3
"""What a change of some crates breaks, in minutes: for the day, and no part of the gate.

    dev/quick.py             what differs from the last commit
    dev/quick.py BASE        what differs from the commit BASE

The crates that differ are laid out by `rt fmt` and proved, and so are the crates above them, lowest first, over what
earlier checks kept; but for those that were proved over just what they would read now, as all above a changed body are
(read_of.py). Beside that the programs of trials that stand on a crate that differs play their scripts unproved, as many at
a time as there are processors and memory; tests are run unproved, and the tools are tested. What was said goes to quick.log
at the top of the repository. At the end it says what it left out: `rt ci` alone is the gate.
"""
import os
import re
import subprocess
import sys
import time
from concurrent.futures import ThreadPoolExecutor

import places  # noqa: F401
from dev.build import lanes, processors
from dev.crates import TOP, above, areas_in, below_in, lowest_first, text_of
from dev.read_of import is_proved, note_proved, own_of
from gmus_tools.command import WrongWords, run

PARTS = ("src", "specs", "proofs")
# The test that fails where wrong bodies are to be tried, which is no fault of what was changed.
STAMPS = "test_stamps_are_of_the_tree"


def git(*words):
    return subprocess.run(["git", *words], cwd=TOP, stdout=subprocess.PIPE, universal_newlines=True, check=True).stdout


def changed_files(base):
    """The files that differ from a commit, those among them that git doesn't know yet."""
    named = git("diff", "--name-only", "-z", base) + git("ls-files", "--others", "--exclude-standard", "-z")
    return [name for name in named.split("\0") if name]


def changed_crates(files, below, parts=PARTS):
    """The crates of which one of these parts differs."""
    found = [name.split("/")[1] for name in files if name.startswith("crates/") and name.split("/")[2] in parts]
    return [crate for crate in below if crate in found]


def is_program(crate):
    return os.path.isfile(os.path.join(TOP, "crates", crate, "src", "main.rt"))


def has_tests(crate):
    folder = os.path.join(TOP, "crates", crate, "src")
    for at, _, names in os.walk(folder):
        for name in names:
            with open(os.path.join(at, name), encoding="utf-8") as file:
                if "#[test]" in file.read():
                    return True
    return False


def prove(crates, below, log):
    """Proves these crates, lowest first, each over what earlier checks kept. Gives those that are proved now, those that were
    proved over just what they would read, and those that failed. One that stands on a failed one is left."""
    proved, kept, failed = [], [], []
    for crate in crates:
        if not set(failed).isdisjoint(lowest_first(below, crate)):
            continue
        if is_proved(crate, below):
            kept.append(crate)
            continue
        own = own_of(crate)
        status, printed, said = said_of(crate, ["rt", "check" if is_program(crate) else "lib"])
        log.write(f"== {crate}\n{printed.decode(errors='replace')}{said}")
        log.flush()
        (failed if status else proved).append(crate)
        if not status:
            note_proved(crate, below, own)
    return proved, kept, failed


def said_of(crate, words):
    """How a command in a crate's folder ended, what it wrote to standard output, and what to standard error."""
    ended = subprocess.run(words, cwd=os.path.join(TOP, "crates", crate), stdin=subprocess.DEVNULL,
                           stdout=subprocess.PIPE, stderr=subprocess.PIPE, check=False)
    return ended.returncode, ended.stdout, ended.stderr.decode(errors="replace")


def play(crate):
    """Plays the scripts of a program of trials unproved. Gives what is wrong, if anything, and what was said."""
    with open(os.path.join(TOP, "crates", crate, "args"), encoding="utf-8") as file:
        args = file.read().split()
    given = [word for name in args for word in ("--data", f"{name}=data/{name}")]
    status, printed, said = said_of(crate, ["rt", "try", "--seconds", "300", *given, "--", *args])
    with open(os.path.join(TOP, "crates", crate, "stdout"), "rb") as file:
        wanted = file.read()
    is_well = status == 0 and printed == wanted
    return "" if is_well else f"{crate} prints something else", f"{said}{crate}: played, status {status}\n"


def try_tests(crate):
    """Runs a crate's tests unproved, likewise."""
    status, printed, said = said_of(crate, ["rt", "try", "--test"])
    return "" if status == 0 else f"a test of {crate} fails", printed.decode(errors="replace") + said


def failing_in(said):
    """The tests that did not pass, by what their runner said."""
    return set(re.findall(r"(?m)^(?:FAIL|ERROR): (\w+)", said))


def main(words):
    if len(words) > 1 or words and words[0].startswith("-"):
        raise WrongWords("one commit may be named, and no more")
    began = time.monotonic()
    below = below_in(text_of("crates.txt"))
    trials = dict(areas_in(text_of("crates.txt")))["trials"]
    files = changed_files(*(words or ["HEAD"]))
    changed = changed_crates(files, below)
    moved = above(below, changed)
    wanted = [crate for crate in moved if crate in changed or crate not in trials]
    scripts = changed_crates(files, below, ("data", "stdout", "args"))
    played = [crate for crate in trials if is_program(crate) and crate in moved + scripts]
    tested = [crate for crate in moved if has_tests(crate)]
    bad = []
    with open(os.path.join(TOP, "quick.log"), "w", encoding="utf-8") as log:
        for crate in changed:
            if said_of(crate, ["rt", "fmt"])[0]:
                bad.append(f"{crate} can't be laid out")
        with ThreadPoolExecutor(lanes(processors())) as pool:
            # One check at a time: it keeps the folders of all crates below. What is tried needs no folder.
            proofs = pool.submit(prove, wanted, below, log)
            ended = [*pool.map(play, played), *pool.map(try_tests, tested)]
            proved, kept, failed = proofs.result()
        log.write("".join(said for _, said in ended))
        log.flush()
        bad += [f"{crate} is not proved" for crate in failed] + [it for it, _ in ended if it]
        tools = subprocess.run([sys.executable, os.path.join("dev", "run_tests.py")], cwd=TOP, stdout=subprocess.PIPE,
                               stderr=subprocess.STDOUT, universal_newlines=True, check=False)
        log.write(tools.stdout)
        failing = failing_in(tools.stdout)
        if tools.returncode and failing != {STAMPS}:
            bad.append("a test of the tools fails")
    minutes = (time.monotonic() - began) / 60
    told = [f"quick: {it}" for it in bad + ["see quick.log"] * bool(bad)] + said(proved, kept, played, tested, moved, minutes)
    if STAMPS in failing:
        told.append("quick: wrong bodies are to be tried by dev/wrong.py; quick.log says of which crates, and how long that takes")
    print("\n".join(told))
    return 1 if bad else 0


def said(proved, kept, played, tested, moved, minutes):
    """What was done, and what was left out."""
    left = [crate for crate in moved if crate not in proved + kept]
    lines = [
        f"quick: {minutes:.1f} minutes; proved {' '.join(proved) or 'nothing'}; played {' '.join(played) or 'nothing'}; "
        f"tested {' '.join(tested) or 'nothing'}",
        f"quick: left out: wrong bodies; proofs of tests; proofs of {' '.join(left) or 'no trials'}; the program and the "
        "trials as two compilers build them; examples/check.sh. `rt ci` is the gate.",
    ]
    if kept:
        lines.insert(1, f"quick: proved before, over just what they would read now: {' '.join(kept)}")
    return lines


if __name__ == "__main__":
    run("quick.py", main, __doc__)
