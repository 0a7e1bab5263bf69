#!/usr/bin/env python3
"""Says what the gate costs: the processor seconds of each crate's library, tests and wrong bodies, and the longest chain.

    dev/cost.py                runs the gate from nothing at the top of the repository, and prints the table
    dev/cost.py WORDS          runs `rt ci WORDS`, as dev/cost.py --anew propagate
    dev/cost.py --edits ..     also a line for each wrong body, the dearest first
    dev/cost.py --functions NAME ..
                                 proves these crates from nothing, on a copy, and prints what each function took, the dearest
                                 first

`rt ci` tells no times, so its processes are looked at ten times a second, and what each had used when it was last seen
is counted: some hundredths of each are missed, and less than a tenth of a second at its end. The last line says how much
of the whole was not seen. What `rt ci` says goes to standard error.

A piece is what the gate doesn't split: a crate's library, its tests with a second proof of the library, what the tries
of wrong bodies begin with (a third proof of it, the base), and each try. A library waits for those below it, tests for
the libraries below, and the tries for their crate's library and tests. Kits differ in how they try. One makes the base
first, and each try waits for it alone. Another tries a crate's wrong bodies in turn, each over the work of those before
it, and at the end the crate without any: there a base is what the first try takes above the others' median, and that end.
The longest chain is the one whose pieces take most, each as if it had one processor.

A check tells of each function as it ends with it, so at one job a function is what the check used since it told of the one
before. What the first one is told to take has the check's start in it. What a check does behind the last one is the last
line.
"""
import os
import re
import resource
import statistics
import subprocess
import sys
import tempfile
import time

import places  # noqa: F401
from dev.crates import TOP, below_in, copied, text_of
from gmus_tools.command import WrongWords, run

TICKS = os.sysconf("SC_CLK_TCK")
EVERY = 0.1
PROVED = re.compile(r"checked (\S.*), \d+ of \d+$")
REST = "(what is left behind the last one)"


def piece_of(words, folder):
    """The crate and the piece that a command of the gate works at, or None: its words, and the folder that it stands in.
    A try in turn is told by its folder, which is its own."""
    if "--crate-name" not in words[:-1]:
        return None
    crate = words[words.index("--crate-name") + 1]
    if "/rt-edit-" in folder:
        begun = words[words.index("--incremental") + 1] if "--incremental" in words[:-1] else ""
        last = os.path.basename(begun)
        if last == "seed":
            return crate, "base"
        if last.startswith("rt-edits-"):
            return crate, folder
        return crate, int(last) if last.isdigit() else "alone"
    return crate, "tests" if "--test" in words else "library"


def numbered(pieces):
    """The pieces, with the tries in turn by their number in place of their folder; `pieces` has them in the order in which
    they began; and whether there are any."""
    told, rooms = {}, {}
    for (crate, name), seconds in pieces.items():
        if isinstance(name, str) and "/rt-edit-" in name:
            rooms.setdefault(crate, []).append(seconds)
        else:
            told[crate, name] = seconds
    for crate, tries in rooms.items():
        edits = len(edit_names(crate))
        first, others, end = tries[0], tries[1:edits], tries[edits:]
        usual = min(first, statistics.median(others or tries))
        told[crate, "base"] = first - usual + sum(end)
        told.update({(crate, number): seconds for number, seconds in enumerate([usual, *others])})
    return told, bool(rooms)


class Watch:
    """What the processes below one process had used when they were last seen, by crate and piece."""

    def __init__(self, root):
        self.root = root
        self.known = {}
        self.used = {}

    def look(self):
        parents, times = {}, {}
        for name in os.listdir("/proc"):
            if name.isdigit():
                told = read(f"/proc/{name}/stat")
                if told:
                    fields = told.rpartition(")")[2].split()
                    parents[int(name)] = int(fields[1])
                    # The start tells two processes with one number apart.
                    times[int(name)] = (fields[19], (int(fields[11]) + int(fields[12])) / TICKS)
        for pid in parents:
            if self.is_below(pid, parents):
                start, seconds = times[pid]
                self.count(pid, start, seconds)

    def is_below(self, pid, parents):
        for _ in range(64):
            if pid == self.root:
                return True
            pid = parents.get(pid, 0)
            if pid <= 1:
                return False
        return False

    def count(self, pid, start, seconds):
        if (pid, start) not in self.known:
            piece = piece_at(pid)
            if piece is None:
                # Its parent may not have become the command yet.
                return
            self.known[pid, start] = piece
        self.used[pid, start] = seconds

    def pieces(self):
        """The seconds of each piece."""
        sums = {}
        for process, seconds in self.used.items():
            piece = self.known[process]
            sums[piece] = sums.get(piece, 0) + seconds
        return sums


def read(path):
    try:
        with open(path, encoding="utf-8", errors="replace") as file:
            return file.read()
    except OSError:
        return ""


def piece_at(pid):
    words = read(f"/proc/{pid}/cmdline").split("\0")
    try:
        return piece_of(words, os.readlink(f"/proc/{pid}/cwd"))
    except OSError:
        return None


def edit_names(crate):
    """The names of a crate's wrong bodies, in the order in which the gate numbers them."""
    folder = os.path.join(TOP, "crates", crate, "must-fail")
    names = os.listdir(folder) if os.path.isdir(folder) else []
    return sorted(name[:-len(".edit")] for name in names if name.endswith(".edit"))


def longest_chain(below, pieces, in_turn=False):
    """The pieces that wait for each other and take most together, the first one first, and their seconds."""
    chains = {}

    def library(crate):
        if crate not in chains:
            front = longest([library(it) for it in below[crate]])
            chains[crate] = grown(front, crate, "library")
        return chains[crate]

    def grown(chain, crate, *names):
        for name in names:
            seconds = pieces.get((crate, name), 0)
            if seconds:
                chain = (chain[0] + seconds, chain[1] + [(crate, name, seconds)])
        return chain

    ends = []
    for crate in below:
        tests = grown(longest([library(it) for it in below[crate]]), crate, "tests")
        tries = tries_of(crate, pieces)
        dearest = [name for _, name in tries[:len(tries) if in_turn else 1]]
        ends += [library(crate), tests, grown(longest([library(crate), tests]), crate, "base", *dearest)]
    return longest(ends)


def tries_of(crate, pieces):
    """What each try of a crate takes, the dearest first, and its name."""
    tries = [(seconds, name) for (of, name), seconds in pieces.items() if of == crate and name not in ("library", "tests", "base")]
    return sorted(tries, key=lambda it: -it[0])


def longest(chains):
    return max(chains, key=lambda it: it[0], default=(0, []))


def name_of(crate, piece):
    if isinstance(piece, int):
        names = edit_names(crate)
        return f"try {names[piece] if piece < len(names) else piece}"
    return {"alone": "try from nothing"}.get(piece, piece)


def table(below, pieces):
    """A line for each crate that was at work, the dearest first."""
    rows = []
    for crate in below:
        tries = [seconds for seconds, _ in tries_of(crate, pieces)]
        library, tests, base = (pieces.get((crate, name), 0) for name in ("library", "tests", "base"))
        if library + tests + base + sum(tries) == 0:
            continue
        rows.append((library + tests + base + sum(tries), crate, library, tests, base, len(tries), sum(tries), max(tries, default=0)))
    rows.sort(reverse=True)
    sums = [sum(row[at] for row in rows) for at in (0, 2, 3, 4, 5, 6)]
    lines = ["| Crate | Library | Tests | Base | Tries | Of them | Dearest | Together |", "|---|---|---|---|---|---|---|---|"]
    for whole, crate, library, tests, base, count, tried, dearest in rows:
        lines.append(f"| {crate} | {library:.0f} | {tests:.0f} | {base:.0f} | {count} | {tried:.0f} | {dearest:.0f} | {whole:.0f} |")
    whole, library, tests, base, count, tried = sums
    lines.append(f"| all | {library:.0f} | {tests:.0f} | {base:.0f} | {count} | {tried:.0f} | | {whole:.0f} |")
    return "\n".join(lines)


def said(below, begun, all_seconds, wall, with_edits):
    pieces, in_turn = numbered(begun)
    seconds, chain = longest_chain(below, pieces, in_turn)
    lines = [table(below, pieces), ""]
    lines.append(f"Longest chain: {seconds:.0f} s, " + ", ".join(f"{crate} {name_of(crate, it)} {took:.0f}" for crate, it, took in chain))
    (crate, piece), took = max(pieces.items(), key=lambda it: it[1], default=((None, ""), 0))
    lines.append(f"Longest piece: {took:.0f} s, {crate} {name_of(crate, piece)}")
    if with_edits:
        for (of, name), took in sorted(pieces.items(), key=lambda it: -it[1]):
            if name not in ("library", "tests", "base"):
                lines.append(f"{took:7.1f} {of}/{name_of(of, name)}")
    seen = sum(pieces.values())
    lines.append(f"Processor: {all_seconds / 60:.1f} minutes, of which {(all_seconds - seen) / 60:.1f} are no piece's "
                 f"or were not seen; {wall / 60:.1f} minutes passed, with {len(os.sched_getaffinity(0))} processors")
    return "\n".join(lines)


def from_nothing():
    """What has `rt ci` prove all from nothing: a kit that keeps what passed has a word for it."""
    told = subprocess.run(["rt", "help"], stdout=subprocess.PIPE, stderr=subprocess.STDOUT, universal_newlines=True, check=False)
    return ["--anew"] if "--anew" in told.stdout else []


def times_in(lines, used):
    """What each function took that these lines of a check tell of, by what was used when each came."""
    found, before = [], used()
    for line in lines:
        told = PROVED.search(line.rstrip())
        if told:
            now = used()
            found.append((now - before, told[1]))
            before = now
    return found + [(used() - before, REST)]


def times_of(crate, room):
    """The same, of a check of a crate in a copy. One that begins with what another check kept tells of what is new alone, so a
    comment makes the text another one than all that were checked."""
    folder = os.path.join(room, "crates", crate)
    os.makedirs(os.path.join(folder, "out", "incremental"))
    root = next(name for name in ("lib.rt", "main.rt") if os.path.isfile(os.path.join(folder, "src", name)))
    with open(os.path.join(folder, "src", root), "a", encoding="utf-8") as file:
        file.write(f"// timed at {time.time_ns()}\n")
    checked = subprocess.Popen(["rt", "check", "--jobs", "1"], cwd=folder, stdin=subprocess.DEVNULL, stdout=subprocess.PIPE,
                               stderr=sys.stderr, universal_newlines=True)
    watch = Watch(checked.pid)

    def used():
        watch.look()
        return watch.pieces().get((crate, "library"), 0)

    return times_in(checked.stdout, used), checked.wait()


def functions(names):
    """Prints what the functions of these crates took."""
    every, status = [], 0
    if not names or not set(names) <= set(below_in(text_of("crates.txt"))):
        raise WrongWords("--functions takes names of crates, as crates.txt has them")
    with tempfile.TemporaryDirectory(prefix="cost-") as room:
        copied(os.path.join(room, "repository"))
        for crate in names:
            times, ended = times_of(crate, os.path.join(room, "repository"))
            every += [(took, name if name.startswith(crate) else f"{crate} {name}") for took, name in times]
            status = status or ended
    for took, name in sorted(every, reverse=True):
        print(f"{took:7.1f} {name}")
    return status


def main(words):
    if words[:1] == ["--functions"]:
        return functions(words[1:])
    with_edits = "--edits" in words
    words = [word for word in words if word != "--edits"] or from_nothing()
    began = time.monotonic()
    gate = subprocess.Popen(["rt", "ci", *words], cwd=TOP, stdin=subprocess.DEVNULL, stdout=sys.stderr)
    watch = Watch(gate.pid)
    while gate.poll() is None:
        watch.look()
        time.sleep(EVERY)
    wall = time.monotonic() - began
    used = resource.getrusage(resource.RUSAGE_CHILDREN)
    below = below_in(text_of("crates.txt"))
    print(said(below, watch.pieces(), used.ru_utime + used.ru_stime, wall, with_edits))
    return gate.returncode


if __name__ == "__main__":
    run("cost.py", main, __doc__)
