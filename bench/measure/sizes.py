#!/usr/bin/env python3
"""Runs the program at the limits of its formats, and on outputs and inputs that are none, with the peak of its memory.

    bench/measure/sizes.py --gmus PROGRAM [--only WORD] [--evidence-limit]

Each limit is reached exactly and passed by one, in both forms of a file; then a header that promises what does not come, a
report of 16,384 groups, a reader that leaves, a folder, a file that may not be read, and a name that is not UTF-8. Each row
has its status, the end of what is told, the seconds, and the peak of the resident memory; some 15 MB of that are this
program's own. --evidence-limit adds texts of evidence of 2,147,483,648 bytes and one more, for which some gigabytes of memory
and of the disk are needed. Ends with 1 where a row ends otherwise. Needs Python 3.9 and Linux; run as root, it drops to
nobody for the file that may not be read.
"""
import argparse
import os
import subprocess
import sys
import tempfile
import time

UNKNOWN, REFUSED = object(), "gmus: input refused: "


class Run:
    """A run of the program: its status, output and error, its seconds, and its peak in megabytes."""

    def __init__(self, command, stdout=None, preexec_fn=None):
        begun = time.monotonic()
        with tempfile.TemporaryFile() as out, tempfile.TemporaryFile() as err:
            child = subprocess.Popen(command, stdout=stdout or out, stderr=err, preexec_fn=preexec_fn)
            _, state, usage = os.wait4(child.pid, 0)
            child.returncode = os.waitstatus_to_exitcode(state)
            out.seek(0)
            err.seek(0)
            self.out, self.err = out.read(), err.read().decode("utf-8", "replace")
        self.status, self.seconds, self.peak = child.returncode, time.monotonic() - begun, usage.ru_maxrss // 1024


def put(folder, name, *parts):
    """Each part is a text, or a text with how often it stands there. It is never whole in memory, which would count as a run's."""
    path = os.path.join(folder, name)
    with open(path, "wb") as out:
        for part in parts:
            text, times = part if isinstance(part, tuple) else (part, 1)
            for _ in range(times):
                out.write(text)
    return path


def padded(folder, name, length, head=b"p gcnf 0 0 0\nc"):
    """A file of so many bytes: the rest of it is one comment."""
    rest = length - len(head)
    return put(folder, name, head, (b"x" * 1024, rest // 1024), b"x" * (rest % 1024))


def clauses(folder, name, count):
    """A million clauses with a literal. The others are empty and of group 1, since otherwise there would be too many bytes."""
    return put(folder, name, b"p gcnf 1 %d 1\n" % count, (b"{0} 1 0\n", 1000000), (b"{1} 0\n", count - 1000000))


def full(folder, name):
    """As many groups, clauses and bytes as there may be: a clause of each group says that the variable holds, the others are
    empty and of group 1, and the rest of the bytes is a comment."""
    groups, count, length = 1048576, 16777216, 134217728
    path = put(folder, name, b"p gcnf 1 %d %d\n" % (count, groups))
    with open(path, "ab") as out:
        for group in range(1, groups + 1):
            out.write(b"{%d} 1 0\n" % group)
        for _ in range(count - groups):
            out.write(b"{1} 0\n")
        out.write(b"c")
        for _ in range(length - out.tell()):
            out.write(b"x")
    return path


def literals(folder, name, count, header=b"p gcnf 4194304 1000 0\n", group=b"{0} "):
    """So many literals in a thousand clauses, of which the last may be longer."""
    each = count // 1000
    return put(folder, name, header, (group + b"1 " * each + b"0\n", 999), group + b"1 " * (count - 999 * each) + b"0\n")


def cnf_literals(folder, name, count):
    return literals(folder, name, count, b"p cnf 4194304 1000\n", b"")


def alone(folder, name, groups):
    """Each group clashes with the background alone, so it is a conflict, and all together are the one correction."""
    return put(folder, name, b"p gcnf 1 %d %d\n{0} -1 0\n" % (groups + 1, groups), b"".join(b"{%d} 1 0\n" % g for g in range(1, groups + 1)))


def alone_report(groups):
    sets = "".join(f"u {g} 0\n" for g in range(1, groups + 1)) + "m " + "".join(f"{g} " for g in range(1, groups + 1)) + "0\n"
    return f"p gmus {groups}\ns COMPLETE\n{sets}e {groups} 1\n".encode()


def one_report(groups=1):
    return f"p gmus {groups}\ns COMPLETE\nu 1 0\nm 1 0\ne 1 1\n".encode()


def empty_report(groups):
    return f"p gmus {groups}\ns COMPLETE\nm 0\ne 0 1\n".encode()


def as_nobody():
    if os.getuid() == 0:
        os.setgid(65534)
        os.setuid(65534)


def limit_rows(folder):
    """What is tried, the words behind `list`, the status, the output, and the error."""
    yield "4,194,304 variables", put(folder, "v", b"p gcnf 4194304 0 0"), 0, empty_report(0), ""
    yield "4,194,305 variables", put(folder, "v", b"p gcnf 4194305 0 0"), 5, b"", REFUSED + "9 TooLarge vars at line 1 byte 8\n"
    yield "4,194,304 variables in CNF", put(folder, "v", b"p cnf 4194304 0"), 0, empty_report(0), ""
    yield "4,194,305 variables in CNF", put(folder, "v", b"p cnf 4194305 0"), 5, b"", REFUSED + "9 TooLarge vars at line 1 byte 7\n"
    yield "1,048,576 groups", put(folder, "g", b"p gcnf 4194304 0 1048576"), 0, empty_report(1048576), ""
    yield "1,048,577 groups", put(folder, "g", b"p gcnf 0 0 1048577"), 5, b"", REFUSED + "9 TooLarge groups at line 1 byte 12\n"
    yield "1,048,576 clauses in CNF", put(folder, "d", b"p cnf 4194304 1048576\n", (b"1 0\n", 1048576)), 0, empty_report(1048576), ""
    yield "1,048,577 clauses in CNF", put(folder, "d", b"p cnf 1 1048577"), 5, b"", REFUSED + "9 TooLarge groups at line 1 byte 9\n"
    yield "16,777,217 clauses in CNF", put(folder, "d", b"p cnf 1 16777217"), 5, b"", REFUSED + "9 TooLarge clauses at line 1 byte 9\n"
    yield "16,777,216 clauses", clauses(folder, "c", 16777216), 0, one_report(), ""
    yield "all groups, clauses and bytes", full(folder, "f"), 0, one_report(1048576), ""
    yield "16,777,217 clauses", clauses(folder, "c", 16777217), 5, b"", REFUSED + "9 TooLarge clauses at line 1 byte 10\n"
    yield "8,000,000 literals", literals(folder, "l", 8000000), 0, empty_report(0), ""
    yield "8,000,001 literals", literals(folder, "l", 8000001), 5, b"", REFUSED + "9 TooLarge literals at line 1001 byte 16005\n"
    yield "8,000,000 literals in CNF", cnf_literals(folder, "l", 8000000), 0, empty_report(1000), ""
    yield "8,000,001 literals in CNF", cnf_literals(folder, "l", 8000001), 5, b"", REFUSED + "9 TooLarge literals at line 1001 byte 16001\n"
    yield "134,217,728 bytes", padded(folder, "b", 134217728), 0, empty_report(0), ""
    yield "134,217,729 bytes", padded(folder, "b", 134217729), 5, b"", REFUSED + "9 TooLarge bytes at line 0 byte 0\n"
    yield "134,217,728 bytes in CNF", padded(folder, "b", 134217728, b"p cnf 0 0\nc"), 0, empty_report(0), ""
    yield "134,217,729 bytes in CNF", padded(folder, "b", 134217729, b"p cnf 0 0\nc"), 5, b"", REFUSED + "9 TooLarge bytes at line 0 byte 0\n"
    yield "all clauses promised", put(folder, "p", b"p gcnf 4194304 16777216 1048576"), 5, b"", REFUSED + "7 Truncated at line 1 byte 32\n"
    yield "a report of 16,384 groups", alone(folder, "r", 16384), 0, alone_report(16384), ""
    none = os.path.join(folder, "none")
    yield "no file", none, 6, b"", f"gmus: read fault on input\n  {none}: No such file or directory (os error 2)\n"
    yield "a folder", folder, 6, b"", f"gmus: read fault on input\n  {folder}: Is a directory (os error 21)\n"
    yield "a name that is not UTF-8", os.fsencode(put(folder, "n", b"p gcnf 0 0 0")) + b"\xff", 2, b"", "gmus: bad command line\n  word 2: has to be UTF-8\n"


def evidence_rows(folder):
    """Texts of evidence at the limit of bytes: zeros are no head, but the length is told first."""
    for length, told in ((2 ** 31, "line 1: 3 Truncated"), (2 ** 31 + 1, "line 0: 6 TooLong")):
        path = os.path.join(folder, "e")
        with open(path, "wb") as out:
            out.truncate(length)
        yield f"{length:,} bytes of evidence", path, f"gmus: evidence refused: {told}\n"


class Table:
    """Prints a row for each run, and counts those that ended otherwise."""

    def __init__(self, only):
        self.only, self.wrong = only, 0
        print("| What | Status | Told | Seconds | Peak MB |\n|---|---|---|---|---|")

    def wants(self, what):
        return self.only in what

    def row(self, what, run, status, out, err):
        right = run.status == status and (out is UNKNOWN or run.out == out) and run.err == err
        told = run.err.strip() or run.out[-12:].decode().replace("\n", " ").strip()
        print(f"| {what} | {run.status} | {told} | {run.seconds:.2f} | {run.peak} |" + ("" if right else " WRONG |"), flush=True)
        self.wrong += not right


def leaving_reader(gmus, path):
    """A reader of the report that leaves before the first byte."""
    reading, writing = os.pipe()
    os.close(reading)
    try:
        return Run([gmus, "list", path], stdout=writing)
    finally:
        os.close(writing)


def main():
    words = argparse.ArgumentParser(description=__doc__, formatter_class=argparse.RawDescriptionHelpFormatter)
    words.add_argument("--gmus", required=True)
    words.add_argument("--only", default="", help="the rows whose name has this word in it")
    words.add_argument("--evidence-limit", action="store_true")
    given = words.parse_args()
    gmus, table = os.path.abspath(given.gmus), Table(given.only)
    with tempfile.TemporaryDirectory() as folder:
        os.chmod(folder, 0o755)
        for what, path, status, out, err in limit_rows(folder):
            if table.wants(what):
                table.row(what, Run([gmus, "list", path]), status, out, err)
        small = put(folder, "s", b"p gcnf 0 0 0")
        if table.wants("a reader that leaves"):
            table.row("a reader that leaves", leaving_reader(gmus, small), 7, UNKNOWN,
                      "gmus: write fault on report\n  standard output: Broken pipe (os error 32)\n")
        if table.wants("a full disk"):
            with open("/dev/full", "wb") as full:
                table.row("a full disk", Run([gmus, "list", small], stdout=full), 7, UNKNOWN,
                          "gmus: write fault on report\n  standard output: No space left on device (os error 28)\n")
        if table.wants("a file that may not be read"):
            os.chmod(small, 0)
            table.row("a file that may not be read", Run([gmus, "list", small], preexec_fn=as_nobody), 6, b"",
                      f"gmus: read fault on input\n  {small}: Permission denied (os error 13)\n")
            os.chmod(small, 0o644)
        for what, path, err in evidence_rows(folder) if given.evidence_limit else ():
            table.row(what, Run([gmus, "check", small, path]), 9, b"", err)
    sys.exit(1 if table.wrong else 0)


if __name__ == "__main__":
    main()
