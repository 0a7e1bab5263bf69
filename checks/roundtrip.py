#!/usr/bin/env python3
"""Lists small random problems with evidence, whole and partly, by one worker and by more, and has the program check what
it wrote and export its conflicts.

    checks/roundtrip.py PROGRAM [COUNT]

Each of COUNT problems (200) is listed whole, up to a limit of records, and within a budget of conflicts. The report of
`check` has to be that of `list`, byte for byte, and each whole report that of one worker. Each conflict of a whole list is
exported, as exports.py does it. Prints how many listings ended with each status; ends with 1 where two reports differ, an
export is another one, or one kind of listing did not come at all.
"""
import collections
import os
import random
import subprocess
import sys
import tempfile

import places  # noqa: F401
from checks import exports

SEED = 20261127
JOBS = 2, 3, 7, 64


def problem(draw):
    """A problem of a few variables, clauses and groups, group 0 among them, with repeated literals and empty clauses."""
    variables, groups, count = draw.randint(1, 5), draw.randint(0, 6), draw.randint(0, 14)
    lines = [f"p gcnf {variables} {count} {groups}"]
    for _ in range(count):
        group = draw.randint(0 if draw.random() < 0.2 else min(1, groups), groups)
        size = 0 if draw.random() < 0.03 else draw.randint(1, 3)
        literals = [draw.choice([1, -1]) * draw.randint(1, variables) for _ in range(size)]
        lines.append(" ".join([f"{{{group}}}", *map(str, literals), "0"]))
    return "\n".join(lines) + "\n"


def run(program, *words):
    ran = subprocess.run([program, *words], stdin=subprocess.DEVNULL, stdout=subprocess.PIPE, stderr=subprocess.PIPE)
    return ran.returncode, ran.stdout


def main():
    program = os.path.abspath(sys.argv[1])
    count = int(sys.argv[2]) if len(sys.argv) > 2 else 200
    draw = random.Random(SEED)
    statuses, failed = collections.Counter(), False
    with tempfile.TemporaryDirectory() as folder:
        file, evidence = os.path.join(folder, "f"), os.path.join(folder, "e")
        for number in range(count):
            with open(file, "w") as out:
                out.write(problem(draw))
            whole = run(program, "list", file)
            ways = [[], ["--limit", str(draw.randint(1, 4))], ["--conflicts", str(draw.randint(0, 1))]]
            ways.append(["--jobs", str(JOBS[number % len(JOBS)])])
            ways.append([*ways[1], "--jobs", "2"])
            for options in ways:
                status, report = run(program, "list", file, "--evidence", evidence, *options)
                checked = run(program, "check", file, evidence)
                statuses[status] += 1
                if status not in (0, 3, 4) or checked != (0, report) or (status == 0 and (status, report) != whole):
                    print(f"differs problem {number} {' '.join(options)}: list ends with {status}, check with {checked[0]}")
                    failed = True
                what = None if options else exports.first_fault(program, file, evidence, report.decode(), folder)
                if what:
                    print(f"differs problem {number}: export: {what}")
                    failed = True
    print(", ".join(f"{statuses[status]} with status {status}" for status in sorted(statuses)))
    return 1 if failed or any(status not in statuses for status in (0, 3, 4)) else 0


sys.exit(main())
