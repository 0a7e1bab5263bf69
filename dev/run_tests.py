#!/usr/bin/env python3
"""Runs the tests of the tools, as many of their classes at a time as there are processors.

    dev/run_tests.py [NAME..]     all files test_*.py, or those of these names, as rules or test_rules.py

Small files are taken whole. Those that mostly wait come first, and one more at a time than there are processors. What a part that
fails said comes once it has ended, and at the end what was skipped, and how long it took. The Python that calls this is `python3`
for all of them. The status is 1 if a test fails. `python3 -m unittest discover -s tools/tests` runs the same tests one after the other.
"""
import os
import re
import subprocess
import sys
import time
from concurrent.futures import ThreadPoolExecutor, as_completed

from places import TOP
from gmus_tools.command import DONE, REFUSED, Refused, WrongWords, run

TESTS = os.path.join(TOP, "tools", "tests")
# Of a file with fewer bytes than these the classes are not run side by side: to begin them would take longer.
SMALL = 8_000
WAITING = {"test_spread_run.py", "test_spread_task.py", "test_watch.py", "test_launcher.py", "test_rules_clauses.py"}
RAN = re.compile(r"(?m)^Ran (\d+) tests? in ([0-9.]+)s$")
SKIPPED = re.compile(r"(?m)\.\.\. skipped (['\"])(.*)\1$")


def files_of(names):
    """The files with tests, those that take longest first, as far as is known: what waits, then the largest."""
    every = {name for name in os.listdir(TESTS) if re.fullmatch(r"test_\w+\.py", name)}
    if names:
        wanted = {f"test_{re.sub(r'^test_|[.]py$', '', name)}.py" for name in names}
        missing = sorted(wanted - every)
        if missing:
            raise Refused(f"there is no file {missing[0]} here")
        every = wanted
    return sorted(every, key=lambda name: (name not in WAITING, -os.path.getsize(os.path.join(TESTS, name))))


def parts_of(name):
    """What is run by itself of a file: each of its classes with tests, or all of it if it is small."""
    with open(os.path.join(TESTS, name), encoding="utf-8") as file:
        text = file.read()
    classes = []
    for it, bases, body in re.findall(r"(?ms)^class (\w+)\((.*?)\):$(.*?)(?=^\S|\Z)", text):
        # tests that it has from another class are its own too
        if "    def test_" in body or {*re.findall(r"\w+", bases)} & {*classes}:
            classes.append(it)
    if len(text) < SMALL or len(classes) < 2:
        return [(name, None)]
    return [(name, it) for it in classes]


def tried(part):
    """How the tests of a part end: the status, and what they say."""
    name, only = part
    words = [] if only is None else ["-k", f"{name[:-len('.py')]}.{only}."]
    path = os.pathsep.join([os.path.dirname(sys.executable), os.environ.get("PATH", os.defpath)])
    ended = subprocess.run([sys.executable, "-m", "unittest", "discover", "-v", "-s", TESTS, "-p", name, *words], cwd=TOP,
                           env={**os.environ, "PATH": path}, stdin=subprocess.DEVNULL, stdout=subprocess.PIPE, stderr=subprocess.STDOUT,
                           universal_newlines=True, check=False)
    return part, ended.returncode, ended.stdout


def main(words):
    if any(word.startswith("-") for word in words):
        raise WrongWords("it takes names of files alone")
    files, began = files_of(words), time.monotonic()
    parts = [part for name in files for part in parts_of(name)]
    count, failed, skipped, seconds = 0, [], {}, {}
    with ThreadPoolExecutor(len(os.sched_getaffinity(0)) + 1) as pool:
        for going in as_completed([pool.submit(tried, part) for part in parts]):
            part, status, said = going.result()
            ran, told = RAN.search(said), ": ".join(filter(None, part))
            count += int(ran[1]) if ran else 0
            seconds[told] = float(ran[2]) if ran else 0
            for _, why in SKIPPED.findall(said):
                skipped[why] = skipped.get(why, 0) + 1
            if status or not ran:
                failed.append(told)
                print(f"== {told}\n{said}", flush=True)
    for why, many in sorted(skipped.items()):
        print(f"skipped: {many}, {why}")
    longest = ", ".join(f"{name} {seconds[name]:.1f}" for name in sorted(seconds, key=lambda name: -seconds[name])[:3])
    print(f"ran {count} tests of {len(files)} files in {time.monotonic() - began:.1f} s; the longest: {longest}")
    if failed:
        print(f"failed: {', '.join(sorted(failed))}")
    return REFUSED if failed else DONE


if __name__ == "__main__":
    run("run_tests.py", main, __doc__)
