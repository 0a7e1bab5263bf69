#!/usr/bin/env python3
"""Tests of the library's types: each call that users have tells them, and mypy, if it is there, finds no fault in the package, none in
the examples of docs/LIBRARY.md, and one in each wrong call."""
import inspect
import os
import re
import shutil
import subprocess
import sys
import tempfile
import unittest

from places import TOOLS, TOP
import gmus_tools

EXAMPLE = re.compile(r"```python\n(.*?)```\n", re.DOTALL)
# calls that are wrong, each with what a checker has to say of its line
WRONG = (
    ("gmus_tools.solve(3)", "arg-type"),
    ("gmus_tools.list_gcnf('f', jobs='2')", "arg-type"),
    ("gmus_tools.export('f', 'e')", "call-arg"),
    ("gmus_tools.roles('f').complete", "attr-defined"),
    ("len(gmus_tools.check('f', 'e').clashes())", "arg-type"),
    ("gmus_tools.solve('f').weight('a', 'b')", "call-arg"),
    ("gmus_tools.gcnf('f').conflicts", "attr-defined"),
)


def mypy_command():
    """How mypy is called, or None if it is not there."""
    found = shutil.which("mypy")
    if found:
        return [found]
    asked = subprocess.run([sys.executable, "-c", "import mypy"], stderr=subprocess.DEVNULL, check=False)
    return [sys.executable, "-m", "mypy"] if asked.returncode == 0 else None


MYPY = mypy_command()


class Types(unittest.TestCase):
    def test_each_call_tells_its_types_and_what_it_raises(self):
        calls = [(name, call) for name, call in inspect.getmembers(gmus_tools) if name in gmus_tools.__all__ and inspect.isfunction(call)]
        self.assertEqual(len(calls), 10)
        for name, call in calls:
            signature = inspect.signature(call)
            self.assertNotEqual(signature.return_annotation, signature.empty, name)
            self.assertEqual([it.name for it in signature.parameters.values() if it.annotation is it.empty], [], name)
            if name != "written":
                self.assertIn("    Raises ", call.__doc__, name)
        for name in set(gmus_tools.__all__) - {name for name, _ in calls}:
            self.assertTrue(getattr(gmus_tools, name).__doc__, name)

    @unittest.skipUnless(MYPY, "no mypy: the types are not checked")
    def test_a_checker_finds_no_fault_but_in_wrong_calls(self):
        room = tempfile.mkdtemp()
        self.addCleanup(shutil.rmtree, room)
        with open(os.path.join(TOP, "docs", "LIBRARY.md"), encoding="utf-8") as page:
            # one example makes wrong calls, since it shows what is raised then
            examples = [code for code in EXAMPLE.findall(page.read()) if "BadArgument" not in code and "**" not in code]
        self.assertGreaterEqual(len(examples), 10)
        texts = {f"example_{at}.py": code for at, code in enumerate(examples)}
        texts["wrong.py"] = "import gmus_tools\n" + "".join(call + "\n" for call, _ in WRONG)
        for name, text in texts.items():
            with open(os.path.join(room, name), "w", encoding="utf-8") as file:
                file.write(text)
        ended = subprocess.run([*MYPY, "--config-file", os.path.join(TOP, "pyproject.toml"), "--cache-dir", os.path.join(room, "cache"),
                                "--no-error-summary", "--check-untyped-defs", "--follow-imports=silent", *sorted(texts)],
                               cwd=room, env={**os.environ, "MYPYPATH": TOOLS}, stdout=subprocess.PIPE, stderr=subprocess.STDOUT,
                               universal_newlines=True, check=False)
        found = re.findall(r"(?m)^(\w+\.py):(\d+): error: .*\[([\w-]+)\]$", ended.stdout)
        wanted = [("wrong.py", str(at), kind) for at, (_, kind) in enumerate(WRONG, 2)]
        self.assertEqual(found, wanted, ended.stdout)
        ended = subprocess.run([*MYPY, "--cache-dir", os.path.join(room, "cache"), "--no-error-summary"], cwd=TOP,
                               stdout=subprocess.PIPE, stderr=subprocess.STDOUT, universal_newlines=True, check=False)
        self.assertEqual((ended.stdout, ended.returncode), ("", 0))


if __name__ == "__main__":
    unittest.main()
