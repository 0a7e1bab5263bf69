#!/usr/bin/env python3
"""Tests of the installed package: its commands, their names there, and a wheel with a made-up program in it."""
import glob
import importlib
import io
import os
import re
import shutil
import subprocess
import sys
import tempfile
import unittest
import zipfile
from unittest import mock

from places import TOOLS, TOP
from gmus_tools import command

MAKES_WHEELS = "import setuptools, wheel"
PROGRAM = '#!/bin/sh\necho "program: $*"\nexit 3\n'


def told():
    """The commands of pyproject.toml, each with its module and its function."""
    with open(os.path.join(TOP, "pyproject.toml"), encoding="utf-8") as file:
        return {name: (module, function) for name, module, function in re.findall(r'(?m)^(gmus[\w-]*) = "([\w.]+):(\w+)"$', file.read())}


def maker():
    """The first Python that makes wheels, or None."""
    for python in (sys.executable, "/usr/bin/python3"):
        if os.path.exists(python) and subprocess.run([python, "-c", MAKES_WHEELS], stderr=subprocess.DEVNULL, check=False).returncode == 0:
            return python
    return None


class Commands(unittest.TestCase):
    def test_each_tool_is_a_command_that_is_installed(self):
        tools = {name[:-len(".py")] for name in os.listdir(TOOLS) if name.endswith(".py")}
        self.assertEqual({"gmus-" + name.replace("_", "-") for name in tools} | {"gmus"}, set(told()))
        for module, function in told().values():
            self.assertTrue(callable(getattr(importlib.import_module(module), function)), module)
        for name in tools:
            with mock.patch.object(sys, "argv", ["/x/gmus-it"]):
                self.assertEqual(command.here(f"a tools/{name}.py, {name}.py"), "a {0}, {0}".format("gmus-" + name.replace("_", "-")))

    def test_an_installed_command_tells_names_that_are_there(self):
        for place, words, usage, refused in (
                ("/x/gmus-names", ["/lost"], "    gmus-names FILE REPORT ..", "gmus-names: /lost: No such file or directory\n"),
                ("/x/names.py", ["/lost"], "    tools/names.py FILE REPORT ..", "names.py: /lost: No such file or directory\n")):
            for asked, wanted in ((["--help"], usage), (words, refused)):
                output, said = io.StringIO(), io.StringIO()
                with mock.patch.multiple(sys, argv=[place, *asked], stdout=output, stderr=said), self.assertRaises(SystemExit):
                    importlib.import_module("gmus_tools.commands.names").as_command()
                self.assertIn(wanted, output.getvalue() + said.getvalue())
            with mock.patch.object(sys, "argv", [place]):
                self.assertEqual(command.beside("why.py"), place.replace("names", "why"))


class Wheel(unittest.TestCase):
    @unittest.skipUnless(maker(), "no Python here has setuptools and wheel: no wheel is made")
    def test_a_wheel_has_the_program_and_is_for_any_python_on_this_machine(self):
        room = tempfile.mkdtemp()
        self.addCleanup(shutil.rmtree, room)
        source = os.path.join(room, "source")
        os.makedirs(os.path.join(source, "bin"))
        for name in ("pyproject.toml", "setup.py", "README.md", "CHANGELOG.md", "LICENSE-MIT", "LICENSE-APACHE", "gmus"):
            shutil.copy(os.path.join(TOP, name), source)
        shutil.copytree(os.path.join(TOOLS, "gmus_tools"), os.path.join(source, "tools", "gmus_tools"),
                        ignore=shutil.ignore_patterns("__pycache__"))
        with open(os.path.join(source, "bin", "gmus"), "w", encoding="utf-8") as file:
            file.write(PROGRAM)
        words = [maker(), "setup.py", "-q", "bdist_wheel", "-d", room]
        ended = subprocess.run(words, cwd=source, env={name: value for name, value in os.environ.items() if name != "GMUS"},
                               stdin=subprocess.DEVNULL, stdout=subprocess.PIPE, stderr=subprocess.STDOUT, check=False)
        self.assertEqual(ended.returncode, 0, ended.stdout)
        wheel, = glob.glob(os.path.join(room, "*.whl"))
        self.assertRegex(os.path.basename(wheel), r"^gmus-[0-9.]+-py3-none-linux_\w+\.whl$")
        with zipfile.ZipFile(wheel) as packed:
            packed.extractall(os.path.join(room, "site"))
            modes = {it.filename: it.external_attr >> 16 & 0o777 for it in packed.infolist()}
        self.assertEqual([modes[f"gmus_tools/installed/{name}"] for name in ("gmus", "bin/gmus")], [0o755] * 2)
        for name in ("py.typed", "page/page.css", "page/page.js", "commands/names.py"):
            self.assertIn("gmus_tools/" + name, modes)
        self.assertEqual([name for name in modes if not name.startswith(("gmus_tools/", "gmus-"))], [])
        # as it is installed the package finds the program that came with it, by the launcher, and hands its status on
        for name in ("gmus", "bin/gmus"):
            os.chmod(os.path.join(room, "site", "gmus_tools", "installed", name), 0o755)
        environment = {"PATH": os.environ["PATH"], "PYTHONPATH": os.path.join(room, "site")}
        for words, wanted in ((["list", "f"], (3, "program: list f\n")), (["--version"], (0, "gmus " + self.version() + "\n")), (["lost"], (2, ""))):
            ended = subprocess.run([sys.executable, "-c", "from gmus_tools.program import as_command; as_command()", *words], env=environment,
                                   stdin=subprocess.DEVNULL, stdout=subprocess.PIPE, stderr=subprocess.PIPE, cwd=room,
                                   universal_newlines=True, check=False)
            self.assertEqual((ended.returncode, ended.stdout), wanted, ended.stderr)

    def test_without_a_program_nothing_is_installed(self):
        room = tempfile.mkdtemp()
        self.addCleanup(shutil.rmtree, room)
        with open(os.path.join(TOP, "setup.py"), encoding="utf-8") as file:
            text = file.read()
        found = re.search(r"(?ms)^def program\(\):\n.*?(?=^\S)", text)[0]
        with mock.patch.dict(os.environ, GMUS=""), self.assertRaises(SystemExit) as ended:
            names = {"os": os, "TOP": room}
            exec(found + "program()", names)  # pylint: disable=exec-used
        self.assertIn("there is no program to install", str(ended.exception))

    @staticmethod
    def version():
        with open(os.path.join(TOP, "CHANGELOG.md"), encoding="utf-8") as file:
            return re.search(r"(?m)^## ([0-9.]+), ", file.read())[1]


if __name__ == "__main__":
    unittest.main()
