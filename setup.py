"""What pyproject.toml can't say: the version, which CHANGELOG.md tells, and the program, which goes into the package.

The package gets what a release has of the program: the launcher, the program, the version, and what it was made of if that is
told. The program is the one that the variable GMUS names, or that of a release, or the one that `./gmus` built.
"""
import os
import re
import shutil

from setuptools import Distribution, setup
from setuptools.command.build_py import build_py

try:
    from setuptools.command.bdist_wheel import bdist_wheel
except ImportError:
    from wheel.bdist_wheel import bdist_wheel

TOP = os.path.dirname(os.path.abspath(__file__))


def version():
    with open(os.path.join(TOP, "CHANGELOG.md"), encoding="utf-8") as file:
        return re.search(r"(?m)^## ([0-9][0-9.]*), ", file.read())[1]


def program():
    """The program that was built."""
    places = [os.environ.get("GMUS"), os.path.join(TOP, "bin", "gmus"), os.path.join(TOP, "crates", "gmus", "out", "gmus")]
    for place in places:
        if place and os.path.exists(place):
            return place
    raise SystemExit("gmus: there is no program to install: call ./gmus list examples/first.gcnf, which builds it")


class WithProgram(build_py):
    """Builds the package, with the program in it. An editable one finds the program where it was built."""

    def run(self):
        super().run()
        if not getattr(self, "editable_mode", False):
            self.add(program(), "bin", "gmus")
            self.add(os.path.join(TOP, "gmus"), "gmus")
            for name in ("CHANGELOG.md", "MADE-OF"):
                if os.path.exists(os.path.join(TOP, name)):
                    self.add(os.path.join(TOP, name), name)
            if os.path.isdir(os.path.join(TOP, "licences")):
                shutil.copytree(os.path.join(TOP, "licences"), self.place("licences"), dirs_exist_ok=True)

    def place(self, *names):
        return os.path.join(self.build_lib, "gmus_tools", "installed", *names)

    def add(self, file, *names):
        os.makedirs(os.path.dirname(self.place(*names)), exist_ok=True)
        shutil.copyfile(file, self.place(*names))
        if names[-1] == "gmus":
            os.chmod(self.place(*names), 0o755)


class OfMachine(Distribution):
    """What is not the same for all machines, since there is a program in it."""

    def has_ext_modules(self):
        return True


class ForAnyPython(bdist_wheel):
    """A wheel for any Python 3 on this kind of machine."""

    def get_tag(self):
        return "py3", "none", super().get_tag()[2]


setup(version=version(), distclass=OfMachine, cmdclass={"build_py": WithProgram, "bdist_wheel": ForAnyPython})
