#!/usr/bin/env python3
"""Replays README.md and docs/TUTORIAL.md: each of their commands has to print what stands below it."""
import os
import re
import shutil
import subprocess
import tempfile
import unittest

from places import TOP

# The program, of which a release has its own.
PROGRAMS = [it for it in (os.environ.get("GMUS"), TOP + "/bin/gmus", TOP + "/crates/gmus/out/gmus")
            if it and os.path.exists(it)]


def text_of(name):
    with open(os.path.join(TOP, name), encoding="utf-8") as file:
        return file.read()


def steps_in(text):
    """The files that the page has its reader write, by name, and its commands, each with what it prints."""
    files, commands = {}, []
    for before, block in re.findall(r"([^\n]*)\n\n```text\n(.*?)```(?=\n)", text, re.S):
        named = re.search(r"a file `([^`]+)`:$", before)
        if named:
            files[named.group(1)] = block
        elif block.startswith("$ "):
            for line in block.splitlines(keepends=True):
                if line.startswith("$ "):
                    commands.append([line[2:].rstrip("\n"), ""])
                else:
                    commands[-1][1] += line
    return files, commands


class Tutorial(unittest.TestCase):
    def test_files_and_commands_are_told_apart(self):
        page = "Write a file `a`:\n\n```text\n$ no\n```\n\nThen:\n\n```text\n$ one\nout\n\nput\n$ two\n```\n\n```text\nno\n```\n"
        self.assertEqual(steps_in(page), ({"a": "$ no\n"}, [["one", "out\n\nput\n"], ["two", ""]]))

    @unittest.skipUnless(PROGRAMS, "no built program: the commands of the first page and the tutorial are not replayed")
    def test_each_command_prints_what_the_page_says(self):
        for page, count in (("README.md", 3), ("docs/TUTORIAL.md", 23)):
            files, commands = steps_in(text_of(page))
            self.assertEqual(len(commands), count, page)
            with tempfile.TemporaryDirectory() as room:
                for folder in ("tools", "examples"):
                    os.symlink(os.path.join(TOP, folder), os.path.join(room, folder))
                shutil.copy(PROGRAMS[0], os.path.join(room, "gmus"))
                os.chmod(os.path.join(room, "gmus"), 0o755)
                for name, text in files.items():
                    os.makedirs(os.path.dirname(os.path.join(room, name)), exist_ok=True)
                    with open(os.path.join(room, name), "w", encoding="utf-8") as file:
                        file.write(text)
                for words, wanted in commands:
                    ended = subprocess.run(["sh", "-c", words], cwd=room, env={**os.environ, "GMUS": os.path.join(room, "gmus")},
                                           stdin=subprocess.DEVNULL, stdout=subprocess.PIPE, stderr=subprocess.STDOUT,
                                           universal_newlines=True, check=False)
                    self.assertEqual(ended.stdout, wanted, f"{page}: {words}")


if __name__ == "__main__":
    unittest.main()
