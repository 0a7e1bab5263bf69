#!/usr/bin/env python3
"""Tests of what docs/TUTORIAL.md has for others to run: its files for GitHub and GitLab are read, its Makefile is run over the plain
program of oracles/plain_gmus.py, and its chapter on the page is played in a browser."""
import os
import shlex
import shutil
import subprocess
import tempfile
import unittest

from places import TOOLS
from gmus_tools import page, report
from gmus_tools.commands import names
from gmus_tools.commands.clash import Words
from gmus_tools.rules import language
from test_clash_many import DOOR, FITS, PLAIN
from test_page import BOX, BROWSER, BUTTON, Pages
from test_tutorial import steps_in, text_of

try:
    import yaml
except ImportError:
    yaml = None

FILES, COMMANDS = steps_in(text_of("docs/TUTORIAL.md"))
GITHUB, GITLAB, MAKE = ".github/workflows/rules.yml", ".gitlab-ci.yml", "Makefile"
# The sets of the ten rules, by hand: 1 and 2 are on connections, 3 is small, 4 fast, 5 no third party, 6 a backup, 7 logs.
SETS = [[1, 2], [3, 4, 5], [3, 5, 6, 7]], [[1, 3], [1, 4, 6], [1, 4, 7], [1, 5], [2, 3], [2, 4, 6], [2, 4, 7], [2, 5]]
LEFT = ["large", "tls12", "old_clients", "fast", "cache", "backup", "disk", "logs", "password", "mail", "sign_in"]


class Files(unittest.TestCase):
    def words_in(self, command):
        """The words of a command of clash.py, which it takes."""
        tool, *words = shlex.split(command)
        self.assertEqual(tool, "gmus/tools/clash.py")
        return Words(words)

    def test_each_has_ten_lines_at_most(self):
        for name in (GITHUB, GITLAB, MAKE):
            self.assertLessEqual(len(FILES[name].splitlines()), 10, name)

    @unittest.skipUnless(yaml, "no PyYAML is there to read the files for GitHub and GitLab with")
    def test_files_for_github_and_gitlab_are_read(self):
        job, = yaml.safe_load(FILES[GITHUB])["jobs"].values()
        run, = (step["run"] for step in job["steps"] if "run" in step)
        kept, = (step for step in job["steps"] if "upload" in step.get("uses", ""))
        job = yaml.safe_load(FILES[GITLAB])["rules"]
        for command, pages in ((run, kept["with"]["path"]), (job["script"][0], job["artifacts"]["paths"][0])):
            asked = self.words_in(command)
            self.assertEqual((asked.pages, asked.junit, asked.fails, asked.is_strict), (pages, "rules.xml", True, True))
        self.assertEqual((kept["if"], job["artifacts"]["when"], job["artifacts"]["reports"]["junit"]), ("always()", "always", "rules.xml"))

    @unittest.skipUnless(shutil.which("make"), "no make is there to run the Makefile with")
    def test_the_makefile_fails_if_something_clashes(self):
        with tempfile.TemporaryDirectory() as room:
            for name, text in ((MAKE, FILES[MAKE]), ("rules/a.rules", FITS), ("rules/b.rules", DOOR)):
                os.makedirs(os.path.dirname(os.path.join(room, name)), exist_ok=True)
                with open(os.path.join(room, name), "w") as file:
                    file.write(text)
            os.mkdir(os.path.join(room, "gmus"))
            os.symlink(TOOLS, os.path.join(room, "gmus", "tools"))
            # what clashes fails, again and again, until it is mended
            for status, wanted in ((2, {"gmus", "rules", "Makefile", "pages", "rules.xml"}),) * 2:
                ended = self.make(room, "rules")
                self.assertEqual((ended.returncode, set(os.listdir(room))), (status, wanted), ended.stderr)
            self.assertEqual(sorted(os.listdir(os.path.join(room, "pages"))), ["a.rules.html", "b.rules.html", "index.html"])
            os.remove(os.path.join(room, "rules/b.rules"))
            ended = self.make(room, "rules")
            self.assertEqual((ended.returncode, ended.stderr), (0, ""))
            self.assertIn("rules/a.rules: fits. Nothing clashes: all rules fit together.\n", ended.stdout)
            self.assertEqual((self.make(room, "clean").returncode, set(os.listdir(room))), (0, {"gmus", "rules", "Makefile"}))

    def make(self, room, what):
        return subprocess.run(["make", what], cwd=room, env={**os.environ, "GMUS": PLAIN, "MAKEFLAGS": ""}, stdin=subprocess.DEVNULL,
                              stdout=subprocess.PIPE, stderr=subprocess.PIPE, universal_newlines=True, check=False)


class Left:
    """What the correction of the rules 2 and 3 leaves, which is the only configuration that it does."""

    def __init__(self):
        self.names = dict(enumerate(LEFT, 1))
        self.found = {(2, 3): list(self.names)}

    def of(self, groups):
        return LEFT if tuple(groups) == (2, 3) else None


def service_page():
    """The page of the tutorial's ten rules, once the slip is mended."""
    made = language.read(FILES["service.rules"].replace("old_client ", "old_clients "), "service.rules")
    lines = [f"u {' '.join(map(str, it))} 0" for it in SETS[0]] + [f"m {' '.join(map(str, it))} 0" for it in SETS[1]]
    text = "\n".join(["p gmus 10", "s COMPLETE", *lines, "e 3 8", ""])
    shown = report.named(report.Origin(made.gcnf(), "service.rules"), text)
    shown.left = Left()
    return shown


class Chapter(unittest.TestCase):
    def test_the_text_is_the_one_of_the_tutorial(self):
        shown = service_page()
        self.assertEqual(report.configuration_line(shown.left_by([2, 3])), "left, for example: " + ", ".join(LEFT))
        self.assertIn("      a small machine\n      left, for example: " + ", ".join(LEFT) + "\n", text_of("docs/TUTORIAL.md"))
        told = names.as_text(shown, 3)
        wanted = next(output for command, output in COMMANDS if command.endswith("--first 3"))
        for part in ("\n\nRules\n", "\n\nIn none: "):
            self.assertEqual(told.partition(part)[2].partition("\n\n")[0], wanted.partition(part)[2].partition("\n\n")[0])


@unittest.skipUnless(BROWSER, "no Chromium is there to play the tutorial's chapter in")
class Played(Pages):
    def test_the_chapter_on_the_page_click_by_click(self):
        self.write("service.html", page.as_html(service_page()))
        third, fast = "no third party sees our users", "answers within 50 ms"
        keeps = [[BOX, f"keep: {third}"], [BOX, f"keep: {fast}"]]
        free = "Free: 2 | Some corrections that fit give these up, and others don\u2019t. | old clients can connect; only TLS 1.3"
        kept = "keep=no%20third%20party%20sees%20our%20users,answers%20within%2050%20ms"
        chosen = f"#give=only%20TLS%201.3,a%20small%20machine&{kept}"
        clean = {"verdict": "Nothing clashes any more: all other rules fit together.", "remain": [], "fitting": [3], "address": chosen,
                 "left": ["Left, for example: " + ", ".join(LEFT)], "missing": ""}
        self.compare([
            ({"src": "service.html"}, {"verdict": "3 conflicts remain.", "fit": "8 corrections fit. The smallest gives up 2 rules."}),
            ({"src": "service.html", "clicks": keeps}, {"fit": "2 corrections fit. The smallest gives up 2 rules.", "fitting": [1, 3], "follows": [
                "Has to go: 1 | Each correction that fits gives these up. | a small machine",
                "Can stay: 2 | No correction that fits gives these up. | a backup each night; logs for a year", free]}),
            ({"src": "service.html", "clicks": [*keeps, [BUTTON, "give up correction 3"]]}, clean),
            ({"src": "service.html" + chosen}, clean),
            ({"src": "service.html#give=a%20tiny%20machine"}, {"missing": "This link names rules that are no more, or in no set: a tiny machine."}),
        ])


if __name__ == "__main__":
    unittest.main()
