#!/usr/bin/env python3
"""Tests of deb.py: python3 -m unittest discover -s tools/tests (nothing but Python 3.9 is needed)."""
import gzip
import itertools
import os
import random
import shutil
import subprocess
import sys
import tempfile
import unittest
from unittest import mock

from places import TOOLS, TOP
from gmus_tools import command
from gmus_tools.commands import deb
from gmus_tools.deb import unpacked, version as deb_version
from gmus_tools.rules import language
from test_smt2 import kept_together

INDEX = """\
Package: web
Version: 2.0-1
Architecture: amd64
Depends: lib (>= 1.2), httpd:any | mini-httpd (<< 3),
 data
Pre-Depends: base
Recommends: nosuch
Description: a page server
 with more lines
 .
 Package: this is no field

Package: lib
Version: 1.1
Architecture: amd64

package: lib
VERSION: 1.2~rc1
Architecture: amd64
Breaks: data (<= 0.9)

Package: lib
Version: 1:0.5
Architecture: amd64

Package: data
Version: 0.9
Architecture: all
Conflicts: www-data, old (>= 2)

Package: base
Version: 7
Architecture: amd64
Provides: mini-httpd (= 2.9), www-data

Package: heavy
Version: 1
Architecture: amd64
Provides: httpd
Conflicts: httpd

Package: other
Version: 1
Architecture: amd64
Provides: httpd, mini-httpd
Conflicts: heavy
Depends: gone (>= 3) | gone-too

Package: old
Version: 1
Architecture: amd64

Package: alone
Version: 1
Architecture: amd64
Depends: alone | heavy
"""


def rules_of(index, *wishes, native=None):
    """The lines of the rules, without comments and empty lines."""
    made, told = deb.rules_of([("p", index)], ("w", "\n".join(wishes) + "\n"), native)
    language.read(made, "made")
    return [line for line in made.split("\n") if line and not line.startswith("#")], told


def refusal(index, wishes="a\n", native=None):
    try:
        deb.rules_of([("p", index)], ("w", wishes), native)
    except command.Refused as why:
        return str(why)
    return None


def stanza(name, version="1", architecture="amd64", **fields):
    lines = [f"Package: {name}", f"Version: {version}", f"Architecture: {architecture}"]
    return "\n".join(lines + [f"{field.replace('_', '-')}: {value}" for field, value in fields.items()]) + "\n\n"


# In ascending order, by the words and examples of Debian Policy 5.6.12.
ASCENDING = (
    "~~", "~~a", "~", "~1", "0~", "0", "0+b1", "1~~", "1~~a", "1~", "1~1", "1", "1a", "1b", "1+", "1.0~rc1-1", "1.0-0~1",
    "1.0", "1.0-0.1", "1.0-1~bpo1", "1.0-1", "1.0-1+b1", "1.0-1.1", "1.0-2", "1.0-10", "1.0a", "1.0a-1", "1.0a1", "1.0.1",
    "1.2", "1.10", "2-1-1", "2-1-2", "2-2-1", "12345678901234567890", "12345678901234567891", "1:0~", "1:0", "2:0", "10:0",
)
EQUAL = (("1.0", "1.0-0"), ("1.", "1.0"), ("1.0", "0:1.0"), ("1.0", "01.00"), ("1.0-1", "1.0-01"), ("1.a", "1.a0"),
         ("0:1-0", "1"))


class Versions(unittest.TestCase):
    def test_they_stand_in_order(self):
        keys = [deb_version.key(version) for version in ASCENDING]
        for at, version in enumerate(ASCENDING):
            for other in range(len(ASCENDING)):
                self.assertEqual(keys[other] < keys[at], other < at, (ASCENDING[other], version))
                self.assertEqual(keys[other] == keys[at], other == at, (ASCENDING[other], version))
        for one, other in EQUAL:
            self.assertEqual(deb_version.key(one), deb_version.key(other), (one, other))

    def test_each_relation_holds_as_it_is_read(self):
        for one, operator, other, wanted in (
                ("1", "<<", "1", False), ("1", "<=", "1", True), ("1", "=", "1.0", False), ("1", "=", "1-0", True),
                ("1", ">=", "1", True), ("1", ">>", "1", False), ("1", "<<", "2", True), ("2", ">>", "1", True),
                ("2", "<=", "1", False), ("1", ">=", "1~", True)):
            self.assertEqual(deb_version.holds(one, operator, other), wanted, (one, operator, other))

    @unittest.skipUnless(shutil.which("dpkg"), "dpkg is not on this machine")
    def test_dpkg_compares_them_as_well(self):
        dice = random.Random(7)
        pairs = [(one, other) for one, other in zip(ASCENDING, ASCENDING[1:]) if one[0].isdigit()] + list(EQUAL)
        pieces = ("0", "1", "9", "10", "09", "a", "Z", ".", "+", "~", "~~", "-", "-1", ".0")
        for _ in range(100):
            one, other = ("1" + "".join(dice.choices(pieces, k=dice.randrange(5))).rstrip("-") for _ in range(2))
            pairs.append((one, other))
        script = 'while read -r one op other; do dpkg --compare-versions "$one" "$op" "$other" && echo yes || echo no; done'
        given = "".join(f"{one} {operator} {other}\n" for one, other in pairs for operator in ("lt", "eq"))
        told = subprocess.run(["sh", "-c", script], input=given, stdout=subprocess.PIPE, stderr=subprocess.DEVNULL, text=True,
                              check=True).stdout.split()
        for at, (one, other) in enumerate(pairs):
            keys = deb_version.key(one), deb_version.key(other)
            self.assertEqual([keys[0] < keys[1], keys[0] == keys[1]], [it == "yes" for it in told[2 * at:2 * at + 2]],
                             (one, other))


class Rules(unittest.TestCase):
    def test_what_a_wish_reaches_is_written_and_no_more(self):
        found, told = rules_of(INDEX, "web", "not  old", "lib (<< 1.2) | heavy  # a comment")
        self.assertEqual(found, [
            "[always]",
            "web implies base",
            "web implies lib=1:0.5",
            "web implies heavy or other or base",
            "web implies data",
            "not (lib=1.2~rc1 and data)",
            "not (data and base)",
            "not (heavy and other)",
            "not other",
            "at most one of (lib=1.1, lib=1.2~rc1, lib=1:0.5)",
            "[web]", "web",
            "[not old]", "not old",
            "[lib (<< 1.2) | heavy]", "lib=1.1 or lib=1.2~rc1 or heavy",
        ])
        self.assertEqual(told, [])

    def test_the_page_tells_what_comes_of_an_index(self):
        with open(os.path.join(TOP, "docs", "IMPORT.md"), encoding="utf-8") as page:
            blocks = page.read().partition("tools/deb.py\n\n")[2].split("```")
        given, wanted = (block.partition("text\n")[2] for block in (blocks[1], blocks[3]))
        self.assertEqual(deb.rules_of([("Packages", given)], ("wishes", "page-server\nnot lib\n")), (wanted, []))

    def test_a_wish_that_nothing_meets_is_told_and_clashes_by_itself(self):
        found, told = rules_of(INDEX, "old (>> 1)", "not nosuch", "old")
        self.assertEqual(found, ["[old (>> 1)]", '"old (>> 1)" and not "old (>> 1)"', "[not nosuch]", "nosuch or not nosuch",
                                 "[old]", "old"])
        self.assertEqual(told, ["w: line 1: no package is or provides 'old (>> 1)', so the wish clashes by itself; there is old (= 1)",
                                "w: line 2: no package is or provides 'nosuch', so the wish holds anyway"])

    def test_what_may_be_meant_by_a_wish_that_nothing_meets_is_told(self):
        index = stanza("nginx-light") + stanza("postgresql-15") + stanza("libstdc++6") + stanza("mta", Provides="mail-transport-agent")
        for wish, wanted in (("nginx-lihgt", "nginx-light"), ("NGINX_light".replace("_", "-"), "nginx-light"), ("postgres-15", None),
                             ("postgresq-15", "postgresql-15"), ("mail-transport-agents | x", "mail-transport-agent"),
                             ("postgresql-16", None), ("libstdc6", "libstdc++6"), ("quite-other", None)):
            _, (told,) = rules_of(index, wish)
            self.assertEqual(told, f"w: line 1: no package is or provides '{wish}', so the wish clashes by itself"
                             + (f". Is '{wanted}' meant?" if wanted else ""), wish)
        many = "".join(stanza("a", str(version)) for version in range(1, 6))
        self.assertTrue(rules_of(many, "a (>> 9)")[1][0].endswith("; there is a (= 1), a (= 2), a (= 3)"))

    def test_packed_indices_are_read_by_the_systems_tools(self):
        index = stanza("a").encode()
        with tempfile.TemporaryDirectory() as folder:
            for tool, options in (("gzip", []), ("xz", []), ("bzip2", []), ("lz4", []), ("zstd", [])):
                if not shutil.which(tool):
                    continue
                packed = subprocess.run([tool, "-c", *options], input=index, stdout=subprocess.PIPE, check=True).stdout
                name = os.path.join(folder, "Packages")
                for held, wanted in ((packed, index.decode()), (packed[:-9], f"{name}: '{tool}' can't unpack it"),
                                     (packed[:6] + b"\xff\xff" * 9, f"{name}: '{tool}' can't unpack it")):
                    with open(name, "wb") as file:
                        file.write(held)
                    try:
                        found = unpacked.text_of(name)
                    except command.Refused as why:
                        found = str(why)
                    self.assertEqual(found, wanted, tool)
            with mock.patch.object(shutil, "which", lambda _: None), mock.patch.object(unpacked, "APT", folder + "/none"):
                with self.assertRaises(command.Refused) as refused:
                    unpacked.text_of(name)
            self.assertRegex(str(refused.exception), r"Packages: this is packed, and '\w+', which unpacks it, is not there$")
            with mock.patch.object(unpacked, "MOST", 9):
                with open(name, "wb") as file:
                    file.write(gzip.compress(index))
                with self.assertRaises(command.Refused) as refused:
                    unpacked.text_of(name)
            self.assertTrue(str(refused.exception).endswith(": more than 9 bytes come of it, once it is unpacked"))

    def test_each_relation_is_met_by_what_policy_says(self):
        for fields, wanted in (
                (stanza("x"), "a implies x"),
                (stanza("x", "0.9"), "not a"),
                (stanza("y", Provides="x"), "not a"),
                (stanza("y", Provides="x (= 2)"), "a implies y"),
                (stanza("y", Provides="x (= 0.1)"), "not a"),
                (stanza("y", "5", Provides="z, x (= 1)"), "a implies y"),
                (stanza("x", "2") + stanza("y", Provides="x (= 1)"), "a implies x or y"),
                (stanza("x", "1") + stanza("x", "2"), "a implies x=1 or x=2"),
                (stanza("x", Status="deinstall ok config-files"), "not a"),
                (stanza("x", Status="install ok installed"), "a implies x"),
                (stanza("x", architecture="i386"), "not a"),
                (stanza("x", architecture="i386", Multi_Arch="foreign"), "a implies x"),
                (stanza("x", architecture="all"), "a implies x"),
                (stanza("x", architecture="i386") + stanza("x"), "a implies x:amd64"),
                (stanza("y", architecture="i386", Provides="x (= 1)"), "not a"),
        ):
            found, _ = rules_of(stanza("a", Depends="x (>= 1)") + fields, "a", native="amd64")
            self.assertEqual(found[1], wanted, fields)

    def test_architectures_are_told_apart(self):
        both = stanza("x", architecture="i386") + stanza("x", architecture="amd64")
        for relation, wanted in (("x", "x:amd64"), ("x:any", "x:i386 or x:amd64"), ("x:i386", "x:i386"),
                                 ("x:amd64", "x:amd64")):
            found, _ = rules_of(both, relation, native="amd64")
            self.assertEqual(found[-1], wanted, relation)
        self.assertIn("not (x:i386 and x:amd64)", rules_of(both, "x:any", native="amd64")[0])
        same = both.replace("Version: 1\n", "Version: 1\nMulti-Arch: same\n")
        self.assertEqual(rules_of(same, "x:any", native="amd64")[0], ["[x:any]", "x:i386 or x:amd64"])
        self.assertEqual(rules_of(same, "not x", native="amd64")[0], ["[not x]", "not x:i386", "not x:amd64"])

    def test_conflicts_bar_what_is_reached_and_never_the_package_itself(self):
        for fields, wanted in (
                ({"Conflicts": "b"}, ["not (a and b)"]),
                ({"Breaks": "b (<< 2), b"}, ["not (a and b)"]),
                ({"Breaks": "b (<< 1)"}, []),
                ({"Conflicts": "v", "Provides": "v"}, ["not (a and c)"]),
                ({"Conflicts": "a, far"}, []),
                ({"Replaces": "b", "Recommends": "nosuch", "Suggests": "b"}, []),
        ):
            index = stanza("a", **fields) + stanza("b") + stanza("c", Provides="v") + stanza("far")
            found, _ = rules_of(index, "a", "b", "c")
            self.assertEqual([line for line in found if line.startswith("not")], wanted, fields)


class Packages:
    """A few packages at random, as stanzas, and which of them may be installed together."""

    def __init__(self, seed):
        self.dice = random.Random(seed)
        # Of each package: its name, its version, what it provides in which version, and its clauses.
        self.all = [(name, version, self.provided(), [self.clause() for _ in range(self.dice.randrange(3))],
                     [self.relation() for _ in range(self.dice.randrange(2))])
                    for name in "pqrs" for version in self.dice.sample((1, 2, 3), self.dice.choice((1, 1, 2)))]

    def provided(self):
        return [(self.dice.choice("vwp"), self.dice.choice((None, 1, 2)))] if self.dice.random() < 0.4 else []

    def relation(self):
        operator = self.dice.choice((None, None, "<<", "<=", "=", ">=", ">>"))
        return self.dice.choice("pqrsvw"), operator, self.dice.choice((1, 2, 3))

    def clause(self):
        return [self.relation() for _ in range(self.dice.choice((1, 2, 2)))]

    def index(self):
        text = ""
        for name, version, provided, depends, conflicts in self.all:
            text += stanza(name, str(version), Provides=", ".join(map(shown, [(it, it_in and "=", it_in) for it, it_in in provided])),
                           Depends=", ".join(" | ".join(map(shown, clause)) for clause in depends),
                           Conflicts=", ".join(map(shown, conflicts)))
        return text

    @staticmethod
    def meets(package, relation):
        name, operator, version = relation
        compare = {"<<": int.__lt__, "<=": int.__le__, "=": int.__eq__, ">=": int.__ge__, ">>": int.__gt__}
        fits = lambda own: operator is None or own is not None and compare[operator](own, version)
        return any(own == name and fits(own_version) for own, own_version in [package[:2], *package[2]])

    def may_stand(self, installed):
        names = [package[0] for package in installed]
        return len(set(names)) == len(names) and all(
            all(any(self.meets(other, it) for other in installed for it in clause) for clause in package[3])
            and not any(self.meets(other, it) for other in installed if other is not package for it in package[4])
            for package in installed)


def shown(relation):
    name, operator, version = relation
    return f"{name} ({operator} {version})" if operator else name


class Meaning(unittest.TestCase):
    def test_wishes_fit_together_where_packages_can_be_installed(self):
        for seed in range(60):
            made = Packages(seed)
            wishes = list(dict.fromkeys((made.dice.random() < 0.3, made.relation()) for _ in range(4)))
            states = [state for size in range(len(made.all) + 1) for state in itertools.combinations(made.all, size)
                      if made.may_stand(state)]
            granted = {tuple(any(made.meets(it, relation) for it in state) != is_not for is_not, relation in wishes)
                       for state in states}
            wanted = [any(all(has or not is_kept for has, is_kept in zip(it, kept)) for it in granted)
                      for kept in itertools.product((False, True), repeat=len(wishes))]
            lines = [("not " if is_not else "") + shown(relation) for is_not, relation in wishes]
            text, _ = deb.rules_of([("p", made.index())], ("w", "\n".join(lines)))
            self.assertEqual(kept_together(language.read(text, "made").gcnf()), wanted, (seed, lines, made.index()))


class Refusals(unittest.TestCase):
    def test_what_cannot_be_read_is_told_with_its_line(self):
        good = stanza("a")
        for index, wishes, wanted in (
                ("", "a\n", "p: there is no package in it"),
                ("Package: a\n", "a\n", "p: line 1: the stanza that begins here has no field 'Version'"),
                ("\nVersion: 1\n", "a\n", "p: line 2: the stanza that begins here has no field 'Package'"),
                ("Package: a\nVersion\n", "a\n",
                 "p: line 2: this is no field: a field is NAME: VALUE, and its next lines are set in"),
                (" x\n" + good, "a\n", "p: line 1: this line goes on with a field, and none begins above it"),
                (good + "Package: b\nPackage: c\n", "a\n", "p: line 6: the field 'Package' stands twice in this stanza"),
                (stanza("a", "x:1"), "a\n", "p: line 2: the epoch of the version 'x:1' is no number"),
                (stanza("a", "1_2"), "a\n", "p: line 2: '1_2' is no version"),
                (stanza("a", "1-"), "a\n", "p: line 2: '1-' is no version"),
                (stanza("a", Depends="b c"), "a\n",
                 "p: line 4: 'b c' is no relation: a relation is NAME, or NAME (>= VERSION) with one of << <= = >= >>"),
                (stanza("a", Depends="b,\n c (== 1)"), "a\n",
                 "p: line 5: 'c (== 1)' is no relation: a relation is NAME, or NAME (>= VERSION) with one of << <= = >= >>"),
                (stanza("a", Depends="b (< 1)"), "a\n",
                 "p: line 4: 'b (< 1)' is obsolete: '<<' and '<=' differ, as '>>' and '>=' do"),
                (stanza("a", Depends="b [amd64]"), "a\n",
                 "p: line 4: 'b [amd64]' has a restriction that stands in source packages alone"),
                (stanza("a", Depends="b <!nocheck>"), "a\n",
                 "p: line 4: 'b <!nocheck>' has a restriction that stands in source packages alone"),
                (stanza("a", Depends="b (>= 1_0)"), "a\n", "p: line 4: '1_0' is no version"),
                (stanza("a", Conflicts="b | c"), "a\n", "p: line 4: 'b | c' has alternatives, which a conflict can't have"),
                (stanza("a", Provides="b (>= 1)"), "a\n",
                 "p: line 4: 'b (>= 1)' can't be provided: that is NAME, or NAME (= VERSION)"),
                (good + stanza("a", Depends="b"), "a\n",
                 "p: line 5: 'a' 1 stands in p, line 1, with another field 'Depends'"),
                (good + stanza("b", architecture="i386"), "a\n",
                 "there are packages of amd64 and i386: say with --arch which the machine is"),
                (good, "# none\n", "w: there is no wish in it: a wish is a line such as 'nginx (>= 1.22)', or 'not nginx'"),
                (good, "a\na, b\n", "w: line 2: a wish stands on a line of its own, without a comma"),
                (good, "a b\n", "w: line 1: 'a b' is no relation: a relation is NAME, or NAME (>= VERSION) with one of "
                                "<< <= = >= >>"),
                (good, "not\ta (1)\n",
                 "w: line 1: 'a (1)' is no relation: a relation is NAME, or NAME (>= VERSION) with one of << <= = >= >>"),
                (good, "a=1.2\n", "w: line 1: 'a=1.2' is no relation. Is 'a (= 1.2)' meant?"),
                (good, "a:i386=1.2-3~x\n", "w: line 1: 'a:i386=1.2-3~x' is no relation. Is 'a:i386 (= 1.2-3~x)' meant?"),
                (good, "not a >= 1.2\n", "w: line 1: 'a >= 1.2' is no relation. Is 'a (>= 1.2)' meant?"),
                (good, "a == 1\n", "w: line 1: 'a == 1' is no relation. Is 'a (= 1)' meant?"),
                (good, "a/bookworm-backports\n", "w: line 1: 'a/bookworm-backports' is no relation. Is 'a' meant? Which suites there are "
                                                 "is said by the indices"),
                (good, "a |\n",
                 "w: line 1: '' is no relation: a relation is NAME, or NAME (>= VERSION) with one of << <= = >= >>"),
        ):
            self.assertEqual(refusal(index, wishes), wanted, (index, wishes))

    def test_program_ends_as_all_tools_do(self):
        def run(*words, given=b""):
            return subprocess.run([sys.executable, os.path.join(TOOLS, "deb.py"), *words], input=given, stdout=subprocess.PIPE,
                                  stderr=subprocess.PIPE)

        usage = b"\n    tools/deb.py [--arch ARCHITECTURE] PACKAGES.. WISHES [-o RULES]\n"
        with tempfile.TemporaryDirectory() as folder:
            wishes = os.path.join(folder, "wishes")
            with open(wishes, "w") as out:
                out.write("a\nb\n")
            for words, given, status, wanted in (
                    ([], b"", 2, b"deb.py: an index and a list of wishes are wanted" + usage),
                    (["x"], b"", 2, b"deb.py: an index and a list of wishes are wanted" + usage),
                    (["--arch"], b"", 2, b"deb.py: --arch wants an architecture" + usage),
                    (["-q", "x", "y"], b"", 2, b"deb.py: '-q' is no option" + usage),
                    (["-", wishes + "x"], b"", 1, b"deb.py: " + os.fsencode(wishes) + b"x: No such file or directory\n"),
                    (["-", wishes], b"\x00\xff", 1, b"deb.py: -: line 1: the bytes are no UTF-8\n"),
                    (["-", wishes], b"p gcnf 1 1 1\n", 1, b"deb.py: -: line 1: this is no field: a field is NAME: VALUE, and "
                                                         b"its next lines are set in\n"),
            ):
                ended = run(*words, given=given)
                self.assertEqual((ended.returncode, ended.stdout, ended.stderr), (status, b"", wanted), words)
            self.assertEqual(run("--help").returncode, 0)
            ended = run("--arch", "amd64", "-", wishes, given=stanza("a", Conflicts="b").encode())
            self.assertEqual((ended.returncode, ended.stdout), (0, b"[a]\n#: W:1\na\n\n[b]\n#: W:2\nb and not b\n".replace(b"W", os.fsencode(wishes))))
            self.assertEqual(ended.stderr, b"deb.py: " + os.fsencode(wishes)
                             + b": line 2: no package is or provides 'b', so the wish clashes by itself\n")


if __name__ == "__main__":
    unittest.main()
