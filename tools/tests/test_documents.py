#!/usr/bin/env python3
"""Tests of the documents: what they link to is there, the first page is short and has what the program, the launcher and the
man page have, and no crate is left out."""
import os
import re
import shutil
import subprocess
import unittest

import places  # noqa: F401
from dev import definitions, man
from dev.crates import TOP, areas_in, below_in, text_of

DOCUMENTS = ["README.md", "CONTRIBUTING.md", "CHANGELOG.md", "examples/README.md"] + [
    f"{folder}/{name}" for folder in ("docs", "bench", "bench/measures")
    for name in sorted(os.listdir(os.path.join(TOP, folder))) if name.endswith(".md")]


# The pages whose sentences are counted.
HELD = ["README.md", "CONTRIBUTING.md", "CHANGELOG.md", "bench/README.md", "examples/README.md"] + [f"docs/{name}.md" for name in (
    "ARCHITECTURE", "DECISIONS", "FORMATS", "IMPORT", "LIBRARY", "PROVED", "REPORTING", "RULES", "TRIED", "TUTORIAL")]


# Where one looks first for an answer, and the words that give it.
ANSWERS = {
    "what does 0 mean for my file": ("README.md", "Suppose that `gmus list FILE` ends with 0"),
    "may two runs have one journal": ("README.md", "or that another run has open, is refused"),
    "what do I do after 7": ("README.md", "use none; see the second line, run again"),
    "which numbers does --focus take": ("README.md", "numbers from 1 to 4294967295 with commas between them"),
    "how do I add a command": ("CONTRIBUTING.md", "From its words to its page, in this order."),
    "which crates does a change of the store cost": ("docs/ARCHITECTURE.md", "Above `clause_store`, say, stand"),
    "what was tried for the map": ("docs/TRIED.md", "For the map these were tried: "),
    "where is the map's order decided": ("docs/ARCHITECTURE.md", "`choice` in `cdcl_core/src/decisions.rt`"),
    "what is trusted": ("README.md", "- Trusted: "),
    "how do I check evidence without gmus": ("README.md", "checks evidence without `gmus`"),
}


def sections(text, mark):
    """The headings of a document with this mark, in order, each with what stands below it."""
    parts = re.split(rf"(?m)^{mark} (.*)$", text)
    return list(zip(parts[1::2], parts[2::2]))


def anchors_of(text):
    """The names by which links lead to a document's headings, as hosts of repositories make them."""
    headings = re.findall(r"(?m)^#+ (.*)$", re.sub(r"(?ms)^```.*?^```$", "", text))
    shown = [re.sub(r"\[([^\]]*)\]\([^)]*\)", r"\1", heading) for heading in headings]
    return [re.sub(r"[^\w\- ]", "", heading.lower()).replace(" ", "-") for heading in shown]


def words_in(text):
    """The words of a text as a reader counts them: what a link leads to is none."""
    return [word for word in re.sub(r"\]\([^)]*\)", "]", text).split() if re.search(r"\w", word)]


def lines_of(text, name):
    """The numbers of a file's lines that are a definition, a record, a struct, a clause of a call (`call.clause`), a ghost
    member (`ghost name`), or one field of a record with the record's first line (`Record.field`)."""
    lines = text.split("\n")
    first, _, rest = name.partition(".")
    if re.search(rf"fn {first}\b", text) and rest:
        at = next(i for i, line in enumerate(lines) if re.search(rf"fn {first}\b", line))
        return clause_at(lines, next(i for i in range(at, len(lines)) if re.search(rf"ensures {rest} ", lines[i])))
    if name.startswith("ghost "):
        return clause_at(lines, next(i for i, line in enumerate(lines) if re.match(rf"\s*{name}\b", line)))
    if re.search(rf"(?m)^pub struct {name} ", text):
        return clause_at(lines, next(i for i, line in enumerate(lines) if line.startswith(f"pub struct {name} ")))
    at = next(i for i, line in enumerate(lines) if re.match(rf"(?:[\w()]+ )*{re.escape(first)} ", line))
    # A definition goes on up to an empty line, and the lines of comment in it don't count.
    end = next((i for i in range(at, len(lines)) if not lines[i]), len(lines))
    found = [i for i in range(at, end) if not lines[i].strip().startswith("--")]
    return [i for i in found if i == at or not rest or re.match(rf"  pub {rest} ", lines[i])]


def clause_at(lines, at):
    """The lines from this one on up to the one in which its braces are closed, or up to a semicolon before any is opened."""
    depth = 0
    for i in range(at, len(lines)):
        depth += lines[i].count("{") - lines[i].count("}")
        if depth == 0:
            return list(range(at, i + 1))
    return []


def read_in(cell):
    """The lines that a row of the reading list names, by file: `crate/path`: `name`, ..; a file alone is all of its lines that
    are neither empty, comments nor imports, but those of the names behind 'without'. A path without a crate is beside the
    file before it."""
    found, folder = {}, ""
    for part in cell.split("; "):
        path, *names = re.findall(r"`([^`]+)`", part)
        path = path if "/" in path else folder + path
        folder = path[:path.rindex("/") + 1]
        text = text_of("crates/" + path)
        named = {i for name in names for i in lines_of(text, name)}
        if not names or " without " in part:
            every = {i for i, line in enumerate(text.split("\n")) if line and not re.match(r"\s*--|(pub )?use ", line)}
            named = every - named
        found.setdefault(path, set()).update(named)
    return found


def prose_in(text):
    """The paragraphs and items of a document, without headings, blocks of code, tables and lines of links; code in a line is
    one word."""
    text = re.sub(r"(?ms)^```.*?^```$", "", text)
    lines = [line for line in text.split("\n") if not re.match(r"#|\||.*\) · \[", line)]
    for paragraph in re.split(r"\n\s*\n|\n(?= *- | *\d+\. )", "\n".join(lines)):
        yield re.sub(r"\]\([^)]*\)", "]", re.sub(r"`[^`]*`", "CODE", " ".join(paragraph.split())))


def sentences_in(text):
    """The sentences of a document's prose, each as its words."""
    for paragraph in prose_in(text):
        for sentence in re.split(r"(?<=[.!?])[)*\]]* +(?=[A-Z*\[(])", paragraph):
            yield [word for word in sentence.split() if re.search(r"\w", word)]


class Documents(unittest.TestCase):
    def test_the_reading_list_counts_its_lines(self):
        proved = text_of("docs/PROVED.md").partition("## How to believe")[2].partition("\n## ")[0]
        rows = re.findall(r"(?m)^\| \d+ \| (.*) \| (.*) \| (\d+) \|$", proved)
        files, every = set(), 0
        for cell, _, told in rows:
            found = read_in(cell)
            count = sum(map(len, found.values()))
            self.assertEqual(int(told), count, cell)
            files.update(found)
            every += count
        wanted = f"{len(files)} files, with {every} lines"
        self.assertIn(wanted, proved)
        self.assertIn(f"{len(files)} short files, {every} lines", text_of("README.md"))

    def test_links_lead_to_files(self):
        for name in DOCUMENTS:
            for link in re.findall(r"\]\(([^)#]+)[^)]*\)", text_of(name)):
                if not re.match(r"https?:", link):
                    path = os.path.join(TOP, os.path.dirname(name), link)
                    self.assertTrue(os.path.exists(path), f"{name}: {link}")

    def test_links_lead_to_headings(self):
        there = {name: anchors_of(text_of(name)) for name in DOCUMENTS}
        for name in DOCUMENTS:
            for link, anchor in re.findall(r"\]\(([^)#\s]*)#([^)]*)\)", text_of(name)):
                document = os.path.normpath(os.path.join(os.path.dirname(name), link)) if link else name
                if not re.match(r"https?:", link):
                    self.assertIn(anchor, there[document], f"{name}: {link}#{anchor}")

    def test_each_decision_is_short_and_each_idea_has_its_choice_or_figures(self):
        decided = text_of("docs/DECISIONS.md")
        entries = sections(decided, "####")
        self.assertGreater(len(entries), 200)
        for title, below in entries:
            entry = below.partition("\n##")[0]
            self.assertLessEqual(len(words_in(entry)), 120, title)
            if not re.match(r"\n\n(Replaced by|Gone with .*; see) \[", entry):
                for part in ("*Question.* ", "*Choice.* "):
                    self.assertEqual(entry.count(part), 1, title)
        for anchor in anchors_of("\n".join(f"#### {title}" for title, _ in entries)):
            self.assertEqual(anchors_of(decided).count(anchor), 1, anchor)
        ideas = re.findall(r"(?m)^- .*$", text_of("docs/TRIED.md"))
        self.assertGreater(len(ideas), 40)
        for idea in ideas:
            self.assertRegex(idea, r"^- \*\*.*\*\*.*\((\[\w+\]\([\w./-]+\.md#[\w-]+\)(, )?)+\)$")
            self.assertLessEqual(len(words_in(idea)), 120, idea)

    def test_decisions_stand_in_the_areas_of_their_crates(self):
        areas = areas_in(text_of("crates.txt"))
        told = sections(text_of("docs/DECISIONS.md"), "##")
        self.assertEqual([name for name, _ in told], [name[0].upper() + name[1:] for name, _ in areas])
        every = {crate for _, crates in areas for crate in crates}
        for (area, crates), (_, below) in zip(areas, told):
            for heading, _ in sections(below, "###"):
                named = [word for word in heading.split() if word in every]
                self.assertTrue(named or heading in ("All crates", "The tools"), heading)
                self.assertLessEqual(set(named), set(crates), f"{area}: {heading}")

    def test_the_first_page_is_short(self):
        self.assertLessEqual(len([word for word in text_of("README.md").split() if re.search(r"\w", word)]), 1700)

    def test_what_is_asked_first_is_answered_where_one_looks_first(self):
        for question, (document, words) in ANSWERS.items():
            self.assertIn(words, " ".join(text_of(document).split()), f"{document}: {question}?")

    def test_no_sentence_is_long(self):
        for document in HELD:
            found = [words for words in sentences_in(text_of(document)) if words]
            for words in found:
                self.assertLessEqual(len(words), 40, f"{document}: {' '.join(words)}")
                told = [re.sub(r"\W", "", word).lower() for word in words]
                self.assertLess(told.count("where"), 2, f"{document}: {' '.join(words)}")
            self.assertLessEqual(sum(map(len, found)), 25 * len(found), document)

    def test_no_word_stops_a_reader(self):
        for document in HELD:
            text = text_of(document).partition("\n**English.**")[0]
            for word in ("want of memory", "wants? memory", "memory (?:is|was|may be) wanting", "dear(?:er|est)?"):
                self.assertEqual([text[at.start() - 40:at.end()] for at in re.finditer(rf"\b(?:{word})\b", text)], [], document)

    def test_sentences_are_told_apart(self):
        for text, wanted in (
                ("One two. Three `four five`!\n\n- Six\n  seven: *eight*.\n- (Nine.) Ten", [2, 2, 3, 1, 1]),
                ("# No\n\n| no | no |\n|---|---|\n\n```text\nno. No\n```\nYes, e.g. 0.5 of [a b](c d.md). *So* it is", [6, 3]),
        ):
            self.assertEqual([len(words) for words in sentences_in(text) if words], wanted, text)

    def test_the_first_example_has_the_stored_rules(self):
        shown = text_of("README.md").partition("```text\n")[2].partition("```")[0].splitlines()
        stored = [line.partition("#")[0].rstrip() for line in text_of("examples/laptop.rules").splitlines()]
        self.assertEqual(shown, [line for line in stored if line])

    def test_the_first_page_has_figures_that_were_measured(self):
        measured = {}
        for row in man.table(man.chapter(text_of("bench/RESULTS.md"), "The table"), ""):
            _, family, size, seed, groups, _, _, sets, seconds, memory, status, _, baseline, *_ = row
            if status == "complete":
                measured[f"{family} {size} {seed}"] = [groups, str(sum(map(int, sets.split("+")))), seconds, memory, baseline]
        rows = man.table(text_of("README.md"), "Problem")
        self.assertEqual(len(rows), 6)
        for name, *figures in rows:
            self.assertEqual(figures, measured[name], name)

    def test_the_launcher_and_the_formats_have_the_words_of_the_first_page(self):
        readme = text_of("README.md")
        usage = text_of("gmus").partition("<<'END'\n")[2].partition("END\n")[0].split("\n")[:-1]
        self.assertLessEqual(len(usage), 15)
        commands = man.synopsis(readme)
        self.assertEqual(usage[:len(commands)], [("usage: " if not at else "       ") + it for at, it in enumerate(commands)])
        wanted = [f"  {option.strip('`'):16} {says}" for option, says, _ in man.table(readme, "Option")]
        self.assertEqual(usage[len(commands):len(commands) + len(wanted)], wanted)
        self.assertIn(usage[-2].rstrip("."), readme)
        self.assertIn("```text\n" + "\n".join(commands) + "\n```", text_of("docs/FORMATS.md"))
        passed_on = re.search(r"(?m)^    ([a-z |]+)\) ;;$", text_of("gmus"))[1]
        self.assertEqual(passed_on.split(" | "), [it.split()[1] for it in commands])

    def test_the_definitions_are_the_ones_that_are_made(self):
        self.assertEqual(definitions.lacking(), [])
        self.assertEqual(definitions.page(), text_of("docs/DEFINITIONS.md"),
                         "dev/definitions.py > docs/DEFINITIONS.md makes it anew")

    def test_words_of_definitions_are_those_above_them(self):
        text = "-- Head (source).\n-- More.\nuse A.{b}\n\n-- one\n-- and more\nabbrev pub A : B\nA = 1\n\nunfoldable pub c : B\n\n" \
               "-- ---- part\n\npub lemma : c\n\n-- ---- part\n-- three\npub record D (x : N) : Type where\n  -- no\n  pub e : N\n\n" \
               "-- no\n\npub data F : Type where\n"
        self.assertEqual(definitions.definitions_in(text), ("Head (source). More.", [
            ("A", "one and more"), ("c", ""), ("D", "three"), ("F", "")]))

    def test_each_part_of_a_version_stands_once(self):
        for version, below in sections(text_of("CHANGELOG.md"), "##"):
            parts = [name for name, _ in sections(below, "###")]
            self.assertEqual(len(parts), len(set(parts)), version)
            if version == "Next":
                self.assertEqual(parts, ["New", "Different", "Quicker, and in less memory", "For whoever changes it"])

    def test_the_man_page_is_the_one_that_is_made(self):
        self.assertEqual(man.page(), text_of("docs/gmus.1"), "dev/man.py > docs/gmus.1 makes it anew")

    @unittest.skipUnless(shutil.which("groff"), "no groff: how the man page looks is not tried")
    def test_the_man_page_is_set_without_a_warning(self):
        ended = subprocess.run(["groff", "-man", "-ww", "-Tutf8", os.path.join(TOP, "docs", "gmus.1")], check=False,
                               stdout=subprocess.PIPE, stderr=subprocess.PIPE, universal_newlines=True)
        self.assertEqual((ended.returncode, ended.stderr), (0, ""))
        page = re.sub(".\b", "", ended.stdout)
        for words in ("SYNOPSIS", "gmus check FILE EVIDENCE", "--evidence FILE", "gmus: out of memory"):
            self.assertIn(words, page)

    def test_texts_of_markdown_become_those_of_man_pages(self):
        for text, wanted in (
                ("a `b-c` d", r"a \fBb\-c\fR d"),
                ("see [the `x` page](docs/x.md), **now**", r"see the \fBx\fR page, now"),
                (".so", r"\&.so"),
                ("'it", r"\&'it"),
                ("a\\b", r"a\eb"),
        ):
            self.assertEqual(man.roff(text), wanted, text)

    def test_the_documents_have_the_areas_of_the_crates(self):
        areas = areas_in(text_of("crates.txt"))
        self.assertEqual(len(areas), 8)
        self.assertEqual(sorted(it for _, crates in areas for it in crates), sorted(below_in(text_of("crates.txt"))))
        names = [name[0].upper() + name[1:] for name, _ in areas]
        for document, mark in (("docs/PROVED.md", "##"), ("docs/ARCHITECTURE.md", "###"), ("docs/DEFINITIONS.md", "##")):
            found = [it for it in sections(text_of(document), mark) if it[0] in names]
            self.assertEqual([name for name, _ in found], names, document)
            for (_, crates), (name, below) in zip(areas, found):
                told = re.findall(r"(?m)^(?:### |\| `)(\w+)\b", below)
                if document != "docs/DEFINITIONS.md":
                    self.assertEqual([it for it in told if it in crates], crates, f"{document}, {name}")
        table = text_of("README.md").partition("## What is proved")[2].partition("\n## ")[0]
        rows = re.findall(r"(?m)^\| ([A-Z][^:|]*): ([^|]*) \|", table)
        self.assertEqual([(name.partition(",")[0], crates.split(", ")) for name, crates in rows],
                         [(name, crates) for name, (_, crates) in zip(names, areas)])

    def test_the_drawing_has_each_crate_and_its_arrows_are_of_the_list(self):
        below = below_in(text_of("crates.txt"))
        drawing = text_of("docs/ARCHITECTURE.md").partition("```text\n")[2].partition("```")[0]
        self.assertEqual(set(below) - set(re.findall(r"\w+", drawing)), set())
        arrows = re.findall(r"(\w+) ──▶ (?=(\w+))", drawing) + [it[::-1] for it in re.findall(r"(\w+) ◀── (?=(\w+))", drawing)]
        self.assertGreater(len(arrows), 20)
        for upper, lower in arrows:
            self.assertIn(lower, below[upper], upper)
        for name, _ in areas_in(text_of("crates.txt")):
            self.assertRegex(drawing, f"(?m)(^ |  ){name[0].upper() + name[1:]}(  |$)")

    def test_crates_with_more_lines_than_a_new_one_may_have_are_named(self):
        told = re.search(r"Of the program's crates, these are longer: (.*?)\. ", text_of("CONTRIBUTING.md"))[1]
        longer = set()
        for crate in below_in(text_of("crates.txt")):
            sources = [os.path.join(folder, name) for folder, _, names in os.walk(os.path.join(TOP, "crates", crate, "src"))
                       for name in names if name.endswith(".rt")]
            if sum(text_of(os.path.relpath(source, TOP)).count("\n") for source in sources) > 1500:
                longer.add(crate)
        self.assertEqual(longer - set(re.findall(r"\w+", told)), set())

    def test_files_of_crates_that_are_named_are_there(self):
        for document in ("CONTRIBUTING.md", "docs/ARCHITECTURE.md", "docs/PROVED.md"):
            for name in re.findall(r"`(\w+/(?:src|specs|data|must-fail)/[\w./]*)`", text_of(document)):
                if "NAME" not in name:
                    self.assertTrue(os.path.exists(os.path.join(TOP, "crates", name)), f"{document}: {name}")

    def test_the_crates_above_the_store_are_told(self):
        below = below_in(text_of("crates.txt"))
        above = {"clause_store"}
        while True:
            more = {crate for crate, crates in below.items() if above & set(crates)} - above
            if not more:
                break
            above |= more
        told = re.search(r"Above `clause_store`, say, stand (.*?)\.\n", text_of("docs/ARCHITECTURE.md"))[1]
        self.assertEqual(set(re.findall(r"`(\w+)`", told)), above - {"clause_store"})

    def test_no_chain_of_crates_is_longer_than_eight(self):
        below = below_in(text_of("crates.txt"))

        def length(crate):
            return 1 + max(map(length, below[crate]), default=0)

        self.assertEqual({crate: length(crate) for crate in below if length(crate) > 8}, {})

    def test_each_example_is_told_of(self):
        for name in os.listdir(os.path.join(TOP, "examples")):
            if name.endswith((".gcnf", ".cnf")):
                self.assertIn(name, text_of("examples/README.md"))


if __name__ == "__main__":
    unittest.main()
