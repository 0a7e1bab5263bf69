#!/usr/bin/env python3
"""Tests of the page: its text, and what a browser shows of it. What is wanted was worked out by hand."""
import html
import html.parser
import json
import os
import re
import shutil
import subprocess
import tempfile
import unittest

from places import EXAMPLES
from gmus_tools import page, report

BROWSER = next(filter(None, map(shutil.which, ("chromium", "chromium-browser", "google-chrome", "chrome"))), None)
# A phone, a tablet and a desktop.
SIZES = ((390, 844), (768, 1024), (1200, 800))

BOX, BUTTON = "input", "button"
# Rules of the first example, as links have them.
CARD, CASE, TOUCH = "a%20graphics%20card", "the%20light%20case", "a%20touch%20screen"

# Texts that would be markup, an end of the script, or an end of its line, if they were not escaped.
HOSTILE = ("<script>alert(\"1\")</script> & 'x'", "</script><b>bold</b>", "<!-- <script> -->", "]]></noscript></title>", "a\u2028b\u2029c",
           "&lt;not a tag&gt; &amp;", "\\u003c \\\" \\", "{} {0} %s ${1}", "__proto__", "W" * 10000)


def laptop():
    with open(os.path.join(EXAMPLES, "laptop.report")) as text, open(os.path.join(EXAMPLES, "laptop.gcnf")) as problem:
        return shown(text.read(), problem.read(), "laptop.gcnf")


def shown(text, problem="", file="t"):
    return report.Named(report.Report(text), report.Origin(problem, file))


def hostile():
    """A report whose rules have the hostile names, each in a conflict with the first."""
    many = len(HOSTILE)
    sets = "".join(f"u 1 {at} 0\n" for at in range(2, many + 1)) + "m 1 0\n" + f"m {' '.join(map(str, range(2, many + 1)))} 0\n"
    origin = report.Origin("", HOSTILE[0].replace("/", ""))
    origin.names.update(enumerate(HOSTILE, 1))
    return report.Named(report.Report(f"p gmus {many}\ns COMPLETE\n{sets}e {many - 1} 2\n"), origin)


def contrast(one, other):
    """The contrast of two colours."""
    lights = sorted(map(light, (one, other)))
    return (lights[1] + 0.05) / (lights[0] + 0.05)


def light(colour):
    """The relative luminance of a colour."""
    digits = colour[1:] if len(colour) == 7 else "".join(2 * digit for digit in colour[1:])
    parts = [int(digits[at:at + 2], 16) / 255 for at in (0, 2, 4)]
    return sum(share * (part / 12.92 if part <= 0.04045 else ((part + 0.055) / 1.055) ** 2.4) for share, part in zip((0.2126, 0.7152, 0.0722), parts))


class Elements(html.parser.HTMLParser):
    """What a page has: its tags, whether each is closed, its links, its places, and its data."""

    def __init__(self, text):
        super().__init__()
        self.opened, self.seen, self.links, self.places, self.data = [], [], set(), set(), ""
        self.feed(text)
        self.close()

    def handle_starttag(self, tag, attrs):
        self.seen.append(tag)
        if tag not in ("meta", "br"):
            self.opened.append(tag)
        self.links.update(value for name, value in attrs if name == "href")
        self.places.update("#" + value for name, value in attrs if name == "id" and (value.startswith("g") or tag == "h2"))
        self.in_data = ("id", "data") in attrs

    def handle_endtag(self, tag):
        assert self.opened.pop() == tag, tag

    def handle_data(self, text):
        if self.opened[-1:] == ["script"] and self.in_data:
            self.data += text


class Text(unittest.TestCase):
    def test_page_closes_what_it_opens_and_its_links_lead_somewhere(self):
        for made, rules in ((laptop(), 7), (hostile(), len(HOSTILE))):
            found = Elements(page.as_html(made))
            self.assertEqual((found.opened, found.links - found.places, len(found.places)), ([], set(), rules + 2))
        self.assertIn('<p><a href="#conflicts" data-to="conflicts">5 conflicts</a> and <a href="#corrections" data-to="corrections">6 corrections</a>. '
                      "The report is complete: there are no others.</p>", page.as_html(laptop()))
        one = page.as_html(shown("p gmus 2\ns PARTIAL\nu 1 2 0\ne 1 0\n"))
        self.assertIn('<p><a href="#conflicts" data-to="conflicts">1 conflict</a> and 0 corrections were found.', one)

    def test_names_are_text_whatever_they_hold(self):
        made = page.as_html(hostile(), {(1, 2): [(None, ["</script>"]), (HOSTILE[0], ["<!-- <b>"])]})
        found = Elements(made)
        self.assertEqual(found.seen.count("script"), 3)    # the beginning, the data, and the program
        self.assertEqual([tag for tag in found.seen if tag in ("b", "noscript")], [])
        data = json.loads(found.data)
        self.assertEqual(sorted(data["names"]), sorted(HOSTILE))
        self.assertEqual((data["lines"], data["reasons"][0]), (["</script>", "<!-- <b>"], [[None, [0]], [HOSTILE[0], [1]]]))
        for char in "<>&\u2028\u2029":
            self.assertNotIn(char, found.data)
        for name in HOSTILE[1:]:
            self.assertIn(f"<td>{html.escape(name)}</td>", made)

    def test_colours_stand_apart(self):
        # the contrast of WCAG 2, of texts on both grounds, by day and by night; black on white has 21
        self.assertEqual([round(contrast(*pair), 1) for pair in (("#000", "#fff"), ("#777", "#fff"))], [21, 4.5])
        schemes = [dict(re.findall(r"--(\w+): (#[0-9a-f]+)", block)) for block in re.findall(r":root \{([^}]*)\}", page.part("page.css"))]
        self.assertEqual(len(schemes), 3)
        for colours in schemes:
            for text in ("ink", "pale", "good", "bad", "link"):
                for ground in ("paper", "shade") if text in ("ink", "pale") else ("paper",):
                    self.assertGreaterEqual(contrast(colours[text], colours[ground]), 4.5, (text, ground))

    def test_page_stands_by_itself(self):
        made = page.as_html(laptop())
        for outside in ("http", "src=", "url(", "@import", "fetch(", "import("):
            self.assertNotIn(outside, made)

    def test_what_came_to_always_is_seen_with_scripts_and_without(self):
        made = page.as_html(shown("p gmus 1\ns COMPLETE\nu 1 0\nm 1 0\ne 1 1\n", "p gcnf 1 1 1\nc always 3 a implies <b>\n{1} 1 0\n"))
        self.assertIn("<p>What came to [always] since stands with the rules that need it:</p>\n<ul>\n"
                      "<li>line 3, with group 1: a implies &lt;b&gt;</li>\n</ul>\n<div id=\"plain\">", made)

    def test_without_scripts_it_has_the_whole_report(self):
        plain = page.as_html(laptop(), {(1, 2): [(None, ["touch implies glossy"])]}).partition('<main id="decide">')[0]
        text = " ".join(html.unescape(plain).replace("</li>", ";").replace("<", " <").split())
        for wanted in ('<h2 id="conflicts">Conflicts', '<h2 id="corrections">Corrections',
                       '<td class="n">3 </td> <td>a graphics card </td> <td class="n">3 </td> <td class="n">4 </td>',
                       "<dt>always </dt> <dd>touch implies glossy </dd>"):
            self.assertIn(wanted, text)
        self.assertEqual(plain.count("<a href="), 5 * 2 + 4 * 3 + 2 * 4 + 2)

    def test_where_nothing_can_be_chosen_there_are_no_scripts(self):
        for text, wanted in (("COMPLETE\nm 0\ne 0 1", "Nothing clashes"), ("COMPLETE\nu 0\ne 1 0", "The background clashes"),
                             ("COMPLETE\nu 0\ne 1 0", "<dd>x and not x</dd>"), ("PARTIAL\ne 0 0", "In none so far: group 1; group 2.")):
            made = page.as_html(shown(f"p gmus 2\ns {text}\n"), {(): [(None, ["x and not x"])]})
            self.assertIn(wanted, made)
            self.assertNotIn("<script", made)


class Left:
    """What corrections leave, in the form of configurations.Configurations: variable 7 is n7."""

    def __init__(self, found):
        self.found, self.names = found, {each: f"n{each}" for each in range(1, 100)}

    def of(self, groups):
        found = self.found.get(tuple(groups))
        return None if found is None else [self.names[each] for each in found]


def weighed():
    """A report with weights and a rule that is kept: 1 weighs 5, 3 weighs 3, and 2 is kept."""
    return shown("p gmus 4\ns COMPLETE\nu 1 2 0\nu 3 4 0\nm 1 3 0\nm 1 4 0\nm 2 3 0\nm 2 4 0\ne 2 4\n",
                 "c group 1 a\nc weight 1 5\nc group 2 b\nc keep 2\nc weight 3 3\np gcnf 1 1 4\n")


class Preferences(unittest.TestCase):
    def test_corrections_come_by_weight_and_those_that_give_up_what_is_kept_are_left_out(self):
        found = Elements(page.as_html(weighed()))
        data = json.loads(found.data)
        self.assertEqual([data[key] for key in ("rules", "weights", "kept", "corrections")],
                         [[1, 2, 3, 4], [5, 1, 3, 1], [2], [[1, 4], [1, 3]]])
        made = page.as_html(weighed())
        for wanted in ('<th class="n">weight</th>', '<td class="n">2</td><td class="n">keep</td></tr>', '<td class="n">2</td><td class="n">5</td></tr>',
                       "<p>2 corrections are left out: each gives up a rule that is to be kept.</p>", "</ul> (weight 6)</li>", "</ul> (weight 8)</li>",
                       "The one of the least weight comes first."):
            self.assertEqual(made.count(wanted), 1, wanted)
        self.assertEqual([json.loads(Elements(page.as_html(laptop())).data)[key] for key in ("weights", "kept")], [None, []])
        self.assertNotIn("weight</th>", page.as_html(laptop()))
        self.assertIn('<ul><li><a href="#g1">a</a></li><li><a href="#g2">b</a> (to be kept)</li></ul>', made)


class Scripts(unittest.TestCase):
    """The scripts that touch no page."""

    SCRIPTS = ("page_choices.js", "page_address.js")

    def told(self, made, steps):
        """What is told after each of these steps, which are lines of script."""
        seen = "[outcome().fitting.map(at => at + 1), verdict(outcome())[1], fitLine(outcome()), address()]"
        return self.asked(made, [f"({step}, {seen})" for step in steps])

    def asked(self, made, asked):
        """The values of these, one after the other."""
        begin = ("const document = {getElementById: () => ({textContent: %s})}, location = {hash: ''}, history = {replaceState() {}};\n"
                 % json.dumps(json.dumps(page.data(made, [[] for _ in made.conflicts]))))
        text = begin + "".join(map(page.part, self.SCRIPTS)) + f"\nconsole.log(JSON.stringify([{', '.join(asked)}]));"
        return json.loads(subprocess.run(["node", "-e", text], stdout=subprocess.PIPE, check=True).stdout)


@unittest.skipUnless(shutil.which("node"), "no Node is there to try the choices of the page with")
class Choices(Scripts):
    """What page_choices.js says, without a page."""

    def test_what_is_kept_stays_so_and_the_lightest_comes_first(self):
        self.assertEqual(self.told(weighed(), ["readAddress()", "choose('give', 2, true)", "choose('keep', 2, false)", "choose('give', 4, true)",
                                               "choose('give', 1, true)", "startOver()", "choose('keep', 1, true)",
                                               "location.hash = '#give=2,3', readAddress()"]), [
            [[1, 2], "2 conflicts remain.", "2 corrections fit. The one of the least weight, 6, gives up 2 rules.", ""],
            [[1, 2], "2 conflicts remain.", "2 corrections fit. The one of the least weight, 6, gives up 2 rules.", ""],
            [[1, 2], "2 conflicts remain.", "2 corrections fit. The one of the least weight, 6, gives up 2 rules.", ""],
            [[1, 2], "1 conflict remains.", "2 corrections fit. The one of the least weight, 5, gives up 1 rule more.", "give=group%204"],
            [[1, 2], "Nothing clashes any more: all other rules fit together.", "", "give=group%204,a"],
            [[1, 2], "2 conflicts remain.", "2 corrections fit. The one of the least weight, 6, gives up 2 rules.", ""],
            [[], "All rules of conflict 1 are to be kept. One of them has to be given up.", "No correction fits.", "keep=a"],
            [[2, 1], "1 conflict remains.", "2 corrections fit. The one of the least weight, 5, gives up 1 rule more.", "give=group%203"]])

    def test_what_a_correction_leaves_is_read_from_digits(self):
        made = laptop()
        made.left = Left({(1, 3, 5): [7], (1, 3, 6): [], (2, 3, 5): [1, 2, 4, 5, 7]})
        asked = self.asked(made, ["data.corrections.map((_, at) => leftBy(at))"])
        self.assertEqual(asked, [[["n7"], [], ["n1", "n2", "n4", "n5", "n7"], None, None, None]])
        self.assertEqual(self.asked(laptop(), ["leftBy(0)"]), [None])

    def test_without_weights_the_smallest_comes_first(self):
        self.assertEqual(self.told(laptop(), ["readAddress()", "choose('keep', 3, true)"]), [
            [[1, 2, 3, 4, 5, 6], "5 conflicts remain.", "6 corrections fit. The smallest gives up 3 rules.", ""],
            [[5, 6], "5 conflicts remain.", "2 corrections fit. The smallest gives up 4 rules.", "keep=a%20graphics%20card"]])

    def test_what_follows_from_what_is_kept_and_given_up(self):
        none = {"go": [], "stay": [], "free": []}
        for made, rows in (
                (laptop(), (
                    ("keep 3", {"go": [5, 4, 7], "stay": [6], "free": [1, 2]}), ("keep 5", {"go": [3, 6], "stay": [4, 7], "free": [1, 2]}),
                    ("give 5", {"go": [], "stay": [], "free": [3, 1, 2, 4, 6, 7]}), ("keep 3, give 4", {"go": [5, 7], "stay": [6], "free": [1, 2]}),
                    ("keep 3, keep 1", {"go": [5, 2, 4, 7], "stay": [6], "free": []}),
                    # with both of a conflict kept nothing fits, and with a correction given up nothing is left to go
                    ("keep 1, keep 2", none), ("give 1, give 3, give 5", none))),
                (weighed(), (("", {"go": [1], "stay": [], "free": [3, 4]}), ("keep 4", {"go": [1, 3], "stay": [], "free": []}))),
                (shown("p gmus 4\ns PARTIAL\nu 1 2 0\nm 1 3 0\ne 1 1\n"), (("", {"go": [1, 3], "stay": [2], "free": []}),))):
            steps = ["".join(f"choose('{step[:4]}', {step[5:]}, true), " for step in told.split(", ") if step) for told, _ in rows]
            found = self.asked(made, [f"(startOver(), {step}follows(outcome()))" for step in steps])
            self.assertEqual(found, [wanted for _, wanted in rows])

    def test_corrections_come_by_weight_then_by_rules_then_as_they_stand(self):
        # 1 weighs 3 and 2 weighs as much as three others: so {1}, then {4, 5, 6} and {3, 4, 5}, once all weigh 3.
        made = shown("p gmus 6\ns PARTIAL\nm 1 0\nm 2 3 0\nm 2 4 0\nm 3 4 5 0\nm 4 5 6 0\ne 0 5\n", "c weight 1 3\nc weight 2 3\np gcnf 1 1 6\n")
        self.assertEqual(made.corrections, [[1], [3, 4, 5], [4, 5, 6], [2, 3], [2, 4]])
        self.assertEqual([each[0] for each in self.told(made, ["1", "choose('give', 2, true)", "choose('keep', 1, true)"])],
                         [[1, 2, 3, 4, 5], [4, 5, 1, 2, 3], [4, 5, 2, 3]])
        # sums that leave no room for places beside them
        calls = (("ordered([0, 1, 2], [9e15, 8e15, 9e15])", [1, 0, 2]), ("ordered([], [])", []), ("ordered([5, 7], {5: 2, 7: 1})", [7, 5]))
        self.assertEqual(self.asked(laptop(), [call for call, _ in calls]), [wanted for _, wanted in calls])

    def test_a_partial_report_claims_nothing_of_all(self):
        made = shown("p gmus 4\ns PARTIAL\nu 1 2 0\nm 1 3 0\ne 1 1\n", "c weight 1 5\np gcnf 1 1 4\n")
        self.assertEqual([each[2] for each in self.told(made, ["1", "choose('keep', 3, true)"])], [
            "1 correction of those that were found fits. The one of the least weight that was found, 6, gives up 2 rules.",
            "No correction that was found fits."])
        self.assertIn(" The one of the least weight that was found comes first.", page.as_html(made))
        self.assertNotIn("least weight comes first", page.as_html(made))


@unittest.skipUnless(shutil.which("node"), "no Node is there to try the links of the page with")
class Links(Scripts):
    """What page_address.js reads and writes."""

    SAME = ("p gmus 6\ns PARTIAL\nm 1 2 0\nm 3 5 0\nm 4 0\ne 0 3\n",
            "c group 1 ink\nc group 2 7\nc group 3 ink\nc group 4 a@2\nc group 5 ink\nc group 6 ink\np gcnf 1 1 6\n")

    def try_links(self, made, rows):
        """Of each row a link, and what is given up, kept and missing behind it, with the address then."""
        seen = "[[...chosen.give], [...chosen.keep], missing, address()]"
        found = self.asked(made, [f"(location.hash = {json.dumps(link)}, readAddress(), {seen})" for link, _ in rows])
        for (link, wanted), told in zip(rows, found):
            self.assertEqual(told, wanted, link[:60])

    def test_an_address_has_names_and_old_ones_are_read(self):
        self.try_links(laptop(), (
                ("#give=a%20graphics%20card&keep=no%20fan,the%20light%20case", [[3], [4, 5], [], "give=a%20graphics%20card&keep=no%20fan,the%20light%20case"]),
                ("#give=3,5&keep=1", [[3, 5], [1], [], "give=a%20graphics%20card,the%20light%20case&keep=a%20touch%20screen"]),
                ("#give=a graphics card", [[3], [], [], "give=a%20graphics%20card"]), ("#give=3&keep=3", [[], [3], [], "keep=a%20graphics%20card"]),
                ("#give=99,x,3.5,,&toString=1&keep", [[], [], ["99", "x", "3.5"], ""]), ("#give=a%20graphics%20card@2", [[], [], ["a graphics card@2"], ""]),
                ("#give=a%20graphics%20card@1", [[3], [], [], "give=a%20graphics%20card"]), ("#keep=%E0%A4,__proto__", [[], [], ["%E0%A4", "__proto__"], ""]),
                ("#", [[], [], [], ""]), ("", [[], [], [], ""])))

    def test_rules_of_one_name_are_told_apart_by_their_place(self):
        self.try_links(shown(*self.SAME), (
                ("#give=1,3,5", [[1, 3, 5], [], [], "give=ink@1,ink@2,ink@3"]), ("#give=ink@3&keep=ink@1", [[5], [1], [], "give=ink@3&keep=ink@1"]),
                # the fourth is in no set; one that had its name alone is the first; a name of digits is no number
                ("#give=ink@4,ink@5,ink", [[1], [], ["ink@4", "ink@5"], "give=ink@1"]), ("#give=7@1", [[2], [], [], "give=7@1"]),
                ("#give=7,2", [[2], [], ["7"], "give=7@1"]), ("#give=a%402", [[4], [], [], "give=a%402"]), ("#give=a@2", [[], [], ["a@2"], ""])))

    def test_names_come_back_whatever_they_hold(self):
        made = hostile()
        links = self.asked(made, [f"(startOver(), choose('give', {group}, true), address())" for group in range(1, len(HOSTILE) + 1)])
        for link in links:
            self.assertRegex(link, r"^give=[A-Za-z0-9_.!~*'()%-]+$")
        self.try_links(made, [("#" + link, [[group], [], [], link]) for group, link in enumerate(links, 1)])


# It clicks in each frame as its row says, and writes what each then shows.
HARNESS = """<!DOCTYPE html><meta charset="utf-8"><body>%s<pre id="told"></pre><script>
// Where things stand: how far down the corrections begin, in screens; where the names of the matrix stand once that is scrolled to
// its end; and what is reached by the keyboard, in its order, with the name that a screen reader says.
const placed = frame => {
    const inside = frame.contentDocument, all = query => Array.from(inside.querySelectorAll(query)), scroll = inside.querySelector(".scroll");
    const left = () => scroll?.querySelector("tbody th").getBoundingClientRect().left - scroll?.getBoundingClientRect().left;
    const before = left();
    if (scroll) scroll.scrollLeft = scroll.scrollWidth;
    const sticks = before === left(), scrolled = scroll?.scrollLeft;
    if (scroll) scroll.scrollLeft = 0;
    const reached = all("a[href], button, input, summary, [tabindex='0']").filter(it => it.checkVisibility() && !it.disabled && it.tabIndex >= 0);
    const name = it => (it.getAttribute("aria-label") || Array.from(it.labels || [], label => label.innerText).join(" ") || it.innerText || "").trim();
    const tops = reached.filter(it => !it.closest(".scroll")).map(it => it.getBoundingClientRect().top);
    return {
        down: inside.getElementById("here-corrections")?.getBoundingClientRect().top / frame.contentWindow.innerHeight,
        sticks, scrolled, reached: reached.length, nameless: reached.filter(it => !name(it)).map(it => it.outerHTML.slice(0, 80)),
        jumps: tops.filter((top, at) => at && top < tops[at - 1] - 40).length, positive: reached.filter(it => it.tabIndex > 0).length,
    };
};
addEventListener("load", async () => {
    const rows = %s, told = [];
    const settled = () => new Promise(done => setTimeout(done, 20));
    const tried = async (row, at) => {
        const frame = document.getElementById("f" + at), inside = frame.contentDocument;
        const all = (query) => Array.from(inside.querySelectorAll(query));
        for (const [query, text] of row.clicks) {
            const found = all(query).filter(it => it.checkVisibility() && (it.getAttribute("aria-label") || it.textContent).startsWith(text));
            if (query === "#search") {
                inside.querySelector(query).value = text;
                inside.querySelector(query).dispatchEvent(new Event("input"));
            } else if (found.length) {
                found[0].click();
            } else {
                return "nothing to click: " + text;
            }
            await settled();
        }
        if (row.prints) frame.contentWindow.dispatchEvent(new Event("beforeprint"));
        const items = head => all("section").filter(it => it.innerText.startsWith(head))
            .flatMap(it => Array.from(it.querySelector("ol").children, item => item.value));
        return {
            verdict: inside.getElementById("verdict")?.textContent, fit: inside.getElementById("fit")?.textContent,
            remain: items("Conflicts"), fitting: items("Corrections"), address: frame.contentWindow.location.hash,
            parts: all("section").map(it => it.id), heads: all("main h2").map(it => it.textContent),
            follows: all("#follows section").filter(it => it.checkVisibility()).map(it => [
                it.querySelector("h3").innerText, it.querySelector("p").innerText,
                Array.from(it.querySelectorAll("li"), rule => rule.innerText).join("; ")].join(" | ")),
            missing: inside.getElementById("missing")?.innerText, found: inside.getElementById("found")?.innerText,
            rows: all(".scroll tbody tr").filter(it => it.checkVisibility()).map(it => it.firstChild.innerText),
            copied: all(".copy").filter(it => /^(Copied|Selected)$/.test(it.textContent)).map(it => it.getAttribute("aria-label").replace(/^\\w+: /, "")),
            marks: all(".mark").map(it => it.textContent).filter(it => it),
            focus: inside.activeElement.getAttribute("aria-label") || inside.activeElement.innerText,
            ...placed(frame),
            ticked: all("input:checked").map(it => it.getAttribute("aria-label")),
            over: inside.documentElement.scrollWidth - frame.contentWindow.innerWidth, width: frame.contentWindow.innerWidth,
            plain: inside.getElementById("plain").checkVisibility(), reasons: all("details[open] dt, details[open] dd").map(it => it.innerText),
            printed: all("#printed li").length, bold: all("b").length, texts: all("main th span").map(it => it.textContent),
            others: all("details .matrix tbody th").map(it => it.textContent),
            whole: all(".rule details").map(it => it.lastChild.textContent),
            left: all("main .left").map(it => it.innerText),
        };
    };
    for (const [at, row] of rows.entries()) told.push(await tried(row, at));
    document.getElementById("told").textContent = JSON.stringify(told);
});
</script>"""


class Pages(unittest.TestCase):
    """Pages in a browser: each in a frame, with clicks, and what it then shows."""

    @classmethod
    def setUpClass(cls):
        cls.room = tempfile.TemporaryDirectory()

    @classmethod
    def tearDownClass(cls):
        cls.room.cleanup()

    @classmethod
    def at(cls, name):
        return os.path.join(cls.room.name, name)

    @classmethod
    def write(cls, name, text):
        with open(cls.at(name), "w", encoding="utf-8") as file:
            file.write(text)

    def browse(self, *words):
        return subprocess.run([BROWSER, "--headless", "--no-sandbox", "--disable-gpu", "--disable-dev-shm-usage", "--no-first-run",
                               f"--user-data-dir={self.at('profile')}", "--allow-file-access-from-files", *words],
                              stdout=subprocess.PIPE, stderr=subprocess.DEVNULL, timeout=600, check=False).stdout.decode()

    def tried(self, rows):
        """What each row's frame shows, once its clicks were made."""
        frames = "".join(f'<iframe id="f{at}" width="{row.get("width", 768)}" height="{row.get("height", 700)}" style="border: 0" '
                         f'src="{row["src"]}"></iframe>' for at, row in enumerate(rows))
        steps = [{"clicks": row.get("clicks", []), "prints": row.get("prints", False)} for row in rows]
        self.write("try.html", HARNESS % (frames, json.dumps(steps)))
        dumped = self.browse("--dump-dom", "--virtual-time-budget=9000", "file://" + self.at("try.html"))
        if '<pre id="told">' not in dumped:
            self.skipTest(f"{BROWSER} shows no page of {self.room.name}")
        return json.loads(html.unescape(dumped.partition('<pre id="told">')[2].partition("</pre>")[0]))

    def compare(self, rows):
        """Tries rows, each with what is wanted of it; and what holds of every one."""
        for (row, wanted), told in zip(rows, self.tried([row for row, _ in rows])):
            self.assertIsInstance(told, dict, (row, told))
            self.assertEqual({key: told[key] for key in wanted}, wanted, row)
            self.assertLessEqual(told["over"], 0, row)
            if row["src"] != "broken.html":
                self.assertEqual([told[key] for key in ("sticks", "nameless", "jumps", "positive")], [True, [], 0, 0], row)
                self.assertGreater(told["reached"], 4, row)
            if "height" in row:
                self.assertLessEqual(told["down"], 1, row)
                self.assertEqual(told["scrolled"] > 100, row["src"] == "many.html", row)


@unittest.skipUnless(BROWSER, "no Chromium is there to try the page in")
class Browser(Pages):
    """What a reader sees, and does by clicks."""

    @classmethod
    def setUpClass(cls):
        super().setUpClass()
        many = "".join(f"u {at} {at + 1} 0\n" for at in range(1, 1001))
        for name, made, reasons in (
                ("laptop", laptop(), {(1, 2): [(None, ["touch implies glossy"]), ("a touch screen", ["touch", "<b>"])]}),
                ("partial", shown("p gmus 4\ns PARTIAL\nu 1 2 0\nm 1 3 0\ne 1 1\n"), None), ("hostile", hostile(), None),
                ("many", shown(f"p gmus 1001\ns PARTIAL\n{many}e 1000 0\n"), None)):
            if name == "laptop":
                made.left = Left({(1, 3, 5): [7], (1, 3, 6): [], (2, 3, 5): list(range(1, 31))})
            cls.write(name + ".html", page.as_html(made, reasons))
        cls.write("broken.html", page.as_html(laptop()).replace("\nlayOut();\n", "\nnoSuchCall();\n"))

    def test_what_a_reader_sees_and_finds(self):
        rows = (
            ({"src": "laptop.html", "width": width, "height": height}, {
                "verdict": "5 conflicts remain.", "fit": "6 corrections fit. The smallest gives up 3 rules.", "remain": [1, 2, 3, 4, 5],
                "fitting": [1, 2, 3, 4, 5, 6], "width": width, "plain": False, "address": "", "ticked": [], "missing": "", "follows": [],
                "parts": ["follows-go", "follows-stay", "follows-free", "here-corrections", "here-conflicts"]}) for width, height in SIZES)
        rows = list(rows) + [
            ({"src": "laptop.html", "clicks": [["a", "6 corrections"]]}, {"focus": "Corrections that fit: 6 of 6", "address": "", "ticked": []}),
            ({"src": f"laptop.html#give={CARD}", "clicks": [["a", "5 conflicts"]]}, {
                "focus": "Conflicts that remain: 2 of 5", "address": f"#give={CARD}"}),
            ({"src": "laptop.html", "clicks": [["#search", "  CASE "]]}, {
                "rows": ["the light case"], "found": "1 rule has it.", "remain": [1, 2, 3, 4, 5]}),
            ({"src": "laptop.html", "clicks": [["#search", "x"], ["#search", ""]]}, {"found": "", "rows": [
                "a graphics card", "the light case", "a touch screen", "a matte screen", "no fan", "the large battery", "the budget line"]}),
        ]
        self.compare(rows)

    def test_what_follows_and_links(self):
        rows = [
            ({"src": "laptop.html", "clicks": [[BOX, "keep: a graphics card"]]}, {"marks": ["to be kept"] * 3, "follows": [
                "Has to go: 3 | Each correction that fits gives these up. | the light case; no fan; the budget line",
                "Can stay: 1 | No correction that fits gives these up. | the large battery",
                "Free: 2 | Some corrections that fit give these up, and others don\u2019t. | a touch screen; a matte screen"]}),
            ({"src": "partial.html#keep=group%202"}, {"follows": [
                "Has to go, as far as was found: 2 | Each correction that fits gives these up. | group 1; group 3"]}),
            ({"src": f"laptop.html#give={CARD},an%20old%20rule@2,9&keep={TOUCH}"}, {
                "missing": "This link names rules that are no more, or in no set: an old rule@2; 9.", "address": f"#give={CARD}&keep={TOUCH}",
                "ticked": ["give up: a graphics card", "keep: a touch screen", "keep: a touch screen"]}),
        ]
        self.compare(rows)

    def test_choices(self):
        rows = [
            ({"src": "laptop.html", "width": 360, "clicks": [[BOX, "give up: a graphics card"]]}, {
                "verdict": "2 conflicts remain.", "fit": "6 corrections fit. The smallest gives up 2 rules more.", "remain": [1, 5],
                "fitting": [1, 2, 3, 4, 5, 6], "address": f"#give={CARD}",
                "ticked": ["give up: a graphics card"]}),
            ({"src": "laptop.html", "clicks": [[BOX, "keep: a graphics card"]]}, {
                "verdict": "5 conflicts remain.", "fit": "2 corrections fit. The smallest gives up 4 rules.", "fitting": [5, 6], "address": f"#keep={CARD}"}),
            ({"src": "laptop.html", "clicks": [[BOX, "keep: a graphics card"], [BOX, "give up: a graphics card"]]}, {
                "fitting": [1, 2, 3, 4, 5, 6], "address": f"#give={CARD}"}),
            ({"src": "laptop.html#give=4,5,7", "clicks": []}, {
                "verdict": "1 conflict remains.", "remain": [1], "fitting": [5, 6, 1, 3, 2, 4],
                "fit": "6 corrections fit. The smallest gives up 1 rule more."}),
            ({"src": "laptop.html", "clicks": [[BUTTON, "give up correction 1"]]}, {
                "verdict": "Nothing clashes any more: all other rules fit together.", "fit": "", "remain": [], "fitting": [1],
                "address": f"#give={TOUCH},{CARD},{CASE}"}),
            ({"src": "laptop.html#give=1,3,5,7", "clicks": []}, {
                "verdict": "Nothing clashes any more: all other rules fit together.", "fit": "You give up 1 rule more than correction 1 does."}),
            ({"src": "laptop.html#keep=1,2", "clicks": []}, {
                "verdict": "All rules of conflict 1 are to be kept. One of them has to be given up.", "fit": "No correction fits.", "fitting": []}),
            ({"src": "laptop.html#give=1,3,5", "clicks": [[BUTTON, "give up no longer: the light case"]]}, {
                "verdict": "1 conflict remains.", "remain": [5], "address": f"#give={TOUCH},{CARD}"}),
            ({"src": "laptop.html#give=1&keep=2", "clicks": [[BUTTON, "start again"]]}, {"remain": [1, 2, 3, 4, 5], "ticked": []}),
            ({"src": "laptop.html#give=99,x,3.5,,&toString=1&keep", "clicks": []}, {
                "verdict": "5 conflicts remain.", "ticked": [], "missing": "This link names rules that are no more, or in no set: 99; x; 3.5."}),
        ]
        self.compare(rows)

    def test_what_opens_and_partial_reports(self):
        rows = [
            ({"src": "laptop.html", "clicks": [["summary", "Why"]]}, {
                "reasons": ["always", "touch implies glossy Copy", "a touch screen", "touch Copy", "<b> Copy"], "bold": 0}),
            ({"src": "laptop.html", "clicks": [["summary", "Why"], [BUTTON, "copy: <b>"]]}, {"copied": ["<b>"], "bold": 0}),
            ({"src": "laptop.html#give=3", "prints": True}, {"printed": 2 + 6}),
            ({"src": "laptop.html", "clicks": [["summary", "Left"]]}, {"left": [
                "Left, for example: n7", "Left, for example: nothing that has a name",
                f"Left, for example: {', '.join(f'n{at}' for at in range(1, 21))} and 10 more\n{', '.join(f'n{at}' for at in range(1, 31))}"]}),
            ({"src": "partial.html", "clicks": []}, {
                "verdict": "1 conflict remains. Others may exist.",
                "fit": "1 correction of those that were found fits. The smallest that was found gives up 2 rules.", "heads": [
                    "Corrections that fit: 1 of 1 that were found", "Conflicts that remain: 1 of 1 that were found"]}),
            ({"src": "partial.html#give=1", "clicks": []}, {
                "verdict": "No conflict that was found remains. Others may exist.",
                "fit": "1 correction of those that were found fits. The smallest that was found gives up 1 rule more."}),
            ({"src": "partial.html#give=1,3", "clicks": []}, {"verdict": "Nothing clashes any more: all other rules fit together."}),
            ({"src": "partial.html#keep=3", "clicks": []}, {"fit": "No correction that was found fits.", "fitting": []}),
        ]
        self.compare(rows)

    def test_long_names_and_lists(self):
        rows = [
            ({"src": "hostile.html", "width": 360}, {
                "bold": 0, "texts": [*HOSTILE[:-1], "W" * 119 + "\u2026"], "whole": ["W" * 10000]}),
            ({"src": "many.html", "width": 360, "clicks": [["#search", "199"], [BOX, "give up: group 199"]]}, {
                "verdict": "998 conflicts remain. Others may exist.", "remain": list(range(1, 21)), "address": "#give=group%20199",
                "others": ["group 199"], "found": "1 rule has it.", "rows": []}),
            ({"src": "many.html", "clicks": [[BUTTON, "Show 100 of 980 more conflicts"]]}, {"remain": list(range(1, 121))}),
            *(({"src": "many.html", "width": width, "height": height}, {"width": width}) for width, height in SIZES),
            ({"src": "many.html", "prints": True}, {"printed": 1000}),
            ({"src": "broken.html"}, {"plain": True}),
        ]
        self.compare(rows)

    def test_on_paper_the_lists_are_whole(self):
        self.browse("--print-to-pdf=" + self.at("many.pdf"), "file://" + self.at("many.html"))
        if not os.path.exists(self.at("many.pdf")):
            self.skipTest(f"{BROWSER} prints no page of {self.room.name}")
        with open(self.at("many.pdf"), "rb") as file:
            pages = len(re.findall(rb"/Type\s*/Page\b", file.read()))
        # 1,000 conflicts are lines of at least five millimetres each, and a page has at most 297.
        self.assertGreaterEqual(pages, 1000 * 5 // 297)


if __name__ == "__main__":
    unittest.main()
