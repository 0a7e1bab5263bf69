#!/usr/bin/env python3
"""Has the tools read inputs that were changed by chance: none may end in a traceback, and none may take 10 seconds.

    bench/try/mutate_tools.py [--rounds 10000] [--kinds rules,smt2,uvl,deb,reports,evidence,journals] [--seed 1] [--only KIND:NUMBER]

Of each kind of input some texts are changed: bytes, words, lines, numbers, encodings, depth and length. A tool reads each, in this
process, and has to end by one of its statuses. The seconds are of the processor. What smt2.py, uvl.py and deb.py write has to be rules, and what gcnf.py writes a
file that check_evidence.py reads. A round is made from the seed and its number alone, so --only makes one again. The program
that the variable GMUS names is called where [always] grows; without it those rounds are left out. Ends with 1 if something is
wrong, and says how to make it again. Needs Python 3.9.
"""
import argparse
import collections
import gzip
import os
import random
import signal
import sys
import tempfile
import traceback

from places import TOP
from checks.trying import tried
from gmus_tools import command, library_runs
from gmus_tools.evidence import check_evidence, journal
from gmus_tools.rules import language

SLOW, HUNG = 10, 300
STATUSES = {0, 1, 2, 3, 9, 10}


class Fault(Exception):
    """What is wrong with a round."""


class Hung(BaseException):
    """A round that doesn't end."""


def stored(name):
    with open(os.path.join(TOP, name), "rb") as file:
        return file.read()


# ---- texts to begin with

RULES = [stored("examples/" + name) for name in sorted(os.listdir(os.path.join(TOP, "examples"))) if name.endswith(".rules")] + [b"""\
[names]
a, b, "c d", e
[always]
exactly 2 of a, b, "c d"
#: plan.smt2:3
a implies b and never e or (a iff b)
[one] weight 3   # why
not (a or b) implies at most one of (a, b and e)
[two] keep
at least 3 of a, b, "c d", e
""", b"[r]\nat most 100 of " + b", ".join(b"x%d" % at for at in range(210)) + b"\n[s]\nx1 and not x2\n"]
SMT2 = [b"""\
(set-logic QF_UF) (set-info :source |a
 text|)
(declare-const p Bool) (declare-fun q () Bool) (declare-const |two words| Bool) (declare-const t0 Bool)
(define-fun f ((x Bool) (y Bool)) Bool (and x (not y)))
(define-const both Bool (and p q))
(assert (! (=> p (or q |two words|)) :named n1))
(assert (! (let ((x (xor p q)) (y p)) (ite x (f y q) (distinct p q x))) :named |n 2|))
(assert ((_ at-most 2) p q (not |two words|)))
(assert (! ((_ pbeq 1 1 1) p both) :named n3)) ; a comment
(assert (=> t0 (= p q)))
(check-sat) (get-unsat-core) (exit) rest
""", b"(declare-const a Bool)(declare-const c0 Bool)(declare-const c1 Bool)(assert (=> c0 a))(assert (=> c1 (not a)))(check-sat-assuming (c0 c1))"]
UVL = [b"""\
namespace Shop
include
    Boolean.group-cardinality
features
    Shop {abstract, price 5.20, tags [1, 'a', -3]}
        mandatory
            Pay
                alternative
                    Card
                    "Bank Transfer" {constraint !Card}
        optional
            Integer Stock
            Search {constraints [Pay, Card | Search]}
        [1..2]
            A
            B
constraints
    Card => Pay
    !(Search & A) <=> B // why
    Stock > 3
    sum(price) < 4 /* x */
"""]
WISHES = [b"# wishes\nSearch\n!Card\nA & B => Pay\n"]
INDEX = [b"""\
Package: web
Version: 2.0-1
Architecture: amd64
Depends: lib (>= 1.2), httpd:any | mini (<< 3),
 data
Pre-Depends: base
Conflicts: old
Description: a server
 that goes on

Package: lib
Version: 1:1.3~rc1-2
Architecture: amd64
Multi-Arch: same
Provides: httpd (= 2)

Package: mini
Version: 2
Architecture: i386
Status: install ok installed
Breaks: lib (<< 1)

Package: data
Version: 1

Package: base
Version: 1
"""]
ASKED = [b"web\nnot old\nlib (>= 1.0) | mini\nhttpd\n# none\nmini:i386\n"]
# what docs/FORMATS.md shows of version 3
LEAST = stored("docs/FORMATS.md").partition(b"```text\np gmev 3 ")[2].partition(b"```")[0]
FILES = {"least": (stored("examples/first.gcnf"), stored("examples/first.report"), b"p gmev 3 " + LEAST),
         "first": (stored("examples/first.gcnf"), stored("examples/first.report"), stored("examples/first.evidence")),
         "short": (stored("examples/first.gcnf"), stored("examples/first.report"), stored("examples/first_short.evidence")),
         "laptop": (stored("examples/laptop.gcnf"), stored("examples/laptop.report"), None),
         "meeting": (stored("examples/meeting.cnf"), stored("examples/meeting.report"), None)}
ROLES = b"p roles 4\nr 1 every\nr 2 some\nr 3 some\nr 4 some\n"
WORDS = {
    "rules": [b"[always]", b"[names]", b"[x] weight 3", b"[x] keep", b"[", b"]", b"#", b"#: f:3", b"(", b")", b",", b'"', b"\\", b"and", b"or",
              b"not", b"never", b"implies", b"iff", b"of", b"at most", b"at least", b"exactly", b"one", b"0", b"2", b"999999999", b"<=", b"=", b"+", b"xor",
              b"excludes", b"between", b"mutually exclusive", b"1.5", b"weight", b"keep"],
    "smt2": [b"(", b")", b"()", b"(_ at-most 1)", b"(_ pble 2 1 1)", b"(_ pbge", b"_", b"!", b":named", b"let", b"ite", b"=>", b"and", b"xor", b"distinct",
             b"true", b"false", b"Bool", b"Int", b"|", b"\"", b";", b"assert", b"declare-const", b"define-fun", b"push", b"exit", b"#b1", b"1.5", b"-1",
             b"assert_and_track", b"check-sat-assuming", b"forall", b"as"],
    "uvl": [b"features", b"constraints", b"mandatory", b"optional", b"or", b"alternative", b"[1..*]", b"[9]", b"{", b"}", b"[", b"]", b"(", b")", b"!", b"&", b"|",
            b"=>", b"<=>", b"==", b">", b"+", b"sum", b".", b"..", b"*", b"'", b"\"", b"//", b"/*", b"*/", b"Integer", b"Boolean", b"cardinality", b"imports",
            b"include", b"namespace", b"\t", b"    "],
    "deb": [b"Package:", b"Version:", b"Depends:", b"Provides:", b"Architecture: all", b"Multi-Arch: foreign", b"Status: x", b"(>= 1)", b"(<< ", b"(= 1:2-3)", b"|",
            b",", b"not", b"not ", b"a=1.2", b"a/suite", b":any", b":i386", b"[amd64]", b"<!x>", b"~", b":", b"-", b" x", b"\n\n", b"#"],
    "reports": [b"p gmus 4", b"p roles 4", b"s COMPLETE", b"s PARTIAL", b"u", b"m", b"e", b"0", b"1", b"u 0", b"m 0", b"r 1 some", b"every", b"c group 1 x",
                b"c weight 1 9", b"c keep 2", b"c always 3 x", b"c rule 3 x", b"c from 3 x", b"p gcnf 2 4 4", b"p cnf 1 1", b"{1}", b"%"],
    "evidence": [b"p gmev 2 2 4 4", b"p gmev 3 2 4 4", b"e conflicts 2", b"e corrections 2", b"conflicts", b"2147483647", b"2147483648", b"u", b"m", b"d", b"r", b"w", b"t", b"x", b"e complete", b"e partial", b"0", b"1", b"-1", b"5", b"t 1 1", b"r 0 5",
                 b"9223372036854775807", b"18446744073709551615", b"c rule 3 x", b"c always 1 y", b"{1}"],
    "journals": [b"\0", b"\1", b"\0" * 7 + b"\5", b"u 1 2 0\n", b"m 1 0\n", b"w 0 0\n", b"r 0 5\n", b"d 5 -3 -4 0 1 2 0\n", b"\xff" * 8],
}
ODD = [b"\0", b"\xff", b"\xc3", "ä".encode(), "٣".encode(), "²".encode(), "日本".encode(), "\u2028".encode(), "\u202e".encode(), "\u0430".encode(), b"\r", b"\r\n",
       b"\t", b"\f", b"\x1b[2J", b"9" * 30, b"9" * 5000, b"0" * 5000, b"-0", b"-", b"1e9", "е\u0301".encode(), b"\xef\xbb\xbf"]


# ---- changes

def change(chance, kind, text, others):
    """One change of a text."""
    how = chance.randrange(11)
    at, to = sorted(chance.randint(0, len(text)) for _ in range(2))
    if how == 0 and text:
        place = chance.randrange(len(text))
        return text[:place] + bytes([chance.randrange(256)]) + text[place + 1:]
    if how == 1:
        return text[:at] + text[at + chance.choice([1, 1, 2, 5, 40]):]
    if how == 2:
        return text[:at] + chance.choice([b"", b" ", b"\n"]) + chance.choice(WORDS[kind] + ODD) + chance.choice([b"", b" ", b"\n"]) + text[at:]
    if how in (3, 4):
        return change_line(chance, kind, text)
    if how == 5:
        return change_word(chance, kind, text)
    if how == 6:
        return text[:to]
    if how == 7:
        return text[:at] + chance.choice(others)[-chance.randint(0, 400):] + text[to:]
    if how == 8:
        part = text[at:min(to, at + 60)]
        return text[:at] + part * chance.choice([2, 3, 50, 2000]) + text[at:]
    if how == 9:
        deep = chance.choice([5, 300, 5000])
        begin, end = chance.choice([(b"(", b")"), (b"(not ", b")"), (b"(a or (", b"))"), (b"[", b"]"), (b"{", b"}"), (b"not ", b""), (b"(let ((x ", b")) x)")])
        return text[:at] + begin * deep + text[at:to] + end * deep + text[to:]
    return in_another_form(chance, text)


def change_line(chance, kind, text):
    lines = text.split(b"\n")
    at = chance.randrange(len(lines))
    how = chance.randrange(5)
    if how == 0:
        del lines[at]
    elif how == 1:
        lines.insert(chance.randrange(len(lines)), lines[at])
    elif how == 2:
        other = chance.randrange(len(lines))
        lines[at], lines[other] = lines[other], lines[at]
    elif how == 3:
        lines[at] = b" ".join(chance.choice(WORDS[kind] + lines[at].split()) for _ in range(chance.randint(0, 9)))
    else:
        lines[at] = chance.choice([b" ", b"\t", b"   "]) + lines[at]
    return b"\n".join(lines)


def change_word(chance, kind, text):
    words = text.split(b" ")
    at = chance.randrange(len(words))
    words[at] = chance.choice([*WORDS[kind], *ODD, chance.choice(words), b"", b"%d" % chance.choice([0, 1, -1, 3, 5, 2 ** 31, 2 ** 63, 10 ** 30])])
    return b" ".join(words)


def in_another_form(chance, text):
    """The text in another encoding, packed, or with other line ends."""
    form = chance.randrange(6)
    try:
        if form < 3:
            return text.decode().encode(("utf-16", "latin-1", "utf-8-sig")[form], "replace")
    except UnicodeDecodeError:
        return text
    return (gzip.compress(text, mtime=0), text.replace(b"\n", b"\r\n"), text + b"\n" * 1000)[form - 3]


def changed(chance, kind, texts):
    """One of the texts, changed a few times."""
    text = chance.choice(texts)
    for _ in range(chance.choice([0, 1, 1, 2, 3, 6])):
        text = change(chance, kind, text, texts)[:200_000]
    return text


# ---- rounds

def write(name, held):
    with open(name, "wb") as file:
        file.write(held)


def ends_well(tool, *words):
    """Runs a tool, and gives its status and its output."""
    try:
        found = tried(tool, *words)
    except Exception:
        raise Fault(f"{tool} {' '.join(words)}: {traceback.format_exc()}") from None
    if found is None or found[0] not in STATUSES:
        raise Fault(f"{tool} {' '.join(words)}: it ended with {found and found[0]}")
    if "Traceback" in found[2]:
        raise Fault(f"{tool} {' '.join(words)}: {found[2]}")
    return found


def want_rules(text):
    """What a reader of another language writes has to be rules."""
    try:
        language.read(text, "made")
    except command.Refused as why:
        if not str(why).startswith("made: line ") or "more than" not in str(why):
            raise Fault(f"what was written is no rules: {why}") from None


def try_rules(chance):
    text = changed(chance, "rules", RULES)
    write("in", text)
    how = chance.randrange(8)
    if how == 0 and os.environ.get("GMUS"):
        old = chance.choice(RULES)
        status, made, _ = with_rules(old)
        write("old", made.encode() if chance.random() < 0.5 else changed(chance, "reports", [made.encode()]))
        write("in", changed(chance, "rules", [old, text]))
        return ends_well("gcnf.py", "--after", "old", "in")[0]
    status, made, _ = ends_well("gcnf.py", "in", *(["--strict"] if how == 1 else []))
    if status == 0:
        try:
            check_evidence.problem_in(made, "made")
        except command.Refused as why:
            raise Fault(f"what gcnf.py wrote is no GCNF: {why}") from None
    return status


def with_rules(text):
    write("rules", text)
    return ends_well("gcnf.py", "rules")


def try_smt2(chance):
    write("in", changed(chance, "smt2", SMT2))
    status, made, _ = ends_well("smt2.py", "in", *chance.choice([[], ["--each"], ["--tracked"], ["--each", "--tracked"]]))
    if status == 0:
        want_rules(made)
    return status


def try_uvl(chance):
    is_model = chance.random() < 0.7
    write("in", changed(chance, "uvl", UVL) if is_model else UVL[0])
    write("wishes", changed(chance, "uvl", WISHES) if not is_model or chance.random() < 0.3 else WISHES[0])
    status, made, _ = ends_well("uvl.py", "in", *chance.choice([[], ["wishes"]] if is_model else [["wishes"]]), *chance.choice([[], ["--skip"], ["--skip"]]))
    if status == 0:
        want_rules(made)
    return status


def try_deb(chance):
    is_index = chance.random() < 0.6
    write("in", changed(chance, "deb", INDEX) if is_index else INDEX[0])
    write("wishes", ASKED[0] if is_index and chance.random() < 0.7 else changed(chance, "deb", ASKED))
    status, made, _ = ends_well("deb.py", "in", "wishes", *chance.choice([[], ["--arch", "amd64"], ["--arch", "amd64"]]))
    if status == 0:
        want_rules(made)
    return status


def try_reports(chance):
    file, report, _ = chance.choice(list(FILES.values()))
    is_file = chance.random() < 0.3
    report = chance.choice([report, report, ROLES])
    write("file", changed(chance, "reports", [file]) if is_file else file)
    write("report", report if is_file and chance.random() < 0.7 else changed(chance, "reports", [report, ROLES]))
    words = chance.choice([[], ["--first", chance.choice(["0", "3", "9" * 400])], ["--json"], ["--html"], ["--focus", chance.choice(["1", "1,2,3,4", "0", "9" * 99])],
                           ["--fail-on-conflict"]])
    return ends_well("names.py", "file", "report", *words)[0]


def try_evidence(chance):
    file, report, evidence = FILES[chance.choice(["first", "short", "least"])]
    is_file = chance.random() < 0.2
    write("file", changed(chance, "evidence", [file]) if is_file else file)
    evidence = changed(chance, "evidence", [evidence])
    write("evidence", evidence)
    library_runs.records_in(evidence)
    how = chance.randrange(5)
    focus = chance.choice([[], [], ["--focus", "1,2,3,4"], ["--focus", "1,2"]])
    if how < 2:
        return ends_well("why.py", "file", "evidence", *chance.choice([[], ["1"], ["2", "--html"]]), *focus)[0]
    if how < 4:
        return ends_well("check_evidence.py", "file", "evidence", *focus)[0]
    write("report", report)
    return ends_well("names.py", "file", "report", "--html", "--why", "evidence")[0]


def try_journals(chance):
    file, _, evidence = FILES["first"]
    texts = library_runs.records_in(evidence)
    held = journal.framed(chance.sample(texts, chance.randint(0, len(texts))))
    for _ in range(chance.choice([0, 1, 1, 2, 5])):
        held = change(chance, "journals", held, [held])[:200_000]
    is_file = chance.random() < 0.1
    write("file", changed(chance, "evidence", [file]) if is_file else file)
    write("journal", held)
    library_runs.report_of(4, library_runs.texts_in(held))
    if chance.random() < 0.3:
        return ends_well("journal.py", "file", "journal")[0]
    return ends_well("watch.py", "file", "--journal", "journal", "--once", *chance.choice([[], [], ["--focus", "1,2"], ["--html", "page"]]))[0]


KINDS = {"rules": try_rules, "smt2": try_smt2, "uvl": try_uvl, "deb": try_deb, "reports": try_reports, "evidence": try_evidence,
         "journals": try_journals}


def one_round(kind, seed, number):
    """A round's status, and its seconds."""
    chance = random.Random(f"{kind} {seed} {number}")
    began = processor_seconds()
    signal.alarm(HUNG)
    try:
        status = KINDS[kind](chance)
    except Hung:
        raise Fault(f"it took {HUNG} seconds and more") from None
    finally:
        signal.alarm(0)
    seconds = processor_seconds() - began
    if seconds > SLOW:
        raise Fault(f"it took {seconds:.1f} seconds")
    return status, seconds


def processor_seconds():
    """Those of this process and of what it called; on a busy machine the clock goes on faster."""
    return sum(os.times()[:4])


def hang(*_):
    raise Hung


def main():
    parser = argparse.ArgumentParser(description="Has the tools read inputs that were changed by chance.")
    parser.add_argument("--rounds", type=int, default=10_000, help="of each kind")
    parser.add_argument("--kinds", default=",".join(KINDS))
    parser.add_argument("--seed", type=int, default=1)
    parser.add_argument("--only", help="one round, as rules:17")
    asked = parser.parse_args()
    signal.signal(signal.SIGALRM, hang)
    faults = 0
    with tempfile.TemporaryDirectory() as room:
        os.chdir(room)
        rounds = {kind: range(asked.rounds) for kind in asked.kinds.split(",")}
        if asked.only:
            kind, number = asked.only.split(":")
            rounds = {kind: [int(number)]}
        for kind, numbers in rounds.items():
            statuses, longest = collections.Counter(), (0.0, 0)
            for number in numbers:
                try:
                    status, seconds = one_round(kind, asked.seed, number)
                except Fault as fault:
                    faults += 1
                    print(f"--only {kind}:{number} --seed {asked.seed}: {fault}", flush=True)
                    if asked.only:
                        keep(room)
                    continue
                statuses[status] += 1
                longest = max(longest, (seconds, number))
            told = ", ".join(f"{count} with {status}" for status, count in sorted(statuses.items()))
            print(f"{kind}: {len(numbers)} rounds, {told}; the longest, {longest[1]}, took {longest[0]:.2f} s", flush=True)
        os.chdir(TOP)
    return 1 if faults else 0


def keep(room):
    """Keeps what a single round was made of."""
    for name in os.listdir(room):
        with open(os.path.join(room, name), "rb") as file:
            write(os.path.join(tempfile.gettempdir(), "round." + name), file.read())


if __name__ == "__main__":
    sys.exit(main())
