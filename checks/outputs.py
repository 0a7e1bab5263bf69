#!/usr/bin/env python3
"""Tries what becomes of files: one under two names, what is left of an output, and which journals are opened.

    checks/outputs.py PROGRAM

- One file under two names, as NAME and ./NAME, by links, or as standard output's: if one text would take the place of another, the
  run ends before it changes anything. What a run goes on from may be written over.
- An output takes the place of an old text once it is whole, with the mode of that; where it fails the old one stays, or where
  there was none its front part is left. What is not a file by itself is written in place: a device, a pipe, a file with two
  names, one of another owner, or one in a folder that takes no new files.
- A journal has to be a regular file that is empty, or begins with a gate, and that no other run has open.

Each row is a run in a folder of its own. Its status, both lines on standard error and all that stands in the folder are compared. Says
how many rows there were, and which had to be left out; ends with 1 where one differs. Needs Python 3.9.
"""
import contextlib
import errno
import fcntl
import os
import resource
import shutil
import signal
import stat
import subprocess
import sys
import tempfile
import threading

from places import EXAMPLES
from gmus_tools.evidence import check_evidence, journal

NOBODY = 65534
OLD = b"an old text, which is longer than nothing\n"
# what first lines say
INPUT, JOURNAL = "gmus: read fault on input", "gmus: read fault on journal"
EVIDENCE, EXPORT, REPORT = ("gmus: write fault on " + what for what in ("evidence", "export", "report"))
# what second lines say behind a name
IS_INPUT, IS_EVIDENCE, IS_JOURNAL, IS_CNF = "is the input", "is the evidence", "is the journal", "is the CNF"
IS_OLD, IS_NEW, IS_STDOUT, IS_STDERR = "is the old file", "is the new file", "is standard output", "is standard error"
IS_NO_FILE, IS_NO_JOURNAL, IS_OPEN = "is no regular file", "is no journal; if a crash left it so, remove it", "another run has it open"


class Differs(Exception):
    """What differs, and where."""


def of_system(number):
    """A reason of the system's."""
    return f"{os.strerror(number)} (os error {number})"


def lines(first, name, reason):
    return f"{first}\n  {name}: {reason}\n"


def held_in(name):
    with open(name, "rb") as file:
        return file.read()


def text_of(name):
    return held_in(os.path.join(EXAMPLES, name))


class Room:
    """A folder in which the program is run, and what stands in it."""

    def __init__(self, program, folder):
        self.program, self.folder = program, folder

    def at(self, name):
        return os.path.join(self.folder, name)

    def put(self, name, text=OLD, mode=0o644):
        with open(self.at(name), "wb") as file:
            file.write(text)
        os.chmod(self.at(name), mode)

    def held(self, name):
        return held_in(self.at(name))

    def mode(self, name):
        return stat.S_IMODE(os.stat(self.at(name)).st_mode)

    def number(self, name):
        """The number of the file under a name, which a new one doesn't have."""
        return os.stat(self.at(name)).st_ino

    def state(self):
        """What stands under each name: of a file its bytes too, of a link where it leads."""
        found = {}
        for place, folders, files in os.walk(self.folder):
            for name in folders + files:
                path = os.path.join(place, name)
                it = os.lstat(path)
                text = os.readlink(path) if stat.S_ISLNK(it.st_mode) else held_in(path) if stat.S_ISREG(it.st_mode) else None
                found[os.path.relpath(path, self.folder)] = text, it.st_mode, it.st_ino, it.st_nlink
        return found

    def changed(self, before):
        """What is not as it was, by name: what stood there before and what stands there now."""
        now = self.state()
        return {name: (before.get(name), now.get(name)) for name in {*before, *now} if before.get(name) != now.get(name)}

    def run(self, words, out=None, err=None, how="wb", most=None, memory=None, **more):
        """The program's status, what it wrote to standard output, and its lines; both streams may go to a file. `most` is how
        many bytes a file may have, `memory` how many the process."""
        def prepare():
            if most is not None:
                # the write that would pass it fails, as on a full disk
                signal.signal(signal.SIGXFSZ, signal.SIG_IGN)
                resource.setrlimit(resource.RLIMIT_FSIZE, (most, most))
            if memory is not None:
                resource.setrlimit(resource.RLIMIT_AS, (memory, memory))

        with contextlib.ExitStack() as files:
            output, errors = (files.enter_context(open(os.path.join(self.folder, name), how)) if name else subprocess.PIPE
                              for name in (out, err))
            words = words.split() if isinstance(words, str) else words
            try:
                ended = subprocess.run([self.program, *words], cwd=self.folder, stdin=subprocess.DEVNULL, stdout=output, stderr=errors,
                                       preexec_fn=prepare, timeout=60, check=False, **more)
            except subprocess.TimeoutExpired:
                raise Differs(f"{words}: it does not end") from None
        said = ended.stderr if err is None else self.held(err)
        return ended.returncode, ended.stdout, said.decode()


class Tries:
    """The rows, each in a new folder."""

    def __init__(self, program):
        self.program, self.count, self.left_out = program, 0, []

    @contextlib.contextmanager
    def room(self, what):
        """A folder for one row, which has the first example as f and its evidence as e."""
        self.what = what
        self.count += 1
        with tempfile.TemporaryDirectory() as folder:
            os.chmod(folder, 0o755)
            room = Room(self.program, folder)
            room.put("f", text_of("first.gcnf"))
            room.put("e", text_of("first.evidence"))
            yield room

    def same(self, wanted, found, of="it"):
        if wanted != found:
            raise Differs(f"{self.what}: {of}: wanted {wanted}, came {found}")

    def is_evidence(self, room, name, report="first.report", file="f"):
        """Whether a name holds whole evidence, which shows this report."""
        try:
            complete, sets = check_evidence.check(check_evidence.problem_of(room.at(file)), room.held(name))
        except check_evidence.Refused as refused:
            raise Differs(f"{self.what}: {name} is refused: {refused}") from None
        self.same(text_of(report).decode(), check_evidence.report(check_evidence.problem_of(room.at(file)), complete, sets), name)


# ---- one file under two names

def links_to(room, name):
    """A symbolic and a hard link to a name."""
    os.symlink(name, room.at("soft_" + name))
    os.link(room.at(name), room.at("hard_" + name))


# the words, the file of standard output or error and how it is opened, the name that is told, and why
TWICE = [
    *((f"list f --{option} {name}", {}, name, IS_INPUT)
      for option in ("evidence", "journal") for name in ("f", "./f", "d/../f", "soft_f", "hard_f")),
    ("list ./f --evidence f", {}, "f", IS_INPUT),
    ("list soft_f --journal f", {}, "f", IS_INPUT),
    ("list hard_f --evidence soft_f --jobs 2", {}, "soft_f", IS_INPUT),
    ("list f --resume e --evidence f", {}, "f", IS_INPUT),
    ("list f --resume f --evidence f", {}, "f", IS_INPUT),
    *((f"list f --journal {one} --evidence {other}", {}, other, IS_JOURNAL)
      for one, other in (("j", "j"), ("j", "./j"), ("soft_j", "j"), ("j", "hard_j"), ("hard_j", "soft_j"), ("new", "new"), ("new", "d/../new"),
                         ("soft_new", "new"), ("new", "soft_new"))),
    *((f"list f --{option} {name}", {"out": "o"}, name, IS_STDOUT)
      for option in ("evidence", "journal") for name in ("o", "./o", "soft_o", "hard_o", "/dev/stdout")),
    ("list f --evidence o", {"out": "o", "how": "ab"}, "o", IS_STDOUT),
    *((f"list f --{option} o", {"err": "o"}, "o", IS_STDERR) for option in ("evidence", "journal")),
    *((f"carry f e g --evidence {name}", {}, name, IS_OLD) for name in ("f", "./f", "soft_f", "hard_f")),
    *((f"carry f e g --evidence {name}", {}, name, IS_NEW) for name in ("g", "./g", "soft_g", "hard_g")),
    ("carry f e f --evidence f", {}, "f", IS_OLD),
    ("carry f e g --evidence o", {"out": "o"}, "o", IS_STDOUT),
    *((f"export f e 1 {name} lrat", {}, name, IS_INPUT) for name in ("f", "./f", "soft_f", "hard_f")),
    *((f"export f e 1 cnf {name}", {}, name, IS_INPUT) for name in ("f", "soft_f")),
    *((f"export f e 1 {name} lrat", {}, name, IS_EVIDENCE) for name in ("e", "./e", "soft_e", "hard_e")),
    ("export f e 1 cnf e", {}, "e", IS_EVIDENCE),
    *((f"export f e 1 {one} {other}", {}, other, IS_CNF)
      for one, other in (("j", "./j"), ("j", "soft_j"), ("hard_j", "j"), ("soft_j", "hard_j"), ("new", "./new"), ("soft_new", "new"))),
    ("export f e 1 o lrat", {"out": "o"}, "o", IS_STDOUT),
    ("export f e 1 cnf soft_o", {"out": "o"}, "soft_o", IS_STDOUT),
    ("export f e 1 cnf o", {"err": "o"}, "o", IS_STDERR),
    *((words, {"out": "o"}, "o", IS_STDOUT) for words in ("list o", "list f --resume o", "check o e", "check f o", "roles o", "carry f o g")),
    *((words, {"out": "soft_o", "how": "ab"}, "hard_o", IS_STDOUT) for words in ("list hard_o", "check f hard_o", "carry f e hard_o")),
]


def one_file_twice(tries):
    """What would be lost is refused where FILE is opened, before anything has changed."""
    for words, streams, name, why in TWICE:
        with tries.room(f"{words} {streams}") as room:
            room.put("g", text_of("first.gcnf"))
            room.put("j", b"")
            room.put("o", b"")
            os.mkdir(room.at("d"))
            for named in "fegjo":
                links_to(room, named)
            os.symlink("new", room.at("soft_new"))
            before, time = room.state(), os.stat(room.folder).st_mtime_ns
            status, output, said = room.run(words, **streams)
            tries.same((6, lines(INPUT, name, why)), (status, said))
            tries.same(None if "out" in streams else b"", output, "standard output")
            tries.same({"o", "hard_o"} if "err" in streams else set(), set(room.changed(before)), "what changed")
            tries.same(time, os.stat(room.folder).st_mtime_ns, "the folder's time, by which no file came and went")


def what_may_be_written_over(tries):
    """Evidence that a run goes on from has been read by then; and what is no regular file can't be lost."""
    for words, name in (("list f --resume e --evidence e", "e"), ("list f --resume e --evidence ./e", "e"), ("list f --resume soft_e --evidence e", "e"),
                        ("list f --resume hard_e --evidence e", "e"), ("list f --resume e --evidence soft_e", "e")):
        with tries.room(words) as room:
            if "hard" in words or "soft" in words:
                links_to(room, "e")
            tries.same((0, text_of("first.report"), ""), room.run(words))
            tries.same(True, room.held(name) != text_of("first.evidence") and room.held(name).startswith(b"p gmev 2 "), name)
            tries.is_evidence(room, name)
    with tries.room("carry, over its evidence") as room:
        room.put("f", text_of("laptop.gcnf"))
        room.put("g", text_of("laptop_more.gcnf"))
        room.run("list f --evidence e")
        tries.same((0, text_of("laptop_more.report"), ""), room.run("carry f e g --evidence e"))
        tries.is_evidence(room, "e", "laptop_more.report", "g")
    with tries.room("a device as output and as standard output") as room:
        tries.same((0, None, ""), room.run("list f --evidence /dev/null", out="/dev/null"))
    with tries.room("two files") as room:
        tries.same((0, None, ""), room.run("list f --evidence new --journal j", out="o"))
        tries.same(text_of("first.report"), room.held("o"), "o")
        tries.is_evidence(room, "new")


# ---- what is left of an output

def over_an_old_text(tries):
    """With 0, 3 and 4 the name has the new text, whole, with the mode that was there."""
    for words, status, said in (("list f --evidence old", 0, ""), ("list f --evidence old --limit 5", 4, "gmus: limit of 5 records reached\n"),
                                ("list f --evidence old --conflicts 0", 3, "gmus: budget of 0 conflicts spent\n")):
        with tries.room(words) as room:
            room.put("f", text_of("laptop.gcnf"))
            room.put("old", mode=0o640)
            before = room.number("old")
            found = room.run(words)
            tries.same((status, said), (found[0], found[2]))
            tries.same((0o640, False), (room.mode("old"), room.number("old") == before), "mode and number")
            tries.same(("yes", found[1]), judged(room, "old"), "old")
            tries.same(["e", "f", "old"], sorted(os.listdir(room.folder)), "the folder")
    with tries.room("a new file") as room:
        tries.same(0, room.run("list f --evidence new", umask=0o027)[0])
        tries.same((0o640, ["e", "f", "new"]), (room.mode("new"), sorted(os.listdir(room.folder))), "mode and folder")
        tries.is_evidence(room, "new")
    with tries.room("a name of 255 bytes") as room:
        for _ in range(2):
            tries.same(0, room.run(["list", "f", "--evidence", "n" * 255])[0])
            tries.is_evidence(room, "n" * 255)
    with tries.room("an export over old texts") as room:
        room.put("cnf", mode=0o600)
        room.put("lrat", mode=0o604)
        tries.same((0, b"", ""), room.run("export f e 2 cnf lrat"))
        tries.same((text_of("first_2.cnf"), 0o600, text_of("first_2.lrat"), 0o604),
                   (room.held("cnf"), room.mode("cnf"), room.held("lrat"), room.mode("lrat")), "the export")
    with tries.room("carried over to an old text") as room:
        room.put("g", text_of("first.gcnf"))
        room.put("old", mode=0o644)
        tries.same((0, text_of("first.report"), ""), room.run("carry f e g --evidence old"))
        tries.is_evidence(room, "old")


def judged(room, name):
    """What tools/check_evidence.py says of a name's text: yes and the report, or no and why."""
    problem = check_evidence.problem_of(room.at("f"))
    try:
        return "yes", check_evidence.report(problem, *check_evidence.check(problem, room.held(name))).encode()
    except check_evidence.Refused as refused:
        return "no", str(refused)


def where_it_fails(tries):
    """With 7 the old text stays, or where there was none the front of the new one is left; nothing else stands there."""
    big = of_system(errno.EFBIG)
    with tries.room("a whole text") as room:
        room.put("f", text_of("laptop.gcnf"))
        room.run("list f --evidence whole")
        whole = room.held("whole")
        tries.same(True, len(whole) > 600, "how long it is")
    for name, front in (("old", OLD), ("new", whole[:500])):
        with tries.room(f"{name}, and a disk that gets full") as room:
            room.put("f", text_of("laptop.gcnf"))
            if name == "old":
                room.put(name, mode=0o640)
            before = room.state()
            tries.same((7, b"", lines(EVIDENCE, name, big)), room.run(f"list f --evidence {name}", most=500))
            tries.same(front, room.held(name), "what is left")
            tries.same(set() if name == "old" else {"new"}, set(room.changed(before)), "what changed")
    with tries.room("what a run goes on from, and a disk that gets full") as room:
        room.put("f", text_of("laptop.gcnf"))
        room.put("k", whole)
        before = room.state()
        tries.same((7, b"", lines(EVIDENCE, "k", big)), room.run("list f --resume k --evidence k", most=500))
        tries.same({}, room.changed(before), "what changed")
    with tries.room("an export whose first text fails") as room:
        room.put("f", text_of("laptop.gcnf"))
        room.put("e", whole)
        room.put("cnf")
        room.put("lrat")
        before = room.state()
        tries.same((7, b"", lines(EXPORT, "cnf", big)), room.run("export f e 1 cnf lrat", most=20))
        tries.same({}, room.changed(before), "what changed")
    with tries.room("an export whose second text fails") as room:
        room.put("cnf")
        room.put("lrat")
        # of the second conflict the clauses have 24 bytes, and the refutation 14
        tries.same((7, b"", lines(EXPORT, ".", of_system(errno.EISDIR))), room.run("export f e 2 cnf ."))
        tries.same((text_of("first_2.cnf"), OLD), (room.held("cnf"), room.held("lrat")), "what is left")
    with tries.room("a report that fails behind its evidence") as room:
        room.put("old")
        tries.same((7, None, lines(REPORT, "standard output", of_system(errno.ENOSPC))), room.run("list f --evidence old", out="/dev/full"))
        tries.is_evidence(room, "old")
    for name, number in ((".", errno.EISDIR), ("", errno.ENOENT), ("lost/e", errno.ENOENT), ("f/e", errno.ENOTDIR), ("loop", errno.ELOOP)):
        with tries.room(f"evidence as '{name}'") as room:
            os.symlink("loop", room.at("loop"))
            before = room.state()
            tries.same((7, b"", lines(EVIDENCE, name, of_system(number))), room.run(["list", "f", "--evidence=" + name]))
            tries.same({}, room.changed(before), "what changed")


def where_memory_is_wanting(tries):
    """With 8 as with 7: the name has the old text or the new one, and where there was none at most a front of it."""
    pairs = [f"{{{group}}} {'' if group % 2 else '-'}{(group + 1) // 2} 0\n" for group in range(1, 21)]
    problem = "".join(["p gcnf 10 20 20\n", *pairs]).encode()
    with tries.room("want of memory") as room:
        room.put("f", problem)
        tries.same(0, room.run("list f --evidence whole")[0])
        whole, ended = room.held("whole"), set()
        os.remove(room.at("whole"))
        for kilobytes in range(4000, 60000, 100):
            for name in ("old", "new"):
                room.put("old")
                with contextlib.suppress(FileNotFoundError):
                    os.remove(room.at("new"))
                status = room.run(f"list f --evidence {name}", memory=kilobytes * 1024)[0]
                ended.add(status)
                left = room.held(name) if os.path.exists(room.at(name)) else b""
                fits = left == whole or status == 8 and (left == OLD if name == "old" else whole.startswith(left))
                if status in (0, 8) and not fits or sorted(os.listdir(room.folder)) not in (["e", "f", "new", "old"], ["e", "f", "old"]):
                    raise Differs(f"{tries.what}: with {kilobytes} kB it ends with {status} and leaves {name} as {left[:60]}")
            if status == 0:
                break
        tries.same(True, {0, 8} <= ended, f"the statuses {ended}")


def in_place(tries):
    """What is no file by itself is written as it stands there."""
    with tries.room("a file with two names") as room:
        room.put("old")
        os.link(room.at("old"), room.at("other"))
        before = room.number("old")
        tries.same(0, room.run("list f --evidence old")[0])
        tries.same((before, before), (room.number("old"), room.number("other")), "the numbers")
        tries.is_evidence(room, "other")
    for links in (["to"], ["to", "further"]):
        for name in ("old", "d/old", "new"):
            with tries.room(f"{links} to {name}") as room:
                os.mkdir(room.at("d"))
                if name != "new":
                    room.put(name, mode=0o600)
                for link, target in zip(links, [*links[1:], name]):
                    os.symlink(target, room.at(link))
                tries.same(0, room.run("list f --evidence to")[0])
                tries.same([*links[1:], name], [os.readlink(room.at(link)) for link in links], "the links")
                tries.same([False, name == "new" or room.mode(name) == 0o600], [os.path.islink(room.at(name)), True], "what they lead to")
                tries.is_evidence(room, name)
                tries.same(sorted(["d", "e", "f", *links, *[name][:name != "d/old"]]), sorted(os.listdir(room.folder)), "the folder")
    with tries.room("a device") as room:
        tries.same((0, text_of("first.report"), ""), room.run("list f --evidence /dev/null"))
        tries.same((7, b"", lines(EVIDENCE, "/dev/full", of_system(errno.ENOSPC))), room.run("list f --evidence /dev/full"))
        tries.same([True, True], [stat.S_ISCHR(os.stat(name).st_mode) for name in ("/dev/null", "/dev/full")], "the devices")
    with tries.room("a pipe with a name") as room:
        os.mkfifo(room.at("pipe"))
        got = []
        reader = threading.Thread(target=lambda: got.append(room.held("pipe")), daemon=True)
        reader.start()
        tries.same((0, text_of("first.report"), ""), room.run("list f --evidence pipe"))
        reader.join(30)
        room.put("got", b"".join(got))
        tries.is_evidence(room, "got")
    if os.geteuid() == 0:
        with tries.room("a file of another owner") as room:
            room.put("old")
            os.chown(room.at("old"), NOBODY, NOBODY)
            before = room.number("old")
            tries.same(0, room.run("list f --evidence old")[0])
            it = os.stat(room.at("old"))
            tries.same((before, NOBODY, NOBODY), (it.st_ino, it.st_uid, it.st_gid), "number, owner and group")
            tries.is_evidence(room, "old")
    else:
        tries.left_out.append("a file of another owner: not root")


def without_rights(tries):
    """As somebody who is not root."""
    as_nobody = {} if os.geteuid() else {"user": NOBODY, "group": NOBODY, "extra_groups": []}
    denied = of_system(errno.EACCES)
    with tries.room("who is nobody") as room:
        try:
            may = room.run("drill 0 1", **as_nobody)[0] == 0
        except OSError:
            may = False
    if not may:
        tries.left_out.append("files without a right: nobody can't run the program")
        return
    with tries.room("a folder that takes no new files") as room:
        os.mkdir(room.at("d"))
        room.put("d/old", mode=0o666)
        before = room.number("d/old")
        os.chmod(room.at("d"), 0o555)
        tries.same(0, room.run("list f --evidence d/old", **as_nobody)[0])
        tries.same((before, ["old"]), (room.number("d/old"), os.listdir(room.at("d"))), "number and folder")
        tries.is_evidence(room, "d/old")
        tries.same((7, b"", lines(EVIDENCE, "d/new", denied)), room.run("list f --evidence d/new", **as_nobody))
        tries.same((6, b"", lines(JOURNAL, "d/new", denied)), room.run("list f --journal d/new", **as_nobody))
        os.chmod(room.at("d"), 0o755)
    with tries.room("files without a right") as room:
        os.chmod(room.folder, 0o777)
        for name, mode in (("unread", 0o222), ("unwritten", 0o444)):
            room.put(name, b"", mode)
        before = room.state()
        for words, wanted in ((f"list unread", lines(INPUT, "unread", denied)), ("list f --journal unwritten", lines(JOURNAL, "unwritten", denied)),
                              ("check f unread", lines("gmus: read fault on evidence", "unread", denied)),
                              ("list f --resume unread", lines("gmus: read fault on evidence", "unread", denied))):
            tries.same((6, b"", wanted), room.run(words, **as_nobody), words)
        tries.same((7, b"", lines(EVIDENCE, "unwritten", denied)), room.run("list f --evidence unwritten", **as_nobody))
        tries.same({}, room.changed(before), "what changed")


# ---- which journals are opened

def journals(tries):
    first = journal.framed([])
    for name, text, why in (("text", b"no journal\n", IS_NO_JOURNAL), ("two", b"\2", IS_NO_JOURNAL), ("last", b"\xff\0", IS_NO_JOURNAL),
                            ("e", text_of("first.evidence"), IS_NO_JOURNAL), ("pipe", None, IS_NO_FILE), ("/dev/null", None, IS_NO_FILE),
                            (".", None, of_system(errno.EISDIR)), ("", None, of_system(errno.ENOENT)), ("lost/j", None, of_system(errno.ENOENT)),
                            ("f/j", None, of_system(errno.ENOTDIR)), ("loop", None, of_system(errno.ELOOP))):
        with tries.room(f"'{name}' as a journal") as room:
            if text is not None:
                room.put(name, text)
            os.mkfifo(room.at("pipe"))
            os.symlink("loop", room.at("loop"))
            before = room.state()
            tries.same((6, b"", lines(JOURNAL, name, why)), room.run(["list", "f", "--journal=" + name]))
            tries.same({}, room.changed(before), "what changed")
    for text in (b"", first, b"\0" + OLD, None):
        with tries.room(f"{text} as a journal") as room:
            if text is not None:
                room.put("j", text, 0o640)
            os.symlink("j", room.at("to"))
            tries.same((0, text_of("first.report"), ""), room.run("list f --journal to"))
            tries.same("j", os.readlink(room.at("to")), "the link")
            tries.same(5, len(journal.salvaged(check_evidence.problem_of(room.at("f")), room.held("j"))), "its records")
            tries.same(text is None or room.mode("j") == 0o640, True, "its mode")
    for how in (fcntl.LOCK_EX, fcntl.LOCK_SH):
        for name in ("j", "soft_j", "hard_j"):
            with tries.room(f"{name}, which is open") as room:
                room.put("j", first)
                links_to(room, "j")
                before = room.state()
                with open(room.at("j"), "rb") as other:
                    fcntl.flock(other, how)
                    tries.same((6, b"", lines(JOURNAL, name, IS_OPEN)), room.run(f"list f --journal {name}"))
                    tries.same({}, room.changed(before), "what changed")
                tries.same((0, text_of("first.report"), ""), room.run(f"list f --journal {name}"))


def main():
    if len(sys.argv) != 2:
        sys.exit(__doc__)
    tries = Tries(os.path.abspath(sys.argv[1]))
    try:
        for rows in (one_file_twice, what_may_be_written_over, over_an_old_text, where_it_fails, where_memory_is_wanting, in_place, without_rights,
                     journals):
            rows(tries)
    except Differs as differs:
        sys.exit(str(differs))
    print("; left out: ".join([f"{tries.count} rows", *tries.left_out]))


if __name__ == "__main__":
    main()
