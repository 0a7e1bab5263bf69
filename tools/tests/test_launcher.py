#!/usr/bin/env python3
"""Tests of ./gmus over a made-up repository and a made-up rt: when it builds, what it says by itself, and what it passes on, to
a file and to a terminal."""
import fcntl
import os
import pty
import shutil
import signal
import stat
import subprocess
import tempfile
import termios
import threading
import time
import unittest

from places import TOP

# It proves the crates at or below the folder and those that they stand on, or is slow at the last of them; or it proves
# one beside that; or it makes the program and runs it as it is told to; or it fails. It names itself.
RT = """#!/bin/sh
[ "$1" != version ] || { echo "a kit" && exit 0; }
echo "$1 $(basename "$PWD")" >>"$ROOM/builds"
if [ "$1" = all ]; then
    echo "== low"
    echo "fn low::first: proved"
    if [ -e "$ROOM/fails" ]; then
        printf '== gmus\\n== summary\\nlow: failed (1)\\ngmus: not run, since low failed\\n0 of 2 crates ok\\n'
        exit 1
    fi
    if [ -e "$ROOM/is_slow" ]; then
        echo "logic=proved functions=1"
        sleep 60
        echo "$1 goes on" >>"$ROOM/builds"
    fi
    printf '== gmus\\n== summary\\nlow: ok\\ngmus: ok\\n2 of 2 crates ok\\n'
    exit 0
fi
[ "$1" != lib ] || exit 0
while [ "$1" != -- ]; do shift; done
shift
mkdir -p out && cp "$ROOM/program" out/gmus && out/gmus "$@"
"""

# What the program is asked for in these tests, behind a command; any other words end as a refused file does.
PROGRAM = """#!/bin/sh
case ${2-} in
    ends) exit "$3" ;;
    tells) echo "$$ $(sed -n 's/^SigIgn:.*\\(.\\)$/\\1/p' /proc/$$/status) $([ -e /dev/fd/0 ] && cat)" && exit 0 ;;
    dies) kill -s "$3" $$ ;;
    waits) echo $$ && exec sleep 9 ;;
    lingers) trap 'sleep 0.2; echo " done"; exit 7' INT TERM HUP && echo $$ && while :; do sleep 0.05; done ;;
esac
[ "$*" != "list data/first.gcnf" ] || exit 0
printf 'to output: %s' "$*"
echo 'to errors' >&2
exit 5
"""

SAID = ("gmus: building, which proves each crate first; what is said of it goes to build.log\n"
        "gmus: low is done, 1 of 2\ngmus: gmus is done, 2 of 2\n")
BUILT = ["all gmus", "run gmus"]
BAD = "gmus: bad command line\n"
COMMANDS = ("list", "check", "drill", "export", "roles", "carry")
CHANGES = "# Changes\n\n## Next\n\n- More.\n\n## 2.10.0, 2031-01-02\n\n- Some.\n\n## 2.9.0, 2030-01-02\n"
MADE_OF = "gmus 2.10.0, for Linux on x86_64\ncommit: 12ab\ntoolchain: a kit, logic 12ab\nC library: GLIBC_2.34 or newer\n"


def usage():
    """What the launcher says behind a 2, as it stands in it."""
    with open(os.path.join(TOP, "gmus"), encoding="utf-8") as launcher:
        return launcher.read().partition("<<'END'\n")[2].partition("END\n")[0]


class Launcher(unittest.TestCase):
    def setUp(self):
        self.room = tempfile.mkdtemp()
        self.addCleanup(shutil.rmtree, self.room)
        shutil.copy(os.path.join(TOP, "gmus"), self.room)
        for name in ("places.py", "dev/places.py", "dev/__init__.py", "dev/build.py", "dev/crates.py", "dev/read_of.py",
                     "tools/gmus_tools/__init__.py", "tools/gmus_tools/command.py", "tools/gmus_tools/text_kinds.py"):
            os.makedirs(os.path.dirname(os.path.join(self.room, name)), exist_ok=True)
            shutil.copy(os.path.join(TOP, name), os.path.join(self.room, name), follow_symlinks=False)
        self.write("crates.txt", "# NAME: libraries\nlow:\nother: low  # nothing of gmus\ngmus tests_may=Wait: low std\n")
        for crate in ("low", "other", "gmus"):
            self.write(f"crates/{crate}/src/lib.rt", "")
        self.write("CHANGELOG.md", CHANGES)
        self.write("bin/rt", RT, executable=True)
        self.write("program", PROGRAM, executable=True)

    def write(self, name, text, executable=False):
        path = os.path.join(self.room, name)
        os.makedirs(os.path.dirname(path), exist_ok=True)
        with open(path, "w") as file:
            file.write(text)
        if executable:
            os.chmod(path, stat.S_IRWXU)

    def environment(self, path=None):
        return {"PATH": path or self.room + "/bin:" + os.environ["PATH"], "ROOM": self.room}

    def run_it(self, *words, path=None, launcher="/gmus"):
        ended = subprocess.run([self.room + launcher, *words], env=self.environment(path), cwd="/", universal_newlines=True,
                               stdout=subprocess.PIPE, stderr=subprocess.PIPE, check=False)
        return ended.returncode, ended.stdout, ended.stderr

    def begun(self, words, errors, before=lambda: None, stdin=subprocess.DEVNULL):
        """The launcher, begun with standard error at `errors`, or else at a terminal, which is the controlling one."""
        self.terminal, device = (None, None) if errors else pty.openpty()

        def prepare():
            if device:
                fcntl.ioctl(device, termios.TIOCSCTTY, 0)
            before()

        going = subprocess.Popen([self.room + "/gmus", *words], env=self.environment(), stdin=stdin, stdout=subprocess.PIPE,
                                 stderr=errors or device, start_new_session=True, preexec_fn=prepare)
        if device:
            os.close(device)
            self.addCleanup(os.close, self.terminal)
        return going

    def at_terminal(self, *words):
        """As `run_it`, with standard error at a terminal."""
        with self.begun(words, None) as going:
            said = []
            reader = threading.Thread(target=lambda: said.extend(iter(self.next_told, b"")))
            reader.start()
            output = going.stdout.read().decode()
            going.wait()
            reader.join()
        return going.returncode, output, b"".join(said).decode().replace("\r\n", "\n")

    def next_told(self):
        """What the terminal is told next, or nothing where nobody has it open any more."""
        try:
            return os.read(self.terminal, 4096)
        except OSError:
            return b""

    def builds(self):
        """What rt was called for, but for what is proved beside a call, if there are processors for that."""
        try:
            with open(self.room + "/builds") as builds:
                return [line for line in builds.read().splitlines() if not line.startswith("lib ")]
        except FileNotFoundError:
            return []

    def age(self, name, seconds):
        """Sets when a file was changed, from the time of the program."""
        then = os.stat(self.room + "/crates/gmus/out/gmus").st_mtime + seconds
        os.utime(os.path.join(self.room, name), (then, then))

    def test_the_first_call_builds_and_the_next_does_not(self):
        self.assertEqual(self.run_it("list", "a b"), (5, "to output: list a b", SAID + "to errors\n"))
        self.assertEqual(self.run_it("list"), (5, "to output: list", "to errors\n"))
        self.assertEqual(self.builds(), BUILT)

    def test_the_last_crate_gets_all_processors(self):
        self.write("is_slow", "")
        self.assertEqual(self.run_it("list"), (5, "to output: list", SAID + "to errors\n"))
        self.assertEqual(self.builds(), BUILT)

    def test_a_newer_source_of_a_crate_below_builds_again(self):
        self.run_it("list")
        for name, again in (("crates/low/src/lib.rt", 1), ("crates/gmus/src", 1), ("crates.txt", 1),
                            ("crates/other/src/lib.rt", 0), ("crates/low", 0)):
            before = self.builds()
            self.age(name, 5)
            self.run_it("list")
            self.assertEqual(self.builds()[len(before):], BUILT * again, name)
            self.age(name, -5)

    def test_where_the_build_fails_nothing_is_run(self):
        self.run_it("list")
        self.write("fails", "")
        self.age("crates/low/src/lib.rt", 5)
        status, output, said = self.run_it("list")
        self.assertEqual((status, output), (127, ""))
        self.assertTrue(said.endswith(f"gmus: the build failed: see the end of {self.room}/build.log, and CONTRIBUTING.md\n"))
        with open(self.room + "/build.log") as log:
            self.assertIn("low: failed (1)\n", log.read())
        self.assertEqual(self.builds(), BUILT + BUILT[:1])

    def test_without_the_toolchain_it_says_so(self):
        folders = [it for it in os.environ["PATH"].split(":") if not os.path.exists(it + "/rt")]
        status, output, said = self.run_it("list", path=":".join(folders))
        self.assertEqual((status, output), (127, ""))
        self.assertEqual(said, "gmus: not built: the toolchain's command 'rt' is not there\n")

    def test_a_program_that_lost_its_leave_to_run_is_run(self):
        self.run_it("list")
        os.chmod(self.room + "/crates/gmus/out/gmus", 0o644)
        self.assertEqual(self.run_it("list"), (5, "to output: list", "to errors\n"))

    def test_help_is_the_usage_and_builds_nothing(self):
        for words in (["help"], ["-h"], ["--help", "x"], ["help", "list"]):
            self.assertEqual(self.run_it(*words), (0, usage(), ""), words)
            self.assertEqual(self.at_terminal(*words), (0, usage(), ""), words)
        self.assertEqual(self.builds(), [])

    def test_no_words_and_no_command_are_a_bad_command_line_and_build_nothing(self):
        for words in ([], [""], ["lst"], ["lst", "f"], ["List", "f"], ["--jobs", "2", "list", "f"], ["--", "list", "f"], ["-"],
                      ["--helpme"], ["lis*"], ["list\n"], ["list f"], [b"\xff"]):
            self.assertEqual(self.run_it(*words), (2, "", BAD + usage()), words)
            self.assertEqual(self.at_terminal(*words), (2, "", BAD + usage()), words)
        self.assertEqual(self.builds(), [])

    def test_each_command_reaches_the_program_with_all_its_words(self):
        self.write("bin/gmus", PROGRAM, executable=True)
        for command in COMMANDS:
            for words in ([command], [command, "--help"], [command, "", "a  b"]):
                self.assertEqual(self.run_it(*words), (5, "to output: " + " ".join(words), "to errors\n"), words)

    def test_the_version_is_the_newest_with_a_number(self):
        for words in (["--version"], ["-V"], ["-V", "list"]):
            self.assertEqual(self.run_it(*words), (0, "gmus 2.10.0\n", ""), words)
            self.assertEqual(self.at_terminal(*words), (0, "gmus 2.10.0\n", ""), words)
        self.write("bin/gmus", PROGRAM, executable=True)
        self.write("MADE-OF", MADE_OF)
        self.assertEqual(self.run_it("-V"), (0, "gmus 2.10.0\ntoolchain: a kit, logic 12ab\n", ""))
        self.write("CHANGELOG.md", "# Changes\n\n## Next\n")
        self.assertEqual(self.run_it("-V"), (127, "", f"gmus: no version: {self.room}/CHANGELOG.md tells none\n"))
        self.assertEqual(self.builds(), [])

    @unittest.skipUnless(os.path.exists("/dev/full"), "no full device: usage and version are not written to one")
    def test_usage_and_version_that_can_not_be_written(self):
        for word, what in (("help", "usage"), ("--version", "version")):
            for end in (">/dev/full", ">&-"):
                ended = subprocess.run(["sh", "-c", f'exec "$0" "$1" {end}', self.room + "/gmus", word], stderr=subprocess.PIPE,
                                       universal_newlines=True, check=False)
                self.assertEqual((ended.returncode, ended.stderr), (7, f"gmus: write fault on {what}\n"), (word, end))

    def test_it_goes_on_where_nobody_reads_standard_error(self):
        reader, gone = os.pipe()
        os.close(reader)
        for times, before in ((1, lambda: None), (2, lambda: os.close(2))):
            for words, status, output in (([], 2, ""), (["lst"], 2, ""), (["list", "ends", "9"], 9, ""),
                                          (["list", "f", "ends"], None, "to output: list f ends")):
                with self.begun(words, gone, before=before) as going:
                    told = going.stdout.read().decode()
                self.assertEqual(told, output, words)
                if status is not None:
                    self.assertEqual(going.returncode, status, words)
            self.assertEqual(self.builds(), BUILT * times)
            os.remove(self.room + "/crates/gmus/out/gmus")
        os.close(gone)

    def test_a_build_removes_what_calls_that_are_gone_left_half_copied(self):
        gone = subprocess.Popen(["true"])
        gone.wait()
        later = subprocess.Popen(["sleep", "60"])
        self.addCleanup(later.wait)
        self.addCleanup(later.kill)
        rows = (("low", f"rt-work-{gone.pid}-ab_c1", 0, False), ("other", f"rt-work-{gone.pid}-d-2", 0, False),
                ("low", f"rt-work-{os.getpid()}-ab_c1", 0, True), ("gmus", f"rt-work-{later.pid}-ab_c1", -3600, False),
                ("low", "rt-work-x-ab_c1", 0, True), ("low", f"rt-new-{gone.pid}-ab_c1", 0, True))
        for crate, name, seconds, _ in rows:
            self.write(f"crates/{crate}/out/{name}/rlib/low.antt", "half of it")
            then = time.time() + seconds
            os.utime(f"{self.room}/crates/{crate}/out/{name}", (then, then))
        os.symlink(self.room + "/bin", f"{self.room}/crates/low/out/rt-work-{gone.pid}-link")
        self.assertEqual(self.run_it("list"), (5, "to output: list", SAID + "to errors\n"))
        for crate, name, _, stays in rows:
            self.assertEqual(os.path.exists(f"{self.room}/crates/{crate}/out/{name}"), stays, name)
        self.assertTrue(os.path.exists(self.room + "/bin/rt"))

    def test_only_a_terminal_is_told_the_usage_and_only_behind_a_2(self):
        self.run_it("list")
        for words, status, output, said in (
                (["list", "ends", "2"], 2, "", usage()),
                (["list", "ends", "0"], 0, "", ""),
                (["list", "ends", "9"], 9, "", ""),
                (["check", "", "a  b"], 5, "to output: check  a  b", "to errors\n"),
        ):
            self.assertEqual(self.at_terminal(*words), (status, output, said), words)
            self.assertEqual(self.run_it(*words), (status, output, said.replace(usage(), "")), words)

    def test_the_program_has_the_callers_input_signals_and_place(self):
        self.write("bin/gmus", PROGRAM, executable=True)
        plain = {"stdin": subprocess.PIPE}
        ignores = {"before": lambda: signal.signal(signal.SIGINT, signal.SIG_IGN), **plain}
        closed = {"before": lambda: os.close(0)}
        for how, errors, ignored, given, is_beside in (
                (plain, subprocess.PIPE, "0", "in put", False), (plain, None, "0", "in put", True),
                (ignores, subprocess.PIPE, "2", "in put", False), (ignores, None, "2", "in put", False),
                (closed, None, "0", "", False)):
            with self.begun(["list", "tells"], errors, **how) as going:
                told = going.communicate(b"in put" if how is not closed else None)[0].decode().rstrip("\n").split(" ", 2)
            self.assertEqual((told[0] != str(going.pid), told[1], told[2]), (is_beside, ignored, given), (how, errors))

    def test_the_program_ends_as_a_signal_ends_it(self):
        self.write("bin/gmus", PROGRAM, executable=True)
        for name in ("INT", "TERM", "HUP", "KILL", "SEGV", "PIPE"):
            for run in (self.run_it, self.at_terminal):
                self.assertEqual(run("list", "dies", name)[0], -getattr(signal, "SIG" + name), (name, run))

    def test_signals_reach_the_program_and_its_end_is_waited_for(self):
        self.write("bin/gmus", PROGRAM, executable=True)
        for word, status, output in (("waits", None, b""), ("lingers", 7, b" done\n")):
            for name, keys in (("INT", None), ("INT", b"\x03"), ("TERM", None), ("HUP", None)):
                row = word, name, keys
                with self.begun(["list", word], None) as going:
                    program = int(going.stdout.readline())
                    if keys:
                        os.write(self.terminal, keys)
                    else:
                        going.send_signal(getattr(signal, "SIG" + name))
                    self.assertEqual(going.stdout.read(), output, row)
                self.assertEqual(going.returncode, status or -getattr(signal, "SIG" + name), row)
                self.assertFalse(os.path.exists(f"/proc/{program}"), row)

    def test_a_release_builds_nothing(self):
        self.write("bin/gmus", PROGRAM, executable=True)
        os.symlink(self.room + "/gmus", self.room + "/bin/linked")
        self.assertEqual(self.run_it("list"), (5, "to output: list", "to errors\n"))
        self.assertEqual(self.run_it("list", launcher="/bin/linked"), (5, "to output: list", "to errors\n"))
        self.assertEqual(self.builds(), [])


if __name__ == "__main__":
    unittest.main()
