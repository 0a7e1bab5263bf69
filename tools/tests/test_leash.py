#!/usr/bin/env python3
"""Tests of leash.py."""
import os
import signal
import tempfile
import time
import unittest

import places  # noqa: F401
from gmus_tools.leash import Leashed

# it notes its process, and then does nothing for long
LONG = ["/bin/sh", "-c", 'echo $$ > "$0.new"; mv "$0.new" "$0"; sleep 100 & wait']


class Leashes(unittest.TestCase):
    def begun(self, name):
        """The process that a program noted under this name."""
        until = time.monotonic() + 30
        while not os.path.exists(name):
            self.assertLess(time.monotonic(), until)
            time.sleep(0.01)
        with open(name) as file:
            return int(file.read())

    def ends(self, process):
        until = time.monotonic() + 30
        while os.path.exists(f"/proc/{process}"):
            self.assertLess(time.monotonic(), until)
            time.sleep(0.01)

    def test_status_and_last_line(self):
        for words, status, said in ((["true"], 0, ""), (["sh", "-c", "exit 4"], 4, ""), (["sh", "-c", "kill -TERM $$"], 143, ""),
                                    (["sh", "-c", "echo one >&2; echo two >&2; exit 9"], 9, "two"),
                                    (["sh", "-c", "head -c 100000 /dev/zero | tr '\\0' x >&2; echo >&2; echo end >&2"], 0, "end"),
                                    (["sh", "-c", "cat"], 0, "")):
            child = Leashed(words)
            self.assertEqual((child.wait(), child.said(), child.stop()), (status, said, status), words)
        self.assertEqual(Leashed(["/no such program"]).wait(), 127)

    def test_it_is_stopped_with_what_it_began(self):
        with tempfile.TemporaryDirectory() as room:
            child = Leashed([*LONG, room + "/process"])
            process = self.begun(room + "/process")
            # another process has all that this one has, and so the end of the pipe
            holder = os.fork()
            if holder == 0:
                time.sleep(60)
                os._exit(0)
            try:
                began = time.monotonic()
                self.assertIsNone(child.wait(0.2))
                self.assertGreaterEqual(time.monotonic() - began, 0.2)
                self.assertEqual(child.stop(), 137)
                self.ends(process)
                self.assertLess(time.monotonic() - began, 30)
            finally:
                os.kill(holder, signal.SIGKILL)
                os.waitpid(holder, 0)

    def test_it_ends_with_whoever_began_it(self):
        with tempfile.TemporaryDirectory() as room:
            owner = os.fork()
            if owner == 0:
                Leashed([*LONG, room + "/process"])
                time.sleep(60)
                os._exit(0)
            process = self.begun(room + "/process")
            os.kill(owner, signal.SIGKILL)
            os.waitpid(owner, 0)
            self.ends(process)


if __name__ == "__main__":
    unittest.main()
