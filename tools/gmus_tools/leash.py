"""A program that runs no longer than whoever began it.

Between the two stands a shell, whose input is a pipe from this process. Once the pipe is closed, because this process is gone,
however it ended, the shell kills the program and what that began. Its standard error is another pipe, whose end tells at once that
it has ended.
"""
import os
import select
import signal
import subprocess
import time

from gmus_tools import program

SHELL = ('exec 3<&0 </dev/null 4>&2 2>/dev/null; "$@" 2>&4 3<&- 4>&- & child=$!; { read -r _ <&3; kill -9 0; } 4>&- & '
         'guard=$!; wait $child; status=$?; kill $guard; exit $status')
BY_SIGNAL = 128
# Of what the program writes to standard error so many bytes are kept, the last ones.
KEPT = 2 ** 16


class Leashed:
    """A program that was begun, with its standard output in a file. Interrupts of a terminal don't reach it."""

    def __init__(self, words, output=subprocess.DEVNULL):
        self.shell = subprocess.Popen(["/bin/sh", "-c", SHELL, "sh", *words], stdin=subprocess.PIPE, stdout=output,
                                      stderr=subprocess.PIPE, start_new_session=True)
        self.errors, self.status = b"", None

    def wait(self, seconds=None):
        """The status, or None if it runs on after these seconds. What a signal ended has 128 and the signal's number."""
        until, ready = None if seconds is None else time.monotonic() + seconds, select.poll()
        while self.status is None:
            ready.register(self.shell.stderr, select.POLLIN)
            if not ready.poll(None if until is None else max(0.0, until - time.monotonic()) * 1000):
                return None
            more = os.read(self.shell.stderr.fileno(), KEPT)
            self.errors = (self.errors + more)[-KEPT:]
            if not more:
                self.end()
        return self.status

    def end(self):
        self.shell.stdin.close()
        status = self.shell.wait()
        self.shell.stderr.close()
        self.status = status if status >= 0 else BY_SIGNAL - status

    def stop(self):
        """Kills the program and what it began, and gives the status with which it ended."""
        if self.status is None:
            # the shell leads the group of all; other processes that were forked from this one may hold the pipe open
            os.killpg(self.shell.pid, signal.SIGKILL)
            self.end()
        return self.status

    def said(self):
        """The line of the program that it wrote to standard error, or else the last one."""
        told = self.errors.decode("utf-8", "replace").strip()
        return program.line_in(told) or told.rpartition("\n")[2]
