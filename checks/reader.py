#!/usr/bin/env python3
"""Runs a program with its standard output in a small pipe, and ends with its status.

    reader.py slow PROGRAM WORD..    reads a few bytes at a time, and copies them to standard output
    reader.py gone PROGRAM WORD..    closes the pipe before the program writes

The slow reader waits until the pipe is full and stops the program there for a moment, since the system then ends the
write that waits for room early: it answers that only a part was taken. Linux alone has small pipes and this way to
fill them; elsewhere the pipe has its usual size.
"""
import fcntl
import os
import signal
import struct
import subprocess
import sys
import termios
import time

SMALLEST = 4096       # bytes that a pipe holds at least
PIECE = 1000          # bytes for a read
PATIENCE = 30         # seconds for what has to come


def held(pipe):
    """How many bytes wait in the pipe."""
    return struct.unpack("i", fcntl.ioctl(pipe, termios.FIONREAD, bytes(4)))[0]


def wait_until(holds):
    end = time.monotonic() + PATIENCE
    while not holds() and time.monotonic() < end:
        time.sleep(0.001)


def state(child):
    """The letter by which the system tells what a process does, as T where it is stopped."""
    with open(f"/proc/{child}/stat") as line:
        return line.read().rpartition(")")[2].split()[0]


def interrupt(child, pipe):
    """Stops the program where it waits for room in the full pipe, and lets it go on."""
    wait_until(lambda: held(pipe) == SMALLEST or child.poll() is not None)
    if child.poll() is None:
        time.sleep(0.01)   # from the last byte in the pipe to the wait
        child.send_signal(signal.SIGSTOP)
        wait_until(lambda: state(child.pid) in "TZ")
        child.send_signal(signal.SIGCONT)


def copy_slowly(child, pipe):
    """Copies what comes through the pipe, which is emptied before it can be filled again."""
    while True:
        if sys.platform == "linux" and held(pipe) == 0:
            interrupt(child, pipe)
        piece = os.read(pipe, PIECE)
        if not piece:
            return
        sys.stdout.buffer.write(piece)
        sys.stdout.buffer.flush()


def main(reader, *command):
    taken, given = os.pipe()
    if hasattr(fcntl, "F_SETPIPE_SZ") or sys.platform == "linux":
        fcntl.fcntl(given, getattr(fcntl, "F_SETPIPE_SZ", 1031), SMALLEST)
    if reader == "gone":
        os.close(taken)
    child = subprocess.Popen(command, stdin=subprocess.DEVNULL, stdout=given)
    os.close(given)
    if reader == "slow":
        copy_slowly(child, taken)
    return child.wait()


sys.exit(main(*sys.argv[1:]))
