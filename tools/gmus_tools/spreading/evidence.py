"""The file that keeps what was found.

It is evidence of version 2, written beside and renamed: so whoever reads it finds the whole of it, and a stop at any moment
leaves what was there before or what came then. It is written behind each batch, beside all else, and where that takes long,
with all batches that came meanwhile.
"""
import concurrent.futures
import glob
import os
import time

from gmus_tools.command import Refused, remove
from gmus_tools.spreading.left import FOUND, NEW, OWN, beside
from gmus_tools.spreading.records import evidence_of, records_in

# Writing takes this part of the time at most.
SHARE = 0.2


class Evidence:
    """The file. `written` is how many records it has."""

    def __init__(self, name):
        self.name, self.place = name, os.path.realpath(name)
        self.new, self.own = beside(self.place, NEW), beside(self.place, OWN)
        self.seen = self.mark()
        self.written, self.next, self.under_way = 0, 0.0, None
        self.pool = concurrent.futures.ThreadPoolExecutor(1)

    def mark(self):
        """What tells that nobody else wrote the file meanwhile."""
        try:
            told = os.stat(self.place)
        except FileNotFoundError:
            return None
        return told.st_ino, told.st_size, told.st_mtime_ns

    def texts(self):
        """The records that it has."""
        with open(self.place, "rb") as file:
            texts = records_in(file.read())
        self.written = len(texts)
        return texts

    def keep(self, found, is_urgent=False):
        """Begins to write what it doesn't have, if it is time or urgent."""
        if self.under_way is not None and self.under_way.done():
            self.settle()
        if self.under_way is None and len(found) > self.written and (is_urgent or time.monotonic() >= self.next):
            self.under_way = self.pool.submit(self.write, found.sizes, list(found.texts))

    def settle(self):
        """Waits for what is being written."""
        if self.under_way is not None:
            self.under_way, done = None, self.under_way
            self.written, took = done.result()
            self.next = time.monotonic() + took / SHARE

    def keep_all(self, found):
        """Writes what it doesn't have."""
        self.settle()
        if len(found) > self.written or self.seen is None:
            self.written, _ = self.write(found.sizes, found.texts)

    def write(self, sizes, texts):
        """Writes these records: how many there are, and how long it took."""
        begins = time.monotonic()
        with open(self.new, "wb") as file:
            file.write(evidence_of(sizes, texts))
        self.take(self.new)
        return len(texts), time.monotonic() - begins

    def take(self, new):
        """Has a file that was written beside take the place."""
        with open(new, "rb") as file:
            os.fsync(file.fileno())
        if self.mark() != self.seen:
            left = beside(self.place, FOUND)
            os.replace(new, left)
            raise Refused(f"{self.name}: another run wrote it meanwhile. It is left as it is, and what was found is in {left}")
        os.replace(new, self.place)
        self.seen = self.mark()

    def close(self):
        """Takes away what was written beside."""
        self.pool.shutdown()
        for name in (self.new, self.own):
            remove(name)
        self.sweep()

    def sweep(self):
        """Takes away what the program left beside `own`, under its own number, where it was killed as it wrote."""
        folder, name = map(glob.escape, os.path.split(self.own))
        for left in glob.glob(os.path.join(folder, f".{name}.gmus-*")):
            remove(left)
