"""What a person sees of a run: a line each few seconds, each thing that goes wrong, and a page."""
import sys
import time

from gmus_tools import page
from gmus_tools.command import here, write_whole
from gmus_tools.report import named, number_of

PAUSE = 5.0
# Pages take this part of the time at most.
SHARE = 0.2
# The same failure is told once in so many seconds, and so is that nothing new came.
QUIET = 60.0


class Show:
    """Tells to standard output, and of failures to standard error."""

    def __init__(self, asked, origin, found):
        self.asked, self.origin, self.found = asked, origin, found
        self.began, self.before, self.tasks = time.monotonic(), (time.monotonic(), len(found)), None
        self.next_line, self.next_page, self.paged, self.told = self.began + PAUSE, self.began, None, {}
        self.told_page = False

    def tell(self, line, kind=None):
        """Tells of a failure, if one of its kind was not told just now."""
        now = time.monotonic()
        if kind is None or now >= self.told.get(kind, 0.0):
            print(f"{here('spread.py')}: {line}", file=sys.stderr, flush=True)
            if len(self.told) > 1000:
                self.told.clear()
            self.told[kind] = now + QUIET

    def look(self):
        """Shows what there is, if it is time."""
        now = time.monotonic()
        if self.tasks is not None and self.tasks.engine.page and not self.told_page:
            print(f"Dask's own page: {self.tasks.engine.page}", flush=True)
            self.told_page = True
        if now >= self.next_line and (len(self.found) > self.before[1] or now >= self.before[0] + QUIET):
            self.next_line = now + PAUSE
            print(self.line(now), flush=True)
            self.before = now, len(self.found)
        if self.asked.page is not None and now >= self.next_page and self.paged != len(self.found):
            self.write_page(self.found.report())
            self.next_page = time.monotonic() + max(PAUSE, (time.monotonic() - now) / SHARE)

    def line(self, now):
        conflicts, corrections = self.found.counts()
        then, before = self.before
        new = (len(self.found) - before) / max(now - then, 0.001)
        words = [f"after {now - self.began:.0f} s: {number_of(conflicts, 'conflict', 'conflicts')} and "
                 f"{number_of(corrections, 'correction', 'corrections')}, {new:.1f} new a second"]
        tasks = self.tasks
        if tasks is not None:
            on = f" on {number_of(len(tasks.hosts), 'machine', 'machines')}" if tasks.hosts else ""
            twice = 100 * (1 - tasks.new / tasks.sets) if tasks.sets else 0
            words += [number_of(len(tasks.under_way), "task", "tasks") + on, f"{twice:.0f} % found twice", f"{tasks.refused} refused"]
        return "; ".join(words)

    def write_page(self, report):
        self.paged = len(self.found)
        write_whole(self.asked.page, page.as_html(named(self.origin, report)).encode("utf-8", "replace"))

    def end(self, report):
        """Shows the last report."""
        if self.asked.page is not None:
            self.write_page(report)
