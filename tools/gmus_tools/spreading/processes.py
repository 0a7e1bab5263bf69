"""Tasks in processes of this machine, by `concurrent.futures` alone.

What the processes read lies in a folder: the plain text of the problem, and what is known, to which is only added. A process
that is left alone, because the coordinator is gone however it ended, ends too, and takes the folder with it.
"""
import concurrent.futures
import multiprocessing
import os
import shutil
import signal
import threading
import time
from concurrent.futures.process import BrokenProcessPool

from gmus_tools.spreading.left import folder_in
from gmus_tools.spreading.records import split
from gmus_tools.spreading.task import perform, place

LOOK = 0.5
# So many seconds a process has for its end once it is asked for it.
GRACE = 5.0
NICE = 5


class Processes:
    """A pool of processes. `lost` has what is raised where it is gone."""

    lost, gone, is_local, page = (BrokenProcessPool,), "the processes of the pool are gone", True, None

    def __init__(self, count, text, where):
        self.count, self.pool, self.is_held = count, None, False
        self.folder = folder_in(place(where))
        self.known = 0
        self.write("file", text)
        self.write("known", b"")
        self.renew()

    def at(self, name):
        return os.path.join(self.folder, name)

    def write(self, name, held):
        with open(self.at(name), "wb") as file:
            file.write(held)

    def slots(self):
        """How many tasks it does at one time."""
        return self.count

    def tell(self, texts):
        """Makes more records known to all tasks to come."""
        more = b"".join(texts)
        with open(self.at("known"), "r+b") as file:
            # what an earlier write that failed has left is written over
            file.seek(self.known)
            file.write(more)
        self.known += len(more)

    def submit(self, order):
        return self.pool.submit(on_machine, order)

    def hold(self, is_held):
        """Has the tasks under way end with what they have, or none."""
        if is_held and not self.is_held:
            self.write("stop", b"")
        elif self.is_held and not is_held:
            os.remove(self.at("stop"))
        self.is_held = is_held

    def renew(self):
        """Makes the pool anew, and tells whether it is there."""
        if self.pool is not None:
            self.end()
        context = multiprocessing.get_context("fork")
        self.pool = concurrent.futures.ProcessPoolExecutor(self.count, context, begin, (os.getpid(), self.folder))
        return True

    def end(self):
        """Ends what is left of the pool."""
        for name in os.listdir(self.folder):
            if name.startswith("process-"):
                kill(int(name.partition("-")[2]))
                os.remove(self.at(name))
        self.pool.shutdown(cancel_futures=True)

    def stop(self, futures):
        """Ends all tasks and the pool."""
        self.hold(True)
        concurrent.futures.wait(futures, GRACE)
        self.end()
        shutil.rmtree(self.folder, ignore_errors=True)


def kill(process):
    try:
        os.kill(process, signal.SIGKILL)
    except ProcessLookupError:
        pass


# ---- in a process of the pool

PLACE = {}


def begin(coordinator, folder):
    """Makes this process ready for tasks. Interrupts of the terminal are for the coordinator."""
    for number in (signal.SIGINT, signal.SIGHUP):
        signal.signal(number, signal.SIG_IGN)
    signal.signal(signal.SIGTERM, signal.SIG_DFL)
    # the coordinator and its own run go first
    os.nice(NICE)
    PLACE["folder"] = folder
    with open(os.path.join(folder, f"process-{os.getpid()}"), "wb"):
        pass
    threading.Thread(target=watch, args=(coordinator, folder), daemon=True).start()


def watch(coordinator, folder):
    """Ends this process, and with it what it runs, once the coordinator is gone."""
    while os.getppid() == coordinator:
        time.sleep(LOOK)
    shutil.rmtree(folder, ignore_errors=True)
    os._exit(1)


def read(name):
    with open(os.path.join(PLACE["folder"], name), "rb") as file:
        return file.read()


def on_machine(order):
    """Does an order in this process."""
    stop = os.path.join(PLACE["folder"], "stop")
    if "text" not in PLACE:
        PLACE["text"] = read("file")
    return perform(order, PLACE["text"], split(read("known")) if order.told else [], PLACE["folder"], lambda: os.path.exists(stop))
