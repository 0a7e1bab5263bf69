#!/usr/bin/env python3
"""Tests of spread.py over a Dask cluster and an MPI job, which are begun here on the loopback address.

    GMUS_CLUSTERS=1 [GMUS_PYTHON=/usr/bin/python3] python3 -m unittest -v test_spread_clusters

They take half a minute, so they run only where GMUS_CLUSTERS is there. GMUS_PYTHON is a Python that has Dask's `distributed` and
`mpi4py`; Debian's packages python3-distributed, python3-mpi4py and openmpi-bin are for /usr/bin/python3, which is the one that
is tried if nothing is said. What is missing is told.
"""
import glob
import os
import shutil
import signal
import subprocess
import time
import unittest

import places  # noqa: F401
from plain_program import PLAIN
from test_spread_run import EVERY, TOOLS, Room
from test_spread_task import BUILT

ASKED = os.environ.get("GMUS_CLUSTERS")
PYTHON = os.environ.get("GMUS_PYTHON") or "/usr/bin/python3"
# Open MPI wants to hear that this may be root, and that processes may be more than processors.
MPI = {"OMPI_ALLOW_RUN_AS_ROOT": "1", "OMPI_ALLOW_RUN_AS_ROOT_CONFIRM": "1"}


def has(module, *commands):
    """Whether a module and commands are there; None if nobody asked."""
    if not ASKED:
        return None
    tried = subprocess.run([PYTHON, "-c", f"import {module}"], stdout=subprocess.DEVNULL, stderr=subprocess.DEVNULL, check=False)
    return tried.returncode == 0 and all(map(shutil.which, commands))


def skipped(module, *commands):
    """The reason to skip, or None."""
    found = has(module, *commands)
    return ("GMUS_CLUSTERS is not set" if found is None else None if found else
            f"not there: {module} of {PYTHON}, or {', '.join(commands)}")


class Cluster(Room):
    def call(self, before, *words, pause=0.0, program=PLAIN):
        """A run of spread.py that was begun."""
        environment = {**os.environ, **MPI, "GMUS": program, "PLAIN_PAUSE": str(pause)}
        return subprocess.Popen([*before, os.path.join(TOOLS, "spread.py"), "f", "--evidence", "e", "--report", "r", *words],
                                cwd=self.room, env=environment, stdin=subprocess.DEVNULL, stdout=subprocess.PIPE,
                                stderr=subprocess.PIPE, universal_newlines=True)

    def ends_whole(self, child):
        output, said = child.communicate(timeout=120)
        self.assertEqual((child.returncode, self.read("r").decode()), (0, self.report()), output + said)
        return output, said

    def until(self, holds, seconds=60):
        ends = time.monotonic() + seconds
        while not holds():
            self.assertLess(time.monotonic(), ends)
            time.sleep(0.05)


@unittest.skipIf(skipped("distributed", "dask-scheduler", "dask-worker"), skipped("distributed", "dask-scheduler", "dask-worker"))
class Dask(Cluster):
    PORT = 8798
    ADDRESS = f"tcp://127.0.0.1:{PORT}"

    def begin(self, *words, pause=0.0, program=PLAIN, tools=TOOLS):
        environment = {**os.environ, "GMUS": program, "PLAIN_PAUSE": str(pause), "PYTHONPATH": tools}
        with open(self.at("log"), "ab") as log:
            child = subprocess.Popen([*words, "--host", "127.0.0.1", "--no-dashboard"], cwd=self.at("tasks"), env=environment,
                                     stdin=subprocess.DEVNULL, stdout=log, stderr=log)
        self.addCleanup(self.end, child)
        return child

    def end(self, child):
        child.terminate()
        try:
            child.wait(20)
        except subprocess.TimeoutExpired:
            child.kill()
            child.wait()

    def scheduler(self):
        return self.begin("dask-scheduler", "--port", str(self.PORT))

    def workers(self, count, **how):
        return self.begin("dask-worker", self.ADDRESS, "--nworkers", str(count), "--nthreads", "1", **how)

    def test_a_whole_list(self):
        for program in [PLAIN, BUILT] if os.access(BUILT, os.X_OK) else [PLAIN]:
            scheduler, workers = self.scheduler(), self.workers(2, program=program)
            output, said = self.ends_whole(self.call([PYTHON], "--dask", self.ADDRESS, program=program, pause=0.1))
            self.assertEqual(said, "")
            self.assertIn(f"e has {EVERY} sets.", output)
            self.end(workers), self.end(scheduler)
            os.remove(self.at("e"))

    def test_sets_and_interrupts_and_a_worker_that_dies(self):
        self.scheduler()
        workers = self.workers(2, pause=0.1)
        child = self.call([PYTHON], "--dask", self.ADDRESS, "--sets", "8", pause=1)
        _, said = child.communicate(timeout=120)
        self.assertEqual(child.returncode, 4, said)
        self.assertTrue(8 <= len(self.sets()) < EVERY)
        child = self.call([PYTHON], "--dask", self.ADDRESS, pause=0.3)
        time.sleep(4)
        child.send_signal(signal.SIGINT)
        _, said = child.communicate(timeout=120)
        self.assertEqual((child.returncode, said), (130, ""))
        known = self.sets()
        child = self.call([PYTHON], "--dask", self.ADDRESS, pause=0.2)
        self.until(lambda: self.sets() > known)
        # the nanny's children are the workers
        children = subprocess.run(["ps", "-o", "pid=", "--ppid", str(workers.pid)], stdout=subprocess.PIPE, check=True).stdout.split()
        os.kill(int(children[-1]), signal.SIGKILL)
        self.ends_whole(child)
        self.assertLess(known, self.sets())

    def test_a_scheduler_that_goes_and_comes_back(self):
        scheduler, workers = self.scheduler(), self.workers(1, pause=0.1)
        child = self.call([PYTHON], "--dask", self.ADDRESS, "--sets", "30", pause=2)
        self.until(lambda: os.path.exists(self.at("e")) and self.sets())
        scheduler.kill()
        scheduler.wait()
        self.end(workers)
        time.sleep(2)
        self.scheduler(), self.workers(1, pause=0.1)
        output, said = child.communicate(timeout=120)
        self.assertEqual(child.returncode, 4, output + said)
        self.assertIn("Dask's scheduler or its workers are gone, and what they did is done again", said)
        self.assertGreaterEqual(len(self.sets()), 30)

    def test_no_scheduler_and_workers_without_the_tools(self):
        child = self.call([PYTHON], "--dask", self.ADDRESS)
        _, said = child.communicate(timeout=120)
        self.assertEqual((child.returncode, said), (1, f"spread.py: no scheduler of Dask answers at {self.ADDRESS}\n"))
        self.assertEqual(glob.glob(self.at("e*")), [])
        self.scheduler(), self.workers(1, tools="")
        _, said = self.ends_whole(self.call([PYTHON], "--dask", self.ADDRESS, pause=0.2))
        self.assertIn("No module named 'gmus_tools'", said)


@unittest.skipIf(skipped("mpi4py", "mpiexec"), skipped("mpi4py", "mpiexec"))
class Mpi(Cluster):
    def mpiexec(self, count, *words):
        return ["mpiexec", "--oversubscribe", "-n", str(count), PYTHON, *words]

    def test_a_whole_list(self):
        for program in [PLAIN, BUILT] if os.access(BUILT, os.X_OK) else [PLAIN]:
            for words in ([], ["-m", "mpi4py.futures"]):
                self.ends_whole(self.call(self.mpiexec(3, *words), "--mpi", program=program, pause=0.1))
                os.remove(self.at("e"))

    def test_how_else_it_ends(self):
        for words, status in ((["--sets", "8"], 4), (["--sets", "0"], 2), (["--dask", "x"], 2)):
            child = self.call(self.mpiexec(3), "--mpi", *words, pause=0.1)
            _, said = child.communicate(timeout=120)
            self.assertEqual(child.returncode, status, said)
        self.assertTrue(8 <= len(self.sets()) < EVERY)
        self.ends_whole(self.call(self.mpiexec(3), "--mpi"))
        # all is there
        self.ends_whole(self.call(self.mpiexec(3), "--mpi"))
        child = self.call(self.mpiexec(1), "--mpi", "--sets", "99")
        self.write("f2", "p gcnf 0 0 0\n")
        _, said = child.communicate(timeout=120)
        self.assertEqual(child.returncode, 0, said)

    def test_a_process_that_dies_ends_the_job_and_the_next_one_goes_on(self):
        child = self.call(self.mpiexec(3), "--mpi", pause=0.3)
        self.until(lambda: os.path.exists(self.at("e")) and self.sets())
        known = self.sets()
        children = subprocess.run(["ps", "-o", "pid=", "--ppid", str(child.pid)], stdout=subprocess.PIPE, check=True).stdout.split()
        os.kill(int(children[-1]), signal.SIGKILL)
        child.communicate(timeout=120)
        self.assertNotEqual(child.returncode, 0)
        self.assertLessEqual(known, self.sets())
        self.ends_whole(self.call(self.mpiexec(3), "--mpi"))


if __name__ == "__main__":
    unittest.main()
