"""Lists the conflicts and the corrections of a file by many runs of gmus, on one machine or more, of which none is believed.

    tools/spread.py FILE --evidence E [--report R] [--processes N | --dask ADDRESS | --mpi]
                    [--round SECONDS] [--sets N] [--journal DIR] [--html PAGE]

Many tasks run gmus on FILE, each under other numbers of its groups and variables, so that each finds other sets. A task begins
with nothing or with what is known, and runs for 1, 4, 16 or 64 seconds, as last gave most new sets a second. What a task gives
back is evidence, which `gmus check` judges here before a record counts. All records are kept in E, which is whole at each
moment. Beside the tasks a run of its own goes on from E, at first with one processor of this machine, and with all once tasks
find nothing new. If it ends with 0, no set is missing: E then shows that, and R has the report, byte for byte that of
`gmus list FILE`. If E is there already, the run goes on from it; it may be stopped or killed at any moment. What one that was
killed left on its machine, a later one there takes away.

--processes N    so many tasks at one time, in processes of this machine; without a word it is one less than there are
                 processors. Nothing has to be installed
--dask ADDRESS   tasks on the workers of the Dask cluster with this scheduler, as tcp://host:8786
--mpi            tasks in the processes of an MPI job but for the first one:
                 mpiexec -n 5 python3 tools/spread.py FILE --evidence E --mpi
--round SECONDS  how long a task runs; without it that is decided by what finds most new sets a second
--sets N         ends once E has so many sets, or more
--journal DIR    the folder, on each machine, for the journals of its tasks; without it /dev/shm if that has 1 GB of room, since
                 a journal is synced for each set, and else that for temporary files
--html PAGE      writes what was found as a page, again and again

On each machine stands gmus with these tools: a release, unpacked. A worker of Dask has to find them
(PYTHONPATH=gmus/tools dask-worker ADDRESS). The program is the one that the variable GMUS names there, or gmus beside tools/.

The status is 0 if no set is missing; 4 if there are as many sets as --sets says; that of gmus if FILE or E is refused, or if
its own run fails; 7 if something could not be written; 1 if spread.py refuses something, or gmus ends with 0 and writes no
report; 2 if the words have no reading, and 130, 143 or 129 after an interrupt. With each of them E has what was found.
"""
import os
import shlex
import signal
import sys

from gmus_tools import program
from gmus_tools.command import DONE, beside, run
from gmus_tools.report import number_of, origin_of
from gmus_tools.spreading import mpi as spread_mpi
from gmus_tools.spreading.run import run as run_all
from gmus_tools.spreading.show import Show
from gmus_tools.spreading.words import MOST, Words


class Interrupts:
    """Notes interrupts."""

    def __init__(self):
        self.signal, self.count = None, 0
        for number in (signal.SIGINT, signal.SIGTERM, signal.SIGHUP):
            # What is ignored already, as HUP under nohup, stays so.
            if signal.getsignal(number) != signal.SIG_IGN:
                signal.signal(number, self.note)

    def note(self, number, _frame):
        self.signal, self.count = number, self.count + 1


def show_for(asked):
    return lambda coordinator: Show(asked, origin_of(coordinator.file_text, asked.file), coordinator.found)


def tell_end(asked, ended):
    """Tells how it ended, how to read what was found and how to go on."""
    if ended.line:
        print(ended.line, file=sys.stderr)
    if os.path.exists(asked.evidence) and ended.report is not None:
        counts = ended.report.rstrip("\n").rpartition("\n")[2].split()[1:]
        see = [shlex.join([program.command(), "check", asked.file, asked.evidence]),
               shlex.join([beside("names.py"), asked.file])]
        print(f"{asked.evidence} has {number_of(sum(map(int, counts)), 'set', 'sets')}. To read them: {' | '.join(see)}")
    if ended.status == program.LIMIT_REACHED:
        print(f"To go on: {asked.again(sets=min(2 * asked.sets, MOST))}")
    elif ended.status > 128:
        print(f"To go on: {asked.again()}")


def main(words):
    if "--mpi" in words and spread_mpi.is_helper():
        spread_mpi.serve()
        return DONE
    asked, status = None, 1
    try:
        asked = Words(words)
        ended = run_all(asked, Interrupts(), show_for(asked))
        tell_end(asked, ended)
        status = ended.status
        return status
    finally:
        sys.stdout.flush()
        if "--mpi" in words:
            spread_mpi.release(status)


def as_command():
    """Ends the process as the words of its command line ask."""
    run("spread.py", main, __doc__)
