"""Tasks in the processes of an MPI job, by `mpi4py.futures`.

Process 0 is the coordinator, the others do tasks. The problem goes to each of them at the beginning, and of what is known each
gets what came since the oldest state that one of them has told of. Where a process dies, MPI ends all.
"""
import concurrent.futures

from gmus_tools.command import Refused
from gmus_tools.spreading.records import split
from gmus_tools.spreading.task import perform

# The tag of the message that stops a task, and how many seconds one has for that.
STOP, GRACE = 77, 5.0
HOW = "mpiexec -n 5 python3 tools/spread.py .. --mpi"


# Whether the other processes have begun to do tasks, and whether they may still do some.
STATE = {"begun": False, "waits": False}


def world():
    """The job that this process is of."""
    try:
        from mpi4py import MPI
    except ImportError:
        raise Refused("the package 'mpi4py' is not there: Debian has it as python3-mpi4py") from None
    return MPI.COMM_WORLD


def is_helper():
    """Whether this process is to do tasks."""
    return world().Get_rank() > 0


def serve():
    """Does tasks until the coordinator ends."""
    from mpi4py.futures import MPICommExecutor
    with MPICommExecutor(world(), root=0):
        pass


def release(status):
    """Has the other processes end. If one hangs, all are ended, with this status."""
    if STATE["begun"] and STATE["waits"]:
        world().Abort(status)
    if not STATE["begun"]:
        serve()


class Mpi:
    """The other processes of the job. Nothing is raised where one is gone, since all are then."""

    lost, gone, is_local, page = (), "the other processes are gone", False, None

    def __init__(self, text, where):
        from mpi4py.futures import MPICommExecutor
        self.world = world()
        if self.world.Get_size() < 2:
            raise Refused(f"--mpi is for two processes and more: {HOW}")
        self.context = MPICommExecutor(self.world, root=0, initializer=begin, initargs=(text, where))
        self.executor = self.context.__enter__()
        STATE.update(begun=True, waits=True)
        self.known, self.sent, self.told = b"", [], {rank: 0 for rank in range(1, self.world.Get_size())}

    def renew(self):
        return False

    def slots(self):
        return len(self.told)

    def tell(self, texts):
        self.known += b"".join(texts)

    def submit(self, order):
        since = min(self.told.values())
        future, answer = self.executor.submit(on_machine, order, since, self.known[since:]), concurrent.futures.Future()
        future.add_done_callback(lambda done: self.hand_on(done, answer))
        return answer

    def hand_on(self, done, answer):
        """Hands on what came back, and notes how much that process knows."""
        try:
            rank, known, held = done.result()
            self.told[rank] = known
            answer.set_result(held)
        except Exception as error:
            answer.set_exception(error)

    def hold(self, is_held):
        """Has all tasks end with what they have."""
        if is_held and not self.sent:
            self.sent = [self.world.isend(None, dest=rank, tag=STOP) for rank in self.told]

    def stop(self, futures):
        """Ends all tasks and the other processes. If one doesn't answer, MPI would wait for it; so the job is ended then."""
        self.hold(True)
        if not concurrent.futures.wait(futures, GRACE).not_done:
            STATE["waits"] = False
            self.context.__exit__(None, None, None)


# ---- in one of the other processes

PLACE: "dict[str, object]" = {}


def begin(text, where):
    PLACE.update(text=text, where=where, known=b"")


def on_machine(order, since, more):
    """Does an order in this process: which one it is, how much it knows, and the answer."""
    PLACE["known"] = PLACE["known"][:since] + more
    rank = world().Get_rank()
    held = perform(order, PLACE["text"], split(PLACE["known"]), PLACE["where"], lambda: world().Iprobe(source=0, tag=STOP))
    return rank, len(PLACE["known"]), held
