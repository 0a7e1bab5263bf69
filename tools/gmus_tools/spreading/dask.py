"""Tasks on a Dask cluster, by the executor of its client.

The problem and what becomes known go to the workers by Dask's own means: each piece is scattered once, and a worker that needs
it fetches it once. A worker that dies is Dask's business, which gives its tasks to others.
"""
import concurrent.futures
import contextlib
import threading
import time
import uuid

from gmus_tools.command import Refused
from gmus_tools.spreading.records import split
from gmus_tools.spreading.task import perform

# So many seconds the scheduler has to answer, so long is believed how many workers there are, and so long do these have for the
# word that all tasks end.
PATIENCE, FRESHNESS, HOLD = 10, 2.0, 2.0


class Dask:
    """A client of a cluster. `lost` has what is raised where its scheduler is gone."""

    lost, gone, is_local = (concurrent.futures.CancelledError,), "Dask's scheduler or its workers are gone", False

    def __init__(self, address, text, where):
        try:
            import distributed
        except ImportError:
            raise Refused("Dask's package 'distributed' is not there: Debian has it as python3-distributed") from None
        self.distributed, self.address, self.where = distributed, address, where
        self.name, self.client, self.pieces, self.counted = uuid.uuid4().hex, None, [text], 0
        if not self.renew():
            raise Refused(f"no scheduler of Dask answers at {address}")

    def renew(self):
        """Goes to the scheduler anew, and tells whether it is there."""
        self.leave(1)
        try:
            client = self.distributed.Client(self.address, timeout=PATIENCE, set_as_default=False)
            self.executor = client.get_executor(pure=False)
            self.scattered = [client.scatter(piece, hash=False, timeout=PATIENCE) for piece in self.pieces]
            self.counted = sum(client.nthreads().values())
        except (OSError, ValueError, concurrent.futures.CancelledError, concurrent.futures.TimeoutError):
            return False
        self.client = client
        threading.Thread(target=self.keep_counting, args=(client,), daemon=True).start()
        return True

    def leave(self, seconds):
        """Leaves the scheduler, which has so many seconds. If it is gone itself, that is no fault of the files here."""
        client, self.client = self.client, None
        if client is not None:
            with contextlib.suppress(OSError, concurrent.futures.CancelledError, concurrent.futures.TimeoutError):
                client.close(timeout=seconds)

    def keep_counting(self, client):
        """Notes how many tasks the cluster does at one time, beside all else: a scheduler that hangs would be waited for."""
        while self.client is client and self.counted is not None:
            time.sleep(FRESHNESS)
            try:
                self.counted = sum(client.nthreads().values())
            except Exception:
                if self.client is client:
                    self.counted = None

    @property
    def page(self):
        """The address of Dask's own page, if it has one."""
        return self.client.dashboard_link if self.client is not None else None

    def slots(self):
        """How many tasks the cluster does at one time."""
        if self.counted is None:
            raise OSError("the scheduler does not answer")
        return self.counted

    def tell(self, texts):
        """Makes more records known to all tasks to come."""
        pieces = [*self.pieces, b"".join(texts)]
        # two become one if the later is as long, so that they stay few
        while len(pieces) > 2 and len(pieces[-1]) >= len(pieces[-2]):
            pieces[-2:] = [b"".join(pieces[-2:])]
        last = self.client.scatter(pieces[-1], hash=False, timeout=PATIENCE)
        self.pieces, self.scattered = pieces, [*self.scattered[:len(pieces) - 1], last]

    def submit(self, order):
        return self.executor.submit(on_machine, self.name, self.where, order, *(self.scattered if order.told else self.scattered[:1]))

    def hold(self, is_held):
        """Has all tasks end with what they have."""
        if is_held and self.client is not None:
            # a worker that hangs would be waited for without end
            asks = threading.Thread(target=self.ask_to_end, args=(self.client,), daemon=True)
            asks.start()
            asks.join(HOLD)

    def ask_to_end(self, client):
        try:
            client.run(stop_here, self.name, wait=False)
        except Exception:
            # then they end by their time
            pass

    def stop(self, _):
        """Ends all tasks and leaves the cluster."""
        if self.client is not None:
            self.hold(True)
            self.executor.shutdown(wait=False)
            self.leave(PATIENCE)


# ---- in a worker

STOPPED = set()


async def stop_here(name):
    STOPPED.add(name)


def on_machine(name, where, order, text, *known):
    """Does an order in this worker."""
    return perform(order, text, split(b"".join(known)), where, lambda: name in STOPPED)
