"""Who judges what tasks gave back: the program, on the coordinator's machine, one batch after the other and beside all else."""
import concurrent.futures
import os
from collections import namedtuple

from gmus_tools import program
from gmus_tools.leash import Leashed
from gmus_tools.spreading.records import NoReading, records_in

# What became of a batch: whose it is, its records if it was accepted, and else the line that says why not.
Verdict = namedtuple("Verdict", "whose texts refusal")


class Judge:
    """Verdicts are futures; nothing else calls the program to check."""

    def __init__(self, file, folder):
        self.file, self.folder = file, folder
        self.pool, self.asked = concurrent.futures.ThreadPoolExecutor(1), []

    def ask(self, whose, batch):
        self.asked.append(self.pool.submit(self.judge, whose, batch))

    def judge(self, whose, batch):
        name = os.path.join(self.folder, "batch")
        try:
            with open(name, "wb") as file:
                file.write(batch)
            check = Leashed([program.command(), "check", self.file, name])
            if check.wait() == program.DONE:
                return Verdict(whose, records_in(batch), None)
            refusal = check.said() or f"gmus check ended with {check.status}"
        except (OSError, NoReading) as error:
            refusal = str(error)
        return Verdict(whose, [], refusal)

    def verdicts(self):
        """The verdicts that there are since the last call."""
        done = [it for it in self.asked if it.done()]
        self.asked = [it for it in self.asked if not it.done()]
        return [it.result() for it in done]

    def close(self):
        self.pool.shutdown(cancel_futures=True)
