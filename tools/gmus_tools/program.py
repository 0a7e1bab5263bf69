"""Where the program is, and what it said."""
import os
import signal
import subprocess
import sys

from gmus_tools.command import Refused

PACKAGE = os.path.dirname(os.path.abspath(__file__))
TOP = os.path.dirname(os.path.dirname(PACKAGE))
# what an installed package has of a release: the launcher, the program and the version
INSTALLED = os.path.join(PACKAGE, "installed", "gmus")
DONE, BUDGET_SPENT, LIMIT_REACHED = 0, 3, 4


def command():
    """The program: the one that the variable GMUS names, or that of the installed package, or `gmus` beside the folder of the
    tools."""
    return os.environ.get("GMUS") or (INSTALLED if os.path.exists(INSTALLED) else os.path.join(TOP, "gmus"))


def build():
    """Has the program built where it is none that a variable names, and is not there yet; what is told of it is seen meanwhile."""
    built = [INSTALLED, *(os.path.join(TOP, *names) for names in (("bin", "gmus"), ("crates", "gmus", "out", "gmus")))]
    if not os.environ.get("GMUS") and not any(map(os.path.exists, built)) and os.path.exists(command()):
        subprocess.run([command(), "drill", "1", "1"], stdin=subprocess.DEVNULL, stdout=subprocess.DEVNULL, check=False)


def line_in(told):
    """The line that programs read in what was written to standard error, or None: a second one, for a person, may stand behind it."""
    return next((line for line in reversed(told.split("\n")) if line.startswith("gmus: ")), None)


def told_in(told):
    """What that line says, and the second one, which says to a person which file or word it is and why; each may be None."""
    line = line_in(told)
    if line is None:
        return None, None
    behind = told[told.rindex(line) + len(line):].split("\n")[1:2]
    return line[len("gmus: "):], behind[0].strip() if behind and behind[0].startswith("  ") else None


def call(words, **how):
    """Calls the program, and gives how it ended: its status, what it wrote to standard output, and to standard error."""
    try:
        ended = subprocess.run([command(), *words], stdin=subprocess.DEVNULL, stdout=subprocess.PIPE, stderr=subprocess.PIPE,
                               check=False, **how)
    except OSError as error:
        raise Refused(f"the program can't be started: {command()}: {error.strerror}") from None
    return ended.returncode, ended.stdout.decode("utf-8", "replace"), ended.stderr.decode("utf-8", "replace")


def as_command():
    """Becomes the program, or the launcher in front of it: the command `gmus` of an installed package."""
    for name in ("SIGPIPE", "SIGXFSZ"):
        # Python ignores these, and what it becomes would too.
        signal.signal(getattr(signal, name), signal.SIG_DFL)
    try:
        os.execv(command(), [command(), *sys.argv[1:]])
    except OSError as error:
        print(f"gmus: the program can't be started: {command()}: {error.strerror}", file=sys.stderr)
        sys.exit(127)
