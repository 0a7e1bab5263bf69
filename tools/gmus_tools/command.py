"""How the tools for users end, and how they tell what is wrong: one habit for all.

0: done. 1: refused, and a line on standard error says what and where. 2: the words of the command line have no reading,
and the tool's usage says which have. `--help` writes what the tool does to standard output, and ends with 0. No input ends
in a traceback.

A tool that writes a text has `[-o FILE]` in its usage. The text goes to standard output, or to FILE once it is whole: it is
written beside it and takes its place, so what was refused leaves no file, and none that is half written.
"""
import os
import re
import shlex
import stat
import sys
import unicodedata

from gmus_tools.text_kinds import guessed_kind, known_kind

DONE, REFUSED, WRONG_WORDS = 0, 1, 2
# what a command is called beside this repository, and what it is called if the package was installed
TOLD = re.compile(r"(?:\btools/)?\b(clash|gcnf|names|why|watch|smt2|deb|uvl|make_case|spread|check_evidence|check_lrat|journal)\.py\b")
INSTALLED = re.compile(r"gmus-[a-z0-9-]+")


class Refused(Exception):
    """What is wrong with what a tool was given."""


class WrongWords(Exception):
    """What is wrong with the words of the command line."""


class Output:
    """Where the text of a tool goes: to standard output, or to the file of this name. What was read is not written over."""

    def __init__(self):
        self.name, self.parts, self.read = None, [], set()

    def take_name(self, words):
        """The words without `-o FILE`, whose FILE is kept."""
        at = words.index("-o") if "-o" in words[:words.index("--") if "--" in words else len(words)] else None
        if at is None:
            return words
        left = words[:at] + words[at + 2:]
        if at + 1 == len(words):
            raise WrongWords("-o has nothing behind it")
        if "-o" in left[:left.index("--") if "--" in left else len(left)]:
            raise WrongWords("-o stands twice")
        self.name = None if words[at + 1] == "-" else words[at + 1]
        return left

    def put(self, held):
        if self.name is None:
            sys.stdout.buffer.write(held)
        else:
            self.parts.append(held)

    def end(self):
        """Has the file that was named hold what was put, if anything was."""
        if self.name is None:
            sys.stdout.flush()
        elif self.parts:
            if os.path.realpath(self.name) in self.read:
                raise Refused(f"{self.name}: this was read, and is not written over")
            write_whole(self.name, b"".join(self.parts))


OUTPUT = Output()


def is_installed():
    """Whether this process is a command of an installed package: these are `gmus-names` and the like."""
    return INSTALLED.fullmatch(os.path.basename(sys.argv[0])) is not None


def here(text):
    """A text with commands under the names that they have here: if installed, tools/names.py and names.py are `gmus-names`."""
    return TOLD.sub(lambda name: "gmus-" + name[1].replace("_", "-"), text) if is_installed() else text


def beside(name):
    """How the command of this name, as `names.py`, is called by a person who called this one."""
    return os.path.join(os.path.dirname(sys.argv[0]), here(name))


def run(tool, main, doc):
    """Ends the process as the tool's `main` does over the command line's words: by the status that it returns, or None.

    `doc` is what the tool does: its usage is the first lines in it that are set in, up to an empty one.
    """
    OUTPUT.__init__()
    tool, doc = here(tool), here(doc)
    if sys.stderr is None:
        # What is told has no place to go, and would stand in the output otherwise.
        sys.stderr = open(os.devnull, "w", encoding="utf-8")
    try:
        words = OUTPUT.take_name(sys.argv[1:]) if "[-o " in usage_of(doc) else sys.argv[1:]
        if sys.stdout is None and OUTPUT.name is None:
            raise Refused("standard output is closed")
        if words in (["--help"], ["-h"]):
            print(doc.strip())
            status = DONE
        else:
            status = main(words)
        OUTPUT.end()
    except WrongWords as why:
        status = told(f"{tool}: {why}\n{usage_of(doc)}", WRONG_WORDS)
    except Refused as why:
        status = told(f"{tool}: {why}", REFUSED)
    except BrokenPipeError:
        # Who reads has gone. What is still to be written would be refused once more at the end.
        os.dup2(os.open(os.devnull, os.O_WRONLY), sys.stdout.fileno())
        status = REFUSED
    except OSError as error:
        place = f"{error.filename}: " if error.filename else ""
        status = told(f"{tool}: {place}{error.strerror or error}", REFUSED)
    except (RecursionError, MemoryError):
        status = told(f"{tool}: what was given is too deep or too large", REFUSED)
    except KeyboardInterrupt:
        status = 130
    sys.exit(status or DONE)


def told(text, status):
    print(text, file=sys.stderr)
    return status


def put(text):
    """Writes a text, or bytes, to where the output goes. What can't be written in UTF-8 is marked."""
    OUTPUT.put(text.encode("utf-8", "replace") if isinstance(text, str) else text)


def is_for_a_person():
    """Whether the output goes to a terminal."""
    return OUTPUT.name is None and sys.stdout.isatty()


def refuse_places(read, written):
    """Refuses names of files at which one would be lost, or could not be written."""
    places = [*read, *written]
    if len({os.path.realpath(name) for name in places}) < len(places):
        raise Refused(f"{', '.join(places)}: two of these are one file")
    for name in written:
        if os.path.exists(name) and not os.path.isfile(name):
            raise Refused(f"{name}: this is no plain file, and is left as it is")
        if not os.path.isdir(os.path.dirname(os.path.realpath(name))):
            raise Refused(f"{name}: its folder is not there")


def write_whole(name, held):
    """Writes a file so that whoever reads it finds the whole of it, the one before or this one. What is no plain file, as
    /dev/null, is written to as it is."""
    if os.path.exists(name) and not os.path.isfile(name):
        with open(name, "wb") as file:
            file.write(held)
        return
    place = os.path.realpath(name)
    new = f"{place}.{os.getpid()}.new"
    try:
        with open(new, "wb") as file:
            file.write(held)
        if os.path.exists(place):
            os.chmod(new, stat.S_IMODE(os.stat(place).st_mode))
        os.replace(new, place)
    except OSError as error:
        # The file that was named is what a person knows of.
        raise OSError(error.errno, error.strerror, name) from None
    finally:
        remove(new)


def remove(name):
    try:
        os.remove(name)
    except FileNotFoundError:
        pass


def usage_of(doc):
    """The tool's usage, as its text has it."""
    lines = iter(doc.split("\n"))
    found = []
    for line in lines:
        if line.startswith("    "):
            found.append(line)
        elif found:
            break
    return "\n".join(found)


def bytes_of(name):
    """What a file holds, or standard input where the name is `-`."""
    if name == "-":
        return standard_input().read()
    with opened(name) as source:
        return source.read()


def opened(name):
    """The file, opened to be read."""
    OUTPUT.read.add(os.path.realpath(name))
    return open(name, "rb")


def standard_input():
    """Standard input, as bytes; refused if it is closed."""
    if sys.stdin is None:
        raise Refused("standard input is closed")
    return sys.stdin.buffer


def text_of(name):
    """The text of a file, or of standard input where the name is `-`, without a byte order mark."""
    return text_in(bytes_of(name), name)


def text_in(held, name):
    """The text of a file's bytes, without a byte order mark. If they are no UTF-8 they are refused, by what they are as far
    as that is known, and with the command that makes a text of them."""
    refuse_known(held, name)
    try:
        return held.decode("utf-8-sig")
    except UnicodeDecodeError as error:
        line = held.count(b"\n", 0, error.start) + 1
        kind = guessed_kind(held)
        guess = f". If they are {kind[0]}: {making(kind[1], name)}" if kind else ""
        raise Refused(f"{name}: line {line}: the bytes are no UTF-8{guess}") from None


def refuse_known(held, name):
    """Refuses what is packed, or in an encoding that shows itself."""
    kind = known_kind(held)
    if kind:
        raise Refused(f"{name}: this is {kind[0]}, and a text in UTF-8 is wanted: {making(kind[1], name)}")


def making(command, name):
    """The command that makes a text in UTF-8 of a file."""
    return f"{command} {'FILE' if name == '-' else shlex.quote(name)} > TEXT"


def plain(text):
    """The text without control characters, which a terminal would obey, and without line ends of any alphabet."""
    if text.isascii() and text.isprintable():
        return text
    return "".join("\ufffd" if unicodedata.category(char) in ("Cc", "Cf", "Cs", "Zl", "Zp") else char for char in text)
