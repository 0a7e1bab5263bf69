"""Reads a journal, from docs/FORMATS.md alone: it shares nothing with the program.

    tools/journal.py FILE NAME                  writes its records as evidence
    tools/journal.py --front FILE NAME OUT      writes those before the first fault as a journal OUT

FILE is the GCNF or CNF file, NAME the journal that a run of `gmus list FILE --journal NAME` wrote or writes, which stays as it
is. Each record is checked as tools/check_evidence.py does it.

Without --front, if none is refused, they are written in their order as evidence of version 1, which `gmus check` and
`--resume` take, and the status is 0. Else the place of the first gate with a fault is told on standard error, and the status
is 10, as that of gmus.

With --front what was cut short, or is refused (10), can be gone on from: OUT becomes a whole journal of the records before the
first gate with a fault, of all where there is none. How many they are, and at which byte of NAME that gate is, is told on
standard output, and the status is 0. OUT is written beside its name, and renamed once it is on the disk. It may be there
already, but it may be neither FILE nor NAME, nor a journal that a run has open.

The status is 1 if FILE is no such file, if the first byte of NAME is neither 0 nor 1 with --front, or if one can't be read or
written, and 2 if the words have no reading.
"""
import fcntl
import os
import stat
import sys

from gmus_tools import command
from gmus_tools.evidence import check_evidence
from gmus_tools.report import number_of

CLOSED, OPEN = 0, 1
# The length of a text stands in so many bytes, the most significant one first.
LENGTH = 8
JOURNAL_REFUSED = 10


class Foreign(Exception):
    """The place of the first gate with a fault."""


def frame_at(held, gate):
    """The text behind an open gate and the place of the next gate; None where there is no whole frame with one."""
    begins = gate + 1 + LENGTH
    ends = begins + int.from_bytes(held[gate + 1:begins], "big")
    return (held[begins:ends], ends) if begins <= ends < len(held) else None


def is_open(held, gate):
    return held[gate:gate + 1] == bytes([OPEN])


def texts_in(held):
    """The texts of the whole frames behind open gates, and the place of the first gate that is closed or has none."""
    texts, gate = [], 0
    while is_open(held, gate) and (frame := frame_at(held, gate)):
        text, gate = frame
        texts.append(text)
    return texts, gate


def framed(texts):
    """The bytes of a journal with these texts, which ends at a closed gate."""
    return b"".join(bytes([OPEN]) + len(text).to_bytes(LENGTH, "big") + text for text in texts) + bytes([CLOSED])


def set_of(problem, inputs, text):
    """The kind and the set of the one record that a text is; a refusal where it is none, or one that is not accepted."""
    reader = check_evidence.Reader(problem, text)
    reader.version = 1
    kind, line, groups, witnesses, proofs = reader.piece()
    if kind == "e" or reader.at < len(reader.lines) or reader.rest:
        raise check_evidence.Refused(line, "BadLine")
    check_evidence.check_record(problem, inputs, [], kind, groups, witnesses, proofs)
    return (kind, *groups)


def records_of(problem, held):
    """The records that a journal gives back, each as its text and its set; Foreign at the first gate with a fault."""
    inputs, sets, gate = problem.selector_form(), set(), 0
    while is_open(held, gate):
        frame = frame_at(held, gate)
        if frame is None:
            raise Foreign(gate)
        try:
            found = set_of(problem, inputs, frame[0])
        except check_evidence.Refused:
            raise Foreign(gate) from None
        if found in sets:
            raise Foreign(gate)
        sets.add(found)
        yield frame[0], found
        gate = frame[1]


def salvaged(problem, held):
    """The sets that a journal gives back, each a kind and its groups, in order; Foreign at the first gate with a fault."""
    return [found for _, found in records_of(problem, held)]


def front_of(problem, held):
    """The texts of the records before the first gate with a fault, and the place of that gate; None where there is none."""
    texts = []
    try:
        for text, _ in records_of(problem, held):
            texts.append(text)
    except Foreign as at:
        return texts, at.args[0]
    return texts, None


def evidence_of(problem, texts):
    """The text of evidence with these records and nothing that closes it."""
    head = f"p gmev 1 {problem.vars} {len(problem.clauses)} {problem.groups}\n".encode()
    return head + b"".join(texts) + b"e partial\n"


def judge_output(out, others):
    """Refuses an output that is one of the other files, no regular file, or open in a run."""
    try:
        there = os.stat(out)
    except FileNotFoundError:
        return
    for name in others:
        if os.path.samestat(there, os.stat(name)):
            raise command.Refused(f"{out}: it is the file {name}, which would be lost")
    if not stat.S_ISREG(there.st_mode):
        raise command.Refused(f"{out}: it is no regular file")
    with open(out, "rb") as file:
        try:
            fcntl.flock(file, fcntl.LOCK_SH | fcntl.LOCK_NB)
        except BlockingIOError:
            raise command.Refused(f"{out}: a run has it open") from None


def write_beside(out, held):
    """Writes a file beside its name, and renames it once it is on the disk: the name has the old or the new text, whole."""
    place = os.path.realpath(out)
    folder = os.path.dirname(place)
    new = os.path.join(folder, f".journal-{os.getpid()}.new")
    with open(new, "xb") as file:
        try:
            if os.path.exists(place):
                os.chmod(new, stat.S_IMODE(os.stat(place).st_mode))
            file.write(held)
            file.flush()
            os.fsync(file.fileno())
            os.replace(new, place)
        except BaseException:
            os.remove(new)
            raise
    at = os.open(folder, os.O_RDONLY)
    try:
        os.fsync(at)
    finally:
        os.close(at)


def write_front(file, name, out):
    """Writes the front of a journal as a journal of its own, and tells what was written."""
    problem, held = check_evidence.problem_of(file), command.bytes_of(name)
    if held[:1] not in (b"", bytes([CLOSED]), bytes([OPEN])):
        raise command.Refused(f"{name}: it is no journal: its first byte is neither 0 nor 1")
    judge_output(out, [file, name])
    texts, at = front_of(problem, held)
    write_beside(out, framed(texts))
    fault = "which has no fault" if at is None else f"which has a fault at byte {at}"
    print(f"{out} has the first {number_of(len(texts), 'record', 'records')} of {name}, {fault}")


def main(words):
    is_front = words[:1] == ["--front"]
    names = words[1:] if is_front else words
    if len(names) != 2 + is_front or any(word.startswith("-") for word in names):
        raise command.WrongWords("a file, a journal about it and an output are wanted" if is_front
                                 else "a file and a journal about it are wanted")
    if is_front:
        return write_front(*names)
    problem = check_evidence.problem_of(words[0])
    with open(words[1], "rb") as file:
        held = file.read()
    try:
        salvaged(problem, held)
    except Foreign as at:
        print(f"journal refused at byte {at}", file=sys.stderr)
        return JOURNAL_REFUSED
    sys.stdout.buffer.write(evidence_of(problem, texts_in(held)[0]))
    return command.DONE


def as_command():
    """Ends the process as the words of its command line ask."""
    command.run("journal.py", main, __doc__)
