"""What `import gmus_tools` gives: rules in, and the minimal conflicts and corrections out, as Python lists and sets."""
from __future__ import annotations

import collections
import collections.abc
import os
import re
import tempfile

from gmus_tools import command, library_runs as runs, limits, program
from gmus_tools.reasons import reason_of
from gmus_tools.report import Origin, Report, decoded, read_preferences, read_problem
from gmus_tools.roles_report import Roles as RolesReport
from gmus_tools.rules import language as rule_language, text as rule_text
from gmus_tools.rules.after import Old
from gmus_tools.spreading import run as spread_run, words as spread_words
from gmus_tools.why.problem import Problem

# what a checker of types takes for true
TYPE_CHECKING = False
if TYPE_CHECKING:
    from typing import Dict, Iterable, List, Mapping, Optional, Set, Tuple, Union

    Name = Union[str, os.PathLike[str]]                         # of a file
    Given = Union[str, bytes, bytearray, os.PathLike[str]]      # a text, or the name of a file that has it
    Rules = Union[Given, Mapping[str, Union[str, Iterable[str]]]]
    Focus = Iterable[Union[str, int]]                           # rules by their names or numbers

__all__ = ["BadArgument", "BadWords", "EvidenceRefused", "GmusError", "InputRefused", "JournalRefused", "NoConflict", "NotAnExtension",
           "OutOfMemory", "ProgramFailed", "ProgramNotBuilt", "ReadFault", "Result", "Roles", "RulesRefused", "SpreadRefused", "WriteFault",
           "carry", "check", "export", "gcnf", "list_gcnf", "read_journal", "roles", "solve", "spread", "written"]

# The name of a literal as rules have it: in quotes if it needs them.
written = rule_language.written
DONE, BUDGET_SPENT, LIMIT_REACHED = program.DONE, program.BUDGET_SPENT, program.LIMIT_REACHED


class GmusError(Exception):
    """Why there is no result: its text is the line of the program on standard error, with `detail` behind it if there is one: the
    program's second line, which says which file or word it is and why. `reason` says in words why that comes, and `status` is the
    status of the program. Each is None if the program was not called, or did not tell."""
    status: Optional[int] = None
    reason: Optional[str] = None
    detail: Optional[str] = None


class BadArgument(GmusError, TypeError):
    """What was handed in is nothing that the call takes."""


class RulesRefused(GmusError):
    """The rules can't be read; the text says what is wrong, and in which line."""


class SpreadRefused(GmusError):
    """Many runs can't be begun or gone on with; the text says why."""


class BadWords(GmusError):
    """An option is out of its range, or two options don't go together."""
    status = 2


class InputRefused(GmusError):
    """The GCNF file is not an accepted one: the number and the name of its first offence, the limit that it breaks if it does
    that, and its line and the byte in the line, each from 1."""
    status = 5
    FORM = re.compile(r"input refused: (?P<number>\d+) (?P<name>\w+)(?: (?P<limit>\w+))? "
                      r"at line (?P<line>\d+) byte (?P<byte>\d+)")
    number: Optional[int] = None
    name: Optional[str] = None
    limit: Optional[str] = None
    line: Optional[int] = None
    byte: Optional[int] = None


class ReadFault(GmusError):
    """A file could not be read: `on` is 'input', 'evidence' or 'journal'."""
    status = 6
    FORM = re.compile(r"read fault on (?P<on>\w+)")
    on = None


class WriteFault(GmusError):
    """The report, the evidence, an export or the journal could not be written whole: `on` says which."""
    status = 7
    FORM = re.compile(r"write fault on (?P<on>\w+)")
    on = None


class OutOfMemory(GmusError):
    """The program got too little memory."""
    status = 8


class EvidenceRefused(GmusError):
    """The evidence is refused: its line, from 1, and the number and the name of the refusal."""
    status = 9
    FORM = re.compile(r"evidence refused: line (?P<line>\d+): (?P<number>\d+) (?P<name>\w+)")
    line: Optional[int] = None
    number: Optional[int] = None
    name: Optional[str] = None


class JournalRefused(GmusError):
    """The journal has something that is refused: `byte` is the place of the gate, in bytes from 0."""
    status = 10
    FORM = re.compile(r"journal refused at byte (?P<byte>\d+)")
    byte: Optional[int] = None


class NoConflict(GmusError):
    """The evidence shows fewer conflicts than the `number` that was asked for."""
    status = 11
    FORM = re.compile(r"no conflict (?P<number>\d+)")
    number: Optional[int] = None


class NotAnExtension(GmusError):
    """The new file does not extend the old one: `clause` is the place of the first clause that differs, from 1, or 0."""
    status = 12
    FORM = re.compile(r"not an extension: clause (?P<clause>\d+)")
    clause: Optional[int] = None


class ProgramNotBuilt(GmusError):
    """The program is not there, or could not be built."""
    status = 127


class ProgramFailed(GmusError):
    """The program ended otherwise: with a status that it hasn't, or by a signal, whose number `status` then is below 0."""


CLASSES = {it.status: it for it in (BadWords, InputRefused, ReadFault, WriteFault, OutOfMemory, EvidenceRefused, JournalRefused,
                                    NoConflict, NotAnExtension, ProgramNotBuilt)}
for each in CLASSES.values():
    each.reason = reason_of(each.status)
# The options that are numbers, each with the least and the greatest that it may be.
RANGES = {"jobs": (1, 64), "limit": (1, 10 ** 9), "conflicts": (0, 2 ** 64 - 1), "number": (1, 10 ** 9),
          "weight": (1, rule_language.MOST_WEIGHT)}
FILES = ("evidence", "resume", "journal")


class Result:
    """The sets of a report, by the names of groups.

    `names` has the name of each group, in their order; no two are the same. `numbers` has the number of each name.
    `conflicts` and `corrections` are lists of sets of names, in the order of the report. `complete` says that no set is
    missing; if some may be, `why` says why. `notes` tells what may be a mistake in the rules. With a focus all this is of the
    rules in focus. `weights` has the weight of each name, and `kept` the names of rules that are never given up.
    """

    def __init__(self, report, names, why, notes=(), weights=(), kept=()) -> None:
        self.names: List[str] = names
        self.weights: Dict[str, int] = {name: dict(weights).get(number, 1) for number, name in enumerate(names, 1)}
        self.kept: Set[str] = {names[group - 1] for group in kept if group <= len(names)}
        self.numbers: Dict[str, int] = {name: number for number, name in enumerate(names, 1)}
        self.conflicts: List[Set[str]] = [{names[group - 1] for group in members} for members in report.conflicts]
        self.corrections: List[Set[str]] = [{names[group - 1] for group in members} for members in report.corrections]
        self.complete: bool = report.is_complete
        self.why: Optional[str] = None if report.is_complete else why
        self.notes: List[str] = list(notes)

    def clashes(self) -> Optional[bool]:
        """Whether something clashes; None if a partial report does not tell."""
        if self.conflicts or any(self.corrections):
            return True
        return False if self.corrections or self.complete else None

    def weight(self, correction: Iterable[str]) -> int:
        """What giving up these rules weighs: the sum of their weights. A name that no rule has is a KeyError."""
        return sum(self.weights[name] for name in correction)

    def lightest(self) -> List[Set[str]]:
        """The corrections that give up no rule which is kept, by their weight; of equal weight those of few rules first."""
        return sorted((it for it in self.corrections if self.kept.isdisjoint(it)), key=lambda it: (self.weight(it), len(it)))

    def __repr__(self) -> str:
        kind = "complete" if self.complete else "partial"
        return f"<Result: {len(self.conflicts)} conflicts, {len(self.corrections)} corrections, {kind}>"


class Roles:
    """Which rules are in which conflicts, by the names of groups: `every`, `some` and `none` are lists of names, in their order.
    What a focus leaves out is in none of them."""

    def __init__(self, found, names) -> None:
        self.every: List[str] = [names[group - 1] for group in found.groups["every"]]
        self.some: List[str] = [names[group - 1] for group in found.groups["some"]]
        self.none: List[str] = [names[group - 1] for group in found.groups["none"]]

    def __repr__(self) -> str:
        return f"<Roles: {len(self.every)} in every conflict, {len(self.some)} in some, {len(self.none)} in none>"


def solve(rules: Rules, jobs: Optional[int] = None, limit: Optional[int] = None, conflicts: Optional[int] = None,
          evidence: Optional[Name] = None, resume: Optional[Name] = None, journal: Optional[Name] = None,
          focus: Optional[Focus] = None, timeout: Optional[float] = None, weights: Optional[Mapping[str, int]] = None,
          keep: Optional[Iterable[str]] = None) -> Result:
    """The result for rules: their text, the name of a file that has it, or a mapping from names to lines.

    `jobs` is how many workers share the search, `limit` how many sets may be recorded, `conflicts` how many clauses may be
    learnt. `evidence` names a file to write evidence to, `resume` one to go on from, and `journal` one that keeps each set once
    it is found and from which to go on. `focus` lists the rules that the question is about, by names or numbers; others are
    left out. After `timeout` seconds the program is ended, and what it found is a partial result; before that, what is resumed is
    checked, for which the time does not count. `weights` is a mapping from names to whole numbers, and `keep` a list of names of
    rules that are never given up, beside those that the rules say.

    Raises RulesRefused if the rules can't be read, BadArgument and BadWords for what can't be given so, ReadFault, WriteFault,
    EvidenceRefused for `resume`, JournalRefused for `journal`, InputRefused if the rules are above a limit, and OutOfMemory,
    ProgramNotBuilt or ProgramFailed.
    """
    made, names = read_rules(rules, weights, keep)
    with tempfile.TemporaryDirectory(prefix="gmus-") as folder:
        file = kept(folder, "problem.gcnf", made.gcnf())
        report, why = listed(folder, file, names, timeout, jobs=jobs, limit=limit, conflicts=conflicts, evidence=evidence, resume=resume,
                             journal=journal, focus=focus)
    weighed = {number: weight for number, weight in enumerate(made.weights) if weight is not None}
    return Result(report, names, why, made.notes(), weighed, [number for number, weight in enumerate(made.weights) if weight is None])


def gcnf(rules: Rules, after: Optional[Given] = None, weights: Optional[Mapping[str, int]] = None,
         keep: Optional[Iterable[str]] = None) -> str:
    """The GCNF file of rules, as a text; they and their preferences are given as to `solve`. `after` is such a file of fewer rules,
    by its name or as a text: what is made begins with all of it.

    Raises RulesRefused if rules can't be read or are not those of `after` and more; BadArgument and BadWords as `solve` does.
    """
    made, _ = read_rules(rules, weights, keep)
    if after is None:
        return made.gcnf()
    try:
        return Old(*text_of(after, "after")).longer(made)
    except command.Refused as why:
        raise RulesRefused(str(why)) from None


def list_gcnf(file: Given, jobs: Optional[int] = None, limit: Optional[int] = None, conflicts: Optional[int] = None,
              evidence: Optional[Name] = None, resume: Optional[Name] = None, journal: Optional[Name] = None,
              focus: Optional[Focus] = None, timeout: Optional[float] = None) -> Result:
    """The result for a GCNF file, by its name or as a text. The options are those of `solve`; `timeout` is in seconds.

    Raises what `solve` raises but RulesRefused; InputRefused if the file is not an accepted one, ReadFault if it can't be read.
    """
    with tempfile.TemporaryDirectory(prefix="gmus-") as folder:
        name = file_of(folder, "problem.gcnf", file)
        names = names_if_readable(name)
        report, why = listed(folder, name, names, timeout, jobs=jobs, limit=limit, conflicts=conflicts, evidence=evidence, resume=resume,
                             journal=journal, focus=focus)
        return result_of(name, report, why)


def check(file: Given, evidence: Given, focus: Optional[Focus] = None) -> Result:
    """What evidence shows of a GCNF file. Both are names of files, or texts; `focus` is that of `solve`.

    Raises EvidenceRefused, InputRefused, ReadFault, BadArgument, BadWords, OutOfMemory, ProgramNotBuilt or ProgramFailed.
    """
    with tempfile.TemporaryDirectory(prefix="gmus-") as folder:
        name = file_of(folder, "problem.gcnf", file)
        words = options_of(names_if_readable(name), focus=focus)
        report, _ = asked(["check", name, file_of(folder, "evidence", evidence), *words])
        return result_of(name, report, "the evidence is partial")


def spread(file: Given, evidence: Name, processes: Optional[int] = None, dask: Optional[str] = None, mpi: bool = False,
           seconds: Optional[int] = None, sets: Optional[int] = None, journal: Optional[Name] = None) -> Result:
    """The result for a GCNF file by many runs, of which none is believed, as tools/spread.py has it.

    `evidence` names the file that keeps what is found, and from which it goes on. The tasks run in `processes` of this machine,
    on the Dask cluster with the address `dask`, or in an MPI job. `seconds` is how long one may take, with `sets` it ends at so
    many, and `journal` is the folder for the files of tasks. An interrupt is raised once all is kept that was found.

    Raises SpreadRefused if they can't be begun or gone on with, and what `list_gcnf` raises.
    """
    with tempfile.TemporaryDirectory(prefix="gmus-") as folder:
        name = file_of(folder, "problem.gcnf", file)
        want_text(evidence, "evidence")
        words = [name, "--evidence", os.path.abspath(os.fspath(evidence)), *(["--mpi"] if mpi else [])]
        folder_of_tasks = None if journal is None else os.fspath(journal)
        for option, value in (("processes", processes), ("dask", dask), ("round", seconds), ("sets", sets), ("journal", folder_of_tasks)):
            words += [] if value is None else [f"--{option}", str(value)]
        try:
            ended = spread_run.run(spread_words.Words(words))
        except command.WrongWords as why:
            raise error_of(BadWords.status, str(why)) from None
        except command.Refused as why:
            raise SpreadRefused(str(why)) from None
        if ended.status not in (DONE, LIMIT_REACHED):
            line, detail = program.told_in(ended.line)
            raise error_of(ended.status, line or ended.line, detail)
        return result_of(name, read_report(ended.report), ended.line)


def roles(file: Given, jobs: Optional[int] = None, focus: Optional[Focus] = None) -> Roles:
    """Which rules of a GCNF file are in every conflict, in some, or in none; it is given as to `list_gcnf`.

    Raises InputRefused, ReadFault, BadArgument, BadWords, OutOfMemory, ProgramNotBuilt or ProgramFailed.
    """
    with tempfile.TemporaryDirectory(prefix="gmus-") as folder:
        name = file_of(folder, "problem.gcnf", file)
        names = names_if_readable(name)
        output, _ = called(["roles", name, *options_of(names, jobs=jobs, focus=focus)])
        origin = Origin(decoded(command.bytes_of(name)), name, focus=groups_of(names, focus))
        try:
            return Roles(RolesReport(origin, output), names)
        except command.Refused as why:
            # it says itself that the report can't be read
            raise ProgramFailed(str(why)) from None


def carry(old: Given, evidence: Given, new: Given, jobs: Optional[int] = None, new_evidence: Optional[Name] = None) -> Result:
    """The result for the GCNF file `new`, which is `old` with more at its end, from evidence about `old`. Each is a name or a text;
    `new_evidence` names a file to write evidence about `new` to.

    Raises NotAnExtension if `new` is something else, and what `check` raises; WriteFault for `new_evidence`.
    """
    with tempfile.TemporaryDirectory(prefix="gmus-") as folder:
        names = [file_of(folder, kind, given) for kind, given in (("old.gcnf", old), ("evidence", evidence), ("new.gcnf", new))]
        report, why = asked(["carry", *names, *options_of((), jobs=jobs, evidence=new_evidence)])
        return result_of(names[2], report, why)


def export(file: Given, evidence: Given, number: int) -> Tuple[str, str]:
    """The conflict of this number, from 1, in the order of the report: the clauses of its groups as a CNF, and a refutation of them
    in LRAT. Both are texts, and so or by their names are `file` and `evidence` given.

    Raises NoConflict if the evidence shows fewer, and what `check` raises.
    """
    want_in_range("number", number)
    with tempfile.TemporaryDirectory(prefix="gmus-") as folder:
        names = [file_of(folder, kind, given) for kind, given in (("problem.gcnf", file), ("evidence", evidence))]
        made = [os.path.join(folder, name) for name in ("cnf", "lrat")]
        called(["export", *names, str(number), *made])
        try:
            return command.text_of(made[0]), command.text_of(made[1])
        except FileNotFoundError:
            raise ProgramFailed("the program ended with 0, and wrote no export") from None


def read_journal(file: Given, journal: Name) -> Result:
    """What the journal of a run has, which keeps it now or kept it: a partial result. It is not checked; a run that goes on from it
    does that.

    Raises ReadFault if a file can't be read, ProgramFailed if the journal is of another file, and BadArgument.
    """
    with tempfile.TemporaryDirectory(prefix="gmus-") as folder:
        name = file_of(folder, "problem.gcnf", file)
        names = names_if_readable(name)
        return result_of(name, journal_report(journal, len(names)), "a journal does not say that no set is missing")


def result_of(file, report, why):
    """The result for a file: what is found, with the names and the preferences that its comments have."""
    weights, kept_groups = read_preferences(decoded(command.bytes_of(file)))
    return Result(report, names_in(file, report.groups), why, (), weights, kept_groups)


def listed(folder, name, names, timeout, **options):
    """The report of a listing, and why it ended early, if it did. With a timeout a journal is kept meanwhile."""
    words = options_of(names, **options)
    if timeout is None:
        return asked(["list", name, *words])
    if not isinstance(timeout, (int, float)) or isinstance(timeout, bool) or not 0 < timeout < float("inf"):
        raise BadWords(f"timeout={timeout!r}: a number of seconds above 0 is wanted")
    journal, resume = options["journal"], options["resume"]
    if journal is not None and resume is not None:
        raise BadWords("journal and resume don't go together: a journal is gone on from by itself")
    if journal is None:
        journal = kept(folder, "journal", runs.framed(records_of(name, names, resume, options["focus"]) if resume is not None else []))
        words = options_of(names, **{**options, "journal": journal, "resume": None})
    found = asked(["list", name, *words], timeout)
    if found is not None:
        return found
    if options["evidence"] is not None:
        write_evidence(os.path.abspath(os.fspath(options["evidence"])), name, journal, groups_of(names, options["focus"]))
    return journal_report(journal, len(names)), f"timeout of {timeout} seconds"


def records_of(name, names, evidence, focus):
    """The records of evidence, once the program has accepted them."""
    asked(["check", name, os.path.abspath(os.fspath(evidence)), *options_of(names, focus=focus)])
    return runs.records_in(bytes_in(evidence, "evidence"))


def write_evidence(place, name, journal, focus):
    """Writes the records of a journal as evidence."""
    with open(name, "rb") as file:
        problem = Problem(file, name, focus)
    texts = runs.texts_in(bytes_in(journal))
    try:
        kept("", place, runs.evidence_of(problem.variables, problem.count, problem.groups, texts))
    except OSError as error:
        raise fault(WriteFault, "evidence", error) from None


def journal_report(journal, groups):
    """The partial report of what a journal has."""
    return read_report(runs.report_of(groups, runs.texts_in(bytes_in(journal))))


def bytes_in(name, on="journal"):
    """What a journal or evidence holds."""
    want_text(name, on)
    try:
        return command.bytes_of(os.path.abspath(os.fspath(name)))
    except OSError as error:
        raise fault(ReadFault, on, error) from None


def fault(kind, on, error):
    """The exception for what the system answered, as if the program had told it."""
    return error_of(kind.status, f"{'read' if kind is ReadFault else 'write'} fault on {on}", f"{error.filename}: {error.strerror}")


def read_rules(rules, weights=None, keep=None):
    """The rules as they are read, with these preferences, and the names of their groups."""
    names = None
    want_text(rules, "rules", has_mapping=True)
    if isinstance(rules, collections.abc.Mapping):
        names, text = text_of_mapping(rules)
        source = "rules"
    else:
        text, source = text_of(rules, "rules")
    try:
        made = rule_language.read(text, source)
    except command.Refused as why:
        raise RulesRefused(str(why)) from None
    if names is not None and len(names) != len(made.names) - 1:
        raise RulesRefused(f"{source}: a line begins with '[', as only the first line of a rule does in a text")
    names = made.names[1:] if names is None else names
    prefer(made, names, weights, keep)
    return made, names


def prefer(made, names, weights, keep):
    """Gives rules the weights of a mapping, and has those of a list never given up."""
    if not isinstance(weights, (collections.abc.Mapping, type(None))):
        raise BadArgument(f"weights: a mapping from names of rules to whole numbers is wanted, and not {shown(weights)}")
    if isinstance(keep, (str, bytes)) or not isinstance(keep, (collections.abc.Iterable, type(None))):
        raise BadArgument(f"keep: a list of names of rules is wanted, and not {shown(keep)}")
    numbers = {name: number for number, name in enumerate(names, 1)}
    for what, pairs in (("weights", (weights or {}).items()), ("keep", [(name, None) for name in keep or ()])):
        for name, weight in pairs:
            if not isinstance(name, str) or name not in numbers:
                raise BadWords(f"{what}: {shown(name)} is no name of a rule")
            if what == "weights":
                want_in_range("weight", weight)
            made.weights[numbers[name]] = weight


def want_text(given, what, has_mapping=False):
    """Refuses what is neither a text nor the name of a file, nor a mapping if that may be given."""
    if has_mapping and isinstance(given, collections.abc.Mapping):
        return
    if not isinstance(given, (str, bytes, bytearray, os.PathLike)):
        wanted = "a text, the name of a file or a mapping from names to lines" if has_mapping else "a text or the name of a file"
        raise BadArgument(f"{what}: {wanted} is wanted, and not {shown(given)}")
    if isinstance(given, str) and not given:
        raise BadArgument(f"{what}: an empty text was given, which is no name of a file either")


def shown(given):
    """What was handed in, in a message."""
    text = repr(given)
    return text if len(text) <= 60 else text[:57] + "..."


def is_text(given):
    """Whether this is a text, and not the name of a file: it has more than one line, or is made of bytes."""
    return isinstance(given, (bytes, bytearray)) or isinstance(given, str) and "\n" in given


def text_of(given, source):
    """The text that is given or in the named file, and its name in messages."""
    if isinstance(given, str) and is_text(given):
        return given, source
    name = source if is_text(given) else os.fspath(given)
    try:
        held = bytes(given) if is_text(given) else command.bytes_of(os.path.abspath(name))
        return command.text_in(held, name), name
    except command.Refused as why:
        raise RulesRefused(str(why)) from None
    except OSError as error:
        hint = "; a string of one line is the name of a file" if isinstance(given, str) else ""
        raise RulesRefused(f"{name}: {error.strerror}{hint}") from None


def file_of(folder, name, given):
    """A name of a file that has the text that is given, or of the one that is named."""
    want_text(given, "file" if name == "problem.gcnf" else name.partition(".")[0])
    return kept(folder, name, given) if is_text(given) else os.path.abspath(os.fspath(given))


def kept(folder, name, text):
    """Writes a text to a file, and gives its name."""
    path = os.path.join(folder, name)
    with open(path, "wb") as out:
        out.write(text.encode("utf-8", "replace") if isinstance(text, str) else text)
    return path


def text_of_mapping(rules):
    """The names of the rules of a mapping, and their text: a line, or a list of lines, for each name."""
    lines, names = [], []
    for name, given in rules.items():
        if not isinstance(name, str):
            raise BadArgument(f"rules: the name of a rule is a text, and not {shown(name)}")
        given = [given] if isinstance(given, str) else given
        if not isinstance(given, collections.abc.Iterable) or isinstance(given, (bytes, collections.abc.Mapping)):
            raise BadArgument(f"rules: the rule '{command.plain(name)}' has a line or a list of lines, and not {shown(given)}")
        given = list(given)
        wrong = [line for line in given if not isinstance(line, str)]
        if wrong:
            raise BadArgument(f"rules: a line of the rule '{command.plain(name)}' is a text, and not {shown(wrong[0])}")
        if name.strip().lower() in rule_language.RESERVED:
            lines.append(f"[{name.strip().lower()}]")
        else:
            names.append(name)
            lines.append(f"[{name_in_text(name, len(names), rules)}]")
        lines += given
    return names, "\n".join(lines) + "\n"


def name_in_text(name, number, taken):
    """The name, or another one that is not taken if a line [NAME] can't have it: a key may be any text."""
    if rule_text.may_be_rule(name):
        return name
    found = f"rule {number}"
    while found in taken:
        found += "'"
    return found


def options_of(names, **given):
    """The words for the options that are given; those of groups may be given by these names."""
    words = []
    for name, value in given.items():
        if value is None:
            continue
        if name in RANGES:
            want_in_range(name, value)
        if name == "focus":
            value = ",".join(map(str, sorted(groups_of(names, value))))
        if name in FILES:
            want_text(value, name)
            value = os.path.abspath(os.fspath(value))
        words.append(f"--{name}={value}")
    return words


def want_in_range(name, value):
    """Refuses a number that is none, or out of its range."""
    least, most = RANGES[name]
    if not isinstance(value, int) or isinstance(value, bool) or not least <= value <= most:
        raise BadWords(f"{name}={shown(value)}: a whole number from {least} to {most} is wanted")


def groups_of(names, focus):
    """The groups of a focus, which names them or has their numbers; None if there is none."""
    if focus is None:
        return None
    if isinstance(focus, (str, bytes)) or not isinstance(focus, collections.abc.Iterable):
        raise BadArgument(f"focus: a list of names or numbers of rules is wanted, and not {shown(focus)}")
    numbers, found = {name: number for number, name in enumerate(names, 1)}, set()
    for it in focus:
        number = it if isinstance(it, int) and not isinstance(it, bool) else numbers.get(it) if isinstance(it, str) else None
        if number is None or number < 1:
            raise BadWords(f"focus: {shown(it)} is no name or number of a rule")
        found.add(number)
    if not found:
        raise BadWords("focus: at least one rule is wanted")
    return found


def called(words, seconds=None):
    """What the program writes, and why it ended early, if it did; None if it took more seconds than these."""
    try:
        ended = runs.call(words, seconds)
    except command.Refused as why:
        raise error_of(ProgramNotBuilt.status, str(why)) from None
    if ended is None:
        return None
    status, report, told = ended
    line, detail = program.told_in(told)
    line = told.strip() if line is None else line
    if status not in (DONE, BUDGET_SPENT, LIMIT_REACHED):
        raise error_of(status, line, detail)
    return report, line


def asked(words, seconds=None):
    """The report that the program writes, and why it ended early, if it did; None if it took more seconds than these."""
    found = called(words, seconds)
    return None if found is None else (read_report(found[0]), found[1])


def read_report(text):
    try:
        return Report(text)
    except command.Refused as why:
        raise ProgramFailed(f"the report can't be read: {why}") from None


def error_of(status, line, detail=None):
    """The exception for a status and the line on standard error, with what the line says as attributes; `detail` is the second
    line, if there is one."""
    kind = CLASSES.get(status, ProgramFailed)
    error = kind(": ".join(filter(None, (line or f"the program ended with {status}", detail))))
    error.status, error.detail = status, detail
    found = kind.FORM.match(line) if hasattr(kind, "FORM") else None
    for name, value in (found.groupdict() if found else {}).items():
        setattr(error, name, int(value) if value and value.isdigit() else value)
    error.reason = reason_of(status, getattr(error, "number", None))
    return error


def names_if_readable(file):
    """The names of the groups of a file; none if it can't be read, or is no such file, as the program then tells."""
    try:
        _, groups = read_problem(decoded(command.bytes_of(file)))
    except OSError:
        return ()
    return names_in(file, groups) if groups is not None and groups <= limits.GROUPS else ()


def names_in(file, groups):
    """The name of each group of a file. A name that several groups have is told apart by their numbers."""
    with open(file, "rb") as source:
        named, _ = read_problem(decoded(source.read()))
    names = [named.get(group, f"group {group}") for group in range(1, groups + 1)]
    counts, all_names = collections.Counter(names), rule_text.Names()
    return [all_names.new(name if counts[name] == 1 else f"{name} (group {at})") for at, name in enumerate(names, 1)]
