"""gmus as a library: rules in, and the minimal conflicts and corrections out, as Python lists and sets.

    import gmus_tools
    result = gmus_tools.solve(rules)                    rules: their text, a file, or a mapping from names to lines
    result = gmus_tools.list_gcnf("laptop.gcnf")        a GCNF or CNF file, or its text
    result = gmus_tools.check("laptop.gcnf", evidence)  what evidence shows, which anybody may have written
    found = gmus_tools.roles("laptop.gcnf")             which rules are in every conflict, in some, or in none
    result = gmus_tools.carry(old, evidence, new)       a file that got longer, from what was known of it
    cnf, lrat = gmus_tools.export(file, evidence, 1)    a conflict for other solvers and checkers
    result = gmus_tools.read_journal(file, journal)     what the journal of a run has
    result = gmus_tools.spread("laptop.gcnf", "laptop.evidence", processes=8)   by many runs, on one machine or more
    text = gmus_tools.gcnf(rules)                       the GCNF file of rules

    result.conflicts      a list of sets of names
    result.corrections    likewise
    result.names          the names of all groups, in their order
    result.complete       whether no set is missing

What can't be answered is raised, as a GmusError of its own class for each status of the program. docs/LIBRARY.md has
examples that can be run.
"""
from importlib import import_module

# what a checker of types takes for true
TYPE_CHECKING = False
if TYPE_CHECKING:
    from gmus_tools.library import (  # noqa: F401
        BadArgument, BadWords, EvidenceRefused, GmusError, InputRefused, JournalRefused, NoConflict, NotAnExtension,
        OutOfMemory, ProgramFailed, ProgramNotBuilt, ReadFault, Result, Roles, RulesRefused, SpreadRefused, WriteFault, carry,
        check, export, gcnf, list_gcnf, read_journal, roles, solve, spread, written)

__all__ = [  # noqa: F822
    "BadArgument", "BadWords", "EvidenceRefused", "GmusError", "InputRefused", "JournalRefused", "NoConflict", "NotAnExtension",
    "OutOfMemory", "ProgramFailed", "ProgramNotBuilt", "ReadFault", "Result", "Roles", "RulesRefused", "SpreadRefused",
    "WriteFault", "carry", "check", "export", "gcnf", "list_gcnf", "read_journal", "roles", "solve", "spread", "written"]


def __getattr__(name: str):
    """What the library has. It is loaded once it is asked for, since commands, which need less, begin sooner so."""
    if name not in __all__:
        raise AttributeError(f"module {__name__!r} has no attribute {name!r}")
    return getattr(import_module("gmus_tools.library"), name)


def __dir__() -> "list[str]":
    return sorted([*globals(), *__all__])
