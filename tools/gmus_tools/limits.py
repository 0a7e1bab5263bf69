"""The limits of a GCNF file that gmus reads, as docs/FORMATS.md has them.

    from gmus_tools import limits
    limits.VARIABLES
"""
VARIABLES = 4_194_304
CLAUSES = 16_777_216
GROUPS = 1_048_576
LITERALS = 8_000_000
BYTES = 134_217_728
