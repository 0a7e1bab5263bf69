#!/usr/bin/env python3
"""The command journal.py. What it does stands in gmus_tools/evidence/journal.py, and --help tells it."""
from gmus_tools.evidence.journal import as_command

if __name__ == "__main__":
    as_command()
