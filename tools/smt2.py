#!/usr/bin/env python3
"""The command smt2.py. What it does stands in gmus_tools/commands/smt2.py, and --help tells it."""
from gmus_tools.commands.smt2 import as_command

if __name__ == "__main__":
    as_command()
