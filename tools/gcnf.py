#!/usr/bin/env python3
"""The command gcnf.py. What it does stands in gmus_tools/commands/gcnf.py, and --help tells it."""
from gmus_tools.commands.gcnf import as_command

if __name__ == "__main__":
    as_command()
