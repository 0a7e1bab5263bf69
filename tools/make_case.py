#!/usr/bin/env python3
"""The command make_case.py. What it does stands in gmus_tools/commands/make_case.py, and --help tells it."""
from gmus_tools.commands.make_case import as_command

if __name__ == "__main__":
    as_command()
