#!/usr/bin/env python3
"""The command why.py. What it does stands in gmus_tools/commands/why.py, and --help tells it."""
from gmus_tools.commands.why import as_command

if __name__ == "__main__":
    as_command()
