#!/usr/bin/env python3
"""The command spread.py. What it does stands in gmus_tools/commands/spread.py, and --help tells it."""
from gmus_tools.commands.spread import as_command

if __name__ == "__main__":
    as_command()
