#!/usr/bin/env python3
"""The command uvl.py. What it does stands in gmus_tools/commands/uvl.py, and --help tells it."""
from gmus_tools.commands.uvl import as_command

if __name__ == "__main__":
    as_command()
