#!/usr/bin/env python3
"""The command names.py. What it does stands in gmus_tools/commands/names.py, and --help tells it."""
from gmus_tools.commands.names import as_command

if __name__ == "__main__":
    as_command()
