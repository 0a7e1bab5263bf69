#!/usr/bin/env python3
"""The command deb.py. What it does stands in gmus_tools/commands/deb.py, and --help tells it."""
from gmus_tools.commands.deb import as_command

if __name__ == "__main__":
    as_command()
