#!/usr/bin/env python3
"""The command watch.py. What it does stands in gmus_tools/commands/watch.py, and --help tells it."""
from gmus_tools.commands.watch import as_command

if __name__ == "__main__":
    as_command()
