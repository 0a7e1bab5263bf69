#!/usr/bin/env python3
"""The command clash.py. What it does stands in gmus_tools/commands/clash.py, and --help tells it."""
from gmus_tools.commands.clash import as_command

if __name__ == "__main__":
    as_command()
