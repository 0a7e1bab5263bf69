#!/usr/bin/env python3
"""The command check_lrat.py. What it does stands in gmus_tools/evidence/check_lrat.py, and --help tells it."""
from gmus_tools.evidence.check_lrat import as_command

if __name__ == "__main__":
    as_command()
