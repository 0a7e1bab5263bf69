#!/usr/bin/env python3
"""The command check_evidence.py. What it does stands in gmus_tools/evidence/check_evidence.py, and --help tells it."""
from gmus_tools.evidence.check_evidence import as_command

if __name__ == "__main__":
    as_command()
