"""Hands on the places.py at the top of the repository, by which a program here finds the other folders."""
import os
import runpy

_TOLD = runpy.run_path(os.path.join(os.path.dirname(os.path.abspath(__file__)), "..", "..", "places.py"))
TOP, TOOLS, EXAMPLES, BENCH = (_TOLD[name] for name in ("TOP", "TOOLS", "EXAMPLES", "BENCH"))
