"""Where the folders of the repository are. A program imports this before any module of another folder.

A program finds the modules beside it by itself. So each folder with programs has a file of this name, which hands this one
on: by it they find the other folders, as the packages `dev`, `checks`, `oracles` and `bench`, and the package `gmus_tools`, which is in tools/.
"""
import os
import sys

TOP = os.path.dirname(os.path.realpath(__file__))
TOOLS, EXAMPLES, BENCH = (os.path.join(TOP, name) for name in ("tools", "examples", "bench"))

sys.path[1:1] = [TOP, TOOLS]
