"""Calls a tool within the process of a test, which takes a hundredth of what a process of its own takes.

    from checks.trying import tried
    tried("names.py", "f.gcnf", "f.report", room=folder)     gives the status, what stood on standard output, and on standard error
"""
import importlib
import importlib.util
import io
import os
import sys
from unittest import mock

import places  # noqa: F401
from gmus_tools import command


def tried(tool, *words, given="", room=None, **environment):
    """How a tool ends over these words: in the folder `room` if one is given, and with these variables in its environment."""
    streams = [io.TextIOWrapper(io.BytesIO(text.encode() if isinstance(text, str) else text), encoding="utf-8", write_through=True)
               for text in (given, "", "")]
    places_of_commands = (f"gmus_tools.{folder}.{tool[:-len('.py')]}" for folder in ("commands", "evidence"))
    module = importlib.import_module(next(filter(importlib.util.find_spec, places_of_commands)))
    before = os.getcwd()
    os.chdir(room or before)
    try:
        with mock.patch.multiple(sys, argv=[tool, *words], stdin=streams[0], stdout=streams[1], stderr=streams[2]), \
                mock.patch.dict(os.environ, environment):
            command.run(tool, module.main, module.__doc__)
    except SystemExit as end:
        return end.code, streams[1].buffer.getvalue().decode(), streams[2].buffer.getvalue().decode()
    finally:
        os.chdir(before)
    return None
