"""The plain program of oracles/plain_gmus.py as tests call it: begun by the Python of the tests, and without what a user has added
to that, which takes less than half the time.

If the variable OWN_WAITS names a file, the run that a coordinator of many runs does itself begins once that file is there.
"""
import atexit
import os
import shlex
import shutil
import sys
import tempfile

from places import TOP

FOLDER = tempfile.mkdtemp(prefix="gmus-plain-")
atexit.register(shutil.rmtree, FOLDER, True)
PLAIN = os.path.join(FOLDER, "plain_gmus")
with open(PLAIN, "w", encoding="utf-8") as file:
    file.write(f"""#!/bin/sh
case "$*" in *.own*) while [ -n "$OWN_WAITS" ] && [ ! -e "$OWN_WAITS" ]; do sleep 0.05; done ;; esac
exec {shlex.quote(sys.executable)} -S {shlex.quote(os.path.join(TOP, "oracles", "plain_gmus.py"))} "$@"
""")
os.chmod(PLAIN, 0o700)
