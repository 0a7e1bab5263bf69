"""Reads a text that may be packed, by the system's own tools.

    from gmus_tools.deb.unpacked import text_of
    text_of("Packages.xz")     the text, or command.Refused

gzip, xz, bzip2, lz4 and zstd are known by their first bytes, and the command of that name unpacks them. If it isn't there,
that of apt does it, which goes by a file's name.
"""
import os
import shutil
import subprocess
import tempfile

from gmus_tools.command import Refused, bytes_of, text_in
from gmus_tools.text_kinds import PACKED

ENDINGS = {"gzip": ".gz", "xz": ".xz", "bzip2": ".bz2", "lz4": ".lz4", "zstd": ".zst"}
APT = "/usr/lib/apt/apt-helper"
# What is unpacked may be so large, which is some twenty times what the index of a distribution has.
MOST = 1 << 30


def text_of(name):
    """The text of a file, or of standard input where the name is `-`."""
    held = bytes_of(name)
    command = next((command for begins, kind, command in PACKED if held.startswith(begins) and kind in ENDINGS), None)
    return text_in(held if command is None else unpacked(held, command.split(), name), name)


def unpacked(held, command, name):
    """What the command writes of these bytes."""
    with tempfile.TemporaryDirectory(prefix="gmus-") as folder:
        path = os.path.join(folder, "packed" + ENDINGS[command[0]])
        with open(path, "wb") as file:
            file.write(held)
        if shutil.which(command[0]):
            words = [*command, path]
        elif os.path.exists(APT):
            words = [APT, "cat-file", path]
        else:
            raise Refused(f"{name}: this is packed, and '{command[0]}', which unpacks it, is not there")
        with subprocess.Popen(words, stdin=subprocess.DEVNULL, stdout=subprocess.PIPE, stderr=subprocess.DEVNULL) as child:
            text = child.stdout.read(MOST + 1)
            child.stdout.close()
            if len(text) > MOST:
                child.kill()
                raise Refused(f"{name}: more than {MOST:,} bytes come of it, once it is unpacked")
    if child.returncode:
        raise Refused(f"{name}: '{command[0]}' can't unpack it")
    return text
