"""What a file is that is no text in UTF-8, and the command that makes one of it.

    from gmus_tools.text_kinds import known_kind, guessed_kind
    known_kind(b"\\x1f\\x8b..")       gives ("packed by gzip", "gzip -dc")
    known_kind(b"\\xff\\xfea\\0")      gives ("in UTF-16", "iconv -f UTF-16 -t UTF-8")
    guessed_kind(b"gr\\xf6\\xdfe")     gives ("Latin-1", "iconv -f LATIN1 -t UTF-8")

What is packed, and UTF-16 with its mark, is known by its first bytes, and UTF-16 without a mark by its zeros. That a text is
Latin-1 is a guess, since each byte is a letter there.
"""
# how a kind begins, what it is called, and the command that writes what is in it
PACKED = (
    (b"\x1f\x8b", "gzip", "gzip -dc"),
    (b"\x04\x22\x4d\x18", "lz4", "lz4 -dc"),
    (b"\x02\x21\x4c\x18", "lz4", "lz4 -dc"),
    (b"\xfd7zXZ\0", "xz", "xz -dc"),
    (b"BZh", "bzip2", "bzip2 -dc"),
    (b"\x28\xb5\x2f\xfd", "zstd", "zstd -dc"),
    (b"PK\x03\x04", "zip", "unzip -p"),
)
# UTF-32 comes first, since one of its marks begins as one of UTF-16 does
MARKS = (
    (b"\xff\xfe\0\0", "UTF-32"),
    (b"\0\0\xfe\xff", "UTF-32"),
    (b"\xff\xfe", "UTF-16"),
    (b"\xfe\xff", "UTF-16"),
)
LOOKED_AT = 1000
# the bytes below a blank that a text may have
BLANKS = b"\t\n\v\f\r"
# bytes that are letters and signs in Windows-1252, and control characters in Latin-1
WINDOWS = bytes(range(0x80, 0xa0))


def known_kind(held):
    """What these bytes are for certain, if it is no text in UTF-8, and the command that makes one of it; or None."""
    for begins, name, command in PACKED:
        if held.startswith(begins):
            return f"packed by {name}", command
    name = next((name for begins, name in MARKS if held.startswith(begins)), None) or wide(held)
    return (f"in {name}", f"iconv -f {name} -t UTF-8") if name else None


def wide(held):
    """UTF-16 without a mark: nearly each second byte is zero, and none of the others."""
    begins = held[:LOOKED_AT]
    first, second = begins[0::2], begins[1::2]
    for zeros, others, name in ((second, first, "UTF-16LE"), (first, second, "UTF-16BE")):
        if len(begins) > 3 and zeros.count(0) > 0.7 * len(zeros) and not others.count(0):
            return name
    return None


def guessed_kind(held):
    """The encoding of one byte a letter that bytes may be in, which are no UTF-8, and the command that makes it of them; None
    if they have control characters, as no text does."""
    controls = bytes(code for code in range(0x20) if code not in BLANKS) + b"\x7f"
    if held.translate(None, controls) != held:
        return None
    name, command = ("Latin-1", "LATIN1") if held.translate(None, WINDOWS) == held else ("Windows-1252", "CP1252")
    return name, f"iconv -f {command} -t UTF-8"
