"""Bytes as rows write them.

`|` stands between the parts of a message and for nothing, `\\xHH` for any byte, `\\n` and `\\r` for
the ends of lines, and `\\\\` for a backslash.
"""

import re

ESCAPE = re.compile(rb"\\x[0-9A-Fa-f]{2}|\\[nr\\]|\|")
MEANT = {b"|": b"", b"\\n": b"\n", b"\\r": b"\r", b"\\\\": b"\\"}


class NoRow(Exception):
    """A file, or a line of it, that is no row of its kind."""


def malformed(line):
    """What is said of a line that is no row."""
    return NoRow(f"line {line} is no row")


def bytes_of(text, line):
    """The bytes that a text writes, which stands on this line."""
    raw = text.encode()
    if b"\\" in ESCAPE.sub(b"", raw):
        raise malformed(line)
    return ESCAPE.sub(lambda it: byte_of(it.group()), raw)


def byte_of(escape):
    """The byte that an escape writes."""
    if escape.startswith(b"\\x"):
        return bytes.fromhex(escape[2:].decode())
    return MEANT[escape]


def shown(given):
    """Bytes as a person reads them: what can't be printed as an escape."""
    return "".join(shown_byte(it) for it in given)


def shown_byte(byte):
    """A byte as a person reads it."""
    if byte == 0x0A:
        return "\\n"
    return chr(byte) if 0x20 <= byte <= 0x7E else f"\\x{byte:02x}"


def hex_of(message):
    """A message in hexadecimal."""
    return message.hex().upper().encode()


def frame_line(moment, message):
    """The event line on which a message comes at a moment."""
    return b"frame,%s,%s,,," % (str(moment).encode(), hex_of(message))


def number_of(text, line):
    """A number on this line."""
    if not text.isdecimal():
        raise malformed(line)
    return int(text)


def rows_of(text):
    """The lines of a file that say something, with their numbers."""
    for number, line in enumerate(text.split("\n"), 1):
        if line and not line.startswith("#"):
            yield number, line
