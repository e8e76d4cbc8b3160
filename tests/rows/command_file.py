"""Files of command lines.

`$` begins a run of the program. Below it stand its input behind `<`, its output behind `>`, its
fault lines behind `!`, and behind `?` its status, where that isn't 0. Behind `<`, `>` and `@`
stands a space and a line; or `frame` and a message in parts, which comes behind its length; `bytes`
and bytes that no line ends; `times COUNT` and bytes, so many times; `event` and a message in parts,
as the event line that it comes on; or `hex` and a message in parts, in hexadecimal. `>has` and
`!has` name a part of what is written.

What stands on the machine comes before: `@setup EVENT` is an event that each book of the file has
taken; `@book` a book, and `@book EVENT` a further event of it; `@refused NUMBER` a book that is
refused with this fault, and `@refused 41 VERSION` one of another version; `@issuers` a file of
issuers' answers, and `@issuers RECORD` a record of it; `@list` a list of ranges, and `@list RECORD`
a record of it; `@port` a port, and `@connection` a connection, which sends what `@frame` and
`@bytes` behind it say; `@host` a host that takes control connections, `@host LINE` a line that it
answers, and `@host bytes BYTES` bytes that no line ends. `@piece COUNT` says how many bytes a read
gives, `@read COUNT` that the read after so many fails, and `@writes frame`, `@writes line` or
`@writes text` that it runs again with each write failing, where the fault's line counts bytes so.
"""

import struct
from dataclasses import dataclass, field

from row_bytes import NoRow, bytes_of, frame_line, hex_of, malformed, number_of, rows_of

# When the messages of `event` come: on 2024-05-01 at 09:30.
MOMENT = 1714555800
PIECE = 97
REFUSED = {"1": (1,), "2": (2,), "40": (40,)}


@dataclass
class Text:
    """What a stream of the program is to be: all its bytes, or parts of them."""

    given: bytes = b""
    parts: list = field(default_factory=list)


@dataclass
class Machine:
    """What is found on the machine: the events that the book in its file has taken, or why it is
    refused; the issuers' answers, the list of ranges, the connections that come, and what a host
    answers that takes control connections, each `None` where there is none."""

    book: bytes | None = None
    refused: tuple | None = None
    issuers: bytes | None = None
    ranges: bytes | None = None
    connections: list | None = None
    host: bytes | None = None


@dataclass
class CommandRun:
    """One run of the program: what it is given, and what it writes."""

    line: int = 0
    words: list = field(default_factory=list)
    machine: Machine = field(default_factory=Machine)
    given: bytes = b""
    output: Text = field(default_factory=Text)
    faults: Text = field(default_factory=Text)
    status: int = 0
    piece: int = PIECE
    # After how many reads one fails, and by what the fault's line counts where each write fails.
    failing_read: int | None = None
    failing_writes: str | None = None


class Reader:
    """A reader that is behind some lines of a file."""

    def __init__(self):
        self.setup, self.runs = b"", []
        # The run in hand, and whether its command stood already.
        self.run, self.has_begun = CommandRun(), False

    def take(self, line, text):
        """Takes a line."""
        head, _, rest = text.partition(" ")
        if head == "$":
            self.begin(line, rest)
        elif head.startswith("@"):
            self.end()
            self.take_machine(head[1:], rest, line)
        elif self.has_begun:
            self.take_stream(head, rest, line)
        else:
            raise malformed(line)

    def begin(self, line, words):
        """Begins a run."""
        self.end()
        self.has_begun = True
        self.run.line = line
        given = [b"" if it == '""' else bytes_of(it, line) for it in words.split()]
        self.run.words = [it.decode() for it in given][1:]

    def end(self):
        """Ends the run in hand, where there is one."""
        if self.has_begun:
            self.runs.append(self.run)
            self.run, self.has_begun = CommandRun(), False

    def take_stream(self, head, rest, line):
        """Takes what the run in hand reads or writes, or its status."""
        texts = {">": self.run.output, "!": self.run.faults}
        if head == "?":
            self.run.status = number_of(rest, line)
        elif head.startswith("<"):
            self.run.given += given_by(head[1:], rest, line)
        elif head[0] not in texts:
            raise malformed(line)
        elif head[1:] == "has":
            texts[head[0]].parts.append(rest.encode())
        else:
            texts[head[0]].given += given_by(head[1:], rest, line)

    def take_machine(self, word, rest, line):
        """Takes what stands on the machine, or how reads and writes go."""
        machine = self.run.machine
        if word == "setup":
            self.setup += given_by("", rest, line)
        elif word == "book":
            kind, rest = ("event", rest[6:]) if rest.startswith("event ") else ("", rest)
            event = given_by(kind, rest, line) if rest else b""
            machine.book = (self.setup if machine.book is None else machine.book) + event
        elif word == "refused":
            machine.refused = refusal(rest, line)
        elif word == "issuers":
            machine.issuers = (machine.issuers or b"") + bytes_of(rest, line)
        elif word == "list":
            machine.ranges = (machine.ranges or b"") + bytes_of(rest, line)
        elif word == "host":
            kind, rest = ("bytes", rest[6:]) if rest.startswith("bytes ") else ("", rest)
            answer = given_by(kind, rest, line) if rest else b""
            machine.host = (machine.host or b"") + answer
        elif word in ("port", "connection", "frame", "bytes"):
            self.take_connection(word, rest, line)
        else:
            self.take_streams(word, rest, line)

    def take_connection(self, word, rest, line):
        """Takes a port, a connection, or what it sends."""
        machine = self.run.machine
        machine.connections = machine.connections or []
        if word == "connection":
            machine.connections.append(b"")
        elif word != "port":
            if not machine.connections:
                raise malformed(line)
            machine.connections[-1] += given_by(word, rest, line)

    def take_streams(self, word, rest, line):
        """Takes how reads and writes go."""
        if word == "piece":
            self.run.piece = number_of(rest, line)
        elif word == "read":
            self.run.failing_read = number_of(rest, line)
        elif word == "writes" and rest in ("frame", "line", "text"):
            self.run.failing_writes = rest
        else:
            raise malformed(line)


def refusal(text, line):
    """The numbers of the fault with which a book is refused."""
    if text.startswith("41 "):
        return 41, number_of(text[3:], line)
    if text not in REFUSED:
        raise malformed(line)
    return REFUSED[text]


def given_by(kind, rest, line):
    """The bytes of a line, a frame, or what else a row names."""
    if kind == "times":
        count, _, rest = rest.partition(" ")
        return number_of(count, line) * bytes_of(rest, line)
    given = bytes_of(rest, line)
    if kind == "":
        return given + b"\n"
    if kind == "bytes":
        return given
    if kind == "frame" and len(given) < 1 << 16:
        return struct.pack(">H", len(given)) + given
    if kind == "event":
        return frame_line(MOMENT, given) + b"\n"
    if kind == "hex":
        return hex_of(given) + b"\n"
    raise malformed(line)


def read_commands(text):
    """The runs of a file."""
    reader = Reader()
    for line, row in rows_of(text):
        reader.take(line, row)
    reader.end()
    if not reader.runs:
        raise NoRow("no row")
    return reader.runs
