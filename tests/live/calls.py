"""A program whose clocks show what a test says, and whose calls are short, fail or are interrupted:
a small library, loaded before it, goes by a file that the test writes to."""
import mmap
import os
import shutil
import struct
import subprocess
import tempfile
import threading

HERE = os.path.dirname(os.path.abspath(__file__))
AS_IT_IS, SHOWN, UNREAD = range(3)
# Of the clock since 1970 and of the one that only goes on: how, seconds, nanoseconds, step; of the
# calls: piece, reads, taken, room, fault; and whether no socket's own name can be had.
NUMBERS = 14
SINCE_1970, MONOTONIC, CALLS, NO_NAMES = 0, 4, 8, 13


class Calls:
    """How the clocks and the calls of a program go that is begun in its `environment`. At first all
    are as they are without it."""

    # The library, made once.
    tools, turn = None, threading.Lock()

    def __init__(self):
        self.file = tempfile.NamedTemporaryFile()
        self.file.write(bytes(8 * NUMBERS))
        self.file.flush()
        self.map = mmap.mmap(self.file.fileno(), 8 * NUMBERS)
        self.environment = {**os.environ, "LD_PRELOAD": self.library(), "CALLS": self.file.name}

    def __enter__(self):
        return self

    def __exit__(self, *_):
        self.map.close()
        self.file.close()

    @classmethod
    def library(cls):
        with cls.turn:
            if cls.tools is None:
                tools = tempfile.TemporaryDirectory()
                words = ["cc", "-O1", "-shared", "-fPIC", "-o", f"{tools.name}/calls.so"]
                subprocess.run([*words, f"{HERE}/calls.c", "-ldl"], check=True)
                cls.tools = tools
            return f"{cls.tools.name}/calls.so"

    def put(self, place, *numbers):
        self.map[8 * place : 8 * (place + len(numbers))] = struct.pack(f"{len(numbers)}q", *numbers)

    def since_1970(self, seconds):
        """The clock of the day shows so many seconds; with None it can't be read."""
        self.put(SINCE_1970, *((UNREAD, 0, 0, 0) if seconds is None else (SHOWN, seconds, 0, 0)))

    def monotonic(self, milliseconds, step=0):
        """The clock that only goes on shows this, and goes on by so many microseconds behind each
        look; with None it can't be read."""
        if milliseconds is None:
            self.put(MONOTONIC, UNREAD, 0, 0, 0)
        else:
            seconds, rest = divmod(milliseconds, 1000)
            self.put(MONOTONIC, SHOWN, seconds, rest * 1_000_000, step * 1000)

    def next(self, piece=-1, reads=-1, taken=-1, room=-1, fault=0):
        """How the calls on the next connection that is taken go, or on the standard streams of a
        program that isn't begun yet. A read gives a piece at most, and the one after so many fails;
        a write takes so many bytes at most, and behind as many as there is room for one fails. With
        fault 0 it takes none."""
        self.put(CALLS, piece, reads, taken, room, fault)

    def as_they_are(self):
        """The calls on the next connection go as always."""
        self.put(CALLS, 0, 0, 0, 0, 0)

    def no_names(self):
        """No socket's own name can be had."""
        self.put(NO_NAMES, 1)


def if_compiled(tries):
    """These tries, if there is a C compiler."""
    return tries if shutil.which("cc") else []
