"""Books in files: new ones, copies of them, and such as are refused."""

import os
import shutil
import sqlite3
import tempfile

from program import run

LIMIT, DAY = 999999, "2024-05-01"
# The version of the books that are made.
VERSION = 2
# The program runs in so much memory, and opens no book.
LITTLE_MEMORY = 1024 * 1024


class NoBook(Exception):
    """A book that can't be had."""


class Books:
    """Books that are made once, by the events that they have taken, and copied."""

    def __init__(self, program, room):
        self.program, self.room, self.made = program, room, {}

    def new_room(self):
        """An empty folder, which the caller removes."""
        return tempfile.TemporaryDirectory(dir=self.room, prefix="r")

    def put(self, path, limit=LIMIT, day=DAY, events=b"", version=VERSION):
        """Puts a book at a path, which has taken events, and is of this version."""
        kept = self.kept(limit, day, events, version)
        for end in ("", "-wal"):
            if os.path.exists(f"{kept}/book{end}"):
                shutil.copyfile(f"{kept}/book{end}", path + end)

    def kept(self, limit, day, events, version):
        """The folder of such a book, which is made where it isn't there."""
        terms = limit, day, events, version
        if terms not in self.made:
            self.made[terms] = tempfile.mkdtemp(dir=self.room, prefix="b")
            self.make(self.made[terms], *terms)
        return self.made[terms]

    def make(self, room, limit, day, events, version):
        """Makes such a book."""
        words = ["init", "--db", "book", "--limit", str(limit), "--day", day]
        made = run(self.program, room, words)
        if (made.status, made.output, made.faults) != (0, b"", b""):
            raise NoBook(f"no book: {made.faults.decode()}")
        if events:
            taken = run(self.program, room, ["replay", "--db", "book"], events)
            if (taken.status, taken.faults) != (0, b""):
                raise NoBook(f"no book: {taken.faults.decode()}")
        if version != VERSION:
            make_version(f"{room}/book", version)


def make_version(path, version):
    """Makes a book one of another version; one of version 1 has ranges of six digits."""
    narrowed = "UPDATE ranges SET low = low / 100, high = high / 100"
    marked = f"UPDATE book SET version = {version}"
    change(path, [narrowed, marked] if version == 1 else [marked])


def change(path, statements):
    """Changes a book by statements of SQL."""
    connection = sqlite3.connect(path)
    try:
        for statement in statements:
            connection.execute(statement)
        connection.commit()
    finally:
        connection.close()


def all_rows(path):
    """The rows of each table of a book, in their order."""
    connection = sqlite3.connect(path)
    try:
        named = connection.execute("SELECT name FROM sqlite_schema WHERE type = 'table'")
        tables = sorted(name for name, in named)
        return {it: list(connection.execute(f"SELECT rowid, * FROM {it}")) for it in tables}
    finally:
        connection.close()
