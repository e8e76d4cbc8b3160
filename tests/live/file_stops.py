#!/usr/bin/env python3
"""file_stops.py PROGRAM: stops while a book is made, or put in order: whatever a stop leaves goes
on.

A small library, loaded before the program, ends it as SIGKILL does at each of its calls that change
files in turn, before the call and, if it writes, in its middle. After a stop of `init` nothing
stands at the path but an empty file, or the whole book; `init` makes the book that isn't there, and
a day goes on. So it does if stops of earlier builds left an empty file, or none, beside a log in
which no change stands. A command that puts a book in order leaves it as it was or in order, and its
day goes on. Without a C compiler only what earlier builds left is tried."""

import os
import shutil
import stat
import subprocess
import sys
import tempfile

from foreign import Books, as_earlier
from migration import HERE, TOP, acqd
from terminal import PATIENCE, main, wanted

DAY = ["--day", "2024-05-01"]
NOT_A_BOOK = (1, "", "acqd: 40 NotABook\n")
DONE = (0, "", "")

# The most calls that an `init` may need.
MOST_CALLS = 200

# The least log in which a change may stand: a header, and a frame of the least page.
LEAST_LOG = 32 + 24 + 512


def clear(room):
    for it in os.scandir(room):
        os.remove(it.path)


def size_at(path):
    return os.path.getsize(path) if os.path.exists(path) else 0


def init(program, book):
    return acqd(program, ["init", "--db", book, "--limit", "999999", *DAY])


def goes_a_day(program, book, what):
    """The day of two shops, from its first line on."""
    with open(f"{TOP}/examples/day.csv", encoding="ascii") as events:
        status, said, faults = acqd(program, ["replay", "--db", book], events.read())
    with open(f"{TOP}/examples/day.lines", encoding="ascii") as lines:
        wanted(f"{what}: the day", (status, said, faults), (0, lines.read(), ""))


def stopped(words, library, call, is_half):
    """Whether a command was stopped at this call, in the middle of what it writes or before."""
    settings = {"LD_PRELOAD": library, "STOP_AT": str(call), "STOP_HALF": str(int(is_half))}
    settings = {**os.environ, **settings}
    ran = subprocess.run(words, env=settings, capture_output=True, timeout=PATIENCE, check=False)
    if ran.returncode == 0:
        return False
    wanted(f"{words[1]} stopped at call {call}", ran.returncode, -9)
    return True


def at_each_call(program, room, library):
    """Stops of `init` at each of its calls."""
    book = f"{room}/book.db"
    for is_half in (False, True):
        for call in range(1, MOST_CALLS):
            clear(room)
            what = f"an init stopped at call {call}, {'half' if is_half else 'not'} done"
            words = [program, "init", "--db", book, "--limit", "999999", *DAY]
            if not stopped(words, library, call, is_half):
                break
            left_in_place(program, room, what)
            is_whole = size_at(book) > 0
            wanted(f"{what}: init again", init(program, book), NOT_A_BOOK if is_whole else DONE)
            wanted(f"{what}: a third", init(program, book), NOT_A_BOOK)
            left = sorted(it.name for it in os.scandir(room))
            wanted(f"{what}: what is left", left, ["book.db"])
            goes_a_day(program, book, what)
        wanted("that init was stopped", 1 < call < MOST_CALLS - 1, True)


def put_in_order(program, room, library):
    """Stops of a look at a book of an earlier build at each of its calls."""
    books = Books(program, room)
    for is_half in (False, True):
        for call in range(1, MOST_CALLS):
            books.anew(as_earlier)
            if not stopped([program, "status", "--db", books.book], library, call, is_half):
                break
            books.goes_on(f"a look stopped at call {call}")
        wanted("that a look was stopped", 1 < call < MOST_CALLS - 1, True)


def left_in_place(program, room, what):
    """The same stop in an earlier build, which made the book in its place."""
    old = f"{room}/old.db"
    if not os.path.exists(f"{room}/book.db-new"):
        return
    for end in ("", "-wal"):
        if os.path.exists(f"{room}/book.db-new{end}"):
            shutil.copyfile(f"{room}/book.db-new{end}", f"{old}{end}")
    may_be_lost = size_at(old) == 0 and size_at(f"{old}-wal") >= LEAST_LOG
    if init(program, old) != DONE:
        opened = NOT_A_BOOK[1:] if may_be_lost else (f"day {DAY[1]}", "")
        status, said, faults = acqd(program, ["status", "--db", old])
        said = said if status else said.splitlines()[1]
        wanted(f"{what}, in its place: a book that is refused", (said, faults), opened)
    for it in os.scandir(room):
        if it.name.startswith("old.db"):
            os.remove(it.path)


def left_by_earlier_builds(program, room):
    """An empty file or none beside a log with no whole frame, and beside one that may have some."""
    book = f"{room}/book.db"
    for is_there in (False, True):
        for size in (0, 1, 41, LEAST_LOG - 1, LEAST_LOG, 4152):
            clear(room)
            if is_there:
                open(book, "wb").close()
            with open(book + "-wal", "wb") as log:
                log.write(bytes(size))
            what = f"a log of {size} bytes beside {'an empty file' if is_there else 'none'}"
            may_be_lost = size >= LEAST_LOG
            wanted(f"{what}: init", init(program, book), NOT_A_BOOK if may_be_lost else DONE)
            if may_be_lost:
                wanted(f"{what}: the log", size_at(book + "-wal"), size)
                wanted(f"{what}: the file", os.path.exists(book), is_there)
            else:
                goes_a_day(program, book, what)


def modes_and_links(program, room):
    """A new book is its owner's alone; an empty file keeps its mode; a link leads to the book."""
    book, away = f"{room}/book.db", f"{room}/away.db"
    for mode in (None, 0o640, 0o604):
        clear(room)
        if mode:
            open(book, "wb").close()
            os.chmod(book, mode)
        with open(f"{book}-new", "wb") as it:
            it.write(b"what a stop left")
        wanted(f"init over the mode {mode}", init(program, book), DONE)
        wanted(f"the mode over {mode}", stat.S_IMODE(os.stat(book).st_mode), mode or 0o600)
        wanted("what is left", os.listdir(room), ["book.db"])
    for is_there in (False, True):
        clear(room)
        os.symlink(away, book)
        if is_there:
            open(away, "wb").close()
        wanted("init through a link", init(program, book), DONE)
        wanted("the link", os.path.islink(book), True)
        goes_a_day(program, book, "a book behind a link")


def with_library(tried):
    """A try in a folder of its own, with the library that ends a program, if it can be compiled."""

    def one(program):
        compiler = shutil.which("cc")
        if compiler is None:
            return
        with tempfile.TemporaryDirectory() as room, tempfile.TemporaryDirectory() as tools:
            library = f"{tools}/stop.so"
            words = [compiler, "-O1", "-shared", "-fPIC", "-o", library, f"{HERE}/stop.c", "-ldl"]
            subprocess.run(words, check=True)
            tried(program, room, library)

    one.__name__ = tried.__name__
    return one


def in_a_folder(tried):
    """A try in a folder of its own."""

    def one(program):
        with tempfile.TemporaryDirectory() as room:
            tried(program, room)

    one.__name__ = tried.__name__
    return one


TRIES = [
    in_a_folder(left_by_earlier_builds),
    in_a_folder(modes_and_links),
    with_library(at_each_call),
    with_library(put_in_order),
]

if __name__ == "__main__":
    sys.exit(main(TRIES))
