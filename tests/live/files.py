#!/usr/bin/env python3
"""files.py PROGRAM: the two files of a book: who may read them, when the database alone is the
book, that a close for which there is no room fails, that a log whose database is away for a while
is left as it is, that reports fail if rows are gone or changed, and go out in pieces."""
import os
import resource
import shutil
import socket
import sqlite3
import stat
import subprocess
import sys
import tempfile

from terminal import DAY as BUSINESS_DAY
from terminal import MOMENT, Wrong, main, run, sale, wanted

PROGRAM = os.path.abspath(sys.argv[1])

DAY = ["--day", BUSINESS_DAY]

SETUP = b"""addrange,40000000,49999999,12345,7,
enrol,MERCHANT0000001,978,1,,
terminal,MERCHANT0000001,TERM0001,,,
"""


def event(trace):
    """The event line of a sale of 10.00."""
    return f"frame,{MOMENT},{sale(1, trace)[2:].hex()},,,\n".encode()


# A sale, its approval, and the end of the day.
DAYS_WORK = SETUP + event(1) + (
    b"answer,1714555800,MERCHANT0000001,1,approved,A1B2C3\ncutover,1714555800,,,,\n"
)

# What another program may do to the rows of that day, and which of clearing and report tell it.
CHANGES = [
    ("DELETE FROM running", {"clearing", "report"}),
    ("DELETE FROM postings", {"clearing", "report"}),
    ("UPDATE postings SET amount = 999", {"clearing", "report"}),
    ("UPDATE running SET debits = 2", {"clearing", "report"}),
    ("UPDATE postings SET card = '411!111111111111'", {"clearing", "report"}),
]

# Each command that opens a book, and what it is given.
COMMANDS = [
    ["init", "--limit", "999999", *DAY],
    ["migrate"],
    ["replay"],
    ["once"],
    ["listen", "--port", "8583", "--count", "1"],
    ["ranges", "--set", "list.csv"],
    ["clearing", *DAY],
    ["report", *DAY],
    ["holds", "--merchant", "MERCHANT0000001", "--at", "1714555800"],
    ["list", "merchants"],
    ["report", *DAY, "--csv"],
    ["statement", *DAY],
    ["find", "--merchant", "MERCHANT0000001", "--reference", "1"],
    ["audit"],
]

# Those that only read.
READING = COMMANDS[6:]


def acqd(words, text=b"", **how):
    """Runs a command over book.db, and returns its status, its output and its fault lines."""
    return run([PROGRAM, words[0], "--db", "book.db", *words[1:]], text, **how)


def mode(path):
    return stat.S_IMODE(os.stat(path).st_mode)


def content(path):
    with open(path, "rb") as it:
        return it.read()


def new_book():
    for name in os.listdir("."):
        os.remove(name)
    wanted("a new book", acqd(COMMANDS[0]), (0, b"", ""))


def owners_alone(_):
    """A new book and its log are their owner's alone; a log gets the mode that its book was
    given."""
    new_book()
    wanted("the mode of a new book", mode("book.db"), 0o600)
    wanted("a look", acqd(["report", *DAY])[2], "acqd: 60 DayNotOver\n")
    wanted("the mode of its log", mode("book.db-wal"), 0o600)
    os.chmod("book.db", 0o640)
    wanted("the setup", acqd(["replay"], SETUP)[0], 0)
    wanted("the mode of the log of a book for a group", mode("book.db-wal"), 0o640)
    os.chmod("book.db", 0o600)
    wanted("a report", acqd(["report", *DAY])[2], "acqd: 60 DayNotOver\n")
    wanted("the mode of a log that was open to a group", mode("book.db-wal"), 0o600)


def one_file(_):
    """A run that ended well leaves the whole book in the database, which commands that read leave
    alone."""
    new_book()
    wanted("the setup", acqd(["replay"], SETUP)[1], b"done\n" * 3)
    before = content("book.db")
    for words in READING:
        acqd(words)
    wanted("the database after reading", content("book.db"), before)
    os.remove("book.db-wal")
    again = acqd(["replay"], SETUP)
    wanted("the database alone", again[1], b"refused 21 40000000 49999999\nrefused 36\ndone\n")


def sales(first, count):
    """So many sales, from this trace on, as event lines."""
    return b"".join(event(trace) for trace in range(first, first + count))


def no_room(_):
    """Where the log can't be copied into the database, that is told, and the book has all
    events."""
    new_book()
    wanted("many sales", acqd(["replay"], SETUP + sales(1, 2000))[0], 0)
    size = os.path.getsize("book.db")
    limit = lambda: resource.setrlimit(resource.RLIMIT_FSIZE, (size, resource.RLIM_INFINITY))
    # A write behind the limit fails, since Python ignores the signal.
    more = sales(2001, 20)
    ended = acqd(["replay"], more, preexec_fn=limit, restore_signals=False)
    wanted("a close with no room", (ended[0], ended[2]), (3, "acqd: 2 Store\n"))
    wanted("lines of what was taken", ended[1].count(b"ask "), 20)
    again = acqd(["replay"], more)
    wanted("the same sales again", (again[0], again[1]), (0, b"refused 32\n" * 20))
    if os.path.getsize("book.db") <= size:
        raise Wrong("the database did not grow, so nothing was tried")


def log_alone(_):
    """A log whose database is away or empty is left as it is, and goes on to be a part of the
    book."""
    new_book()
    with open("/dev/full", "wb") as full:
        wanted("a full output", acqd(["replay"], SETUP, stdout=full)[2], "acqd: 54 Write 0\n")
    log = content("book.db-wal")
    if not log:
        raise Wrong("the log of a run that was cut off is empty")
    os.rename("book.db", "away")
    for is_empty in (False, True):
        if is_empty:
            open("book.db", "wb").close()
        for words in COMMANDS:
            what = f"{words[0]}, the book being {'empty' if is_empty else 'away'}"
            wanted(what, acqd(words), (1, b"", "acqd: 40 NotABook\n"))
            wanted(f"{what}: the log", content("book.db-wal"), log)
            wanted(f"{what}: the book", os.path.exists("book.db"), is_empty)
    os.rename("away", "book.db")
    again = acqd(["replay"], SETUP)
    wanted("the event that was taken", again[1].split(b"\n")[0], b"refused 21 40000000 49999999")


def nothing_made(_):
    """Where there is no book, only `init` makes one, and it leaves what isn't empty."""
    for name in os.listdir("."):
        os.remove(name)
    for words in COMMANDS[1:]:
        wanted(f"{words[0]} without a book", acqd(words), (1, b"", "acqd: 40 NotABook\n"))
        wanted(f"{words[0]}: what was made", os.listdir("."), [])
    with open("book.db", "wb") as it:
        it.write(b"x")
    wanted("init over a byte", acqd(COMMANDS[0]), (1, b"", "acqd: 40 NotABook\n"))
    wanted("the byte", content("book.db"), b"x")


def rows_changed(_):
    """Rows of postings or of running totals that are gone or changed are told, and nothing is
    written."""
    for text, telling in CHANGES:
        new_book()
        wanted("the day's work", acqd(["replay"], DAYS_WORK)[0], 0)
        book = sqlite3.connect("book.db")
        book.execute(text)
        book.commit()
        book.close()
        for words in (["clearing", *DAY], ["report", *DAY]):
            if words[0] in telling:
                wanted(f"{words[0]} after {text}", acqd(words), (3, b"", "acqd: 2 Store\n"))


def in_pieces(_):
    """A clearing file goes out in pieces of 64 KiB, and not line by line: here each write is a
    message of its own."""
    new_book()
    answer = "answer,1714555800,MERCHANT0000001,{},approved,A1B2C3\n"
    work = b"".join(event(it) + answer.format(it).encode() for it in range(1, 2001))
    work = SETUP + work + b"cutover,1714555800,,,,\n"
    wanted("many sales", acqd(["replay", "--group", "1000"], work)[0], 0)
    ours, theirs = socket.socketpair(socket.AF_UNIX, socket.SOCK_SEQPACKET)
    with ours:
        with theirs:
            words = [PROGRAM, "clearing", "--db", "book.db", *DAY]
            clearing = subprocess.Popen(words, stdout=theirs)
        pieces = list(iter(lambda: ours.recv(1 << 18), b""))
    wanted("how the clearing ended", clearing.wait(), 0)
    lines = b"".join(pieces).splitlines(True)
    wanted("lines of the clearing file", len(lines), 2001)
    least = 65536 - max(map(len, lines))
    thin = [len(it) for it in pieces[:-1] if not least < len(it) <= 65536]
    wanted("pieces that aren't full", thin, [])


def in_a_folder_of_its_own(tries):
    os.umask(0o022)
    folder = tempfile.mkdtemp()
    os.chdir(folder)
    try:
        return main(tries)
    finally:
        os.chdir("/")
        shutil.rmtree(folder)


TRIES = [owners_alone, one_file, no_room, log_alone, nothing_made, rows_changed, in_pieces]

if __name__ == "__main__":
    sys.exit(in_a_folder_of_its_own(TRIES))
