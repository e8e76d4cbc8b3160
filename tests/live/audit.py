#!/usr/bin/env python3
"""audit.py PROGRAM [BOOKS]: `acqd audit` finds nothing in books that the program wrote, drawn from
seeds, by their rows alone and by their events; and each edit of audit.edits in one of them."""

import os
import shutil
import sqlite3
import sys
from contextlib import closing

from busy import LIMIT, Busy
from files import PROGRAM, acqd, in_a_folder_of_its_own
from terminal import APPROVING, CARD, DECLINED, UNKNOWN, Book, Host, sale, size, wanted

HERE = os.path.dirname(os.path.abspath(__file__))
SOUND = (0, b"sound\n", "")


def clear(*names):
    for name in names or os.listdir("."):
        for it in (name, f"{name}-wal", f"{name}-shm"):
            if os.path.exists(it):
                os.remove(it)


def busy_book(seed, messages=300):
    """A book behind the days of a seed, whose events stand in events.csv."""
    clear()
    made = acqd(["init", "--limit", str(LIMIT), "--day", "2024-05-01"])
    wanted("a new book", made, (0, b"", ""))
    text = Busy(seed, messages).text()
    with open("events.csv", "wb") as it:
        it.write(text)
    status, said, faults = acqd(["replay", "--group", "100"], text)
    wanted("the work of the days", (status, faults), (0, ""))
    return said


def audit(*more):
    return acqd(["audit", *more])


def sound_books(_):
    """Nothing is found in what the program wrote, and each way to be refused was there."""
    codes = set()
    for seed in range(size(4)):
        busy_book(seed)
        before = open("book.db", "rb").read()
        wanted(f"seed {seed}", audit(), SOUND)
        wanted(f"seed {seed} by its events", audit("--events", "events.csv"), SOUND)
        wanted("the book behind it", open("book.db", "rb").read() == before, True)
        with closing(sqlite3.connect("book.db")) as book:
            codes |= {it for it, in book.execute("SELECT status FROM requests")}
    wanted("the statuses of requests", codes, set(range(9)))


def of_examples(_):
    """The day of the examples, while requests wait in it, and an empty book."""
    top = os.path.dirname(os.path.dirname(HERE))
    with open(f"{top}/examples/day.csv", "rb") as it:
        lines = it.read().splitlines(True)
    for count in (0, 9, 14, len(lines) - 2, len(lines)):
        clear()
        wanted("a new book", acqd(["init", "--limit", "999999", "--day", "2024-05-01"])[0], 0)
        wanted("some events", acqd(["replay"], b"".join(lines[:count]))[0], 0)
        wanted(f"{count} events", audit(), SOUND)


def of_a_host(program):
    """The book of a host that served some terminals at once, whose issuer a list answers for."""
    issuers = f"{APPROVING}{DECLINED},declined,51\n"
    with Book(program, (1, 2, 3)) as book:
        with Host(book, "--together", "8", issuers=issuers) as host:
            ends = [(k, host.terminal()) for k in (1, 2, 3, 1, 2, 3)]
            for trace in range(1, 60):
                for at, (k, end) in enumerate(ends):
                    card = (CARD, CARD, DECLINED, UNKNOWN)[trace % 4]
                    end.send(sale(k, trace + 100 * (at // 3), card=card))
                for _, end in ends:
                    end.reply()
        with closing(sqlite3.connect(book.path)) as rows:
            count, = rows.execute("SELECT count(*) FROM requests").fetchone()
        wanted("requests", count, 6 * 59)
        wanted("the host's book", book.output("audit"), "sound\n")


def other_events(_):
    """A book isn't what one event less made, and one event more makes a row more."""
    busy_book(1, 40)
    with open("events.csv", "rb") as it:
        lines = it.read().splitlines(True)
    for name, some, want in (
        ("less.csv", lines[:-1], b"requests "),
        ("more.csv", lines + [b"enrol,MORE,978,1,,\n"], b"merchants 5: missing\n"),
    ):
        with open(name, "wb") as it:
            it.write(b"".join(some))
        status, said, faults = audit("--events", name)
        wanted(name, (status, said.startswith(want), faults), (1, True, ""))
    wanted("no events", audit("--events", "none.csv"), (1, b"", "acqd: 53 Read\n"))
    with open("bad.csv", "wb") as it:
        it.write(lines[0] + b"enrol,TOO MANY,978,1,,,,\n")
    wanted("a line that is none", audit("--events", "bad.csv"), (1, b"", "acqd: 62 BadLine 2\n"))


def edits():
    with open(f"{HERE}/audit.edits", encoding="utf-8") as it:
        return [[part.strip() for part in line.split("|")] for line in it if line[0] != "#"]


def made_edit(book, table, column, value, which):
    """Makes an edit; returns what is to be told of it by the book's events."""
    rows = [it for it, in book.execute(f"SELECT rowid FROM {table} ORDER BY rowid")]
    if column == "less":
        book.execute(f"DELETE FROM {table} WHERE rowid = ?", (rows[-1],))
        return f"{table} {len(rows)}: missing"
    if column == "more":
        book.execute(f"INSERT INTO {table} VALUES ({value})")
        return f"{table} {len(rows) + 1}: surplus"
    row, = book.execute(f"SELECT min(rowid) FROM {table} WHERE {which}").fetchone()
    if column == "gone":
        book.execute(f"DELETE FROM {table} WHERE rowid = ?", (row,))
        return f"{table} {rows.index(row) + 1}: rowid differs"
    changed = book.execute(f"UPDATE {table} SET {column} = {value} WHERE rowid = ?", (row,))
    wanted(f"rows that {table}.{column} is set in", changed.rowcount, 1)
    return f"{table} {rows.index(row) + 1}: {column} differs"


def each_edit(_):
    """Each edit is told: of the rows alone, if no events could have made them."""
    busy_book(2)
    shutil.move("book.db", "sound.db")
    for table, column, value, which, alone in edits():
        clear("book.db")
        shutil.copy("sound.db", "book.db")
        with closing(sqlite3.connect("book.db")) as book:
            want = made_edit(book, table, column, value, which)
            book.commit()
        what = f"{table} | {column} | {value}"
        status, said, faults = audit()
        if alone == "told":
            wanted(f"{what}, alone", (status, said != SOUND[1], faults), (1, True, ""))
        else:
            wanted(f"{what}, alone", (status, said, faults), SOUND)
        if table != "book":
            by_events = audit("--events", "events.csv")
            wanted(f"{what}, by events", by_events, (1, f"{want}\n".encode(), ""))


def other_books(_):
    """What is no book, or of another version, is told as by other commands."""
    busy_book(3, 10)
    with closing(sqlite3.connect("book.db")) as book:
        book.execute("UPDATE book SET version = version + 1")
        book.commit()
    wanted("another version", audit()[0], 1)
    with closing(sqlite3.connect("book.db")) as book:
        book.execute("DELETE FROM book")
        book.commit()
    wanted("no row of the book", audit(), (1, b"", "acqd: 40 NotABook\n"))
    clear()
    wanted("no file", audit(), (1, b"", "acqd: 40 NotABook\n"))


TRIES = [sound_books, of_examples, of_a_host, other_events, each_edit, other_books]

if __name__ == "__main__":
    sys.exit(in_a_folder_of_its_own(TRIES))
