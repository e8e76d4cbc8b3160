#!/usr/bin/env python3
"""foreign.py PROGRAM: books that other programs wrote, and files that are no books.

SQLite (Python's sqlite3) vacuums, dumps, copies and changes a book in the midst of the day of two
shops, and the day then goes on as on one that nobody touched: a book as it is made now, one of
earlier builds, whose keys are unique and stay so, one whose index stands where still earlier builds
put it, and one of builds before the index. Where something else stands in the file no command
writes a byte. The last day is that of examples/, so its lines, its clearing file and its report are
those that stand there."""

import gzip
import os
import shutil
import sqlite3
import sys
import tempfile

from migration import HERE, TABLES, TOP, acqd, taken
from terminal import main, wanted

DAY = ["--day", "2024-05-01"]
NOT_A_BOOK = (1, "", "acqd: 40 NotABook\n")

NO_LOG = "PRAGMA journal_mode = DELETE"

# The event lines of the day before SQLite has the book.
BEFORE = 20

# The tables that earlier builds made with unique keys, which new books have as plain indexes.
UNIQUE_TABLES = {
    "requests": "CREATE TABLE requests (merchant TEXT, terminal TEXT, kind TEXT, trace TEXT, "
    "stamp TEXT, essence TEXT NOT NULL, day INTEGER NOT NULL, status INTEGER NOT NULL, "
    "admitted INTEGER NOT NULL, reference INTEGER, follows INTEGER, amount INTEGER NOT NULL, "
    "leg INTEGER NOT NULL, card TEXT, acquirer TEXT, hold_days INTEGER, until INTEGER, "
    "reply TEXT NOT NULL, PRIMARY KEY (merchant, terminal, kind, trace, stamp)) STRICT",
    "postings": "CREATE TABLE postings (merchant TEXT, day INTEGER, number INTEGER, "
    "leg INTEGER NOT NULL, amount INTEGER NOT NULL, reference INTEGER NOT NULL, "
    "card TEXT NOT NULL, terminal TEXT NOT NULL, trace TEXT NOT NULL, PRIMARY KEY (day, merchant, "
    "number)) STRICT",
    "reconciliations": "CREATE TABLE reconciliations (merchant TEXT, day INTEGER, number INTEGER, "
    "in_balance INTEGER NOT NULL, PRIMARY KEY (day, merchant, number)) STRICT",
}

# Requests as builds made them that had no index of references.
KEYS = "PRIMARY KEY (merchant, terminal, kind, trace, stamp)"
UNIQUE_REFERENCES = f"{KEYS}, UNIQUE (merchant, reference)"

# Each command that opens a book, and what it is given.
COMMANDS = [
    ["init", "--limit", "999999", *DAY],
    ["migrate"],
    ["replay"],
    ["once"],
    ["listen", "--port", "8583", "--count", "1"],
    ["clearing", *DAY],
    ["report", *DAY],
    ["holds", "--merchant", "LAKESIDE-BAKERY", "--at", "1714555800"],
    ["pending"],
    ["status"],
    ["audit"],
]


def content(path):
    with open(path, "rb") as it:
        return it.read()


def lines_of(name):
    with open(f"{TOP}/examples/{name}", encoding="ascii") as it:
        return it.read().splitlines()


def files_in(folder):
    """What stands in a folder: each file with its bytes and its mode."""
    return {it.name: (content(it.path), it.stat().st_mode) for it in os.scandir(folder)}


# ---- what SQLite may do to a book


def statements(*texts):
    """A change that executes these."""

    def change(path, _new):
        book = sqlite3.connect(path, isolation_level=None)
        for text in texts:
            book.execute(text).fetchall()
        book.close()

    return change


def vacuumed_into(path, new):
    statements(f"VACUUM INTO '{new}'")(path, new)
    os.replace(new, path)


def backed_up(path, new):
    old, copy = sqlite3.connect(path), sqlite3.connect(new)
    old.backup(copy)
    old.close()
    copy.close()
    os.replace(new, path)


def read_into(path, new, script):
    """Reads the SQL text of a book into a new file."""
    old, copy = sqlite3.connect(path), sqlite3.connect(new)
    copy.executescript(script(old))
    old.close()
    copy.close()
    os.replace(new, path)


def dumped(path, new):
    """As Python dumps it: tables by their names, then the index."""
    read_into(path, new, lambda old: "\n".join(old.iterdump()))


def dumped_in_order(path, new):
    """As the sqlite3 shell dumps it: tables in their order, then the index."""

    def script(old):
        texts, rows = [], []
        for kind, name, text in old.execute(
            "SELECT type, name, sql FROM sqlite_schema WHERE sql NOT NULL ORDER BY type DESC, rowid"
        ):
            texts.append(f"{text};")
            if kind == "table":
                rows += inserts(old, name)
        return "BEGIN;\n" + "\n".join([*texts, *rows]) + "\nCOMMIT;"

    read_into(path, new, script)


def inserts(book, table):
    """The text that adds each row of a table."""
    for row in book.execute(f"SELECT * FROM {table} ORDER BY rowid"):
        values = (book.execute("SELECT quote(?)", (it,)).fetchone()[0] for it in row)
        yield f"INSERT INTO {table} VALUES ({', '.join(values)});"


def index_again(path, _new):
    book = sqlite3.connect(path)
    asked = "SELECT name, sql FROM sqlite_schema WHERE type = 'index' AND sql NOT NULL"
    found = book.execute(asked).fetchall()
    for name, text in found:
        book.execute(f"DROP INDEX {name}")
        book.execute(text)
    book.commit()
    book.close()


CHANGES = {
    "VACUUM": statements("VACUUM"),
    "VACUUM INTO": vacuumed_into,
    "a dump by Python": dumped,
    "a dump in order": dumped_in_order,
    "a backup": backed_up,
    **{
        f"pages of {size}": statements(NO_LOG, f"PRAGMA page_size = {size}", "VACUUM")
        for size in (512, 1024, 8192, 65536)
    },
    "REINDEX": statements("REINDEX"),
    "a checkpoint": statements("PRAGMA wal_checkpoint(PASSIVE)"),
    "a checkpoint that truncates": statements("PRAGMA wal_checkpoint(TRUNCATE)"),
    "a rollback journal": statements(NO_LOG),
    "a log again": statements(NO_LOG, "PRAGMA journal_mode = WAL"),
    "a user version": statements("PRAGMA user_version = 7"),
    "an application's number": statements("PRAGMA application_id = 7"),
    "a table made and dropped": statements("CREATE TABLE other (x)", "DROP TABLE other"),
    "each index dropped and made": index_again,
}

# What leaves no book: an object more or less.
SPOILING = {
    "ANALYZE": "ANALYZE",
    "a foreign table": "CREATE TABLE other (x)",
    "a foreign index": "CREATE INDEX by_day ON postings (day)",
    "a view": "CREATE VIEW days AS SELECT day FROM book",
    "a trigger": "CREATE TRIGGER paid AFTER DELETE ON running BEGIN SELECT 1; END",
    "a column more": "ALTER TABLE merchants ADD COLUMN town TEXT",
    "no index": "DROP INDEX requests_by_reference",
    "no index of keys": "DROP INDEX requests_by_key",
    "an index more": "CREATE UNIQUE INDEX by_number ON postings (day, merchant, number)",
    "a table less": "DROP TABLE running",
}


# ---- books of builds, made by their texts


def texts_of(book):
    """The texts of a book's tables in their order, with the unique keys of earlier builds, and that
    of the index of references."""
    asked = "SELECT name, sql FROM sqlite_schema WHERE sql NOT NULL ORDER BY rowid"
    texts = {**dict(book.execute(asked).fetchall()), **UNIQUE_TABLES}
    return [texts[it] for it in TABLES], texts["requests_by_reference"]


def with_unique_keys(path, new):
    """All keys unique, and the index of references behind the tables."""
    rebuilt(path, new, lambda tables, index: [*tables, index])


def as_earlier(path, new):
    """The index between the tables of requests and of postings, where earlier builds put it."""
    rebuilt(path, new, lambda tables, index: [*tables[:5], index, *tables[5:]])


def as_before_the_index(path, new):
    """Requests with a unique key in place of the index."""

    def order(tables, _index):
        keyed = tables[4].replace(KEYS, UNIQUE_REFERENCES)
        wanted("requests have other keys", keyed != tables[4], True)
        return [*tables[:4], keyed, *tables[5:]]

    rebuilt(path, new, order)


def with_some_unique_keys(path, new):
    """The keys of requests unique, and those of postings not: neither form of a book."""

    def order(tables, index):
        plain = tables[5].replace(", PRIMARY KEY (day, merchant, number)", "")
        wanted("postings have no key", plain != tables[5], True)
        return [*tables[:5], plain, *tables[6:], index]

    rebuilt(path, new, order)


def rebuilt(path, new, order):
    old, book = sqlite3.connect(path), sqlite3.connect(new)
    for text in order(*texts_of(old)):
        book.execute(text)
    for table in TABLES:
        book.executescript("\n".join(["BEGIN;", *inserts(old, table), "COMMIT;"]))
    old.close()
    book.close()
    os.replace(new, path)


# ---- a book goes on


class Books:
    """Books of one day, of which its first lines are taken."""

    def __init__(self, program, room):
        self.program, self.room = program, room
        self.book, self.new = f"{room}/book.db", f"{room}/new.db"
        events, said = lines_of("day.csv"), lines_of("day.lines")
        self.rest, self.said = events[BEFORE:], said[BEFORE:]
        self.texts = [lines_of("clearing.csv"), lines_of("settlement.txt")]
        first = f"{room}/first.db"
        made = acqd(program, ["init", "--db", first, "--limit", "999999", *DAY])
        wanted("init", made, (0, "", ""))
        wanted("the day's first lines", taken(program, first, events[:BEFORE]), said[:BEFORE])
        self.first = first

    def anew(self, make=None):
        """Another one of them, made as a build made it."""
        for end in ("", "-wal", "-shm"):
            if os.path.exists(self.book + end):
                os.remove(self.book + end)
        shutil.copyfile(self.first, self.book)
        if make:
            make(self.book, self.new)

    def goes_on(self, what):
        wanted(f"{what}: the day", taken(self.program, self.book, self.rest), self.said)
        for command, lines in zip(("clearing", "report"), self.texts):
            came = acqd(self.program, [command, "--db", self.book, *DAY])
            wanted(f"{what}: {command}", came, (0, "".join(f"{it}\n" for it in lines), ""))
        found = sqlite3.connect(self.book)
        wanted(f"{what}: SQLite", found.execute("PRAGMA integrity_check").fetchall(), [("ok",)])
        found.close()

    def untouched(self, what, commands):
        """No command takes what stands there, and none writes a byte."""
        before = files_in(self.room)
        for words in commands:
            came = acqd(self.program, [words[0], "--db", self.book, *words[1:]])
            wanted(f"{what}: {words[0]}", came, NOT_A_BOOK)
            wanted(f"{what}: {words[0]} writes", sorted(files_in(self.room)), sorted(before))
            wanted(f"{what}: {words[0]} changes", files_in(self.room) == before, True)


def changed_books(books):
    makes = {"now": None, "with unique keys": with_unique_keys, "by an earlier build": as_earlier}
    makes["before the index"] = as_before_the_index
    for build, make in makes.items():
        for name, change in CHANGES.items():
            books.anew(make)
            change(books.book, books.new)
            books.goes_on(f"a book made {build}, {name}")
        books.anew(make)
        books.goes_on(f"a book made {build}")
    for name, text in SPOILING.items():
        books.anew()
        statements(text)(books.book, books.new)
        came = acqd(books.program, ["report", "--db", books.book, *DAY])
        wanted(f"a book with {name}", came, NOT_A_BOOK)
    books.anew()
    statements(NO_LOG, "PRAGMA auto_vacuum = FULL", "VACUUM")(books.book, books.new)
    came = acqd(books.program, ["report", "--db", books.book, *DAY])
    wanted("a book that frees its pages", came, (3, "", "acqd: 2 Store\n"))


def both_forms(books):
    """A book of either form goes on as it is: no command writes its tables anew. What is neither is
    no book."""
    for what, make in {"plain indexes": None, "unique keys": with_unique_keys}.items():
        books.anew(make)
        before = schema_of(books.book)
        has_plain = any(it[2] == "requests_by_key" for it in before)
        wanted(f"a book with {what} has them", has_plain, make is None)
        books.goes_on(f"a book with {what}")
        wanted(f"a book with {what}, then", schema_of(books.book), before)
    books.anew(with_some_unique_keys)
    before = schema_of(books.book)
    for words in COMMANDS:
        came = acqd(books.program, [words[0], "--db", books.book, *words[1:]])
        wanted(f"a book with some unique keys: {words[0]}", came, NOT_A_BOOK)
    wanted("a book with some unique keys, then", schema_of(books.book), before)


def schema_of(path):
    book = sqlite3.connect(path)
    found = book.execute("SELECT rowid, * FROM sqlite_schema").fetchall()
    book.close()
    return found


def version_one(books):
    """A book of version 1 that SQLite has vacuumed is migrated as the one that it was."""
    found = []
    for is_vacuumed in (False, True):
        books.anew()
        for end in ("", "-wal"):
            with gzip.open(f"{HERE}/version1/book.db{end}.gz") as old:
                with open(books.book + end, "wb") as new:
                    new.write(old.read())
        if is_vacuumed:
            statements("VACUUM")(books.book, books.new)
        wanted("a migration", acqd(books.program, ["migrate", "--db", books.book]), (0, "", ""))
        book = sqlite3.connect(books.book)
        found.append([it for table in TABLES for it in inserts(book, table)])
        book.close()
    wanted("a vacuumed book of version 1", found[1] == found[0], True)


# ---- what is no book


def foreign_database(path, table):
    """A database of another program, and a log that it has still to copy."""
    live = f"{path}.live"
    other = sqlite3.connect(live)
    other.execute("PRAGMA journal_mode = WAL")
    other.execute("PRAGMA wal_autocheckpoint = 0")
    other.executescript(f"CREATE TABLE {table} (x); INSERT INTO {table} VALUES (1);")
    for end in ("", "-wal"):
        shutil.copyfile(live + end, path + end)
    other.close()
    for it in os.scandir(os.path.dirname(path)):
        if it.name.startswith(os.path.basename(live)):
            os.remove(it.path)


def no_books(books):
    text = content(f"{TOP}/crates/acq_sql_rows/src/tables.rt")
    files = {"a byte": b"x", "an S": b"S", "a text": text, "zeros": bytes(8192)}
    files["half a page"] = b"SQLite format 3\0" + bytes(240)
    for what, data in files.items():
        books.anew()
        with open(books.book, "wb") as it:
            it.write(data)
        books.untouched(what, COMMANDS)
    for table in ("other", "book"):
        books.anew()
        foreign_database(books.book, table)
        books.untouched(f"a database with a table {table}", COMMANDS)
        os.remove(books.book + "-wal")
        with open(books.book, "wb") as it:
            empty = sqlite3.connect(":memory:")
            empty.executescript(f"CREATE TABLE {table} (x);")
            it.write(empty.serialize())
        books.untouched(f"a database with a table {table}, alone", COMMANDS)


def over_books(tried):
    """A try over books in a folder of its own."""

    def one(program):
        with tempfile.TemporaryDirectory() as room:
            tried(Books(program, room))

    one.__name__ = tried.__name__
    return one


TRIES = [over_books(it) for it in (changed_books, both_forms, version_one, no_books)]

if __name__ == "__main__":
    sys.exit(main(TRIES))
