#!/usr/bin/env python3
"""sums.py PROGRAM [FLIPS]: books whose pages have sums, which `init --sums` makes.

A busy day goes into such a book, and goes on in it as in any other. Then single bits of its pages
are flipped, one after the other: each is told, and nothing is written. Python's sqlite3, which
knows of no sums, reads and dumps such a book; what it copies, changes or vacuums is refused."""

import os
import random
import shutil
import sqlite3
import sys
from contextlib import closing

from files import DAY, SETUP, acqd, content, event, in_a_folder_of_its_own
from terminal import Wrong, size, wanted

# How many bytes at the end of each page stand in the header, and that a sum takes.
RESERVED, SUM = 20, 8

ANSWER = "answer,1714555800,MERCHANT0000001,{},approved,A1B2C3\n"
SALES = 300
TOLD = (3, b"", "acqd: 2 Store\n")


def book_of_a_day(*more):
    """A new book, behind a day of sales that is over."""
    for name in os.listdir("."):
        os.remove(name)
    made = acqd(["init", "--limit", "999999", *DAY, *more])
    wanted("a new book", made, (0, b"", ""))
    work = b"".join(event(it) + ANSWER.format(it).encode() for it in range(1, SALES + 1))
    work = SETUP + work + b"cutover,1714608000,,,,\n"
    wanted("a day's work", acqd(["replay", "--group", "100"], work)[0], 0)
    os.remove("book.db-wal")


def asked_for(_):
    """A new book has sums if they are asked for, and gives the same files with them and without."""
    texts = []
    for more, reserved in (((), 0), (("--sums",), SUM)):
        book_of_a_day(*more)
        wanted("bytes at the end of pages", content("book.db")[RESERVED], reserved)
        texts.append([acqd([it, *DAY])[:2] for it in ("clearing", "report", "statement")])
    wanted("the files of the day", texts[1], texts[0])
    wanted("the postings of the day", texts[1][0][1].count(b"\n"), SALES + 1)
    last = texts[1][2][1].splitlines()[-1]
    wanted("what the shop is owed", last, b"  the acquirer owes the merchants %d" % (1000 * SALES))


def flips(_):
    """Of bits in the rows of a book none is flipped silently."""
    book_of_a_day("--sums")
    sound = content("book.db")
    # Where there is something: pages begin with their form, and end with their sum.
    places = [it for it, byte in enumerate(sound) if byte and it >= 100]
    draw = random.Random(8583)
    for _ in range(size(40)):
        place, bit = draw.choice(places), draw.randrange(8)
        flipped = bytearray(sound)
        flipped[place] ^= 1 << bit
        with open("book.db", "wb") as it:
            it.write(flipped)
        wanted(f"the status with bit {bit} of byte {place} flipped", acqd(["status"]), TOLD)
        wanted("what is left", content("book.db"), bytes(flipped))
        if os.path.exists("book.db-wal"):
            os.remove("book.db-wal")
    with open("book.db", "wb") as it:
        it.write(sound)
    wanted("the status of the book", acqd(["status"])[0], 0)


def card_numbers(_):
    """Another card number in a posting, which no total tells, is told with sums, and else isn't."""
    for more, told in ((("--sums",), True), ((), False)):
        book_of_a_day(*more)
        pages = content("book.db")
        place = pages.rindex(b"4111111111111111")
        with open("book.db", "wb") as it:
            it.write(pages[:place] + b"4242424242424242" + pages[place + 16:])
        wanted("a clearing file", acqd(["clearing", *DAY]) == TOLD, told)


def other_programs(_):
    """SQLite without sums reads a book that has them, and dumps it into one without. What it writes
    itself of such a book has pages without right sums, and is refused."""
    book_of_a_day("--sums")
    before = acqd(["clearing", *DAY])
    wanted("the clearing file", before[0], 0)
    shutil.copy("book.db", "sound.db")
    with closing(sqlite3.connect("book.db")) as book:
        rows = book.execute("SELECT count(*) FROM postings").fetchone()
        dumped = "\n".join(book.iterdump())
    wanted("postings that SQLite reads", rows, (SALES,))
    wanted("the clearing file behind that", acqd(["clearing", *DAY]), before)
    for name, change in (
        ("a copy by SQLite", lambda book, copy: book.backup(copy)),
        ("a book that was vacuumed", lambda book, copy: book.execute("VACUUM")),
        ("a book that SQLite changed", lambda book, copy: changed(book)),
        ("a dump", lambda book, copy: copy.executescript(dumped)),
    ):
        for it in ("book.db", "book.db-wal", "copy.db"):
            if os.path.exists(it):
                os.remove(it)
        shutil.copy("sound.db", "book.db")
        with closing(sqlite3.connect("book.db")) as book:
            with closing(sqlite3.connect("copy.db")) as copy:
                change(book, copy)
        if os.path.getsize("copy.db"):
            shutil.move("copy.db", "book.db")
        want = before if name == "a dump" else TOLD
        wanted(name, acqd(["clearing", *DAY]), want)


def changed(book):
    book.execute("UPDATE merchants SET first = 2")
    book.commit()


TRIES = [asked_for, flips, card_numbers, other_programs]

if __name__ == "__main__":
    sys.exit(in_a_folder_of_its_own(TRIES))
