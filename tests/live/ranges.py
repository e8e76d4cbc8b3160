#!/usr/bin/env python3
"""ranges.py PROGRAM [RANGES]: lists that become the ranges of a book, one after the other.

Behind each the book has just the ranges of the list; the lines that are written make the same of a
book of another host; a dry run writes them and changes nothing; and a run that is killed is ended
by the next. The lists have 3,000 ranges, or so many. Shorter ones become the ranges of a host that
runs, over its control socket, and each line is written once the host has done it."""

import os
import random
import shutil
import signal
import subprocess
import sys
import time

from files import DAY, acqd, content, in_a_folder_of_its_own
from terminal import Book, Host, Wrong, run, size, wanted, when

HEADER = b"low,high,issuer,hold_days\n"
COUNT = size(3000)
# How many ranges a list for a host has.
FEW = 300


def list_of(seed, count=COUNT):
    """A list of ranges in order: of each hundred prefixes some, of one issuer or another."""
    draw = random.Random(seed)
    records = []
    for at in range(count):
        low = 10_000_000 + 100 * at + draw.randrange(3)
        if draw.randrange(10):
            issuer, days = draw.choice(("12345", "067890")), draw.choice((1, 7, 31))
            records.append(f"{low:08},{low + 90 + draw.randrange(3):08},{issuer},{days}\n")
    return "".join(records).encode()


def new_book():
    for name in os.listdir("."):
        os.remove(name)
    wanted("a new book", acqd(["init", "--limit", "999999", *DAY]), (0, b"", ""))


def put(records):
    """The list in its file, its records in any order."""
    lines = records.splitlines(True)
    random.Random(len(lines)).shuffle(lines)
    with open("list.csv", "wb") as it:
        it.writelines(lines)


def ranges():
    """The ranges that the book has."""
    status, out, faults = acqd(["list", "ranges"])
    wanted("a listing", (status, faults), (0, ""))
    return out.removeprefix(HEADER)


def lists(_):
    """Three lists, one after the other, and then none."""
    new_book()
    shutil.copy("book.db", "other.db")
    for records in (list_of(1), list_of(2), list_of(3), b""):
        put(records)
        before = ranges()
        told = acqd(["ranges", "--set", "list.csv", "--dry-run"])
        wanted("the ranges behind a dry run", ranges(), before)
        set_ = acqd(["ranges", "--set", "list.csv"])
        wanted("how it ended", (set_[0], set_[2]), (0, ""))
        wanted("what a dry run told", told, set_)
        wanted("the book's ranges", ranges(), records)
        wanted("the same list again", acqd(["ranges", "--set", "list.csv"]), (0, b"", ""))
        kept = set(before.splitlines()) & set(records.splitlines())
        count = len(before.splitlines()) + len(records.splitlines()) - 2 * len(kept)
        wanted("events", set_[1].count(b"\n"), count)
        shutil.move("book.db", "this.db")
        shutil.move("other.db", "book.db")
        wanted("the lines at another host", set(acqd(["replay"], set_[1])[1].splitlines()),
               {b"done"} if count else set())
        wanted("the other host's ranges", ranges(), records)
        shutil.move("book.db", "other.db")
        shutil.move("this.db", "book.db")


def killed(program):
    """A run that is killed leaves some first changes, and the next one does the rest."""
    new_book()
    put(list_of(4))
    wanted("a first list", acqd(["ranges", "--set", "list.csv"])[0], 0)
    records = list_of(5)
    put(records)
    for wait in (0.01, 0.03, 0.1, 0.2):
        words = [program, "ranges", "--db", "book.db", "--set", "list.csv"]
        run = subprocess.Popen(words, stdout=subprocess.DEVNULL)
        time.sleep(wait)
        run.send_signal(signal.SIGKILL)
        run.wait()
    wanted("how it ended", acqd(["ranges", "--set", "list.csv"])[2], "")
    wanted("the book's ranges", ranges(), records)


def refused(_):
    """Of a list that is none nothing is taken."""
    new_book()
    put(list_of(6))
    wanted("a list", acqd(["ranges", "--set", "list.csv"])[0], 0)
    before = content("book.db")
    with open("list.csv", "ab") as it:
        it.write(b"10000000,10000099,12345,1\n")
    status, out, faults = acqd(["ranges", "--set", "list.csv"])
    wanted("a range twice", (status, out, faults.startswith("acqd: 21 Overlap ")), (1, b"", True))
    wanted("the book", content("book.db"), before)


def hosts(program):
    """Lists become the ranges of a host that runs, one after the other."""
    with Book(program, merchants=None) as book, Host(book, control=True) as host:
        when("no control socket", lambda: os.path.exists(host.control_path))
        words = [program, "ranges", "--control", host.control_path, "--set", "list.csv"]
        for records in (list_of(7, FEW), list_of(8, FEW), b"", list_of(9, FEW)):
            put(records)
            before = host.tell("list,ranges")
            told = run([*words, "--dry-run"], b"")
            wanted("the ranges behind a dry run", host.tell("list,ranges"), before)
            set_ = run(words, b"")
            wanted("how it ended", (set_[0], set_[2]), (0, ""))
            wanted("what a dry run told", told, set_)
            wanted("the host's ranges", host.tell("list,ranges").encode(), HEADER + records)
            wanted("the same list again", run(words, b""), (0, b"", ""))


TRIES = [lists, killed, refused, hosts]

if __name__ == "__main__":
    sys.exit(in_a_folder_of_its_own(TRIES))
