#!/usr/bin/env python3
"""migration.py PROGRAM: migrates a book of version 1, which is kept beside this script, and lets
its day go on.

The book in `version1` was made by a program of that version, from the lines of
`version1/events.csv`: the first twenty of the day of two shops, and a kiosk with a sale, an open
hold and a sale that waits for its answer. `version1/rows.txt` has its rows, as SQLite shows them.
Every command refuses it, it is migrated once, its rows stay but for the version and the ranges, and
the day goes on as that of two shops does, and as the kiosk's has to."""

import gzip
import os
import sqlite3
import sys
import tempfile

from terminal import main, run, wanted

HERE = os.path.dirname(os.path.abspath(__file__))
TOP = os.path.dirname(os.path.dirname(HERE))
TABLES = "book merchants terminals ranges requests postings reconciliations running".split()
KIOSK, TERMINAL = "CORNER-KIOSK-01", "KIOSK001"


def acqd(program, words, text=""):
    """The status, the output and the faults of a run of the program."""
    status, out, faults = run([program, *words], text)
    return status, out.decode(), faults


def taken(program, book, lines):
    """The lines that the program writes to these event lines."""
    text = "".join(f"{it}\n" for it in lines)
    status, output, faults = acqd(program, ["replay", "--db", book], text)
    wanted("a replay", (status, faults), (0, ""))
    return output.splitlines()


def rows_of(book):
    """The rows of each table, a line each; the files are copied, since SQLite writes to them."""
    with tempfile.TemporaryDirectory() as room:
        for end in ("", "-wal"):
            with open(book + end, "rb") as old, open(f"{room}/copy{end}", "wb") as new:
                new.write(old.read())
        found = sqlite3.connect(f"{room}/copy")
        wanted("the file", found.execute("PRAGMA integrity_check").fetchall(), [("ok",)])
        lines = []
        for table in TABLES:
            for row in sorted(found.execute(f"SELECT * FROM {table}").fetchall(), key=repr):
                lines.append("|".join([table, *("" if it is None else str(it) for it in row)]))
        found.close()
    return lines


def widened(line):
    """A row of version 1 as one of version 2."""
    table, *columns = line.split("|")
    if table == "book":
        columns[0] = "2"
    if table == "ranges":
        columns[:2] = f"{columns[0]}00", f"{columns[1]}99"
    return "|".join([table, *columns])


def frame(moment, *parts):
    """The event line of a frame."""
    return f"frame,{moment},{''.join(parts).encode().hex().upper()},,,"


def kiosks_lines():
    """What the kiosk does after the migration, and what it is told: lines in, lines out."""
    sale = ["16", "4111111111111111", "000000", "000000000700", "0501093000", "000001"]
    waiting = ["16", "4242424242424242", "000000", "000000000300", "0501093000", "000003"]
    ends = [TERMINAL, KIOSK, "978"]
    done = ["000000", "000000004000", "0501095000", "000004"]
    return [
        # The sale that waited is answered, and the one that was answered is sent again.
        (
            f"answer,1714556100,{KIOSK},9003,approved,K90003",
            f"reply 0210722200000EC08000{''.join(waiting)}0501000000009003K9000300{''.join(ends)}",
        ),
        (
            frame(1714556101, "0201", "7220000000C08000", *sale, *ends),
            f"reply 0210722200000EC08000{''.join(sale)}0501000000009001K9000100{''.join(ends)}",
        ),
        # The hold is completed.
        (
            frame(1714556102, "0220", "3220000008C08000", *done, "000000009002", *ends),
            f"reply 0230322200000AC08000{''.join(done)}050100000000900200{''.join(ends)}",
        ),
        # A card finds the issuer that it found before.
        (
            frame(1714556103, "0200", "7220000000C08000", *sale[:5], "000005", *ends),
            f"ask {KIOSK} 000000009004 411111******1111 700 12345",
        ),
        (
            f"answer,1714556104,{KIOSK},9004,declined,51",
            f"reply 0210722200000AC08000{''.join(sale[:5])}0000050501000000009004"
            f"51{''.join(ends)}",
        ),
        # Ranges have eight digits, and what was one can be two.
        ("droprange,40000000,49999998,,,", "refused 22"),
        ("addrange,40000000,40000001,1,7,", "refused 21 40000000 49999999"),
    ]


def later_lines():
    """What is done about ranges at the end."""
    return [
        ("droprange,40000000,49999999,,,", "done"),
        ("addrange,45000000,45000049,1,7,", "done"),
        ("addrange,45000050,45000099,2,7,", "done"),
    ]


def try_all(program, room):
    book = f"{room}/book.db"
    for end in ("", "-wal"):
        with gzip.open(f"{HERE}/version1/book.db{end}.gz") as old, open(book + end, "wb") as new:
            new.write(old.read())
    with open(f"{HERE}/version1/rows.txt", encoding="ascii") as it:
        rows = it.read().splitlines()
    wanted("the rows of version 1", rows_of(book), rows)
    refused = (1, "", "acqd: 41 OtherVersion 1\n")
    words = ["report", "--db", book, "--day", "2024-05-01"]
    wanted("another command", acqd(program, words), refused)
    words = ["replay", "--db", book]
    wanted("a replay before", acqd(program, words, "cutover,1714600800,,,,\n"), refused)
    wanted("the migration", acqd(program, ["migrate", "--db", book]), (0, "", ""))
    wanted("the rows of version 2", rows_of(book), [widened(it) for it in rows])
    sound = (0, "sound\n", "")
    wanted("an audit", acqd(program, ["audit", "--db", book]), sound)
    again = (1, "", "acqd: 41 OtherVersion 2\n")
    wanted("the migration again", acqd(program, ["migrate", "--db", book]), again)
    kiosks = kiosks_lines()
    wanted("the kiosk", taken(program, book, [it[0] for it in kiosks]), [it[1] for it in kiosks])
    with open(f"{TOP}/examples/day.csv", encoding="ascii") as it:
        rest = it.read().splitlines()[20:]
    with open(f"{TOP}/examples/day.lines", encoding="ascii") as it:
        lines = it.read().splitlines()[20:]
    wanted("the rest of the day", taken(program, book, rest), lines)
    with open(f"{TOP}/examples/clearing.csv", encoding="ascii") as it:
        lines = it.read().splitlines()
    status, output, faults = acqd(program, ["clearing", "--db", book, "--day", "2024-05-01"])
    wanted("clearing", (status, faults), (0, ""))
    own = [it for it in output.splitlines() if KIOSK not in it]
    wanted("the clearing file, without the kiosk's", own, lines)
    later = later_lines()
    wanted("ranges", taken(program, book, [it[0] for it in later]), [it[1] for it in later])
    wanted("an audit at the end", acqd(program, ["audit", "--db", book]), sound)


def a_book_of_version_1(program):
    with tempfile.TemporaryDirectory() as room:
        try_all(program, room)


if __name__ == "__main__":
    sys.exit(main([a_book_of_version_1]))
