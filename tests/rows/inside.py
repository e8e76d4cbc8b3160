"""Plays tables of what the crates read a text as, over the program `rows`, which links them.

    inside.py ROWS [FILE..]

A FILE is a path, or the name of one of the files of `tests/rows/inside`, which are all played
without one. Status 1 where anything differs.

`card`, `track2` and `class` read bytes, and `hex` messages in hexadecimal; `ranges` reads a file of
ranges, `in-memory` one that is in memory, and `failing` how many bytes of one can be read, each by
a read of its own, and the file; `find`, `add` and `remove` ask for a prefix or a range, on the
ranges 40000000 to 49999999 and 50000000 to 59999999; `asks` takes steps over a book of which things
are recalled, and tells what it is asked for at each; `day` reads a date, and `resolve` a month and
day and the day that it is today; `element` sets an element to a content; `type` gives the type of
the reply; `totals` are four counts and four amounts, of credits, their reversals, debits and
theirs; and the names of texts and numbers say whether one is taken.
"""

import os
import subprocess
import sys
from concurrent.futures import ThreadPoolExecutor
from pathlib import Path

from findings import Findings
from row_bytes import NoRow, bytes_of, malformed, shown
from tables import table_rows

DATA = Path(__file__).resolve().with_name("inside")

# By their numbers, as `crates/rows/src/answers.rt` and `values.rt` have them.
KINDS = (
    "card track2 class hex ranges in-memory failing find add remove day resolve element type "
    "totals merchant terminal currency trace transmission approval decline moment amount reference "
    "first-reference admitted limit used prefix day-number asks"
).split()


def answer_of(program, row):
    """What the program says of a row's text."""
    question = bytes([KINDS.index(row.kind)]) + bytes_of(row.text, row.line)
    ran = subprocess.run([program], input=question, capture_output=True, check=False)
    if ran.returncode != 0 or ran.stderr:
        raise malformed(row.line)
    return shown(ran.stdout.decode().encode("latin-1")).encode()


def play_file(program, path, findings):
    """Plays a file's rows, and returns how many there are."""
    if path.suffix != ".table":
        raise NoRow("not a table")
    try:
        rows = table_rows(path.read_text(encoding="utf-8"), KINDS)
    except (OSError, UnicodeDecodeError):
        raise NoRow("can't be read") from None
    with ThreadPoolExecutor(os.cpu_count()) as pool:
        answers = pool.map(lambda row: answer_of(program, row), rows)
        for row, came in zip(rows, answers):
            findings.compare(row.line, "", row.said, came)
    return len(rows)


def fits(program, path):
    """Plays a file, and prints a line for it, and those of what differs; whether nothing does."""
    findings = Findings()
    try:
        rows = play_file(program, path, findings)
    except NoRow as fault:
        print(f"{path.name}: {fault}")
        return False
    print(f"{path.name}, rows {rows}: {'differs' if findings.lines else 'as written'}")
    for line in findings.lines:
        print(line)
    return not findings.lines


def main():
    words = sys.argv[1:]
    if not words:
        print(__doc__.strip(), file=sys.stderr)
        return 2
    program = os.path.abspath(words[0])
    paths = [Path(it) if Path(it).is_file() else DATA / it for it in words[1:]]
    return 0 if all([fits(program, it) for it in paths or sorted(DATA.iterdir())]) else 1


if __name__ == "__main__":
    sys.exit(main())
