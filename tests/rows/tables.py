"""Tables: `KIND TEXT => RESULT`, a row a line.

`issuers` is a file of issuers' answers, and the verdict on a request of the card 4111111111111111
that waits, or the fault; `opening` are statements of SQL, and what a new book is told as behind
them.
"""

from dataclasses import dataclass

from books import change
from command_file import given_by
from machine import put
from program import run
from row_bytes import NoRow, bytes_of, malformed, rows_of, shown

# A sale of that card waits for its issuer's answer.
WAITING = (
    b"addrange,40000000,49999999,12345,7,\n"
    b"enrol,MERCHANT0000001,978,1,,\n"
    b"terminal,MERCHANT0000001,TERM0001,,,\n"
)
SALE = (
    "0200|7220000000C08000|16|4111111111111111|000000|000000001000|0501093000|000001|TERM0001"
    "|MERCHANT0000001|978"
)
MOMENT = "1714555800"
ANSWER = b"answer,1714555800,MERCHANT0000001,000000000001,"


@dataclass
class TableRow:
    """A row of a table."""

    line: int
    kind: str
    text: str
    said: bytes


def read_table(text):
    """The rows of a file that is played over the built program."""
    return table_rows(text, KINDS)


def table_rows(text, kinds):
    """The rows of a file whose kinds are these."""
    rows = []
    for line, row in rows_of(text):
        asked, found, said = row.partition("=>")
        kind, parted, given = asked.partition(" ")
        if not found or not parted or kind not in kinds:
            raise malformed(line)
        rows.append(TableRow(line, kind, given.removesuffix(" "), said.removeprefix(" ").encode()))
    if not rows:
        raise NoRow("no row")
    return rows


def play_row(books, row, findings):
    """Plays a row of a table."""
    with books.new_room() as room:
        came = KINDS[row.kind](books, room, row)
    findings.compare(row.line, "", row.said, came)
    findings.counts["table rows"] += 1


def verdict(books, room, row):
    """What a file of issuers' answers says of the card."""
    books.put(f"{room}/book", events=WAITING + given_by("event", SALE, 0))
    put(f"{room}/issuers", bytes_of(row.text, row.line))
    words = ["pending", "--db", "book", "--issuers", "issuers", "--at", MOMENT]
    came = run(books.program, room, words)
    if came.status != 0 or not came.output.startswith(ANSWER):
        return told(came)
    word, _, text = came.output[len(ANSWER) : -1].partition(b",")
    return shown(word + b" " + text if text else word).encode()


def opening(books, room, row):
    """What a new book is told as behind statements of SQL."""
    books.put(f"{room}/book", limit=20)
    change(f"{room}/book", [it for it in row.text.split("; ") if it])
    came = run(books.program, room, ["status", "--db", "book"])
    return b"a book" if came.status == 0 and not came.faults else told(came)


def told(came):
    """The fault that a run told."""
    return came.faults.removeprefix(b"acqd: ").removesuffix(b"\n")


KINDS = {"issuers": verdict, "opening": opening}
