#!/bin/sh
# texts.sh [POSTINGS [MERCHANTS [LINE ..]]]: has a terminal send echoes to `acqd listen --together
# 64`, each behind the reply to the last, and prints how long the replies took: in the middle, at
# most for 99 of 100, and at most, and how many took more than 5 ms: undisturbed, and while a
# control connection asks for texts of a day of 100,000 postings, or as many as its first argument
# says, of 100 merchants, or as many as its second one says. Each line is asked five times, the
# first of which doesn't count. Each text has to be that of the command over a copy of the book,
# byte for byte. With LINEs only those that begin so are asked. ACQD may name another program than
# the built one. It needs python3.
set -eu
unset CDPATH
top=$(cd "$(dirname "$0")/.." && pwd)
program=${ACQD:-$top/crates/acqd/out/acqd}
[ -x "$program" ] || "$top/acqd" build
postings=${1:-100000}
merchants=${2:-100}
[ $# -le 2 ] || { shift 2 && lines=$*; }
PYTHONPATH=$top/tests/live exec python3 - "$program" "$postings" "$merchants" ${lines-} <<'PY'
import os
import socket
import sys
import time

from terminal import (
    DAY, ECHO, MOMENT, REPLY, Book, Host, is_readable, merchant, output, sale, wanted,
)

PROGRAM, POSTINGS, COUNT = os.path.abspath(sys.argv[1]), int(sys.argv[2]), int(sys.argv[3])
ASKED, ALONE, TURNS, LONG, FIRST = sys.argv[4:] or [""], 50000, 4, 5, merchant(0)
# A line, and the command that writes the same text over a file; a status has none.
TEXTS = [
    (f"clearing,{DAY}", ["clearing", "--day", DAY]),
    (f"report,{DAY}", ["report", "--day", DAY]),
    (f"report,{DAY},csv", ["report", "--day", DAY, "--csv"]),
    (f"statement,{FIRST},{DAY}", ["statement", "--merchant", FIRST, "--day", DAY]),
    (f"statement,{FIRST},{DAY},csv", ["statement", "--merchant", FIRST, "--day", DAY, "--csv"]),
    (f"find,{FIRST},reference,1", ["find", "--merchant", FIRST, "--reference", "1"]),
    (f"find,{FIRST},terminal,TERM0001,000001",
     ["find", "--merchant", FIRST, "--terminal", "TERM0001", "--trace", "000001"]),
    (f"holds,{FIRST},{MOMENT}", ["holds", "--merchant", FIRST, "--at", str(MOMENT)]),
    ("list,merchants", ["list", "merchants"]),
    ("list,terminals", ["list", "terminals"]),
    ("status", None),
]


def day_of(postings):
    """The event lines of a day of so many sales, of each merchant in its turn, and of its end."""
    for it in range(postings):
        number, k = divmod(it, COUNT)
        yield f"frame,{MOMENT},{sale(k, number + 1)[2:].hex()},,,\n"
        yield f"answer,{MOMENT},{merchant(k)},{number + 1},approved,A1B2C3\n"
    yield f"cutover,{MOMENT},,,,\n"


def echo(terminal, took):
    """Notes what the reply to an echo took, in milliseconds."""
    sent = time.perf_counter()
    reply = terminal.ask(ECHO)
    took.append((time.perf_counter() - sent) * 1000)
    wanted("an echo's reply", reply, REPLY)


def beside(control, terminal, line):
    """What replies took until a text was there, how many seconds that was, and the text."""
    took, came, count, began = [], bytearray(), None, time.perf_counter()
    control.end.sendall(f"{line}\n".encode())
    while count is None or len(came) < count:
        echo(terminal, took)
        while is_readable(control.end, 0):
            came += control.end.recv(1 << 20)
        if count is None and b"\n" in came:
            head, _, behind = bytes(came).partition(b"\n")
            wanted(f"the head of {line}", head[:5], b"text ")
            count, came = int(head[5:]), bytearray(behind)
    return took, time.perf_counter() - began, bytes(came)


def told(name, all_took, seconds, text):
    took = sorted(it for each in all_took for it in each)
    within = took[len(took) * 99 // 100]
    print(f"{name}: {len(text):,} bytes in {seconds:.3f} s; {len(took):,} echoes, a reply took "
          f"{took[len(took) // 2]:.2f} ms in the middle, {within:.2f} ms at most for 99 of 100, "
          f"{took[-1]:.2f} ms at most, {sum(it > LONG for it in took)} of them more than {LONG} ms",
          flush=True)


def ask(control, terminal, line, want):
    """Asks for a text and prints what the replies beside it took; whether it is the wanted one."""
    beside(control, terminal, line)
    turns = [beside(control, terminal, line) for _ in range(TURNS)]
    told(line, [it[0] for it in turns], max(it[1] for it in turns), turns[0][2])
    if want is not None and any(it[2] != want for it in turns):
        print(f"  ANOTHER TEXT than that of the command, {len(want):,} bytes")
        return False
    return True


with Book(PROGRAM, range(COUNT)) as book:
    book.output("replay", "--group", "10000", given="".join(day_of(POSTINGS)))
    asked = [it for it in TEXTS if any(it[0].startswith(word) for word in ASKED)]
    copy, wants = book.copy(f"{book.folder}/copy.db"), {}
    for line, words in asked:
        wants[line] = words and output([PROGRAM, words[0], "--db", copy, *words[1:]])
    with Host(book, "--together", "64", control=True) as host, host.terminal() as terminal:
        terminal.end.setsockopt(socket.IPPROTO_TCP, socket.TCP_NODELAY, 1)
        wanted("the first echo's reply", terminal.ask(ECHO), REPLY)
        print(f"{POSTINGS:,} postings of {COUNT:,} merchants; a load of {os.getloadavg()[0]:.1f}")
        control, alone = host.control(), []
        for _ in range(ALONE):
            echo(terminal, alone)
        told("undisturbed", [alone], sum(alone) / 1000, b"")
        same = [ask(control, terminal, line, wants[line]) for line, _ in asked]
sys.exit(0 if all(same) else 1)
PY
