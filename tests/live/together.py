#!/usr/bin/env python3
"""together.py PROGRAM [COUNT]: sixty-four connections, or so many, to `listen --together`, over
real sockets.

Each of all but two has a merchant of its own and sends its frames cut anywhere, and is to get what
`once` gives on these frames alone. One reads no reply and sends on for as long as it can; one stops
inside a frame. The others are answered while these two hold out; then the one is cut off, and the
other ends."""
import random
import select
import socket
import sys

from terminal import (
    APPROVING, ECHO, ENDED, MOMENT, Book, Host, echo, main, pieces, sale, size, wanted,
)

TOGETHER = size(64)
DEAF, STUCK = 0, 1


def frames_of(k):
    return b"".join([echo(k), *(sale(k, it) for it in range(1, 6)), sale(k, 3, "0201"), echo(k)])


def talk(deaf, stuck, others, chance):
    """Has all connections talk until the others have their replies."""
    stuck.send(frames_of(STUCK)[:-9])
    left = {end: pieces(frames_of(k), chance) for k, end in others.items()}
    flood, sending, reading = b"", dict(others), list(others.values())
    while reading:
        flood = deaf.send_some(flood or ECHO * 200)
        for k in chance.sample(sorted(sending), len(sending) // 2 or len(sending)):
            if piece := next(left[sending[k]], None):
                sending[k].send(piece)
            else:
                sending.pop(k).end.shutdown(socket.SHUT_WR)
        for end in select.select(reading, [], [], 0.001)[0]:
            if not end.more(0):
                reading.remove(end)
    return flood


def connections(program):
    merchants = range(TOGETHER)
    with Book(program, merchants) as book, Book(program, merchants) as alone:
        words = ["--count", str(TOGETHER), "--together", str(TOGETHER), "--idle", "0"]
        with Host(book, *words) as host:
            ends = [host.terminal(room=4096 if k == DEAF else None) for k in range(TOGETHER)]
            deaf, stuck, others = ends[DEAF], ends[STUCK], dict(enumerate(ends[2:], 2))
            flood = talk(deaf, stuck, others, random.Random(8583))
            # Then the host waits to write to it.
            deaf.send_until_full(ECHO, flood)
            wanted("a host beside two that hold out", host.process.poll(), None)
            deaf.end.close()
            stuck.finish()
            status, faults = host.ends()
        once = ["--issuers", alone.file("issuers.csv", APPROVING), "--at", str(MOMENT)]
        for k, end in others.items():
            said = alone.output("once", *once, given=frames_of(k)).encode("latin-1")
            wanted(f"replies to terminal {k}", end.held, said)
        wanted("the end", (status, sorted(faults)[0], len(faults)), (0, ENDED, 2))
        wanted("the fault of who didn't read", sorted(faults)[1][:14], "acqd: 54 Write")


if __name__ == "__main__":
    sys.exit(main([connections]))
