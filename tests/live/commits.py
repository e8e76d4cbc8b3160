#!/usr/bin/env python3
"""commits.py PROGRAM [SALES]: `listen --together 16`, with the order of its calls noted by a small
library that is loaded before it (`order.c`).

Sixteen terminals sell at once, 1,000 sales or so many in all. No reply is written before a sync of
the book that came behind its message; and the host syncs less often than it replies, since the
messages of a round are one transaction."""
import os
import shutil
import subprocess
import sys
import tempfile

from terminal import Book, Host, Wrong, code_of, main, sale, size, wanted

TOGETHER, SALES = 16, size(1000)
HERE = os.path.dirname(os.path.abspath(__file__))


def sell(host, rounds):
    """All terminals send a sale, and only then read their replies, again and again."""
    ends = [host.terminal() for _ in range(TOGETHER)]
    for trace in range(1, rounds + 1):
        for k, end in enumerate(ends):
            end.send(sale(k, trace))
        for end in ends:
            wanted("a sale's code", code_of(end.reply()), "00")
    for end in ends:
        end.finish()


def check(order):
    """Counts the writes to connections and the syncs; each write is behind a sync that is behind
    the last read from its connection."""
    read, synced, writes, syncs = {}, -1, 0, 0
    for at, line in enumerate(order):
        what, *connection = line.split()
        if what == "s":
            synced, syncs = at, syncs + 1
        elif what == "r":
            read[connection[0]] = at
        else:
            writes += 1
            if synced < read[connection[0]]:
                raise Wrong(f"a reply went out before its message was on the disk, in line {at + 1}")
    return writes, syncs


def replies_behind_syncs(program):
    rounds = -(-SALES // TOGETHER)
    with Book(program, merchants=range(TOGETHER)) as book, tempfile.TemporaryDirectory() as work:
        library, order = f"{work}/order.so", f"{work}/order"
        words = ["cc", "-O1", "-shared", "-fPIC", "-o", library, f"{HERE}/order.c", "-ldl"]
        subprocess.run(words, check=True)
        loaded = {**os.environ, "LD_PRELOAD": library, "ORDER": order}
        words = ["--count", str(TOGETHER), "--together", str(TOGETHER)]
        with Host(book, *words, env=loaded) as host:
            sell(host, rounds)
            wanted("the host's end", host.ends()[0], 0)
        with open(order, encoding="ascii") as lines:
            writes, syncs = check(lines)
    wanted("replies that were written", writes, rounds * TOGETHER)
    if not 0 < 2 * syncs < writes:
        raise Wrong(f"{writes} replies were behind {syncs} syncs")


if __name__ == "__main__":
    if not shutil.which("cc"):
        print("commits: not tried, since there is no C compiler")
        sys.exit(0)
    sys.exit(main([replies_behind_syncs]))
