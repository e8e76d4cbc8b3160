#!/bin/sh
# behind.sh [ROWS]: a gateway comes back to a book that has 100,000 rows more, or as many as its
# argument says, and is told of each: all requests ended without an answer. Prints how long it takes
# until it has all lines, and how long an echo took to a terminal beside it: the longest of all, and
# of 99 of 100; and the same of echoes before.
# ACQD may name another program than the built one. It needs python3.
set -eu
unset CDPATH
top=$(cd "$(dirname "$0")/.." && pwd)
program=${ACQD:-$top/crates/acqd/out/acqd}
[ -x "$program" ] || "$top/acqd" build
work=$(mktemp -d)
trap 'rm -rf "$work"' EXIT
PYTHONPATH=$top/tests/live exec python3 -B - "$program" "$work" "${1:-100000}" <<'PY'
import os
import sys
import tempfile
import threading
import time

from gateways import Gateway, GatewayHost
from terminal import MOMENT, Book, echo, echoed, merchant, sale, wanted

PROGRAM, WORK, ROWS = os.path.abspath(sys.argv[1]), sys.argv[2], int(sys.argv[3])
MERCHANTS, TURNS, BEFORE = 64, 3, 1000


def requests():
    """Event lines of requests that ended without an answer, as many of each merchant."""
    for at in range(ROWS):
        k, trace = 1 + at % MERCHANTS, 1 + at // MERCHANTS
        yield f"frame,{MOMENT},{sale(k, trace)[2:].hex()},,,\n"
        yield f"answer,{MOMENT},{merchant(k)},{trace:012d},none,\n"


class Echoes(threading.Thread):
    """A terminal that has one echo answered after the other, and how long each took, in ms."""

    def __init__(self, host):
        super().__init__(daemon=True)
        self.host, self.took, self.stopped = host, [], False

    def run(self):
        with self.host.terminal() as one:
            one.ask(echo())  # the host may still begin
            while not self.stopped:
                begun = time.perf_counter()
                wanted("an echo", one.ask(echo()), echoed())
                self.took.append((time.perf_counter() - begun) * 1e3)

    def since(self, first):
        took = sorted(self.took[first:])
        return f"{took[len(took) * 99 // 100]:.2f} ms for 99 of 100, {took[-1]:.2f} ms at most"


def all_lines(host):
    """How many seconds it takes until each row's line is there."""
    with Gateway(host.gateway_path) as gateway:
        begun, count = time.perf_counter(), 0
        gateway.send("from,0")
        while count < ROWS:
            count += gateway.end.recv(1 << 20).count(b"\n")
        return time.perf_counter() - begun


tempfile.tempdir = WORK
with Book(PROGRAM, range(1, MERCHANTS + 1)) as book:
    book.output("replay", "--group", "1000", given="".join(requests()).encode())
    with GatewayHost(book) as host:
        echoes = Echoes(host)
        echoes.start()
        for _ in range(TURNS):
            first = len(echoes.took)
            while len(echoes.took) < first + BEFORE:
                time.sleep(0.01)
            alone, first = echoes.since(first), len(echoes.took)
            took = all_lines(host)
            print(f"{ROWS:,} rows took {took:.2f} s; an echo {echoes.since(first)}; before {alone}",
                  flush=True)
        echoes.stopped = True
        echoes.join()
        host.end()
PY
