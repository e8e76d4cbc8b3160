#!/bin/sh
# issuers.sh [SALES]: has 64 terminals sell at once to `acqd listen --together 64`, 5,000 sales or as
# many as its argument says, over a book in a file on this disk and one in memory: with issuers that
# answer at once, and with ones that take 50 ms, each by a file that plays them and by a gateway
# (issuers/gateway.c). Prints sales a second and how long a reply took: in the middle, and at most
# for 99 of 100. ACQD may name another program than the built one. It needs python3 and a C compiler.
set -eu
unset CDPATH
top=$(cd "$(dirname "$0")/.." && pwd)
program=${ACQD:-$top/crates/acqd/out/acqd}
[ -x "$program" ] || "$top/acqd" build
work=$(mktemp -d)
trap 'rm -rf "$work"' EXIT
cc -O2 -o "$work/terminals" "$top/bench/listen/terminals.c"
cc -O2 -o "$work/gateway" "$top/bench/issuers/gateway.c"
PYTHONPATH=$top/tests/live exec python3 - "$program" "$work" "${1:-5000}" <<'PY'
import os
import subprocess
import sys
import tempfile

from gateways import GatewayHost
from terminal import CARD, Book, Host

PROGRAM, WORK, SALES = os.path.abspath(sys.argv[1]), sys.argv[2], int(sys.argv[3])
TERMINALS, TURNS = 64, 3


def sell(host):
    """Sales a second, and of how long a reply took the middle and the longest of 99 of 100, in ms."""
    with host.terminal() as first:
        first.is_served()
    words = [f"{WORK}/terminals", str(host.port), *(str(it) for it in (TERMINALS, TERMINALS, SALES))]
    took, middle, longest = map(int, subprocess.run(words, stdout=subprocess.PIPE, check=True).stdout.split())
    host.ends()
    return SALES // TERMINALS * TERMINALS / took * 1e9, middle / 1e6, longest / 1e6


def sell_by_file(book, takes):
    """With a file that plays the issuers."""
    words = ["--together", str(TERMINALS), "--count", str(TERMINALS + 1)]
    with Host(book, *words, issuers=f"{CARD},approved,A1B2C3,{takes}\n") as host:
        return sell(host)


def sell_by_gateway(book, takes):
    """With a gateway that asks them."""
    words = ["--count", str(TERMINALS + 1), "--gateway-within", "10"]
    with GatewayHost(book, *words, together=TERMINALS) as host:
        with subprocess.Popen([f"{WORK}/gateway", host.gateway_path, str(takes)]):
            return sell(host)


for where, folder in (("this disk", WORK), ("memory", "/dev/shm")):
    tempfile.tempdir = folder
    for _ in range(TURNS):
        for takes in (0, 50):
            for by, way in (("a file", sell_by_file), ("a gateway", sell_by_gateway)):
                with Book(PROGRAM, range(1, TERMINALS + 1)) as book:
                    rate, middle, longest = way(book, takes)
                print(f"a book on {where}, issuers by {by} that take {takes} ms: {rate:,.0f} sales a second; a reply "
                      f"took {middle:.2f} ms in the middle, {longest:.2f} ms at most for 99 of 100", flush=True)
PY
