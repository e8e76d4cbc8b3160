#!/bin/sh
# hostile.sh [FRAMES]: sends hostile frames, 300,000 or as many as its argument says, on 63
# connections to `acqd listen --together 64`, beside a terminal that sells; and prints how long the
# terminal's replies took, in the middle and at most for 99 of 100, beside those of a host that
# nobody disturbs. The replies of both have to be the same, byte for byte. It needs python3.
set -eu
unset CDPATH
cd "$(dirname "$0")/.."
./acqd build
PYTHONPATH=$PWD/tests/live exec python3 - "$PWD/crates/acqd/out/acqd" "${1:-300000}" <<'PY'
import multiprocessing
import random
import socket
import subprocess
import sys
import time

from terminal import Book, Host, echo, frame, sale

PROGRAM, COUNT = sys.argv[1], int(sys.argv[2])
WORKERS, PLACES = 3, 21


def hostile(chance):
    """A frame of one of many kinds: junk, one that is cut or changed, one of somebody else."""
    kind = chance.randrange(10)
    good = sale(trace=chance.randrange(10**6), e42=f"NOBODY{chance.randrange(10**9):09d}")
    if kind == 0:
        return bytes(chance.randrange(256) for _ in range(chance.randrange(1, 300)))
    if kind == 1:
        return b"\0\0"
    if kind == 2:
        return frame(good[2:chance.randrange(3, len(good))])
    if kind == 3:
        at = chance.randrange(2, len(good))
        return good[:at] + bytes([chance.randrange(256)]) + good[at + 1:]
    if kind == 4:
        return echo(e70=f"{chance.randrange(1000):03d}")
    if kind == 5:
        return frame("1" * chance.randrange(1, 4096))
    return good


def attack(port, count, seed):
    """Sends so many frames whole, each on one of several connections, and reads nothing but what is
    there."""
    chance, ends = random.Random(seed), [None] * PLACES
    while count:
        place = chance.randrange(PLACES)
        try:
            if ends[place] is None:
                ends[place] = socket.create_connection(("127.0.0.1", port), timeout=5)
                ends[place].setblocking(False)
            it = hostile(chance)
            if ends[place].send(it) == len(it):
                count -= 1
            if chance.randrange(4) == 0:
                while ends[place].recv(65536):
                    pass
                raise OSError
        except BlockingIOError:
            time.sleep(0.0002)
        except OSError:
            if ends[place]:
                ends[place].close()
            ends[place] = None


def sell(host, sales, is_over):
    """Sells until it is over, so many times at least: the replies, and what each took."""
    replies, took = [], []
    with host.terminal() as terminal:
        terminal.end.setsockopt(socket.IPPROTO_TCP, socket.TCP_NODELAY, 1)
        while len(replies) < sales or not is_over():
            sent = time.perf_counter()
            replies.append(terminal.ask(sale(trace=len(replies) + 1)))
            took.append(time.perf_counter() - sent)
    return replies, sorted(took)


def begun(book):
    return Host(book, "--together", "64", stderr=subprocess.DEVNULL)


def told(name, took):
    middle, most = took[len(took) // 2] * 1000, took[len(took) * 99 // 100] * 1000
    print(f"{name}: {len(took)} sales, a reply took {middle:.2f} ms in the middle, "
          f"{most:.2f} ms at most for 99 of 100")


with Book(PROGRAM) as book, begun(book) as host:
    host.terminal().end.close()
    counts = [(host.port, COUNT // WORKERS, it) for it in range(WORKERS)]
    attackers = [multiprocessing.Process(target=attack, args=it) for it in counts]
    for it in attackers:
        it.start()
    disturbed, took = sell(host, 100, lambda: not any(it.is_alive() for it in attackers))
    for it in attackers:
        it.join()
    alive = host.process.poll() is None
    told(f"beside {COUNT} hostile frames", took)
with Book(PROGRAM) as book, begun(book) as host:
    alone, took = sell(host, len(disturbed), lambda: True)
    told("undisturbed", took)
well = alive and disturbed == alone
print("the replies are the same" if well else "THE REPLIES DIFFER, or the host ended")
sys.exit(0 if well else 1)
PY
