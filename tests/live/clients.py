#!/usr/bin/env python3
"""clients.py PROGRAM: clients that are slow, silent, deaf or broken, over real sockets, one by one
and many at once; and others that are to be served beside them."""
import os
import signal
import subprocess
import sys
import time

from terminal import (
    BAD, ECHO, ENDED, MODES, PATIENCE, READ, REPLY, Book, Host, Wrong, main, wanted,
)


def drips(program, mode):
    """A byte now and then holds no place for longer than a frame may take."""
    words = ["--together", "2"] if mode else []
    with Book(program) as book, Host(book, *words, "--idle", "9", "--frame-within", "2") as host:
        slow = [host.terminal() for _ in range(2)]
        third, began = host.terminal(ECHO), time.monotonic()
        while time.monotonic() - began < 9 and not third.more(0):
            for it in slow:
                try:
                    it.end.send(b"\x08")
                except OSError:
                    pass
            time.sleep(0.2)
        wanted("a terminal beside two that drip", third.reply(0.5), REPLY)
        host.fault_within(READ, 9)


def a_slow_frame_in_time(program, words):
    """A frame in pieces that takes less than it may is answered, and so is the next, much later."""
    with Book(program) as book, Host(book, *words, "--frame-within", "3") as host:
        terminal = host.terminal()
        for _ in range(2):
            for at in range(0, len(ECHO), 10):
                terminal.send(ECHO[at : at + 10])
                time.sleep(0.3)
            wanted("the reply to a slow frame", terminal.reply(), REPLY)
            time.sleep(1.5)
        wanted("a terminal behind its slow frames", terminal.is_served(), True)


def room_for_one(program):
    """Where all places are taken, the one that came first makes room, and it alone."""
    with Book(program) as book, Host(book, "--together", "2", "--idle", "0") as host:
        first = host.terminal()
        time.sleep(0.3)
        second = host.terminal()
        time.sleep(1.5)
        wanted("whether the first is served", first.is_served(), True)
        third = host.terminal()
        wanted("who waits", third.is_served(), True)
        wanted("who came later", second.is_served(), True)
        wanted("who came first", first.rest(), b"")
        wanted("faults", host.faults(), [])


def no_descriptors(program, mode):
    """Where no connection can be had, it is tried again now and then, and works as soon as it
    can."""
    with Book(program) as book, Host(book, *mode, "--idle", "0") as host:
        with host.terminal() as first:
            wanted("a terminal", first.is_served(), True)
        time.sleep(0.3)
        host.allow(host.descriptors())
        # (a call that waits already has its descriptor)
        host.terminal(ECHO).end.close()
        waiting, before = host.terminal(ECHO), host.processor_time()
        time.sleep(1.5)
        lines, spent = len(host.faults()), host.processor_time() - before
        host.allow(1024)
        if not (5 <= lines <= 20 and spent < 0.5):
            raise Wrong(f"{lines} lines and {spent} seconds of processor time without descriptors")
        wanted("who waited for a descriptor", waiting.reply(), REPLY)


def replies_before_a_bad_frame(program, mode):
    """They reach a client that sends more behind it and reads late, through a small buffer."""
    with Book(program) as book, Host(book, *mode) as host:
        for behind in (b"", b"x" * 30000):
            terminal = host.terminal(ECHO * 400 + BAD + behind, room=2048)
            time.sleep(0.5)
            wanted("replies before a bad frame", terminal.rest(), REPLY * 400)
        wanted("who comes behind it", host.terminal().is_served(), True)
        wanted("faults", host.faults(), ["acqd: 50 BadLength"] * 2)


def a_bad_frame_holds_up_nobody(program):
    """While it is parted with, which takes a second where the other side doesn't close, others go
    on."""
    with Book(program) as book, Host(book, "--together", "8") as host:
        other = host.terminal()
        wanted("a terminal", other.is_served(), True)
        # On a slow machine one try may take as long for another cause.
        for _ in range(5):
            bad, began = host.terminal(BAD), time.monotonic()
            served = [other.is_served() for _ in range(50)]
            took = time.monotonic() - began
            wanted("replies beside a bad frame", served, [True] * 50)
            bad.send(b"x")
            wanted("who comes behind it", host.terminal().is_served(), True)
            if took < 0.9:
                return
        raise Wrong(f"fifty echoes beside a bad frame took {took} seconds")


def nobody_reads_the_faults(program, mode):
    """Fault lines are dropped, and counted, where nobody reads them; terminals notice nothing."""
    with Book(program) as book, Host(book, *mode, stderr=subprocess.PIPE) as host:
        count, told, stream = 4000, b"", host.process.stderr
        for _ in range(count):
            host.terminal(BAD).end.close()
        wanted("who comes behind bad frames", host.terminal().is_served(), True)
        os.set_blocking(stream.fileno(), False)
        while piece := stream.read(65536):
            told += piece
        host.terminal(BAD).end.close()
        until = time.monotonic() + PATIENCE
        while time.monotonic() < until and b"dropped" not in told:
            told += (time.sleep(0.05), stream.read(65536) or b"")[1]
        told += (time.sleep(1), stream.read(65536) or b"")[1]
        lines = told.decode().splitlines()
        dropped = [int(it.split()[2]) for it in lines if it.startswith("acqd: dropped ")]
        lines = [it for it in lines if not it.startswith("acqd: dropped ")]
        wanted("lines that say what was dropped", len(dropped), 1)
        wanted("faults", set(lines), {"acqd: 50 BadLength"})
        wanted("faults that were told or dropped", len(lines) + dropped[0], count + 1)


def closed_descriptors(program, mode):
    """Where it is begun without its three streams, no connection takes their place."""
    with Book(program) as book, Host(book, *mode) as host:
        host.end(signal.SIGKILL)
        host.words = ["/bin/sh", "-c", 'exec "$0" "$@" <&- >&- 2>&-', *host.words]
        host.begin()
        first = host.terminal()
        wanted("a terminal", first.is_served(), True)
        if mode:
            host.terminal(BAD).end.close()
        else:
            first.send(BAD)
        time.sleep(0.5)
        streams = [os.readlink(f"/proc/{host.process.pid}/fd/{it}") for it in range(3)]
        wanted("the streams", streams, ["/dev/null"] * 3)
        wanted("what comes to a terminal in their place", first.more(0.5), False)


def stopped_and_continued(program):
    """A stop of the program ends no connection that waits, between frames or inside one."""
    with Book(program) as book, Host(book, "--idle", "30") as host:
        terminal = host.terminal()
        wanted("a terminal", terminal.is_served(), True)
        for sent in (b"", ECHO[:9]):
            terminal.send(sent)
            time.sleep(0.3)
            host.hold_still()
            time.sleep(0.3)
            host.go_on()
            time.sleep(0.3)
            wanted("a reply behind a stop", terminal.ask(ECHO[len(sent) :]), REPLY)
        wanted("faults", host.faults(), [])


def a_reset(program, mode):
    """A connection that its client resets, inside a frame or behind one, ends alone."""
    with Book(program) as book, Host(book, *mode) as host:
        for sent in (ECHO[:9], ECHO, ECHO + ECHO[:1]):
            terminal = host.terminal(sent)
            if sent.startswith(ECHO):
                terminal.has_come()
            else:
                time.sleep(0.1)
            terminal.reset()
        wanted("terminals behind it", [host.terminal().is_served() for _ in range(3)], [True] * 3)
        wanted("the host", host.process.poll(), None)
        wanted("faults", set(host.faults()) - {READ, ENDED}, set())


def another_address(program, mode):
    """With an address it listens there, and nowhere else; without one at 127.0.0.1 alone."""
    with Book(program) as book, Book(program) as second:
        with Host(book, "--address", "127.0.0.2", *mode) as host, Host(second, *mode) as usual:
            with host.terminal(address="127.0.0.2") as there, usual.terminal() as here:
                wanted("terminals", (there.is_served(), here.is_served()), (True, True))
            others = host.is_at("127.0.0.1"), usual.is_at("127.0.0.2")
            wanted("other addresses", others, (False, False))


TRIES = [room_for_one, a_bad_frame_holds_up_nobody, stopped_and_continued]
TRIES += [(a_slow_frame_in_time, it) for it in ([], ["--together", "1"], ["--together", "2"])]
IN_BOTH_MODES = [
    drips, no_descriptors, replies_before_a_bad_frame, nobody_reads_the_faults, closed_descriptors,
    a_reset, another_address,
]
TRIES += [(it, mode) for it in IN_BOTH_MODES for mode in MODES]

if __name__ == "__main__":
    sys.exit(main(TRIES))
