#!/usr/bin/env python3
"""limits.py PROGRAM: how long a terminal may hold its place, that two hundred have places of their
own, and that `stop` cuts off no reply; over real sockets, one by one and many at once."""
import concurrent.futures
import random
import sqlite3
import sys
import time

from terminal import (
    ECHO, MODES, READ, REPLY, Book, Host, Wrong, approved, elements_of, log_lines, main,
    merchant, pieces, sale, size, split_frames, wanted,
)

IDLE = 3
# The merchant of who reads nothing.
DEAF = 5
# What one clock shows before another one does.
EARLY = 0.1


def silence(program, mode):
    """A connection that is silent is ended after the time of `--idle`, and not before: before its
    first byte, behind a reply, and inside a frame, for which there is more time."""
    words = [*mode, "--idle", str(IDLE), "--frame-within", "60"]
    cases = [("nothing", b""), ("a frame", ECHO), ("a frame and a half", ECHO + ECHO[:9])]
    with Book(program) as book, Host(book, *words) as host:
        for what, sent in cases:
            terminal, began = host.terminal(), time.monotonic()
            if sent:
                time.sleep(IDLE / 3)
                terminal.send(sent)
                began = time.monotonic()
            wanted(f"what one that sends {what} gets", terminal.rest(), REPLY if sent else b"")
            if (took := time.monotonic() - began) < IDLE - EARLY:
                raise Wrong(f"one that sends {what} is ended after {took:.2f} seconds")
        wanted("who comes behind it", host.terminal().is_served(), True)
        wanted("faults", host.faults(), [READ] * 3)


def who_talks_stays(program, mode):
    """A connection that is silent for less than that each time stays, longer than that in all."""
    with Book(program) as book, Host(book, *mode, "--idle", str(IDLE)) as host:
        end = host.terminal()
        for _ in range(6):
            wanted("who talks", end.is_served(), True)
            time.sleep(IDLE / 3)
        wanted("faults", host.faults(), [])


def who_reads_nothing(program, mode):
    """A client that takes nothing of its replies is cut off after that time, and others are
    served."""
    with Book(program) as book, Host(book, *mode, "--idle", str(IDLE)) as host:
        deaf = host.terminal(room=2048)
        deaf.send_until_full(ECHO)
        host.fault_within("acqd: 54 Write ")
        wanted("who comes behind it", host.terminal().is_served(), True)
        wanted("the host", host.process.poll(), None)


def a_place_each(program):
    """Two hundred terminals have a place each, and each gets its own replies, again and again."""
    places, chance = size(200), random.Random(8583)
    with Book(program, merchants=range(places)) as book:
        with Host(book, "--together", str(places)) as host:
            ends = [host.terminal() for _ in range(places)]
            for trace in (1, 2, 3):
                sent = [pieces(sale(k, trace), chance) for k in range(places)]
                while any(now := [next(it, b"") for it in sent]):
                    for end, piece in zip(ends, now):
                        end.send(piece)
                for k, end in enumerate(ends):
                    what = f"reply {trace} to terminal {k} of {places}"
                    wanted(what, end.reply(), approved(k, trace))
            wanted("faults", host.faults(), [])


class Stopped:
    """The so-manieth terminal of a host that is stopped, and all that came to it."""

    def __init__(self, number, terminal):
        self.name, self.terminal, self.came = str(number), terminal, b""

    def read(self):
        """Reads on, late and slowly at first, until the connection ends."""
        for _ in range(10):
            time.sleep(0.05)
            self.terminal.more(0)
        self.came = self.terminal.rest()

    def replies(self, what, lines):
        """The replies, which are whole, and those of which the log has a line."""
        frames, half = split_frames(self.came)
        wanted(f"half a reply to {what}", half, b"")
        own = [it for it in lines if it["event"] == "reply" and it["connection"] == self.name]
        logged = [it["trace"] for it in own]
        wanted(f"replies to {what}", [elements_of(it)[11] for it in frames], logged)
        return frames


def sales(k, first, count):
    return b"".join(sale(k, it) for it in range(first, first + count))


def served(host, k, behind=b""):
    """A terminal that had a reply, and what it sent behind that."""
    terminal = host.terminal(sale(k, 1))
    wanted("a reply before a stop", terminal.reply(), approved(k, 1))
    terminal.held += approved(k, 1)  # all that comes to it is looked at in the end
    terminal.send(behind)
    return terminal


def deaf(host):
    """A terminal that stopped reading, so that the host can't write a reply whole; the host has
    read all that it sent, and has some of its sales still to take."""
    terminal, sent, taken, few = host.terminal(room=2048), 0, 0, 8
    control = host.control()
    with control.end, open(host.log_path, encoding="latin-1") as log:
        while taken == sent:
            terminal.send(sales(DEAF, sent + 1, few))
            sent += few
            while (taken := replies_until(control, sent, taken, log)) == sent - few:
                # The reply before these can't be written yet, and so they weren't read.
                for _ in range(10):
                    terminal.more(0.1)
    return terminal


def replies_until(control, most, count, log):
    """How many replies to it the log has: so many, or else as many as before for three seconds in
    which the host answered a hundred lines of a control connection. Between any two it gives each
    terminal a round, so it waits for this one, however slow the machine is."""
    answered, until = 0, time.monotonic() + 3
    while count < most and (answered < 100 or time.monotonic() < until):
        control.ask("status")
        time.sleep(0.01)
        more = log.read().count(merchant(DEAF))
        answered, until = (0, time.monotonic() + 3) if more else (answered + 1, until)
        count += more
    return count


def who_sends_on(host):
    """One that reads nothing, of which more is on its way, though less than is read away of a
    connection that is parted with."""
    terminal = deaf(host)
    terminal.send(sales(DEAF, 100_000, 200))
    return terminal


def stop(program, mode):
    """`stop` beside terminals in every state."""
    states = {"one that reads late": deaf}
    if mode:
        states |= {"an idle one": lambda host: served(host, 1),
                   "one inside a frame": lambda host: served(host, 2, sale(2, 2)[:-9]),
                   "one that is silent": lambda host: host.terminal()}
    stop_beside(program, mode, states)


def stop_beside_who_sends_on(program, mode):
    """`stop` beside terminals that read late, and of which more is on its way."""
    states = {"one that sends on": who_sends_on}
    if mode:
        states |= {"one with many sales": lambda host: served(host, 3, sales(3, 2, 400)),
                   "another with many sales": lambda host: served(host, 4, sales(4, 2, 400))}
    stop_beside(program, mode, states)


def stop_beside(program, mode, states):
    """Each reply to a message that was taken arrives whole, nothing waits for its issuer, and the
    status is 0."""
    with Book(program, merchants=range(1, DEAF + 1)) as book:
        with Host(book, *mode, "--idle", "0", control=True, log=True) as host:
            numbered = enumerate(states.items(), 1)
            stopped = {what: Stopped(number, made(host)) for number, (what, made) in numbered}
            wanted("the answer to stop", host.tell("stop"), "stopping\n")
            with concurrent.futures.ThreadPoolExecutor(len(stopped)) as pool:
                for it in [pool.submit(it.read) for it in stopped.values()]:
                    it.result()
            status, faults = host.ends()
            cut_off = [it for it in faults if " 54 " in it]
            wanted("the end of a host that was stopped", (status, cut_off), (0, []))
            lines = log_lines(host.log())
            replies = [it for what in stopped for it in stopped[what].replies(what, lines)]
            look_into_book(book, replies)


def look_into_book(book, frames):
    """The sales that the book has are those that were answered, by the replies that it has, and
    nothing waits."""
    wanted("what waits behind a stop", book.output("pending"), "")
    rows = sqlite3.connect(book.copy(f"{book.folder}/copy.db"))
    taken = dict(rows.execute("SELECT merchant || trace, reply FROM requests"))
    rows.close()
    read = [(elements_of(it), it[2:].decode()) for it in frames]
    told = {it[42] + it[11]: text for it, text in read}
    wanted("replies to sales", told, taken)


TRIES = [(it, mode) for it in (silence, who_talks_stays, who_reads_nothing) for mode in MODES]
TRIES += [a_place_each, *((it, mode) for it in (stop, stop_beside_who_sends_on) for mode in MODES)]

if __name__ == "__main__":
    sys.exit(main(TRIES, at_once=4))
