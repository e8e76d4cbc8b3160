#!/usr/bin/env python3
"""failing_calls.py PROGRAM: reads and writes that are short, fail or are interrupted, at each place
in turn, and who comes behind them; a log and a standard error that take nothing for a while.

A small library, loaded before the program, has its calls go so (calls.c). Without a C compiler only
what needs none is tried."""
import errno
import os
import re
import resource
import select
import subprocess
import sys
import time

from calls import Calls, if_compiled
from terminal import (
    APPROVING, BAD, DECLINED, ECHO, MODES, MOMENT, PATIENCE, READ, REPLY, Book, Host, approved,
    main, merchant, message, request, run, sale, size, wanted, when,
)

ISSUERS = f"{APPROVING}{DECLINED},approved,H00001\n"
# How many bytes a read gives at most, and a write takes.
PIECE, TAKEN = 97, 10
# A message with an element that isn't in the profile.
OTHER_ELEMENT = message("0800", {11: "000001", 65: "1", 70: "301"})
COUNTS = {it: "0" * 10 for it in range(74, 78)}
AMOUNTS = {it: "0" * 16 for it in range(86, 90)}


# The frames of two days, of each merchant the same, and the replies to them.


def first_frames(k):
    """A sale, its reversal, a hold and its completion."""
    original = f"02000000010501093000{'0' * 22}"
    return [
        sale(k),
        request("0420", k, 3, {4: f"{1000:012d}", 90: original}, e7="0501093100"),
        sale(k, trace=20, kind="0100", card=DECLINED, amount=5000),
        request("0220", k, 21, {3: "000000", 4: f"{5000:012d}", 37: f"{2:012d}", 49: "978"},
                e7="0502093000"),
    ]


def first_replies(k):
    hold = {"kind": "0110", "card": DECLINED, "e37": f"{2:012d}", "e38": "H00001"}
    said = {15: "0501", 39: "00"}
    reversed_of = {**said, 4: f"{1000:012d}", 37: f"{1:012d}"}
    completed = {**said, 3: "000000", 4: f"{5000:012d}", 37: f"{2:012d}", 49: "978"}
    return [
        approved(k),
        request("0430", k, 3, reversed_of, e7="0501093100"),
        approved(k, trace=20, amount=5000, **hold),
        request("0230", k, 21, completed, e7="0502093000"),
    ]


def reconciliation(kind, k, trace, net, **elements):
    own = {**COUNTS, **AMOUNTS, 97: net}
    return request(kind, k, trace, own, e7="0502100000", **elements)


def second_frame(k):
    return reconciliation("0500", k, 40, f"D{0:016d}")


def second_reply(k):
    said = {"e15": "0502", "e39": "00", "e66": "1"}
    return reconciliation("0510", k, 40, f"C{0:016d}", **said)


def listening(book, calls, *mode):
    """A host whose calls go so."""
    return Host(book, *mode, issuers=ISSUERS, env=calls.environment)


def asked(host, sent):
    """What comes to a terminal that sends this and no more, until the end."""
    with host.terminal(sent) as terminal:
        return terminal.finish()


def cut_off(host, calls, sent, **how):
    """What comes to a terminal on whose connection calls go so."""
    calls.next(**how)
    try:
        with host.terminal(sent) as terminal:
            return terminal.rest()
    finally:
        calls.as_they_are()


def whole_behind(host, k):
    """The next connection of a merchant gets all replies of the first day."""
    what = f"replies of the first day, sent again, to {merchant(k)}"
    wanted(what, asked(host, b"".join(first_frames(k))), b"".join(first_replies(k)))


def second_days(book, calls, mode, merchants):
    """Behind a cutover each merchant's reconciliation is in balance."""
    calls.as_they_are()
    wanted("a cutover", book.output("replay", given=f"cutover,{MOMENT},,,,\n"), "done\n")
    with listening(book, calls, *mode) as host, host.terminal() as terminal:
        for k in merchants:
            what = f"the reply of the second day to {merchant(k)}"
            wanted(what, terminal.ask(second_frame(k)), second_reply(k))


def whole_frames(frames, count):
    """How many frames are whole in so many bytes."""
    ends = [sum(map(len, frames[: it + 1])) for it in range(len(frames))]
    return len([it for it in ends if it <= count])


def reads_that_fail(program, mode):
    """If a read fails, each frame that came whole has its reply, and the next connection gets
    all."""
    count = len(b"".join(first_frames(0)))
    reads = -(-count // PIECE) + 1
    with Book(program, range(reads)) as book, Calls() as calls:
        with listening(book, calls, *mode) as host:
            for k in range(reads):
                frames, replies = first_frames(k), first_replies(k)
                came = cut_off(host, calls, b"".join(frames), piece=PIECE, reads=k,
                               fault=errno.EIO)
                whole = whole_frames(frames, k * PIECE)
                wanted(f"replies before read {k} fails", came, b"".join(replies[:whole]))
                whole_behind(host, k)
            calls.next(piece=PIECE, reads=reads, fault=errno.EIO)
            whole_behind(host, 0)
            wanted("faults", host.faults(), [READ] * reads)
            host.end()
        second_days(book, calls, mode, range(reads))


def written_of_one(replies, room):
    """How many bytes of the last reply are out, if so many of all are."""
    before = sum(map(len, replies[: whole_frames(replies, room)]))
    return room - before


def writes_that_fail(program, mode):
    """If a write fails, as much as the fault's line says of the last reply is out, and the next
    connection gets all."""
    whole = len(b"".join(first_replies(0)))
    rooms = range(0, whole, -(-whole // size(whole)))
    with Book(program, rooms) as book, Calls() as calls:
        with listening(book, calls, *mode) as host:
            for k in rooms:
                frames, replies = b"".join(first_frames(k)), first_replies(k)
                fault = 0 if k % 2 else errno.EPIPE
                came = cut_off(host, calls, frames, taken=TAKEN, room=k, fault=fault)
                wanted(f"what comes if there is room for {k}", came, b"".join(replies)[:k])
                whole_behind(host, k)
            said = [f"acqd: 54 Write {written_of_one(first_replies(k), k)}" for k in rooms]
            wanted("faults", host.faults(), said)
            host.end()
        second_days(book, calls, mode, rooms)


def a_cut_reply(program, mode):
    """Of the reply to a sale ten bytes go out. On the next connection the sale's repeat gets all of
    it, and the day has one posting."""
    one = {"e76": f"{1:010d}", "e88": f"{1000:016d}", "e7": "0501100000"}
    net = f"D{1000:016d}"
    own = {**COUNTS, **AMOUNTS, 97: net}
    claim = request("0500", 1, 10, own, e15="0501", **one)
    balanced = request("0510", 1, 10, own, e15="0501", e39="00", e66="1", **one)
    with Book(program) as book, Calls() as calls:
        with listening(book, calls, *mode, "--count", "3") as host:
            came = cut_off(host, calls, sale(), room=10)
            wanted("ten bytes of a reply", came, approved()[:10])
            wanted("the reply to a repeat", asked(host, sale(kind="0201")), approved())
            wanted("the reply to a claim of one sale", asked(host, claim), balanced)
            wanted("the end", host.ends(), (0, ["acqd: 54 Write 10"]))


# Calls that a signal interrupts.


def once(program, calls, given):
    return run([program, "once"], given, env=calls.environment)


def interrupted(program):
    """An interrupted read of `once` fails it, and so does an interrupted write: what was taken
    before is answered, and what was written is counted."""
    sent, replies, piece = ECHO * 3, REPLY * 3, 50
    with Calls() as calls:
        for reads in range(-(-len(sent) // piece) + 1):
            calls.next(piece=piece, reads=reads, fault=errno.EINTR)
            whole = reads * piece // len(ECHO)
            wants = (1, REPLY * whole, f"{READ}\n")
            wanted(f"what read {reads} leaves", once(program, calls, sent), wants)
        calls.next(piece=piece, reads=reads + 1, fault=errno.EINTR)
        wanted("what no read leaves", once(program, calls, sent), (0, replies, ""))
        for room in (0, 1, 2, 7, len(REPLY) - 1, len(REPLY), len(REPLY) + 1, len(replies) - 1):
            calls.next(taken=1, room=room, fault=errno.EINTR)
            wants = (1, replies[:room], f"acqd: 54 Write {room % len(REPLY)}\n")
            wanted(f"what room for {room} leaves", once(program, calls, sent), wants)


def interrupted_connections(program):
    """A call on a connection that is served alone is made again if a signal interrupts it."""
    frames, replies = b"".join(first_frames(1)), b"".join(first_replies(1))
    with Book(program) as book, Calls() as calls, listening(book, calls) as host:
        for place in range(6):
            for how in ({"reads": place}, {"room": place * TAKEN}):
                calls.next(piece=PIECE, taken=TAKEN, fault=errno.EINTR, **how)
                wanted(f"replies with {how}", asked(host, frames), replies)
        wanted("faults", host.faults(), [])


def a_reply_before_more(program, kept):
    """`once` writes a reply before it reads on, over a book in memory and over one that is kept in
    a file: each frame is sent behind the reply before it."""
    with Book(program) as book:
        issuers = ["--issuers", book.file("issuers.csv", ISSUERS)]
        words = book.words("once", *issuers) if kept else [program, "once", *issuers]
        pipe = subprocess.PIPE
        with subprocess.Popen(words, stdin=pipe, stdout=pipe, stderr=pipe, bufsize=0) as ran:
            try:
                for count in range(3):
                    ran.stdin.write(ECHO)
                    wanted(f"reply {count}", read_of(ran.stdout, len(REPLY)), REPLY)
                out, faults = ran.communicate(timeout=PATIENCE)
                wanted("the end", (ran.returncode, out, faults), (0, b"", b""))
            finally:
                ran.kill()


def read_of(stream, count):
    """So many bytes of a stream, or what came of them in time or before the end."""
    came, until = b"", time.monotonic() + PATIENCE
    while len(came) < count:
        if not select.select([stream], [], [], max(until - time.monotonic(), 0))[0]:
            break
        more = os.read(stream.fileno(), count - len(came))
        if not more:
            break
        came += more
    return came


# What takes nothing for a while.


class FullPipe:
    """A pipe that takes nothing until it is read out."""

    def __init__(self):
        self.reader, self.writer = os.pipe()
        os.set_blocking(self.reader, False)
        # Another opening, since whether a write waits is a matter of that.
        filler = os.open(f"/proc/self/fd/{self.writer}", os.O_WRONLY | os.O_NONBLOCK)
        try:
            while True:
                os.write(filler, b"x" * 4096)
        except BlockingIOError:
            os.close(filler)

    def __enter__(self):
        return self

    def __exit__(self, *_):
        os.close(self.reader)
        os.close(self.writer)

    def read_out(self):
        """All that stands in it, but what it was filled with."""
        came = b""
        try:
            while more := os.read(self.reader, 65536):
                came += more
        except BlockingIOError:
            pass
        return came.lstrip(b"x").decode()


def told_behind(host, sent):
    """Sends a frame that ends its connection by a fault, which is told once another terminal is
    served."""
    with host.terminal(sent) as terminal:
        terminal.finish()
    with host.terminal() as terminal:
        wanted("who comes behind a fault", terminal.is_served(), True)


def faults_that_nobody_reads(program, mode):
    """Fault lines of a host that standard error doesn't take are dropped whole, and counted before
    the next one that it takes."""
    with Book(program) as book, FullPipe() as pipe, Host(book, *mode, stderr=pipe.writer) as host:
        for sent in (BAD, ECHO[:9]):
            told_behind(host, sent)
        wanted("what a full pipe took", pipe.read_out(), "")
        for sent in (OTHER_ELEMENT, BAD):
            told_behind(host, sent)
        said = "acqd: dropped 2 lines\nacqd: 52 Undecodable 4 65\nacqd: 50 BadLength\n"
        wanted("what it took then", pipe.read_out(), said)


def a_fault_that_waits(program):
    """The fault line of a command that serves no connections isn't dropped: it waits."""
    with FullPipe() as pipe:
        how = {"stdin": subprocess.PIPE, "stdout": subprocess.PIPE, "stderr": pipe.writer}
        with subprocess.Popen([program, "once"], bufsize=0, **how) as ran:
            try:
                ran.stdin.write(BAD)
                ran.stdin.close()
                # Where it comes to its line later than that it waits for nothing.
                until = time.monotonic() + 2
                while time.monotonic() < until and ran.poll() is None:
                    time.sleep(0.01)
                wanted("the status of one that waits", ran.poll(), None)
                said = pipe.read_out()
                wanted("the status", ran.wait(PATIENCE), 1)
                wanted("what the pipe took", said + pipe.read_out(), "acqd: 50 BadLength\n")
            finally:
                ran.kill()


def timeless(text):
    """Lines of a log without what differs from run to run."""
    text = re.sub("(?m)^time=[0-9TZ:-]{20} ", "", text)
    return re.sub("(microseconds)=[0-9]+", r"\1=N", text)


def a_full_log(program):
    """A file takes a piece of a line, and then none: the lost lines are counted, and told on a line
    of its own once there is room."""
    # (where a limit is met no signal comes)
    how = {"control": True, "log": True, "restore_signals": False}
    with Book(program) as book, Host(book, "--together", "8", **how) as host:
        control, stays = host.control(), host.terminal()
        wanted("an answer", control.ask("nothing"), "acqd: 62 BadLine 1")
        wanted("a terminal", stays.is_served(), True)
        before, room = host.log(), len("time=2026-11-27T01:02:03Z event=opened con")
        end = len(before) + room
        limit = resource.prlimit(host.process.pid, resource.RLIMIT_FSIZE)
        resource.prlimit(host.process.pid, resource.RLIMIT_FSIZE, (end, limit[1]))
        with host.terminal(ECHO) as leaves:
            wanted("replies beside a full log", leaves.finish(), REPLY)
        wanted("a terminal beside a full log", stays.is_served(), True)
        piece = host.log()[len(before) :]
        wanted("the piece of a line", (len(piece), timeless(piece)), (room, "event=opened con"))
        resource.prlimit(host.process.pid, resource.RLIMIT_FSIZE, limit)
        wanted("the answer to reopen", control.ask("reopen"), "reopening")
        when("the log is not reopened", lambda: "event=reopened" in host.log())
        said = "\nevent=lost lines=4\nevent=line connection=control-1 word=reopen microseconds=N\n"
        wanted("what comes then", timeless(host.log()[end:]), f"{said}event=reopened\n")
        lost = re.findall(rb"(?m)^log_lines_lost_total ([0-9]+)$", control.ask("status"))
        wanted("lost lines", lost, [b"4"])


IN_BOTH_MODES = [reads_that_fail, writes_that_fail, a_cut_reply]
TRIES = if_compiled([(it, mode) for it in IN_BOTH_MODES for mode in MODES])
TRIES += if_compiled([interrupted, interrupted_connections])
TRIES += [(a_reply_before_more, it) for it in ([], ["kept"])]
TRIES += [(faults_that_nobody_reads, mode) for mode in MODES]
TRIES += [a_fault_that_waits, a_full_log]

if __name__ == "__main__":
    sys.exit(main(TRIES, at_once=4))
