#!/usr/bin/env python3
"""clocks.py PROGRAM: what the program makes of the machine's clocks: moments, the whole lines of a
host's log, how many of them a second has, and how far a long run is.

A small library, loaded before the program, has its clocks show what a try says (calls.c). Without a
C compiler nothing is tried."""
import errno
import os
import re
import select
import subprocess
import sys
import tempfile
from collections import Counter

from calls import Calls, if_compiled
from terminal import (
    BAD, CARD, DAY, ECHO, MOMENT, PATIENCE, READ, REPLY, Book, Host, Wrong, main, message, request,
    run, sale, wanted, when,
)

FIRST, LAST = 946684800, 4102444799
# What a clock shows, and the moment that it is; `None` can't be read, and before 1970 nothing is.
MOMENTS = [
    (0, FIRST), (FIRST - 1, FIRST), (FIRST, FIRST), (MOMENT, MOMENT), (LAST, LAST),
    (LAST + 1, LAST), (2**63 - 1, LAST), (-1, FIRST), (None, FIRST),
]
# 2026-11-27 at 01:02:03, and how a line begins that is written then.
NOW, TIME = 1795741323, "time=2026-11-27T01:02:03Z "
# By how many microseconds a clock goes on behind each look, and how often a message is looked at.
STEP, LOOKS = 153, 100
TIMES = "microseconds=N total_microseconds=N"
# A card whose check digit is wrong, and one of twelve digits that no issuer has.
NO_CARD, SHORT = "4111111111111112", "411111111117"
OTHER_LINE = "event=line connection=control-1 word=other"
ELEMENT_65 = '"a frame spells no message: element 65 is not in the profile"'
LENGTH = '"a frame\'s length is 0 or above 4096"'
# What may stand behind these of the bad frame itself, which `logs.py` has its own tries for.
FRAME = re.compile("( (length|element|first)=[0-9a-f.]+)+$")


def moments(program):
    """A moment is the clock's second, or the nearest one of the years 2000 to 2099; of a command
    that takes it once, and of a host at each line."""
    line = "answer,{},MERCHANT0000001,000000000001,none,\n".format
    with Book(program) as book, Calls() as calls:
        book.output("replay", given=f"frame,{MOMENT},{sale()[2:].hex()},,,\n")
        calls.since_1970(LAST + 1)
        said = run(book.words("pending"), env=calls.environment)
        wanted(f"the moment of a command at {LAST + 1}", said, (0, line(LAST).encode(), ""))
        with Host(book, control=True, at=None, env=calls.environment) as host:
            for shown, moment in MOMENTS:
                calls.since_1970(shown)
                said = host.tell(f"pending,{DAY}")
                wanted(f"the moment of a line at {shown}", said, line(moment))


# Lines of a host's log.


def host_of(book, calls, *words):
    """A host by these clocks, with a log, at which nobody is silent too long."""
    how = {"control": True, "log": True, "env": calls.environment}
    return Host(book, "--together", "8", "--idle", "0", *words, **how)


def peer(terminal):
    """What a line calls a terminal."""
    return f"peer=127.0.0.1:{terminal.end.getsockname()[1]}"


def numbered(line):
    """A line of the log with `N` for each of its times, which a clock in steps shows."""
    found = [int(it) for it in re.findall("microseconds=([0-9]+)", line)]
    looks = [it // STEP for it in found if it % STEP == 0 and it // STEP in range(1, LOOKS)]
    if len(looks) != len(found) or looks != sorted(looks):
        raise Wrong(f"times of {line!r}, by a clock that goes on by {STEP} at each look")
    return re.sub("microseconds=[0-9]+", "microseconds=N", line)


def has_lines(host, lines):
    """The log has these lines, and no others."""
    when(f"no {len(lines)} lines", lambda: host.log().count("\n") >= len(lines))
    said = [FRAME.sub("", numbered(it)) for it in host.log().splitlines()]
    for came, line in zip(said, lines):
        wanted("a line of the log", came, line)
    wanted("lines of the log", len(said), len(lines))


def replies_to(terminal):
    """Sends a sale; a return of a merchant whose name has quotes and a comma; a sale by a card that
    isn't valid, with tracks; and one by a short card. Their lines: of a card number the mask,
    unless it isn't valid or is short; of tracks nothing."""
    shoes = {"e3": "200000", "e2": None, "e35": f"{CARD}=30121", "e41": "TERM 2  "}
    tracks = {"e35": f"{NO_CARD}=291214111111", "e45": f"B{CARD}^^2912"}
    sales = [
        sale(), sale(trace=2, amount=0, e42='"SHOES", BAGS 1', **shoes),
        sale(trace=3, card=NO_CARD, **tracks), sale(trace=4, card=SHORT),
    ]
    for it in sales:
        terminal.ask(it)
    shop, times = "merchant=MERCHANT0000001 terminal=TERM0001", TIMES
    said = [
        f"processing=000000 {shop} trace=000001 reference=000000000001 code=00 amount=1000"
        f" card=411111******1111 {times}",
        'processing=200000 merchant="\\"SHOES\\", BAGS 1" terminal="TERM 2  " trace=000002 code=03'
        f" amount=0 why=merchant {times}",
        f"processing=000000 {shop} trace=000003 code=14 amount=1000 why=card {times}",
        f"processing=000000 {shop} trace=000004 reference=000000000002 code=91 amount=1000"
        f" why=no-answer {times}",
    ]
    return [f"{TIME}event=reply connection=1 {peer(terminal)} type=0210 {it}" for it in said]


def unanswered(host, terminal, control):
    """Messages that get no reply: a type that isn't served, a repeat of a sale that waits for its
    issuer, and one of a sale that was reversed meanwhile. Their lines, and those beside them."""
    for trace in (12, 13):
        control.ask(f"frame,now,{sale(trace=trace)[2:].hex()},,,")
    original = f"02000000130501093000{'0' * 22}"
    terminal.ask(request("0400", 1, 15, {4: f"{1000:012d}", 90: original}))
    sent = message("0600", {7: "0501093000", 11: "000014"}) + sale(trace=12, kind="0201")
    wanted("an echo", terminal.ask(sent + sale(trace=13) + ECHO), REPLY)
    asked = f"{TIME}event=line connection=control-1 word=frame microseconds=N"
    reply = f"{TIME}event=reply connection=1 {peer(terminal)} type="
    none = f"{TIME}event=unanswered connection=1 {peer(terminal)} type="
    return [
        asked, asked,
        f"{reply}0410 merchant=MERCHANT0000001 terminal=TERM0001 trace=000015"
        f" reference=000000000004 code=00 amount=1000 {TIMES}",
        f"{none}0600 why=unserved", f"{none}0201 why=waiting", f"{none}0200 why=late",
        f"{reply}0810 trace=000001 code=00 {TIMES}",
    ]


def ended(host, number, sent, reason):
    """A connection of this number that ends so by what is sent; its lines."""
    with host.terminal(sent) as terminal:
        terminal.finish()
        name = f"connection={number} {peer(terminal)}"
    return [f"{TIME}event=opened {name}", f"{TIME}event=closed {name}{reason}"]


def whole_lines(program):
    """What stands in each line: of replies, of messages that get none, of control connections, and
    of ends."""
    element = message("0800", {11: "000001", 65: "1", 70: "301"})
    with Book(program) as book, Calls() as calls:
        calls.since_1970(NOW)
        calls.monotonic(5, step=STEP)
        with host_of(book, calls) as host, host.terminal() as first:
            wanted("a terminal", first.is_served(), True)
            opened = f"{TIME}event=opened connection="
            reply = f"event=reply connection=1 {peer(first)} type=0810"
            lines = [
                f"{TIME}event=listening address=127.0.0.1:{host.port} day={DAY}",
                f"{opened}1 {peer(first)}", f"{TIME}{reply} trace=000001 code=00 {TIMES}",
            ]
            lines += replies_to(first)
            control = host.control()
            wanted("an answer", control.ask("nothing"), "acqd: 62 BadLine 1")
            lines += [f"{opened}control-1", f"{TIME}{OTHER_LINE} fault=62 microseconds=N"]
            lines += unanswered(host, first, control)
            lines += ended(host, 2, b"", "")
            lines += ended(host, 3, element, f" fault=52 reason={ELEMENT_65}")
            lines += ended(host, 4, BAD, f" fault=50 reason={LENGTH}")
            lines += ended(host, 5, ECHO[:9], ' fault=51 reason="the input ended inside a frame"')
            has_lines(host, lines)


def ends_of_the_host(program):
    """What the lines say of connections that were late, or whose write failed, or that the host
    ended."""
    words = ["--frame-within", "1", "--stop-within", "1"]
    late, names = '53 reason="it was silent, or took for a frame, too long"', []
    with Book(program) as book, Calls() as calls, host_of(book, calls, *words) as host:
        control = host.control()
        wanted("a line", control.ask("nothing"), "acqd: 62 BadLine 1")
        with host.terminal(ECHO[:9]) as first:
            names.append(peer(first))
            wanted("what comes to one that is late", first.rest(), b"")
        calls.next(room=10, fault=errno.EPIPE)
        with host.terminal(ECHO) as second:
            names.append(peer(second))
            wanted("what comes before a write fails", second.rest(), REPLY[:10])
        calls.next(room=10, fault=errno.EAGAIN)
        with host.terminal(ECHO) as third:
            names.append(peer(third))
            third.has_come()
            calls.as_they_are()
            control.end.close()
            wanted("the answer to stop", host.tell("stop"), "stopping\n")
            status, faults = host.ends()
            # (a control connection may be cut off, too)
            said = [READ, *["acqd: 54 Write 10"] * 2]
            wanted("the end", (status, faults[:3], set(faults[3:]) - {READ}), (0, said, set()))
        reasons = [late, '54 reason="a write failed"', '54 reason="the host ended"']
        wants = [f"closed connection={1 + k} {names[k]} fault={reasons[k]}" for k in range(3)]
        lines = re.findall("(?m)event=(closed connection=[0-9].*)$", host.log())
        wanted("lines of ends", lines, wants)


def lines_without_clocks(program):
    """A line has no time if the clock can't be read, or shows none of the years 2000 to 2099; no
    microseconds without the other clock; and none is left out. The line of the beginning has no
    address where the system doesn't give it."""
    edges = [(FIRST - 1, ""), (FIRST, "time=2000-01-01T00:00:00Z "), (LAST + 1, "")]
    edges += [(LAST, "time=2099-12-31T23:59:59Z "), (2**63 - 1, ""), (-1, ""), (None, "")]
    with Book(program) as book, Calls() as calls:
        calls.since_1970(NOW)
        calls.monotonic(None)
        calls.no_names()
        with host_of(book, calls) as host:
            when("no first line", lambda: os.path.exists(host.log_path) and host.log())
            lines = [f"{TIME}event=listening day={DAY}"]
            calls.since_1970(None)
            control = host.control()
            wanted("an answer", control.ask(f"cutover,{MOMENT},,,,"), "done")
            named = "event=line connection=control-1 word=cutover"
            lines += ["event=opened connection=control-1", named]
            for shown, time in edges:
                calls.since_1970(shown)
                wanted("an answer", control.ask("nothing").split(" ")[1], "62")
                lines.append(f"{time}{OTHER_LINE} fault=62")
            with host.terminal(ECHO * 130) as terminal:
                wanted("replies", terminal.finish(), REPLY * 130)
                lines.append(f"event=opened connection=1 {peer(terminal)}")
                name = f"connection=1 {peer(terminal)}"
                lines += [f"event=reply {name} type=0810 trace=000001 code=00"] * 130
            has_lines(host, [*lines, f"event=closed {name}"])


def a_flood(program):
    """Of connections that begin, of echoes and of what is refused a second has a hundred lines
    each; the next one says how many were left out."""
    unserved = message("0600", {7: "0501093000", 11: "000014"})
    with Book(program) as book, Calls() as calls:
        calls.since_1970(NOW)
        with host_of(book, calls) as host, host.terminal() as stays:
            name = f"connection=1 {peer(stays)}"
            stays.send(ECHO * 130)
            wanted("echoes", [stays.reply() for _ in range(130)], [REPLY] * 130)
            wanted("an echo behind what isn't served", stays.ask(unserved * 105 + ECHO), REPLY)
            for _ in range(249):
                with host.terminal() as leaves:
                    leaves.finish()
            calls.since_1970(NOW + 1)
            stays.finish()
            when("the last line", lambda: host.log().endswith(f"closed {name}\n"))
            said = host.log().splitlines()
        events = Counter(re.findall("event=([a-z-]+)", "".join(said)))
        wants = {"listening": 1, "opened": 100, "reply": 100, "unanswered": 100, "closed": 250}
        wanted("lines", events, {**wants, "left-out": 1})
        later = TIME.replace(":03Z", ":04Z")
        last = [f"{later}event=left-out opened=150 echoes=31 refused=5",
                f"{later}event=closed {name}"]
        wanted("the last lines", said[-2:], last)


class Screen:
    """A terminal that a program's standard error goes to."""

    END = b"the end"

    def __init__(self):
        self.reader, self.writer = os.openpty()

    def __enter__(self):
        return self

    def __exit__(self, *_):
        os.close(self.reader)
        os.close(self.writer)

    def shown(self):
        """All that was written to it, once nobody else writes."""
        os.write(self.writer, self.END)
        came = b""
        while not came.endswith(self.END):
            came += read_of(self.reader)
        return came[: -len(self.END)].decode()


def read_of(reader):
    """Some bytes of a descriptor, or none at its end."""
    if not select.select([reader], [], [], PATIENCE)[0]:
        raise Wrong(f"nothing within {PATIENCE} seconds")
    return os.read(reader, 4096)


def a_long_run(program):
    """On a terminal a run shows how far it is: nothing before two seconds are over, nothing more
    within two tenths of a second, and at its end the line is taken away."""
    count, times = 5000, {1500: 2005, 3500: 2204}
    # (a pipe that gives each line by itself, and has room for few)
    reader, writer = os.pipe2(os.O_DIRECT | os.O_CLOEXEC)
    with Calls() as calls, Screen() as screen, tempfile.TemporaryFile() as given:
        given.write(b"addrange,40000000,49999999,12345,7,\n" * count)
        given.seek(0)
        calls.monotonic(5)
        streams = {"stdin": given, "stdout": writer, "stderr": screen.writer}
        ran = subprocess.Popen([program, "replay"], **streams, env=calls.environment)
        try:
            os.close(writer)
            for line in range(1, count + 1):
                wanted(f"the end of line {line}", read_of(reader)[-1:], b"\n")
                if line in times:
                    calls.monotonic(times[line])
            wanted("what comes then", (read_of(reader), ran.wait(PATIENCE)), (b"", 0))
            wanted("what is shown", screen.shown(), "\r2048 of 5000 events\r\x1b[K")
        finally:
            ran.kill()
            ran.wait()
            os.close(reader)


TRIES = if_compiled([
    moments, whole_lines, ends_of_the_host, lines_without_clocks, a_flood, a_long_run,
])

if __name__ == "__main__":
    # Without a C compiler there is nothing to try.
    sys.exit(main(TRIES, at_once=4) if TRIES else 0)
