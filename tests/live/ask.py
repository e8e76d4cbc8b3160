#!/usr/bin/env python3
"""ask.py PROGRAM [TIMES]: `acqd ask` over real sockets, as who builds a terminal has it.

Sales, a repeat, a refusal and an echo test go to `acqd listen`, and each is shown with its reply,
as `acqd show` shows both; a message that the host doesn't serve is told as one without a reply, and
the next is sent all the same. A sale that is sent TIMES times is so many sales in the host's
clearing file, trace number by trace number. One host isn't there; others, of this script, are
silent, late, answer rubbish, end inside a reply, break the connection, or answer a byte at a time
and two replies at once. No card number is shown whole."""
import re
import socket
import struct
import sys
import threading
import time

from terminal import (
    CARD, DECLINED, ECHO, PATIENCE, REPLY, Book, Host, Wrong, approved, cleared_sales, echo, echoed,
    frame, free_port, main, output, request, run, sale, size, split_frames, wanted,
    when,
)

TIMES = size(200)
ISSUERS = f"{CARD},approved,A1B2C3\n{DECLINED},declined,51\n"
SILENT = "acqd: 55 Silent\n"
# A time in milliseconds, with three digits behind the point.
TIME = r"([0-9]+\.[0-9]{3}) ms"


def ask(program, port, given, *words):
    """The status of `ask`, what it shows, and its faults; no card may be in them."""
    status, shown, faults = run([program, "ask", "--port", str(port), *words], given)
    for card in (CARD, DECLINED):
        if card in shown.decode() + faults:
            raise Wrong("a card number is shown whole")
    return status, shown.decode(), faults


def serving(host):
    """The port of a host, once it listens."""
    when("nobody listens", lambda: host.is_at("127.0.0.1"))
    return host.port


def shown(program, *frames):
    """What `show` shows of these frames, and between them of these words."""
    return "".join(
        f"{it}\n\n" if isinstance(it, str) else output([program, "show"], it).decode()
        for it in frames
    )


class Other:
    """A host of this script, which does this with each frame that comes on its one connection."""

    def __init__(self, answer):
        self.port, self.answer, self.frames = free_port(), answer, []
        self.listener = socket.create_server(("127.0.0.1", self.port))
        self.thread = threading.Thread(target=self.serve, daemon=True)

    def serve(self):
        end, _ = self.listener.accept()
        held = b""
        with end:
            end.setsockopt(socket.IPPROTO_TCP, socket.TCP_NODELAY, 1)
            while came := end.recv(65536):
                whole, held = split_frames(held + came)
                for it in whole:
                    self.frames.append(it)
                    if self.answer(end, it, len(self.frames)):
                        return

    def __enter__(self):
        self.thread.start()
        return self

    def __exit__(self, *_):
        self.thread.join(PATIENCE)
        self.listener.close()

    def asked(self, program, given, *words):
        return ask(program, self.port, given, *words)


def sales(program):
    """What the host says of sales, a repeat, a refusal and an echo test, one after the other."""
    declined = {"card": DECLINED, "trace": 2, "amount": 990}
    refused = {**declined, "kind": "0210", "e38": None, "e39": "51", "e37": f"{2:012d}"}
    with Book(program) as book, Host(book, issuers=ISSUERS) as host:
        given = sale(1, 1) + sale(1, 1) + sale(1, **declined) + ECHO
        want = shown(program, sale(1, 1), approved(1, 1), sale(1, 1), approved(1, 1),
                     sale(1, **declined), approved(1, **refused), ECHO, REPLY)
        asked = ask(program, serving(host), given, "--within", "5")
        wanted("what is shown of sales", asked, (0, want, ""))
        wanted("what is shown of nothing", ask(program, host.port, b""), (0, "", ""))
        host.end()
        wanted("the day's sales", book.cleared(), cleared_sales([(1, 1, 1)]))


def another_address(program):
    with Book(program) as book, Host(book, "--address", "127.0.0.7") as host:
        when("nobody listens", lambda: host.is_at("127.0.0.7"))
        asked = ask(program, host.port, ECHO, "--address", "127.0.0.7")
        wanted("an echo at another address", asked, (0, shown(program, ECHO, REPLY), ""))
        wanted("a host at another address", ask(program, host.port, ECHO),
               (1, "", "acqd: 53 Read\n"))


def unserved(program):
    """A message that gets no reply, between two that do."""
    other = request("0600", 1, 7, {})
    with Book(program) as book, Host(book, "--together", "8") as host:
        given = echo(1) + other + echo(2)
        want = shown(program, echo(1), echoed(1), other, "no reply within 4 s", echo(2), echoed(2))
        asked = ask(program, serving(host), given, "--within", "4")
        wanted("what is shown where one has no reply", asked, (1, want, SILENT))


def refused(program):
    """A frame that the host closes the connection for, and none at all."""
    with Book(program) as book, Host(book, "--together", "8") as host:
        given = ECHO + frame("08") + ECHO
        want = shown(program, ECHO, REPLY, frame("08"), "no reply: the host ended the connection")
        wanted("a frame that is no message", ask(program, serving(host), given),
               (1, want, "acqd: 51 Ended\n"))
        want = shown(program, ECHO, REPLY)
        wanted("an input that is cut", ask(program, host.port, ECHO + ECHO[:9]),
               (1, want, "acqd: 51 Ended\n"))
        wanted("an input of a bad length", ask(program, host.port, ECHO + b"\x00\x00"),
               (1, want, "acqd: 50 BadLength\n"))


def away(program):
    """A host that isn't there is called for some seconds, and one that comes meanwhile is asked."""
    for words in ([], ["--repeat", "3"]):
        asked = ask(program, free_port(), ECHO, *words)
        wanted("a host that is away", asked, (1, "", "acqd: 53 Read\n"))
    with Book(program) as book, Host(book) as host:
        asked = ask(program, host.port, ECHO)
        wanted("a host that was just started", asked, (0, shown(program, ECHO, REPLY), ""))


def silent(program):
    """A host that says nothing is waited for so long, for each message."""
    with Other(lambda *_: False) as host:
        began = time.monotonic()
        asked = host.asked(program, echo(1) + echo(2), "--within", "1")
        took = time.monotonic() - began
        want = shown(program, echo(1), "no reply within 1 s", echo(2), "no reply within 1 s")
        wanted("a host that is silent", asked, (1, want, SILENT))
        wanted("what came to it", host.frames, [echo(1), echo(2)])
    if took < 2:
        raise Wrong(f"two seconds were {took} long")
    with Other(lambda *_: False) as host:
        asked = host.asked(program, ECHO, "--within", "1", "--repeat", "3")
        wanted("a host that is silent at once", asked, (1, "replies 0 of 3\n", SILENT))


def late(program):
    """A reply that comes late is shown behind the next message."""
    def answer(end, _, count):
        if count == 2:
            end.sendall(echoed(1) + echoed(2))

    with Other(answer) as host:
        asked = host.asked(program, echo(1) + echo(2) + echo(3), "--within", "1")
    want = shown(program, echo(1), "no reply within 1 s", echo(2), echoed(1), echo(3), echoed(2))
    wanted("a reply that is late", asked, (1, want, SILENT))


def in_pieces(program):
    """Replies that come a byte at a time, and two at once."""
    def answer(end, it, count):
        if count == 1:
            for at in range(len(REPLY)):
                end.sendall(REPLY[at : at + 1])
                time.sleep(0.001)
        elif count == 2:
            end.sendall(echoed(2) + echoed(3))

    with Other(answer) as host:
        asked = host.asked(program, echo(1) + echo(2) + echo(3))
    want = shown(program, echo(1), echoed(1), echo(2), echoed(2), echo(3), echoed(3))
    wanted("replies in pieces", asked, (0, want, ""))


def rubbish(program):
    """What is no message is shown so; what is no frame, or none that is whole, ends it."""
    def say(answer, reset=False):
        def answered(end, *_):
            if reset:
                end.setsockopt(socket.SOL_SOCKET, socket.SO_LINGER, struct.pack("ii", 1, 0))
            end.sendall(answer)
            return True
        return answered

    for answer, words, fault in (
        (b"HTTP/1.1 400 Bad Request\r\n", "no reply: what came is no frame", "50 BadLength"),
        (b"\x00\x00", "no reply: what came is no frame", "50 BadLength"),
        (REPLY[:-1], "no reply: the host ended the connection", "51 Ended"),
        (b"", "no reply: the host ended the connection", "51 Ended"),
    ):
        with Other(say(answer)) as host:
            asked = host.asked(program, ECHO + ECHO)
        wanted(f"{answer!r}", asked, (1, shown(program, ECHO, words), f"acqd: {fault}\n"))
    with Other(say(b"", reset=True)) as host:
        asked = host.asked(program, ECHO + ECHO)
    want = shown(program, ECHO, "no reply: the connection broke")
    wanted("a connection that breaks", asked, (1, want, "acqd: 53 Read\n"))
    with Other(lambda end, *_: end.sendall(frame("rubbish"))) as host:
        asked = host.asked(program, ECHO + ECHO)
    want = shown(program, ECHO, frame("rubbish")) * 2
    wanted("replies that are no messages", asked, (0, want, ""))


def counts(text, times):
    """The lines of a summary, its times apart, which stand in order."""
    lines = text.splitlines()
    if times:
        found = re.fullmatch(
            rf"median {TIME}\n99 of 100 {TIME}\ngreatest {TIME}\n[0-9]+ a second",
            "\n".join(lines[-4:]),
        )
        if not found:
            raise Wrong(f"how long replies took: {text!r}")
        took = [float(it) for it in found.groups()]
        wanted("the times in order", took, sorted(took))
        lines = lines[:-4]
    return lines


def repeat(program):
    """One sale TIMES times is so many sales, whose trace numbers count up."""
    with Book(program) as book, Host(book) as host:
        words = ["--within", "5", "--repeat"]
        status, text, faults = ask(program, serving(host), sale(1, 1), *words, str(TIMES))
        wanted("how it ended", (status, faults), (0, ""))
        want = [f"replies {TIMES} of {TIMES}", f"code 00 {TIMES}"]
        wanted("how many replies came", counts(text, True), want)
        host.end()
        want = cleared_sales([(1, trace, trace) for trace in range(1, TIMES + 1)])
        wanted("the day's sales", book.cleared(), want)


def times(program):
    """How long replies took: of a hundred, forty take forty milliseconds and one four hundred."""
    def answer(end, _, count):
        time.sleep(0.4 if count == 50 else 0.04 if count % 5 in (1, 3) else 0)
        end.sendall(REPLY)

    began = time.monotonic()
    with Other(answer) as host:
        status, text, faults = host.asked(program, echo(1), "--repeat", "100")
    took = time.monotonic() - began
    wanted("how it ended", (status, faults), (0, ""))
    found = [float(it) for it in re.findall(TIME, text)]
    if not found[0] < 40 <= found[1] < 400 <= found[2] < 1000 * took:
        raise Wrong(f"how long replies took: {text!r}")
    rate = int(text.splitlines()[-1].split()[0])
    if not 100 / took - 1 <= rate <= 100 / 2:
        raise Wrong(f"{rate} replies a second of 100 in {took} seconds")


def codes(program):
    """The replies to one message, by their codes; its trace number goes from 999999 to 000001, and
    what is sent is the message otherwise."""
    given = sale(1, 999998, e32="123456", e48="x", e95="0" * 24 + "C00000000C00000000")
    replies = ["00", "51", "00", None, "00", "Z9", "51"]

    def answer(end, it, count):
        code = replies[count - 1]
        changes = {"e39": code, "e38": None}
        end.sendall(frame("no message") if code == "Z9" else approved(1, count, **changes))

    with Other(answer) as host:
        status, text, faults = host.asked(program, given, "--repeat", str(len(replies)))
    wanted("how it ended", (status, faults), (0, ""))
    want = ["replies 7 of 7", "code 00 3", "code 51 2", "no code 2"]
    wanted("how many replies have each code", counts(text, True), want)
    traces = [999998, 999999, 1, 2, 3, 4, 5]
    want = [sale(1, it, e32="123456", e48="x", e95="0" * 24 + "C00000000C00000000")
            for it in traces]
    wanted("what was sent", host.frames, want)


def no_trace(program):
    """A message without a trace number is sent as it is; what isn't one message isn't sent."""
    given = echo(1, e11=None)
    with Other(lambda end, *_: end.sendall(REPLY)) as host:
        status, text, faults = host.asked(program, given, "--repeat", "3")
        wanted("a message without a trace number", (status, faults), (0, ""))
        wanted("its replies", counts(text, True), ["replies 3 of 3", "code 00 3"])
    wanted("what was sent", host.frames, [given] * 3)
    for given, fault in (
        (ECHO + ECHO, "50 BadLength"),
        (b"\x00\x00", "50 BadLength"),
        (b"", "51 Ended"),
        (ECHO[:-1], "51 Ended"),
        (frame("0800|8220000000000000|8400000000000000|0101120000|000001|301"),
         "52 Undecodable 4 65"),
    ):
        with Other(lambda *_: False) as host:
            asked = host.asked(program, given, "--repeat", "3")
        wanted("no one message", asked, (1, "", f"acqd: {fault}\n"))
        wanted("what came of it", host.frames, [])


def an_end_between(program):
    """What came before a host ended is summed up all the same."""
    def answer(end, it, count):
        if count == 3:
            return True
        end.sendall(REPLY)
        return False

    with Other(answer) as host:
        status, text, faults = host.asked(program, ECHO, "--repeat", "9")
    wanted("how it ended", (status, faults), (1, "acqd: 51 Ended\n"))
    wanted("what came before", counts(text, True), ["replies 2 of 9", "code 00 2"])


TRIES = [
    sales, another_address, unserved, refused, away, silent, late, in_pieces, rubbish, repeat,
    times, codes, no_trace, an_end_between,
]

if __name__ == "__main__":
    sys.exit(main(TRIES, at_once=4))
