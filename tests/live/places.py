#!/usr/bin/env python3
"""places.py PROGRAM [COUNT [SECONDS [PLACES]]]: who has a place where all are taken, and whose
connection it is; over real sockets.

COUNT connections that sell nothing, 64 if it isn't said, come again as soon as they are closed,
beside sixteen terminals that sell each SECONDS, 1, at a host of so many PLACES, 64."""
import random
import selectors
import socket
import sys
import time

from terminal import (
    CARD, ECHO, READ, REPLY, Book, Host, Terminal, Wrong, approved, code_of, log_lines, main,
    pieces, sale, wanted, when,
)

NUMBERS = [int(it) for it in sys.argv[2:] if it.isdigit()]
COUNT, SECONDS, PLACES = (NUMBERS + [64, 1, 64][len(NUMBERS):])[:3]
SELLING, COMING, TURNS = 16, 5, 2
# How soon one that comes is to be served, and for how long it has its place at least.
SOON, GRACE = 1, 0.5
NO_HEADER = "acqd: 56 NoProxyHeader"


class Crowd:
    """Connections that sell nothing, each of which comes again once it is closed: it sends this as
    it comes, and again after so many seconds, if it does."""

    def __init__(self, port, sent, every):
        self.port, self.sent, self.every = port, sent, every
        self.ends, self.due, self.comes = selectors.DefaultSelector(), {}, 0
        for _ in range(COUNT):
            self.come()

    def __enter__(self):
        return self

    def __exit__(self, *_):
        for key in list(self.ends.get_map().values()):
            key.fileobj.close()

    def come(self):
        end = socket.socket()
        end.setblocking(False)
        end.connect_ex(("127.0.0.1", self.port))
        self.ends.register(end, selectors.EVENT_WRITE)
        self.comes += 1

    def send(self, end):
        end.send(self.sent)
        if self.every:
            self.due[end] = time.monotonic() + self.every

    def act(self, until, waited=()):
        """Has them act until then, or until something comes to one of those."""
        while time.monotonic() < until and not any(it.more(0) for it in waited):
            for key, mask in self.ends.select(0.005):
                self.try_to(key.fileobj, self.read if mask & selectors.EVENT_READ else self.begin)
            now = time.monotonic()
            for end in [it for it, due in self.due.items() if due <= now]:
                self.try_to(end, self.send)

    def begin(self, end):
        """It is connected."""
        self.ends.modify(end, selectors.EVENT_READ)
        self.send(end)

    @staticmethod
    def read(end):
        if not end.recv(65536):
            raise ConnectionResetError

    def try_to(self, end, act):
        """Where it is closed, another one comes."""
        try:
            act(end)
        except OSError:
            self.ends.unregister(end)
            self.due.pop(end, None)
            end.close()
            self.come()


CROWDS = {"echoes": (ECHO, 0.2), "half frames": (ECHO[:9], 0), "silence": (b"", 0)}


def beside(program, words):
    """None of those that sell loses its place to a crowd, and one that comes is served soon."""
    kind = " ".join(words)
    sent, every = CROWDS[kind]
    with Book(program, range(SELLING + COMING)) as book:
        # A terminal that sells each SECONDS is silent for as long, and a turn takes a while.
        words = ["--together", str(PLACES), "--idle", str(2 * SECONDS + 60)]
        with Host(book, *words, "--frame-within", "60") as host:
            selling = [host.terminal(sale(k, 1)) for k in range(SELLING)]
            for k, it in enumerate(selling):
                wanted(f"the first reply to terminal {k}", it.reply(), approved(k, 1))
            with Crowd(host.port, sent, every * SECONDS) as crowd:
                crowd.act(time.monotonic() + 0.5)
                took = [come(host, crowd, SELLING + it) for it in range(COMING)]
                for trace in range(2, TURNS + 2):
                    crowd.act(time.monotonic() + SECONDS)
                    for k, it in enumerate(selling):
                        it.send(sale(k, trace))
                        crowd.act(time.monotonic() + 20, [it])
                        what = f"reply {trace} to terminal {k} beside {kind}"
                        wanted(what, it.reply(), approved(k, trace))
                # On a slow machine one of them may take longer for another cause.
                if sorted(took)[COMING // 2] > SOON:
                    raise Wrong(f"those that came beside {kind} were served after {took} seconds")


def come(host, crowd, k):
    """How long it takes until one that comes has a reply."""
    began = time.monotonic()
    with host.terminal(sale(k, 1)) as it:
        crowd.act(began + 20, [it])
        took = time.monotonic() - began
        wanted("the reply to one that comes", it.reply(), approved(k, 1))
    return took


def waits(terminal, seconds=2 * GRACE):
    """Whether nothing comes over a connection for so long, no end either."""
    terminal.end.settimeout(seconds)
    try:
        came = terminal.end.recv(1, socket.MSG_PEEK)
    except TimeoutError:
        return True
    except OSError:
        came = b""
    raise Wrong(f"one that is to wait gets {came!r}")


def who_has_sold(program):
    """One keeps its place once a message of an enrolled terminal was answered over it, with
    whatever code; and no other message does that."""
    cases = [
        ("an approved sale", sale(1, 1), "00", True),
        ("a sale of no valid card", sale(1, 2, card=CARD[:-1] + "2"), "14", True),
        ("an echo", ECHO, "00", False),
        ("a sale of no merchant", sale(9, 1), "03", False),
        ("a sale of no terminal", sale(1, 3, e41="TERM0009"), "03", False),
        ("a sale without element 4", sale(1, 4, e4=None), "30", False),
    ]
    for what, sent, code, keeps in cases:
        with Book(program, (1, 2)) as book, Host(book, "--together", "2") as host:
            keeper, first = host.terminal(sale(2, 1)), host.terminal(sent)
            wanted("the reply to one that sold", keeper.reply(), approved(2, 1))
            wanted(f"the code of {what}", code_of(first.reply()), code)
            time.sleep(GRACE)
            second = host.terminal(ECHO)
            if keeps:
                wanted(f"whether one waits behind {what}", waits(second), True)
                wanted(f"who sent {what}", first.is_served(), True)
            else:
                wanted(f"who comes behind {what}", second.reply(), REPLY)
                wanted(f"what comes to who sent {what}", first.rest(), b"")
            wanted("one that sold", keeper.is_served(), True)
            wanted("faults", host.faults(), [])


def a_moment_for_each(program):
    """One that came keeps its place for a moment, in which it sells, while another one waits."""
    for trace in range(1, 6):
        with Book(program, (1, 2)) as book, Host(book, "--together", "2") as host:
            keeper, first = host.terminal(sale(2, trace)), host.terminal()
            wanted("the reply to one that sold", code_of(keeper.reply()), "00")
            began = time.monotonic()
            second = host.terminal(ECHO)
            time.sleep(GRACE / 2)
            try:
                came = code_of(first.ask(sale(1, trace)))
            except (IndexError, OSError, ValueError):
                came = None
            # On a slow machine the moment may be over.
            if came is None and time.monotonic() - began > GRACE - 0.1:
                continue
            wanted("the code of a sale in that moment", came, "00")
            wanted("whether one waits behind those that sold", waits(second), True)
            first.end.close()
            wanted("who waited", second.reply(), REPLY)
            return
    raise Wrong("five tries took too long each")


def who_sold_long_ago(program):
    """One that sold, and has only sent echo tests for as long as one may be silent, makes room; the
    one that sold first does, and it alone."""
    idle = 3
    with Book(program, (1, 2)) as book, Host(book, "--together", "2", "--idle", str(idle)) as host:
        began = time.monotonic()
        ends = [host.terminal(), host.terminal()]
        for k, it in enumerate(ends, 1):
            wanted("the reply to a sale", code_of(it.ask(sale(k, 1))), "00")
            time.sleep(0.3)
        third = host.terminal(ECHO)
        while not third.more(0):
            wanted("those that sold", [it.is_served() for it in ends], [True, True])
            if time.monotonic() - began > idle - 0.5:
                break
            time.sleep(0.2)
        wanted("who comes behind them", third.reply(), REPLY)
        if (took := time.monotonic() - began) < idle:
            raise Wrong(f"one that sold makes room after {took} seconds")
        wanted("what comes to the one that sold first", ends[0].rest(), b"")
        wanted("the other one", ends[1].is_served(), True)


# The headers of HAProxy's document, with the peer that each names; that of the socket for None.
SIGNATURE = b"\r\n\r\n\0\r\nQUIT\n"
V4 = bytes([192, 168, 0, 1, 192, 168, 0, 11]) + (56324).to_bytes(2, "big") + b"\1\xbb"
V6 = b" \1\r\xb8" + bytes(11) + b"\1" + b" \1\r\xb8" + bytes(11) + b"\2" + V4[8:]


def block(command, family, addresses, behind=b""):
    length = len(addresses) + len(behind)
    return SIGNATURE + bytes([command, family]) + length.to_bytes(2, "big") + addresses + behind


HEADERS = [
    ("a line", b"PROXY TCP4 192.168.0.1 192.168.0.11 56324 443\r\n", "192.168.0.1:56324"),
    ("a line of IPv6", b"PROXY TCP6 2001:db8::1 2001:db8::2 56324 443\r\n",
     "[2001:db8::1]:56324"),
    ("a line of nobody", b"PROXY UNKNOWN\r\n", None),
    ("a block", block(0x21, 0x11, V4), "192.168.0.1:56324"),
    ("a block of IPv6 with a field", block(0x21, 0x21, V6, b"\4\0\1\0"), "[2001:db8::1]:56324"),
    ("a block of the proxy's own", block(0x20, 0, b""), None),
    ("a block of its own with addresses", block(0x20, 0x11, V4), None),
    ("a block of another protocol", block(0x21, 0x31, bytes(216)), None),
]
NO_HEADERS = [
    ("a frame", ECHO), ("TLS", b"\x16\x03\x01\x02\0\1"), ("two lines", b"PROXY \n\nTCP4\r\n"),
    ("a port too great", b"PROXY TCP4 192.168.0.1 192.168.0.11 65536 443\r\n"),
    ("a version that isn't there", block(0x31, 0x11, V4)),
    ("a command that isn't there", block(0x22, 0x11, V4)),
    ("too short a block", block(0x21, 0x11, V4[:11])),
    ("a line without its end", b"PROXY UNKNOWN " + b"x" * 94),
]


def lines_of(host, event):
    return [it for it in log_lines(host.log()) if it["event"] == event]


def peers(host, event, count):
    """The peers of lines of an event, once there are so many."""
    when(f"no {count} lines of {event}", lambda: len(lines_of(host, event)) >= count)
    return [it["peer"] for it in lines_of(host, event)]


def headers(program):
    """Whoever is behind the proxy stands in the log; and the frames behind a header are answered,
    whole or in pieces, and together with it."""
    chance, wants = random.Random(8583), []
    with Book(program) as book:
        with Host(book, "--together", "4", "--proxy-protocol", log=True) as host:
            for what, header, peer in HEADERS:
                for cut in ([header + ECHO], [header, ECHO], list(pieces(header + ECHO, chance))):
                    with host.terminal() as it:
                        wants.append(peer or "%s:%d" % it.end.getsockname())
                        for piece in cut:
                            it.send(piece)
                            time.sleep(0.01)
                        wanted(f"the reply behind {what} in {len(cut)} pieces", it.reply(), REPLY)
                        wanted(f"the next reply behind {what}", it.is_served(), True)
            wanted("who connected", peers(host, "opened", len(wants)), wants)
            replied = [it for it in wants for _ in range(2)]
            wanted("who got replies", peers(host, "reply", len(replied))[:100], replied[:100])
            wanted("faults", host.faults(), [])


def no_headers(program):
    """A connection without a header is closed, with a fault that is told; one whose header isn't
    whole holds up nobody, and isn't there for longer than a frame may take."""
    words = ["--together", "4", "--proxy-protocol", "--frame-within", "2"]
    whole = HEADERS[0][1]
    with Book(program) as book, Host(book, *words, log=True) as host:
        for what, sent in NO_HEADERS:
            wanted(f"what comes behind {what}", host.terminal(sent).rest(), b"")
        when("no faults", lambda: len(host.faults()) >= len(NO_HEADERS))
        cut = host.terminal(whole[:-1])
        wanted("what comes behind half a header", cut.finish(), b"")
        faults = [NO_HEADER] * (len(NO_HEADERS) + 1)
        when("no more faults", lambda: host.faults() == faults)
        host.terminal().end.close()
        slow, began = [host.terminal(it) for it in (b"", whole[:9], SIGNATURE)], time.monotonic()
        wanted("who comes beside them", host.terminal(whole + ECHO).reply(), REPLY)
        for it in slow:
            wanted("what comes to one that is slow", it.rest(), b"")
        if (took := time.monotonic() - began) < 1.9:
            raise Wrong(f"one that is slow is ended after {took} seconds")
        when("no faults of slow ones", lambda: len(host.faults()) >= len(faults) + 3)
        wanted("faults", host.faults(), faults + [READ] * 3)
        refused = [it.get("fault") for it in lines_of(host, "refused")]
        wanted("refused", refused, ["56"] * len(faults) + [None] + ["53"] * 3)
        wanted("how the first began", lines_of(host, "refused")[0].get("first"), "0037....")
        wanted("who connected", peers(host, "opened", 1), ["192.168.0.1:56324"])


def half_headers(program):
    """Where all places are taken by connections without a header, each that comes gets in."""
    words = ["--together", "4", "--proxy-protocol", "--frame-within", "60"]
    with Book(program, (1, 2)) as book, Host(book, *words) as host:
        header = HEADERS[3][1]
        keeper = host.terminal(header + sale(1, 1))
        wanted("the reply to one that sold", keeper.reply(), approved(1, 1))
        slow = [host.terminal(header[:9]) for _ in range(8)]
        time.sleep(GRACE)
        for _ in range(4):
            wanted("who comes beside them", host.terminal(header + ECHO).reply(), REPLY)
        wanted("one that sold", keeper.is_served(), True)
        wanted("what comes to the first of them", slow[0].rest(), b"")
        wanted("faults", host.faults(), [])


class From(Terminal):
    """A terminal that connects from another address of this machine."""

    def __init__(self, port, sent, source):
        self.end, self.held = socket.socket(), bytearray()
        self.end.bind((source, 0))
        self.end.settimeout(60)
        self.end.connect(("127.0.0.1", port))
        self.send(sent)


def of_one_address(program, words):
    """Of one address so many connections are served at once, and others are closed; whoever is
    behind a proxy counts, and not the proxy."""
    words = ["--together", "8", "--from-one-address", "2", *words]

    def comes(source):
        if "--proxy-protocol" not in words:
            return From(host.port, ECHO, source)
        return host.terminal(f"PROXY TCP4 {source} 127.0.0.1 1 2\r\n".encode() + ECHO)

    with Book(program) as book, Host(book, *words, log=True) as host:
        when("nobody listens", lambda: host.is_at("127.0.0.1"))
        for _ in range(2):
            first = [comes("127.0.0.2"), comes("127.0.0.2")]
            wanted("two of one address", [it.reply() for it in first], [REPLY] * 2)
            thirds = [what_comes(comes, "127.0.0.2") for _ in range(3)]
            wanted("what comes to a third one", thirds, [b""] * 3)
            with comes("127.0.0.3") as other:
                wanted("one of another address", other.reply(), REPLY)
            first.pop().end.close()
            when("nobody takes its place", lambda: takes_place(comes, first))
            for it in first:
                it.end.close()
            count = len(lines_of(host, "opened"))
            when("they don't go", lambda n=count: len(lines_of(host, "closed")) == n)
        refused = {(it["peer"].partition(":")[0], it["reason"]) for it in lines_of(host, "refused")}
        refused = {it for it in refused if "header" not in it[1]}
        why = "its address has as many connections as it may"
        wanted("who was refused, and why", refused, {("127.0.0.2", why)})


def takes_place(comes, others):
    """Whether one more of an address is served, beside these."""
    try:
        it = comes("127.0.0.2")
        others.append(it)
        return it.reply() == REPLY
    except OSError:
        return False


def what_comes(comes, source):
    """What comes to one from there until its end, which may be there as it sends."""
    try:
        return comes(source).rest()
    except OSError:
        return b""


TRIES = [(beside, it.split()) for it in CROWDS]
TRIES += [who_has_sold, a_moment_for_each, who_sold_long_ago, headers, no_headers, half_headers]
TRIES += [(of_one_address, it) for it in ([], ["--proxy-protocol"])]

if __name__ == "__main__":
    sys.exit(main(TRIES, 2))
