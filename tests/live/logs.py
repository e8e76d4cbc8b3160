#!/usr/bin/env python3
"""logs.py PROGRAM: what stands in the log of a host, over real sockets: of cards their masks alone,
in each type of reply, and nowhere else anything of them; how bad frames begin; the clock's time; a
line for each thing that happened; and behind a restart all that was there."""
import datetime
import stat
import os
import sys
import time

from terminal import (
    BAD, CARD, ECHO, MODES, MOMENT, Book, Host, Wrong, code_of, elements_of, frame, log_lines, main,
    merchant, message, request, sale, spelled, split_frames, wanted,
)

MASK = "411111******1111"
# What a reply's line has, but the time and where it came from.
REPLY_KEYS = ("type", "merchant", "terminal", "trace", "reference", "code", "amount", "card")
LONG, SHORT, NO_CARD = "6304000000000000000", "7992739875", "4111111111111112"
COUNTS, AMOUNTS = {it: "0" * 10 for it in range(74, 78)}, {it: "0" * 16 for it in range(86, 90)}
ZEROS = {**COUNTS, **AMOUNTS, 97: "C" + "0" * 16}


def original(kind, trace):
    return f"{kind}{trace:06d}0501093000{'0' * 22}"


def requests():
    """A request of each type that is served, each with its card, the type of its reply, and its
    code."""
    card = {2: CARD}
    completion = {**card, 3: "000000", 4: f"{400:012d}", 37: f"{1:012d}", 49: "978"}
    return [
        ("0100", "0110", "00", lambda kind: sale(kind=kind, trace=1)),
        ("0200", "0210", "00", lambda kind: sale(kind=kind, trace=2)),
        ("0220", "0230", "00", lambda kind: request(kind, 1, 3, completion)),
        ("0400", "0410", "00", lambda kind: request(
            kind, 1, 4, {**card, 4: f"{1000:012d}", 90: original("0200", 2)})),
        ("0420", "0430", "00", lambda kind: request(
            kind, 1, 5, {**card, 4: f"{400:012d}", 90: original("0220", 3)})),
        ("0500", "0510", "95", lambda kind: request(kind, 1, 6, {**card, **ZEROS})),
        ("0800", "0810", "00", lambda kind: request(kind, 1, 7, {**card, 70: "301"})),
    ]


def refusals():
    """Requests that are refused, with their card, by code."""
    return [
        ("0210", "03", sale(k=2)),
        ("0210", "12", sale(trace=21, e49="840")),
        ("0210", "13", sale(trace=22, amount=0)),
        ("0210", "94", sale(trace=2, amount=7)),
        ("0210", "30", sale(trace=23, e49=None)),
        ("0210", "54", sale(trace=24, e14="2001")), ("0230", "25", request(
            "0220", 1, 25, {2: CARD, 3: "000000", 4: f"{1:012d}", 37: f"{77:012d}", 49: "978"})),
        ("0410", "25", request("0400", 1, 26, {2: CARD, 4: f"{1:012d}", 90: original("0200", 99)})),
        ("0510", "30", request("0500", 1, 27, {2: CARD})),
        ("0810", "12", request("0800", 1, 28, {2: CARD, 70: "999"})),
    ]


# Why they are refused, in the same order. Of the requests only the reconciliation has a reason, and
# of repeats none has.
WHYS = [None] * 5 + ["out-of-balance"] + [None] * 8 + [
    "merchant", "currency", "amount", "other-request", "missing-49", "expired-card",
    "no-reference", "no-original", "missing-74", "network-code",
]


def whole_cards(text):
    """Whatever of a card number stands whole in a text, as a number of its length or with digits
    about it."""
    return [it for it in (CARD, LONG, SHORT, NO_CARD) if it in text]


def masks(program, mode):
    """Each type of reply, a repeat's and a refusal's too, has its card masked in the log, and a
    refusal says why."""
    with Book(program) as book, Host(book, *mode, control=True, log=True) as host:
        with host.terminal() as terminal:
            for repeated in (False, True):
                for kind, replied, code, made in requests():
                    said = elements_of(terminal.ask(made(kind[:3] + "1" if repeated else kind)))
                    came = said[0], said[39], said[2], said[42]
                    wanted(f"the reply to {kind}", came, (replied, code, CARD, merchant(1)))
            for kind, code, sent in refusals():
                said = elements_of(terminal.ask(sent))
                came = said[0], said[39], said[2]
                wanted(f"the reply to one that is refused with {code}", came, (kind, code, CARD))
        figures = host.tell("status", "metrics")
        wanted("the answer to stop", host.tell("stop"), "stopping\n")
        host.ends()
        lines = [it for it in log_lines(host.log()) if it["event"] == "reply"]
        kinds = [it[1] for it in requests()] * 2 + [it[0] for it in refusals()]
        cards = [(it["type"], it.get("card")) for it in lines]
        wanted("cards in the log", cards, [(it, MASK) for it in kinds])
        wanted("reasons in the log", [it.get("why") for it in lines], WHYS)
        wanted("cards in the log", whole_cards(host.log()), [])
        wanted("cards in figures and faults", whole_cards(figures + str(host.faults())), [])


def no_masks(program, mode):
    """Of another element 2 than a valid number of 13 to 19 digits nothing stands there, and nothing
    of tracks."""
    track = f"{CARD}=30121010000000000000"
    sales = [sale(trace=1, card=LONG), sale(trace=2, card=SHORT), sale(trace=3, card=NO_CARD)]
    sales += [sale(trace=4, card=""), sale(trace=5, e2=None, e35=track)]
    with Book(program) as book, Host(book, *mode, control=True, log=True) as host:
        with host.terminal() as terminal:
            codes = [code_of(terminal.ask(it)) for it in sales]
        wanted("codes", codes, ["15", "15", "14", "14", "00"])
        wanted("the answer to stop", host.tell("stop"), "stopping\n")
        host.ends()
        lines = [it for it in log_lines(host.log()) if it["event"] == "reply"]
        cards = [it.get("card") for it in lines]
        wanted("cards in the log", cards, ["630400*********0000", None, None, None, None])
        wanted("cards in the log", whole_cards(host.log()), [])


def bad_frames(program, mode):
    """Frames that spell no message, with a card in them, are told without it, in the log and as a
    fault."""
    text = spelled("0200", {2: CARD, 3: "000000", 11: "000001"})
    broken = [text + CARD, text[:-2], text.replace("000000", "00000x")]
    broken += [f"0200{CARD}{CARD}", CARD, f"{CARD}{text}"]
    with Book(program) as book, Host(book, *mode, log=True) as host:
        for it in broken:
            with host.terminal(frame(it)) as terminal:
                wanted("a reply to no message", terminal.rest(), b"")
        with host.terminal(sale()[:-5]) as terminal:
            wanted("a reply to a part of a message", terminal.finish(), b"")
        host.fault_within("acqd: 51 Ended")
        host.end()
        said, wants = host.faults(), ["52"] * len(broken) + ["51"]
        lines = [it for it in log_lines(host.log()) if it["event"] == "closed"]
        wanted("faults", [it.split()[1] for it in said], wants)
        wanted("faults in the log", [it.get("fault") for it in lines], wants)
        wanted("cards in the log and the faults", whole_cards(host.log() + str(said)), [])


# What others speak, or a terminal that is set up for another profile: what it sends, and what the
# line of its connection's end has of it.
TEXT = spelled("0200", {2: CARD, 3: "000000", 11: "000001"})
TYPE = bytes.fromhex("0200723C448028C08010")
TPDU = bytes.fromhex("6000030000")
STRANGERS = [
    # A record of TLS, whose type and version are taken for a length.
    ("1603010200010001FC0303", {"fault": "50", "length": "5635", "first": "160301.."}),
    (b"GET / HTTP/1.1\r\n\r\n", {"fault": "50", "length": "18245", "first": "........"}),
    (b"POST / HTTP/1.1\r\n\r\n", {"fault": "50", "length": "20559", "first": "..4f...."}),
    # Packed digits, without and with a TPDU, and without a length.
    (frame(TYPE), {"fault": "52", "first": "0200..3c"}),
    (frame(TPDU + TYPE), {"fault": "52", "first": "600003.."}),
    (TPDU + TYPE, {"fault": "50", "length": "24576", "first": "600003.."}),
    (frame(TEXT.encode("cp500")), {"fault": "52", "first": "f0f2f0f0"}),
    # A length in four digits, or none.
    (b"0087" + TEXT.encode(), {"fault": "50", "length": "12336", "first": "30303837"}),
    (TEXT.encode(), {"fault": "50", "length": "12338", "first": "30323030"}),
    # Of a card nothing, in characters or packed. Its digits pass for a type and a bitmap, 0x11.
    (frame(CARD + TEXT), {"fault": "52", "element": "8", "first": "........"}),
    (frame(CARD.encode("cp500")), {"fault": "52", "first": "........"}),
    (frame(bytes.fromhex(CARD) + TYPE), {"fault": "52", "first": "........"}),
    (CARD.encode(), {"fault": "50", "length": "13361", "first": "........"}),
    (frame(f"A={CARD}"), {"fault": "52", "first": "..3d...."}),
    (b"\0\0", {"fault": "50", "length": "0", "first": "0000"}),
    (b"\0\0" + CARD.encode(), {"fault": "50", "length": "0", "first": "0000"}),
    (b"\x10\x01ABCD", {"fault": "50", "length": "4097", "first": "........"}),
    (frame("JKLM"), {"fault": "52", "first": "4a4b4c4d"}),
    (frame("JKL"), {"fault": "52", "first": "4a4b4c"}),
    (message("0200", {3: "00000x"}), {"fault": "52", "element": "3", "first": "30323030"}),
    (frame(TEXT[:-1]), {"fault": "52", "element": "11", "first": "30323030"}),
    (frame(TEXT + CARD), {"fault": "52", "first": "30323030"}),
    # The frame that is bad, not those before it or behind it.
    (ECHO * 40 + frame("JKLM") + ECHO, {"fault": "52", "first": "4a4b4c4d"}),
    (frame("JKLM") + BAD + frame("NONO"), {"fault": "52", "first": "4a4b4c4d"}),
    (ECHO + BAD + ECHO, {"fault": "50", "length": "0", "first": "0000"}),
]
# The same of an input that ends inside a frame.
CUT_OFF = [
    (sale()[:-5], {"fault": "51", "first": "30323030"}),
    (ECHO * 3 + frame(CARD)[:-5], {"fault": "51", "first": "........"}),
    (frame("JKLM")[:4], {"fault": "51", "first": "4a4b"}),
    (frame("JKLM")[:2], {"fault": "51"}),
    (frame("JKLM")[:1], {"fault": "51"}),
]


def strangers(program, mode):
    """The line of a connection that ended for a frame has its length, the element at fault and the
    first bytes, and of these none that may be a digit of a card."""
    with Book(program) as book, Host(book, *mode, log=True) as host:
        sent = [(bytes.fromhex(it) if isinstance(it, str) else it, want) for it, want in STRANGERS]
        for it, _ in sent:
            with host.terminal(it) as terminal:
                wanted("whole replies", split_frames(terminal.rest())[1], b"")
        for it, _ in CUT_OFF:
            with host.terminal(it) as terminal:
                wanted("whole replies", split_frames(terminal.finish())[1], b"")
        # Bytes that come one by one are the same frame.
        with host.terminal() as terminal:
            for byte in frame("JKLM"):
                terminal.send(bytes([byte]))
                time.sleep(0.01)
            wanted("a reply", terminal.rest(), b"")
        host.end()
        keys = ("fault", "length", "element", "first")
        lines = [it for it in log_lines(host.log()) if it["event"] == "closed"]
        said = [{key: it[key] for key in keys if key in it} for it in lines]
        wants = [*(it[1] for it in sent + CUT_OFF), {"fault": "52", "first": "4a4b4c4d"}]
        for (line, want), (it, _) in zip(zip(said, wants), [*sent, *CUT_OFF, (b"", {})]):
            wanted(f"the end of a connection that sent {it[:6].hex()}", line, want)
        wanted("ends of connections", len(said), len(wants))
        cards = CARD, CARD.encode().hex(), CARD.encode("cp500").hex()
        told = host.log() + str(host.faults())
        for length, text in zip((6, 12, 12), cards):
            pieces = {text[at : at + length] for at in range(0, len(text) - length + 1)}
            wanted("digits of a card in the log", [it for it in pieces if it in told], [])


def without_what_varies(lines):
    keys = ("event", "day", "connection", "fault", *REPLY_KEYS)
    return [{key: line[key] for key in keys if key in line} for line in lines]


def day_of(program, host):
    """One terminal's connection with a sale, and what the log says of a host that it was all of."""
    with host.terminal() as terminal:
        terminal.ask(sale())
        terminal.finish()
    host.end()
    values = ["0210", "MERCHANT0000001", "TERM0001", "000001", "000000000001", "00", "1000", MASK]
    return [
        {"event": "listening", "day": "2024-05-01"},
        {"event": "opened", "connection": "1"},
        {"event": "reply", "connection": "1", **dict(zip(REPLY_KEYS, values))},
        {"event": "closed", "connection": "1"},
    ]


def a_restart(program, mode):
    """It goes on behind what the log holds, which is its owner's alone, and loses nothing of
    that."""
    before = "what stood there\n"
    with Book(program) as book:
        texts, lines = [before], []
        path = book.file("host.log", before)
        os.chmod(path, 0o600)
        for _ in range(3):
            with Host(book, *mode, log=path) as host:
                lines += day_of(program, host)
                texts.append(host.log())
            wanted("what stood in the log", texts[-1][: len(texts[-2])], texts[-2])
        said = without_what_varies(log_lines(texts[-1][len(before) :]))
        wanted("lines behind restarts", said, lines)


def times(program, mode):
    """Each line has the second of the machine's clock, whatever `--at` says; a new log is its
    owner's alone."""
    for at in (None, MOMENT):
        with Book(program) as book, Host(book, *mode, at=at, log=True) as host:
            before = int(time.time())
            day_of(program, host)
            after = int(time.time())
            lines = log_lines(host.log())
            wanted("lines", len(lines), 4)
            wanted("the log's mode", stat.S_IMODE(os.stat(host.log_path).st_mode), 0o600)
            wanted("where it listens", lines[0]["address"], f"127.0.0.1:{host.port}")
            said = [datetime.datetime.strptime(it["time"], "%Y-%m-%dT%H:%M:%SZ") for it in lines]
            said = [int(it.replace(tzinfo=datetime.timezone.utc).timestamp()) for it in said]
            if not (before - 1 <= said[0] and said == sorted(said) and said[-1] <= after):
                raise Wrong(f"times in a log of {before} to {after}: {said}")


SCENES = (masks, no_masks, bad_frames, strangers, a_restart, times)
TRIES = [(it, mode) for it in SCENES for mode in MODES]

if __name__ == "__main__":
    sys.exit(main(TRIES, at_once=4))
