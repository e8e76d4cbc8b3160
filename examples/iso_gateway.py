#!/usr/bin/env python3
"""iso_gateway.py SOCKET FILE PORT: a gateway for `acqd listen --gateway SOCKET` that asks an issuer
at PORT of this machine by ISO 8583, as iso_issuer.py is one.

A request goes out as 0100 or 0200, a completion as 0220; a reversal, a request that the host ended
without an answer, and an approval that it refused go out as 0420. FILE keeps what outlasts the
gateway: of each row that isn't done the message to the issuer, and what the issuer said."""
import csv
import select
import socket
import sys
import time

from gateway import Kept, answer_to
from iso_issuer import frame, messages_in, read, spelled


def request_of(row, merchant, reference, kind, leg, card, amount, currency, issuer, moment, sent):
    """The message that asks the issuer, with what the terminal sent if that is known."""
    came = read(bytes.fromhex(sent).decode("latin-1"))[1] if sent else {}
    now = time.gmtime(int(moment))
    return spelled("0100" if kind == "authorization" else "0200", {
        2: card,
        3: came.get(3, "000000" if leg == "debit" else "200000"),
        4: f"{int(amount):012d}",
        11: trace_of(row),
        12: came.get(12, time.strftime("%H%M%S", now)),
        13: came.get(13, time.strftime("%m%d", now)),
        37: reference,
        41: came.get(41, " " * 8),
        42: merchant,
        49: currency,
    })


def advice_of(row, merchant, reference, what, kind, card, amount, remains, currency, issuer):
    """The message that passes an advice on. Element 95 says what remains of the amount in 4."""
    elements = {2: card, 4: f"{int(amount) + int(remains):012d}", 11: trace_of(row), 37: reference,
                42: merchant, 49: currency}
    if int(remains):
        elements[95] = f"{int(remains):012d}{'0' * 30}"
    return spelled("0220" if what == "completion" else "0420", elements)


def trace_of(row):
    return f"{int(row) % 1000000:06d}"


def undoing(text):
    """The message that takes back a request."""
    elements = read(text)[1]
    return spelled("0420", {it: elements[it] for it in (2, 4, 11, 37, 41, 42, 49)})


class Gateway:
    """A connection to the host, one to the issuer, and what is kept of each row: the message to the
    issuer, and its verdict, if it gave one."""

    def __init__(self, host, issuer, kept):
        self.host, self.issuer, self.kept = host, issuer, kept
        host.sendall(b"from,%d\n" % kept.behind())
        for text, verdict in kept.rows.values():
            if verdict:
                self.answer(text, verdict)
            else:  # what may have been sent before is sent as a repeat
                issuer.sendall(frame(f"{text[:3]}1{text[4:]}"))

    def answer(self, text, verdict):
        elements = read(text)[1]
        self.host.sendall(answer_to(elements[42], elements[37], verdict))

    def ask(self, row, text):
        self.kept.change(row, [text, None])
        self.issuer.sendall(frame(text))

    def take_line(self, word, *fields):
        """Does what a line of the host asks for."""
        if word == "query":
            row = int(fields[0])
            if row not in self.kept.rows:  # else it was asked before, and isn't asked twice
                self.ask(row, request_of(*fields))
        elif word == "advice":
            self.ask(int(fields[0]), advice_of(*fields))
        elif word in ("done", "refused"):
            for row, (text, verdict) in list(self.kept.rows.items()):
                elements = read(text)[1]
                if verdict and (elements[42], elements[37]) == fields[-2:]:
                    if word == "refused" and verdict.startswith("approved"):
                        self.ask(row, undoing(text))
                    else:
                        self.kept.change(row)
        else:
            sys.exit(f"iso_gateway.py: the host says {word}")

    def take_reply(self, reply):
        """Takes what the issuer said to a message."""
        kind, elements = read(reply)
        for row, (text, verdict) in list(self.kept.rows.items()):
            asked = f"{text[:2]}{int(text[2]) + 1}0", trace_of(row), read(text)[1][37]
            if verdict or asked != (kind, elements[11], elements[37]):
                continue
            if kind in ("0110", "0210"):
                code = elements[39]
                verdict = f"approved,{elements[38]}" if code == "00" else f"declined,{code}"
                self.kept.change(row, [text, verdict])
                self.answer(text, verdict)
            elif elements[39] == "00":
                self.kept.change(row)

    def serve(self):
        """Goes on until one of the two connections ends."""
        lines, frames = bytearray(), bytearray()
        while True:
            for end in select.select([self.host, self.issuer], [], [])[0]:
                came = end.recv(65536)
                if not came:
                    return
                if end is self.issuer:
                    frames += came
                    for reply in messages_in(frames):
                        self.take_reply(reply)
                else:
                    *whole, rest = (lines + came).split(b"\n")
                    lines = bytearray(rest)
                    for fields in csv.reader(it.decode("latin-1").rstrip("\r") for it in whole):
                        self.take_line(*fields)


def main():
    path, file, port = sys.argv[1:]
    kept = Kept(file)
    while True:
        try:
            with socket.socket(socket.AF_UNIX) as host, \
                    socket.create_connection(("127.0.0.1", int(port))) as issuer:
                host.connect(path)
                Gateway(host, issuer, kept).serve()
        except OSError:  # one of the two isn't there
            pass
        time.sleep(0.2)


if __name__ == "__main__":
    main()
