#!/usr/bin/env python3
"""iso_issuer.py PORT [LIMIT]: an issuer that speaks ISO 8583 over TCP, for iso_gateway.py.

It approves a request (0100, 0200) below LIMIT (10000, in minor units), declines any other with 51,
and accepts advices (0220, 0420). A message that it had before gets the reply that it had. It serves
one connection after the other, and prints what it takes, with no card number."""
import contextlib
import socket
import sys

# Elements whose length stands before them, and of how many digits it is; the bytes of all others.
LENGTHS = {2: 2, 32: 2, 33: 2, 35: 2, 45: 2, 48: 3, **{it: 3 for it in range(54, 64)}}
SIZES = {3: 6, 4: 12, 7: 10, 11: 6, 12: 6, 13: 4, 14: 4, 15: 4, 18: 4, 19: 3, 22: 3, 23: 3, 24: 3,
         25: 2, 26: 2, 37: 12, 38: 6, 39: 2, 41: 8, 42: 15, 43: 40, 49: 3, 50: 3, 52: 16, 53: 16,
         64: 16, 66: 1, 70: 3, **{it: 10 for it in range(74, 78)},
         **{it: 16 for it in range(86, 90)}, 90: 42, 95: 42, 97: 17, 128: 16}


def spelled(kind, elements):
    """The message of a type and its elements, by number, as docs/PROFILE.md spells it."""
    bits = sum(1 << 128 - it for it in elements) | (max(elements) > 64) << 127
    text = kind + f"{bits:032X}"[: 32 if bits >> 127 else 16]
    for number, content in sorted(elements.items()):
        text += f"{len(content):0{LENGTHS[number]}d}" if number in LENGTHS else ""
        text += content
    return text


def read(text):
    """The type and the elements of a message."""
    at = 36 if int(text[4], 16) & 8 else 20
    bits, elements = f"{int(text[4:at], 16):0{(at - 4) * 4}b}", {}
    for number in (it for it in range(2, len(bits) + 1) if bits[it - 1] == "1"):
        digits = LENGTHS.get(number, 0)
        length = int(text[at : at + digits]) if digits else SIZES[number]
        elements[number] = text[at + digits : at + digits + length]
        at += digits + length
    return text[:4], elements


def frame(text):
    return len(text).to_bytes(2, "big") + text.encode("latin-1")


def messages_in(held):
    """Takes the whole messages from the front of what is held."""
    while len(held) > 1 and len(held) >= 2 + int.from_bytes(held[:2], "big"):
        end = 2 + int.from_bytes(held[:2], "big")
        yield held[2:end].decode("latin-1")
        del held[:end]


def reply_to(text, had, limit):
    """The reply to a message."""
    kind, elements = read(text)
    key = kind[:3], elements[42], elements[37], elements[11]
    if key not in had:
        asks = kind[:3] in ("010", "020")
        code = "51" if asks and int(elements[4]) >= limit else "00"
        own = {38: elements[37][-6:]} if asks and code == "00" else {}
        kept = {it: elements[it] for it in (3, 4, 11, 37, 41, 42, 49) if it in elements}
        had[key] = spelled(f"{kind[:2]}{int(kind[2]) + 1}0", {**kept, **own, 39: code})
        left = f", remains {int(elements[95][:12])}" if 95 in elements else ""
        print(f"{kind} {elements[42]} {elements[37]} {int(elements[4])}{left}: {code}", flush=True)
    return had[key]


def main():
    port, *limit = sys.argv[1:]
    had = {}
    with socket.create_server(("127.0.0.1", int(port))) as server:
        while True:
            end, held = server.accept()[0], bytearray()
            with end, contextlib.suppress(ConnectionError):  # the next one asks again
                while came := end.recv(65536):
                    held += came
                    for text in messages_in(held):
                        end.sendall(frame(reply_to(text, had, int(*limit or ["10000"]))))


if __name__ == "__main__":
    main()
