#!/usr/bin/env python3
"""frame.py TYPE NUMBER=CONTENT ..: writes one frame, two bytes of length and a message.

The contents are not checked: what a host has to refuse can be made, too."""
import sys

# Elements whose length stands before their content, and of how many digits it is.
LENGTHS = {2: 2, 32: 2, 33: 2, 35: 2, 45: 2, 48: 3, **{it: 3 for it in range(54, 64)}}


def spelled(kind, elements):
    """A message of these elements, by number, as docs/PROFILE.md spells it."""
    bits = sum(1 << 128 - it for it in elements)
    if max(elements) > 64:
        bits |= 1 << 127
    text = kind + f"{bits:032X}"[: 32 if max(elements) > 64 else 16]
    for number, content in sorted(elements.items()):
        if number in LENGTHS:
            text += f"{len(content):0{LENGTHS[number]}d}"
        text += content
    return text


def main():
    kind, *given = sys.argv[1:]
    pairs = (it.split("=", 1) for it in given)
    message = spelled(kind, {int(number): content for number, content in pairs}).encode("latin-1")
    sys.stdout.buffer.write(len(message).to_bytes(2, "big") + message)


main()
