#!/usr/bin/env python3
"""making.py PROGRAM [COUNT]: messages of random elements, made of text and shown again.

`make` of each text has to give the frames that the encoder of these scripts spells: of what `show`
prints of them, once what it hides is written whole, and of their elements by numbers alone."""
import random
import subprocess
import sys

from terminal import MOMENT, frame, main, size, spelled, wanted

DIGITS, HEX = "0123456789", "0123456789ABCDEFabcdef"
LETTERS = "ABCDEFGHIJKLMNOPQRSTUVWXYZabcdefghijklmnopqrstuvwxyz"
TRACK = DIGITS + ":;<=>?D"
PRINTABLE = "".join(map(chr, range(0x20, 0x7F)))
# The elements as docs/PROFILE.md has them: how many bytes at least and at most, and which.
NUMERIC = {
    3: 6, 4: 12, 7: 10, 11: 6, 12: 6, 13: 4, 14: 4, 15: 4, 18: 4, 19: 3, 22: 3, 23: 3, 24: 3,
    25: 2, 26: 2, 53: 16, 66: 1, 70: 3, **{it: 10 for it in range(74, 78)},
    **{it: 16 for it in range(86, 90)}, 90: 42,
}
ALPHANUMERIC = {37: 12, 38: 6, 39: 2, 49: 3, 50: 3, 95: 42}
FORMS = {
    2: (0, 19, DIGITS), 32: (0, 11, DIGITS), 33: (0, 11, DIGITS), 35: (0, 37, TRACK),
    41: (8, 8, PRINTABLE), 42: (15, 15, PRINTABLE), 43: (40, 40, PRINTABLE),
    45: (0, 76, PRINTABLE), 54: (0, 120, PRINTABLE),
    **{it: (16, 16, HEX) for it in (52, 64, 128)},
    **{it: (0, 120, PRINTABLE) for it in (48, *range(55, 64))},
    **{it: (count, count, DIGITS) for it, count in NUMERIC.items()},
    **{it: (count, count, DIGITS + LETTERS + " ") for it, count in ALPHANUMERIC.items()},
}
# What `show` prints masked, or not at all.
HIDDEN = (2, 35, 45, 52, 55)
# Codes that mean something, so that `show` says what.
MEANT = {3: ["000000", "200030"], 39: ["00", "51", "94"], 66: ["1", "2"], 70: ["001", "301"]}


def content(chance, number):
    if number in MEANT and chance.random() < 0.5:
        return chance.choice(MEANT[number])
    if number == 97:
        return chance.choice("CD") + "".join(chance.choices(DIGITS, k=16))
    least, most, some = FORMS[number]
    count = chance.choice((least, most, chance.randint(least, most)))
    text = "".join(chance.choices(some, k=count))
    # `make` takes this for what `show` prints in place of track 1 and of chip data.
    return text.replace("(length ", "(Length ")


def message_of(chance):
    """A type, and contents of elements by number."""
    kind = "0" + "".join(chance.choices(DIGITS, k=3))
    numbers = chance.sample([*FORMS, 97], chance.randint(1, 20))
    return kind, {number: content(chance, number) for number in sorted(numbers)}


def ran(program, words, given):
    return subprocess.run([program, *words], input=given, capture_output=True, check=False)


def whole(text, messages):
    """What was shown of these messages, with what is hidden written whole."""
    shown = iter(messages)
    for line in text.splitlines():
        number = line[:5].strip()
        if line[:4].isdigit():
            _, elements = next(shown)
        elif number.isdigit() and int(number) in HIDDEN:
            line = line[:41] + elements[int(number)]
        yield line


def by_numbers(chance, messages):
    """The messages by numbers alone, their elements in any order."""
    for kind, elements in messages:
        yield kind
        for number, it in chance.sample(sorted(elements.items()), len(elements)):
            yield f"{number} {it}"


def made(what, program, lines, frames, words=()):
    """These lines, made into messages."""
    text = "".join(f"{line}\n" for line in lines)
    got = ran(program, ["make", *words], text.encode("latin-1"))
    wanted(f"{what}: the status", (got.returncode, got.stderr), (0, b""))
    wanted(what, got.stdout, frames)


def messages(program):
    chance = random.Random(62)
    given = [message_of(chance) for _ in range(size(300))]
    texts = [spelled(*it).encode("latin-1") for it in given]
    frames = b"".join(frame(it) for it in texts)
    shown = ran(program, ["show"], frames).stdout.decode("latin-1")
    made("what was shown, made again", program, whole(shown, given), frames)
    hexes = [it.hex().upper() for it in texts]
    made("the same in hexadecimal", program, whole(shown, given), "".join(
        f"{it}\n" for it in hexes).encode(), ["--hex"])
    made("the same as event lines", program, whole(shown, given), "".join(
        f"frame,{MOMENT},{it},,,\n" for it in hexes).encode(), ["--event", str(MOMENT)])
    # Spaces in front are content only behind the name's column.
    plain = [it for it in given if not any(text.startswith(" ") for text in it[1].values())]
    made(
        "elements by numbers", program, by_numbers(chance, plain),
        b"".join(frame(spelled(*it).encode("latin-1")) for it in plain),
    )


if __name__ == "__main__":
    sys.exit(main([messages]))
