#!/usr/bin/env python3
"""json_messages.py PROGRAM [COUNT]: messages as JSON, both ways, beside Python's json and the
decoder and the encoder of these scripts.

`show --json --whole` of random messages has to give their types and elements as Python reads
them, and `make --json` of what Python writes the same frames. Without --whole the elements that may tell a
card are masked, as `show` masks them, and all others stand whole."""
import json
import random
import subprocess
import sys

from making import HIDDEN, content, message_of
from terminal import MOMENT, elements_of, frame, main, size, spelled, wanted

COUNT = size(300)
# Elements of any bytes.
ANY = (48, *range(55, 64))


def ran(program, words, given):
    got = subprocess.run([program, *words], input=given, capture_output=True, check=False)
    wanted(f"how {' '.join(words)} ended", (got.returncode, got.stderr), (0, b""))
    return got.stdout


def given_messages(chance):
    """Random messages, some with elements of any bytes."""
    for _ in range(COUNT):
        kind, elements = message_of(chance)
        for number in ANY:
            if number in elements and chance.random() < 0.7:
                count = chance.randint(0, 60)
                elements[number] = "".join(map(chr, chance.choices(range(256), k=count)))
        yield kind, elements


def objects(text):
    """The objects of a text, one a line, with their elements by number, which ascend."""
    for line in text.decode("utf-8").split("\n")[:-1]:
        it = json.loads(line)
        wanted("the members", list(it), ["type", "elements"])
        numbers = [int(number) for number in it["elements"]]
        wanted("the elements ascend", numbers, sorted(numbers))
        yield it["type"], {int(number): text for number, text in it["elements"].items()}


def number_masked(number):
    if len(number) < 13:
        return "*" * len(number)
    return number[:6] + "*" * (len(number) - 10) + number[-4:]


def masked(number, text):
    """A content as it is shown without --whole."""
    if number == 2:
        return number_masked(text)
    if number == 35:
        card, sign, after = text.replace("D", "=").partition("=")
        whole = sign and set(card) <= set("0123456789") and len(card) <= 19
        return f"{number_masked(card)}={'*' * len(after)}" if whole else "*" * len(text)
    return f"(length {len(text)}, not shown)"


def shown(program):
    """What `show --json` writes of random messages, as frames, in hexadecimal and in lines."""
    given = list(given_messages(random.Random(8583)))
    texts = [spelled(*it).encode("latin-1") for it in given]
    frames = b"".join(map(frame, texts))
    read = [elements_of(frame(it)) for it in texts]
    read = [(it.pop(0), it) for it in read]
    wanted("what these scripts read", read, given)
    whole = ran(program, ["show", "--json", "--whole"], frames)
    wanted("messages as JSON", list(objects(whole)), given)
    hexes = "".join(f"{it.hex()}\n" for it in texts).encode()
    wanted("of hexadecimal", ran(program, ["show", "--json", "--whole", "--hex"], hexes), whole)
    lines = "".join(f"cutover,{MOMENT},,,,\nframe,{MOMENT},{it.hex()},,,\n" for it in texts)
    wanted("of event lines", ran(program, ["show", "--json", "--whole"], lines.encode()), whole)
    hidden = list(objects(ran(program, ["show", "--json"], frames)))
    tracks = [it for it in given if 35 in it[1]]
    for (kind, elements), (_, found) in zip(given, hidden):
        want = {n: masked(n, it) if n in HIDDEN else it for n, it in elements.items()}
        wanted(f"a masked {kind}", found, want)
    wanted("tracks were among them", len(tracks) > COUNT // 60, True)


def made(program):
    """What `make --json` makes of the objects that Python writes, in whatever order and layout."""
    chance = random.Random(1987)
    given = [it for it in given_messages(chance)]
    for _, elements in given:
        for number in (45, 55):
            elements.update({number: content(chance, number)} if number in elements else {})
    frames = b"".join(frame(spelled(*it).encode("latin-1")) for it in given)
    lines = []
    for kind, elements in given:
        order = chance.sample(sorted(elements), len(elements))
        members = {"type": kind, "elements": {str(number): elements[number] for number in order}}
        if chance.random() < 0.5:
            members = dict(reversed(members.items()))
        layout = chance.choice(((",", ":"), (", ", ": "), (" , ", " : ")))
        lines.append(json.dumps(members, ensure_ascii=chance.random() < 0.5, separators=layout))
    text = "".join(f"{it}\n" for it in lines).encode("utf-8")
    wanted("messages of JSON", ran(program, ["make", "--json"], text), frames)
    again = ran(program, ["show", "--json", "--whole"], frames)
    wanted("what was shown, made again", ran(program, ["make", "--json"], again), frames)
    hexes = "".join(f"{spelled(*it).encode('latin-1').hex().upper()}\n" for it in given).encode()
    wanted("in hexadecimal", ran(program, ["make", "--json", "--hex"], text), hexes)


if __name__ == "__main__":
    sys.exit(main([shown, made]))
