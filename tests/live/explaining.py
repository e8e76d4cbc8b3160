#!/usr/bin/env python3
"""explaining.py PROGRAM: `acqd explain` says what the host says, of every event of the scenarios of
tests/rows/data.

Each event is explained over a new book behind the events before it: the code of its reply, or the
line, has to be the one that the scenario's row has. So it is of a message as a frame and in
hexadecimal, which comes at the moment of --at or now. A host that runs is asked by `explain,HEX`,
and then told the message: the reply has the code that was explained. A book is as it was."""
import concurrent.futures
import sys
import tempfile
import time
from pathlib import Path

from terminal import (
    BAD, CARD, DAY, ECHO, MOMENT, Book, Host, Wrong, code_of, frame, main, run, sale, wanted,
)

ROWS = Path(__file__).resolve().parent.parent / "rows"
sys.path.insert(0, str(ROWS))
from scenario_file import NOT_COMPARED, read_scenarios  # noqa: E402

# One event in so many is explained as a frame and in hexadecimal, too.
OTHER_FORMS = 9


def scenarios():
    """The events of each scenario behind those of its setup, with what is said to each, and what
    its book is opened with."""
    for path in sorted((ROWS / "data").glob("*.scenarios")):
        setup, found = read_scenarios(path.read_text(encoding="utf-8"))
        for it in found:
            steps = [(step.event, step.said) for step in setup.steps + it.steps]
            yield path.name, steps, ["--limit", str(it.limit), "--day", it.day]


def first_word(said):
    """What the first line of an explanation begins with, of an event that this is said to."""
    if said.startswith(b"reply "):
        return f"reply {code_of(frame(said[6:-1]))}".encode()
    return said


def compare(what, ran, said):
    """Compares an explanation with what is said to the event."""
    status, text, faults = ran
    wanted(f"{what}: how it ended", (status, faults), (0, ""))
    want = first_word(said)
    if not text.startswith(want):
        raise Wrong(f"{what}: {text!r}, and the host says {want!r}")
    if CARD.encode() in text:
        raise Wrong(f"{what}: a card number is shown whole")


def explained(program, name, steps, terms):
    """Explains each event of a scenario behind those before it."""
    count = 0
    with tempfile.TemporaryDirectory() as folder:
        for at, (event, said) in enumerate(steps):
            if said == NOT_COMPARED:
                continue
            before = Path(folder) / "events"
            before.write_bytes(b"".join(it + b"\n" for it, _ in steps[:at]))
            words = [program, "explain", "--events", str(before), *terms]
            what = f"{name}, event {at + 1} {event[:60]!r}"
            compare(what, run(words, event + b"\n"), said)
            word, *fields = event.split(b",")
            if word == b"frame" and at % OTHER_FORMS == 0 and fields[1]:
                moment, digits = fields[0].decode(), fields[1]
                text = bytes.fromhex(digits.decode())
                hexes = run([*words, "--hex", "--at", moment], digits + b"\n")
                compare(f"{what}, in hexadecimal", hexes, said)
                compare(f"{what}, as a frame", run([*words, "--at", moment], frame(text)), said)
            count += 1
    return count


def all_events(program):
    """Every event of every scenario."""
    with concurrent.futures.ThreadPoolExecutor(2) as pool:
        counts = list(pool.map(lambda it: explained(program, *it), scenarios()))
    if sum(counts) < 1000:
        raise Wrong(f"{sum(counts)} events alone were explained")


def now(program):
    """A message comes at the clock's moment, or at that of --at: a hold is open then or isn't."""
    hold = sale(1, 1, "0100", amount=5000)[2:].hex().upper()
    completion = {"kind": "0220", "trace": 2, "card": None, "amount": 5000, "e37": f"{1:012d}"}
    end = int(time.time()) + 3600
    for opened, code in ((end - 7200, "00"), (end - 8 * 86400, "25")):
        events = (
            "addrange,40000000,49999999,12345,7,\nenrol,MERCHANT0000001,978,1,,\n"
            f"terminal,MERCHANT0000001,TERM0001,,,\nframe,{opened},{hold},,,\n"
            f"answer,{opened},MERCHANT0000001,1,approved,H00001\n"
        )
        with tempfile.NamedTemporaryFile("w") as file:
            file.write(events)
            file.flush()
            words = [program, "explain", "--events", file.name, "--day", DAY]
            came = {
                "now": (code, run(words, sale(1, **completion))),
                "in time": ("00", run([*words, "--at", str(opened + 60)], sale(1, **completion))),
                "late": ("25", run([*words, "--at", str(opened + 8 * 86400)],
                                   sale(1, **completion))),
            }
        for when, (want, (status, text, _)) in came.items():
            wanted("how it ended", status, 0)
            if not text.startswith(f"reply {want}".encode()):
                raise Wrong(f"a completion {when} of a hold of {opened}: {text!r}")


def a_full_day(program):
    """A day that admits one message, and a second one."""
    with tempfile.NamedTemporaryFile("w") as file:
        file.write(f"addrange,40000000,49999999,12345,7,\nenrol,MERCHANT0000001,978,1,,\n"
                   f"terminal,MERCHANT0000001,TERM0001,,,\n"
                   f"frame,{MOMENT},{sale(1, 1)[2:].hex()},,,\n")
        file.flush()
        words = [program, "explain", "--events", file.name, "--limit", "1", "--day", DAY]
        _, text, _ = run([*words, "--at", str(MOMENT)], sale(1, 2))
    wanted("a message on a full day", text.decode(), (
        "reply 65, day-full: the merchant's day is full\n"
        "    passed: elements, merchant, terminal, key, transaction, currency, amount, card, "
        "expiry, range\n    messages that a day admits: 1\n"))


def in_a_file(program):
    """Over a book in a file, which is as it was; an input that ends inside a frame, or has none."""
    with Book(program) as book:
        before = book.output("status")
        text = book.output("explain", "--at", str(MOMENT), given=sale(1, 1) + ECHO)
        wanted("what is asked", text.splitlines()[0][:28], "ask MERCHANT0000001 00000000")
        wanted("a book that was looked at", book.output("status"), before)
        event = f"frame,{MOMENT},{sale(1, 1)[2:].hex()},,,\n"
        said = book.output("replay", given=event)
        wanted("what was explained, and is said then", said, text.splitlines(True)[0])
        for given, fault in ((sale(1, 1) + ECHO[:9], "51 Ended"), (BAD, "50 BadLength")):
            wanted("an input that is cut", book.run("explain", given=given),
                   (1, b"", f"acqd: {fault}\n"))
        hexes = ["explain", "--hex"]
        wanted("no hexadecimal", book.run(*hexes, given="0800\nXY\n"),
               (1, b"", "acqd: 62 BadLine 2\n"))
        wanted("a book that takes events first", book.run("explain", "--events", "no"),
               (2, b"", "acqd: bad value --events\n"))


def by_control(program):
    """A host that runs says what it would say, and says it then."""
    with Book(program) as book, Host(book, "--together", "8", control=True) as host:
        sent = [sale(1, 1), sale(1, 1, amount=2000), sale(1, 2, e49="840"), sale(1, 3, e2=None),
                sale(1, 4, amount=0), sale(2, 5), ECHO]
        for it in sent:
            digits = it[2:].hex().upper()
            text = host.tell(f"explain,{digits}")
            again = host.tell(f"explain,{digits}")
            wanted("what it would say, asked again", again, text)
            said = host.tell(f"frame,now,{digits},,,").encode("latin-1")
            compare("what a host would say", (0, text.encode("latin-1"), ""), said)
        lines = ["explain,", "explain,0", "explain,XY", "explain", 'explain,"00"x', "explain,00,1"]
        words = [program, "tell", host.control_path]
        _, _, faults = run(words, "".join(f"{it}\n" for it in lines))
        wanted("lines out of form", faults,
               "".join(f"acqd: 62 BadLine {at}\n" for at in (2, 3, 4, 5, 6)))


if __name__ == "__main__":
    sys.exit(main([all_events, now, a_full_day, in_a_file, by_control], at_once=2))
