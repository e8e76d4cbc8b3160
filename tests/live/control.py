#!/usr/bin/env python3
"""control.py PROGRAM [TERMINALS]: a control socket beside sixty-four terminals, over real sockets.

Terminals send sales, cut anywhere, while two control connections cut the day over, enrol a
merchant, answer and ask for texts. Each terminal is to get what `once` gives on its frames alone,
with the cutover at some place between them; each control connection gets a line for each of its
lines, or a text; the texts of the day that is over, asked for while sales of the next one go on and
again behind them, are those that the commands write of the book afterwards. Then `stop` ends the
host with status 0, and its file alone is the book. The socket's file is its owner's alone; one that
a host left is replaced, one at which a host listens is told as 53. The host's log has a line for
each connection, reply and line of a control connection, and no card number; it is its owner's
alone, too, and one that can't be opened is told; if it is standard error, nothing waits for who
reads that. `acqd tell` gets the answers as they come, of a text its bytes alone, and fails with 53
or 51 if nobody listens, or a host ends inside an answer. Then the rows of `control.lines` are
played, each line cut anywhere, beside a connection that ends inside a line that is too long.

A clearing file is made in slices: while it is asked for, a terminal's echoes and sales of the next
day are answered one by one, another control connection gets its answers, and one that asked and
went away leaves the host well. The file is that of `clearing` over a copy of the book. So it is of
what a `report`, a `find` and a `statement` are answered with, for which rows are gone over in
slices."""
import os
import random
import re
import select
import signal
import socket
import sqlite3
import stat
import subprocess
import sys
import threading
from collections import Counter
from contextlib import closing

from terminal import (
    APPROVING, DAY, ECHO, MOMENT, PATIENCE, REPLY, Book, Host, Wrong, code_of, free_port,
    is_readable, log_lines, main, merchant, output, run, sale, size, split_frames, wanted, when,
)

TERMINALS = size(64)
# Merchants whose day is cleared, with names between theirs, and how many sales they have in all.
SHOPS, SALES = range(10, 70, 10), 3000
# A host that makes a clearing file in one piece answers four messages of a terminal at most before
# the file: one in each round in which it reads the line, takes it and writes, and one before them.
# One that makes it in slices answers some two dozen.
IN_SLICES, TURNS = 6, 30
OF_THIRD = f"WHERE merchant = '{merchant(SHOPS[2])}' AND day = (SELECT MIN(day) FROM postings)"
# What somebody may change of that day: its first posting, its last one, a merchant's totals, and
# totals of a merchant that has no posting; and how that is put right.
CHANGES = [
    ("UPDATE postings SET amount = amount + 1 WHERE rowid = 1",
     "UPDATE postings SET amount = amount - 1 WHERE rowid = 1"),
    (f"UPDATE postings SET leg = 5 - leg WHERE rowid = {SALES}",
     f"UPDATE postings SET leg = 5 - leg WHERE rowid = {SALES}"),
    (f"UPDATE running SET debits = debits + 1 {OF_THIRD}",
     f"UPDATE running SET debits = debits - 1 {OF_THIRD}"),
    (f"INSERT INTO running SELECT '{merchant(95)}', day, 0, 0, 0, 1, 0, 0, 0, 1, 0 "
     f"FROM running {OF_THIRD}",
     f"DELETE FROM running WHERE merchant = '{merchant(95)}'"),
]
HERE = os.path.dirname(os.path.abspath(__file__))


def frames_of(k):
    return [*(sale(k, trace) for trace in range(1, 6)), sale(k, 3, "0201")]


def once(book, given):
    words = ["--issuers", book.file("issuers.csv", APPROVING), "--at", str(MOMENT)]
    return book.output("once", *words, given=given).encode("latin-1")


def alone(program, terminals):
    """What each terminal gets if no other one talks, for each place that the cutover may have."""
    given = {k: [] for k in terminals}
    for cut in range(len(frames_of(0)) + 1):
        with Book(program, merchants=range(TERMINALS)) as book:
            before = once(book, b"".join(it for k in terminals for it in frames_of(k)[:cut]))
            book.output("replay", given=f"cutover,{MOMENT},,,,\n")
            behind = once(book, b"".join(it for k in terminals for it in frames_of(k)[cut:]))
        before, behind = split_frames(before)[0], split_frames(behind)[0]
        for at, k in enumerate(terminals):
            rest = len(frames_of(k)) - cut
            given[k].append(before[at * cut :][:cut] + behind[at * rest :][:rest])
    return given


def tell(program, path, given):
    """What `acqd tell` ends with, and what it writes."""
    return run([program, "tell", path], given)


def tell_one_by_one(program, path, lines):
    """The answers where each line is sent once the answer to the one before it came."""
    words, pipe = [program, "tell", path], subprocess.PIPE
    with subprocess.Popen(words, stdin=pipe, stdout=pipe) as told:
        got = []
        for line in lines:
            told.stdin.write(line)
            told.stdin.flush()
            got.append(told.stdout.readline())
        told.stdin.close()
        return told.wait(60), got


def tell_half_a_host(program, path, answers):
    """What `acqd tell` says of a host that answers lines with these bytes, and ends behind the
    last."""
    with socket.socket(socket.AF_UNIX) as listener:
        listener.bind(path)
        listener.listen()
        got = []

        def serve():
            end, _ = listener.accept()
            with end, end.makefile("rb") as lines:
                for answer in answers:
                    got.append(lines.readline())
                    end.sendall(answer)

        host = threading.Thread(target=serve)
        host.start()
        told = tell(program, path, b"".join(b"line %d\n" % k for k in range(3)))
        host.join(60)
        return *told, got


def talk(host, one, other, chance, back_up):
    """The sales of one day and those of the next, with what two control connections ask between
    them."""
    ends = [host.terminal() for _ in range(TERMINALS)]
    left = {end: b"".join(frames_of(k)) for k, end in enumerate(ends)}
    asks = [
        (one, "enrol,NEW,978,1,,", "done"),
        (other, "enrol,NEW,978,1,,", "refused 36"),
        (other, "terminal,NEW,TERM0001,,,", "done"),
        (one, "clearing,2024-05-01", "acqd: 60 DayNotOver"),
        (other, "enrol,NEW", "acqd: 62 BadLine 3"),
        (one, "answer,now,NEW,1,none,", "refused 34"),
        (one, "cutover,now,,,,", "done"),
        (other, "holds,NOBODY,now", "acqd: 37 NoSuchMerchant"),
        (other, "holds,NEW,now", b"reference,card,amount,until\n"),
    ]
    early, turns, pace = {}, 0, 7 * TERMINALS // 64 or 1
    while any(left.values()) or asks:
        for end in chance.sample(ends, min(4, TERMINALS)):
            n = chance.choice([1, 3, 50, 300])
            end.send(left[end][:n])
            left[end] = left[end][n:]
        turns += 1
        if len(asks) == 3 and turns % pace == pace - 1:
            back_up(ends)
        if asks and turns % pace == 0:
            asked, line, want = asks.pop(0)
            wanted(line, asked.ask(line), want)
        if not asks and turns % pace == 0 and any(left.values()):
            early = {word: one.ask(f"{word},{DAY}") for word in ("clearing", "report")}
        for end in select.select(ends, [], [], 0)[0]:
            end.more(0)
    return [split_frames(end.finish())[0] for end in ends], early


def look_into_log(host, got, controls, told):
    """The log has a line for each thing that happened, of a control connection for each line and
    of the lines that were told for each a connection of its own, and of cards their masks alone."""
    text = host.log()
    wanted("digits of a card in the log", re.findall("[0-9]{16}", text), [])
    lines = log_lines(text)
    first = {key: lines[0].get(key) for key in ("event", "address", "day")}
    wants = {"event": "listening", "address": f"127.0.0.1:{host.port}", "day": DAY}
    wanted("the log's first line", first, wants)
    timed = [it for it in lines if re.fullmatch("20[0-9-]{8}T[0-9:]{8}Z", it["time"])]
    wanted("lines with a time", len(timed), len(lines))
    events = Counter(it["event"] for it in lines)
    replies = [it for it in lines if it["event"] == "reply"]
    asked = [it for it in lines if it["event"] == "line"]
    closed = events["closed"] - TERMINALS in (len(told) - 1, len(told))
    opened = TERMINALS + len(controls) + len(told)
    wanted("lines for connections", (events["opened"], closed), (opened, True))
    wants = Counter({merchant(k): len(frames) for k, frames in enumerate(got)})
    wanted("lines for replies", Counter(it["merchant"] for it in replies), wants)
    keys = ("type", "terminal", "code", "amount", "card")
    wants = {("0210", "TERM0001", "00", "1000", "411111******1111")}
    wanted("what a reply's line has", {tuple(it[key] for key in keys) for it in replies}, wants)
    untimed = [it for it in replies + asked if not it["microseconds"].isdigit()]
    wanted("replies without a time", untimed, [])
    words = [*told, *(word for control in controls for word in control.words)]
    wanted("lines for control connections", sorted(it["word"] for it in asked), sorted(words))
    wanted("faults of lines", {it["fault"] for it in asked if "fault" in it}, {"37", "60", "62"})


def log_to_standard_error(program):
    """Lines go to standard error, as many as it takes at once: no line of a control connection
    waits for who reads it."""
    with Book(program) as book:
        with Host(book, control=True, log="-", stderr=subprocess.PIPE) as host:
            asked, count = host.control(), 2000
            said = Counter(asked.ask("stop," if k else "holds,NOBODY,now") for k in range(count))
            wants = Counter(f"acqd: 62 BadLine {k + 1}" for k in range(1, count))
            wanted("answers beside a log that nobody reads", said,
                   wants + Counter(["acqd: 37 NoSuchMerchant"]))
            asked.ask("stop")
            lines = host.process.communicate(timeout=PATIENCE)[1].decode().splitlines()
            wanted("lines of the log on standard error", 100 < len(lines) < count, True)
            wanted("the first of them", " event=listening " in lines[0], True)
            wanted("other lines", [it for it in lines if not it.startswith("time=20")], [])
            wanted("the status", host.process.returncode, 0)


def copy_of(host, copy):
    """A copy of the book of a host, which holds still for it."""
    host.hold_still()
    try:
        return host.book.copy(copy)
    finally:
        host.go_on()


def look_into_copies(program, folder, copies):
    """Each copy is a book, in which each message that was answered gets the reply that it had."""
    wanted("whether there are copies", len(copies) > 0, True)
    for copy, got in copies:
        output([program, "status", "--db", copy])
        words = [program, "once", "--db", copy, "--issuers", f"{folder}/issuers.csv", "--at"]
        for k in range(0, TERMINALS, 9):
            sent = b"".join(frames_of(k)[: len(got[k])])
            again = output([*words, str(MOMENT)], sent)
            wanted(f"replies of a copy to terminal {k}", split_frames(again)[0], got[k])


def many(found):
    """So many of what stands behind the number; `\\r` is a carriage return."""
    return found[2].replace("\\r", "\r") * int(found[1])


def rows_of(path):
    """The lines of a file of rows, each with what is wanted of its answer: a line, or a pattern of
    a text."""
    rows, was_blank = [], False
    for line in open(path).read().splitlines():
        if not line.startswith((" ", "#")):
            line = re.sub("{([0-9]+) ([^}]+)}", many, line)
        if line.startswith("    "):
            want = line[4:]
            if was_blank:
                rows.append(["", None])
            if want.startswith("|"):
                text = want[2:].encode() + b"\n" if want != "|" else b""
                rows[-1][1] = (rows[-1][1] or b"") + text
            else:
                rows[-1][1] = want.replace("|", "")
        elif line and not line.startswith("#"):
            if line.startswith("frame "):
                line = f"frame,now,{line[6:].replace('|', '').encode().hex()},,,"
            rows.append([line, None])
        was_blank = not line
    return rows


def play_rows(program):
    """Each line of a file of rows gets its answer."""
    with Book(program, merchants=None) as book:
        with Host(book, "--together", "2", issuers=None, control=True, log=True) as host:
            cut, asked = host.control(), host.control()
            cut.end.sendall(b"stop" * 10000)
            cut.end.shutdown(socket.SHUT_WR)
            wanted("the end inside a line that is too long", cut.end.recv(1), b"")
            rows = rows_of(f"{HERE}/control.lines")
            for line, want in rows:
                got = asked.ask(line)
                if not (isinstance(want, bytes) and isinstance(got, bytes) and is_of(want, got)):
                    wanted(line, got, want)
            wanted("the end of the rows", host.ends(), (0, ["acqd: 51 Ended"]))
            wanted("digits of a card in the log", re.findall("[0-9]{16}", host.log()), [])
            words = [it["word"] for it in log_lines(host.log()) if it["event"] == "line"]
            wanted("words in the log", len(words), len(rows))
            long = [word for (line, _), word in zip(rows, words) if len(line) >= 16383]
            wanted("words of long lines in the log", long, ["frame"] + ["other"] * 5)
            lists = [word for (line, _), word in zip(rows, words) if line.startswith("list")]
            wanted("words of listings in the log", lists, ["list"] * 6)
            sums = [word for (line, _), word in zip(rows, words) if line.startswith("sums")]
            wanted("words of sums in the log", sums, ["sums"] * 4)
            found = [word for (line, _), word in zip(rows, words) if line.startswith("find")]
            wanted("words of what is found in the log", found, ["find"] * 13)
            stated = [word for (line, _), word in zip(rows, words) if line.startswith("statement")]
            wanted("words of statements in the log", stated, ["statement"] * 12)


def is_of(want, text):
    """Whether a text is that of a row, in which `*` is any number."""
    return re.fullmatch(b"[0-9]+".join(map(re.escape, want.split(b"*"))), text)


def tell_answers(program):
    """What `tell` writes of lines, texts and faults, and where no host answers whole."""
    with Book(program) as book:
        path = f"{book.folder}/host.control"
        wanted("nobody there", tell(program, path, b"stop\n"), (1, b"", "acqd: 53 Read\n"))
        half = tell_half_a_host(program, f"{book.folder}/half", [b"done\n", b"text 10\nday,"])
        wanted("a host that ends in between", half,
               (1, b"done\n", "acqd: 51 Ended\n", [b"line 0\n", b"line 1\n"]))
        words = ["--port", str(free_port()), "--log", f"{book.folder}/none/host.log"]
        ended = book.run("listen", *words)
        wanted("a log that can't be opened", ended, (1, b"", "acqd: 53 Read\n"))
        with Host(book, "--together", "2", control=True, log=True) as host:
            first = host.control()
            wanted("an answer", first.ask("enrol,NEW"), "acqd: 62 BadLine 1")
            modes = [stat.S_IMODE(os.stat(it).st_mode) for it in (path, host.log_path)]
            wanted("the modes of the socket and the log", modes, [0o600] * 2)
            wanted("lines that are told", tell(program, path, b"enrol,TOLD,978,1,,\n" * 2),
                   (0, b"done\nrefused 36\n", ""))
            wanted("a text that is told", tell(program, path, b"holds,TOLD,now\n"),
                   (0, b"reference,card,amount,until\n", ""))
            lines = b"clearing,2024-05-01\nenrol,TOLD,978,1,,\n"
            wanted("a fault that is told", tell(program, path, lines),
                   (1, b"refused 36\n", "acqd: 60 DayNotOver\n"))
            answers = tell_one_by_one(program, path, [b"enrol,TOLD,978,1,,\n"] * 3)
            wanted("lines one by one", answers, (0, [b"refused 36\n"] * 3))


def a_socket_that_is_taken(program):
    """A host at whose path another one listens isn't begun, and a path that one left is
    replaced."""
    with Book(program) as book, Book(program) as second:
        path = f"{book.folder}/host.control"
        with Host(book, control=True) as host:
            first = host.control()
            wanted("an answer", first.ask("enrol,NEW"), "acqd: 62 BadLine 1")
            words = ["--port", str(free_port()), "--control", path]
            wanted("a host at a socket that is taken", second.run("listen", *words),
                   (1, b"", "acqd: 53 Read\n"))
            wanted("another answer", first.ask("enrol,NEW"), "acqd: 62 BadLine 2")
            host.end(signal.SIGKILL)
        wanted("nobody there any more", tell(program, path, b"stop\n"), (1, b"", "acqd: 53 Read\n"))
        with Host(second, "--control", path) as host:
            host.control_path = path
            wanted("an answer of the next one", host.control().ask("stop"), "stopping")
            wanted("the end", host.ends(), (0, []))


def a_day(program):
    """Terminals sell beside two control connections, and the day is cut over, cleared and
    settled."""
    chance = random.Random(8583)
    wants = alone(program, range(TERMINALS))
    with Book(program, merchants=range(TERMINALS)) as book:
        with Host(book, "--together", str(TERMINALS), control=True, log=True) as host:
            one, other, copies = host.control(chance), host.control(chance), []

            def back_up(ends):
                copies.append((f"{book.folder}/copy{len(copies)}.db",
                               [split_frames(end.held)[0] for end in ends]))
                copy_of(host, copies[-1][0])

            got, early = talk(host, one, other, chance, back_up)
            look_into_copies(program, book.folder, copies)
            for k, frames in enumerate(got):
                if frames not in wants[k]:
                    wanted(f"replies to terminal {k}", frames, wants[k][0])
            texts = {word: one.ask(f"{word},{DAY}") for word in ("clearing", "report")}
            wanted("texts while sales go on", early, texts)
            figures = b"".join(one.ask(word) for word in ("status", "metrics"))
            wanted("digits of a card in the figures", re.findall(b"[0-9]{13}", figures), [])
            count = re.findall(rb"(?m)^merchants ([0-9]+)$", figures)
            wanted("merchants by the figures", count, [b"%d" % (TERMINALS + 1)])
            for word, text in texts.items():
                wanted(f"told {word}", host.tell(f"{word},{DAY}").encode(), text)
            wanted("stop", host.tell("stop"), "stopping\n")
            wanted("the end", host.ends(), (0, []))
            look_into_log(host, got, [one, other], ["clearing", "report", "stop"])
        os.remove(f"{book.path}-wal")
        for word, text in texts.items():
            wanted(word, book.output(word, "--day", DAY).encode(), text)


def end_day(book, shops=SHOPS):
    """A day of sales of each shop in its turn, with their answers, that is over: its clearing file,
    of a copy of the book."""
    lines = []
    for it in range(SALES):
        number, k = divmod(it, len(shops))
        lines.append(f"frame,{MOMENT},{sale(shops[k], number + 1)[2:].hex()},,,\n")
        lines.append(f"answer,{MOMENT},{merchant(shops[k])},{number + 1},approved,A1B2C3\n")
    lines.append(f"cutover,{MOMENT},,,,\n")
    book.output("replay", "--group", "1000", given="".join(lines))
    copy = book.copy(f"{book.folder}/copy.db")
    file = output([book.program, "clearing", "--db", copy, "--day", DAY])
    wanted("lines of the file", file.count(b"\n"), SALES + 1)
    return file


class Seller:
    """A terminal of each shop in turn: echoes, and sales of the day that goes on."""

    def __init__(self, host):
        self.end, self.trace = host.terminal(), SALES

    def turn(self):
        """An echo and a sale are answered, each before the next is sent."""
        self.trace += 1
        wanted("the reply to an echo", self.end.ask(ECHO), REPLY)
        sold = self.end.ask(sale(SHOPS[self.trace % len(SHOPS)], self.trace))
        wanted("the code of a sale beside a clearing file", code_of(sold), "00")


def ask_beside(one, other, seller, line, file, asked=f"clearing,{DAY}"):
    """Asks for a clearing file or another text, and for the line's answer over another connection:
    how many messages were answered before the first byte of the file was there, and that answer, if
    it came before it, too. The rest of the file is read while the terminal goes on."""
    one.end.sendall(f"{asked}\n".encode())
    other.end.sendall(f"{line}\n".encode())
    answered, answer, early = 0, None, None
    while True:
        seller.turn()
        if answer is None and is_readable(other.end, 0):
            answer = other.answer()
        if is_readable(one.end, 0):
            break
        # Nothing of the file is there, so all this was before it.
        answered, early = answered + 2, answer
    whole, got = b"text %d\n" % len(file) + file, b""
    while len(got) < len(whole):
        got += one.taken(min(9000, len(whole) - len(got)))
        seller.turn()
    wanted("the file beside terminals", got, whole)
    return answered, early, answer or other.answer()


def a_file_in_slices(program):
    """Terminals and other control connections go on while a clearing file is made, and what they
    do changes nothing in it."""
    with Book(program, SHOPS) as book:
        file = end_day(book)
        with Host(book, "--together", "8", control=True) as host:
            one, other, seller = host.control(), host.control(), Seller(host)
            # Each has its place, in this order.
            for it in (one, other):
                wanted("an answer", it.ask("enrol,NEW"), "acqd: 62 BadLine 1")
            beside = {
                "status": lambda turn: "status",
                "enrol": lambda turn: f"enrol,{merchant(SHOPS[0] + turn + 1)},978,1,,",
                "cutover": lambda turn: "cutover,now,,,,",
            }
            for word, line in beside.items():
                # On a slow machine the terminal may be late, and the host makes slices meanwhile.
                seen = []
                while not any(count >= IN_SLICES and early for count, early in seen):
                    if len(seen) == TURNS:
                        raise Wrong(f"answers before a file, with and without {word}: {seen}")
                    *before, answer = ask_beside(one, other, seller, line(len(seen)), file)
                    well = b"merchants " in answer if word == "status" else answer == "done"
                    wanted(f"whether {word} is answered well", well, True)
                    seen.append((before[0], before[1] is not None))
            go_away(host, seller)
            wanted("the file once others went away", one.ask(f"clearing,{DAY}"), file)
            one.end.sendall(f"clearing,{DAY}\n".encode())
            wanted("stop beside a file", other.ask("stop"), "stopping")
            wanted("the file beside stop", one.answer(), file)
            wanted("the end", host.ends()[0], 0)
        cut_off_in_a_file(book)
        wanted("the file afterwards", book.output("clearing", "--day", DAY).encode(), file)


class Beside:
    """Two control connections and a terminal of a host, for texts before which rows are gone over
    in slices."""

    def __init__(self, host):
        self.host, self.one, self.other = host, host.control(), host.control()
        self.seller = Seller(host)
        # Each has its place, in this order.
        for it in (self.one, self.other):
            wanted("an answer", it.ask("enrol,NEW"), "acqd: 62 BadLine 1")

    def asks(self, asked, text):
        """The text is what is answered, and before it messages of the terminal are, and a status;
        so it is once others asked for it and went away."""
        seen = []
        while not any(count >= IN_SLICES and early for count, early in seen):
            if len(seen) == TURNS:
                raise Wrong(f"answers before {asked}: {seen}")
            answered, early, answer = ask_beside(
                self.one, self.other, self.seller, "status", text, asked)
            wanted("whether status is answered well", b"merchants " in answer, True)
            seen.append((answered, early is not None))
        go_away(self.host, self.seller, asked, len(text) // 2)
        wanted(f"{asked} once others went away", self.one.ask(asked), text)


def found_in_slices(program):
    """Terminals and other control connections go on while requests and postings are gone over for a
    `find`; of more than a hundred requests a host says just that, and a file tells of all."""
    with Book(program, SHOPS) as book:
        # All sales of the day are of one shop.
        end_day(book, SHOPS[:1])
        words = ["--merchant", merchant(SHOPS[0]), "--reference", "1"]
        text = book.output("find", *words).encode()
        words[2:] = ["--card-ends", "1111", "--day", DAY]
        lines = Counter(line.split()[3] for line in book.output("find", *words).splitlines())
        told = {"sale": SALES, "reply": SALES, "posted": SALES}
        wanted("what a file tells of all sales of a day", lines, told)
        with Host(book, "--together", "8", control=True) as host:
            beside = Beside(host)
            beside.asks(f"find,{merchant(SHOPS[0])},reference,1", text)
            many = b"more than 100 requests found, too many to tell of: "
            many += b"ask for one by its reference or trace number\n"
            asked = f"find,{merchant(SHOPS[0])},card,1111,{DAY}"
            wanted("all sales of a day over a socket", beside.one.ask(asked), many)


def stated_in_slices(program):
    """Terminals and other control connections go on while postings and requests are gone over for a
    `statement`."""
    with Book(program, SHOPS) as book:
        # All sales of the day are of one shop.
        end_day(book, SHOPS[:1])
        words = ["--merchant", merchant(SHOPS[0]), "--day", DAY]
        texts = {"": book.output("statement", *words).encode(),
                 ",csv": book.output("statement", *words, "--csv").encode()}
        with Host(book, "--together", "8", control=True) as host:
            beside = Beside(host)
            for form, text in texts.items():
                beside.asks(f"statement,{merchant(SHOPS[0])},{DAY}{form}", text)


def reported_in_slices(program):
    """Terminals and other control connections go on while the postings of a day are compared with
    its totals for a `report`. A merchant that is enrolled meanwhile has its line; a day that isn't
    over is refused; and a posting or a total that somebody changed ends the host with 2."""
    with Book(program, SHOPS) as book:
        end_day(book)
        forms = {"": [], ",csv": ["--csv"]}
        texts = {form: book.output("report", "--day", DAY, *words).encode()
                 for form, words in forms.items()}
        with Host(book, "--together", "8", control=True) as host:
            beside = Beside(host)
            for form, text in texts.items():
                beside.asks(f"report,{DAY}{form}", text)
            today = host.figures()["day"]
            refused = beside.one.ask(f"report,{today}")
            wanted("the report of a day that isn't over", refused, "acqd: 60 DayNotOver")
            enrolled = beside.other.ask(f"enrol,{merchant(95)},978,1,,")
            wanted("a merchant more", enrolled, "done")
            more = {form: beside.one.ask(f"report,{DAY}{form}") for form in forms}
            wanted("stop", beside.other.ask("stop"), "stopping")
            wanted("the end", host.ends()[0], 0)
        for form, words in forms.items():
            now = book.output("report", "--day", DAY, *words).encode()
            wanted("a report with a merchant more", (more[form], now == texts[form]), (now, False))
        for change, back in CHANGES:
            changed(book, change)
            with Host(book, "--together", "8", control=True) as host:
                end = host.control()
                end.end.sendall(f"report,{DAY}\n".encode())
                status, faults = host.ends()
                wanted(f"the end after {change}", (status, faults[0]), (3, "acqd: 2 Store"))
            changed(book, back)
        wanted("a report once all is put right", book.output("report", "--day", DAY).encode(),
               more[""])


def changed(book, statement):
    """Another program changes one row of the book."""
    with closing(sqlite3.connect(book.path)) as rows:
        wanted(f"rows of {statement}", rows.execute(statement).rowcount, 1)
        rows.commit()


def cut_off_in_a_file(book):
    """A connection that reads nothing is cut off in the midst of a clearing file: 54 counts all
    bytes that went out, and not those of the last slice alone."""
    with Host(book, "--together", "8", "--stop-within", "1", control=True) as host:
        one, other = host.control(), host.control()
        for it in (one, other):
            wanted("an answer", it.ask("enrol,NEW"), "acqd: 62 BadLine 1")
        one.end.sendall(f"clearing,{DAY}\n".encode())
        wanted("stop beside one that reads nothing", other.ask("stop"), "stopping")
        faults, gone = host.ends()[1], 0
        while came := one.end.recv(65536):
            gone += len(came)
        told = [it for it in faults if it.startswith("acqd: 54 ")]
        wanted("the fault of one that is cut off in a file", told, [f"acqd: 54 Write {gone}"])


def go_away(host, seller, asked=f"clearing,{DAY}", enough=20000):
    """More connections than there are places ask for a text and go away, at once or in the midst of
    it: the terminal goes on, and all they had is given back."""
    before = host.descriptors()
    for turn in range(10):
        gone = host.control()
        gone.end.sendall(f"{asked}\n".encode())
        if turn % 2:
            gone.taken(enough)
        gone.end.close()
        seller.turn()
    when("places of those that went away", lambda: host.descriptors() == before)
    others = [it for it in host.faults() if not re.match("acqd: 5[34] ", it)]
    wanted("other faults than of their ends", others, [])


if __name__ == "__main__":
    sys.exit(main([
        tell_answers, a_socket_that_is_taken, log_to_standard_error, a_day, a_file_in_slices,
        found_in_slices, stated_in_slices, reported_in_slices, play_rows,
    ]))
