#!/usr/bin/env python3
"""causes.py PROGRAM: what a person reads behind the line of a fault, on a terminal, and what the
host's log has of it; a script that reads standard error gets the line alone."""
import os
import pty
import socket
import subprocess
import sys
import tempfile

from gateways import Gateway, GatewayHost
from terminal import (
    BAD, DAY, ECHO, MOMENT, PATIENCE, REPLY, Book, Host, approved, free_port, log_lines, main, sale,
    wanted, when,
)

NOTE = "acqd: note: "
NOBODY = 65534


def typed(words, given=b"", user=None):
    """The status of a command, what it writes, and the lines that a person reads on a terminal."""
    inner, outer = pty.openpty()
    how = {"user": user, "group": user, "extra_groups": []} if user else {}
    process = subprocess.Popen(words, stdin=subprocess.PIPE, stdout=subprocess.PIPE, stderr=outer,
                               **how)
    os.close(outer)
    out, _ = process.communicate(given, timeout=PATIENCE)
    return process.returncode, out.decode("latin-1"), read_lines(inner)


def read_lines(inner):
    """All that was written to a terminal whose programs have ended."""
    text = b""
    try:
        while came := os.read(inner, 65536):
            text += came
    except OSError:  # the other side is closed
        pass
    os.close(inner)
    return text.decode("latin-1").replace("\r\n", "\n").splitlines()


def explained(words, fault, cause, given=b"", user=None):
    """A command fails with this line, behind which a person reads this one."""
    _, _, lines = typed(words, given, user)
    wanted(f"what a person reads of {' '.join(words[1:])}", lines, [f"acqd: {fault}", NOTE + cause])
    how = {"user": user, "group": user, "extra_groups": []} if user else {}
    ran = subprocess.run(words, input=given, capture_output=True, timeout=PATIENCE, **how)
    wanted("what a script reads", ran.stderr.decode(), f"acqd: {fault}\n")


def values(program):
    """A value out of its form: what it has to be, with an example."""
    seconds = "1 to 6 digits of seconds, 0 for ever, as in 60"
    day = "YYYY-MM-DD, 2000-01-01 to 2099-12-31, as in 2024-05-01"
    moment = "seconds since 1970-01-01 UTC, 946684800 to 4102444799, as in --at 1714555800"
    asking = "1 to 12 digits, or what else `acqd find --help` takes"
    begun = ["listen", "--db", "b", "--port", "8583"]
    sought = ["--db", "b", "--merchant", "MERCHANT0000001"]
    for words, option, cause in (
        (["init", "--db", "b", "--limit", "0", "--day", DAY], "--limit",
         "1 to 999999, as in --limit 999999"),
        (["init", "--db", "b", "--limit", "1", "--day", "1.5.24"], "--day", day),
        (["replay", "--clearing", "today"], "--clearing", day),
        (["replay", "--report", "today"], "--report", day),
        (["holds", "--db", "b", "--merchant", "MERCHANT00000001", "--at", "x"], "--merchant",
         "1 to 15 characters, as element 42 has them"),
        (["holds", "--db", "b", "--merchant", "MERCHANT0000001", "--at", "0"], "--at", moment),
        (["listen", "--db", "b", "--port", "0"], "--port", "1 to 65535, as in --port 8583"),
        ([*begun, "--address", "localhost"], "--address",
         "an IPv4 address, as in --address 127.0.0.1"),
        ([*begun, "--count", "0"], "--count", "1 to 999999, as in --count 1"),
        ([*begun, "--together", "1025"], "--together", "1 to 1024, as in --together 64"),
        ([*begun, "--idle", "soon"], "--idle", seconds),
        ([*begun, "--frame-within", "1s"], "--frame-within", seconds),
        ([*begun, "--from-one-address", ""], "--from-one-address",
         "1 to 1024, as in --from-one-address 8"),
        ([*begun, "--stop-within", "1234567"], "--stop-within", seconds),
        ([*begun, "--answer-within", "1.5"], "--answer-within", seconds),
        ([*begun, "--gateway-within", "never"], "--gateway-within",
         "1 to 6 digits of seconds, 0 for not at all, as in 60"),
        (["tell", "--within", "-", "c"], "--within", seconds),
        (["ask", "--port", "1", "--within", "-"], "--within", seconds),
        (["ask", "--port", "1", "--repeat", "0"], "--repeat", "1 to 1000000, as in --repeat 1000"),
        (["explain", "--db", "b", "--events", "e"], "--events",
         "a file for a new book, without --db"),
        (["show", "--whole"], "--whole", "beside --json alone"),
        (["list", "--db", "b", "holds"], "WHAT",
         "merchants, terminals or ranges, as in list merchants"),
        (["find", *sought, "--reference", "5002x"], "--reference", asking),
        (["find", *sought], "--reference", asking),
        (["find", *sought, "--reference", "1", "--day", DAY], "--reference", asking),
        (["find", *sought, "--terminal", "TERM0001"], "--reference", asking),
        (["find", *sought, "--terminal", "TERMINAL1", "--trace", "000001"], "--terminal",
         "1 to 8 characters, as element 41 has them"),
        (["find", *sought, "--terminal", "TERM0001", "--trace", "1"], "--trace",
         "six digits, as in --trace 000001"),
        (["find", *sought, "--card-ends", "111", "--day", DAY], "--card-ends",
         "the last four digits, as in --card-ends 1111"),
        (["find", *sought, "--card-ends", "1111", "--day", "today"], "--day", day),
        (["statement", "--db", "b", "--day", DAY, "--to", "2023-12-31"], "--to",
         "YYYY-MM-DD, not before --day, as in 2024-05-31"),
        (["statement", "--db", "b", "--day", DAY, "--merchant", "A", "--merchant", ""],
         "--merchant", "1 to 15 characters, as element 42 has them"),
        ([*begun, "--log-bytes", "1G"], "--log-bytes",
         "1 to 15 digits, 0 for no bound, as in --log-bytes 1073741824"),
        ([*begun, "--log", "b"], "--log", "a path that no other option names"),
        ([*begun, "--control", "b"], "--control", "a path that no other option names"),
        ([*begun, "--issuers", "b"], "--issuers", "a path that no other option names"),
        ([*begun, "--gateway", "b"], "--gateway", "a path that no other option names"),
    ):
        explained([program, *words], f"bad value {option}", f"{option}: {cause}")


def books(program):
    """A book that can't be used: which of many things is in the way."""
    with Book(program) as book:
        status = book.words("status")
        missing = f"{book.folder}/none.db"
        explained([program, "status", "--db", missing], "40 NotABook",
                  f"{missing}: no book stands there; `acqd init` makes one")
        explained([program, "status", "--db", book.file("a.txt", "no book")], "40 NotABook",
                  f"{book.folder}/a.txt: no book stands there; `acqd init` makes one")
        explained([program, "status", "--db", book.folder], "2 Store",
                  f"{book.folder}: it is a folder")
        again = book.words("init", "--limit", "1", "--day", DAY)
        explained(again, "40 NotABook", f"{book.path}: something stands there, and stays as it is")
        nowhere = f"{book.folder}/none/b.db"
        explained([program, "init", "--db", nowhere, "--limit", "1", "--day", DAY], "2 Store",
                  f"{nowhere}: there is no such file, or no such folder")
        explained(book.words("migrate"), "41 OtherVersion 2",
                  f"{book.path}: `acqd migrate --db FILE` "
                  "makes a book of version 1 one of version 2")
        with Host(book) as host, host.terminal() as terminal:
            # A command that looks too early would have the book in the host's place.
            wanted("an echo", terminal.ask(ECHO), REPLY)
            explained(status, "2 Store", f"{book.path}: another program has it open")
        os.link(book.path, f"{book.folder}/second.db")
        explained(status, "2 Store",
                  f"{book.path}: it has a second name, a hard link: remove one of them")
        os.remove(f"{book.folder}/second.db")
        os.chmod(book.folder, 0o755)
        explained(status, "2 Store", f"{book.path}: this user may not reach, or not write it",
                  user=NOBODY)
        with open(book.path, "r+b") as file:
            file.seek(4096)
            file.write(bytes(8192))
        explained(status, "2 Store", f"{book.path}: it is damaged, or its disk is full or fails")
        os.remove(f"{book.path}-wal")
        os.mkdir(f"{book.path}-wal")
        explained(status, "2 Store", f"{book.path}: its WAL file can't be opened")


def ports(program):
    """A host that can't begin: which of its files, its sockets and its port is in the way."""
    with Book(program) as book, socket.socket() as taken:
        folder = book.folder
        taken.bind(("127.0.0.1", 0))
        taken.listen()
        busy = str(taken.getsockname()[1])
        listen = book.words("listen", "--port", str(free_port()))
        together = [*listen, "--together", "2"]
        explained([*book.words("listen"), "--port", busy], "53 Read",
                  f"{busy}: another program listens there")
        explained([*book.words("listen"), "--port", busy, "--together", "2"], "53 Read",
                  f"{busy}: another program listens there")
        explained([*listen, "--address", "192.0.2.1"], "53 Read",
                  f"{listen[-1]}: this machine has no such address")
        issuers = f"{folder}/issuers"
        explained([*listen, "--issuers", issuers], "53 Read",
                  f"{issuers}: there is no such file, or no such folder")
        explained([*listen, "--issuers", folder], "53 Read", f"{folder}: it is a folder")
        explained([*listen, "--issuers", book.file("bad", "4111\n")], "23 BadLine 1",
                  f"{folder}/bad: each record is "
                  "CARD,approved,ID or CARD,declined,CODE or CARD,none,")
        explained([*together, "--log", f"{folder}/none/log"], "53 Read",
                  f"{folder}/none/log: its folder isn't there, or isn't this user's")
        explained([*together, "--log", folder], "53 Read", f"{folder}: it is a folder")
        os.symlink(book.path, f"{folder}/link")
        explained([*together, "--log", f"{folder}/link"], "53 Read",
                  "two of --db, --log, --control, --gateway and --issuers are one file")
        for option in ("--control", "--gateway"):
            explained([*together, option, book.file("plain", "")], "53 Read",
                      f"{folder}/plain: something else than a socket stands there")
        long = f"{folder}/{'c' * 108}"
        explained([*together, "--control", long], "53 Read",
                  f"{long}: its folder isn't this user's, or PATH.new is there, "
                  "or it has over 107 bytes")
        with Book(program) as other, Host(other, control=True) as host:
            when("no control socket", lambda: os.path.exists(host.control_path))
            explained([*together, "--control", host.control_path], "53 Read",
                      f"{host.control_path}: a host that runs has it")


def hosts(program):
    """`tell` and `ask` to a host that isn't there, faults that a host answers, and a message that
    gets no reply."""
    port = free_port()
    explained([program, "ask", "--port", str(port)], "53 Read",
              f"{port}: nobody listens there: see --address and --port", given=ECHO)
    with socket.create_server(("127.0.0.1", port)):
        explained([program, "ask", "--port", str(port), "--within", "1"], "55 Silent",
                  "a message got no reply in time; --within SECONDS waits longer", given=ECHO)
    with tempfile.TemporaryDirectory() as folder:
        path = f"{folder}/c"
        within = ["--within", "5"]
        for words in ([path], [*within, path], [path, *within], ["--within=5", path]):
            explained([program, "tell", *words], "53 Read",
                      f"{path}: there is no such socket: no host runs with this --control")
        with socket.socket(socket.AF_UNIX) as gone:
            gone.bind(path)
        explained([program, "tell", path], "53 Read",
                  f"{path}: nobody listens there: its host has ended")
    with Book(program) as book, Host(book, control=True) as host:
        when("no control socket", lambda: os.path.exists(host.control_path))
        tell = [program, "tell", host.control_path]
        for line, fault, cause in (
            ("end,2024-05-02", f"63 OtherDay {DAY}",
             "that is the business day; another one was to be ended"),
            (f"report,{DAY}", "60 DayNotOver",
             "the line `status` says which day it is; a cutover ends it"),
            ("x", "62 BadLine 1", "this line is out of its form, and changed nothing"),
        ):
            explained(tell, fault, cause, given=f"{line}\n".encode())


def lists(program):
    """A list that can't become a book's ranges."""
    with Book(program) as book:
        folder = book.folder
        ranges = book.words("ranges", "--set")
        explained([*ranges, f"{folder}/none"], "53 Read",
                  f"{folder}/none: there is no such file, or no such folder")
        explained([*ranges, folder], "23 BadLine 1",
                  f"{folder}: each record is LOW,HIGH,ISSUER,HOLD, low and high of eight digits")
        explained([*ranges, book.file("a", "4,5,1,1\n")], "23 BadLine 1",
                  f"{folder}/a: each record is LOW,HIGH,ISSUER,HOLD, low and high of eight digits")
        explained([*ranges, book.file("b", "00000002,00000001,1,1\n")], "20 BadRange",
                  f"{folder}/b: low is above high, hold days aren't 1 to 31, "
                  "or an issuer isn't 1 to 11 digits")
        twice = "00000001,00000002,1,1\n00000002,00000003,1,1\n"
        explained([*ranges, book.file("c", twice)], "21 Overlap 00000001 00000002",
                  f"{folder}/c: a further record has numbers of this range, too")


def days(program):
    """A day that can't be told, and one of which nothing is in the book."""
    with Book(program) as book:
        report = book.words("report", "--day", DAY)
        explained(report, "60 DayNotOver",
                  f"{book.path}: `acqd status --db FILE` says which day it is; a cutover ends it")
        waits = f"frame,{MOMENT},{sale()[2:].hex()},,,\ncutover,{MOMENT},,,,\n"
        book.output("replay", given=waits)
        explained(report, "61 StillPending 1",
                  f"{book.path}: `acqd pending --db FILE` lists them, as lines for `acqd replay`")
        explained(book.words("holds", "--merchant", "MERCHANT0000009", "--at", str(MOMENT)),
                  "37 NoSuchMerchant", "no such merchant is enrolled")
        explained(book.words("replay"), "62 BadLine 1",
                  "this record or line of the input is out of its form", given=b"x\n")
        answers = book.output("pending", "--at", str(MOMENT))
        book.output("replay", given=answers.replace("none,", "approved,A1B2C3"))
        for command in ("clearing", "report"):
            told = [f"{NOTE}2000-01-01: no posting of that day is in the book"]
            words = book.words(command, "--day", "2000-01-01")
            wanted(f"of an empty {command}", typed(words)[::2], (0, told))
            wanted(f"of a {command}", typed(book.words(command, "--day", DAY))[::2], (0, []))
            wanted("to a script", book.run(command, "--day", "2000-01-01")[2], "")


def connections(program):
    """A connection's fault, beside a host that goes on."""
    with Book(program) as book:
        inner, outer = pty.openpty()
        host = Host(book, "--together", "2", stderr=outer)
        os.close(outer)
        with host:
            for sent in (BAD, b"\x00\x02AB", ECHO[:9]):
                with host.terminal(sent) as terminal:
                    terminal.finish()
            with host.terminal() as terminal:
                wanted("a reply", terminal.ask(sale()), approved())
            host.end()
        lines = [it for it in read_lines(inner) if it.startswith("acqd: ")]
        wanted("what a person reads of connections", lines, [
            "acqd: 50 BadLength",
            f"{NOTE}a connection sent a length of 0 or above 4096: "
            "it speaks TLS or another protocol",
            "acqd: 52 Undecodable 5 0",
            f"{NOTE}a connection sent a frame that spells no message; `acqd show` says why",
            "acqd: 51 Ended",
            f"{NOTE}a connection ended inside a frame",
        ])


def a_gateway(program):
    """A gateway that knows of more rows than the book has, beside a host that goes on."""
    with Book(program) as book:
        inner, outer = pty.openpty()
        host = GatewayHost(book, stderr=outer)
        os.close(outer)
        with host:
            with Gateway(host.gateway_path) as gateway:
                wanted("the word on it", gateway.ask("from,1"), "acqd: 65 RowsMissing 0")
            host.end()
        lines = [it for it in read_lines(inner) if it.startswith("acqd: ")]
        wanted("what a person reads of a gateway", lines, [
            "acqd: 65 RowsMissing 0",
            f"{NOTE}a gateway knows of rows that this book lacks: is it an old copy?",
        ])


def in_the_log(program):
    """The fault that ends a host stands in its log, also if nobody reads standard error."""
    with Book(program) as book, socket.socket() as taken:
        taken.bind(("127.0.0.1", 0))
        taken.listen()
        port, log = str(taken.getsockname()[1]), f"{book.folder}/host.log"
        words = book.words("listen", "--port", port, "--log", log)
        ran = subprocess.run(words, capture_output=True, timeout=PATIENCE)
        wanted("what a script reads", ran.stderr.decode(), "acqd: 53 Read\n")
        on_standard_error = [*words[:-1], "-"]
        ran = subprocess.run(on_standard_error, capture_output=True, timeout=PATIENCE)
        told, line = ran.stderr.decode().splitlines()
        wanted("what goes to standard error", (told, log_lines(line)[0]["event"]),
               ("acqd: 53 Read", "fault"))
        os.remove(book.path)
        subprocess.run(words, capture_output=True, timeout=PATIENCE)
        with open(log, encoding="ascii") as it:
            lines = log_lines(it.read())
        wanted("keys in front", [list(it)[:2] for it in lines], [["time", "event"]] * 2)
        for line in lines:
            del line["time"]
        wanted("faults in the log", lines, [
            {"event": "fault", "number": "53", "name": "Read", "path": port,
             "cause": "another program listens there"},
            {"event": "fault", "number": "40", "name": "NotABook", "path": book.path,
             "cause": "no book stands there; `acqd init` makes one"},
        ])


TRIES = [values, books, ports, hosts, lists, days, connections, a_gateway, in_the_log]

if __name__ == "__main__":
    sys.exit(main(TRIES, at_once=2))
