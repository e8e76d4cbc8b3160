#!/usr/bin/env python3
"""page.py PROGRAM [N]: the page of a host and its metrics, as browsers and Prometheus ask for them,
beside what the host itself says; and N hostile requests (300). What Prometheus makes of the metrics
is asked of promtool, if it is there."""
import html
import os
import random
import re
import shutil
import signal
import socket
import subprocess
import sys
import threading
import time

from terminal import (
    BAD, CARD, DAY, ECHO, PATIENCE, REPLY, Book, Host, Wrong, approved, connect, free_port, is_readable,
    main, merchant, sale, size, wanted, when,
)

# Figures that another second, or who asks for them, changes.
MOVING = "lines_total", "last_event_age_seconds", "oldest_pending_age_seconds", "wal_bytes"
# What the page says of figures that are shown as they are; docs/FORMATS.md, "Status".
WORDS = {
    "version": "Version",
    "day": "Business day",
    "merchants": "Merchants",
    "terminals": "Terminals",
    "places": "Places for terminals",
    "open_places": "of which are free",
    "connections_total": "Connections taken in",
    "events_total": "Messages answered",
    "refused_frames_total": "Connections that ended for a bad frame",
}
POLICY = "default-src 'none'; style-src 'unsafe-inline'; base-uri 'none'; " \
    "form-action 'none'; frame-ancestors 'none'"
CALM = "Nothing needs you."
# How long a connection may be there, and for how long what the host said is kept, in seconds.
LONGEST, KEPT = 5, 1
PLACES = 64


class Page:
    """`acqd page` over a host, until its block ends."""

    def __init__(self, host):
        self.port = free_port()
        words = [host.book.program, "page", "--control", host.control_path]
        silent = {"stdin": subprocess.DEVNULL, "stdout": subprocess.DEVNULL}
        self.process = subprocess.Popen(
            [*words, "--port", str(self.port)], stderr=subprocess.PIPE, start_new_session=True,
            **silent)

    def __enter__(self):
        return self

    def __exit__(self, *_):
        try:
            os.killpg(self.process.pid, signal.SIGKILL)
        except ProcessLookupError:
            pass
        self.process.communicate()

    def connection(self, sent=b""):
        end = connect(socket.AF_INET, ("127.0.0.1", self.port))
        end.settimeout(PATIENCE)
        end.sendall(sent)
        return end

    def ask(self, sent):
        """What comes to these bytes, up to its end."""
        with self.connection(sent) as end:
            return rest(end)

    def get(self, target="/", method="GET", names=("localhost",)):
        """The status, the fields and the body of a reply to a head with these Host fields."""
        lines = "".join(f"Host: {it}\r\n" for it in names)
        return parts(self.ask(f"{method} {target} HTTP/1.1\r\n{lines}\r\n".encode()))

    def text(self):
        self.is_there()
        status, _, body = self.get()
        wanted("the status of the page", status, 200)
        return body.decode("ascii")

    def is_there(self):
        wanted("the page's process", self.process.poll(), None)
        # A host beside other scripts may need more than the second that a page waits for it.
        when("the page isn't there", lambda: self.get()[0] == 200)


def rest(end):
    came = b""
    try:
        while piece := end.recv(65536):
            came += piece
    except ConnectionResetError:
        pass
    return came


def parts(reply):
    head, _, body = reply.partition(b"\r\n\r\n")
    first, *lines = head.decode("ascii").split("\r\n")
    fields = dict(it.split(": ", 1) for it in lines)
    wanted("the length of a body", fields.get("Content-Length") if body else None,
           str(len(body)) if body else None)
    return int(first.split(" ")[1]), fields, body


def rows(page):
    """The cells of each row of the page's tables, as texts."""
    found = re.findall(r"<tr>(.*?)</tr>", page, re.DOTALL)
    cells = (re.findall(r"<t[hd][^>]*>(.*?)</t[hd]>", it, re.DOTALL) for it in found)
    return [[html.unescape(re.sub(r"<[^>]*>", "", it)) for it in row] for row in cells]


def section(page, heading):
    """The rows of the table behind a heading."""
    _, _, behind = page.partition(f"<h2>{heading}")
    return rows(behind.partition("<h2>")[0])


def host_over(book, *words, **how):
    return Host(book, "--together", "8", *words, control=True, **how)


def figures(program):
    """Each figure stands there as the host says it; so do its replies, and what waits."""
    with Book(program) as book, host_over(book) as host, Page(host) as page:
        with host.terminal() as terminal:
            wanted("a sale", terminal.ask(sale(1, 1)), approved(1, 1))
            terminal.ask(sale(9, 2))
            host.tell("frame,now," + sale(1, 3)[2:].hex() + ",,,")
            time.sleep(KEPT)
            text, status = page.text(), host.figures()
        shown = {it[0]: it[1] for it in section(page=text, heading="All figures")}
        want = {words: status[key] for key, words in WORDS.items()}
        wanted("figures", {it: shown.get(it) for it in want}, want)
        known = [key for key in status if not key.startswith(("replies_total.", "pending."))]
        wanted("how many figures there are", len(shown), len(known))
        for begin, heading in (("replies_total.", "Replies by response code"),
                               ("pending.", "Waiting for their issuer")):
            want = [[key[len(begin):], it] for key, it in status.items() if key.startswith(begin)]
            came = [it[:2] for it in section(text, heading)]
            wanted(heading, came[: len(want)], want)
        first = [["Merchant", "Reference"], [merchant(1), "000000000002"]]
        wanted("which wait", section(text, "Waiting")[-2:], first)


def sums(program):
    """The sums of the day, if the host knows how to tell them, as it tells them."""
    with Book(program) as book, host_over(book) as host, Page(host) as page:
        with host.terminal() as terminal:
            wanted("a sale", terminal.ask(sale(1, 1)), approved(1, 1))
        said = host.control().ask(f"sums,{host.figures()['day']}")
        want = []
        if isinstance(said, bytes):
            want = [it.split(",") for it in said.decode("ascii").splitlines()[1:]]
        wanted("sums", section(page.text(), "Sums of the day")[1:], want)


def without(moving, text):
    """The lines of metrics that name none of these."""
    return [it for it in text.splitlines() if not any(f"acqd_{key} " in it for key in moving)]


def metrics(program):
    """They are the host's, line by line, and Prometheus can read them."""
    with Book(program) as book, host_over(book) as host, Page(host) as page:
        with host.terminal() as terminal:
            wanted("a sale", terminal.ask(sale(1, 1)), approved(1, 1))
        status, fields, body = page.get("/metrics")
        wanted("the status of metrics", status, 200)
        wanted("their type", fields["Content-Type"], "text/plain; version=0.0.4; charset=utf-8")
        came = without(MOVING, body.decode("ascii"))
        wanted("metrics", came, without(MOVING, host.tell("metrics")))
        if shutil.which("promtool"):
            ran = subprocess.run(["promtool", "check", "metrics"], input=body, capture_output=True)
            wanted("what promtool says", (ran.returncode, ran.stdout + ran.stderr), (0, b""))


def alarms(program):
    """What needs a person stands there in words, and where nothing does that stands there."""
    with Book(program) as book, Host(book, "--together", "2", control=True) as host:
        with Page(host) as page:
            wanted("a page of a new host", CALM in page.text(), True)
            with host.terminal(BAD) as bad:
                wanted("a reply to a bad frame", bad.rest(), b"")
            host.tell("frame,now," + sale(1, 3)[2:].hex() + ",,,", f"end,{DAY}")
            with host.terminal() as first, host.terminal() as second:
                wanted("terminals", (first.is_served(), second.is_served()), (True, True))
                time.sleep(KEPT)
                text = page.text()
            wanted("a page of a host in need", CALM in text, False)
            for words in ("Connections that ended for a bad frame: 1", "No place for a terminal",
                          f"1 waiting of {DAY}, a day that is over"):
                wanted(f"alarms with {words!r}", words in text, True)


def heads(program):
    """Which head asks what."""
    with Book(program) as book, host_over(book) as host, Page(host) as page:
        page.is_there()
        _, fields, body = page.get()
        for name, value in (("Connection", "close"), ("Content-Security-Policy", POLICY),
                            ("Content-Type", "text/html; charset=utf-8"),
                            ("Cache-Control", "no-store")):
            wanted(name, fields[name], value)
        wanted("a date", bool(re.match(r"\w{3}, \d\d \w{3} \d{4} ", fields["Date"])), True)
        for word in (b"<script", b"<form", b"<link", b"<img", b"src=", b"http:", b"https:", b"//"):
            wanted(f"{word} in the page", word in body, False)
        wanted("renewal", b'http-equiv="refresh" content="5"' in body, True)
        for method, target, status in (
                ("GET", "/", 200), ("GET", "/metrics", 200), ("GET", "/metrics/", 404),
                ("GET", "/../etc/passwd", 404), ("GET", "//", 404), ("GET", "/?x", 404),
                ("POST", "/", 405), ("DELETE", "/metrics", 405), ("get", "/", 405)):
            came, fields, _ = page.get(target, method)
            wanted(f"the status of {method} {target}", came, status)
            wanted("the methods", fields.get("Allow"), "GET, HEAD" if status == 405 else None)
        for target in ("/", "/metrics", "/no"):
            status, fields, body = page.get(target, "HEAD")
            again = page.get(target)
            wanted(f"HEAD {target}", (status, fields["Content-Type"], body),
                   (again[0], again[1]["Content-Type"], b""))
        for sent, status in ((b"\x16\x03\x01\x02\x00\x01\x00\r\n\r\n", 400), (b"GET\r\n\r\n", 400),
                             (b"GET / HTTP/2.0\r\n\r\n", 400), (b"GET / HTTP/1.0\n\n", 200),
                             (b"GET /" + b"a" * 9000, 431),
                             (b"GET / HTTP/1.1\r\n" + b"a: b\r\n" * 70 + b"\r\n", 431),
                             (b"GET / HTTP/1.1\r\nx: " + b"y" * 9000 + b"\r\n\r\n", 431)):
            wanted(f"the status of {sent[:30]!r}", parts(page.ask(sent))[0], status)


def host_names(program):
    """A head that names this machine, or no host, gets its page. One that names another host, as
    of a web site whose name leads here, gets none, and the host isn't asked for it."""
    with Book(program) as book, host_over(book) as host, Page(host) as page:
        page.is_there()
        here, other = f"127.0.0.1:{page.port}", "evil.example"
        for names, status in (
                ((), 200), ((here,), 200), (("LOCALHOST",), 200), (("[::1]:80",), 200),
                (("localhost:",), 200), ((" 127.0.0.1\t",), 200), ((here, "localhost"), 200),
                ((other,), 421), ((f"{other}:{page.port}",), 421), ((f"127.0.0.1.{other}",), 421),
                ((f"localhost.{other}",), 421), ((here, other), 421), ((other, here), 421),
                (("localhost:80x",), 421), (("localhost:80:80",), 421), (("127.0.0.1 80",), 421),
                (("127.0.0.10",), 421), (("127.0.0",), 421), (("::1",), 421), (("",), 421)):
            wanted(f"the status with the Host fields {names}", page.get(names=names)[0], status)
        lower = f"GET / HTTP/1.1\r\nhost: {other}\r\n\r\n".encode()
        wanted("the status with a host in lower case", parts(page.ask(lower))[0], 421)
        wanted("the status of a POST to another host", page.get("/", "POST", (other,))[0], 405)
        first, second = (int(host.figures()["lines_total"]) for _ in range(2))
        time.sleep(KEPT)
        for target in ("/", "/metrics", "/no"):
            status, fields, body = page.get(target, names=(other,))
            wanted(f"{target} of another host", (status, fields["Content-Type"]),
                   (421, "text/html; charset=utf-8"))
            wanted("what it says", b"for this machine alone" in body, True)
            wanted("figures in it", b"acqd_" in body or b"All figures" in body, False)
            wanted("HEAD of another host", page.get(target, "HEAD", (other,))[::2], (421, b""))
        third = int(host.figures()["lines_total"])
        wanted("lines to the host for another host", third - second, second - first)


def asked_seldom(program):
    """However often the page is asked for, the host is asked once a second at most."""
    with Book(program) as book, host_over(book) as host, Page(host) as page:
        page.is_there()
        before, began = int(host.figures()["lines_total"]), time.monotonic()
        for _ in range(100):
            page.get()
            page.get("/metrics")
        took = time.monotonic() - began
        lines = int(host.figures()["lines_total"]) - before
        most = 2 * (took / KEPT + 2) + 2 * (took / 10 + 2)
        if lines > most:
            raise Wrong(f"{lines} lines to the host in {took} seconds")


def without_a_host(program):
    """Where no host answers the page says so; and once it does again, it is there again."""
    with Book(program) as book, host_over(book) as host, Page(host) as page:
        page.is_there()
        host.end()
        time.sleep(KEPT)
        for target in ("/", "/metrics"):
            status, fields, body = page.get(target)
            wanted("without a host", (status, fields["Content-Type"], b"doesn't answer" in body
                                      or b"doesn&#39;t answer" in body),
                   (503, "text/html; charset=utf-8", True))
        host.begin()
        when("the page isn't back", lambda: page.get()[0] == 200)
        host.hold_still()
        time.sleep(KEPT)
        wanted("the status where the host stands still", page.get("/metrics")[0], 503)
        host.go_on()
        when("the page isn't back", lambda: page.get("/metrics")[0] == 200)


def slow_ones(program):
    """Who is slow holds up nobody, and is let go after five seconds; if all places are taken, the
    oldest makes room."""
    with Book(program) as book, host_over(book) as host, Page(host) as page:
        page.is_there()
        slow = [page.connection(b"GET / HT") for _ in range(PLACES)]
        began = time.monotonic()
        page.is_there()
        wanted("whether the oldest made room", is_readable(slow[0], 2), True)
        wanted("whether the newest is there", is_readable(slow[-1], 0), False)
        wanted("what comes to a slow one", rest(slow[-1]), b"")
        took = time.monotonic() - began
        if not LONGEST - 1.5 < took < LONGEST + 10:
            raise Wrong(f"a slow one was let go after {took} seconds")
        for it in slow:
            it.close()
        page.is_there()


def no_card(program):
    """No more of a card number than its mask has stands anywhere."""
    with Book(program) as book, host_over(book, log=True) as host, Page(host) as page:
        with host.terminal() as terminal:
            wanted("a sale", terminal.ask(sale(1, 1)), approved(1, 1))
            host.tell("frame,now," + sale(1, 3)[2:].hex() + ",,,")
        time.sleep(KEPT)
        for target in ("/", "/metrics", f"/{CARD}"):
            body = page.get(target)[2].decode("ascii")
            for at in range(len(CARD) - 6):
                wanted(f"digits of a card in {target}", CARD[at : at + 7] in body, False)


def hostile(chance):
    """Bytes of somebody who means no good."""
    head = b"GET / HTTP/1.1\r\nHost: localhost\r\nAccept: */*\r\n\r\n"
    return chance.choice([
        lambda: head[: chance.randrange(len(head))],
        lambda: head * chance.randrange(2, 400),
        lambda: head[:30] + b"x" * chance.randrange(60000),
        lambda: head[:-2] + b"a: " + b"b" * chance.randrange(20000) + b"\r\n\r\n",
        lambda: head[:-2] + b"a: b\r\n" * chance.randrange(300) + b"\r\n",
        lambda: chance.choice([b"PUT", b"CONNECT", b"TRACE", b"G\0T", b"", b"x" * 300]) + head[3:],
        lambda: chance.randbytes(chance.randrange(9000)),
        lambda: head.replace(b"/ ", b"/" + b"../" * chance.randrange(200) + b"etc/passwd ", 1),
        lambda: head.replace(b"/ ", b"/%00%2e%2e/<script>&'\" ", 1),
        lambda: head.replace(b"\r\n", b"\n\r"),
        lambda: bytes(it ^ (1 << chance.randrange(8)) if chance.random() < 0.05 else it
                      for it in head),
        lambda: b"POST / HTTP/1.1\r\nContent-Length: 99999999\r\n\r\n" + b"z" * 30000,
    ])()


def send_hostile(page, chance):
    """Sends some of that, in pieces or not, and reads the reply or doesn't."""
    end, sent = page.connection(), hostile(chance)
    try:
        while sent:
            n = len(sent) if chance.random() < 0.7 else chance.randrange(1, 200)
            end.sendall(sent[:n])
            sent = sent[n:]
            if chance.random() < 0.01:
                time.sleep(0.01)
        if chance.random() < 0.5:
            end.shutdown(socket.SHUT_WR)
        if chance.random() < 0.7 and is_readable(end, 0.5):
            came = end.recv(65536)
            if came and not came.startswith(b"HTTP/1.1 "):
                raise Wrong(f"a reply begins {came[:20]!r}")
    except OSError:
        pass
    finally:
        end.close()


def beside_hostile_ones(program):
    """Hostile requests, and many at once, touch neither the host's terminals nor the page of
    others."""
    chance = random.Random(8590)
    with Book(program) as book, host_over(book) as host, Page(host) as page:
        page.is_there()
        slowest, over = [], threading.Event()

        def echoes():
            with host.terminal() as terminal:
                while not over.is_set():
                    began = time.monotonic()
                    if terminal.ask(ECHO) != REPLY:
                        slowest.append(None)
                        return
                    slowest.append(time.monotonic() - began)
                    time.sleep(0.005)

        beside = threading.Thread(target=echoes)
        beside.start()
        try:
            for number in range(size(300)):
                send_hostile(page, chance)
                if number % 100 == 50:
                    page.is_there()
            many = [page.connection(b"GET / HTTP/1.1\r\n") for _ in range(200)]
            page.is_there()
            for it in many:
                it.close()
            page.is_there()
        finally:
            over.set()
            beside.join()
        wanted("an echo beside hostile requests", None in slowest, False)
        if max(slowest) > 2:
            raise Wrong(f"an echo beside hostile requests took {max(slowest)} seconds")
        wanted("faults of the host", host.faults(), [])


def a_port_that_is_taken(program):
    """It ends with a fault, and says which."""
    with Book(program) as book, host_over(book) as host, Page(host) as page:
        page.is_there()
        words = [program, "page", "--control", host.control_path, "--port", str(page.port)]
        ran = subprocess.run(words, stdin=subprocess.DEVNULL, capture_output=True, timeout=PATIENCE)
        wanted("a second page", (ran.returncode, ran.stdout, ran.stderr.splitlines()[:1]),
               (1, b"", [b"acqd: 53 Read"]))


TRIES = [
    figures, sums, metrics, alarms, heads, host_names, asked_seldom, without_a_host, slow_ones,
    no_card, beside_hostile_ones, a_port_that_is_taken,
]

if __name__ == "__main__":
    sys.exit(main(TRIES))
