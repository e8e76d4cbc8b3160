#!/usr/bin/env python3
"""operating.py PROGRAM: what those who run a host meet: a log that nobody reads, that is full, or
that was moved; a host that has to end while a terminal reads nothing; `tell` at a host that stands
still; where a control socket may stand; one file under two names; floods."""
import os
import select
import socket
import stat
import sys
import time

from limits import DEAF, deaf
from terminal import (
    APPROVING, DAY, ECHO, MODES, MOMENT, READ, REPLY, Book, Control, Host, Wrong, approved,
    free_port, log_lines, main, run, sale, wanted, when,
)

LONGEST_PATH = 107
# The last second of a year, as a terminal may say it.
LATE = "1231235959"


def events(host):
    return [it["event"] for it in log_lines(host.log())]


def at_most(what, got, most):
    if got > most:
        raise Wrong(f"{what}: {got}, and {most} at most")


def sells(host, first, count):
    """Sales of one terminal that are all approved."""
    with host.terminal() as terminal:
        for trace in range(first, first + count):
            came = terminal.ask(sale(trace=trace))
            wanted(f"the reply to sale {trace}", came, approved(trace=trace))


# Logs.


def a_pipe_for_a_log(program, mode):
    """A log that is a pipe holds up nobody, whether it is read or not; lines that are lost are
    counted, and told once there is room."""
    with Book(program) as book:
        path = f"{book.folder}/host.log"
        os.mkfifo(path)
        with Host(book, *mode, control=True, log=path) as host:
            for first in range(1, 1002, 250):
                sells(host, first, 250)
            lost = int(host.figures()["log_lines_lost_total"])
            wanted("that lines were lost", lost > 0, True)
            reader = os.open(path, os.O_RDONLY | os.O_NONBLOCK)
            kept = read_out(reader)
            sells(host, 1251, 1)
            kept += read_out(reader)
            told = [int(it["lines"]) for it in log_lines(kept.decode()) if it["event"] == "lost"]
            at_most("lines that the log calls lost", sum(told), lost + 2)
            wanted("that it tells the lost lines", sum(told) >= lost, True)
            os.close(reader)
            sells(host, 1252, 1)
            wanted("the answer to stop", host.tell("stop"), "stopping\n")
            host.ends()


def read_out(reader):
    """All that stands in a pipe."""
    came = b""
    while select.select([reader], [], [], 0.2)[0]:
        more = os.read(reader, 65536)
        if not more:
            break
        came += more
    return came


def a_full_log(program, mode):
    """A log stays within its bound, the host goes on, and lost lines are counted; once the file is
    cut off it goes on, and says how many were lost."""
    most = 2000
    with Book(program) as book:
        with Host(book, *mode, "--log-bytes", str(most), control=True, log=True) as host:
            sells(host, 1, 40)
            at_most("the size of a log", os.path.getsize(host.log_path), most)
            lost = int(host.figures()["log_lines_lost_total"])
            wanted("that lines were lost", lost > 20, True)
            kept = len(host.log().splitlines())
            os.truncate(host.log_path, 0)
            sells(host, 41, 1)
            when("lost lines are told", lambda: "event=lost" in host.log())
            first = log_lines(host.log())[0]
            wanted("the first line then", first["event"], "lost")
            wanted("lines in all", kept + int(first["lines"]) >= 43, True)
            at_most("the size of a log", os.path.getsize(host.log_path), most)


def a_moved_log(program, mode):
    """`reopen` has the log go on in the file of its path, which is made anew."""
    with Book(program) as book:
        with Host(book, *mode, control=True, log=True) as host:
            sells(host, 1, 1)
            os.rename(host.log_path, f"{book.folder}/old.log")
            sells(host, 2, 1)
            wanted("the answer to reopen", host.tell("reopen"), "reopening\n")
            when("the log is reopened", lambda: os.path.exists(host.log_path) and host.log())
            sells(host, 3, 1)
            with open(f"{book.folder}/old.log", encoding="ascii") as old:
                before = [it["event"] for it in log_lines(old.read())]
            wanted("replies before", before.count("reply"), 2)
            after = events(host)
            wanted("the first line of the new log", after[0], "reopened")
            wanted("replies after", after.count("reply"), 1)
            wanted("the new log's mode", stat.S_IMODE(os.stat(host.log_path).st_mode), 0o600)


def a_log_that_cannot_be_had(program, mode):
    """Where the path can't be had, the log goes on in the file that it had, and says so."""
    with Book(program) as book:
        with Host(book, *mode, control=True, log=True) as host:
            old = f"{book.folder}/old.log"
            sells(host, 1, 1)
            os.rename(host.log_path, old)
            os.mkdir(host.log_path)
            wanted("the answer to reopen", host.tell("reopen"), "reopening\n")
            sells(host, 2, 1)

            def has_both():
                with open(old, encoding="ascii") as it:
                    said = log_lines(it.read())
                return len([it for it in said if it["event"] == "reply"]) == 2 and said

            said = when("the log goes on", has_both)
            told = [it.get("reason") for it in said if it["event"] == "reopened"]
            wanted("what is said of it", told, ["the file can't be had"])


def a_flood(program, mode):
    """Connections, echoes and frames that are refused fill no log: past the first ones of a second
    their lines are left out and counted, and those of money are all there."""
    with Book(program) as book:
        with Host(book, *mode, control=True, log=True) as host:
            began = time.monotonic()
            with host.terminal() as terminal:
                terminal.send(ECHO * 3000)
                wanted("replies", [terminal.reply() == REPLY for _ in range(3000)], [True] * 3000)
                terminal.send(b"".join(sale(trace=it) for it in range(1, 301)))
                wanted("sales", [terminal.reply()[:6] for _ in range(300)], [approved()[:6]] * 300)
            seconds = 2 + int(time.monotonic() - began)
            time.sleep(1.1)
            with host.terminal():
                when("left-out lines are told", lambda: "event=left-out" in host.log())
            said = log_lines(host.log())
            kinds = [it["type"] for it in said if it["event"] == "reply"]
            told = sum(int(it["echoes"]) for it in said if it["event"] == "left-out")
            at_most("lines of echoes", kinds.count("0810"), 100 * seconds)
            wanted("echoes, written or counted", kinds.count("0810") + told, 3000)
            wanted("lines of sales", kinds.count("0210"), 300)


def whole_times(program, mode):
    """The whole time of a reply, with its wait in the queue, is never less than the host's own."""
    with Book(program) as book:
        with Host(book, *mode, control=True, log=True) as host:
            with host.terminal() as terminal:
                terminal.send(b"".join(sale(trace=it) for it in range(1, 61)))
                for _ in range(60):
                    terminal.reply()
            lines = [it for it in log_lines(host.log()) if it["event"] == "reply"]
            times = [(int(it["microseconds"]), int(it["total_microseconds"])) for it in lines]
            wanted("lines of replies", len(times), 60)
            wanted("whole times below the host's own", [it for it in times if it[0] > it[1]], [])


# Ends.


def who_is_deaf_at_the_end(program, idle):
    """A host that has to end does, by `--stop-within`, though a terminal reads nothing and no
    `--idle` ends it; it says that this was its end."""
    words = ["--together", "8", "--idle", idle, "--stop-within", "1"]
    with Book(program, (DEAF,)) as book, Host(book, *words, control=True, log=True) as host:
        host.tell("status")
        with deaf(host):
            began = time.monotonic()
            wanted("the answer to stop", host.tell("stop"), "stopping\n")
            status, faults = host.ends()
            at_most("the seconds of an end", time.monotonic() - began, 15)
            said = [it.rsplit(" ", 1)[0] for it in faults]
            wanted("the end", (status, said), (0, ["acqd: 54 Write"]))
            said = [it for it in log_lines(host.log()) if it["event"] == "closed" and "peer" in it]
            wanted("why it was closed", [it.get("reason") for it in said], ["the host ended"])


def a_host_that_stands_still(program):
    """`tell` and `ranges --control` wait no longer than `--within` for an answer, and say that none
    came."""
    with Book(program) as book:
        with Host(book, "--together", "8", control=True) as host:
            host.tell("status")
            host.hold_still()
            ranges = ["ranges", "--control", host.control_path, "--set", book.file("list.csv", "")]
            for words in (["tell", host.control_path], ranges):
                words = [program, *words, "--within", "1"]
                began = time.monotonic()
                wanted("what is told", run(words, b"status\n"), (1, b"", "acqd: 55 Silent\n"))
                at_most("the seconds of it", time.monotonic() - began, 10)
            host.go_on()
            wanted("then", host.figures()["day"], DAY)


def the_day_that_ends(program):
    """`end,DAY` ends this business day and no other, so that one asked for twice ends one day."""
    with Book(program) as book, Host(book, "--together", "8", control=True) as host:
        control = host.control()
        wanted("another day", control.ask("end,2024-04-30"), "acqd: 63 OtherDay 2024-05-01")
        wanted("the day", control.ask(f"end,{DAY}"), "done")
        wanted("the same again", control.ask(f"end,{DAY}"), "acqd: 63 OtherDay 2024-05-02")
        wanted("the day after", host.figures()["day"], "2024-05-02")


def the_age_that_grows(program):
    """The age of what waits is by the host's clock: what a terminal says of its time is nothing to
    it."""
    with Book(program) as book:
        book.output("replay", given=f"frame,{MOMENT},{sale(e7=LATE)[2:].hex()},,,\n")
        with Host(book, "--together", "8", control=True, at=None) as host:
            first = int(host.figures()["oldest_pending_age_seconds"])
            at_most("the age at first", first, 30)
            time.sleep(2.2)
            later = int(host.figures()["oldest_pending_age_seconds"])
            wanted("that it grows", later - first in range(2, 31), True)


# Control sockets.


def no_descriptors_for_control(program):
    """A control connection that found no descriptor is tried again, and answered."""
    with Book(program) as book, Host(book, "--together", "8", control=True) as host:
        first = host.control()
        first.ask("status")
        with_it = host.descriptors()
        first.end.close()
        when("a descriptor is given back", lambda: host.descriptors() < with_it)
        host.allow(with_it - 1)
        late = Control(host.control_path)
        late.end.sendall(b"status\n")
        late.end.settimeout(2)
        try:
            late.answer()
            raise Wrong("an answer without a descriptor")
        except (TimeoutError, socket.timeout):
            pass
        used = host.processor_time()
        time.sleep(2)
        at_most("processor time while none is there", host.processor_time() - used, 1)
        host.allow(4096)
        late.end.settimeout(60)
        wanted("the answer then", bool(late.answer()), True)
        late.end.close()


def where_a_socket_may_stand(program):
    """No link's place, nothing too long for others to connect to; a folder that others filled is
    left; the socket is gone with its host."""
    with Book(program) as book:
        listening = book.words("listen", "--port", str(free_port()), "--together", "2", "--control")
        link = f"{book.folder}/link.control"
        os.symlink(f"{book.folder}/nowhere", link)
        wanted("at a link", run([*listening, link]), (1, b"", f"{READ}\n"))
        wanted("the link", os.readlink(link), f"{book.folder}/nowhere")
        fits = f"{book.folder}/{'s' * (LONGEST_PATH - len(book.folder) - 1)}"
        wanted("a path too long", run([*listening, f"{fits}s"]), (1, b"", f"{READ}\n"))
        filled = f"{fits}.new"
        os.mkdir(filled)
        with open(f"{filled}/other", "wb"):
            pass
        with Host(book, "--together", "2", "--control", fits) as host:
            host.control_path = fits
            Control(fits).end.close()
            wanted("the answer to stop", host.tell("stop"), "stopping\n")
            wanted("the end", host.ends(), (0, []))
        wanted("the folder that others filled", os.listdir(filled), ["other"])
        wanted("the socket behind its host", os.path.lexists(fits), False)


def one_file_twice(program):
    """A file that is named twice isn't overwritten: the book, the log, the issuers' file and the
    socket are four."""
    with Book(program) as book:
        issuers = book.file("issuers.csv", APPROVING)
        pairs = [(issuers, "another"), (book.path, "book"), (f"{book.path}-wal", "log")]
        for path, name in pairs:
            for make in (os.symlink, os.link):
                # A book under two names is refused by the store.
                if not os.path.exists(path) or make == os.link and name != "another":
                    continue
                other = f"{book.folder}/{name}.{make.__name__}"
                make(path, other)
                words = ["--port", str(free_port()), "--together", "2", "--issuers", issuers]
                words = book.words("listen", *words, "--log", other)
                wanted(f"{name} by {make.__name__}", run(words), (1, b"", f"{READ}\n"))
                with open(path, "rb") as it:
                    wanted(f"that a log stands in {name}", b"event=" in it.read(), False)
                os.remove(other)


TOGETHER = MODES[1]
TRIES = [(it, TOGETHER) for it in (a_pipe_for_a_log, a_full_log, a_moved_log)]
TRIES += [(it, TOGETHER) for it in (a_log_that_cannot_be_had, a_flood, whole_times)]
TRIES += [(who_is_deaf_at_the_end, it) for it in ("0", "300")]
TRIES += [a_host_that_stands_still, the_day_that_ends, the_age_that_grows]
TRIES += [no_descriptors_for_control, where_a_socket_may_stand, one_file_twice]

if __name__ == "__main__":
    sys.exit(main(TRIES, at_once=4))
