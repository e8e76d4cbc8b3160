#!/usr/bin/env python3
"""units.py PROGRAM: the service of examples/acqd.service as systemd would run it, and the backup of
a host that serves, as docs/OPERATING.md prints it.

The commands of the unit are run with its paths in a folder of their own. What systemd itself says
of the units is asked of systemd-analyze, and which calls of the system they make of strace, each if
it is there."""
import os
import re
import shlex
import shutil
import signal
import subprocess
import sys
import threading
import time

from terminal import (
    APPROVING, DAY, PATIENCE, Book, Host, Terminal, Wrong, approved, free_port, main, output, run,
    sale, wanted, when,
)

HERE = os.path.dirname(os.path.abspath(__file__))
TOP = os.path.dirname(os.path.dirname(HERE))
UNITS = ("acqd.service", "acqd-page.service", "machines/acqd.service")
# As `systemd-analyze security` counts, from 0 to 10.
EXPOSURE = 2.0


def settings_of(name):
    """The settings of a unit: for each key its values, in order."""
    with open(f"{TOP}/examples/{name}", encoding="ascii") as it:
        text = re.sub(r"\\\n", " ", re.sub(r"^#.*\n", "", it.read(), flags=re.MULTILINE))
    found = {}
    for line in text.splitlines():
        key, sign, value = line.partition("=")
        if sign:
            found.setdefault(key, []).append(value)
    return found


def end_all(process):
    """Ends a process with all that it began in its session."""
    try:
        os.killpg(process.pid, signal.SIGKILL)
    except ProcessLookupError:
        pass
    process.wait()


class Service:
    """The service over a book: what systemd would run, until its block ends."""

    def __init__(self, book, traced=None):
        self.book, self.port, self.traced = book, free_port(), traced
        self.settings = settings_of("acqd.service")
        self.process, self.begun = None, []
        for name in ("lib", "run", "log"):
            os.mkdir(f"{book.folder}/{name}")
        with open(f"{book.folder}/lib/issuers.csv", "w", encoding="ascii") as it:
            it.write(APPROVING)
        book.copy(f"{book.folder}/lib/book.db")

    def __enter__(self):
        return self

    def __exit__(self, *_):
        for it in self.begun:
            end_all(it)

    def words(self, key):
        """A command of the unit, with the paths of this service."""
        (text,) = self.settings[key]
        text = text.replace("${MAINPID}", str(self.process.pid if self.process else 0))
        folders = {"/var/lib/acqd": "lib", "/run/acqd": "run", "/var/log/acqd": "log"}
        for path, name in folders.items():
            text = text.replace(path, f"{self.book.folder}/{name}")
        text = text.replace("8583", str(self.port))
        text = text.replace("/usr/local/bin/acqd", self.book.program)
        trace = ["strace", "-f", "-qq", "-A", "-o", self.traced] if self.traced else []
        return [*trace, *shlex.split(text)]

    def start(self):
        self.process = self.begin("ExecStart")
        # Whoever waits for its end as systemd does has it gone at once.
        threading.Thread(target=self.process.wait, daemon=True).start()

    def begin(self, key):
        silent = {"stdout": subprocess.DEVNULL, "stderr": subprocess.DEVNULL}
        self.begun.append(subprocess.Popen(self.words(key), start_new_session=True, **silent))
        return self.begun[-1]

    def is_gone(self):
        """Whether its main process is gone, as `kill -0` sees it."""
        try:
            os.kill(self.process.pid, 0)
        except ProcessLookupError:
            return True
        return False


def requests_in(program, path):
    """How many requests of the day a book has."""
    told = output([program, "status", "--db", path]).decode()
    return re.search(r"^requests_today (.*)$", told, re.MULTILINE)[1]


def started_and_stopped(program):
    """It has started once it serves; its stop waits until it has ended, and well."""
    with Book(program) as book, Service(book) as service:
        service.start()
        wanted("the start", service.begin("ExecStartPost").wait(PATIENCE), 0)
        with Terminal(service.port, sale()) as terminal:
            wanted("the reply to a sale", terminal.reply(), approved())
        wanted("the stop", service.begin("ExecStop").wait(PATIENCE), 0)
        wanted("that it is gone then", service.is_gone(), True)
        wanted("its end", service.process.wait(PATIENCE), 0)
        wanted("the requests in its book", requests_in(program, f"{book.folder}/lib/book.db"), "1")


def a_start_that_takes_long(program):
    """A host that isn't ready yet is waited for."""
    with Book(program) as book, Service(book) as service:
        service.start()
        service.process.send_signal(signal.SIGSTOP)
        waiting = service.begin("ExecStartPost")
        time.sleep(1)
        wanted("a start while the host isn't ready", waiting.poll(), None)
        service.process.send_signal(signal.SIGCONT)
        wanted("the start then", waiting.wait(PATIENCE), 0)


def a_start_that_fails(program):
    """A host that ends before it serves has failed to start."""
    with Book(program) as book, Service(book) as service:
        os.remove(f"{book.folder}/lib/book.db")
        service.start()
        wanted("the start", service.begin("ExecStartPost").wait(PATIENCE), 1)
        wanted("the host", service.process.wait(PATIENCE), 1)


def what_systemd_says(program, names):
    """The unit is one, and open to little."""
    with Book(program, None) as book:
        path = f"{book.folder}/acqd.service"
        with open(f"{TOP}/examples/{names[0]}", encoding="ascii") as it:
            text = re.sub(r"/usr/local/bin/acqd(-on-volume)?", program, it.read())
        with open(path, "w", encoding="ascii") as it:
            it.write(text)
        wanted("what is wrong with it", run(["systemd-analyze", "verify", path]), (0, b"", ""))
        told = output(["systemd-analyze", "security", "--offline=true", path]).decode()
        exposure = float(re.search(r"exposure level .*: ([\d.]+)", told)[1])
        if exposure >= EXPOSURE:
            raise Wrong(f"an exposure of {exposure}, not below {EXPOSURE}")


def calls_of(name):
    """The calls of a set of systemd's, and of the sets in it."""
    told = output(["systemd-analyze", "syscall-filter", name]).decode().splitlines()[1:]
    found = set()
    for word in (it.strip() for it in told if it.strip() and not it.strip().startswith("#")):
        found |= calls_of(word) if word.startswith("@") else {word}
    return found


def calls_of_the_system(program):
    """The service makes no call that its unit refuses: a start, sales, all that is told a host, a
    stop."""
    with Book(program) as book, Service(book, f"{book.folder}/calls") as service:
        first, but = (it.split() for it in service.settings["SystemCallFilter"])
        allowed = set().union(*map(calls_of, first))
        allowed -= set().union(*(calls_of(it.lstrip("~")) for it in but))
        service.start()
        wanted("the start", service.begin("ExecStartPost").wait(PATIENCE), 0)
        with Terminal(service.port, sale()) as terminal:
            wanted("the reply to a sale", terminal.reply(), approved())
        lines = ["status", "metrics", "reopen", f"end,{DAY}", f"report,{DAY}", f"pending,{DAY}"]
        told = "".join(f"{it}\n" for it in lines)
        output([program, "tell", f"{book.folder}/run/host.control"], told)
        service.begin("ExecStop").wait(PATIENCE)
        with open(service.traced, encoding="latin-1") as it:
            made = set(re.findall(r"^\d+ +(\w+)\(", it.read(), re.MULTILINE))
        wanted("that the trace has calls", {"accept4", "fdatasync", "connect"} <= made, True)
        wanted("calls that the unit refuses", sorted(made - allowed), [])


# The backup of a host that serves.


def backup():
    """The block of OPERATING that has a host stand still."""
    with open(f"{TOP}/docs/OPERATING.md", encoding="utf-8") as it:
        blocks = re.findall(r"^```\n(.*?)^```$", it.read(), re.MULTILINE | re.DOTALL)
    (block,) = [it for it in blocks if "STOP" in it]
    return block


def begun_backup(book, host, shell="sh", copy='exec /bin/cp "$@"'):
    """The shell that makes the backup, in a session of its own; `copy` is what `cp` does."""
    os.mkdir(f"{book.folder}/bin")
    os.makedirs(f"{book.folder}/kept")
    for name, text in (("systemctl", f"echo {host.process.pid}"), ("cp", copy)):
        with open(f"{book.folder}/bin/{name}", "w", encoding="ascii") as it:
            it.write(f"#!/bin/sh\n{text}\n")
        os.chmod(it.name, 0o755)
    path = {**os.environ, "PATH": f"{book.folder}/bin:{os.environ['PATH']}"}
    how = {"cwd": book.folder, "env": path, "stderr": subprocess.DEVNULL, "start_new_session": True}
    return subprocess.Popen([shell, "-c", backup()], preexec_fn=heed_signals, **how)


def heed_signals():
    """A shell can't trap what was ignored where it began, as by `nohup` or behind `&`."""
    for it in (signal.SIGHUP, signal.SIGINT, signal.SIGTERM):
        signal.signal(it, signal.SIG_DFL)


def a_backup(program):
    """The copy is a book with the sales so far, and the host goes on."""
    with Book(program) as book, Host(book, "--together", "8", control=True) as host:
        with host.terminal(sale()) as terminal:
            wanted("the reply to a sale", terminal.reply(), approved())
        wanted("the backup", begun_backup(book, host).wait(PATIENCE), 0)
        wanted("the requests in it", requests_in(program, f"{book.folder}/kept/book.db"), "1")
        wanted("the host", host.figures()["day"], DAY)


def a_backup_that_is_cut(program, names):
    """The host goes on if the shell that made it stand still is ended by this signal, and the copy
    with it."""
    kind, shell = names
    with Book(program) as book, Host(book, "--together", "8", control=True) as host:
        host.tell("status")
        begun = begun_backup(book, host, shell, ": >begun; exec sleep 600")
        try:
            when("the copy begins", lambda: os.path.exists(f"{book.folder}/begun"))
            wanted("the host meanwhile", host.stat()[0], "T")
            os.killpg(begun.pid, getattr(signal, kind))
            when("the host goes on", lambda: host.stat()[0] != "T", 10)
        finally:
            end_all(begun)
        wanted("its day", host.figures()["day"], DAY)


TRIES = [started_and_stopped, a_start_that_takes_long, a_start_that_fails, a_backup]
TRIES += [(a_backup_that_is_cut, [it, "sh"]) for it in ("SIGHUP", "SIGINT", "SIGTERM")]
TRIES += [(a_backup_that_is_cut, [it, "bash"]) for it in ("SIGHUP", "SIGTERM")]
if shutil.which("systemd-analyze"):
    TRIES += [(what_systemd_says, [it]) for it in UNITS]
    TRIES += [calls_of_the_system] if shutil.which("strace") else []

if __name__ == "__main__":
    sys.exit(main(TRIES))
