"""What the live scripts share: messages, books, a host under test, terminals and control
connections.

Each script has a list of tries, functions of the program that raise `Wrong` at the first
difference. `python3 NAME.py PROGRAM` runs them all, prints one line and ends with 0 or 1; words
behind PROGRAM are the names of tries that are run alone, and a number is how large the script's own
tries are."""
import concurrent.futures
import os
import random
import re
import resource
import select
import shutil
import signal
import socket
import struct
import subprocess
import sys
import tempfile
import threading
import time

MOMENT, DAY = 1714555800, "2024-05-01"
CARD, DECLINED, UNKNOWN = "4111111111111111", "5500005555555559", "4242424242424242"
APPROVING = f"{CARD},approved,A1B2C3\n"
HEADING = "day,merchant,number,leg,amount,reference,card,terminal,trace\n"
# One by one, and many at once.
MODES = ([], ["--together", "8"])
# How many seconds anything may take on a machine that has much else to do; less if it's known not
# to come.
PATIENCE = int(os.environ.get("LIVE_PATIENCE", "120"))
READ, ENDED = "acqd: 53 Read", "acqd: 51 Ended"


class Wrong(Exception):
    """Something isn't as it has to be."""


def wanted(what, got, want):
    if got != want:
        raise Wrong(f"{what}: came {shown(got)}, not {shown(want)}")


def shown(it):
    """It as text, not too long, with cards masked."""
    text = repr(it)
    for card in (CARD, DECLINED, UNKNOWN):
        text = text.replace(card, f"{card[:6]}......{card[-4:]}")
    return text if len(text) < 400 else f"{text[:300]} .. {text[-90:]}"


def name_of(one):
    """The name of a try, and what it is tried with."""
    function, *given = one if isinstance(one, tuple) else (one,)
    return " ".join([function.__name__, *(" ".join(map(str, it)) for it in given if it)])


def main(tries, at_once=1):
    """Runs the tries, so many at once, or those that are named; the status is 0 or 1."""
    program, names = os.path.abspath(sys.argv[1]), [it for it in sys.argv[2:] if not it.isdigit()]
    asked = [it for it in tries if not names or name_of(it).split(" ")[0] in names]

    def differs(one):
        function, *given = one if isinstance(one, tuple) else (one,)
        try:
            function(program, *given)
        except Exception as wrong:  # whatever it is, the try failed by it
            kind = "" if isinstance(wrong, Wrong) else f"{type(wrong).__name__} "
            return f"{name_of(one)}: {kind}{wrong}"

    with concurrent.futures.ThreadPoolExecutor(at_once) as pool:
        wrong = [it for it in pool.map(differs, asked) if it]
    script = os.path.basename(sys.argv[0]).partition(".")[0]
    print("; ".join([f"{script}: {len(asked)} tries, {len(wrong)} wrong", *wrong[:9]]))
    return 1 if wrong or not asked else 0


def size(usual):
    """The number behind PROGRAM, or the usual one."""
    return next((int(it) for it in sys.argv[2:] if it.isdigit()), usual)


# Messages.


# How many digits of length the contents of these elements stand behind, and how many bytes each
# other element has, after docs/PROFILE.md.
DIGITS_OF_LENGTH = {2: 2, 32: 2, 33: 2, 35: 2, 45: 2, 48: 3, **{it: 3 for it in range(54, 64)}}
SIZES = {
    3: 6, 4: 12, 7: 10, 11: 6, 12: 6, 13: 4, 14: 4, 15: 4, 18: 4, 19: 3, 22: 3, 23: 3, 24: 3, 25: 2,
    26: 2, 37: 12, 38: 6, 39: 2, 41: 8, 42: 15, 43: 40, 49: 3, 50: 3, 52: 16, 53: 16, 64: 16, 66: 1,
    70: 3, **{it: 10 for it in range(74, 78)}, **{it: 16 for it in range(86, 90)}, 90: 42, 95: 42,
    97: 17, 128: 16,
}


def spelled(kind, elements):
    """A message of these elements, by number, as docs/PROFILE.md spells it."""
    lengths = DIGITS_OF_LENGTH
    bits = sum(1 << 128 - it for it in elements) | (1 << 127 if max(elements) > 64 else 0)
    text = kind + f"{bits:032X}"[: 32 if bits >> 127 else 16]
    for number, content in sorted(elements.items()):
        if number in lengths:
            text += f"{len(content):0{lengths[number]}d}"
        text += content
    return text


def frame(text):
    """A message, with or without `|` between its parts, behind its length."""
    message = text if isinstance(text, bytes) else text.replace("|", "").encode("latin-1")
    return len(message).to_bytes(2, "big") + message


def message(kind, elements):
    return frame(spelled(kind, elements))


def merchant(k):
    return f"MERCHANT{k:07d}"


def request(kind, k, trace, elements, **changes):
    """A request of the terminal of merchant k; a change to None leaves its element out."""
    own = {7: "0501093000", 11: f"{trace:06d}", 41: "TERM0001", 42: merchant(k)}
    changed = {**own, **elements, **{int(key[1:]): it for key, it in changes.items()}}
    return message(kind, {key: it for key, it in changed.items() if it is not None})


def sale(k=1, trace=1, kind="0200", card=CARD, amount=1000, **changes):
    """A sale by its merchant and trace; `e49="840"` has another element 49."""
    own = {2: card, 3: "000000", 4: f"{amount:012d}", 49: "978"}
    return request(kind, k, trace, own, **changes)


def approved(k=1, trace=1, kind="0210", card=CARD, amount=1000, **changes):
    """The reply to a sale that was approved; by default each trace has the reference of its
    number."""
    own = {2: card, 3: "000000", 4: f"{amount:012d}", 15: "0501", 37: f"{trace:012d}"}
    own |= {38: "A1B2C3", 39: "00", 49: "978"}
    return request(kind, k, trace, own, **changes)


def echo(trace=1, **changes):
    own = {"e7": "0101120000", "e41": None, "e42": None}
    return request("0800", 1, trace, {70: "301"}, **{**own, **changes})


def echoed(trace=1, **changes):
    own = {"e7": "0101120000", "e41": None, "e42": None}
    return request("0810", 1, trace, {39: "00", 70: "301"}, **{**own, **changes})


ECHO, REPLY = echo(), echoed()
BAD = b"\x00\x00"


def split_frames(came):
    """The whole frames in front, and what is left behind them."""
    frames, end = [], 0
    while len(came) - end > 1:
        behind = end + 2 + int.from_bytes(came[end : end + 2], "big")
        if behind > len(came):
            break
        frames.append(bytes(came[end:behind]))
        end = behind
    return frames, bytes(came[end:])


def elements_of(given):
    """The elements of a frame's message by number, and its type as 0."""
    text = given[2:].decode("latin-1")
    at = 36 if int(text[4], 16) & 8 else 20
    bits = f"{int(text[4:at], 16):0{(at - 4) * 4}b}"
    found = {0: text[:4]}
    for number in (it for it in range(2, len(bits) + 1) if bits[it - 1] == "1"):
        if digits := DIGITS_OF_LENGTH.get(number):
            at, length = at + digits, int(text[at : at + digits])
        else:
            length = SIZES[number]
        found[number], at = text[at : at + length], at + length
    return found


def code_of(reply):
    return elements_of(reply).get(39)


def pieces(sent, chance, lengths=(1, 2, 3, 7, 50, 97, 300)):
    """The bytes, cut anywhere."""
    while sent:
        n = chance.choice(lengths)
        yield sent[:n]
        sent = sent[n:]


# Runs of the program, and books.


def run(words, given=b"", **how):
    """The status, output and faults of a run."""
    how.setdefault("stdout", subprocess.PIPE)
    given = given.encode() if isinstance(given, str) else given
    ended = subprocess.run(words, input=given, stderr=subprocess.PIPE, timeout=600, **how)
    return ended.returncode, ended.stdout, ended.stderr.decode()


def output(words, given=b""):
    """The output of a run that has to end well."""
    status, out, faults = run(words, given)
    wanted(f"the end of acqd {' '.join(words[1:])}", (status, faults), (0, ""))
    return out


def setup_of(merchants):
    lines = ["addrange,40000000,49999999,12345,7,", "addrange,50000000,59999999,67890,1,"]
    for k in merchants:
        lines += [f"enrol,{merchant(k)},978,1,,", f"terminal,{merchant(k)},TERM0001,,,"]
    return "".join(f"{it}\n" for it in lines)


class Book:
    """A new book in a folder of its own, with ranges and a terminal for each of these merchants;
    with None it is empty."""

    # Books that were made, by what they are made of: the files of a new one are copies.
    made, turn = {}, threading.Lock()

    def __init__(self, program, merchants=(1,), limit=999999):
        self.program, self.folder = program, tempfile.mkdtemp()
        self.path = f"{self.folder}/book.db"
        asked = (program, merchants if merchants is None else tuple(merchants), limit)
        with self.turn:
            if asked not in self.made:
                self.output("init", "--limit", str(limit), "--day", DAY)
                if merchants is not None:
                    self.output("replay", given=setup_of(merchants))
                self.made[asked] = self.files()
        for end, content in self.made[asked].items():
            with open(self.path + end, "wb") as it:
                os.chmod(it.name, 0o600)
                it.write(content)

    def files(self):
        """What its files hold."""
        found = {}
        for end in ("", "-wal"):
            if os.path.exists(self.path + end):
                with open(self.path + end, "rb") as it:
                    found[end] = it.read()
        return found

    def __enter__(self):
        return self

    def __exit__(self, *_):
        shutil.rmtree(self.folder, ignore_errors=True)

    def words(self, command, *words):
        return [self.program, command, "--db", self.path, *words]

    def run(self, command, *words, given=b""):
        return run(self.words(command, *words), given)

    def output(self, command, *words, given=b""):
        return output(self.words(command, *words), given).decode("latin-1")

    def file(self, name, text):
        with open(f"{self.folder}/{name}", "w", encoding="latin-1") as it:
            it.write(text)
        return it.name

    def cleared(self):
        """The day's clearing file, once it is cut over."""
        wanted("a cutover", self.output("replay", given=f"cutover,{MOMENT},,,,\n"), "done\n")
        return self.output("clearing", "--day", DAY)

    def copy(self, path):
        """A copy of its two files."""
        for end, content in self.files().items():
            with open(path + end, "wb") as it:
                it.write(content)
        return path


def cleared_sales(sales):
    """The clearing file of sales of 10.00, by merchant, trace and reference, in this order."""
    numbers, lines = {}, []
    for k, trace, reference in sales:
        numbers[k] = numbers.get(k, 0) + 1
        behind = f"debit,1000,{reference:012d},{CARD},TERM0001,{trace:06d}"
        lines.append(f"{DAY},{merchant(k)},{numbers[k]},{behind}\n")
    return HEADING + "".join(lines)


# A host, and who talks to it.


# The system gives no connection's own end one of these.
PORTS = range(20000, 32000)
# The mark of each port that this process was given, as long as it runs.
marks = []


def free_port():
    """A port that nobody listens at, and that no other test is given: of two hosts at one port the
    second ends, and till then its terminals talk to the first."""
    while True:
        port, mark = random.choice(PORTS), socket.socket(socket.AF_UNIX)
        try:
            mark.bind(f"\0acqd.test.{port}")
            with socket.socket() as free:
                free.bind(("127.0.0.1", port))
        except OSError:
            mark.close()
        else:
            marks.append(mark)
            return port


class Host:
    """`acqd listen` over a book, until its block ends: what it tells on standard error is kept."""

    def __init__(self, book, *words, issuers=APPROVING, at=MOMENT, control=False, log=None, **how):
        self.book, self.port = book, free_port()
        self.control_path = f"{book.folder}/host.control" if control else None
        self.log_path = f"{book.folder}/host.log" if log is True else log
        self.told = f"{book.folder}/told.{self.port}"
        words = [*words, *(["--control", self.control_path] if control else [])]
        words += ["--log", self.log_path] if self.log_path else []
        words += ["--issuers", book.file("issuers.csv", issuers)] if issuers is not None else []
        words += ["--at", str(at)] if at else []
        self.words = book.words("listen", "--port", str(self.port), *words)
        self.begin(**how)

    def begin(self, **how):
        with open(self.told, "wb") as told:
            how = {"stdin": subprocess.DEVNULL, "stdout": subprocess.PIPE, "stderr": told, **how}
            self.process = subprocess.Popen(self.words, **how)

    def __enter__(self):
        return self

    def __exit__(self, *_):
        self.end(signal.SIGKILL)

    def end(self, how=signal.SIGTERM):
        """Ends it, and waits until it and all that it began is gone."""
        if self.process.poll() is None:
            self.process.send_signal(how)
        self.process.communicate(timeout=PATIENCE)

    def ends(self):
        """Its status and faults once it ends by itself; it writes nothing else."""
        out, _ = self.process.communicate(timeout=PATIENCE)
        wanted("what a host writes", out, b"")
        return self.process.returncode, self.faults()

    def terminal(self, sent=b"", **how):
        return Terminal(self.port, sent, **how)

    def control(self, chance=None):
        return Control(self.control_path, chance)

    def tell(self, *lines):
        """What `acqd tell` writes of these lines, which have to be answered without a fault."""
        when("no control socket", lambda: os.path.exists(self.control_path))
        words = [self.book.program, "tell", self.control_path]
        return output(words, "".join(f"{it}\n" for it in lines)).decode()

    def figures(self):
        """The lines of a status, by their keys."""
        return dict(line.split(" ", 1) for line in self.tell("status").splitlines())

    def faults(self):
        with open(self.told, encoding="latin-1") as it:
            return it.read().splitlines()

    def fault_within(self, begin, seconds=PATIENCE):
        """Waits for a fault line that begins so."""
        def has_come():
            return [it for it in self.faults() if it.startswith(begin)]

        when(f"no fault {begin!r}", has_come, seconds)

    def log(self):
        with open(self.log_path, encoding="latin-1") as it:
            return it.read()

    def is_at(self, address):
        """Whether it listens at this address of the machine; it does at one."""
        with socket.socket() as end:
            return end.connect_ex((address, self.port)) == 0

    def descriptors(self):
        return len(os.listdir(f"/proc/{self.process.pid}/fd"))

    def allow(self, descriptors):
        resource.prlimit(self.process.pid, resource.RLIMIT_NOFILE, (descriptors, 4096))

    def stat(self):
        with open(f"/proc/{self.process.pid}/stat", encoding="ascii") as it:
            return it.read().rpartition(")")[2].split()

    def processor_time(self):
        return sum(int(it) for it in self.stat()[11:13]) / os.sysconf("SC_CLK_TCK")

    def hold_still(self):
        self.process.send_signal(signal.SIGSTOP)
        when("a host goes on", lambda: self.stat()[0] == "T")

    def go_on(self):
        self.process.send_signal(signal.SIGCONT)


def when(what, check, within=PATIENCE):
    """What the check gives as soon as it is true."""
    until = time.monotonic() + within
    while not (found := check()):
        if time.monotonic() > until:
            raise Wrong(f"{what} within {within} seconds")
        time.sleep(0.01)
    return found


def connect(family, address, room=None):
    """A connection, as soon as somebody listens."""
    until = time.monotonic() + PATIENCE
    while True:
        end = socket.socket(family)
        if room:
            end.setsockopt(socket.SOL_SOCKET, socket.SO_RCVBUF, room)
            # What the system keeps for the other side goes by the size of its segments.
            end.setsockopt(socket.IPPROTO_TCP, socket.TCP_MAXSEG, 536)
        end.settimeout(PATIENCE)
        try:
            end.connect(address)
            return end
        except (ConnectionRefusedError, FileNotFoundError):
            end.close()
            if time.monotonic() > until:
                raise Wrong(f"nobody listens at {address}") from None
            time.sleep(0.02)


def is_readable(end, within):
    """Whether something comes over a connection within so many seconds, or its end."""
    there = select.poll()
    there.register(end, select.POLLIN)
    return bool(there.poll(max(within, 0) * 1000))


class Terminal:
    """A connection of a terminal, what came over it and wasn't asked for yet."""

    def __init__(self, port, sent=b"", room=None, address="127.0.0.1"):
        self.end, self.held = connect(socket.AF_INET, (address, port), room), bytearray()
        self.send(sent)

    def __enter__(self):
        return self

    def __exit__(self, *_):
        self.end.close()

    def fileno(self):
        return self.end.fileno()

    def send(self, sent):
        self.end.sendall(sent)

    def send_some(self, left, wait=0):
        """Sends of this what goes within so many seconds, and returns what is left."""
        if select.select([], [self.end], [], wait)[1]:
            left = left[self.end.send(left) :]
        return left

    def send_until_full(self, sent, left=b""):
        """Sends what is left, then this again and again, until nothing went for a second."""
        before = None
        while left != before:
            before = left or sent * 100
            left = self.send_some(before, wait=1)

    def more(self, within=PATIENCE):
        """Whether more came, and no end."""
        try:
            came = self.end.recv(65536) if is_readable(self.end, within) else b""
        except ConnectionResetError:
            came = b""
        self.held += came
        return bool(came)

    def has_frame(self):
        return len(self.held) > 1 and len(self.held) >= 2 + int.from_bytes(self.held[:2], "big")

    def waits_for_frame(self, within=PATIENCE):
        """Whether a whole frame comes within the time and before the end."""
        until = time.monotonic() + within
        while not self.has_frame() and self.more(until - time.monotonic()):
            pass
        return self.has_frame()

    def reply(self, within=PATIENCE):
        """The next whole frame, or what came of it within the time or before the end."""
        self.waits_for_frame(within)
        count = 2 + int.from_bytes(self.held[:2], "big")
        frame, self.held = bytes(self.held[:count]), self.held[count:]
        return frame

    def ask(self, sent, within=PATIENCE):
        self.send(sent)
        return self.reply(within)

    def rest(self, within=PATIENCE):
        """All that comes until the end, which has to come in this time."""
        until = time.monotonic() + within
        while is_readable(self.end, until - time.monotonic()):
            if not self.more(0):
                came, self.held = bytes(self.held), bytearray()
                return came
        raise Wrong(f"a connection is there after {within} seconds, with {shown(bytes(self.held))}")

    def is_served(self, within=PATIENCE):
        try:
            return self.ask(ECHO, within) == REPLY
        except OSError:
            return False

    def has_come(self):
        """Waits until the next byte of a reply is there, and leaves it there."""
        wanted("a reply that is left", len(self.end.recv(1, socket.MSG_PEEK)), 1)

    def finish(self):
        """Ends its sending side, and gives what still comes."""
        self.end.shutdown(socket.SHUT_WR)
        return self.rest()

    def reset(self):
        self.end.setsockopt(socket.SOL_SOCKET, socket.SO_LINGER, struct.pack("ii", 1, 0))
        self.end.close()


class Control:
    """A control connection: lines go in, cut anywhere, and each has one answer."""

    def __init__(self, path, chance=None):
        self.end, self.held, self.words = connect(socket.AF_UNIX, path), b"", []
        self.chance = chance or random.Random(8583)

    def taken(self, n):
        while len(self.held) < n:
            came = self.end.recv(65536)
            if not came:
                raise Wrong("a control connection ended")
            self.held += came
        taken, self.held = self.held[:n], self.held[n:]
        return taken

    def answer(self):
        """A line, or the bytes of a text."""
        while b"\n" not in self.held:
            self.held = self.taken(len(self.held) + 1) + self.held
        line = self.taken(self.held.index(b"\n") + 1)
        if line.startswith(b"text "):
            return self.taken(int(line[5:]))
        return line.decode().rstrip("\n")

    def ask(self, line):
        self.words.append(line.split(",")[0])
        lengths = [1, 2, 5, 40] if len(line) < 1000 else [1, 40, 1000, 5000]
        for piece in pieces(line.encode() + b"\n", self.chance, lengths):
            self.end.sendall(piece)
        return self.answer()


def log_lines(text):
    """The keys and values of each line of a host's log."""
    lines = (re.findall(r'([a-z_]+)=("(?:[^"\\]|\\.)*"|[^ ]*)', it) for it in text.splitlines())
    return [{key: re.sub(r"\\(.)", r"\1", it.strip('"')) for key, it in line} for line in lines]
