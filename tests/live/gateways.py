"""What scripts share that have gateways: a host with a socket for one, a gateway, and lines."""
import csv
import os
import socket
import time

from terminal import CARD, MOMENT, PATIENCE, Host, Wrong, connect, is_readable, merchant, wanted

ISSUER = "12345"


class GatewayHost(Host):
    """A host whose issuers are asked by a gateway."""

    def __init__(self, book, *words, together=8, **how):
        self.gateway_path = f"{book.folder}/host.gateway"
        words = ["--together", str(together), *words, "--gateway", self.gateway_path]
        super().__init__(book, *words, issuers=None, **how)

    def gateway(self, behind=0):
        """A gateway that the host has taken in, and that asks for the rows behind this one."""
        gateway = Gateway(self.gateway_path)
        gateway.begin(behind)
        return gateway

    def gateway_again(self, gateway, behind=0):
        """Another one in the place of one that goes."""
        gateway.close()
        return self.gateway(behind)


class Gateway:
    """A connection of a gateway: how many lines went, and what came and wasn't asked for yet."""

    def __init__(self, path):
        self.end, self.held, self.sent = connect(socket.AF_UNIX, path), b"", 0

    def __enter__(self):
        return self

    def __exit__(self, *_):
        self.close()

    def close(self):
        self.end.close()

    def send(self, line, end="\n"):
        self.sent += 1
        self.end.sendall(f"{line}{end}".encode("latin-1"))

    def begin(self, behind=0):
        """Asks for the rows behind this one, and waits until the host has read so far, by its word
        on a line that is none. What comes by then is kept."""
        self.send(f"from,{behind}")
        self.send("mark")
        mark, came = f"acqd: 62 BadLine {self.sent}", b""
        while (line := self.line()) != mark:
            came += f"{line}\n".encode("latin-1")
        self.held = came + self.held

    def more(self, within=PATIENCE):
        """Whether more came, and no end."""
        try:
            came = self.end.recv(65536) if is_readable(self.end, within) else b""
        except ConnectionResetError:
            came = b""
        self.held += came
        return bool(came)

    def line(self, within=PATIENCE):
        """The next line; an end of the connection is none."""
        until = time.monotonic() + within
        while b"\n" not in self.held:
            if not self.more(until - time.monotonic()):
                raise Wrong(f"no line of the host within {within} seconds, but {self.held!r}")
        line, _, self.held = self.held.partition(b"\n")
        return line.decode("latin-1")

    def lines(self, count):
        return [self.line() for _ in range(count)]

    def is_silent(self, seconds=0.5):
        """Whether nothing comes for so long."""
        return not self.held and not self.more(seconds)

    def ask(self, line):
        self.send(line)
        return self.line()

    def answer(self, reference=1, verdict="approved,A1B2C3", k=1):
        """What the host says to an answer."""
        return self.ask(answer(reference, verdict, k))

    def settle(self, reference=1, verdict="approved,A1B2C3", k=1):
        """An answer that the host has to take."""
        wanted("the word on an answer", self.answer(reference, verdict, k), done(reference, k))

    def query(self):
        """The next line, which has to be a query: its fields, as docs/ISSUERS.md calls them."""
        line = self.line()
        fields = fields_of(line)
        if fields[0] != "query" or len(fields) != 12:
            raise Wrong(f"no query: {line}")
        names = "row merchant reference kind leg card amount currency issuer moment hex".split()
        return dict(zip(names, fields[1:]))


def fields_of(line):
    return next(csv.reader([line]))


def answer(reference=1, verdict="approved,A1B2C3", k=1):
    return f"answer,now,{merchant(k)},{reference:012d},{verdict}"


def done(reference=1, k=1):
    return f"done,{merchant(k)},{reference:012d}"


def refused(number, reference=1, k=1):
    return f"refused,{number},{merchant(k)},{reference:012d}"


def query(row=1, reference=1, k=1, kind="financial", leg="debit", card=CARD, amount=1000,
          issuer=ISSUER, sent=None):
    """What the host says of a request that waits; `sent` is its frame, where that is still
    known."""
    return dict(row=str(row), merchant=merchant(k), reference=f"{reference:012d}", kind=kind,
                leg=leg, card=card, amount=str(amount), currency="978", issuer=issuer,
                moment=str(MOMENT), hex=sent[2:].hex() if sent else "")


def wanted_query(gateway, what="a query", **fields):
    """The next line has to be this query; the case of hexadecimal digits says nothing."""
    came = gateway.query()
    wanted(what, {**came, "hex": came["hex"].lower()}, query(**fields))


def advice(row, what, reference=1, kind="financial", amount=1000, remains=0, k=1, card=CARD,
           issuer=ISSUER):
    own = [row, merchant(k), f"{reference:012d}", what, kind, card, amount, remains, 978, issuer]
    return ",".join(["advice", *map(str, own)])


def mode_of(path):
    return os.stat(path).st_mode & 0o777
