"""What stands ready for a run: a book in its file, issuers' answers, a port, and a host that takes
control connections."""

import os
import socket
import threading

from books import LITTLE_MEMORY, VERSION

# The port that rows write for any; another one stands for itself.
ANY_PORT = "8583"
# Where rows have no book, the store can't have the file, as where a folder stands in its place.
REFUSED_BY_DEFAULT = (2,)


def value_of(words, name):
    """The value that an option has in a command line, where it has one."""
    for place, word in enumerate(words):
        if word == name and place + 1 < len(words):
            return words[place + 1]
        if word.startswith(f"{name}="):
            return word[len(name) + 1 :]
    return None


def has_book(command, refused):
    """Whether there is a book, though it is refused: what `init` refuses as none is one that is
    there already, and what other commands do is none."""
    return refused == (40,) if command == "init" else refused != (40,)


def put(path, given):
    """Puts a file at a path."""
    with open(path, "wb") as file:
        file.write(given)


class MachineAtHand:
    """What a run's machine holds, in a folder."""

    def __init__(self, books, room, run):
        self.books, self.room, self.terms, self.words = books, room, run.machine, list(run.words)
        self.held = []
        self.put_book()
        self.put_file("--issuers", self.terms.issuers)
        self.put_file("--set", self.terms.ranges)
        self.put_port()
        self.put_host()

    def close(self):
        """Lets go of ports."""
        for it in self.held:
            it.close()

    def memory(self):
        """How much memory the run has, where a book is refused for want of it."""
        return LITTLE_MEMORY if self.terms.refused == (1,) else None

    def put_book(self):
        """Puts a book where the command looks for it, or what is refused as none."""
        name = value_of(self.words, "--db")
        if not name:
            return
        path, command = f"{self.room}/{name}", self.words[0]
        if self.terms.book is not None and not self.terms.refused:
            self.put_whole_book(path, command)
        else:
            self.put_refused_book(path, command, self.terms.refused or REFUSED_BY_DEFAULT)

    def put_whole_book(self, path, command):
        """Puts a book that the command takes: to make one there is none before."""
        if command != "init":
            version = 1 if command == "migrate" else VERSION
            self.books.put(path, events=self.terms.book, version=version)

    def put_refused_book(self, path, command, refused):
        """Puts what a command refuses with this fault."""
        if refused == (2,):
            os.mkdir(path)
        elif refused[0] == 41:
            self.books.put(path, version=refused[1])
        elif has_book(command, refused):
            self.books.put(path)

    def put_file(self, option, given):
        """Puts the file that an option names."""
        name = value_of(self.words, option)
        if name and given is not None:
            put(f"{self.room}/{name}", given)

    def put_port(self):
        """Keeps a port that nobody else gets; where somebody listens at it, it can't be had."""
        if self.words[:1] != ["listen"] or self.terms.book is None:
            return
        if ANY_PORT in self.words:
            port = socket.socket()
            port.setsockopt(socket.SOL_SOCKET, socket.SO_REUSEADDR, 1)
            port.bind(("127.0.0.1", 0))
            if self.terms.connections is None:
                port.listen()
            self.held.append(port)
            self.words[self.words.index(ANY_PORT)] = str(port.getsockname()[1])

    def put_host(self):
        """Lets a host answer at the socket that the command names: to `tell` all at once, to
        `ranges` one answer to each line."""
        if self.terms.host is None:
            return
        if self.words[:1] == ["tell"] and len(self.words) > 1:
            self.put_host_at(self.words[1], answer)
        elif self.words[:1] == ["ranges"] and value_of(self.words, "--control"):
            self.put_host_at(value_of(self.words, "--control"), answer_each)

    def put_host_at(self, name, how):
        """Lets a host answer so at a socket."""
        host = socket.socket(socket.AF_UNIX)
        host.bind(f"{self.room}/{name}")
        host.listen()
        self.held.append(host)
        threading.Thread(target=how, args=(host, self.terms.host), daemon=True).start()


def answers_in(said):
    """The answers of a host, one by one: lines, and behind a text's heading its bytes."""
    while said:
        line, feed, rest = said.partition(b"\n")
        heading, _, count = line.partition(b" ")
        behind = int(count) if heading == b"text" and count.isdigit() else 0
        yield line + feed + rest[:behind]
        said = rest[behind:]


def answer_each(host, said):
    """Answers each line of the first connection with the next of these, and then lets it go."""
    try:
        connection, _ = host.accept()
        with connection, connection.makefile("rb") as lines:
            for it in answers_in(said):
                if not lines.readline():
                    return
                connection.sendall(it)
            # What is told behind the last is read: with it unread the end would be a reset.
            lines.readline()
    except OSError:
        pass


def answer(host, said):
    """Answers the first connection so, and takes all that comes on it."""
    try:
        connection, _ = host.accept()
        with connection:
            connection.sendall(said)
            connection.shutdown(socket.SHUT_WR)
            while connection.recv(1 << 16):
                pass
    except OSError:
        pass
