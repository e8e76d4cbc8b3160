"""Runs of the program as a process, whose reads and writes go as a row says."""

import os
import resource
import socket
import subprocess
import threading
from dataclasses import dataclass

from preloaded import Preloaded

# What the program is called by.
NAME = "acqd"
# After so many seconds a run has hung, if no more is said of it.
LONGEST = 300
# Where an output that takes so many bytes alone has its end: no file that the program writes is as
# long, so the limit on what a process may write meets its output alone.
END = 1 << 30


@dataclass
class Ran:
    """How a run ended, and what it wrote."""

    status: int
    output: bytes
    faults: bytes


@dataclass(frozen=True)
class Streams:
    """How a run's reads and writes go.

    A read gives `piece` bytes at most; the one behind the whole input fails where `failing` is set;
    the output takes `space` bytes alone; the process has so much `memory`; `preloaded` is a library
    that is loaded before it; after `longest` seconds it has hung.
    """

    piece: int | None = None
    failing: bool = False
    space: int | None = None
    memory: int | None = None
    preloaded: Preloaded | None = None
    longest: int = LONGEST


class Process:
    """The program, running in a folder of its own."""

    def __init__(self, program, room, words, given=b"", streams=Streams()):
        self.output, self.faults = os.memfd_create("output"), os.memfd_create("faults")
        self.start = 0 if streams.space is None else END - streams.space
        os.lseek(self.output, self.start, os.SEEK_SET)
        given_from, self.feed = input_of(given, streams)
        ends = given_from, self.output, self.faults
        self.process = start(program, words, room, ends, streams)
        os.close(given_from)
        self.watch = threading.Timer(streams.longest, self.process.kill)
        self.watch.start()
        if self.feed:
            self.feed()

    def written(self):
        """What it wrote so far to its output."""
        return read_from(self.output, self.start)

    def ended(self):
        """Waits for its end, and says what it wrote."""
        status = self.process.wait()
        self.watch.cancel()
        ran = Ran(status, self.written(), read_from(self.faults, 0))
        os.close(self.output)
        os.close(self.faults)
        return ran


def run(program, room, words, given=b"", streams=Streams()):
    """Runs the program to its end."""
    return Process(program, room, words, given, streams).ended()


def read_from(file, start):
    """What a file has from this place on."""
    size = os.fstat(file).st_size
    return os.pread(file, max(0, size - start), start)


def start(program, words, room, ends, streams):
    """Starts a process over an input, an output and one for faults. A limit on what it may write is
    this process's own while it begins, and the signal at that limit is ignored, as here."""
    kept = resource.getrlimit(resource.RLIMIT_FSIZE)
    if streams.space is not None:
        resource.setrlimit(resource.RLIMIT_FSIZE, (END, kept[1]))
    try:
        return subprocess.Popen(
            [NAME, *words],
            executable=program,
            stdin=ends[0],
            stdout=ends[1],
            stderr=ends[2],
            cwd=room,
            restore_signals=streams.space is None,
            preexec_fn=limit_on(streams.memory),
            env=streams.preloaded and streams.preloaded.environment(),
            pass_fds=streams.preloaded.descriptors if streams.preloaded else (),
        )
    finally:
        resource.setrlimit(resource.RLIMIT_FSIZE, kept)


def limit_on(memory):
    """What a process does first that has so much memory alone."""
    if memory is None:
        return None
    return lambda: resource.setrlimit(resource.RLIMIT_DATA, (memory, memory))


def input_of(given, streams):
    """A descriptor with this input, and what feeds it once the process reads."""
    if streams.failing:
        return failing_input(given), None
    if streams.piece is not None:
        return input_in_pieces(given, streams.piece)
    file = os.memfd_create("input")
    os.write(file, given)
    os.lseek(file, 0, os.SEEK_SET)
    return file, None


def failing_input(given):
    """A socket on which a read behind these bytes fails: its other end went with a byte unread."""
    near, far = socket.socketpair()
    near.send(b"x")
    far.sendall(given)
    far.close()
    return near.detach()


def input_in_pieces(given, piece):
    """A pipe of which each read gives just one of the pieces that were written."""
    reader, writer = os.pipe2(os.O_DIRECT | os.O_CLOEXEC)

    def feed():
        try:
            for place in range(0, len(given), piece):
                os.write(writer, given[place : place + piece])
        except BrokenPipeError:
            pass
        os.close(writer)

    return reader, feed
