"""Connections to a run of the program that listens."""

import errno
import os
import resource
import signal
import socket
import time
from pathlib import Path

from machine import value_of
from program import LONGEST, Process, Ran

# The state of a socket that listens, in the kernel's table.
LISTENS = "0A"
ANY_ADDRESS, LOOPBACK = "0.0.0.0", "127.0.0.1"
# What a call says of a connection that the other side reset, before the call or in it.
RESETS = errno.ECONNRESET, errno.EPIPE, errno.ENOTCONN


def run_listening(program, room, words, given, streams, connections):
    """Runs the program, which serves these connections, one after the other. Where it waits for a
    further one, none can be had; and where it goes on for ever it is ended, as if by itself."""
    running = Process(program, room, words, given, streams)
    end, count = end_of(words), value_of(words, "--count")
    if waited(running.process, lambda: listens(end[1])):
        for place, sent in enumerate(connections, 1):
            is_last_of_all = count is not None and len(connections) == place < int(count)
            send(end, sent, running.process, is_last_of_all)
        if count is None:
            running.process.send_signal(signal.SIGTERM)
    ran = running.ended()
    if count is None and ran.status == -signal.SIGTERM:
        return Ran(0, ran.output, without_begin(ran.faults))
    return ran


def without_begin(faults):
    """Faults without the first line of a log that goes there: who is ended as soon as it listens may
    have written it."""
    lines = faults.splitlines(keepends=True)
    return b"".join(it for it in lines if b" event=listening " not in it)


def waited(process, has_come):
    """Waits until something has come; whether it has, before the process ended."""
    end = time.monotonic() + LONGEST
    while process.poll() is None and time.monotonic() < end:
        if has_come():
            return True
        time.sleep(0.002)
    return False


def listens(port):
    """Whether something listens at a port of this machine."""
    return any(it[1].endswith(f":{port:04X}") and it[3] == LISTENS for it in kernel_table())


def kernel_table():
    """The columns of each socket in the kernel's table."""
    lines = Path("/proc/net/tcp").read_text(encoding="ascii").splitlines()[1:]
    return [line.split() for line in lines]


def end_of(words):
    """The address and the port at which a command listens, for who connects."""
    address = value_of(words, "--address")
    return LOOPBACK if address in (None, ANY_ADDRESS) else address, int(value_of(words, "--port"))


def send(end, sent, process, is_last):
    """A connection that sends this and no more, and takes all that comes until its end, which may be
    a reset. If it is the last one that a process can have, no descriptor is left behind it."""
    with socket.create_connection(end, timeout=LONGEST) as connection:
        if is_last and waited(process, lambda: descriptor_of(process, connection)):
            most = descriptor_of(process, connection)
            limits = most, resource.prlimit(process.pid, resource.RLIMIT_NOFILE)[1]
            resource.prlimit(process.pid, resource.RLIMIT_NOFILE, limits)
        try:
            connection.sendall(sent)
            connection.shutdown(socket.SHUT_WR)
            while connection.recv(1 << 16):
                pass
        except OSError as gone:
            if gone.errno not in RESETS:
                raise


def descriptor_of(process, connection):
    """The descriptor that a process has for the other end of a connection, once it took it. It is
    the lowest that was free then, so those below it are taken."""
    own, other = connection.getsockname()[1], connection.getpeername()[1]
    for it in kernel_table():
        # A socket that nobody took has no inode yet.
        if it[1].endswith(f":{other:04X}") and it[2].endswith(f":{own:04X}") and it[9] != "0":
            folder = f"/proc/{process.pid}/fd"
            taken = [name for name in os.listdir(folder) if inode_at(f"{folder}/{name}") == it[9]]
            return int(taken[0]) if taken else None
    return None


def inode_at(path):
    """The inode of the socket that a descriptor is, or what else it is."""
    try:
        return os.readlink(path).removeprefix("socket:[").removesuffix("]")
    except FileNotFoundError:
        return None
