#!/usr/bin/env python3
"""send.py PORT [HOST]: sends the frames on standard input to a host, and writes its replies."""
import socket
import sys
import time


def connection(address):
    """A connection, as soon as somebody listens; after half a minute nobody does."""
    for _ in range(300):
        try:
            return socket.create_connection(address, timeout=60)
        except ConnectionRefusedError:
            time.sleep(0.1)
    sys.exit(f"send.py: nobody listens at {address[0]}:{address[1]}")


def main():
    port, *host = sys.argv[1:]
    with connection((*(host or ["127.0.0.1"]), int(port))) as end:
        end.sendall(sys.stdin.buffer.read())
        end.shutdown(socket.SHUT_WR)
        while came := end.recv(65536):
            sys.stdout.buffer.write(came)


main()
