"""Command lines, run as processes over real files, streams and ports."""

import time
from dataclasses import replace

from listening import run_listening
from machine import MachineAtHand, value_of
from program import Ran, Streams, run

# What rows write for the moment of the machine's clock.
CLOCK = b"946684800"


def play_command(books, row, findings):
    """Runs a command line, and compares all that it writes; and where it says so, runs it again
    with each write failing."""
    began = int(time.time())
    came = ran(books, row, None)
    row = at_clock(row, came, began)
    compare(row.line, "output", row.output, came.output, findings)
    compare(row.line, "faults", row.faults, came.faults, findings)
    findings.compare_status(row.line, "status", row.status, came.status)
    findings.counts["command runs"] += 1
    if row.failing_writes:
        play_failing(books, row, findings)


def at_clock(row, came, began):
    """A row whose run is at the clock's moment, as it was: one from when the run began."""
    if value_of(row.words, "--at") or CLOCK not in row.output.given:
        return row
    for moment in range(began, int(time.time()) + 1):
        text = row.output.given.replace(CLOCK, str(moment).encode())
        if text == came.output:
            return replace(row, output=replace(row.output, given=text))
    return row


def streams_of(row, machine, space):
    """How the reads and writes of a row's run go, and what it reads: behind a read that fails
    nothing is read, and one that finds the end comes behind all pieces."""
    pieces = -(-len(row.given) // row.piece)
    if row.failing_read is None or row.failing_read > pieces:
        return row.given, Streams(row.piece, False, space, machine.memory())
    given = row.given[: row.failing_read * row.piece]
    return given, Streams(row.piece, True, space, machine.memory())


def ran(books, row, space):
    """Runs a command line, whose output takes so many bytes."""
    with books.new_room() as room:
        machine = MachineAtHand(books, room, row)
        given, streams = streams_of(row, machine, space)
        terms = books.program, room, machine.words, given, streams
        try:
            if row.machine.connections is None:
                return run(*terms)
            return run_listening(*terms, row.machine.connections)
        finally:
            machine.close()


def play_failing(books, row, findings):
    """Runs a command line with each write failing in turn: just the bytes before it are out, and
    the fault says so."""
    whole = row.output.given
    for space in range(len(whole)):
        came, written = ran(books, row, space), whole[:space]
        fault = b"acqd: 54 Write %d\n" % counted(row.failing_writes, written)
        expected = Ran(1, written, fault)
        over = "of a write that fails"
        findings.compare(row.line, f"output {over}", expected.output, came.output)
        findings.compare(row.line, f"faults {over}", expected.faults, came.faults)
        findings.compare_status(row.line, f"status {over}", expected.status, came.status)


def counted(unit, written):
    """The bytes that went out, as a fault's line counts them: from the beginning of the frame, of
    the line or of the text."""
    if unit == "line":
        return len(written) - (written.rfind(b"\n") + 1)
    start = 0
    while unit == "frame" and len(written) - start >= 2:
        end = start + 2 + int.from_bytes(written[start : start + 2], "big")
        if end > len(written):
            break
        start = end
    return len(written) - start


def compare(line, over, text, came, findings):
    """Compares what came with all that is known of it."""
    if not text.parts:
        findings.compare(line, over, text.given, came)
    for part in text.parts:
        if part not in came:
            findings.compare(line, over, part, came)
