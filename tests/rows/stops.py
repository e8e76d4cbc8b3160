"""Scenarios over files that stop at each call of the program that changes them: what was written,
and what of it was synced, is each time a book that holds all events that were answered, with or
without the group in hand, whole, and goes on as written. Where a scenario's book is migrated, its
files stop in the migration, and what is left is a whole book, of version 1 or of version 2. Among
another merchant's events all is one run, and the files stop where it copies its log into the
database."""

import os
import shutil
import sqlite3
from collections import Counter
from dataclasses import dataclass
from pathlib import Path

from disk import SAID, Disk, calls_in
from findings import Findings
from preloaded import Preloaded, library_of
from program import Streams, run
from row_bytes import NoRow
from scenarios import MIGRATED_ALREADY, TAKEN, Play, among, lines_of, make_old_book, words_for

# A run that takes so many events writes to the log for each, and at its end to the database.
EVENTS_OF_A_RUN = 4
# What stops, by the names of a book's files.
STOPPING = {"book-wal": "a log that stops", "book": "a database that stops"}
# These runs are played in groups of so many events, too.
GROUPS = (1, 3)
# In so many parts, each with runs of its own, the stops of a scenario are played at once.
PARTS = 4


def play_stops(books, setup, scenario, part, findings):
    """Plays a part of the stops of a scenario, where there is a C compiler."""
    if not shutil.which("cc"):
        findings.counts["stops not tried"] += 1
        return
    # A migration takes no events, and among another merchant's all is one run.
    alone = scenario.migrated is not None or scenario.others is not None
    syncs = []
    for group in GROUPS[:1] if alone else GROUPS:
        with books.new_room() as room:
            play = Play(books, room, setup, scenario, Findings())
            record = record_of_events if scenario.migrated is None else record_of_migration
            steps, recorded = record(play, part, group)
        stops = recorded.in_order()
        syncs.append(recorded.syncs)
        if group > 1 and syncs[-1] >= syncs[0]:
            raise NoRow("a group isn't written to the disk at once")
        going = Going(books, setup, scenario, steps, findings)
        for stop in stops:
            if scenario.migrated is None:
                going.from_events(stop)
            else:
                going.from_migration(stop)
            findings.counts["stops"] += 1


def record_of_events(play, part, group):
    """All events of a scenario, and stops of the runs that take them, a few in each."""
    play.make_book()
    is_among = play.scenario.others is not None
    steps = among(play) if is_among else play.setup + play.scenario.steps
    over = "in SQL, over" if group == 1 else f"in SQL, in groups of {group}, over"
    recorded = Recorded(play, over, part, is_among, group)
    size = len(steps) if is_among else EVENTS_OF_A_RUN
    for first in range(0, len(steps), size):
        taken = steps[first : first + size]
        words = ["replay", "--db", "book", "--group", str(group)]
        ran = recorded.run(words, lines_of(taken), first)
        if (ran.status, ran.output.count(b"\n")) != (0, len(taken)):
            raise NoRow("a run over files that don't stop isn't whole")
    return steps, recorded


def record_of_migration(play, part, _group):
    """The events behind a migration, and stops of the run that migrates the book."""
    make_old_book(play)
    recorded = Recorded(play, "in SQL, migrated over", part)
    if recorded.run(["migrate", "--db", "book"]) != TAKEN:
        raise NoRow("a migration over files that don't stop isn't whole")
    return play.scenario.steps[play.scenario.migrated :], recorded


@dataclass(frozen=True)
class Stop:
    """A stop of the program: what it is over, how many events were answered before, what it left of
    the files, and how many events more these have, if they have the group in hand."""

    over: str
    answered: int
    left: dict
    in_hand: int = 1


def in_hand(group, begun, events, answered):
    """How many events a group has that weren't answered, of a run that began behind so many events
    and takes so many."""
    end = (answered - begun) // group * group + group
    return begun + min(end, events) - answered


class Recorded:
    """Runs of the program over the book in a folder whose calls are recorded, and a part of the
    stops that they may come to; where that is asked, only those from the first write to the
    database on, until a few events later."""

    def __init__(self, play, over, part, at_copy=False, group=1):
        self.play, self.over, self.part, self.group = play, over, part, group
        self.disk = Disk(os.path.realpath(play.room), files_in(play.room))
        # Behind which events there are stops.
        self.first, self.last = (None, None) if at_copy else (0, float("inf"))
        # How many calls of each file there were, what tells the stops at them apart, and the part;
        # and how many times the log was written to the disk.
        self.calls, self.keys, self.stops, self.syncs = Counter(), set(), [], 0

    def run(self, words, given=b"", answered=0):
        """A run behind so many events that were answered."""
        with self.play.books.new_room() as room:
            record = f"{room}/record"
            library = library_of(self.play.books, "record")
            streams = Streams(preloaded=Preloaded(library, {"RECORD": record}))
            ran = run(self.play.books.program, self.play.room, words, given, streams)
            calls = list(calls_in(Path(record).read_bytes()))
        begun, events = answered, given.count(b"\n")
        for call in calls:
            if call.word == SAID:
                answered += call.given.count(b"\n")
            elif self.disk.has(call):
                more = in_hand(self.group, begun, events, answered)
                self.stop_at(call, STOPPING.get(call.name()), answered, more)
                self.syncs += (call.name(), call.word) == ("book-wal", "sync")
                self.disk.take(call)
        self.stop_at(None, STOPPING["book"], answered, 0)
        if self.disk.written() != files_in(self.play.room):
            raise NoRow("calls that change files aren't all recorded")
        return ran

    def stop_at(self, call, stopping, answered, more):
        """Stops at a call, or behind all, where the group in hand has so many events more."""
        if self.first is None and call and (call.name(), call.word) == ("book", "write"):
            self.first, self.last = answered, answered + EVENTS_OF_A_RUN
        if not stopping or self.first is None or answered > self.last:
            return
        self.calls[stopping] += call is not None
        for left in self.disk.left_at(call):
            key = answered, *((name, hash(given)) for name, given in sorted(left.items()))
            if key not in self.keys:
                if len(self.keys) % PARTS == self.part:
                    self.stops.append(Stop(f"{self.over} {stopping}", answered, left, more))
                self.keys.add(key)

    def in_order(self):
        """The part of the stops, those of a log first; there are so many of each file at least."""
        if any(self.calls[it] < self.play.scenario.stops for it in STOPPING.values()):
            raise NoRow("files stopped at fewer calls")
        return sorted(self.stops, key=lambda it: it.over, reverse=True)


def files_in(room):
    """What the files in a folder hold, by their names."""
    return {it.name: Path(it.path).read_bytes() for it in os.scandir(room)}


class Going:
    """How the books that stops left go on with these events."""

    def __init__(self, books, setup, scenario, steps, findings):
        self.books, self.findings = books, findings
        self.setup, self.scenario, self.steps = setup, scenario, steps
        # The texts of books that were asked, by their rows.
        self.texts = {}

    def over(self, stop, go_on):
        """What differs where a book that a stop left goes on so."""
        findings = Findings()
        with self.books.new_room() as room:
            for name, given in stop.left.items():
                Path(f"{room}/{name}").write_bytes(given)
            play = Play(self.books, room, self.setup, self.scenario, findings)
            play.over = stop.over
            go_on(play)
            rows, log = rows_of(room)
            findings.compare(self.steps[-1].line, stop.over, b"whole", rows[0])
            if self.scenario.others is None:
                self.compare_texts(play, (rows, log))
        return findings

    def compare_texts(self, play, end):
        """Compares the texts of a book, which are asked once where books come to the same end."""
        if end not in self.texts:
            self.texts[end] = [play.run(words_for(it)) for it in self.scenario.asked]
        for asked, came in zip(self.scenario.asked, self.texts[end]):
            play.compare_text(asked, came)

    def from_events(self, stop):
        """Goes on from the group at which a stop came, or, where the book has that one, from the
        next. A frame that gets a reply gets the same again, and posts nothing twice."""
        later = self.steps[stop.answered :]
        without = self.over(stop, lambda play: self.take(play, later))
        group, behind = later[: stop.in_hand], later[stop.in_hand :]
        if without.lines and not all(is_frame_with_reply(it) for it in group):
            if not self.over(stop, lambda play: self.take(play, behind)).lines:
                return
        self.findings.add(without)

    def from_migration(self, stop):
        """Goes on behind the migration, which comes first where the book is still the old one."""

        def go_on(play):
            came = play.run(["migrate", "--db", "book"])
            if came != MIGRATED_ALREADY:
                play.compare_run(self.steps[0].line, TAKEN, came)
            play.take(self.steps)

        self.findings.add(self.over(stop, go_on))

    def take(self, play, steps):
        """Has the host take events, or none."""
        if steps:
            play.take(steps)
        else:
            came = play.run(["replay", "--db", "book"])
            play.compare_run(self.steps[-1].line, TAKEN, came)


def is_frame_with_reply(step):
    """Whether this is a frame that gets a reply at once."""
    return step.event.startswith(b"frame,") and step.said.startswith(b"reply ")


def rows_of(room):
    """What SQLite says of the closed book in a folder, and its rows; and the size of its log."""
    found = sqlite3.connect(f"file:{room}/book?immutable=1", uri=True)
    try:
        faults = [it for (it,) in found.execute("PRAGMA integrity_check") if it != "ok"]
        rows = "\n".join(faults).encode() or b"whole", "\n".join(found.iterdump())
    except sqlite3.DatabaseError as fault:
        rows = str(fault).encode(), ""
    finally:
        found.close()
    log = f"{room}/book-wal"
    return rows, os.path.exists(log) and os.path.getsize(log)
