"""Scenarios over each book, with each allocation of the program refused in turn: what it writes is
what it writes undisturbed, all of it, or the lines before it says that memory ran out. Over a book
in a file what is left then is a book that holds all events that were answered, with or without the
group in hand, whole, and goes on as written."""

import os
import shutil
import socket
import struct

from findings import Findings
from kept_files import KeptFiles
from preloaded import Preloaded, library_of
from program import Process, Ran, Streams, read_from, run
from row_bytes import NoRow
from scenarios import TAKEN, Play, described, in_memory, in_sevens, in_sql, taken_again
from stops import PARTS, Going, Stop, files_in, in_hand

# Of a run that opens a book like one that was opened before, so many of the last are refused.
LAST = 1000
# How a run ends that memory was refused.
OUT_OF_MEMORY = 3, b"acqd: 1 Memory\n"
# What `init` says where the book was made, and memory refused after that.
MADE_ALREADY = Ran(1, b"", b"acqd: 40 NotABook\n")
# What the library tells of a half: how it ended, as `waitpid` has it.
TOLD = struct.Struct("i")
# After so many seconds a run and all halves of it have hung.
LONGEST = 900


def play_refusals(books, setup, scenario, part, findings):
    """Plays a part of the refusals of a scenario, where there is a C compiler."""
    if not shutil.which("cc"):
        findings.counts["refusals not tried"] += 1
        return
    going = Going(books, setup, scenario, setup.steps + scenario.steps, findings)
    if not allocations(books, books.room, ["--version"]):
        raise NoRow("no allocation can be refused: the program has memory of its own")
    opened = set()
    for play in (in_memory, in_sql, taken_again, in_sevens):
        with books.new_room() as room:
            play(RefusedPlay(going, room, part, opened))
    refused, whole = findings.counts["refusals"], findings.counts["undisturbed"]
    if (refused - whole) * PARTS < scenario.refusals.count:
        raise NoRow("memory ran out at fewer refusals")
    if whole * PARTS < scenario.refusals.whole:
        raise NoRow("fewer refusals changed nothing")


class RefusedPlay(Play):
    """One play of a scenario, in each run of which a part of the allocations is refused in turn."""

    def __init__(self, going, room, part, opened):
        # What differs undisturbed is told by the scenario's other plays.
        super().__init__(going.books, room, going.setup, going.scenario, Findings())
        self.going, self.part = going, part
        # What was done with each allocation refused.
        self.opened = opened
        # How many events were taken in the runs before, what the run in hand is given, and what
        # refusals led to.
        self.taken, self.given, self.seen = 0, b"", set()

    def make_book(self):
        """Makes the scenario's book."""
        terms = ["--limit", str(self.scenario.limit), "--day", self.scenario.day]
        self.compare_run(self.line_at(0), TAKEN, self.run(["init", "--db", "book", *terms]))

    def take(self, steps, words=("--db", "book")):
        """Has the host take events in one run, and compares what it says to each."""
        super().take(steps, words)
        self.taken += len(steps)

    def line_at(self, taken):
        """Where the event stands that comes behind so many, or the last one."""
        return self.going.steps[min(taken, len(self.going.steps) - 1)].line

    def run(self, words, given=b""):
        """Runs the program undisturbed, and again with refusals; what it came to both times."""
        self.given = given
        with self.books.new_room() as grave:
            kept = KeptFiles(self.room, grave)
            whole = super().run(words, given)
            kept.put_back()
            behind = self.behind(words, given)
            kept.put_back()
            came = RefusedRun(self, grave, words, whole).to_end(given, behind)
        if came != whole:
            over = f"{self.over}, behind refusals"
            self.tell(self.taken, over, whole, came)
        return whole

    def behind(self, words, given):
        """Behind how many allocations of a run they are refused."""
        if "--db" not in words:
            return 0
        opens = "no book" if words[0] == "init" else "a book" if self.taken else "a new book"
        if opens not in self.opened:
            self.opened.add(opens)
            return 0
        return max(0, allocations(self.books, self.room, words, given) - LAST)

    def tell(self, taken, over, whole, came):
        """Tells what a run came to behind so many events."""
        told = described(whole), described(came)
        self.going.findings.compare(self.line_at(taken), over, *told)

    def judge(self, words, whole, came):
        """Judges what a refusal in a run led to."""
        counts, left = self.going.findings.counts, files_in(self.room)
        counts["refusals"] += 1
        counts["undisturbed"] += came == whole
        key = *words, came.status, came.output, came.faults, *sorted(left.items())
        if key in self.seen:
            return
        self.seen.add(key)
        over = f"{self.over}, {words[0]} with a refusal"
        said = came.output.count(b"\n") if words[0] == "replay" else 0
        taken, group = self.taken + said, group_of(words)
        if not fits(whole, came):
            self.tell(taken, over, whole, came)
        elif words[0] == "init":
            self.make_again(words, Stop(over, 0, left))
        elif "--db" in words:
            more = in_hand(group, self.taken, self.given.count(b"\n"), taken)
            self.going.from_events(Stop(over, taken, left, more))

    def make_again(self, words, stop):
        """Makes the book again where a refusal left none, and has it take all events."""

        def go_on(play):
            came = play.run(words)
            if came != MADE_ALREADY:
                play.compare_run(self.line_at(0), TAKEN, came)
            play.take(self.going.steps)

        self.going.findings.add(self.going.over(stop, go_on))


def fits(whole, came):
    """Whether a run that memory was refused wrote what the undisturbed one does, or its first lines
    and the fault's."""
    if came == whole:
        return True
    is_begun = whole.output.startswith(came.output) and came.output[-1:] in (b"", b"\n")
    return is_begun and (came.status, came.faults) == OUT_OF_MEMORY


def group_of(words):
    """How many events a run takes at once."""
    return int(words[words.index("--group") + 1]) if "--group" in words else 1


def allocations(books, room, words, given=b""):
    """How many allocations a run makes."""
    file = os.memfd_create("count")
    streams = Streams(preloaded=preloaded(books, {"REFUSE_OUTPUT": file}))
    run(books.program, room, words, given, streams)
    count = int(read_from(file, 0) or 0)
    os.close(file)
    return count


def preloaded(books, descriptors, **variables):
    """The library, with descriptors and variables by their names."""
    said = {name: str(it) for name, it in {**descriptors, **variables}.items()}
    return Preloaded(library_of(books, "refuse"), said, tuple(descriptors.values()))


class RefusedRun:
    """A run in which a part of the allocations is refused, each in a half of the process that goes
    on to its end, before the other half goes on."""

    def __init__(self, play, grave, words, whole):
        self.play, self.grave, self.words, self.whole = play, grave, words, whole
        # What the halves write that are refused.
        self.output, self.faults = os.memfd_create("output"), os.memfd_create("faults")

    def to_end(self, given, behind):
        """Runs the program to its end, judges what each refusal behind so many allocations leads
        to, and says what the half came to that was refused nothing."""
        near, far = socket.socketpair()
        with near:
            with far:
                streams = Streams(
                    preloaded=self.preloaded(far.fileno(), behind), longest=LONGEST
                )
                books, room = self.play.books, self.play.room
                process = Process(books.program, room, self.words, given, streams)
            while near.recv(TOLD.size):
                self.judge(near, process)
        os.close(self.output)
        os.close(self.faults)
        return process.ended()

    def preloaded(self, told, behind):
        """The library that refuses, and is told by this descriptor when to go on."""
        each = self.play.scenario.refusals.each
        return preloaded(
            self.play.books,
            {"REFUSE_JUDGE": told, "REFUSE_OUTPUT": self.output, "REFUSE_FAULTS": self.faults},
            REFUSE_EACH=each * PARTS,
            REFUSE_REST=each * self.play.part,
            REFUSE_BEHIND=behind,
            REFUSE_GRAVE=self.grave,
        )

    def judge(self, near, process):
        """Lets a half be refused memory, judges what came of it, and puts the files back."""
        kept = KeptFiles(self.play.room, self.grave)
        near.send(b"\n")
        told = near.recv(TOLD.size)
        if told:
            status = os.waitstatus_to_exitcode(*TOLD.unpack(told))
            output = process.written() + taken_from(self.output)
            came = Ran(status, output, taken_from(self.faults))
            self.play.judge(self.words, self.whole, came)
            kept.put_back()
            near.send(b"\n")


def taken_from(file):
    """What was written to a file, which is empty then."""
    written = read_from(file, 0)
    os.ftruncate(file, 0)
    os.lseek(file, 0, os.SEEK_SET)
    return written
