"""The files of a folder, as the calls of a program change them, and what a stop of the machine may
leave of them."""

import os
from dataclasses import dataclass, replace
from functools import cached_property

# What a run wrote to its standard output.
SAID = "said"
# A stop may leave a file without one of so many calls, the last that weren't synced.
LAST = 3


@dataclass(frozen=True)
class Call:
    """A call of a program, as `record.c` writes it."""

    word: str
    path: str
    place: int
    given: bytes

    def name(self):
        """The name of its file in the folder."""
        return os.path.basename(self.path)

    def half_done(self):
        """A call that writes half of what this one does."""
        return replace(self, given=self.given[: len(self.given) // 2])


def calls_in(record):
    """The calls of a record."""
    place = 0
    while place < len(record):
        end = record.index(b"\n", place)
        word, at, count, path = record[place:end].split(b"\t")
        place = end + 1 + int(count)
        yield Call(word.decode(), os.fsdecode(path), int(at), record[end + 1 : place])


@dataclass(frozen=True)
class Content:
    """What a file held as it was synced, and the calls that changed it since."""

    synced: bytes = b""
    since: tuple = ()

    @cached_property
    def written(self):
        """What was written to it."""
        return changed(self.synced, self.since)

    def left(self):
        """What a stop of the machine may leave of it: all that was written; all but one of the last
        calls that weren't synced, since a disk does these in any order; or what was synced."""
        yield self.written
        for place in range(max(0, len(self.since) - LAST), len(self.since)):
            yield changed(self.synced, self.since[:place] + self.since[place + 1 :])
        yield self.synced

    def behind(self, call):
        """What it is behind a call."""
        if call.word == "sync":
            return Content(self.written)
        return Content(self.synced, (*self.since, call))


def changed(held, calls):
    """What a file holds behind calls that write to it or cut it."""
    held = bytearray(held)
    for call in calls:
        held.extend(bytes(max(0, call.place - len(held))))
        if call.word == "cut":
            del held[call.place :]
        held[call.place : call.place + len(call.given)] = call.given
    return bytes(held)


class Disk:
    """The files of a folder by their names, and the names as of the folder's last sync."""

    def __init__(self, folder, files):
        self.folder = folder
        # Names lead to files, so that a rename leads another name to the same one.
        self.contents = {name: Content(given) for name, given in files.items()}
        self.names = {name: name for name in files}
        self.synced_names = dict(self.names)

    def has(self, call):
        """Whether a call is of a file in the folder, or of the folder itself."""
        return self.folder in (call.path, os.path.dirname(call.path))

    def take(self, call):
        """A call is done."""
        name = call.name()
        if call.path == self.folder:
            self.synced_names = dict(self.names)
        elif call.word == "made":
            self.names[name] = object()
            self.contents[self.names[name]] = Content()
        elif call.word == "rename":
            self.names[os.path.basename(os.fsdecode(call.given))] = self.names.pop(name)
        elif call.word == "unlink":
            del self.names[name]
        else:
            file = self.names[name]
            self.contents[file] = self.contents[file].behind(call)

    def written(self):
        """What was written, by names."""
        return {name: self.contents[file].written for name, file in self.names.items()}

    def synced(self):
        """What of it was synced, by the names that were."""
        return {name: self.contents[file].synced for name, file in self.synced_names.items()}

    def left_at(self, call):
        """What a stop at a call, or behind all of them, may leave: what was written, with half of
        the call done if that writes; what of it was synced; and of one file anything else."""
        written, synced = self.written(), self.synced()
        yield written
        yield synced
        for name, file in self.names.items():
            for held in self.contents[file].left():
                yield {**written, name: held}
                yield {**synced, name: held}
        if call and call.word == "write":
            half = changed(written[call.name()], [call.half_done()])
            yield {**written, call.name(): half}
