#!/usr/bin/env python3
"""clone.py PROGRAM: what the script ./acqd does in a clone where nothing is built, and in one that
was built and then copied or changed.

The clone is a small one: the script, its texts, and two crates of a line each. In place of the
kit's command `rt` stands a stub, which writes down how it is called, puts PROGRAM where the build
has it, and runs PROGRAM where it is tried."""
import os
import shutil
import sys
import tempfile
import time

from terminal import ECHO, REPLY, Wrong, main, run, wanted

HERE = os.path.dirname(os.path.abspath(__file__))
TOP = os.path.dirname(os.path.dirname(HERE))
STUB = """#!/bin/sh
echo "$*" >>"$RT_CALLS"
case $1 in
try)
    shift 2
    "$RT_PROGRAM" "$@"
    status=$?
    echo run=ended >&2
    exit $status
    ;;
run)
    mkdir -p out && ln -sf "$RT_PROGRAM" out/acqd
    eval "${RT_MEANWHILE-}"
    ;;
esac
"""
STAMP = "crates/acqd/out/acqd.built"
SOURCES = ("crates.txt", "crates/acqd/src/main.rt", "crates/low/specs/Lib.antt")
CHANGED = "acqd: a source has changed since the program was built; ./acqd build"
ALL_KINDS = (
    "listen init clearing report statement find holds list ranges ask tell status pending migrate"
).split()


class Clone:
    """A small clone, and the stub."""

    def __init__(self, program):
        self.program, self.folder = program, tempfile.mkdtemp()
        self.top = f"{self.folder}/clone"
        self.calls = f"{self.folder}/calls"
        for name in ("src", "specs", "proofs"):
            os.makedirs(f"{self.top}/crates/acqd/{name}")
            os.makedirs(f"{self.top}/crates/low/{name}")
        for name in SOURCES:
            self.write(name, "a line\n")
        shutil.copy(f"{TOP}/acqd", self.top)
        shutil.copytree(f"{TOP}/scripts", f"{self.top}/scripts")
        os.mkdir(f"{self.folder}/bin")
        with open(f"{self.folder}/bin/rt", "w", encoding="ascii") as it:
            it.write(STUB)
        os.chmod(it.name, 0o755)

    def __enter__(self):
        return self

    def __exit__(self, *_):
        shutil.rmtree(self.folder, ignore_errors=True)

    def path(self, name):
        return f"{self.top}/{name}"

    def write(self, name, text):
        with open(self.path(name), "w", encoding="ascii") as it:
            it.write(text)

    def age(self, sources, program):
        """Has the sources and the stamp of the program be from so many seconds ago."""
        at = [time.time() - it for it in (sources, program)]
        for folder, _, names in os.walk(self.path("crates")):
            for name in [folder, *(f"{folder}/{it}" for it in names)]:
                os.utime(name, (at[0], at[0]))
        os.utime(self.path("crates.txt"), (at[0], at[0]))
        os.utime(self.path(STAMP), (at[1], at[1]))

    def run(self, *words, given=b"", **variables):
        path = f"{self.folder}/bin:{os.environ['PATH']}"
        own = {"RT_CALLS": self.calls, "RT_PROGRAM": self.program, "PATH": path, **variables}
        return run([self.path("acqd"), *words], given, env={**os.environ, **own})

    def called(self):
        """How the stub was called since the last look."""
        if not os.path.exists(self.calls):
            return []
        with open(self.calls, encoding="ascii") as it:
            lines = it.read().splitlines()
        os.remove(self.calls)
        return lines

    def build(self, **variables):
        status, out, faults = self.run("build", **variables)
        wanted("the build", (status, out), (0, b""))
        if "acqd: built in " not in faults:
            raise Wrong(f"the build says {faults!r}")
        self.called()

    def wants_build(self, what):
        status, out, faults = self.run("status", "--db", "book.db")
        wanted(what, (status, out, faults.startswith(CHANGED)), (3, b"", True))
        wanted(f"{what}: calls of rt", self.called(), [])

    def runs(self, what):
        """It is the built program that runs: `show` of nothing is nothing."""
        wanted(what, self.run("show"), (0, b"", ""))
        wanted(f"{what}: calls of rt", self.called(), [])


def help_at_once(program):
    """Where nothing is built each help is the program's own, and rt isn't called."""
    with Clone(program) as clone:
        asked = [["--help"], ["-h"], ["help"], ["--version"], ["-V"], ["help", "listen"]]
        kinds = [*ALL_KINDS, "once", "replay", "show", "make"]
        asked += [[it, word] for it in kinds for word in ("--help", "-h")]
        asked += [["tell", "host.control", "--help"], ["replay", "--db", "book.db", "-h"]]
        for words in asked:
            wanted(f"acqd {' '.join(words)}", clone.run(*words), run([program, *words]))
        wanted("calls of rt", clone.called(), [])


def refused_at_once(program):
    """What wants a file, a port or a socket is refused, and says what to do."""
    with Clone(program) as clone:
        asked = [[it] for it in ALL_KINDS] + [["tell", "host.control"], ["status", "--db", "b.db"]]
        asked += [["replay", "--db", "b.db"], ["once", "--issuers=i.csv"], ["tell", "--", "-h"]]
        for words in asked:
            status, out, faults = clone.run(*words, given=b"status\n")
            wanted(f"acqd {' '.join(words)}", (status, out), (3, b""))
            wanted("what to do", "./acqd build proves and builds it" in faults, True)
        for words in ([], ["twice"], ["help", "twice"], ["../help/acqd", "-h"]):
            status, out, faults = clone.run(*words)
            wanted(f"acqd {' '.join(words)}", (status, out), (2, b""))
            wanted("where to look", "./acqd --help" in faults, True)
        wanted("the tests", clone.run("test")[:2], (3, b""))
        wanted("calls of rt", clone.called(), [])


def before_the_proof(program):
    """What ends with its input is run before its proof."""
    with Clone(program) as clone:
        status, out, faults = clone.run("once", given=ECHO)
        wanted("an echo test", (status, out), (0, REPLY))
        wanted("what is said", "before its proof" in faults, True)
        wanted("calls of rt", clone.called(), ["try -- once"])
        status, out, faults = clone.run("replay", given=b"x" * 1_048_577)
        wanted("an input that is too long", (status, out, "too long" in faults), (3, b"", True))
        wanted("calls of rt then", clone.called(), [])


def once_built(program):
    """A build isn't made twice, and the program runs; `build` and `test` have a help, too."""
    with Clone(program) as clone:
        for word in ("build", "test"):
            status, out, _ = clone.run(word, "--help")
            wanted(f"{word} --help", (status, b"./acqd build" in out), (0, True))
            wanted(f"{word} twice", clone.run(word, "twice")[:2], (2, b""))
        clone.build()
        clone.runs("the built program")
        status, _, faults = clone.run("build")
        wanted("a second build", (status, "is built of these sources" in faults), (0, True))
        wanted("calls of rt", clone.called(), [])


def a_copy(program):
    """A copy whose sources are all newer than the program is built of the same, and the next call
    needn't look at their sums."""
    with Clone(program) as clone:
        clone.build()
        clone.age(1000, 2000)
        clone.runs("a copied clone")
        os.remove(clone.path("scripts/sources"))
        clone.runs("a copied clone again")
        clone.age(1000, 2000)
        clone.wants_build("a copied clone whose sums can't be had")


def a_change(program):
    """A source that changed, went, came or has another name wants a build; what was changed back
    doesn't."""
    with Clone(program) as clone:
        clone.build()
        clone.age(2000, 1000)
        source, other = clone.path(SOURCES[1]), clone.path("crates/acqd/src/other.rt")
        clone.write(SOURCES[1], "another line\n")
        clone.wants_build("a source that changed")
        clone.write(SOURCES[1], "a line\n")
        clone.runs("a source that was changed back")
        clone.age(2000, 1000)
        os.rename(source, other)
        clone.wants_build("another name")
        os.rename(other, source)
        clone.runs("its own name")
        clone.age(2000, 1000)
        os.remove(clone.path(SOURCES[2]))
        clone.wants_build("a source less")
        clone.build()
        clone.runs("the program that was built again")


def a_change_meanwhile(program):
    """A source that changes while the program is built wants another build."""
    with Clone(program) as clone:
        change = f"echo 'another line' >>{clone.path(SOURCES[2])}"
        clone.build(RT_MEANWHILE=change)
        clone.wants_build("a source that changed during the build")


def an_earlier_stamp(program):
    """A stamp that has no sum, as builds made it before, goes by times alone."""
    with Clone(program) as clone:
        clone.build()
        os.truncate(clone.path(STAMP), 0)
        clone.age(2000, 1000)
        clone.runs("an empty stamp that is newer")
        clone.age(1000, 2000)
        clone.wants_build("an empty stamp that is older")
        os.remove(clone.path("scripts/sources"))
        clone.wants_build("an empty stamp where no sum can be had")


TRIES = [help_at_once, refused_at_once, before_the_proof, once_built, a_copy, a_change]
TRIES += [a_change_meanwhile, an_earlier_stamp]

if __name__ == "__main__":
    sys.exit(main(TRIES))
