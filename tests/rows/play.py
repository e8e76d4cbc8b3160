"""Plays files of rows, each of which a person reads and adds to, over the built program, and says
where what comes is not what a row says.

    play.py PROGRAM [FILE..]
    play.py --count [FILE..]

A file is of one of three kinds, by the end of its name: scenarios are events and what the host says
to each, command lines are runs of the program, and tables are texts and what they read as. A row of
any kind stands on a line of its own, and `#` begins a line that says why. A FILE is a path, or the
name of one of the files that are played without one. With `--count` they are read alone. Status 1
where anything differs.
"""

import multiprocessing
import os
import sys
import tempfile
from collections import Counter
from pathlib import Path

from books import Books, NoBook
from command_file import read_commands
from commands import play_command
from findings import Findings
from refusals import play_refusals
from row_bytes import NoRow
from scenario_file import read_scenarios
from scenarios import play_scenario
from stops import PARTS, play_stops
from tables import play_row, read_table

# The files of rows; what only a program that links the crates can play lies beside that.
DATA = Path(__file__).resolve().with_name("data")
KINDS = ("scenarios", "runs of scenarios", "command runs", "table rows")
COUNTED = {play_scenario: "scenarios", play_command: "command runs", play_row: "table rows"}


def all_files():
    """All files, in order of their names."""
    return sorted(DATA.iterdir(), key=lambda it: it.name)


def named(name):
    """The file of a name."""
    found = [it for it in (Path(name), DATA / name) if it.is_file()]
    return found[0] if found else Path(name)


def plays_of(path):
    """The plays of a file's rows: what plays each, and what it is given."""
    try:
        text = path.read_text(encoding="utf-8")
    except (OSError, UnicodeDecodeError):
        raise NoRow("can't be read") from None
    if path.suffix == ".scenarios":
        setup, scenarios = read_scenarios(text)
        plays = [(play_scenario, (setup, it)) for it in scenarios]
        stopping = [it for it in scenarios if it.stops is not None]
        refusing = [it for it in scenarios if it.refusals is not None]
        for part in range(PARTS):
            plays += [(play_stops, (setup, it, part)) for it in stopping]
            plays += [(play_refusals, (setup, it, part)) for it in refusing]
        return plays
    if path.suffix == ".commands":
        return [(play_command, (it,)) for it in read_commands(text)]
    if path.suffix == ".table":
        return [(play_row, (it,)) for it in read_table(text)]
    raise NoRow("not scenarios, commands or a table")


class Plays:
    """What a process of the pool plays over."""

    books = None

    @classmethod
    def begin(cls, program, room):
        """Begins in a process of the pool."""
        cls.books = Books(program, tempfile.mkdtemp(dir=room))

    @classmethod
    def play(cls, task):
        """Plays some rows, and says why they can't be played, or what differs."""
        play, given = task
        findings = Findings()
        try:
            play(cls.books, *given, findings)
        except (NoRow, NoBook, OSError) as fault:
            return str(fault), findings
        return None, findings


def said_of(path, results):
    """Prints a line for a file, and those for each row that differs; what it counts."""
    found = Findings()
    for fault, findings in results:
        found.add(findings)
        if fault:
            print(f"{path.name}: {fault}")
            return False, found.counts
    written = f"as written{more_said(found.counts)}"
    print(f"{path.name}: {'differs' if found.lines else written}")
    for line in found.lines:
        print(line)
    return not found.lines, found.counts


def more_said(counts):
    """What is said of the stops, and of the refused allocations, in a file that has some."""
    said = ""
    for name in ("stops", "refusals"):
        if counts[f"{name} not tried"]:
            said += f", but for its {name}, for want of a C compiler"
        elif counts[name]:
            said += f", at {counts[name]} {name}"
    if counts["refusals"]:
        said += f" of memory, {counts['undisturbed']} of which changed nothing"
    return said


def begun(pool, path):
    """The plays of a file, which a pool has begun, or why it has none."""
    try:
        return path, pool.map_async(Plays.play, plays_of(path), 1)
    except NoRow as fault:
        return path, fault


def play_files(program, paths):
    """Plays files; whether all rows are as they say, and how many there are."""
    fits, counts = True, Counter()
    shared = "/dev/shm" if os.access("/dev/shm", os.W_OK) else None
    context = multiprocessing.get_context("fork")
    with tempfile.TemporaryDirectory(dir=shared, prefix="rows-") as room:
        with context.Pool(os.cpu_count(), Plays.begin, (program, room)) as pool:
            for path, plays in [begun(pool, it) for it in paths]:
                if isinstance(plays, NoRow):
                    print(f"{path.name}: {plays}")
                    fits = False
                else:
                    fits_too, counted = said_of(path, plays.get())
                    fits, counts = fits and fits_too, counts + counted
    return fits, counts


def count(paths):
    """Prints how many rows files have; whether all can be read."""
    fits, whole = True, Counter()
    for path in paths:
        try:
            counts = Counter(COUNTED[play] for play, _ in plays_of(path) if play in COUNTED)
        except NoRow as fault:
            print(f"{path.name}: {fault}")
            fits = False
            continue
        print(f"{path.name}: {', '.join(f'{counts[it]} {it}' for it in counts)}")
        whole += counts
    return fits, whole


def main():
    words = sys.argv[1:]
    if not words:
        print(__doc__.strip(), file=sys.stderr)
        return 2
    paths = [named(it) for it in words[1:]] or all_files()
    if words[0] == "--count":
        fits, counts = count(paths)
    else:
        fits, counts = play_files(os.path.abspath(words[0]), paths)
    print(", ".join(f"{counts[it]} {it}" for it in KINDS if it in counts) or "no row was played")
    return 0 if fits else 1


if __name__ == "__main__":
    sys.exit(main())
