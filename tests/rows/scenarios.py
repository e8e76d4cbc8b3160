"""Scenarios over each book: in memory; in SQL; in SQL and taken again before each event; in groups
of events, over both; and where a scenario says so, among another merchant's events, or with a book
that is migrated."""

from another_merchant import lot_of_another
from books import all_rows, make_version
from program import Ran, run
from row_bytes import NoRow
from scenario_file import NOT_COMPARED, Step

# The most events that a group may have.
LARGEST_GROUP = 10000
NOT_WRITTEN = b""
TAKEN = Ran(0, b"", b"")
MIGRATED_ALREADY = Ran(1, b"", b"acqd: 41 OtherVersion 2\n")


def play_scenario(books, setup, scenario, findings):
    """Plays a scenario over each book."""
    plays = [in_memory, in_sql, taken_again, in_pairs, in_sevens, in_one]
    if scenario.others is not None:
        plays += [among_in_memory, among_in_sql, among_in_groups]
    if scenario.migrated is not None:
        plays += [migrated]
    for play in plays:
        with books.new_room() as room:
            play(Play(books, room, setup, scenario, findings))
    findings.counts["scenarios"] += 1
    findings.counts["runs of scenarios"] += len(plays)


class Play:
    """One play of a scenario, in a folder of its own."""

    def __init__(self, books, room, setup, scenario, findings):
        self.books, self.room, self.findings = books, room, findings
        self.setup, self.scenario = setup.steps, scenario
        # Over which book it is, for what is printed.
        self.over = ""

    def run(self, words, given=b""):
        """Runs the program."""
        return run(self.books.program, self.room, words, given)

    def make_book(self):
        """Makes the scenario's book."""
        self.books.put(f"{self.room}/book", self.scenario.limit, self.scenario.day)

    def take(self, steps, words=("--db", "book")):
        """Has the host take events in one run, and compares what it says to each."""
        came = self.run(["replay", *words], lines_of(steps))
        said = came.output.splitlines(keepends=True)
        for step, written in zip(steps, [*said, NOT_WRITTEN]):
            if step.said != NOT_COMPARED or written == NOT_WRITTEN:
                self.findings.compare(step.line, self.over, step.said, written)
        whole = Ran(0, b"%d lines" % len(steps), b"")
        came = Ran(came.status, b"%d lines" % len(said), came.faults)
        self.compare_run(steps[-1].line, whole, came)

    def compare_run(self, line, expected, came):
        """Compares how a run ended."""
        if expected != came:
            self.findings.compare(line, self.over, described(expected), described(came))

    def ask(self):
        """Asks the book in its file for texts."""
        for asked in self.scenario.asked:
            self.compare_text(asked, self.run(words_for(asked)))

    def compare_text(self, asked, came):
        """Compares a text that was asked for, or the fault's line."""
        text = counts_in(came.output) if asked.words[0] == "counts" else came.output
        self.findings.compare(asked.line, self.over, asked.said, text + came.faults)
        refused = asked.said.startswith(b"acqd: ")
        self.findings.compare_status(asked.line, self.over, int(refused), came.status)


def lines_of(steps):
    """The event lines of steps."""
    return b"".join(step.event + b"\n" for step in steps)


def described(ran):
    """How a run ended, in words."""
    return b"status %d, %s, faults: %s" % (ran.status, ran.output or b"nothing", ran.faults)


def words_for(asked):
    """The command that writes a text of the book in its file."""
    word, *rest = asked.words
    if word in ("clearing", "report"):
        return [word, "--db", "book", "--day", rest[0]]
    if word == "holds":
        return ["holds", "--db", "book", "--at", rest[0], "--merchant", rest[1]]
    if word == "pending":
        day = ["--day", rest[1]] if len(rest) > 1 else []
        return ["pending", "--db", "book", "--at", rest[0], *day]
    return ["status", "--db", "book"]


def counts_in(status):
    """How many terminals and ranges a status counts."""
    figures = dict(line.split(b" ", 1) for line in status.splitlines())
    terminals, ranges = (figures.get(it, b"no") for it in (b"terminals", b"ranges"))
    return b"%s terminals, %s ranges\n" % (terminals, ranges)


def terms_of(scenario):
    """The arguments that open a book in memory."""
    return "--limit", str(scenario.limit), "--day", scenario.day


def in_memory(play):
    """Over a book in memory, which tells its reports as its run ends."""
    play.over = "in memory"
    steps, terms = play.setup + play.scenario.steps, terms_of(play.scenario)
    play.take(steps, terms)
    lines = lines_of(steps)
    for asked in play.scenario.asked:
        word, *rest = asked.words
        if word in ("clearing", "report"):
            play.compare_text(asked, play.run(["replay", *terms, f"--{word}", *rest], lines))


def in_sql(play):
    """Over a book in a file."""
    play.over = "in SQL"
    play.make_book()
    play.take(play.setup + play.scenario.steps)
    play.ask()


def grouped_in_sql(play, size):
    """Over a book in a file, so many events a transaction."""
    play.over = f"in SQL, in groups of {size}"
    play.make_book()
    play.take(play.setup + play.scenario.steps, ("--db", "book", "--group", str(size)))
    play.ask()


def in_pairs(play):
    """In groups of two, over a book in a file."""
    grouped_in_sql(play, 2)


def in_sevens(play):
    """In groups of seven, over a book in a file, and over one in memory."""
    grouped_in_sql(play, 7)
    play.over = "in memory, in groups of 7"
    play.take(play.setup + play.scenario.steps, (*terms_of(play.scenario), "--group", "7"))


def in_one(play):
    """All in one group, over a book in a file, which then has the rows of one by one."""
    grouped_in_sql(play, LARGEST_GROUP)
    grouped = all_rows(f"{play.room}/book")
    with play.books.new_room() as alone:
        play.books.put(f"{alone}/book", play.scenario.limit, play.scenario.day)
        steps = play.setup + play.scenario.steps
        run(play.books.program, alone, ["replay", "--db", "book"], lines_of(steps))
        if all_rows(f"{alone}/book") != grouped:
            play.findings.compare(steps[-1].line, play.over, b"the rows of one by one", b"others")


def taken_again(play):
    """Over a book in a file that each event has a run of its own on."""
    play.over = "in SQL, taken again before each event"
    play.make_book()
    if play.setup:
        play.take(play.setup)
    for step in play.scenario.steps:
        play.take([step])
    play.ask()


def among(play):
    """All events, with a lot of another merchant's before each step."""
    steps = list(play.setup)
    for place, step in enumerate(play.scenario.steps):
        lot = lot_of_another(place, play.scenario.others)
        steps += [Step(step.line, event, NOT_COMPARED) for event in lot]
        steps.append(step)
    return steps


def among_in_memory(play):
    """Among another merchant's events, over a book in memory."""
    play.over = "in memory, among another merchant's events"
    play.take(among(play), terms_of(play.scenario))


def among_in_sql(play):
    """Among another merchant's events, over a book in a file."""
    play.over = "in SQL, among another merchant's events"
    play.make_book()
    play.take(among(play))


def among_in_groups(play):
    """Among another merchant's events, which share the groups, over a book in a file."""
    play.over = "in SQL, in groups of 7 among another merchant's events"
    play.make_book()
    play.take(among(play), ("--db", "book", "--group", "7"))


def make_old_book(play):
    """Makes the book of a scenario as it is before it is migrated, one of version 1."""
    before = play.scenario.migrated
    if before == len(play.scenario.steps):
        raise NoRow("nothing is behind a migration")
    play.over = "in SQL, before it is migrated"
    play.make_book()
    play.take(play.setup + play.scenario.steps[:before])
    make_version(f"{play.room}/book", 1)


def migrated(play):
    """Over a book that is one of version 1 until it is migrated, once."""
    make_old_book(play)
    later = play.scenario.steps[play.scenario.migrated :]
    line = later[0].line
    other = Ran(1, b"", b"acqd: 41 OtherVersion 1\n")
    play.compare_run(line, other, play.run(["replay", "--db", "book"], later[0].event + b"\n"))
    play.over = "in SQL, migrated"
    play.compare_run(line, TAKEN, play.run(["migrate", "--db", "book"]))
    play.compare_run(line, MIGRATED_ALREADY, play.run(["migrate", "--db", "book"]))
    play.take(later)
    play.ask()
