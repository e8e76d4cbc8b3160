"""Files of scenarios.

A line is `scenario NAME`, `limit COUNT`, `day DAY`, `at MOMENT`, `others COUNT`, `stops COUNT`,
`refusals EACH COUNT WHOLE`, `migrated`, an event, or what is asked of the book at the end:
`clearing DAY`, `report DAY`, `holds MOMENT MERCHANT`, `pending MOMENT`, `pending MOMENT DAY` or
`counts`. An event is a line of `acqd replay`, or `frame PARTS` for a message that comes at the
moment at hand. What the host says, or what the text is, stands behind four spaces on the lines
below; `?` where it isn't compared. What stands before the first scenario is the setup of each.
"""

from dataclasses import dataclass, field, replace

from row_bytes import NoRow, bytes_of, frame_line, malformed, number_of, rows_of

# How many words may stand behind each thing that is asked of a book.
ASKED = {"clearing": (1,), "report": (1,), "holds": (2,), "pending": (1, 2), "counts": (0,)}
NOT_COMPARED = b"?\n"


@dataclass
class Step:
    """An event, and the line that `acqd replay` writes of it."""

    line: int
    event: bytes
    said: bytes = b""


@dataclass
class Asked:
    """A text that is asked of the book at the end, and the text, or the fault's line."""

    line: int
    words: list
    said: bytes = b""


@dataclass
class Refusals:
    """Which allocations of a scenario's runs are refused, one of so many each; how many these are
    at least, and of how many of them the run goes on as if nothing was."""

    each: int
    count: int
    whole: int


@dataclass
class Scenario:
    """What happens to a host over a new book, and what it says."""

    limit: int = 999999
    day: str = "2000-01-01"
    moment: str = "946684800"
    others: int | None = None
    stops: int | None = None
    refusals: Refusals | None = None
    migrated: int | None = None
    steps: list = field(default_factory=list)
    asked: list = field(default_factory=list)

    def begun_as(self):
        """A scenario whose book is opened as this one's."""
        return replace(Scenario(), limit=self.limit, day=self.day, moment=self.moment)


class Reader:
    """A reader that is behind some lines of a file."""

    def __init__(self):
        self.setup = Scenario()
        self.current = self.setup
        self.scenarios = []
        # What the lines behind four spaces belong to.
        self.last = None

    def take(self, line, text):
        """Takes a line."""
        if text.startswith("    "):
            self.take_expected(line, text[4:])
            return
        word, _, rest = text.partition(" ")
        self.last = None
        if word == "scenario":
            self.current = self.setup.begun_as()
            self.scenarios.append(self.current)
        elif word in ("limit", "day", "at", "others", "stops", "refusals", "migrated"):
            self.take_term(word, rest, line)
        elif word in ASKED:
            self.take_asked(word, rest, line)
        elif word == "frame":
            message = bytes_of(rest, line)
            self.take_step(line, frame_line(self.current.moment, message))
        else:
            self.take_step(line, bytes_of(text, line))

    def take_term(self, word, rest, line):
        """Takes what a book is opened with, or over which further books the scenario runs."""
        if word == "day":
            self.current.day = rest
        elif word == "at":
            self.current.moment = rest
        elif word == "migrated":
            self.current.migrated = len(self.current.steps)
        elif word == "refusals":
            self.current.refusals = refusals_of(rest, line)
        else:
            setattr(self.current, word, number_of(rest, line))

    def take_asked(self, word, rest, line):
        """Takes what is asked of the book at the end."""
        words = rest.split(" ", 1) if rest else []
        if len(words) not in ASKED[word]:
            raise malformed(line)
        self.last = Asked(line, [word, *words])
        self.current.asked.append(self.last)

    def take_step(self, line, event):
        """Takes an event line."""
        self.last = Step(line, event)
        self.current.steps.append(self.last)

    def take_expected(self, line, text):
        """Takes a line of what is said, or of a text."""
        if self.last is None:
            raise malformed(line)
        self.last.said += bytes_of(text, line) + b"\n"


def refusals_of(text, line):
    """What a line says of refusals."""
    numbers = [number_of(it, line) for it in text.split(" ")]
    if len(numbers) != 3 or not numbers[0]:
        raise malformed(line)
    return Refusals(*numbers)


def read_scenarios(text):
    """The setup and the scenarios of a file."""
    reader = Reader()
    for line, row in rows_of(text):
        reader.take(line, row)
    if not reader.scenarios:
        raise NoRow("no row")
    return reader.setup, reader.scenarios
