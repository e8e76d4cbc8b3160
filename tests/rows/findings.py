"""What differs from rows, and how many there are."""

from collections import Counter

from row_bytes import shown


class Findings:
    """What differs from the rows of a file, as the lines that are printed, and what was played."""

    def __init__(self):
        self.lines = []
        self.counts = Counter()

    def compare(self, line, over, expected, came):
        """Compares what came, over this book or stream, with what the row on this line says."""
        if expected != came:
            self.lines += [
                f"    line {line}, {over}" if over else f"    line {line}",
                f"        expected: {shown(expected)}",
                f"        came:     {shown(came)}",
            ]

    def compare_status(self, line, over, expected, came):
        """Compares two statuses."""
        self.compare(line, over, str(expected).encode(), str(came).encode())

    def add(self, other):
        """Takes what another play found, behind what was found so far."""
        self.lines += other.lines
        self.counts += other.counts
