#!/usr/bin/env python3
"""owed.py PROGRAM [MESSAGES]: days of some merchants, drawn from seeds, of which four texts have to
say the same: the clearing file, the settlement report, that report as CSV, and a statement as CSV.

Merchants have two currencies and terminals of their own: sales, returns, holds, their completions,
and reversals, whole and in part, some on the next day. A day has 300 messages, or so many."""

import csv
import io
import random
import sys
from collections import defaultdict

from files import acqd, in_a_folder_of_its_own
from terminal import Wrong, size, wanted

MOMENT = 1714555800
LEGS = ("credit", "credit-reversal", "debit", "debit-reversal")
SHOPS = {"BAKERY": "978", "A, B": "840", "KIOSK": "978"}
DAYS = ("2024-05-01", "2024-05-02")


def frame(parts):
    return f"frame,{MOMENT},{parts.replace('|', '').encode().hex()},,,"


class Draw:
    """The event lines of two days."""

    def __init__(self, seed):
        self.random, self.lines = random.Random(seed), []
        self.trace, self.reference = 0, defaultdict(int)
        # What may still be reversed, and holds that may be completed.
        self.posted, self.held = [], []
        self.lines.append("addrange,40000000,49999999,12345,7,")
        for shop, currency in SHOPS.items():
            self.lines.append(f'enrol,"{shop}",{currency},1,,')
            self.lines += [f'terminal,"{shop}",TILL000{it},,,' for it in range(2)]

    def day(self):
        """A day's messages."""
        for _ in range(size(300)):
            self.trace += 1
            draw = self.random.random()
            if draw < 0.6:
                self.request("0200", self.random.choice(("000000", "000000", "200000")))
            elif draw < 0.75:
                self.request("0100", "000000")
            elif draw < 0.85 and self.held:
                self.complete(*self.held.pop(self.random.randrange(len(self.held))))
            elif self.posted:
                self.reverse(*self.posted.pop(self.random.randrange(len(self.posted))))

    def request(self, kind, processing):
        """A sale, a return or a hold, of which most are approved."""
        shop = self.random.choice(tuple(SHOPS))
        till, amount = self.random.randrange(2), self.random.randrange(1, 99999)
        self.lines.append(frame(
            f"{kind}|7220000000C08000|16|4111111111111111|{processing}|{amount:012}|0501093000"
            f"|{self.trace:06}|TILL000{till}|{shop:15}|{SHOPS[shop]}"))
        self.reference[shop] += 1
        reference = self.reference[shop]
        verdict = self.random.choice(("approved,A1B2C3", "approved,A1B2C3", "declined,51"))
        self.lines.append(f'answer,{MOMENT},"{shop}",{reference},{verdict}')
        if verdict[0] == "a":
            known = shop, till, amount, self.trace
            if kind == "0100":
                self.held.append((*known, reference))
            else:
                self.posted.append((*known, kind))

    def complete(self, shop, till, amount, _, reference):
        amount = self.random.randrange(1, amount + 1)
        self.lines.append(frame(
            f"0220|3220000008C08000|000000|{amount:012}|0501093000|{self.trace:06}|{reference:012}"
            f"|TILL000{till}|{shop:15}|{SHOPS[shop]}"))
        self.posted.append((shop, till, amount, self.trace, "0220"))

    def reverse(self, shop, till, amount, trace, kind):
        """A reversal that lets nothing remain, or some."""
        remains = self.random.choice((0, self.random.randrange(amount)))
        self.lines.append(frame(
            f"0420|9220000000C00000|0000004200000000|{amount:012}|0501093100|{self.trace:06}"
            f"|TILL000{till}|{shop:15}|{kind}|{trace:06}|0501093000|00000000000|00000000000"
            f"|{remains:012}|000000000000|C00000000|C00000000"))


def text(*words):
    status, out, faults = acqd(words)
    wanted(f"acqd {' '.join(words)}", (status, faults), (0, ""))
    return out.decode()


def records(*words):
    return list(csv.DictReader(io.StringIO(text(*words))))


def cleared(day):
    """Of each merchant and terminal, the counts and amounts of the clearing file, by leg."""
    found = defaultdict(lambda: [0] * 8)
    for row in records("clearing", "--day", day):
        place = 2 * LEGS.index(row["leg"])
        for key in ((row["merchant"],), (row["merchant"], row["terminal"])):
            found[key][place] += 1
            found[key][place + 1] += int(row["amount"])
    return found


def figures(row):
    """The counts and amounts of a record, by leg."""
    names = ("credits credit_amount credit_reversals credit_reversal_amount debits debit_amount "
             "debit_reversals debit_reversal_amount").split()
    return [int(row[it]) for it in names]


def owed(found):
    return found[5] - found[7] - found[1] + found[3]


def settled(day):
    """The counts and amounts of the settlement report, and the net."""
    found = {}
    for line in text("report", "--day", day).splitlines()[1:-1]:
        numbers = [int(it.lstrip(".")) for it in line[16:112].split()]
        found[line[:15]] = numbers, line[112:129]
    return found


def compare(day):
    """What the texts of a day have to say alike."""
    found, reports = cleared(day), records("report", "--day", day, "--csv")
    sums = defaultdict(lambda: [0] * 8)
    for row in reports:
        want = found[(row["merchant"],)] if row["merchant"] else sums[row["currency"]]
        wanted(f"{day}: the figures of {row['merchant'] or row['currency']}", figures(row), want)
        wanted(f"{day}: what is owed", int(row["owed_to_merchant"]), owed(want))
        if row["merchant"]:
            sums[row["currency"]] = list(map(sum, zip(sums[row["currency"]], want)))
    for shop, (numbers, net) in settled(day).items():
        wanted(f"{day}: the report's {shop}", numbers, found[(shop,)])
        amount = owed(found[(shop,)])
        wanted(f"{day}: its net", net, f"{'D' if amount > 0 else 'C'}{abs(amount):016}")
    wanted("currencies", [it["currency"] for it in reports if not it["merchant"]], ["840", "978"])
    for row in records("statement", "--day", day, "--csv"):
        if row["line"] == "currency":
            want = sums[row["currency"]]
        else:
            want = found[tuple(it for it in (row["merchant"], row["terminal"]) if it)]
        wanted(f"{day}: the statement's {row['line']}", figures(row), want)
        wanted(f"{day}: what it says is owed", int(row["owed_to_merchant"]), owed(want))
    return sums


def days(_, seeds):
    """Two days, drawn from a seed, and the statement of both."""
    draw = Draw(*seeds)
    for day in DAYS:
        draw.day()
        draw.lines.append(f"cutover,{MOMENT},,,,")
    wanted("a new book", acqd(["init", "--limit", "999999", "--day", DAYS[0]])[0], 0)
    said = acqd(["replay", "--group", "100"], "\n".join(draw.lines).encode() + b"\n")[1]
    if said.count(b"reply ") < len(draw.lines) / 4:
        raise Wrong(f"few replies: {said.count(b'reply ')}")
    both = [compare(day) for day in DAYS]
    last = [it for it in records("statement", "--day", DAYS[0], "--to", DAYS[1], "--csv")
            if it["line"] == "currency"]
    for row in last:
        want = list(map(sum, zip(both[0][row["currency"]], both[1][row["currency"]])))
        wanted("the sums of both days", figures(row), want)
    for name in ("book.db", "book.db-wal"):
        with open(name, "wb"):
            pass


TRIES = [(days, (seed,)) for seed in range(3)]

if __name__ == "__main__":
    sys.exit(in_a_folder_of_its_own(TRIES))
