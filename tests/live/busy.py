"""Days of a few merchants, drawn from a seed: the event lines of sales, returns, holds and their
completions, reversals whole and in part, answers that come late or never, reconciliations, ranges
that change, and messages that are refused with each code that a request can be refused with."""

import random

from terminal import spelled

MOMENT = 1714555800
SHOPS = {"BAKERY": "978", "A, B": "840", "KIOSK": "978"}
CARDS = ("4111111111111111", "4242424242424242", "5500005555555559", "340000000000009")
BAD_CARD, UNKNOWN_CARD = "4111111111111112", "6011000990139424"
RANGES = ("addrange,34000000,34999999,1,3,", "addrange,41000000,41999999,12345,7,",
          "addrange,42000000,42999999,2,31,", "addrange,55000000,55999999,67890,1,")
CLAIMS = {**{it: "0" * 10 for it in range(74, 78)}, **{it: "0" * 16 for it in range(86, 90)},
          97: "C" + "0" * 16}
LIMIT = 25


def shop_name(shop):
    return f'"{shop}"' if "," in shop else shop


class Busy:
    """The event lines of some days, which end with an approved sale."""

    def __init__(self, seed, messages=300, days=3):
        self.random, self.lines, self.trace = random.Random(seed), list(RANGES), 0
        # What was asked for: kind, elements, shop. The next reference of each shop, if no day is
        # full; what may wait for an answer, and what may be held.
        self.asked, self.next, self.open, self.held = [], {}, [], []
        # What may be admitted of what was asked for.
        self.good = []
        self.ranges = {it.split(",")[1][:2] for it in RANGES}
        for shop, currency in SHOPS.items():
            self.next[shop] = self.random.randrange(1, 99)
            self.lines.append(f"enrol,{shop_name(shop)},{currency},{self.next[shop]},,")
            self.lines += [f"terminal,{shop_name(shop)},TILL000{it},,," for it in range(2)]
        for day in range(days):
            for _ in range(messages):
                self.message()
            if day < days - 1:
                self.lines.append(f"cutover,{self.moment()},,,,")
        self.sell_at_last()

    def moment(self):
        return MOMENT + self.trace * 60

    def frame(self, kind, shop, elements):
        self.trace += 1
        own = {7: f"0501{self.trace // 60 % 24:02}{self.trace % 60:02}00", 11: f"{self.trace:06}",
               41: f"TILL000{self.random.randrange(2)}", 42: f"{shop:15}", **elements}
        self.lines.append(f"frame,{self.moment()},{spelled(kind, own).encode().hex()},,,")
        self.asked.append((kind, own, shop))

    def message(self):
        draw, shop = self.random.random(), self.random.choice(tuple(SHOPS))
        if draw < 0.45:
            self.request(shop)
        elif draw < 0.6:
            self.complete(shop)
        elif draw < 0.75 and self.asked:
            self.reverse()
        elif draw < 0.78:
            self.reconcile(shop)
        elif draw < 0.8:
            self.change_ranges()
        else:
            self.answer(shop)
        if self.random.random() < 0.5:
            self.answer(shop)

    def request(self, shop):
        """A sale, a return or a hold, most of which can be admitted."""
        kind = self.random.choice(("0200", "0200", "0100"))
        card = self.random.choice(CARDS * 6 + (BAD_CARD, UNKNOWN_CARD))
        elements = {
            3: self.random.choice(("000000",) * 8 + ("200000", "200000", "300000")),
            4: f"{self.random.choice((0, 1, 9999, 10 ** 10) + (500,) * 30):012}",
            49: self.random.choice((SHOPS[shop],) * 20 + ("756",)),
        }
        if self.random.random() < 0.3:
            expiry = self.random.choice(("2912",) * 9 + ("2301", "2913"))
            elements[35] = f"{card}={expiry}101"
        else:
            elements[2] = card
            if self.random.random() < 0.3:
                elements[14] = self.random.choice(("2912", "2404", "2313"))
        for number, text in ((12, "093000"), (13, "0501"), (32, "12345")):
            if self.random.random() < 0.4:
                elements[number] = text
        self.frame(kind, shop, elements)
        asks = elements[3][:2] == "00" or kind == "0200" and elements[3][:2] == "20"
        if (asks and card[:2] in self.ranges and card != BAD_CARD and elements[49] == SHOPS[shop]
                and 0 < int(elements[4]) < 10 ** 10
                and elements.get(14, elements.get(35, "=2912")[-7:][:4]) in ("2912", "=291")):
            self.good.append(self.asked[-1])
            self.open.append((shop, self.next[shop]))
            self.held += [(shop, self.next[shop])] * (kind == "0100")
            self.next[shop] += 1

    def complete(self, shop):
        """A completion of a hold, if there is one with this reference."""
        reference = "NO-REFERENCE"
        if self.held and self.random.random() < 0.9:
            shop, number = self.random.choice(self.held[-6:])
            reference = f"{number:012}"
        self.frame("0220", shop, {
            3: "000000", 4: f"{self.random.choice((0, 1, 400, 500, 501)):012}", 37: reference,
            49: SHOPS[shop],
        })

    def reverse(self):
        """A reversal of something that was asked for, of which nothing remains or some."""
        of = self.good[-6:] if self.good and self.random.random() < 0.7 else self.asked[-40:]
        kind, elements, shop = self.random.choice(of)
        acquirer = self.random.choice(("0" * 11,) * 5 + ("00000012345", "99999999999"))
        original = f"{kind}{elements[11]}{elements[7]}{acquirer}{'0' * 11}"
        amount = self.random.choice((elements.get(4, "0" * 12),) * 9 + ("000000000077",))
        own = {4: amount, 41: elements[41], 90: original}
        if self.random.random() < 0.5:
            remains = self.random.choice((0, 1, 200, 500))
            own[95] = f"{remains:012}{'0' * 12}C{'0' * 8}C{'0' * 8}"
        self.frame(self.random.choice(("0400", "0420")), shop, own)

    def reconcile(self, shop):
        own = dict(CLAIMS)
        if self.random.random() < 0.3:
            own[15] = self.random.choice(("0501", "0502", "0230"))
        self.frame("0500", shop, own)

    def change_ranges(self):
        """Another range in place of one, whose holds last otherwise; or none."""
        _, low, high, issuer, _, _ = self.random.choice(RANGES).split(",")
        self.lines.append(f"droprange,{low},{high},,,")
        self.ranges.discard(low[:2])
        if self.random.random() < 0.7:
            self.lines.append(f"addrange,{low},{high},{issuer},{self.random.randrange(1, 32)},")
            self.ranges.add(low[:2])

    def answer(self, shop):
        """An answer to one of those that wait, the first or a later one; or to any request."""
        number = self.random.randrange(1, 120)
        if self.open and self.random.random() < 0.9:
            shop, number = self.open.pop(self.random.randrange(min(len(self.open), 4)))
        verdict = self.random.choice(("approved,A1B2C3",) * 6 + ("declined,51", "none,"))
        self.lines.append(f"answer,{self.moment()},{shop_name(shop)},{number},{verdict}")

    def sell_at_last(self):
        """A shop of its own, whose sale is approved."""
        self.lines += ["enrol,LAST,978,1,,", "terminal,LAST,TILL0000,,,", *RANGES]
        self.frame("0200", "LAST", {
            2: CARDS[0], 3: "000000", 4: "000000000700", 41: "TILL0000", 49: "978"})
        self.lines.append(f"answer,{self.moment()},LAST,1,approved,A1B2C3")

    def text(self):
        return "".join(f"{line}\n" for line in self.lines).encode()
