#!/usr/bin/env python3
"""merchants.py PROGRAM [MERCHANTS]: ten thousand events of fifty merchants, or of so many, and what
the day of each comes to; two thousand issuers' ranges, and the issuer of a card of the last.

Each merchant has 34 rounds of a sale, a hold, their approvals, the hold's completion by less and
the sale's reversal, each event of a round for all merchants before the next; then a reconciliation
that claims what its day comes to. The program answers each of these in balance."""

import sys

from terminal import DAY, MOMENT, main, output, size, wanted

MERCHANTS, ROUNDS = range(1, size(50) + 1), 34
RANGES = range(2000)


def event(parts):
    return f"frame,{MOMENT},{parts.replace('|', '').encode().hex()},,,"


def answer(name, reference):
    return f"answer,{MOMENT},{name},{reference},approved,A1B2C3"


def card_of(prefix):
    """A card number of sixteen digits with this prefix, and its check digit."""
    digits = f"{prefix:08}0000000"
    doubled = [int(it) * (2 - at % 2) for at, it in enumerate(digits)]
    return digits + str(-sum(it // 10 + it % 10 for it in doubled) % 10)


def range_of(issuer):
    """The line that adds the range of an issuer, a thousand prefixes."""
    return f"addrange,{10_000_000 + 1000 * issuer},{10_000_999 + 1000 * issuer},{issuer},7,"


def sale_of_the_last():
    """A sale by a card of the last issuer's range, and the line that asks that issuer."""
    name, card = "SHOP00000000001", card_of(10_000_999 + 1000 * RANGES[-1])
    sale = event(
        f"0200|7220000000C08000|16|{card}|000000|000000001000|0501093000|999998|TERM0001|{name}|978"
    )
    return sale, f"ask {name} {2 * ROUNDS + 1:012} {card[:6]}******{card[-4:]} 1000 {RANGES[-1]}"


def events_of(merchant, rounds):
    """The six events of a merchant's round."""
    name, amount = f"SHOP{merchant:011}", 1000 + merchant
    sale, hold = 4 * rounds, 2 * rounds + 2
    source = f"TERM0001|{name}"
    yield event(
        f"0200|7220000000C08000|16|4111111111111111|000000|{amount:012}|0501093000|{sale:06}"
        f"|{source}|978"
    )
    yield event(
        f"0100|7220000000C08000|16|5500005555555559|000000|000000005000|0501093000|{sale + 1:06}"
        f"|{source}|978"
    )
    yield answer(name, hold - 1)
    yield answer(name, hold)
    yield event(
        f"0220|3220000008C08000|000000|000000004000|0501093000|{sale + 2:06}|{hold:012}"
        f"|{source}|978"
    )
    yield event(
        f"0420|9220000000C00000|0000004000000000|{amount:012}|0501093000|{sale + 3:06}|{source}"
        f"|0200|{sale:06}|0501093000|00000000000|00000000000"
    )


def claim_and_reply(merchant):
    """A reconciliation of a merchant's day, and the line of the reply."""
    name, sales, completions = f"SHOP{merchant:011}", (1000 + merchant) * ROUNDS, 4000 * ROUNDS
    totals = (
        f"{0:010}{0:010}{2 * ROUNDS:010}{ROUNDS:010}{0:016}{0:016}{sales + completions:016}"
        f"{sales:016}D{completions:016}"
    )
    claim = event(
        f"0500|8220000000C00000|0078078080000000|0501100000|999999|TERM0001|{name}|{totals}"
    )
    head = "reply 05108222000002C00000407807808000000005011000009999990501"
    reply = f"{head}00TERM0001{name}1{totals}"
    return claim, reply


def events_and_what_they_come_to(program):
    lines = ["addrange,40000000,49999999,12345,7,", "addrange,50000000,59999999,67890,1,"]
    lines += [range_of(issuer) for issuer in RANGES]
    for merchant in MERCHANTS:
        lines += [f"enrol,SHOP{merchant:011},978,1,,", f"terminal,SHOP{merchant:011},TERM0001,,,"]
    for rounds in range(ROUNDS):
        for of_all in zip(*(events_of(merchant, rounds) for merchant in MERCHANTS)):
            lines += of_all
    last = [*(claim_and_reply(merchant) for merchant in MERCHANTS), sale_of_the_last()]
    lines += [line for line, _ in last]
    said = output([program, "replay", "--day", DAY], "\n".join(lines) + "\n").decode().splitlines()
    wanted("lines", len(said), len(lines))
    for (_, expected), found in zip(last, said[-len(last) :]):
        wanted("what a day comes to", found, expected)


if __name__ == "__main__":
    sys.exit(main([events_and_what_they_come_to]))
