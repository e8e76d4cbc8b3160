"""Events of another merchant, to stand between those of a scenario."""

from row_bytes import frame_line

MERCHANT = "MERCHANT0000002"
# Where its messages come from, and when: its terminal, on 2024-05-01.
SOURCE = "TERM0001" + MERCHANT
MOMENT = 1714555800


def message(text):
    """A message comes."""
    return frame_line(MOMENT, text.encode())


def sale(trace):
    """A sale of 10.00."""
    return message(
        "02007220000000C0800016411111111111111100000000000000100005010930"
        f"00{trace:06}{SOURCE}978"
    )


def hold(trace):
    """An authorization of 50.00."""
    return message(
        "01007220000000C0800016550000555555555900000000000000500005010930"
        f"00{trace:06}{SOURCE}978"
    )


def reversal(trace, of):
    """A reversal of the sale with this trace."""
    return message(
        "04209220000000C0000000000040000000000000000010000501093100"
        f"{trace:06}{SOURCE}0200{of:06}05010930000000000000000000000000"
    )


def approval(reference):
    """An approval of the request with this reference."""
    return f"answer,{MOMENT},{MERCHANT},{reference},approved,B00001".encode()


def lot_of_another(place, sales):
    """The events of a lot of the other merchant: so many sales and a hold, approvals of the first
    sale and of the hold, a reversal of that sale, a repeat of it and one of a pending sale, and a
    frame that spells no message. `place` tells such lots apart, and counts from 0."""
    # So many were admitted before, one hold with each lot of sales.
    first = place * (sales + 1) + 1
    last = first + sales - 1
    return [
        *(sale(trace) for trace in range(first, last + 1)),
        hold(last + 1),
        approval(first),
        approval(last + 1),
        reversal(first + 500_000, first),
        sale(first),
        sale(last),
        message("02007220000000C08000204111"),
    ]
