#!/usr/bin/env python3
"""answers.py PROGRAM: what terminals of `acqd listen` are told, and what of it is posted: where no
issuer answers, by the issuers' file, past the limit of a day, at the clock's moment, and again
where a reply was cut off; one by one and many at once."""
import datetime
import sys
import time

from terminal import (
    APPROVING, CARD, DECLINED, HEADING, MODES, MOMENT, UNKNOWN, Book, Host, Wrong, approved,
    cleared_sales, code_of, main, sale, wanted,
)

HOLD_DAYS = 7


def unanswered(trace, card):
    """The reply to a sale whose issuer was asked and can't be reached."""
    return approved(trace=trace, card=card, e38=None, e39="91")


def declined(trace, card):
    """The reply to a sale that its issuer declines with 51."""
    return approved(trace=trace, card=card, e38=None, e39="51")


def told(host, *sales):
    """The replies to these sales, each sent behind the reply to the one before."""
    with host.terminal() as terminal:
        return [terminal.ask(it) for it in sales]


def no_issuers(program, mode):
    """Without `--issuers` each sale gets 91, and nothing is posted."""
    with Book(program) as book:
        with Host(book, *mode, issuers=None) as host:
            wanted("a reply without --issuers", told(host, sale()), [unanswered(1, CARD)])
            host.end()
        wanted("the clearing file without --issuers", book.cleared(), HEADING)


def a_card_that_the_file_lacks(program, mode):
    """It gets 91, as one whose record is `none` does, and nothing is posted."""
    for text in (APPROVING, f"{UNKNOWN},none,\n", ""):
        with Book(program) as book:
            with Host(book, *mode, issuers=text) as host:
                wanted("a reply", told(host, sale(card=UNKNOWN)), [unanswered(1, UNKNOWN)])
                host.end()
            wanted("the clearing file", book.cleared(), HEADING)


def as_the_file_says(program, mode):
    """What it approves is posted, and what it declines or lacks is not."""
    sales = [sale(), sale(trace=2, card=DECLINED), sale(trace=3, card=UNKNOWN), sale(trace=4)]
    replies = [approved(), declined(2, DECLINED), unanswered(3, UNKNOWN), approved(trace=4)]
    with Book(program) as book:
        with Host(book, *mode, issuers=f"{APPROVING}{DECLINED},declined,51\n") as host:
            wanted("replies by the issuers' file", told(host, *sales), replies)
            host.end()
        wanted("the clearing file", book.cleared(), cleared_sales([(1, 1, 1), (1, 4, 4)]))


def a_full_day(program, mode):
    """With `init --limit 2` the third sale of a merchant gets 65; other merchants have days of
    their own."""
    full = approved(trace=3, e37=None, e38=None, e39="65")
    with Book(program, merchants=(1, 2), limit=2) as book:
        with Host(book, *mode) as host:
            sales = [sale(), sale(trace=2), sale(trace=3), sale(k=2, trace=1)]
            wanted("replies within the limit and past it", told(host, *sales),
                   [approved(), approved(trace=2), full, approved(k=2)])
            host.end()
        cleared = cleared_sales([(1, 1, 1), (1, 2, 2), (2, 1, 1)])
        wanted("the clearing file", book.cleared(), cleared)


def last_second(book, at):
    """The last second of the one hold that is open then."""
    lines = book.output("holds", "--merchant", "MERCHANT0000001", "--at", str(at)).splitlines()[1:]
    wanted("open holds", len(lines), 1)
    said = datetime.datetime.strptime(lines[0].split(",")[3], "%Y-%m-%d %H:%M:%S")
    return int(said.replace(tzinfo=datetime.timezone.utc).timestamp())


def the_moment(program, mode):
    """A hold's days begin at the clock's moment, and with `--at` at that one."""
    for at in (None, MOMENT):
        with Book(program) as book, Host(book, *mode, at=at) as host:
            before = int(time.time())
            wanted("a hold", told(host, sale(kind="0100")), [approved(kind="0110")])
            now = int(time.time())
            host.end()
            first = last_second(book, at or now) - HOLD_DAYS * 86400
            if not (before <= first <= now if at is None else first == at):
                raise Wrong(f"a hold of {before} to {now}, with --at {at}, begins at {first}")


def a_cut_reply(program, mode):
    """Who didn't read the reply, or half of it, gets that very one when it sends its sale again."""
    with Book(program) as book:
        with Host(book, *mode) as host:
            for trace, read in ((1, 0), (2, 40)):
                cut = host.terminal(sale(trace=trace))
                cut.has_come()
                cut.end.recv(read or 1)
                cut.reset()
                again = told(host, sale(trace=trace, kind="0201"), sale(trace=trace))
                wanted("the reply to a repeat", again, [approved(trace=trace)] * 2)
            host.end()
        wanted("the clearing file", book.cleared(), cleared_sales([(1, 1, 1), (1, 2, 2)]))


def over_one_connection(program):
    """`once` says the same of the same frames: codes 00, 51, 91 and, past the limit, 65."""
    with Book(program, limit=3) as book:
        issuers = book.file("issuers.csv", f"{APPROVING}{DECLINED},declined,51\n")
        sales = [sale(), sale(trace=2, card=DECLINED), sale(trace=3, card=UNKNOWN), sale(trace=4)]
        words = ["--issuers", issuers, "--at", str(MOMENT)]
        said = book.output("once", *words, given=b"".join(sales)).encode()
        full = approved(trace=4, e37=None, e38=None, e39="65")
        replies = [approved(), declined(2, DECLINED), unanswered(3, UNKNOWN), full]
        wanted("the replies of once", said, b"".join(replies))
        wanted("their codes", [code_of(it) for it in replies], ["00", "51", "91", "65"])


IN_BOTH_MODES = [
    no_issuers, a_card_that_the_file_lacks, as_the_file_says, a_full_day, the_moment, a_cut_reply,
]
TRIES = [over_one_connection, *((it, mode) for it in IN_BOTH_MODES for mode in MODES)]

if __name__ == "__main__":
    sys.exit(main(TRIES, at_once=4))
