#!/usr/bin/env python3
"""issuers.py PROGRAM: terminals of `acqd listen --together` whose issuers take their time, by the
fourth column of the issuers' file: others go on meanwhile, each gets the reply to its own request,
and behind `--answer-within` its issuer gave none."""
import signal
import time

from terminal import (
    CARD, DAY, DECLINED, HEADING, MOMENT, UNKNOWN, Book, Host, Wrong, approved, cleared_sales, echo,
    echoed, log_lines, main, merchant, request, sale, wanted, when,
)

MODE = ["--together", "8"]


def slow(*records):
    """The issuers' file of these cards, each with its milliseconds."""
    return "".join(f"{card},approved,A1B2C3,{wait}\n" for card, wait in records)


def took(begun, least, most, what):
    """Checks how many seconds something took."""
    seconds = time.monotonic() - begun
    if not least <= seconds <= most:
        raise Wrong(f"{what}: {seconds:.3f} seconds, not {least} to {most}")


def unanswered(k=1, trace=1, card=CARD, **changes):
    return approved(k, trace, card=card, e38=None, e39="91", **changes)


def reversal(k=1, trace=9, of=1):
    source = f"0200{of:06d}0501093000{'0' * 22}"
    return request("0400", k, trace, {4: f"{1000:012d}", 90: source})


def reversed_reply(k=1, trace=9):
    own = {4: f"{1000:012d}", 15: "0501", 37: f"{1:012d}", 39: "00"}
    return request("0410", k, trace, own)


def others_go_on(program):
    """While one waits two seconds, others are answered at once, and it takes no further message."""
    with Book(program, (1, 2)) as book:
        with Host(book, *MODE, issuers=slow((CARD, 2000), (DECLINED, 0))) as host:
            with host.terminal() as one, host.terminal() as other:
                wanted("an echo", other.is_served(), True)
                begun = time.monotonic()
                one.send(sale() + echo(7))
                for trace in range(1, 21):
                    asked = sale(2, trace, card=DECLINED)
                    reply = approved(2, trace, card=DECLINED)
                    wanted("a reply to another", other.ask(asked), reply)
                took(begun, 0, 1.5, "the others")
                wanted("what came so far", one.more(0), False)
                wanted("its reply", one.reply(), approved())
                took(begun, 2, 20, "its reply")
                wanted("the message behind it", one.reply(), echoed(7))
            host.end()
        wanted("the clearing file of one", book.cleared().count(f",{merchant(1)},"), 1)


def at_the_time_of_each(program):
    """Answers come in another order than requests, each to its own terminal."""
    cards = [CARD, DECLINED, UNKNOWN]
    waits = [1500, 1000, 500]
    with Book(program, (1, 2, 3)) as book:
        with Host(book, *MODE, issuers=slow(*zip(cards, waits))) as host:
            ends = [host.terminal() for _ in cards]
            begun = time.monotonic()
            for k, (end, card) in enumerate(zip(ends, cards), 1):
                end.send(sale(k, k, card=card))
            for k in (3, 2, 1):
                reply = approved(k, k, card=cards[k - 1], e37=f"{1:012d}")
                wanted(f"the reply to terminal {k}", ends[k - 1].reply(), reply)
                took(begun, waits[k - 1] / 1000, 20, f"terminal {k}")
                wanted("what came to those before", [it.more(0) for it in ends[: k - 1]],
                       [False] * (k - 1))
            host.end()


def none_in_time(program):
    """Behind `--answer-within` it gets 91 and nothing is posted, and a repeat gets the same."""
    with Book(program) as book:
        with Host(book, *MODE, "--answer-within", "1", issuers=slow((CARD, 600000))) as host:
            with host.terminal() as one:
                begun = time.monotonic()
                wanted("its reply", one.ask(sale()), unanswered())
                took(begun, 1, 20, "its reply")
                wanted("a repeat", one.ask(sale(kind="0201")), unanswered())
            host.end()
        wanted("the clearing file", book.cleared(), HEADING)


def no_hurry_by_default(program):
    """Without the option it waits longer than a few seconds, and so it does with 0."""
    for words in ([], ["--answer-within", "0"]):
        with Book(program) as book:
            with Host(book, *MODE, *words, issuers=slow((CARD, 4000))) as host:
                with host.terminal() as one:
                    wanted(f"its reply, with {words}", one.ask(sale()), approved())
                host.end()


def one_that_goes(program):
    """A terminal that goes before its answer: the sale is posted, and a repeat gets the reply."""
    with Book(program) as book:
        with Host(book, *MODE, issuers=slow((CARD, 1000)), control=True) as host:
            with host.terminal(sale()):
                when("nothing waits", lambda: host.figures()[f"pending.{DAY}"] == "1")
            when("it still waits", lambda: host.figures()[f"pending.{DAY}"] == "0")
            with host.terminal() as again:
                wanted("the repeat's reply", again.ask(sale(kind="0201")), approved())
            host.end()
        wanted("the clearing file", book.cleared(), cleared_sales([(1, 1, 1)]))


def a_repeat_meanwhile(program):
    """A repeat of a request that waits gets no reply, and the request its own."""
    with Book(program) as book:
        with Host(book, *MODE, issuers=slow((CARD, 1500))) as host:
            with host.terminal(sale()) as one, host.terminal() as other:
                wanted("an echo behind a repeat", other.ask(sale(kind="0201") + echo(7)), echoed(7))
                wanted("its reply", one.reply(), approved())
            host.end()
        wanted("the clearing file", book.cleared(), cleared_sales([(1, 1, 1)]))


def a_reversal_meanwhile(program):
    """A request that is reversed before its answer comes gets no reply, and nothing is posted; its
    connection goes on."""
    with Book(program) as book:
        with Host(book, *MODE, issuers=slow((CARD, 1500)), control=True) as host:
            with host.terminal(sale() + echo(7)) as one, host.terminal() as other:
                when("nothing waits", lambda: host.figures()[f"pending.{DAY}"] == "1")
                wanted("the reversal's reply", other.ask(reversal()), reversed_reply())
                wanted("what comes behind its answer", one.reply(), echoed(7))
            host.end()
        wanted("the clearing file", book.cleared(), HEADING)


def an_answer_meanwhile(program):
    """A request that a control connection answers before its issuer: the connection that asked gets
    nothing and goes on, and a repeat gets the reply."""
    declined = approved(e38=None, e39="51")
    with Book(program) as book:
        with Host(book, *MODE, issuers=slow((CARD, 1500)), control=True) as host:
            with host.terminal(sale() + echo(7)) as one:
                when("nothing waits", lambda: host.figures()[f"pending.{DAY}"] == "1")
                line = f"answer,{MOMENT},{merchant(1)},1,declined,51"
                told = f"reply {declined[2:].decode('latin-1')}\n"
                wanted("what is told of it", host.tell(line), told)
                wanted("what comes behind its answer", one.reply(), echoed(7))
                wanted("the repeat's reply", one.ask(sale(kind="0201")), declined)
            host.end()
        wanted("the clearing file", book.cleared(), HEADING)


def a_cutover_meanwhile(program):
    """A cutover between a request and its answer: it is of the day on which it came."""
    with Book(program) as book:
        with Host(book, *MODE, issuers=slow((CARD, 1500)), control=True) as host:
            with host.terminal(sale()) as one:
                when("nothing waits", lambda: host.figures()[f"pending.{DAY}"] == "1")
                wanted("the cutover", host.tell(f"cutover,{MOMENT},,,,"), "done\n")
                wanted("its reply", one.reply(), approved())
            host.end()
        wanted("the clearing file", book.output("clearing", "--day", "2024-05-01"),
               cleared_sales([(1, 1, 1)]))


def a_stop_waits(program):
    """`stop` waits for an answer, but for no longer than --stop-within."""
    for within, wait, reply, waits in ((60, 1500, approved(), ""), (1, 600000, b"", "answer,")):
        with Book(program) as book:
            words = ["--stop-within", str(within)]
            with Host(book, *MODE, *words, issuers=slow((CARD, wait)), control=True) as host:
                with host.terminal(sale()) as one:
                    when("nothing waits", lambda: host.figures()[f"pending.{DAY}"] == "1")
                    host.tell("stop")
                    wanted(f"its reply where a stop takes {within} seconds", one.rest(), reply)
                status, _ = host.ends()
                wanted("the status", status, 0)
            wanted("what waits behind it", book.output("pending")[:7], waits)


def a_kill_between(program):
    """A host that is killed between request and answer leaves the request, which waits."""
    with Book(program) as book:
        with Host(book, *MODE, issuers=slow((CARD, 600000)), control=True) as host:
            with host.terminal(sale()):
                when("nothing waits", lambda: host.figures()[f"pending.{DAY}"] == "1")
                host.end(signal.SIGKILL)
        line = f"answer,{MOMENT},{merchant(1)},{1:012d},none,\n"
        wanted("what waits", book.output("pending", "--at", str(MOMENT)), line)
        with Host(book, *MODE, issuers=slow((CARD, 0)), control=True) as host:
            with host.terminal() as one:
                wanted("an echo", one.is_served(), True)
                wanted("the answer", host.tell(line.strip())[:5], "reply")
                wanted("the repeat's reply", one.ask(sale(kind="0201")), unanswered())
            host.end()


def a_frame_that_is_begun(program):
    """A part of the next frame that came with a request doesn't take long while its issuer does."""
    with Book(program) as book:
        with Host(book, *MODE, "--frame-within", "2", issuers=slow((CARD, 3000))) as host:
            with host.terminal(sale() + echo(7)[:20]) as one:
                wanted("its reply", one.reply(), approved())
                wanted("what came behind it", one.more(1.5), False)
                wanted("the reply to the next", one.ask(echo(7)[20:]), echoed(7))
            host.end()


def in_the_log(program):
    """A request has one line, with the time that its issuer took in its total."""
    with Book(program) as book:
        with Host(book, *MODE, issuers=slow((CARD, 1000)), log=True) as host:
            with host.terminal() as one:
                wanted("its reply", one.ask(sale()), approved())
            lines = [it for it in log_lines(host.log()) if it.get("event") == "reply"]
            wanted("how many lines it has", len(lines), 1)
            total = int(lines[0]["total_microseconds"])
            wanted("whether its total is a second", 1_000_000 <= total <= 20_000_000, True)
            host.end()


def bad_files(program):
    """A fourth column that is no number of milliseconds, and a fifth, are bad records."""
    for record in (f"{CARD},approved,A1B2C3,", f"{CARD},approved,A1B2C3,1s",
                   f"{CARD},approved,A1B2C3,12345678", f"{CARD},approved,A1B2C3,1,1"):
        with Book(program) as book:
            words = ["--port", "8583", "--together", "2", "--issuers"]
            status, out, faults = book.run("listen", *words, book.file("bad.csv", f"{record}\n"))
            wanted(f"a record {record[16:]}", (status, out), (1, b""))
            wanted("its fault", faults, "acqd: 23 BadLine 1\n")


if __name__ == "__main__":
    raise SystemExit(main([
        others_go_on, at_the_time_of_each, none_in_time, no_hurry_by_default, one_that_goes,
        a_repeat_meanwhile, a_reversal_meanwhile, an_answer_meanwhile, a_cutover_meanwhile,
        a_stop_waits, a_kill_between, a_frame_that_is_begun, in_the_log, bad_files,
    ], at_once=6))
