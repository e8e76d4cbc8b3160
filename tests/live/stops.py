#!/usr/bin/env python3
"""stops.py PROGRAM [STOPS]: `listen --together 8` under load, stopped at random moments, 6 times or
as often as STOPS says, by SIGKILL and SIGTERM in turn.

After each stop `pending` lists the requests whose issuer's answer the stop cut off, and `replay`
takes these lines. At the end every frame that was ever sent is sent again: each gets a reply, the
one that it had where it had one, and the day is cut over, and clears each approved sale just
once."""
import csv
import io
import random
import signal
import sys
import threading
import time

from terminal import APPROVING, Book, Host, Wrong, main, merchant, sale, size, wanted, when

TOGETHER, STOPS = 8, size(6)


def sell(host, k, sales, replies):
    """A terminal: one sale behind the reply to the other, until nobody answers any more."""
    try:
        terminal = host.terminal()
        while True:
            trace = len(sales) + 1
            sales.append(trace)
            terminal.send(sale(k, trace))
            if not terminal.waits_for_frame():
                break
            replies[k, trace] = terminal.reply()
    except (OSError, Wrong):
        pass


def end_pending(book):
    """Has the requests that wait answered by the issuers' file."""
    lines = book.output("pending", "--issuers", book.file("issuers.csv", APPROVING))
    said = book.output("replay", given=lines)
    wanted("replies to answers that were missing", said.count("reply "), lines.count("\n"))


def stops_under_load(program):
    chance, replies = random.Random(8583), {}
    sales = {k: [] for k in range(TOGETHER)}
    with Book(program, merchants=range(TOGETHER)) as book:
        for stop in range(STOPS):
            with Host(book, "--together", str(TOGETHER)) as host:
                threads = ((host, k, sales[k], replies) for k in sales)
                terminals = [threading.Thread(target=sell, args=it) for it in threads]
                for it in terminals:
                    it.start()
                answered = len(replies)
                when("no sale was answered", lambda: len(replies) > answered)
                time.sleep(0.3 * chance.random())
                host.end(signal.SIGTERM if stop % 2 else signal.SIGKILL)
                for it in terminals:
                    it.join()
            end_pending(book)
        with Host(book, "--together", str(TOGETHER)) as host, host.terminal() as terminal:
            for k, trace in [(k, trace) for k in sales for trace in sales[k]]:
                said = terminal.ask(sale(k, trace, "0201"))
                what = f"the reply to sale {trace} of {merchant(k)}, sent again"
                wanted(what, said, replies.get((k, trace), said))
                wanted("whether it was approved", b"A1B2C300" in said, True)
            host.end()
        end_pending(book)
        cleared = csv.DictReader(io.StringIO(book.cleared()))
        posted = sorted((it["merchant"], int(it["trace"])) for it in cleared)
        sent = sorted((merchant(k), trace) for k in sales for trace in sales[k])
        wanted("the sales that are cleared", posted, sent)


if __name__ == "__main__":
    sys.exit(main([stops_under_load]))
