#!/usr/bin/env python3
"""gateway.py PROGRAM [KILLS]: `acqd listen --gateway`, whose issuers are asked by a gateway over a
Unix socket, as docs/ISSUERS.md has it, and the gateways of `examples`.

Each query has what its terminal sent, and each answer goes to the terminal that waits for it, in
whatever order answers come. An answer that comes too late, or to nothing, is refused, and what the
issuer is to be told of comes as an advice. A gateway or a host that was cut off goes on where it
was. Sixty-four terminals beside two control connections and a gateway get what the host alone says
to each. Behind ten kills of a host, or so many as KILLS says, each request has ended, and what was
posted is what terminals and issuers were told."""
import csv
import itertools
import json
import os
import random
import re
import signal
import socket
import subprocess
import sys
import threading
import time
from concurrent.futures import ThreadPoolExecutor

from gateways import (
    Gateway, GatewayHost, advice, answer, done, fields_of, mode_of, refused, wanted_query,
)
from terminal import (
    APPROVING, CARD, DAY, DECLINED, HEADING, MOMENT, PATIENCE, Book, Host, Wrong, approved,
    cleared_sales, code_of, echo, echoed, elements_of, free_port, is_readable, log_lines, main,
    merchant, request, sale, size, split_frames, wanted, when,
)

HERE = os.path.dirname(os.path.abspath(__file__))
EXAMPLES = f"{os.path.dirname(os.path.dirname(HERE))}/examples"
KILLS, TERMINALS = size(10), 64
UNANSWERED = approved(e38=None, e39="91")


def took(begun, least, most, what):
    """Checks how many seconds something took."""
    seconds = time.monotonic() - begun
    if not least <= seconds <= most:
        raise Wrong(f"{what}: {seconds:.3f} seconds, not {least} to {most}")


def reversal(k=1, trace=9, of=1, original="0200", amount=1000, remains=None):
    """A reversal of the request with this trace, whole or so that something remains."""
    elements = {4: f"{amount:012d}", 90: f"{original}{of:06d}0501093000{'0' * 22}"}
    if remains is not None:
        elements[95] = f"{remains:012d}{'0' * 30}"
    return request("0420", k, trace, elements)


def completion(trace, reference, amount=1000, k=1):
    elements = {3: "000000", 4: f"{amount:012d}", 37: f"{reference:012d}", 49: "978"}
    return request("0220", k, trace, elements)


def accepted(terminal, sent):
    """Sends what has to be accepted at once."""
    wanted("the code of what is accepted", code_of(terminal.ask(sent)), "00")


# One request, and its answer.


def an_approval(program):
    """The terminal gets the authorization id, and the sale is posted; a repeat gets the reply."""
    with Book(program) as book:
        with GatewayHost(book, control=True) as host, host.gateway() as gateway:
            with host.terminal(sale()) as one:
                wanted_query(gateway, sent=sale())
                wanted("what comes before the answer", one.more(0.3), False)
                gateway.settle()
                wanted("its reply", one.reply(), approved())
                wanted("a repeat", one.ask(sale(kind="0201")), approved())
            wanted("whether the gateway hears of the repeat", gateway.is_silent(), True)
            wanted("the mode of the socket", mode_of(host.gateway_path), 0o600)
            host.tell("stop")
            wanted("the end of the connection", gateway.more(), False)
            wanted("the host's end", host.ends(), (0, []))
            wanted("whether the socket is there", os.path.exists(host.gateway_path), False)
        wanted("the clearing file", book.cleared(), cleared_sales([(1, 1, 1)]))


def a_decline(program):
    """The terminal gets the issuer's code, or 91 where it gives no answer; nothing is posted."""
    with Book(program) as book:
        with GatewayHost(book) as host, host.gateway() as gateway, host.terminal() as one:
            for trace, verdict, code in ((1, "declined,51", "51"), (2, "none,", "91")):
                asked = sale(trace=trace, card=DECLINED)
                one.send(asked)
                wanted_query(gateway, row=trace, reference=trace, card=DECLINED, issuer="67890",
                             sent=asked)
                gateway.send(answer(trace, verdict))
                wanted("the word on it", gateway.line(), done(trace))
                reply = approved(trace=trace, card=DECLINED, e38=None, e39=code)
                wanted("its reply", one.reply(), reply)
            host.end()
        wanted("the clearing file", book.cleared(), HEADING)


def lines_of_each_kind(program):
    """Of a hold, a return and a request whose card no range holds any more."""
    with Book(program) as book:
        with GatewayHost(book, control=True) as host, host.gateway() as gateway:
            with host.terminal() as one:
                hold, back = sale(kind="0100"), sale(trace=2, e3="200000")
                one.send(hold)
                wanted_query(gateway, "of a hold", kind="authorization", sent=hold)
                wanted("the drop", host.tell("droprange,40000000,49999999,,,"), "done\n")
                gateway.settle()
                wanted("its reply", one.reply(), approved(kind="0110"))
                host.tell("addrange,40000000,49999999,77777,7,")
                one.send(back)
                wanted_query(gateway, "of a return", row=2, reference=2, leg="credit",
                             issuer="77777", sent=back)
                wanted("the drop", host.tell("droprange,40000000,49999999,,,"), "done\n")
            with host.gateway_again(gateway) as again:
                wanted_query(again, "without a range", row=2, reference=2, leg="credit", issuer="")
                again.settle(2)
            host.end()


def the_message_itself(program):
    """HEX is what the terminal sent, byte for byte: with all that the book keeps nothing of, with
    bitmaps in lower case, and with the type of a repeat."""
    # `frame` leaves out a bar.
    every = "".join(map(chr, range(256))).replace("|", "")
    track = f"{CARD}=291220100000000000"
    sent = [
        sale(e35=track, e14="2912", e22="051", e48=every, e55="\x9f\x26\x08" + every[120:140],
             e63="\xff\r\n,\"", e43="A,B" + " " * 37),
        sale(trace=2, e2=None, e35=track),
        sale(trace=3, kind="0201", e12="093000", e13="0501", e128=None),
    ]
    low = sale(trace=4)
    sent.append(low[:6] + low[6:22].lower() + low[22:])
    with Book(program) as book:
        with GatewayHost(book) as host, host.gateway() as gateway, host.terminal() as one:
            for row, asked in enumerate(sent, 1):
                one.send(asked)
                wanted_query(gateway, row=row, reference=row, sent=asked)
                gateway.settle(row)
                wanted("its code", code_of(one.reply()), "00")
            host.end()


def crossed_answers(program):
    """Answers come in the order of no requests, each to its own terminal; others go on."""
    count = 6
    with Book(program, range(1, count + 2)) as book:
        with GatewayHost(book) as host, host.gateway() as gateway, host.terminal() as other:
            ends = [host.terminal() for _ in range(count)]
            for k, end in enumerate(ends, 1):
                end.send(sale(k, k) + echo(k))
                wanted_query(gateway, row=k, k=k, sent=sale(k, k))
            wanted("an echo meanwhile", other.is_served(), True)
            for k in range(count, 0, -1):
                id = f"ID{k:04d}"
                gateway.settle(1, f"approved,{id}", k)
                wanted(f"the reply to terminal {k}", ends[k - 1].reply(),
                       approved(k, k, e37=f"{1:012d}", e38=id))
                wanted("the message behind it", ends[k - 1].reply(), echoed(k))
                wanted("what came to those before", [it.more(0) for it in ends[: k - 1]],
                       [False] * (k - 1))
            host.end()


def two_from_one_terminal(program):
    """A terminal's next message is taken once its request has its answer."""
    with Book(program) as book:
        with GatewayHost(book) as host, host.gateway() as gateway:
            with host.terminal(sale() + sale(trace=2)) as one:
                wanted_query(gateway, sent=sale())
                wanted("whether the second is told", gateway.is_silent(), True)
                gateway.settle()
                wanted("the first reply", one.reply(), approved())
                wanted_query(gateway, row=2, reference=2, sent=sale(trace=2))
                gateway.settle(2)
                wanted("the second reply", one.reply(), approved(trace=2))
            host.end()


def a_terminal_that_goes(program):
    """A terminal that goes before its answer: the sale is posted, and a repeat gets the reply. One
    that comes before the answer gets none."""
    with Book(program) as book:
        with GatewayHost(book) as host, host.gateway() as gateway:
            with host.terminal(sale()):
                wanted_query(gateway, sent=sale())
            with host.terminal(sale(kind="0201") + echo(7)) as again:
                wanted("what comes behind a repeat", again.reply(), echoed(7))
                wanted("whether the gateway hears of it", gateway.is_silent(), True)
                gateway.settle()
                wanted("a repeat behind the answer", again.ask(sale(kind="0201")), approved())
            host.end()
        wanted("the clearing file", book.cleared(), cleared_sales([(1, 1, 1)]))


def beside_a_control_connection(program):
    """A request that a control connection answers first: the terminal's connection goes on, and the
    gateway's answer is well if it is the same."""
    with Book(program) as book:
        with GatewayHost(book, control=True) as host, host.gateway() as gateway:
            with host.terminal(sale() + echo(7)) as one:
                wanted_query(gateway, sent=sale())
                line = f"answer,{MOMENT},{merchant(1)},1,approved,A1B2C3"
                told = f"reply {approved()[2:].decode()}\n"
                wanted("what is told of it", host.tell(line), told)
                wanted("another answer", gateway.answer(1, "declined,51"), refused(35))
                wanted("the same answer", gateway.answer(), done())
                wanted("what comes behind it", one.reply(), echoed(7))
                wanted("a repeat", one.ask(sale(kind="0201")), approved())
            host.end()
        wanted("the clearing file", book.cleared(), cleared_sales([(1, 1, 1)]))


def a_stop_waits(program):
    """`stop` waits for an answer, but for no longer than --stop-within; what is left waits on."""
    for within, answers in (("60", True), ("1", False)):
        with Book(program) as book:
            with GatewayHost(book, "--stop-within", within, control=True) as host:
                with host.gateway() as gateway, host.terminal(sale()) as one:
                    wanted_query(gateway, sent=sale())
                    wanted("stop", host.tell("stop"), "stopping\n")
                    wanted("what comes before the answer", one.more(0.5), False)
                    if answers:
                        gateway.settle()
                    wanted("its reply", one.rest(), approved() if answers else b"")
                wanted("the host's status", host.ends()[0], 0)
            wanted("what waits", book.output("pending")[:7], "" if answers else "answer,")


# Answers that aren't taken.


def behind_the_deadline(program):
    """Behind --answer-within the terminal gets 91 and the gateway an advice; the answer is
    refused."""
    with Book(program) as book:
        with GatewayHost(book, "--answer-within", "1") as host, host.gateway() as gateway:
            begun = time.monotonic()
            with host.terminal(sale()) as one:
                wanted_query(gateway, sent=sale())
                wanted("its reply", one.reply(), UNANSWERED)
                took(begun, 0.9, 20, "its reply")
                wanted("the advice", gateway.line(), advice(1, "timeout"))
                wanted("an approval", gateway.answer(), refused(35))
                wanted("the same answer as the host's", gateway.answer(1, "none,"), done())
                wanted("a repeat", one.ask(sale(kind="0201")), UNANSWERED)
            host.end()
        with GatewayHost(book) as host, host.gateway() as gateway:
            wanted("the advice on another connection", gateway.line(), advice(1, "timeout"))
            wanted("whether anything comes behind it", gateway.is_silent(), True)
            host.end()
        wanted("the clearing file", book.cleared(), HEADING)


def behind_the_reversal(program):
    """A request that is reversed before its answer: the terminal gets none, the gateway an advice,
    and the answer is refused."""
    with Book(program) as book:
        with GatewayHost(book) as host, host.gateway() as gateway:
            with host.terminal(sale()) as one, host.terminal() as other:
                wanted_query(gateway, sent=sale())
                accepted(other, reversal())
                wanted("the advice", gateway.line(), advice(2, "reversal"))
                wanted("an approval", gateway.answer(), refused(33))
                wanted("a decline", gateway.answer(1, "declined,51"), refused(33))
                wanted("what the terminal gets next", one.ask(echo(7)), echoed(7))
            host.end()
        wanted("the clearing file", book.cleared(), HEADING)


def answers_again(program):
    """The same answer is well each time, and another one is refused."""
    with Book(program) as book:
        with GatewayHost(book) as host, host.gateway() as gateway, host.terminal(sale()) as one:
            wanted_query(gateway, sent=sale())
            gateway.settle()
            wanted("its reply", one.reply(), approved())
            for verdict, word in (
                ("approved,A1B2C3", done()), ("approved,A1B2C4", refused(35)),
                ("declined,51", refused(35)), ("none,", refused(35)), ("approved,A1B2C3", done()),
            ):
                wanted(f"the word on {verdict}", gateway.answer(1, verdict), word)
            one.send(sale(trace=2))
            wanted_query(gateway, row=2, reference=2, sent=sale(trace=2))
            for verdict, word in (
                ("declined,51", done(2)), ("declined,51", done(2)), ("declined,05", refused(35, 2)),
                ("approved,A1B2C3", refused(35, 2)),
            ):
                wanted(f"the word on {verdict}", gateway.answer(2, verdict), word)
            wanted("the code of the decline", code_of(one.reply()), "51")
            with host.gateway_again(gateway, 2) as again:
                wanted("on another connection", again.answer(), done())
            host.end()
        wanted("the clearing file", book.cleared(), cleared_sales([(1, 1, 1)]))


def answers_at_once(program):
    """Of answers that come in one piece each gets its word, in their order."""
    with Book(program, (1, 2)) as book:
        with GatewayHost(book) as host, host.gateway() as gateway, host.terminal(sale()) as one:
            wanted_query(gateway, sent=sale())
            with host.terminal(sale(2, 1)) as other:
                wanted_query(gateway, row=2, k=2, sent=sale(2, 1))
                lines = [answer(), answer(), answer(1, "declined,51"), answer(99, "none,"),
                         answer(k=2), answer(1, "none,", 2), answer()]
                gateway.end.sendall("".join(f"{it}\n" for it in lines).encode())
                wanted("the words on them", gateway.lines(len(lines)), [
                    done(), done(), refused(35), refused(34, 99), done(k=2), refused(35, k=2),
                    done()])
                wanted("the replies", [one.reply(), other.reply()], [approved(), approved(2)])
            host.end()
        wanted("the clearing file", book.cleared(), cleared_sales([(1, 1, 1), (2, 1, 1)]))


def answers_to_nothing(program):
    """A reference that the merchant hasn't given, and a merchant that isn't there."""
    with Book(program) as book:
        with GatewayHost(book) as host, host.gateway() as gateway:
            wanted("no such reference", gateway.answer(99), refused(34, 99))
            line = "answer,now,NOBODY,1,approved,A1B2C3"
            wanted("no such merchant", gateway.ask(line), f"refused,37,NOBODY         ,{1:012d}")
            line = f'answer,now,"{merchant(1)}",7,none,'
            wanted("in quotes, and a short reference", gateway.ask(line), refused(34, 7))
            host.end()


def a_name_with_a_comma(program):
    """A merchant's name with a comma and a quote stands in quotes, in both directions."""
    name, field = 'SHOES, B"GS    ', '"SHOES, B""GS    "'
    with Book(program, merchants=()) as book:
        lines = [f"enrol,{field},978,1,,", f"terminal,{field},TERM0001,,,"]
        book.output("replay", given="".join(f"{it}\n" for it in lines))
        with GatewayHost(book) as host, host.gateway() as gateway:
            with host.terminal(sale(e42=name)) as one:
                asked = gateway.query()
                wanted("the merchant of the query", asked["merchant"], name)
                line = f"answer,now,{field},{asked['reference']},approved,A1B2C3"
                wanted("the word on it", gateway.ask(line), f"done,{field},{1:012d}")
                wanted("its reply", one.reply(), approved(e42=name))
            host.end()


def bad_lines(program):
    """A line out of its form changes nothing and is told by its number; the connection goes on, and
    so does a request that waits."""
    lines = [
        "", "mark", "from", "from,", "from,x", "from,-1", "from,1,2", "FROM,0",
        f"answer,{MOMENT},{merchant(1)},1,approved,A1B2C3", answer().upper(),
        f"answer,now,{merchant(1)},1,approved,A1B2C", f"answer,now,{merchant(1)},1,approved,",
        f"answer,now,{merchant(1)},1,declined,00", f"answer,now,{merchant(1)},1,none,51",
        f"answer,now,{merchant(1)},1,approved", f"{answer()},", f"answer,now,{merchant(1)},x,none,",
        "cutover,now,,,,", "stop", "status", f"frame,now,{echo()[2:].hex()},,,",
        "enrol,NEW,978,1,,", "droprange,40000000,49999999,,,", "x" * 20000, "\x00", '"',
        f"answer,now,{merchant(1)}{'1' * 16000},1,none,",
    ]
    with Book(program) as book:
        with GatewayHost(book, control=True) as host, host.gateway() as gateway:
            with host.terminal(sale()) as one:
                wanted_query(gateway, sent=sale())
                for line in lines:
                    wanted(f"the word on {line[:60]!r}", gateway.ask(line),
                           f"acqd: 62 BadLine {gateway.sent}")
                wanted("whether it still waits", host.figures()[f"pending.{DAY}"], "1")
                gateway.send(answer(), end="\r\n")
                wanted("the word on an answer with CR LF", gateway.line(), done())
                wanted("its reply", one.reply(), approved())
            host.end()


def in_pieces(program):
    """Lines that come cut anywhere, and many at once, are read as they are."""
    chance = random.Random(8583)
    with Book(program, range(1, 7)) as book:
        with GatewayHost(book) as host, host.gateway() as gateway:
            ends = [host.terminal(sale(k, 1)) for k in range(1, 7)]
            for _ in ends:
                gateway.query()
            answers = "".join(f"{answer(1, 'approved,A1B2C3', k)}\r\n" for k in range(1, 7))
            while answers:
                n = chance.choice([1, 2, 3, 20, 200])
                gateway.end.sendall(answers[:n].encode("latin-1"))
                answers = answers[n:]
                time.sleep(0.001)
            wanted("the words on them", sorted(gateway.lines(6)), [done(1, k) for k in range(1, 7)])
            for k, end in enumerate(ends, 1):
                wanted("a reply", end.reply(), approved(k))
            host.end()


# Connections that end.


def cut_off_in_a_line(program):
    """A gateway that ends inside a line, and comes back: what it was asked comes again, without
    what the terminal sent, and its answer goes to the terminal that waits."""
    with Book(program) as book:
        with GatewayHost(book) as host, host.terminal() as one:
            with host.gateway() as gateway:
                one.send(sale())
                wanted_query(gateway, sent=sale())
                gateway.end.sendall(answer().encode()[:-3])
            with host.gateway() as again:
                wanted_query(again, "on another connection")
                wanted("what came so far", one.more(0), False)
                again.settle()
                wanted("its reply", one.reply(), approved())
            wanted("the host's status", host.process.poll(), None)
            host.end()
        wanted("the clearing file", book.cleared(), cleared_sales([(1, 1, 1)]))


def from_again(program):
    """`from` may be said again: it begins again, at any row."""
    with Book(program, (1, 2, 3)) as book:
        with GatewayHost(book) as host, host.gateway() as gateway:
            ends = [host.terminal(sale(k, 1)) for k in (1,)]
            wanted_query(gateway, sent=sale())
            for k in (2, 3):
                ends.append(host.terminal(sale(k, 1)))
                wanted_query(gateway, row=k, k=k, sent=sale(k, 1))
            for behind in (0, 1, 2, 3):
                gateway.send(f"from,{behind}")
                for k in range(behind + 1, 4):
                    wanted_query(gateway, f"behind {behind}", row=k, k=k)
            wanted("what comes behind the last", gateway.is_silent(), True)
            for k in (1, 2, 3):
                gateway.settle(1, "approved,A1B2C3", k)
            gateway.send("from,0")
            wanted("whether anything comes once all are answered", gateway.is_silent(), True)
            wanted("their replies", [it.reply() for it in ends], [approved(k) for k in (1, 2, 3)])
            host.end()


def no_from(program):
    """Before `from` nothing is streamed, and answers are taken."""
    with Book(program) as book:
        with GatewayHost(book) as host, host.gateway() as gateway, host.terminal(sale()) as one:
            wanted_query(gateway, sent=sale())
            gateway.close()
            with Gateway(host.gateway_path) as again:
                wanted("a line that is none", again.ask("mark"), "acqd: 62 BadLine 1")
                wanted("whether anything comes", again.is_silent(), True)
                again.settle()
                wanted("its reply", one.reply(), approved())
            host.end()


def a_long_list(program):
    """Thousands of rows are told in order. A gateway that reads none of them holds up no terminal,
    and a request comes behind them."""
    count, lines = 4000, []
    for it in range(1, count + 1):
        sold, back = sale(trace=it), reversal(trace=it, of=it)
        lines.append(f"frame,{MOMENT},{sold[2:].hex()},,,\n")
        lines.append(f"answer,{MOMENT},{merchant(1)},{it},approved,A1B2C3\n")
        lines.append(f"frame,{MOMENT},{back[2:].hex()},,,\n")
    with Book(program, (1, 2)) as book:
        book.output("replay", "--group", "1000", given="".join(lines))
        with GatewayHost(book) as host, Gateway(host.gateway_path) as gateway:
            gateway.send("from,0")
            with host.terminal() as one, host.terminal(sale(2, 1)) as other:
                for _ in range(20):
                    wanted("an echo beside it", one.is_served(), True)
                    time.sleep(0.05)
                wants = [advice(2 * it, "reversal", it) for it in range(1, count + 1)]
                for at, want in enumerate(wants, 1):
                    wanted(f"line {at}", gateway.line(), want)
                wanted_query(gateway, row=2 * count + 1, k=2, sent=sale(2, 1))
                gateway.settle(1, "approved,A1B2C3", 2)
                wanted("the reply", other.reply(), approved(2))
            host.end()


def told_of_none(program):
    """A gateway that asked for no rows is told of no request: it ends by the deadline, and comes as
    an advice. So does one that was answered `none`, over another connection."""
    with Book(program) as book:
        with GatewayHost(book, "--answer-within", "1") as host:
            with Gateway(host.gateway_path) as gateway, host.terminal() as one:
                wanted("a line that is none", gateway.ask("mark"), "acqd: 62 BadLine 1")
                wanted("its reply", one.ask(sale()), UNANSWERED)
                wanted("whether it is told", gateway.is_silent(), True)
                wanted("what comes of `from`", gateway.ask("from,0"), advice(1, "timeout"))
                one.send(sale(trace=2))
                wanted_query(gateway, row=2, reference=2, sent=sale(trace=2))
                gateway.settle(2, "none,")
                wanted("the code of the second", code_of(one.reply()), "91")
                wanted("whether its end is told", gateway.is_silent(), True)
            with host.gateway(1) as gateway:
                wanted("the advice", gateway.line(), advice(2, "timeout", 2))
            host.end()


def figures_of(host):
    """How many gateways are connected by its status, and how often rows were missing."""
    figures = host.figures()
    return figures["gateways"], figures["rows_missing_total"]


def rows_missing(program):
    """A `from` above the last row is told, also on standard error, in the log and by the status, and
    nothing is streamed until another."""
    with Book(program) as book:
        with GatewayHost(book, control=True, log=True) as host:
            with host.terminal() as one:
                wanted("its reply", one.ask(sale()), UNANSWERED)
            with Gateway(host.gateway_path) as gateway:
                wanted("the word on it", gateway.ask("from,2"), "acqd: 65 RowsMissing 1")
                host.fault_within("acqd: 65 RowsMissing 1")
                wanted("whether nothing comes", gateway.is_silent(), True)
                gateway.send("from,1")
                wanted("whether anything comes behind the last", gateway.is_silent(), True)
                wanted("what is far above", gateway.ask("from,999999999999"),
                       "acqd: 65 RowsMissing 1")
                wanted("what comes of 0", gateway.ask("from,0"), advice(1, "timeout"))
                wanted("what a status has of them", figures_of(host), ("1", "2"))
            when("a status has it still", lambda: figures_of(host) == ("0", "2"))
            host.end()
        told = [it for it in log_lines(host.log()) if it["event"] == "rows-missing"]
        for it in told:
            del it["time"]
        wanted("what the log has of them", told, [
            {"event": "rows-missing", "connection": "gateway-1", "fault": "65", "rows": "1"}] * 2)


def one_after_the_other(program):
    """A second gateway waits until the first is gone, and then has its place."""
    with Book(program, (1, 2)) as book:
        with GatewayHost(book) as host, host.terminal() as one, host.terminal() as other:
            with host.gateway() as first, Gateway(host.gateway_path) as second:
                second.send("from,0")
                second.send("mark")
                one.send(sale())
                wanted_query(first, sent=sale())
                wanted("whether the second hears of it", second.is_silent(), True)
                first.settle()
                wanted("its reply", one.reply(), approved())
                first.close()
                wanted("the second's turn", second.line(), "acqd: 62 BadLine 2")
                other.send(sale(2, 1))
                wanted_query(second, row=2, k=2, sent=sale(2, 1))
                second.settle(1, "approved,A1B2C3", 2)
                wanted("its reply", other.reply(), approved(2))
            host.end()


def a_cutover_meanwhile(program):
    """A request that is answered behind a cutover is of the day on which it came."""
    with Book(program) as book:
        with GatewayHost(book, control=True) as host, host.gateway() as gateway:
            with host.terminal(sale()) as one:
                wanted_query(gateway, sent=sale())
                wanted("the cutover", host.tell(f"cutover,{MOMENT},,,,"), "done\n")
                gateway.settle()
                wanted("its reply", one.reply(), approved())
                one.send(sale(trace=2))
                wanted_query(gateway, row=2, reference=2, sent=sale(trace=2))
                gateway.settle(2)
                wanted("a reply on the next day", one.reply(), approved(trace=2, e15="0502"))
            host.end()
        wanted("the clearing file", book.output("clearing", "--day", DAY),
               cleared_sales([(1, 1, 1)]))


def a_kill_between(program):
    """A host that is killed between request and answer: the query comes again from the next one,
    and a repeat gets the reply behind the answer."""
    with Book(program) as book:
        with GatewayHost(book) as host, host.gateway() as gateway, host.terminal(sale()):
            wanted_query(gateway, sent=sale())
            host.end(signal.SIGKILL)
        with GatewayHost(book) as host, host.gateway() as gateway, host.terminal() as one:
            wanted_query(gateway, "from the next host")
            one.send(sale(kind="0201") + echo(7))
            wanted("what comes behind a repeat", one.reply(), echoed(7))
            gateway.settle()
            wanted("a repeat behind the answer", one.ask(sale(kind="0201")), approved())
            host.end()
        wanted("the clearing file", book.cleared(), cleared_sales([(1, 1, 1)]))


def many_that_waited(program):
    """What waits from before a kill is asked again, and takes answers in one piece."""
    shops = range(1, 7)
    with Book(program, shops) as book:
        with GatewayHost(book) as host, host.gateway() as gateway:
            ends = [host.terminal(sale(k, 1)) for k in shops]
            for _ in ends:
                gateway.query()
            host.end(signal.SIGKILL)
        with GatewayHost(book) as host, host.gateway() as gateway:
            asked = [gateway.query() for _ in shops]
            wanted("the rows", [it["row"] for it in asked], [str(k) for k in shops])
            lines = [f"answer,now,{it['merchant']},1,approved,A1B2C3\n" for it in asked]
            gateway.end.sendall("".join(lines).encode())
            wanted("the words on them", gateway.lines(len(lines)),
                   [f"done,{it['merchant']},{1:012d}" for it in asked])
            host.end()
        wanted("what waits", book.output("pending"), "")
        wanted("the clearing file", book.cleared(), cleared_sales([(k, 1, 1) for k in shops]))


def ended_at_the_beginning(program):
    """With --end-waiting what waited is ended first, and how many there were is said."""
    for count, words in ((0, None), (1, "1 request"), (3, "3 requests")):
        with Book(program, (1, 2, 3)) as book:
            with GatewayHost(book) as host, host.gateway() as gateway:
                ends = [host.terminal(sale(k, 1)) for k in range(1, count + 1)]
                for _ in ends:
                    gateway.query()
                host.end(signal.SIGKILL)
            with GatewayHost(book, "--end-waiting") as host, host.gateway() as gateway:
                lines = [advice(row, "timeout", k=row) for row in range(1, count + 1)]
                wanted("the advices", gateway.lines(count), lines)
                wanted("what waits", host.faults(),
                       [f"acqd: ended {words} that waited"] if words else [])
                for k in range(1, count + 1):
                    with host.terminal() as one:
                        wanted("a repeat", one.ask(sale(k, 1, "0201")),
                               approved(k, e38=None, e39="91"))
                    wanted("an approval", gateway.answer(k=k), refused(35, k=k))
                host.end()
            wanted("what waits behind it", book.output("pending"), "")


# No gateway.


def nobody_asks(program):
    """With no gateway a request gets 91 at once, and the next gateway an advice."""
    with Book(program) as book:
        with GatewayHost(book) as host, host.terminal() as one:
            wanted("an echo", one.is_served(), True)
            begun = time.monotonic()
            wanted("its reply", one.ask(sale()), UNANSWERED)
            took(begun, 0, 5, "its reply")
            with host.gateway() as gateway:
                wanted("the advice", gateway.line(), advice(1, "timeout"))
            time.sleep(0.5)
            wanted("behind a gateway that is gone", code_of(one.ask(sale(trace=2))), "91")
            host.end()


def some_patience(program):
    """With --gateway-within a request waits so long for a gateway."""
    with Book(program) as book:
        with GatewayHost(book, "--gateway-within", "1") as host, host.terminal() as one:
            wanted("an echo", one.is_served(), True)
            begun = time.monotonic()
            wanted("its reply", one.ask(sale()), UNANSWERED)
            took(begun, 0.9, 20, "its reply")
            host.end()


def a_gateway_that_comes(program):
    """A gateway that comes within the time gets the request, with what the terminal sent, and
    answers it."""
    with Book(program) as book:
        with GatewayHost(book, "--gateway-within", "60", control=True) as host:
            with host.terminal(sale()) as one:
                when("nothing waits", lambda: host.figures()[f"pending.{DAY}"] == "1")
                wanted("what comes without a gateway", one.more(0.5), False)
                with host.gateway() as gateway:
                    wanted_query(gateway, sent=sale())
                    gateway.settle()
                    wanted("its reply", one.reply(), approved())
            host.end()


def bad_options(program):
    """`--issuers` beside `--gateway` is refused, and so is a socket that is taken."""
    with Book(program) as book:
        issuers = book.file("issuers.csv", APPROVING)
        words = ["--port", str(free_port()), "--gateway", f"{book.folder}/it"]
        status, out, _ = book.run("listen", *words, "--issuers", issuers)
        wanted("both", (status, out), (2, b""))
        with GatewayHost(book) as host, host.gateway(), Book(program) as second:
            words = ["--port", str(free_port()), "--gateway", host.gateway_path]
            wanted("a socket that is taken", second.run("listen", *words),
                   (1, b"", "acqd: 53 Read\n"))
            host.end()


# Advices.


def advices(program):
    """A line for each completion and each reversal, of each kind of original, whole or in part; on
    another connection they come again as they were, behind each row."""
    lines, row = [], 0
    with Book(program) as book:
        with GatewayHost(book) as host, host.gateway() as gateway, host.terminal() as one:
            reference = 0

            def ask(kind, **changes):
                nonlocal row, reference
                row, reference = row + 1, reference + 1
                one.send(sale(trace=row, kind=kind, **changes))
                gateway.query()
                gateway.settle(reference)
                wanted("its code", code_of(one.reply()), "00")
                return row, reference

            def advise(sent, what, of, **fields):
                nonlocal row
                row += 1
                accepted(one, sent)
                lines.append((row, advice(row, what, of, **fields)))
                wanted(f"the advice of row {row}", gateway.line(), lines[-1][1])

            for changes in ({}, {"e3": "200000"}):
                for left in (None, 400):
                    trace, of = ask("0200", **changes)
                    advise(reversal(trace=row + 1, of=trace, remains=left), "reversal", of,
                           amount=1000 - (left or 0), remains=left or 0)
            for left in (None, 400):
                trace, of = ask("0100")
                advise(reversal(trace=row + 1, of=trace, original="0100", remains=left), "reversal",
                       of, kind="authorization", amount=1000 - (left or 0), remains=left or 0)
                if left:
                    advise(completion(row + 1, of, 300), "completion", of, kind="authorization",
                           amount=300)
            for left in (None, 1):
                trace, of = ask("0100")
                advise(completion(row + 1, of, 700), "completion", of, kind="authorization",
                       amount=700)
                advise(reversal(trace=row + 1, of=row, original="0220", amount=700, remains=left),
                       "reversal", of, kind="completion", amount=700 - (left or 0),
                       remains=left or 0)
            # What is refused is told to nobody.
            wanted("a reversal again", code_of(one.ask(reversal(trace=90, of=1))), "21")
            wanted("a completion again", code_of(one.ask(completion(91, of))), "25")
            wanted("whether anything comes of them", gateway.is_silent(), True)
            gateway.close()
            for behind in (0, 1, 2, row // 2, row):
                with host.gateway(behind) as again:
                    wants = [line for at, line in lines if at > behind]
                    wanted(f"the advices behind {behind}", again.lines(len(wants)), wants)
                    wanted("whether more come", again.is_silent(0.2), True)
            host.end()


# Many at once.


class Issuer(threading.Thread):
    """A gateway that goes on until it is told to stop, and the issuers behind it: `decide` gives
    the verdict on a query, and how many seconds it takes. An answer that isn't confirmed is sent
    again over the next connection."""

    def __init__(self, path, decide):
        super().__init__(daemon=True)
        self.path, self.decide, self.stopped, self.wrong = path, decide, False, None
        self.last, self.open, self.due, self.gateway = 0, {}, [], None
        # Verdicts by merchant and reference; what the host said of them; what came as advices.
        self.verdicts, self.taken, self.refused, self.timeouts = {}, set(), set(), set()

    def behind(self):
        return min(self.open, default=self.last + 1) - 1

    def run(self):
        try:
            while not self.stopped:
                try:
                    with Gateway(self.path) as self.gateway:
                        self.talk()
                except OSError:
                    pass
        except Exception as wrong:  # the try that began it looks for this
            self.wrong = wrong

    def talk(self):
        self.gateway.send(f"from,{self.behind()}")
        for key in self.open.values():
            if key in self.verdicts:
                self.say(key)
        while not self.stopped:
            now = time.monotonic()
            for key in [key for at, key in self.due if at <= now]:
                self.say(key)
            self.due = [it for it in self.due if it[0] > now]
            if is_readable(self.gateway.end, 0.02) and not self.gateway.more(0):
                return
            while b"\n" in self.gateway.held:
                self.take(self.gateway.line())

    def cut(self):
        """Cuts the connection off; it makes another."""
        try:
            self.gateway.end.shutdown(socket.SHUT_RDWR)
        except OSError:  # it is gone already
            pass

    def say(self, key):
        self.gateway.send(f"answer,now,{key[0]},{key[1]},{self.verdicts[key]}")

    def take(self, line):
        word, *fields = fields_of(line)
        if word == "query":
            row, key = int(fields[0]), tuple(fields[1:3])
            self.last, self.open[row] = max(self.last, row), key
            if key in self.verdicts:
                self.say(key)
            else:
                self.verdicts[key], wait = self.decide(fields)
                self.due.append((time.monotonic() + wait, key))
        elif word == "advice":
            self.last = max(self.last, int(fields[0]))
            if fields[3] == "timeout":
                self.timeouts.add(tuple(fields[1:3]))
        elif word in ("done", "refused"):
            key = tuple(fields[-2:])
            (self.taken if word == "done" else self.refused).add(key)
            self.open = {row: it for row, it in self.open.items() if it != key}
        else:
            raise Wrong(f"the host says {line}")

    def finish(self):
        """Ends it once all that it was asked has an answer that was taken or refused."""
        when("an answer that is neither taken nor refused", lambda: self.wrong or not self.open)
        self.stopped = True
        self.join(PATIENCE)
        if self.wrong:
            raise self.wrong


def frames_of(k):
    return [*(sale(k, trace) for trace in range(1, 6)), sale(k, 3, "0201"), echo(k)]


def alone(program):
    """What the host alone says to each terminal."""
    with Book(program, range(TERMINALS)) as book:
        given = b"".join(it for k in range(TERMINALS) for it in frames_of(k))
        words = ["--issuers", book.file("issuers.csv", APPROVING), "--at", str(MOMENT)]
        replies = split_frames(book.output("once", *words, given=given).encode("latin-1"))[0]
    count = len(frames_of(0))
    return [replies[k * count :][:count] for k in range(TERMINALS)]


def sixty_four(program):
    """Terminals whose bytes are cut anywhere, beside two control connections and a gateway whose
    answers cross."""
    chance, wants = random.Random(8583), alone(program)
    words = ["--gateway-within", "60"]
    with Book(program, range(TERMINALS)) as book:
        with GatewayHost(book, *words, together=TERMINALS, control=True, log=True) as host:
            issuer = Issuer(host.gateway_path, lambda _: ("approved,A1B2C3", chance.uniform(0, .1)))
            issuer.start()
            ends = [host.terminal() for _ in range(TERMINALS)]
            controls = [host.control(chance), host.control(chance)]
            left, turns = {end: b"".join(frames_of(k)) for k, end in enumerate(ends)}, 0
            while any(left.values()):
                for end in chance.sample(ends, 4):
                    n = chance.choice([1, 3, 50, 300])
                    end.send(left[end][:n])
                    left[end] = left[end][n:]
                turns += 1
                if turns % 20 == 0:
                    line = f"enrol,NEW{turns},978,1,,"
                    wanted(line, controls[turns // 20 % 2].ask(line), "done")
            got = [split_frames(end.finish())[0] for end in ends]
            for k, frames in enumerate(got):
                wanted(f"replies to terminal {k}", frames, wants[k])
            issuer.finish()
            host.end()


class Shop(threading.Thread):
    """A terminal that sells until it is told to stop, and repeats a sale until it has a reply."""

    def __init__(self, host, k):
        super().__init__(daemon=True)
        self.host, self.k, self.stopped, self.replies, self.wrong = host, k, False, {}, None

    def run(self):
        trace = 0
        try:
            while not self.stopped:
                trace += 1
                self.sell(trace)
        except Exception as wrong:  # the try that began it looks for this
            self.wrong = wrong

    def sell(self, trace):
        kind, until = "0200", time.monotonic() + PATIENCE
        while time.monotonic() < until:
            try:
                with self.host.terminal() as one:
                    reply = one.ask(sale(self.k, trace, kind), 3 if kind == "0200" else 0.5)
            except OSError:
                reply = b""
            if len(reply) > 2:
                self.replies[trace] = elements_of(reply)
                return
            kind = "0201"
        raise Wrong(f"no reply to sale {trace} of shop {self.k}")


def kills(program):
    """A host is killed again and again, and its gateway cut off, beside shops that sell and issuers
    of which some are late. Each request ends. What a terminal saw approved is posted once, and
    nothing else is. Of each request that ended without an answer an advice came, and of each
    approval that isn't posted the gateway knows it."""
    chance, shops = random.Random(), range(1, 7)
    kinds = [("approved,A1B2C3", 0)] * 6 + [("declined,51", 0), ("approved,A1B2C3", 0.3),
                                            ("approved,A1B2C3", 1.3), ("declined,05", 1.3)]
    chance.shuffle(kinds)
    turns = itertools.cycle(kinds)
    with Book(program, shops) as book:
        words = ["--answer-within", "1", "--gateway-within", "60"]
        with GatewayHost(book, *words) as host:
            issuer = Issuer(host.gateway_path, lambda _: next(turns))
            all_shops = [Shop(host, k) for k in shops]
            for it in (issuer, *all_shops):
                it.start()
            for _ in range(KILLS):
                time.sleep(chance.uniform(0.02, 0.8))
                if chance.random() < 0.5:
                    issuer.cut()
                    time.sleep(chance.uniform(0, 0.3))
                host.end(signal.SIGKILL)
                host.begin()
            # They go on until each end of a request was there.
            for code in ("00", "51", "91"):
                when(f"no code {code}", lambda: code in {
                    it[39] for shop in all_shops for it in list(shop.replies.values())})
            time.sleep(2)
            for shop in all_shops:
                shop.stopped = True
            for shop in all_shops:
                shop.join(PATIENCE)
                if shop.wrong or shop.is_alive():
                    raise shop.wrong or Wrong(f"shop {shop.k} goes on")
            issuer.finish()
            host.end()
        wanted("what waits", book.output("pending"), "")
        posted = [tuple(it.split(",")[i] for i in (1, 5)) for it in book.cleared().splitlines()[1:]]
    wanted("what is posted twice", len(posted) - len(set(posted)), 0)
    seen = {(merchant(shop.k), it[37]): it[39] for shop in all_shops
            for it in shop.replies.values()}
    wanted("how many requests have a reply", len(seen), sum(len(it.replies) for it in all_shops))
    wanted("what is posted", set(posted), {key for key, code in seen.items() if code == "00"})
    approvals = {key for key, it in issuer.verdicts.items() if it.startswith("approved")}
    wanted("posted without an approval", set(posted) - approvals, set())
    wanted("posted, and refused to the gateway", set(posted) & issuer.refused, set())
    wanted("confirmed to the gateway, and not posted", (approvals & issuer.taken) - set(posted),
           set())
    wanted("ended without an answer, and not advised",
           {key for key, code in seen.items() if code == "91"} - issuer.timeouts, set())
    wanted("approvals that are lost", approvals - set(posted) - issuer.refused - issuer.timeouts,
           set())


# The examples.


class Example:
    """A script of `examples`, with what it prints."""

    def __init__(self, book, name, *words):
        self.path = f"{book.folder}/{name}.out"
        with open(self.path, "wb") as it:
            how = {"stdout": it, "stderr": subprocess.STDOUT, "stdin": subprocess.DEVNULL}
            words = [sys.executable, "-B", f"{EXAMPLES}/{name}", *map(str, words)]
            self.process = subprocess.Popen(words, **how)

    def __enter__(self):
        return self

    def __exit__(self, *_):
        self.process.kill()
        self.process.wait()

    def lines(self):
        with open(self.path, encoding="latin-1") as it:
            return it.read().splitlines()

    def prints(self, *lines):
        """Waits until it has printed so many lines, which have to be these."""
        when(f"{len(lines)} lines of {self.path}", lambda: len(self.lines()) >= len(lines))
        wanted(f"what {os.path.basename(self.path)} has", self.lines(), list(lines))


def the_example(program):
    """examples/gateway.py approves, declines, prints what is to be passed on, and keeps its row."""
    with Book(program) as book:
        kept = f"{book.folder}/kept"
        with GatewayHost(book, "--gateway-within", "60", "--answer-within", "3") as host:
            with Example(book, "gateway.py", host.gateway_path, kept) as example:
                with host.terminal() as one:
                    wanted("its reply", one.ask(sale()), approved(e38="000001"))
                    more = sale(trace=2, amount=10000)
                    wanted("the code of a greater one", code_of(one.ask(more)), "51")
                    accepted(one, reversal())
                    line = advice(3, "reversal").replace(CARD, "411111******1111")
                    example.prints(line)
                    example.process.send_signal(signal.SIGSTOP)
                    wanted("without its answer", code_of(one.ask(sale(trace=4))), "91")
                    example.process.send_signal(signal.SIGCONT)
                    late = advice(4, "timeout", 3).replace(CARD, "411111******1111")
                    name = f"{merchant(1)} {3:012d}"
                    when("its last lines", lambda: len(example.lines()) == 4)
                    wanted("what it prints", sorted(example.lines()), sorted([
                        line, late, f"reverse {name} if it was approved",
                        f"reverse {name}: refused with 35"]))
                    when("what it keeps", lambda: json.load(open(kept)) == [4, {}])
            host.end()
        with GatewayHost(book, "--gateway-within", "60") as host:
            with Example(book, "gateway.py", host.gateway_path, kept) as example:
                with host.terminal() as one:
                    wanted("its code", code_of(one.ask(sale(trace=7))), "00")
                wanted("what it prints of what it knew", example.lines(), [])
            host.end()


def the_iso_example(program):
    """examples/iso_gateway.py asks examples/iso_issuer.py, and passes all advices on."""
    port = free_port()
    with Book(program) as book:
        with GatewayHost(book, "--gateway-within", "60") as host:
            with Example(book, "iso_issuer.py", port) as issuer, \
                    Example(book, "iso_gateway.py", host.gateway_path, f"{book.folder}/kept", port):
                name = merchant(1)
                with host.terminal() as one:
                    wanted("its reply", one.ask(sale()), approved(e38="000001"))
                    wanted("a greater one", code_of(one.ask(sale(trace=2, amount=10000))), "51")
                    wanted("a hold", code_of(one.ask(sale(trace=3, kind="0100"))), "00")
                    accepted(one, completion(4, 3, 700))
                    accepted(one, reversal(trace=5, of=1, remains=400))
                    back = sale(trace=6, e3="200000")
                    wanted("a return", code_of(one.ask(back)), "00")
                issuer.prints(
                    f"0200 {name} {1:012d} 1000: 00", f"0200 {name} {2:012d} 10000: 51",
                    f"0100 {name} {3:012d} 1000: 00", f"0220 {name} {3:012d} 700: 00",
                    f"0420 {name} {1:012d} 1000, remains 400: 00", f"0200 {name} {4:012d} 1000: 00")
                when("what it keeps",
                     lambda: json.load(open(f"{book.folder}/kept")) == [6, {}])
            host.end()


def half_a_day(host, k, trace, reference):
    """What one shop does, from this trace and this reference on; it asks for five requests."""
    with host.terminal() as one:
        for at, (changes, code) in enumerate((
            ({"amount": 2500 + k}, "00"), ({"amount": 10000}, "51"), ({"kind": "0100"}, "00"),
            ({"amount": 700, "e3": "200000"}, "00"), ({}, "00"),
        )):
            asked = sale(k, trace + at, **changes)
            wanted(f"the code of {trace + at}", code_of(one.ask(asked)), code)
        accepted(one, completion(trace + 5, reference + 2, 900, k))
        accepted(one, reversal(k, trace + 6, trace, amount=2500 + k, remains=400))
        accepted(one, reversal(k, trace + 7, trace + 4))


def what_an_issuer_gave(lines):
    """By merchant and reference the money that an issuer gave and didn't take back."""
    given = {}
    for line in lines:
        said = re.fullmatch(r"(\d{4}) (.{15}) (\d{12}) (\d+)(?:, remains (\d+))?: (\d\d)", line)
        kind, name, reference, amount, remains, code = said.groups()
        if code == "00" and kind != "0100":
            given[name, reference] = int(remains or 0) if kind[1:3] == "42" else int(amount)
    return {key: amount for key, amount in given.items() if amount}


def what_was_posted(book):
    """By merchant and reference the money that the day's clearing file has."""
    posted = {}
    for it in csv.DictReader(book.cleared().splitlines()):
        key, sign = (it["merchant"], it["reference"]), 1 if it["leg"] == "debit" else -1
        posted[key] = posted.get(key, 0) + sign * int(it["amount"])
    return {key: abs(amount) for key, amount in posted.items() if amount}


def a_day_by_iso(program):
    """Two shops' day, whose issuer is asked by ISO 8583. In the midst of it the gateway begins
    again, and then the host. What the issuer gave in the end is what the clearing file has."""
    port, shops = free_port(), (1, 2)
    with Book(program, shops) as book, Example(book, "iso_issuer.py", port) as issuer:
        gateway = ["iso_gateway.py", f"{book.folder}/host.gateway", f"{book.folder}/kept", port]
        with GatewayHost(book, "--gateway-within", "60", control=True) as host:
            for turn, restart in enumerate(("gateway", "host", None)):
                with Example(book, *gateway), ThreadPoolExecutor(len(shops)) as at_once:
                    trace, reference = 1 + 8 * turn, 1 + 5 * turn
                    list(at_once.map(lambda k: half_a_day(host, k, trace, reference), shops))
                    if restart == "host":
                        host.tell("stop")
                        # It may have met the end of a gateway that was killed: 54.
                        wanted("the host's end", host.ends()[0], 0)
                        host.begin()
                    elif not restart:
                        done_with = [8 * len(shops) * (turn + 1), {}]
                        when("what the gateway keeps",
                             lambda: json.load(open(f"{book.folder}/kept")) == done_with)
            host.end()
        wanted("what waits", book.output("pending"), "")
        posted = what_was_posted(book)
        wanted("how many requests have money in the end", len(posted), 3 * 3 * len(shops))
        wanted("what the issuer gave", what_an_issuer_gave(issuer.lines()), posted)


if __name__ == "__main__":
    sys.exit(main([
        an_approval, a_decline, lines_of_each_kind, the_message_itself, crossed_answers,
        two_from_one_terminal, a_terminal_that_goes, beside_a_control_connection,
        a_stop_waits, behind_the_deadline, behind_the_reversal, answers_again,
        answers_at_once, answers_to_nothing, a_name_with_a_comma, bad_lines, in_pieces,
        cut_off_in_a_line, from_again, no_from, a_long_list, told_of_none, rows_missing,
        one_after_the_other, a_cutover_meanwhile, a_kill_between, many_that_waited,
        ended_at_the_beginning, nobody_asks, some_patience, a_gateway_that_comes,
        bad_options, advices, sixty_four, kills, the_example, the_iso_example,
        a_day_by_iso,
    ], at_once=6))
