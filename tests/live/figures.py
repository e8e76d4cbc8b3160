#!/usr/bin/env python3
"""figures.py PROGRAM: what the status and the metrics of a host count beside real terminals."""
import json
import os
import re
import subprocess
import sys
import time

from terminal import (
    APPROVING, BAD, CARD, DECLINED, ECHO, PATIENCE, REPLY, UNKNOWN, Book, Host, Wrong, approved,
    code_of, frame, log_lines, main, message, request, sale, wanted,
)

# What a status says behind `scripted`; docs/FORMATS.md, "Status", says what each figure is.
CONNECTIONS = {
    "places": 8,
    "open_places": 6,
    "connections_total": 5,
    "refused_frames_total": 2,
    "requests_today": 4,
    "pending.2024-05-01": 1,
}
# Codes of the replies: 00 to the echoes, the sale, its repeat and the reversal, 03 to the other.
REPLIES = {"replies_total.00": 5, "replies_total.03": 1}
# Lines of control connections are counted apart: all that were answered before the one that asks.
MESSAGES = {
    "events_total": 6,
    "lines_total": 5,
    "unanswered_unserved_total": 1,
    "unanswered_waiting_total": 2,
    "unanswered_late_total": 1,
    "log_lines_lost_total": 0,
}
# What the log says of the messages that got no reply, in their order.
WHY = ["unserved", "waiting", "waiting", "late"]
# How long nobody talks, in seconds.
SILENCE = 3
# The bounds of the buckets of durations, in seconds.
BOUNDS = ("0.001", "0.002", "0.005", "0.01", "0.02", "0.05", "0.1", "0.5", "1", "5")
# A card whose issuer declines with two blanks, and a number that is none of a card.
SPACES, NO_CARD = "5105105105105100", "4111111111111112"


def scripted(host, control):
    """Two terminals talk and stay, two others fail, and one leaves."""
    first, second = host.terminal(), host.terminal()
    wanted("an echo", first.ask(ECHO), REPLY)
    wanted("a sale", first.ask(sale(1, 1)), approved(1, 1))
    wanted("its repeat", first.ask(sale(1, 1, "0201")), approved(1, 1))
    wanted("a sale of a merchant that isn't enrolled", code_of(second.ask(sale(9, 1))), "03")
    # Sales that come over the control socket wait for their issuer; one of them is reversed then.
    for trace in (2, 3):
        wanted("a line", control.ask(f"frame,now,{sale(1, trace)[2:].hex()},,,"),
               f"ask MERCHANT0000001 {trace:012d} 411111******1111 1000 12345")
    first.send(message("0600", {7: "0501093000", 11: "000004"}) + sale(1, 2) + sale(1, 2, "0201"))
    reversal = request("0400", 1, 5, {4: f"{1000:012d}", 90: f"02000000030501093000{'0' * 22}"})
    wanted("a reversal", code_of(first.ask(reversal)), "00")
    first.send(sale(1, 3))
    wanted("an echo behind them", first.ask(ECHO), REPLY)
    for bad in (BAD, frame("02")):
        with host.terminal(bad) as terminal:
            wanted("a reply to a bad frame", terminal.rest(), b"")
    with host.terminal() as leaves:
        wanted("what comes to one that leaves", leaves.finish(), b"")
    wanted("a line", control.ask("clearing,2024-05-01"), "acqd: 60 DayNotOver")
    wanted("a line", control.ask("nothing"), f"acqd: 62 BadLine {len(control.words)}")
    return first, second


def status(control):
    lines = (it.split(" ", 1) for it in control.ask("status").decode().splitlines())
    return {key: int(it) if it.isdigit() else it for key, it in lines}


def metrics(control):
    lines = control.ask("metrics").decode().splitlines()
    return {key: float(it) for key, it in (it.rsplit(" ", 1) for it in lines if it[0] != "#")}


def chosen(figures, keys):
    return {it: figures.get(it) for it in keys}


def metric(key):
    label = "code" if key.startswith("replies") else "day"
    return "acqd_" + re.sub(r"\.(.*)", rf'{{{label}="\1"}}', key)


def counts(program, figures):
    """These figures before a terminal came and behind what terminals did; metrics say the same."""
    none_yet = {it: 0 for it in figures if it.endswith("_total") or it.startswith("pending")}
    none_yet |= {it: figures["places"] for it in figures if it.endswith("places")}
    with Book(program) as book, Host(book, "--together", "8", control=True, log=True) as host:
        control = host.control()
        first = status(control)
        wanted("figures of a new host", chosen(first, none_yet), none_yet)
        wanted("the age of no event", first.get("last_event_age_seconds"), None)
        kept = scripted(host, control)
        lines = len(control.words)
        # A connection with a bad frame holds its place until both sides have closed it.
        until = time.monotonic() + PATIENCE
        while status(control)["open_places"] != CONNECTIONS["open_places"]:
            if time.monotonic() > until:
                break
            time.sleep(0.1)
        more = {"lines_total": len(control.words) - lines}
        wants = {key: it + more.get(key, 0) for key, it in figures.items()}
        wanted("figures", chosen(status(control), wants), wants)
        more = {"lines_total": len(control.words) - lines}
        wants = {metric(key): it + more.get(key, 0) for key, it in figures.items()}
        wanted("metrics", chosen(metrics(control), wants), wants)
        for it in kept:
            wanted("a terminal that stayed", it.is_served(), True)


def starting_with(figures, begin):
    return {key: it for key, it in figures.items() if key.startswith(begin)}


def connections(program):
    counts(program, CONNECTIONS)


def messages(program):
    counts(program, MESSAGES)


def replies(program):
    counts(program, REPLIES)


def codes(program):
    """Each code of two digits is counted for itself, in ascending order, and any other with the
    others; none that wasn't given has a line."""
    issuers = APPROVING + f"{DECLINED},declined,N7\n{SPACES},declined,  \n"
    with Book(program) as book, Host(book, control=True, issuers=issuers) as host:
        wanted("replies before a terminal came", starting_with(host.figures(), "replies"), {})
        text = host.tell("metrics").splitlines()
        for kind, name in (("counter", "replies_total"), ("histogram", "reply_seconds")):
            wanted("lines about a figure", f"# TYPE acqd_{name} {kind}" in text, True)
        wanted("lines with a code", [it for it in text if it.startswith("acqd_replies")], [])
        cards = [UNKNOWN, DECLINED, CARD, NO_CARD, SPACES, CARD, UNKNOWN, DECLINED]
        sent = [sale(1, trace, card=card) for trace, card in enumerate(cards, 1)] + [ECHO]
        with host.terminal() as terminal:
            came = [code_of(terminal.ask(it)) for it in sent]
        wanted("codes", came, ["91", "N7", "00", "14", "  ", "00", "91", "N7", "00"])
        wants = {"00": 3, "14": 1, "91": 2, "other": 3}
        lines = [it for it in host.tell("status").splitlines() if it.startswith("replies")]
        wanted("codes in a status", lines, [f"replies_total.{k} {n}" for k, n in wants.items()])
        lines = [it for it in host.tell("metrics").splitlines() if it.startswith("acqd_replies")]
        told = [f'acqd_replies_total{{code="{k}"}} {n}' for k, n in wants.items()]
        wanted("codes in metrics", lines, told)


def histogram(host):
    """The buckets, and the sum and the count behind them."""
    lines = host.tell("metrics").splitlines()
    found = [it.rsplit(" ", 1) for it in lines if it.startswith("acqd_reply_seconds")]
    wants = [f'acqd_reply_seconds_bucket{{le="{it}"}}' for it in (*BOUNDS, "+Inf")]
    names = [*wants, "acqd_reply_seconds_sum", "acqd_reply_seconds_count"]
    wanted("names of a histogram", [it[0] for it in found], names)
    return [int(it[1]) for it in found[:-2]], found[-2][1], int(found[-1][1])


def histogram_of(durations):
    """What it has to be of replies that took so many microseconds."""
    within = [sum(it <= round(float(bound) * 1000000) for it in durations) for bound in BOUNDS]
    total = sum(durations)
    told = f"{total // 1000000}.{total % 1000000:06d}"
    return [*within, len(durations)], told, len(durations)


def durations(program):
    """The histogram has what the log calls `total_microseconds`, of replies that had to wait for
    those before them, too."""
    with Book(program) as book, Host(book, "--together", "8", control=True, log=True) as host:
        wanted("a histogram of no replies", histogram(host), histogram_of([]))
        with host.terminal(b"".join(sale(1, trace) for trace in range(1, 101))) as terminal:
            for trace in range(1, 101):
                wanted("a sale", terminal.reply(), approved(1, trace))
        lines = [it for it in log_lines(host.log()) if it["event"] == "reply"]
        took = [int(it["total_microseconds"]) for it in lines]
        came = histogram(host)
        wanted("a histogram", came, histogram_of(took))
        wanted("replies in a histogram", came[2], 100)
        if came[0][0] == came[0][-1]:
            raise Wrong(f"a hundred sales at once didn't wait for each other: {came}")


def durations_without_a_log(program):
    """They are counted all the same, and a reply that is read late took no longer for that."""
    with Book(program) as book, Host(book, "--together", "8", control=True) as host:
        with host.terminal() as terminal:
            for _ in range(3):
                wanted("an echo", terminal.ask(ECHO), REPLY)
            terminal.send(ECHO)
            terminal.has_come()
            time.sleep(SILENCE)
            wanted("an echo that is read late", terminal.reply(), REPLY)
        within, seconds, count = histogram(host)
        wanted("replies in a histogram", (within[-1], count), (4, 4))
        if not 0 < float(seconds) < SILENCE:
            raise Wrong(f"four echoes took {seconds} seconds")


def sizes_of(path):
    """How many bytes a book's files have."""
    wal = path + "-wal"
    sizes = os.path.getsize(path), os.path.getsize(wal) if os.path.exists(wal) else 0
    return {"book_bytes": str(sizes[0]), "wal_bytes": str(sizes[1])}


def sizes(program):
    """Those of the book's file and its WAL file, where a link leads, too; and of a file that isn't
    there nothing is told."""
    def told(host):
        return {key: it for key, it in host.figures().items() if key.endswith("_bytes")}

    with Book(program) as book:
        path = book.path
        for first, named in ((1, path), (11, f"{book.folder}/link.db")):
            if named != path:
                os.symlink(path, named)
            book.path = named
            with Host(book, "--together", "8", control=True) as host, host.terminal() as terminal:
                wanted("sizes", told(host), sizes_of(path))
                before = sizes_of(path)
                for trace in range(first, first + 5):
                    wanted("a sale", code_of(terminal.ask(sale(1, trace))), "00")
                wanted("sizes behind sales", told(host), sizes_of(path))
                wanted("whether sales make them larger", sizes_of(path) != before, True)
                given = {f"acqd_{key}": float(it) for key, it in sizes_of(path).items()}
                wanted("sizes in metrics", chosen(metrics(host.control()), given), given)
                os.rename(path, path + ".away")
                os.rename(path + "-wal", path + "-wal.away")
                wanted("sizes of what is away", told(host), {"wal_bytes": "0"})
                os.rename(path + "-wal.away", path + "-wal")
                os.rename(path + ".away", path)
                wanted("sizes", told(host), sizes_of(path))
                host.end()


# Prints what Prometheus's own parser makes of a text, or ends with 3 if there is none.
PARSER = """import json, sys
try:
    from prometheus_client.parser import text_string_to_metric_families as families_of
except ImportError:
    sys.exit(3)
print(json.dumps([
    [it.name, it.type, it.documentation, [[one.name, one.labels, one.value] for one in it.samples]]
    for it in families_of(sys.stdin.read())
]))
"""


def parsed(text):
    """The families of a text by Prometheus's own parser, if a Python of this machine has it."""
    for python in (sys.executable, "/usr/bin/python3"):
        if os.path.exists(python):
            ran = subprocess.run([python, "-c", PARSER], input=text.encode(), capture_output=True,
                                 check=False)
            if ran.returncode != 3:
                wanted("the end of Prometheus's parser", (ran.returncode, ran.stderr), (0, b""))
                return json.loads(ran.stdout)
    return None


def parser(program):
    """Prometheus's parser reads all of the metrics: each line is a sample of a family with a help
    and a type."""
    with Book(program) as book, Host(book, "--together", "8", control=True, log=True) as host:
        kept = scripted(host, host.control())
        text = host.tell("metrics")
        families = parsed(text)
        if families is None:
            print("figures: no Python here has prometheus_client, so its parser reads no metrics")
            return
        lines = text.splitlines()
        abouts = [it.split(" ", 3)[1:] for it in lines if it.startswith("# ")]
        about = [(name, kind, said) for (_, name, said), (_, _, kind) in zip(*[iter(abouts)] * 2)]
        # A family of counters has its name without the end.
        own = [(it[0] + "_total" * (it[1] == "counter"), it[1], it[2]) for it in families]
        wanted("families", own, about)
        samples = [[one, labels, it] for *_, found in families for one, labels, it in found]
        given = [it.rsplit(" ", 1) for it in lines if not it.startswith("# ")]
        labelled = [
            [key.split("{")[0], dict(re.findall(r'([a-z]+)="([^"]*)"', key)), float(it)]
            for key, it in given
        ]
        wanted("samples", samples, labelled)
        kinds = {it[0]: it[1] for it in families}
        wanted("a histogram's type", kinds.get("acqd_reply_seconds"), "histogram")
        wanted("a counter's type", kinds.get("acqd_replies"), "counter")
        for it in kept:
            it.end.close()


def messages_without_a_reply(program):
    """The log has a line for each, which says why."""
    with Book(program) as book, Host(book, "--together", "8", control=True, log=True) as host:
        kept = scripted(host, host.control())
        said = [it.get("why") for it in log_lines(host.log()) if it["event"] == "unanswered"]
        wanted("messages without a reply in the log", said, WHY)
        for it in kept:
            it.end.close()


def the_age(program):
    """The last event is a terminal's last message, however often a status is asked for."""
    with Book(program) as book, Host(book, "--together", "8", control=True) as host:
        control, terminal = host.control(), host.terminal()
        began = time.monotonic()
        wanted("an echo", terminal.ask(ECHO), REPLY)
        answered = time.monotonic()
        while time.monotonic() < answered + SILENCE:
            status(control)
            time.sleep(0.2)
        age, most = status(control)["last_event_age_seconds"], time.monotonic() - began
        if not SILENCE <= age <= most:
            raise Wrong(f"the age of an event is {age} seconds, not {SILENCE} to {most:.1f}")


TRIES = [
    connections, messages, replies, messages_without_a_reply, the_age, codes, durations,
    durations_without_a_log, sizes, parser,
]

if __name__ == "__main__":
    sys.exit(main(TRIES))
