#!/usr/bin/env python3
"""run.py PROGRAM: runs each live script over `acqd` beside this file, which does one thing wrong:
the script has to fail, with a line that names the difference. Once it does nothing wrong, and then
the script has to pass."""
import concurrent.futures
import os
import subprocess
import sys

HERE = os.path.dirname(os.path.abspath(__file__))
LIVE = f"{os.path.dirname(HERE)}/live"
# A script and what it is given behind PROGRAM, small, with each fault and what the line has then.
SCRIPTS = [
    ("answers as_the_file_says", [
        ("reply 3", "replies by the issuers' file"),
        ("lost 1", "replies by the issuers' file"),
        ("text clearing", "the clearing file"),
    ]),
    ("answers no_issuers a_cut_reply", [
        ("reply 1", "a reply without --issuers"),
        ("reply 2", "the reply to a repeat"),
        ("text clearing", "the clearing file"),
    ]),
    ("answers the_moment", [("reply 1", "a hold"), ("text holds", "a hold of")]),
    ("answers a_full_day", [("reply 3", "replies within the limit and past it")]),
    ("issuers others_go_on one_that_goes", [
        ("reply 2", "a reply to another"),
        ("lost 2", "a reply to another"),
        ("text clearing", "the clearing file"),
    ]),
    ("gateway crossed_answers an_approval", [
        ("reply 2", "the message behind it"),
        ("lost 1", "an echo meanwhile"),
        ("text clearing", "the clearing file"),
    ]),
    ("ask sales", [
        ("reply 3", "what is shown of sales"),
        ("lost 1", "what is shown of sales"),
        ("text ask", "what is shown of sales"),
    ]),
    ("ask repeat 20", [("lost 5", "how it ended"), ("text clearing", "the day's sales")]),
    ("limits who_talks_stays", [("reply 3", "who talks"), ("lost 3", "who talks")]),
    ("limits silence", [("open", "is there after")]),
    ("limits a_place_each 12", [("reply 2", "reply 2 to terminal 0")]),
    ("places who_has_sold who_sold_long_ago", [
        ("reply 1", "the reply to one that sold"),
        ("lost 2", "those that sold"),
        ("open", "is there after"),
    ]),
    ("logs masks", [
        ("reply 5", "the reply to 0420"),
        ("log card=411111[*]{6}1111", "cards in the log"),
        ("log currency", "reasons in the log"),
    ]),
    ("logs a_restart times", [("log time=20", "log")]),
    ("figures connections", [("reply 1", "an echo"), ("lost 2", "a sale")]),
    ("page figures metrics", [
        ("text status", "figures"),
        ("text metrics", "metrics"),
        ("reply 1", "a sale"),
    ]),
    ("page beside_hostile_ones 20", [("reply 3", "an echo"), ("lost 3", "an echo")]),
    ("together 6", [("reply 4", "replies to terminal"), ("lost 5", "replies to terminal")]),
    ("clients a_reset another_address", [("reply 1", "terminals"), ("lost 1", "terminals")]),
    ("control tell_answers", [("text enrol,TOLD", "lines that are told")]),
    ("control a_file_in_slices", [
        ("reply 3", "the reply to an echo"),
        ("text clearing", "the file beside"),
    ]),
    ("control found_in_slices", [("text find", "the file beside")]),
    ("control stated_in_slices", [("text statement", "the file beside")]),
    ("control reported_in_slices", [("text report", "the file beside")]),
    ("control a_day 5", [
        ("reply 4", "replies to terminal"),
        # A day of few terminals may be cleared before its first sale.
        ("text report,", "told report"),
        ("log card=411111[*]{6}1111", "digits of a card in the log"),
    ]),
    ("examples", [
        ("reply 1", "what the block at line"),
        ("text clearing", "what the block at line"),
    ]),
    ("help", [("text help listen", "the text listen.txt"), ("text show --help", "show --help")]),
    ("clone help_at_once before_the_proof", [
        ("text report --help", "acqd report --help"),
        ("text once", "an echo test"),
    ]),
    ("units started_and_stopped a_backup", [
        ("reply 1", "the reply to a sale"),
        ("lost 1", "the reply to a sale"),
    ]),
    ("making 20", [
        ("text make", "what was shown, made again"),
        ("text show", "what was shown, made again"),
    ]),
    ("json_messages 20", [
        ("text show", "messages as JSON"),
        ("text make", "messages of JSON"),
    ]),
    ("explaining now", [("text explain", "a completion now")]),
    ("explaining by_control", [("text explain,", "what a host would say")]),
    ("merchants 2", [("text replay", "what a day comes to")]),
    ("migration", [("text replay", "the kiosk"), ("text clearing", "the clearing file")]),
    ("files one_file rows_changed", [("text replay", "the database alone")]),
    ("owed 20", [("text report", "what is owed"), ("text statement", "what it says is owed")]),
    ("audit other_events", [("text audit", "more.csv")]),
    ("ranges lists 40", [
        ("text list", "the book's ranges"),
        ("text ranges", "the lines at another host"),
    ]),
    ("ranges hosts", [("text list,ranges", "the host's ranges")]),
    ("sums asked_for", [("text statement", "what the shop is owed")]),
    ("foreign version_one", [("text replay", "the day's first lines")]),
    ("file_stops modes_and_links", [("text replay", "a book behind a link: the day")]),
    ("operating a_moved_log a_flood", [("reply 1", "the reply to sale 1"), ("lost 2", "replies")]),
    ("failing_calls a_cut_reply a_reply_before_more", [
        ("reply 1", "ten bytes of a reply"),
        ("text once", "a_reply_before_more: reply 0"),
    ]),
    ("failing_calls reads_that_fail", [
        ("reply 2", "replies of the first day, sent again"),
        ("lost 4", "replies of the first day, sent again"),
    ]),
    ("failing_calls writes_that_fail 5", [
        ("reply 1", "replies of the first day, sent again"),
        ("lost 2", "replies of the first day, sent again"),
    ]),
    ("clocks moments", [
        ("text pending", "the moment of a command"),
        ("text pending,", "the moment of a line"),
    ]),
    ("causes connections", [("reply 1", "a reply"), ("lost 1", "a reply")]),
    ("stops 1", [
        ("reply 1", "the reply to sale"),
        ("text clearing", "the sales that are cleared"),
    ]),
]


def said(program, script, fault):
    """The status and the line of a script over the program with this fault."""
    name, *words = script.split(" ")
    variables = {**os.environ, "ACQD_RIGHT": program, "ACQD_WRONG": fault}
    if fault:
        variables["LIVE_PATIENCE"] = "8"
    words = [sys.executable, f"{LIVE}/{name}.py", f"{HERE}/acqd", *words]
    ran = subprocess.run(words, env=variables, capture_output=True, text=True, timeout=600)
    return ran.returncode, ran.stdout + ran.stderr


def is_right(line, status, text):
    """Whether a script passed, or failed by this line, if there is one."""
    return status == (0 if line is None else 1) and (line or "") in text


def main(program):
    tries = [(script, *it) for script, faults in SCRIPTS for it in [("", None), *faults]]
    with concurrent.futures.ThreadPoolExecutor(6) as pool:
        results = list(pool.map(lambda it: said(program, *it[:2]), tries))
    wrong = 0
    for (script, fault, line), (status, text) in zip(tries, results):
        if not is_right(line, status, text):
            # Scripts count seconds, and one that runs beside five others may be late: alone it isn't.
            status, text = said(program, script, fault)
        if not is_right(line, status, text):
            wrong += 1
            print(f"{script}, with {fault or 'no fault'}: status {status}, {text[:600]!r}")
    count = sum(len(it[1]) for it in SCRIPTS)
    print(f"wrong: {len(SCRIPTS)} scripts, {count} faults, {wrong} not as they have to be")
    return 1 if wrong else 0


if __name__ == "__main__":
    sys.exit(main(os.path.abspath(sys.argv[1])))
