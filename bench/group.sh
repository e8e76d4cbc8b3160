#!/bin/sh
# Times events that `acqd replay --db` takes in groups over a file, on this disk, on a disk whose syncs
# take three milliseconds (a small library waits before each), and over a file in memory, in groups of 1,
# 8, 64 and 1,000 in turn, three rounds; and beside each a plain C program that does the same statements
# over the system's SQLite in the same groups, where there are a C compiler and SQLite for it. The lines
# of `acqd` are checked in each run, and the files of both must hold the same rows. An open isn't timed:
# it is a run with no events.
# With a folder as its argument, all lies and stays there; a second argument says how many sales.
set -eu
unset CDPATH
top=$(cd "$(dirname "$0")/.." && pwd)
if [ $# -gt 0 ]; then
    mkdir -p "$1"
    work=$(cd "$1" && pwd)
else
    work=$(mktemp -d)
    trap 'rm -rf "$work"' EXIT
fi
program=${ACQD:-$top/crates/acqd/out/acqd}
[ -x "$program" ] || "$top/acqd" build
cc -O2 -shared -fPIC -o "$work/slow.so" "$top/bench/sql/slow.c" -ldl
cc -O2 -o "$work/plain" "$top/bench/sql/plain.c" -lsqlite3 2>"$work/log" ||
    { rm -f "$work/plain"; echo "no SQLite for C programs: acqd alone is timed"; }
python3 - "$program" "$work" "${2:-4000}" <<'PY'
import os, resource, sqlite3, subprocess, sys, time
acqd, work, sales = sys.argv[1], sys.argv[2], int(sys.argv[3])
MIDNIGHT, MERCHANTS, GROUPS, ROUNDS = 1714521600, 64, (1, 8, 64, 1000), 3
plain = work + "/plain" if os.path.exists(work + "/plain") else None

events, wanted = [], []
events.append("addrange,40000000,49999999,12345,7,\n")
for merchant in range(MERCHANTS):
    events.append(f"enrol,MERCHANT{merchant:07},978,1,,\n")
    events.append(f"terminal,MERCHANT{merchant:07},TERM0001,,,\n")
wanted += ["done\n"] * len(events)
setup = len(events)
for sale in range(sales):
    second = sale // 1000
    merchant, reference = f"MERCHANT{sale % MERCHANTS:07}", sale // MERCHANTS + 1
    said = f"1641111111111111110000000000000010000501{second // 3600:02}{second // 60 % 60:02}" \
           f"{second % 60:02}{sale % 1000000:06}"
    request = f"02007220000000C08000{said}TERM0001{merchant}978"
    events.append(f"frame,{MIDNIGHT + second},{request.encode().hex()},,,\n")
    events.append(f"answer,{MIDNIGHT + second},{merchant},{reference},approved,A1B2C3\n")
    wanted.append(f"ask {merchant} {reference:012} 411111******1111 1000 12345\n")
    wanted.append(f"reply 0210722200000EC08000{said}0501{reference:012}A1B2C300TERM0001{merchant}978\n")
count, day, wanted = len(events), "".join(events).encode(), "".join(wanted).encode()


def remove(path):
    for end in ("", "-wal", "-shm"):
        if os.path.exists(path + end):
            os.remove(path + end)


def run(words, given, slow):
    """Seconds and processor seconds of a run, and what it wrote."""
    before, start = resource.getrusage(resource.RUSAGE_CHILDREN), time.perf_counter()
    preloaded = {**os.environ, "LD_PRELOAD": work + "/slow.so"} if slow else None
    ran = subprocess.run(words, input=given, stdout=subprocess.PIPE, check=True, env=preloaded)
    took, after = time.perf_counter() - start, resource.getrusage(resource.RUSAGE_CHILDREN)
    processor = after.ru_utime + after.ru_stime - before.ru_utime - before.ru_stime
    return took, processor, ran.stdout


def acqd_in(path, group, slow):
    """The same of the events, in groups, over a new book."""
    remove(path)
    subprocess.run([acqd, "init", "--db", path, "--limit", "999999", "--day", "2024-05-01"], check=True)
    took, processor, said = run([acqd, "replay", "--db", path, "--group", str(group)], day, slow)
    if said != wanted:
        sys.exit(f"acqd wrote other lines, in groups of {group}")
    return took, processor


def plain_in(path, group, slow):
    remove(path)
    return run([plain, "--group", str(group), path], day, slow)[:2]


def rows(path):
    database = sqlite3.connect(path)
    tables = [name for name, in database.execute("SELECT name FROM sqlite_schema WHERE type = 'table'")]
    return {name: sorted(database.execute(f"SELECT * FROM {name}"), key=repr) for name in sorted(tables)}


ram = ("/dev/shm" if os.path.isdir("/dev/shm") else work) + f"/group-bench-{os.getpid()}"
print(f"{count:,} events: {sales:,} sales with their answers of {MERCHANTS} merchants, behind {setup}")
for where, path, slow in (("this disk", work + "/book", False), ("a sync takes 3 ms", ram, True),
                          ("a file in memory", ram, False)):
    took = {}
    for _ in range(ROUNDS):
        for group in GROUPS:
            took.setdefault(("acqd", group), []).append(acqd_in(path + ".acqd", group, slow))
            if plain:
                took.setdefault(("C", group), []).append(plain_in(path + ".plain", group, slow))
                if rows(path + ".acqd") != rows(path + ".plain"):
                    sys.exit("the two files hold other rows")
    for name in ("acqd", "C") if plain else ("acqd",):
        alone = min(it for it, _ in took[name, 1])
        for group in GROUPS:
            real, processor = (min(it[at] for it in took[name, group]) for at in (0, 1))
            beside = min(it[1] for it in took["C", group]) if plain else None
            ratio = f", {processor / beside:.2f} times C's" if plain and name == "acqd" else ""
            print(f"{where}, {name}, groups of {group}: {count / real:,.0f} events a second, "
                  f"{alone / real:.2f} times those one by one; {processor / count * 1e6:.0f} us of the "
                  f"processor an event{ratio}")
    for end in (".acqd", ".plain"):
        remove(path + end)
PY
