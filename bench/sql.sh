#!/bin/sh
# Times a book in SQL, on one core: events that `acqd replay --db` takes over a file, and that a host
# takes over a book in memory and over a file in memory, beside a plain C program that does the same
# statements over the system's SQLite, where there are a C compiler and SQLite for it; how much more an
# event costs at 1,000,000 recorded requests than at 1,000; how long a book of 100,000 requests takes to
# open, and one of 20,000 refused requests of one merchant beside one of as many approved sales.
# The lines of `acqd` are checked, and the two files must hold the same rows.
# It needs some 3 GB of memory, and as much in the folder for temporary files, whose disk it measures.
# With a folder as its argument, all lies and stays there.
set -eu
unset CDPATH
top=$(cd "$(dirname "$0")/.." && pwd)
if [ $# -gt 0 ]; then
    mkdir -p "$1"
    work=$(cd "$1" && pwd)
else
    work=$(mktemp -d)
    trap 'rm -rf "$work"' EXIT
fi
"$top/acqd" build
# The program for memory is a crate in a repository of its own, over the libraries that were proved for
# acqd.
mkdir -p "$work/crates/sql_bench/src"
: >"$work/crates.txt"
for crate in "$top"/crates/*; do
    name=$(basename "$crate")
    [ -d "$crate/out/rlib" ] || continue
    mkdir -p "$work/crates/$name/out"
    for part in src specs proofs out/rlib; do
        rm -rf "$work/crates/$name/$part"
        [ ! -d "$crate/$part" ] || cp -R "$crate/$part" "$work/crates/$name/$part"
    done
    grep -E "^$name:" "$top/crates.txt" >>"$work/crates.txt"
done
sed -n 's/^acqd:\(.*\)/sql_bench:\1 anyhow/p' "$top/crates.txt" >>"$work/crates.txt"
cp "$top/bench/sql/main.txt" "$work/crates/sql_bench/src/main.rt"
: >"$work/crates/sql_bench/stdin"
(cd "$work/crates/sql_bench" && rt run) >"$work/log" 2>&1 || { cat "$work/log" >&2; exit 1; }
rm -f "$work/plain"
if ! command -v cc >/dev/null; then
    echo "no C compiler: acqd alone is timed"
elif ! cc -O2 -o "$work/plain" "$top/bench/sql/plain.c" -lsqlite3 2>"$work/log"; then
    echo "no SQLite for C programs: acqd alone is timed"
fi
python3 - "$top/crates/acqd/out/acqd" "$work/crates/sql_bench/out/sql_bench" "$work" <<'PY'
import os, sqlite3, subprocess, sys, time
acqd, bench, work = sys.argv[1:]
plain = work + "/plain" if os.path.exists(work + "/plain") else None
os.sched_setaffinity(0, {0})
MIDNIGHT, DAY = 1714521600, 86400
sales_of = {}

def write_lines(name, merchants, first, sales, with_setup):
    """Lines of sales with their answers, behind a range and merchants with a terminal each; and the
    lines that acqd is to write. A merchant's sales get references from 1, and all keys differ."""
    sales_of[name] = sales
    with open(f"{work}/{name}", "w") as events, open(f"{work}/{name}.want", "w") as lines:
        if with_setup:
            events.write("addrange,40000000,49999999,12345,7,\n")
            for merchant in range(merchants):
                events.write(f"enrol,MERCHANT{merchant:07},978,1,,\n"
                             f"terminal,MERCHANT{merchant:07},TERM0001,,,\n")
            lines.write("done\n" * (1 + 2 * merchants))
        for sale in range(first, first + sales):
            second = sale // 1000 % DAY
            merchant, reference = f"MERCHANT{sale % merchants:07}", sale // merchants + 1
            said = f"1641111111111111110000000000000010000501{second // 3600:02}{second // 60 % 60:02}" \
                   f"{second % 60:02}{sale % 1000000:06}"
            request = f"02007220000000C08000{said}TERM0001{merchant}978"
            events.write(f"frame,{MIDNIGHT + second},{request.encode().hex()},,,\n"
                         f"answer,{MIDNIGHT + second},{merchant},{reference},approved,A1B2C3\n")
            lines.write(f"ask {merchant} {reference:012} 411111******1111 1000 12345\n"
                        f"reply 0210722200000EC08000{said}0501{reference:012}A1B2C300TERM0001{merchant}978\n")
    return (1 + 2 * merchants if with_setup else 0) + 2 * sales

def write_refused(name, count):
    """Lines of one merchant's requests that are refused with 12, each under a key of its own: they have no
    reference, and no limit counts them."""
    sales_of[name] = 0
    with open(f"{work}/{name}", "w") as events:
        events.write("enrol,MERCHANT0000000,978,1,,\nterminal,MERCHANT0000000,TERM0001,,,\n")
        for number in range(count):
            second = number % DAY
            request = f"02007220000000C080001641111111111111119900000000000010000501{second // 3600:02}" \
                      f"{second // 60 % 60:02}{second % 60:02}{number % 1000000:06}TERM0001MERCHANT0000000978"
            events.write(f"frame,{MIDNIGHT + second},{request.encode().hex()},,,\n")

def timed(arguments, name):
    """Nanoseconds that a program's events take over a new book, and those of the last tenth."""
    with open(f"{work}/{name}", "rb") as events:
        said = subprocess.run(arguments, stdin=events, stdout=subprocess.PIPE, check=True).stdout
    count, every, last, recorded = map(int, said.split())
    if recorded != sales_of[name]:
        sys.exit(f"{arguments[0]} recorded {recorded:,} sales")
    return every, last / (count // 10)

def timed_on(path, program, name):
    """The same over a new file."""
    remove(path)
    answer = timed([program, path], name)
    remove(path)
    return answer

def remove(path):
    for end in ("", "-wal", "-shm"):
        if os.path.exists(path + end):
            os.remove(path + end)

def on_file(arguments, name, out):
    """Seconds that a program takes for lines over a book in a file."""
    with open(os.path.join(work, name), "rb") as events, open(f"{work}/{out}", "wb") as lines:
        start = time.perf_counter()
        subprocess.run(arguments, stdin=events, stdout=lines, check=True)
        return time.perf_counter() - start

def tell(what, count, seconds, goal):
    """Prints what each program took, and how its rate stands beside that of C."""
    for name, took in seconds.items():
        print(f"{what}, {name}: {took / count * 1e6:.1f} us an event, {count / took:,.0f} a second")
    if plain:
        print(f"{what}: {seconds['plain C'] / seconds['acqd']:.2f} of C's rate (goal: {goal})")

def best(measure):
    """The best of three runs of each program."""
    return {name: min(measure(name, program) for _ in range(3)) for name, program in programs}

programs = [("acqd", bench)] + ([("plain C", plain)] if plain else [])
ram = ("/dev/shm" if os.path.isdir("/dev/shm") else work) + f"/sql-bench-{os.getpid()}.db"
count = write_lines("day", 1000, 0, 49000, True)
in_memory = {"acqd": [bench], "plain C": [plain, ":memory:"]}
tell(f"{count:,} events in memory", count,
     best(lambda name, _: timed(in_memory[name], "day")[0] / 1e9), 0.5)
tell(f"{count:,} events on a file in memory", count,
     best(lambda _, program: timed_on(ram, program, "day")[0] / 1e9), 0.5)

write_lines("small", 10, 0, 1000, True)
write_lines("great", 1000, 0, 1000000, True)
for name, program in programs:
    few = min(timed_on(ram, program, "small")[1] for _ in range(20))
    many = timed_on(ram, program, "great")[1]
    print(f"on a file in memory, {name}: {few / 1000:.1f} us an event at 1,000 recorded requests, "
          f"{many / 1000:.1f} us at 1,000,000 ({many / few:.2f} times; goal for acqd: 1.5)")
for name in ("small", "small.want", "great", "great.want"):
    os.remove(f"{work}/{name}")

book, other = work + "/acqd.db", work + "/plain.db"
remove(book)
remove(other)
subprocess.run([acqd, "init", "--db", book, "--limit", "999999", "--day", "2024-05-01"], check=True)
programs = [("acqd", [acqd, "replay", "--db", book])] + ([("plain C", [plain, other])] if plain else [])
sync = time.perf_counter()
with open(work + "/synced", "wb", buffering=0) as synced:
    for _ in range(1000):
        synced.write(bytes(4096))
        os.fdatasync(synced.fileno())
print(f"to write 4,096 bytes and have them on the disk takes {(time.perf_counter() - sync) * 1000:.1f} us")
os.remove(work + "/synced")
took = {name: on_file(program, "day", f"{name}.lines") for name, program in programs}
tell(f"{count:,} events on a file", count, took, 0.9)
if open(work + "/acqd.lines", "rb").read() != open(work + "/day.want", "rb").read():
    sys.exit("acqd wrote other lines")
write_lines("more", 1000, 49000, 51000, False)
for _, program in programs:
    on_file(program, "more", "lines")
for name, program in programs:
    start = min(on_file(program, os.devnull, "lines") for _ in range(3))
    print(f"a book of 100,000 requests, {os.path.getsize(program[-1] if name == 'plain C' else book):,} "
          f"bytes: {name} takes {start * 1000:.0f} ms to open and close it")

def rows(path):
    database = sqlite3.connect(path)
    tables = [name for name, in database.execute("SELECT name FROM sqlite_schema WHERE type = 'table' ORDER BY 1")]
    return {name: sorted(database.execute(f"SELECT * FROM {name}"), key=repr) for name in tables}

if plain:
    if rows(book) != rows(other):
        sys.exit("the two files hold other rows")
    print("the two files hold the same rows")

write_refused("refused", 20000)
write_lines("approved", 1, 0, 20000, True)
opened = {}
for name in ("refused", "approved"):
    remove(book)
    subprocess.run([acqd, "init", "--db", book, "--limit", "999999", "--day", "2024-05-01"], check=True)
    on_file([acqd, "replay", "--db", book], name, "lines")
    opened[name] = min(on_file([acqd, "replay", "--db", book], os.devnull, "lines") for _ in range(3))
print(f"a book of 20,000 refused requests of one merchant takes {opened['refused'] * 1000:.0f} ms to open, one of "
      f"20,000 approved sales {opened['approved'] * 1000:.0f} ms ({opened['refused'] / opened['approved']:.2f} "
      f"times; goal: 1.5)")
write_refused("few", 1000)
few = min(timed_on(ram, bench, "few")[1] for _ in range(5))
many = min(timed_on(ram, bench, "refused")[1] for _ in range(3))
print(f"a refused request takes {few / 1000:.1f} us at 1,000 of the merchant, {many / 1000:.1f} us at 20,000 "
      f"({many / few:.2f} times; goal: 1.2)")
PY
