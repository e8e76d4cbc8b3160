#!/bin/sh
# Has terminals sell at once to `acqd listen --together`, 20,000 sales or as many as its argument says, and to a
# host in C that serves the same frames over epoll and SQLite, one transaction a round (bench/listen/plain.c):
# over this disk, over a file whose syncs take 3 ms, and over a file in memory. Prints sales a second, how long
# a reply took, and the ratio to C's. The rows that the two leave are compared.
set -eu
unset CDPATH
top=$(cd "$(dirname "$0")/.." && pwd)
program=${ACQD:-$top/crates/acqd/out/acqd}
[ -x "$program" ] || "$top/acqd" build
work=$(mktemp -d)
trap 'rm -rf "$work"' EXIT
cc -O2 -shared -fPIC -o "$work/slow.so" "$top/bench/sql/slow.c" -ldl
cc -O2 -o "$work/plain" "$top/bench/listen/plain.c" -lsqlite3
cc -O2 -o "$work/terminals" "$top/bench/listen/terminals.c"
ACQD=$program python3 - "$work" "${1:-20000}" <<'PY'
import os, socket, sqlite3, subprocess, sys, time

work, count = sys.argv[1], int(sys.argv[2])
acqd, ROUNDS = os.environ["ACQD"], 3
# How many terminals, of how many merchants; one sells a tenth as much.
LOADS = ((1, 1), (64, 64), (64, 1))
with open(f"{work}/issuers.csv", "w", encoding="ascii") as answers:
    answers.write("4111111111111111,approved,A1B2C3\n")


def remove(path):
    for it in (path, f"{path}-wal", f"{path}-shm"):
        if os.path.exists(it):
            os.remove(it)


def new_book(path, terminals, merchants):
    remove(path)
    subprocess.run([acqd, "init", "--db", path, "--limit", "999999", "--day", "2024-05-01"], check=True)
    lines = "addrange,40000000,49999999,12345,7,\n"
    lines += "".join(f"enrol,MERCHANT{k:07d},978,1,,\n" for k in range(1, merchants + 1))
    lines += "".join(f"terminal,MERCHANT{1 + k % merchants:07d},TERM{1 + k // merchants:04d},,,\n"
                     for k in range(terminals))
    subprocess.run([acqd, "replay", "--db", path], input=lines.encode(), stdout=subprocess.DEVNULL, check=True)


def free_port():
    with socket.socket() as it:
        it.bind(("127.0.0.1", 0))
        return str(it.getsockname()[1])


def sell(host, port, terminals, merchants, slow):
    """Sales a second, and how long a reply took: in the middle, and at most of 99 of 100."""
    loaded = {**os.environ, "LD_PRELOAD": f"{work}/slow.so"} if slow else None
    served = subprocess.Popen(host, env=loaded)
    sales = count // 10 if terminals == 1 else count
    words = [f"{work}/terminals", port, str(terminals), str(merchants), str(sales)]
    said = subprocess.run(words, stdout=subprocess.PIPE, check=True).stdout.split()
    if served.wait() != 0:
        sys.exit("a host failed")
    took, middle, longest = map(int, said)
    return sales // terminals * terminals / took * 1e9, middle / 1e6, longest / 1e6


def rows(path):
    database = sqlite3.connect(path)
    tables = [name for name, in database.execute("SELECT name FROM sqlite_schema WHERE type = 'table'")]
    return {name: sorted(database.execute(f"SELECT * FROM {name}"), key=repr) for name in sorted(tables)}


def both(path, terminals, merchants, slow):
    for name in ("acqd", "C"):
        port, book = free_port(), f"{path}.{name}"
        new_book(book, terminals, merchants)
        hosts = {
            "acqd": [acqd, "listen", "--db", book, "--port", port, "--together", "64", "--count", str(terminals),
                     "--issuers", f"{work}/issuers.csv", "--at", "1714555800"],
            "C": [f"{work}/plain", book, port, str(terminals)],
        }
        yield name, sell(hosts[name], port, terminals, merchants, slow)
    if terminals == merchants and rows(f"{path}.acqd") != rows(f"{path}.C"):
        sys.exit("the two files hold other rows")


ram = ("/dev/shm" if os.path.isdir("/dev/shm") else work) + f"/together-bench-{os.getpid()}"
for where, path, slow in (("this disk", f"{work}/book", False), ("a sync takes 3 ms", ram, True),
                          ("a file in memory", ram, False)):
    for terminals, merchants in LOADS:
        ran = {"acqd": [], "C": []}
        for _ in range(ROUNDS):
            for name, measured in both(path, terminals, merchants, slow):
                ran[name].append(measured)
        best = {name: max(it) for name, it in ran.items()}
        for name, (rate, middle, longest) in best.items():
            ratio = f", {rate / best['C'][0]:.2f} times C's" if name == "acqd" else ""
            print(f"{where}, {terminals} terminals of {merchants}, {name}: {rate:,.0f} sales a second; a reply took "
                  f"{middle:.2f} ms in the middle, {longest:.2f} ms at most for 99 of 100{ratio}", flush=True)
    for name in ("acqd", "C"):
        remove(f"{path}.{name}")
PY
