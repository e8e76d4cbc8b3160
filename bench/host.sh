#!/bin/sh
# Times a host over a book in memory, on one core: nanoseconds an event over 1,000,000 events of 1,000
# merchants, and of one; how much more an event costs at 1,000,000 recorded requests than at 1,000;
# and the memory of a recorded request.
# The program is built in a repository of its own, which proves the crates below it once: some
# minutes. With a folder as its argument, it is kept there for the next time.
set -eu
unset CDPATH
top=$(cd "$(dirname "$0")/.." && pwd)
if [ $# -gt 0 ]; then
    work=$1
else
    work=$(mktemp -d)
    trap 'rm -rf "$work"' EXIT
fi
crates='acq_link iso_codec card_no day_totals acq_message acq_core acq_rules acq_deciding acq_reasons
acq_soundness acq_book acq_lists acq_list_book acq_reports acq_clearing acq_host'
mkdir -p "$work/crates/host_bench/src"
: >"$work/crates.txt"
for crate in $crates; do
    mkdir -p "$work/crates/$crate"
    for part in src specs proofs; do
        rm -rf "$work/crates/$crate/$part"
        [ ! -d "$top/crates/$crate/$part" ] ||
            cp -R "$top/crates/$crate/$part" "$work/crates/$crate/$part"
    done
    grep -E "^$crate:" "$top/crates.txt" >>"$work/crates.txt"
done
cp "$top/bench/host/main.txt" "$work/crates/host_bench/src/main.rt"
: >"$work/crates/host_bench/stdin"
echo 'host_bench: acq_host acq_list_book acq_book acq_soundness acq_core acq_message card_no day_totals anyhow' >>"$work/crates.txt"
(cd "$work/crates/host_bench" && rt run) >"$work/log" 2>&1 || { cat "$work/log" >&2; exit 1; }
python3 - "$work/crates/host_bench/out/host_bench" <<'PY'
import os, subprocess, sys
program = sys.argv[1]
os.sched_setaffinity(0, {0})

def timed(merchants, events, books):
    """Nanoseconds an event, the same of the last tenth, a book's recorded requests, peak bytes."""
    child = subprocess.Popen([program, str(merchants), str(events), str(books)], stdout=subprocess.PIPE)
    line = child.stdout.read().split()
    _, status, usage = os.wait4(child.pid, 0)
    if status:
        sys.exit(f"{program} failed")
    if int(line[2]) != books * events * 4 // 10:
        sys.exit("a sale or a hold was refused")
    # seven of ten events are requests, and each is recorded
    return int(line[0]), int(line[1]), events * 7 // 10, usage.ru_maxrss * 1024

many = timed(1000, 1_000_000, 1)
one = timed(1, 1_000_000, 1)
small = timed(10, 1_500, 500)
great = timed(1000, 1_450_000, 1)
less = timed(1000, 100_000, 1)
for name, (each, last, recorded, peak) in (("1,000 merchants", many), ("one merchant", one)):
    print(f"1,000,000 events of {name}: {each} ns an event, {1_000_000_000 // each:,} a second, "
          f"{recorded:,} requests recorded")
print(f"at 1,000 recorded requests {small[1]} ns an event, at {great[2]:,} {great[1]} ns "
      f"({great[1] / small[1]:.2f} times)")
print(f"memory of a recorded request: {(great[3] - less[3]) // (great[2] - less[2]):,} bytes")
PY
