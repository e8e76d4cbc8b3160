#!/bin/sh
# Times decisions, on one core: the nanoseconds to decode what came, to say what to look up for it, and
# to decide it over look-ups that are prepared, of a sale, of its answer, and of a completion. All
# memory of one event is given back before the next.
# The program is built in a repository of its own, which proves the crates below it once: some ten
# minutes. With a folder as its argument, it is kept there for the next time.
set -eu
top=$(cd "$(dirname "$0")/.." && pwd)
if [ $# -gt 0 ]; then
    work=$1
else
    work=$(mktemp -d)
    trap 'rm -rf "$work"' EXIT
fi
mkdir -p "$work/crates/decide_bench/src"
for crate in iso_codec card_no day_totals acq_message acq_core acq_rules acq_deciding; do
    mkdir -p "$work/crates/$crate"
    for part in src specs proofs; do
        rm -rf "$work/crates/$crate/$part"
        [ ! -d "$top/crates/$crate/$part" ] ||
            cp -R "$top/crates/$crate/$part" "$work/crates/$crate/$part"
    done
done
cp "$top/bench/decide/main.txt" "$work/crates/decide_bench/src/main.rt"
: >"$work/crates/decide_bench/stdin"
grep -E '^(iso_codec|card_no|day_totals|acq_message|acq_core|acq_rules|acq_deciding):' "$top/crates.txt" >"$work/crates.txt"
echo 'decide_bench: acq_deciding acq_core acq_message card_no day_totals anyhow' >>"$work/crates.txt"
(cd "$work/crates/decide_bench" && rt run) >"$work/log" 2>&1 || { cat "$work/log" >&2; exit 1; }
pin=
command -v taskset >/dev/null && pin="taskset -c 0"
$pin "$work/crates/decide_bench/out/decide_bench" | while read -r name nanoseconds good; do
    printf '%-10s %5s ns, %9s a second (%s)\n' "$name" "$nanoseconds" $((1000000000 / nanoseconds)) "$good"
done
