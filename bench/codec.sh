#!/bin/sh
# Times the codec on four messages, on one core: the nanoseconds that a decode takes, and a decode, a
# reply and its encode; beside a plain C program on the same messages, where there is a C compiler.
# A reply is the elements that it echoes, selected from the request, and element 39 set.
# The program is built in a repository of its own, which proves the codec once: some minutes.
# With a folder as its argument, it is kept there for the next time.
set -eu
top=$(cd "$(dirname "$0")/.." && pwd)
if [ $# -gt 0 ]; then
    work=$1
    mkdir -p "$work/crates/codec_bench/src"
else
    work=$(mktemp -d)
    trap 'rm -rf "$work"' EXIT
    mkdir -p "$work/crates/codec_bench/src"
fi
rm -rf "$work/crates/iso_codec/src" "$work/crates/iso_codec/specs" "$work/crates/iso_codec/proofs"
mkdir -p "$work/crates/iso_codec"
for part in src specs proofs; do cp -R "$top/crates/iso_codec/$part" "$work/crates/iso_codec/$part"; done
cp "$top/bench/codec/main.txt" "$work/crates/codec_bench/src/main.rt"
: >"$work/crates/codec_bench/stdin"
printf 'iso_codec: hex\ncodec_bench: iso_codec anyhow\n' >"$work/crates.txt"
python3 - >"$work/messages" <<'PY'
digits = lambda count: ("1234567890" * 100)[:count]
def message(kind, contents):
    bits = 0
    for number in contents:
        bits |= 1 << (128 - number)
    text = kind
    if any(number > 64 for number in contents):
        text += "%032X" % (bits | 1 << 127)
    else:
        text += "%016X" % (bits >> 64)
    return text + "".join(contents[number] for number in sorted(contents))
def sized(places, content):
    return str(len(content)).zfill(places) + content
print(message("0800", {7: "0101120000", 11: "000001", 70: "301"}))
print(message("0200", {2: sized(2, "4111111111111111"), 3: "000000", 4: "000000001000", 7: "0501093000",
    11: "000001", 41: "TERM0001", 42: "MERCHANT0000001", 49: "978"}))
totals = {7: "0501100000", 11: "000010", 15: "0501", 39: "00", 41: "TERM0001", 42: "MERCHANT0000001", 66: "1"}
totals.update({number: "0000000012" for number in range(74, 78)})
totals.update({number: "0000000000123456" for number in range(86, 90)})
totals[97] = "C0000000000123456"
print(message("0510", totals))
full = {2: sized(2, "4111111111111111"), 35: sized(2, "4111111111111111=30011010000"), 32: sized(2, digits(11)),
    33: sized(2, digits(11)), 45: sized(2, "B" * 76), 48: sized(3, "x" * 100), 54: sized(3, "0" * 120), 97: "C" + digits(16)}
for size, numbers in ((1, [66]), (2, [25, 26, 39]), (3, [19, 22, 23, 24, 49, 50, 70]), (4, [13, 14, 15, 18]),
        (6, [3, 11, 12, 38]), (8, [41]), (10, [7, 74, 75, 76, 77]), (12, [4, 37]), (15, [42]),
        (16, [52, 53, 64, 86, 87, 88, 89, 128]), (40, [43]), (42, [90, 95])):
    full.update({number: digits(size) for number in numbers})
full.update({number: sized(3, "y" * 50) for number in range(55, 64)})
print(message("0200", full))
PY
(cd "$work/crates/codec_bench" && rt run) >"$work/log" 2>&1 || { cat "$work/log" >&2; exit 1; }
pin=
command -v taskset >/dev/null && pin="taskset -c 0"
row() {
    while read -r length decoding answering read written; do
        printf '%-8s %5s bytes: decode %6s ns, decode + reply + encode %6s ns (%s, %s)\n' \
            "$1" "$length" "$decoding" "$answering" "$read" "$written"
    done
}
$pin "$work/crates/codec_bench/out/codec_bench" <"$work/messages" | row codec
if command -v cc >/dev/null; then
    cc -O2 -o "$work/plain" "$top/bench/codec/plain.c"
    $pin "$work/plain" <"$work/messages" | row "plain C"
fi
