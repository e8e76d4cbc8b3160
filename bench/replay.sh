#!/bin/sh
# Makes event lines of a day of 1,000 merchants, 1,000,000 or as many as its argument says, has
# `acqd replay` take them over a new book, checks each output line, and prints events per second and
# the memory that was used: for the input, its events, and the rows of the requests that are recorded.
# The lines are a range, the merchants with a terminal each, sales with their answers, and where one
# line is left over, the day's end. The files in between are some 350 MB for 1,000,000 lines.
set -eu
unset CDPATH
top=$(cd "$(dirname "$0")/.." && pwd)
count=${1:-1000000}
work=$(mktemp -d)
trap 'rm -rf "$work"' EXIT
python3 - "$count" "$work" <<'PY'
import sys
count, work = int(sys.argv[1]), sys.argv[2]
MERCHANTS, MIDNIGHT, DAY = 1000, 1714521600, 86400
sales, left = divmod(count - 1 - 2 * MERCHANTS, 2)
if sales < 1:
    sys.exit("too few lines for a sale")
with open(work + "/in", "w") as events, open(work + "/want", "w") as lines:
    events.write("addrange,40000000,49999999,12345,7,\n")
    for merchant in range(MERCHANTS):
        events.write(f"enrol,MERCHANT{merchant:07},978,1,,\nterminal,MERCHANT{merchant:07},TERM0001,,,\n")
    lines.write("done\n" * (1 + 2 * MERCHANTS))
    # A merchant's sales get references from 1, and have all different keys: traces differ within each
    # 1,000,000 sales, and the second of the day differs from each such lot to the next. Nobody comes
    # near the greatest limit of a day, 999,999 for each merchant.
    for sale in range(sales):
        second = sale * DAY // sales
        name, reference = f"MERCHANT{sale % MERCHANTS:07}", sale // MERCHANTS + 1
        said = f"1641111111111111110000000000000010000501{second // 3600:02}{second // 60 % 60:02}" \
               f"{second % 60:02}{sale % 1000000:06}"
        request = f"02007220000000C08000{said}TERM0001{name}978"
        events.write(f"frame,{MIDNIGHT + second},{request.encode().hex()},,,\n"
                     f"answer,{MIDNIGHT + second},{name},{reference},approved,A1B2C3\n")
        lines.write(f"ask {name} {reference:012} 411111******1111 1000 12345\n"
                    f"reply 0210722200000EC08000{said}0501{reference:012}A1B2C300TERM0001{name}978\n")
    if left:
        events.write(f"cutover,{MIDNIGHT + DAY},,,,\n")
        lines.write("done\n")
with open(work + "/sales", "w") as told:
    told.write(str(sales))
PY
"$top/acqd" build
python3 - "$top/crates/acqd/out/acqd" "$count" "$work" <<'PY'
import ctypes, itertools, os, re, signal, subprocess, sys, time
program, count, work = sys.argv[1], int(sys.argv[2]), sys.argv[3]
with open(work + "/sales") as told:
    recorded = int(told.read())
libc = ctypes.CDLL(None)
libc.ptrace.argtypes = [ctypes.c_long, ctypes.c_long, ctypes.c_void_p, ctypes.c_void_p]
TRACEME, CONT, SETOPTIONS, AT_EXIT, EXITS = 0, 7, 0x4200, 0x40, signal.SIGTRAP | 6 << 8
# The program's own peak is read as it exits: what a child's usage tells begins with its parent's.
with open(work + "/in", "rb") as events, open(work + "/out", "wb") as lines:
    child = subprocess.Popen([program, "replay", "--day", "2024-05-01"], stdin=events, stdout=lines,
                             preexec_fn=lambda: libc.ptrace(TRACEME, 0, None, None))
    os.waitpid(child.pid, 0)
    libc.ptrace(SETOPTIONS, child.pid, None, AT_EXIT)
    start = time.perf_counter()
    libc.ptrace(CONT, child.pid, None, None)
    peak = 0
    while True:
        _, status = os.waitpid(child.pid, 0)
        if not os.WIFSTOPPED(status):
            break
        if status >> 8 == EXITS:
            seconds = time.perf_counter() - start
            with open(f"/proc/{child.pid}/status") as told:
                peak = int(re.search(r"VmHWM:\s+(\d+) kB", told.read())[1]) * 1024
        libc.ptrace(CONT, child.pid, None, None)
status = os.waitstatus_to_exitcode(status)
size = os.path.getsize(work + "/in")
written, wrong = 0, None
with open(work + "/out", "rb") as lines, open(work + "/want", "rb") as wants:
    for number, (line, want) in enumerate(itertools.zip_longest(lines, wants), 1):
        written += line is not None
        if wrong is None and line != want:
            wrong = number
print(f"{count} events, {size} bytes: {seconds:.2f} s, {count / seconds:,.0f} events a second, "
      f"memory {peak:,} bytes ({peak / size:.2f} times the input, {peak // recorded:,} for each of "
      f"{recorded:,} recorded requests), status {status}, {written:,} lines, "
      f"{'all right' if wrong is None else f'WRONG from line {wrong}'}")
sys.exit(0 if wrong is None and written == count and status == 0 else 1)
PY
