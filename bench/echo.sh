#!/bin/sh
# Makes echo frames, 1,000,000 or as many as its argument says, has `acqd once` answer them, checks the
# replies, and prints frames per second and the memory that was used.
set -eu
unset CDPATH
top=$(cd "$(dirname "$0")/.." && pwd)
count=${1:-1000000}
work=$(mktemp -d)
trap 'rm -rf "$work"' EXIT
python3 - "$count" "$work" <<'PY'
import struct, sys
count, work = int(sys.argv[1]), sys.argv[2]
def frame(text):
    return struct.pack(">H", len(text)) + text
with open(work + "/in", "wb") as requests, open(work + "/want", "wb") as replies:
    for trace in range(count):
        stan = b"%06d" % (trace % 1000000)
        requests.write(frame(b"080082200000000000000400000000000000" + b"0101120000" + stan + b"301"))
        replies.write(frame(b"081082200000020000000400000000000000" + b"0101120000" + stan + b"00" + b"301"))
PY
"$top/acqd" build
python3 - "$top/crates/acqd/out/acqd" "$count" "$work" <<'PY'
import ctypes, os, re, signal, subprocess, sys, time
program, count, work = sys.argv[1], int(sys.argv[2]), sys.argv[3]
libc = ctypes.CDLL(None)
libc.ptrace.argtypes = [ctypes.c_long, ctypes.c_long, ctypes.c_void_p, ctypes.c_void_p]
TRACEME, CONT, SETOPTIONS, AT_EXIT, EXITS = 0, 7, 0x4200, 0x40, signal.SIGTRAP | 6 << 8
# The program's own peak is read as it exits: what a child's usage tells begins with its parent's.
with open(work + "/in", "rb") as requests, open(work + "/out", "wb") as replies:
    child = subprocess.Popen([program, "once"], stdin=requests, stdout=replies,
                             preexec_fn=lambda: libc.ptrace(TRACEME, 0, None, None))
    os.waitpid(child.pid, 0)
    libc.ptrace(SETOPTIONS, child.pid, None, AT_EXIT)
    start = time.perf_counter()
    libc.ptrace(CONT, child.pid, None, None)
    peak = 0
    while True:
        _, status = os.waitpid(child.pid, 0)
        if not os.WIFSTOPPED(status):
            break
        if status >> 8 == EXITS:
            seconds = time.perf_counter() - start
            with open(f"/proc/{child.pid}/status") as told:
                peak = int(re.search(r"VmHWM:\s+(\d+) kB", told.read())[1]) * 1024
        libc.ptrace(CONT, child.pid, None, None)
status = os.waitstatus_to_exitcode(status)
size = os.path.getsize(work + "/in")
same = open(work + "/out", "rb").read() == open(work + "/want", "rb").read()
print(f"{count} frames, {size} bytes: {seconds:.2f} s, {count / seconds:,.0f} frames a second, "
      f"memory {peak:,} bytes ({peak / size:.2f} times the input), status {status}, "
      f"replies {'right' if same else 'WRONG'}")
sys.exit(0 if same and status == 0 else 1)
PY
