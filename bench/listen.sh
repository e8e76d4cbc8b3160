#!/bin/sh
# Sends sales, 100,000 or as many as its argument says, on one connection to `acqd listen` over a book in
# a file, each behind the reply to the one before it, and prints frames per second and how long a reply
# took: in the middle, and at most for 99 of 100. Then the same frames through `acqd once` over a book in
# memory. Then a fifth as many sales of sixty-four terminals at once, in turns: without more, and with a control
# socket, a status asked for each second, and a log.
set -eu
unset CDPATH
top=$(cd "$(dirname "$0")/.." && pwd)
"$top/acqd" build
exec python3 - "$top/crates/acqd/out/acqd" "${1:-100000}" <<'PY'
import os, selectors, shutil, socket, statistics, subprocess, sys, tempfile, time
program, count = sys.argv[1], int(sys.argv[2])
MOMENT = "1714555800"

def frame(text):
    return len(text).to_bytes(2, "big") + text.encode()

def sale(trace):
    return frame(f"02007220000000C080001641111111111111110000000000000010000501093000{trace:06d}"
                 "TERM0001MERCHANT0000001978")

def connect(port):
    while True:
        try:
            end = socket.create_connection(("127.0.0.1", port))
            end.setsockopt(socket.IPPROTO_TCP, socket.TCP_NODELAY, 1)
            return end
        except ConnectionRefusedError:
            time.sleep(0.01)

def reply(end):
    came = b""
    while len(came) < 2 or len(came) < 2 + int.from_bytes(came[:2], "big"):
        piece = end.recv(65536)
        if not piece:
            sys.exit("the connection ended")
        came += piece
    return came

TERMINALS = 64

def sale_at(k, trace):
    return frame(f"02007220000000C080001641111111111111110000000000000010000501093000{trace:06d}"
                 f"TERM0001MERCHANT{k:07d}978")

def at_once(work, count, watched):
    """Sales a second of sixty-four terminals, each behind the reply to its last one, and the longest of 99 of 100."""
    book, control = f"{work}/many.db", f"{work}/host.control"
    for it in (book, f"{book}-wal"):
        if os.path.exists(it):
            os.remove(it)
    subprocess.run([program, "init", "--db", book, "--limit", "999999", "--day", "2024-05-01"], check=True)
    lines = "addrange,40000000,49999999,12345,7,\n" + "".join(
        f"enrol,MERCHANT{k:07d},978,1,,\nterminal,MERCHANT{k:07d},TERM0001,,,\n" for k in range(TERMINALS))
    subprocess.run([program, "replay", "--db", book], input=lines.encode(), stdout=subprocess.DEVNULL, check=True)
    with socket.socket() as free:
        free.bind(("127.0.0.1", 0))
        port = free.getsockname()[1]
    more = ["--control", control, "--log", f"{work}/host.log"] if watched else []
    host = subprocess.Popen([program, "listen", "--db", book, "--port", str(port), "--together", str(TERMINALS),
                             "--count", str(TERMINALS), "--issuers", f"{work}/issuers.csv", "--at", MOMENT, *more])
    ends, took, asked, told = [connect(port) for _ in range(TERMINALS)], [], 0, 0
    left = [count // TERMINALS] * TERMINALS
    sent, came = [0.0] * TERMINALS, [b""] * TERMINALS
    watch = selectors.DefaultSelector()
    if watched:
        asks = socket.socket(socket.AF_UNIX)
        asks.connect(control)
        watch.register(asks, selectors.EVENT_READ, None)
    def send(k):
        sent[k] = time.perf_counter()
        ends[k].sendall(sale_at(k, left[k]))
        left[k] -= 1
    start = time.perf_counter()
    for k, end in enumerate(ends):
        watch.register(end, selectors.EVENT_READ, k)
        send(k)
    busy, status_at = TERMINALS, start
    while busy:
        if watched and time.perf_counter() >= status_at:
            status_at += 1
            asks.sendall(b"status\n")
            asked += 1
        for key, _ in watch.select(1):
            if key.data is None:
                told += asks.recv(65536).count(b"version")
                continue
            k = key.data
            came[k] += ends[k].recv(65536)
            if len(came[k]) < 2 or len(came[k]) < 2 + int.from_bytes(came[k][:2], "big"):
                continue
            took.append(time.perf_counter() - sent[k])
            if b"A1B2C300" not in came[k]:
                sys.exit(f"a sale was not approved: {came[k]}")
            came[k] = b""
            if left[k]:
                send(k)
            else:
                busy -= 1
    seconds = time.perf_counter() - start
    for end in ends:
        end.close()
    while told < asked:
        told += asks.recv(65536).count(b"version")
    if watched:
        asks.close()
    host.wait()
    took.sort()
    return len(took) / seconds, took[len(took) * 99 // 100] * 1000, asked

work = tempfile.mkdtemp()
try:
    book, issuers = f"{work}/book.db", f"{work}/issuers.csv"
    with open(issuers, "w") as it:
        it.write("4111111111111111,approved,A1B2C3\n")
    subprocess.run([program, "init", "--db", book, "--limit", "999999", "--day", "2024-05-01"], check=True)
    lines = "addrange,40000000,49999999,12345,7,\nenrol,MERCHANT0000001,978,1,,\nterminal,MERCHANT0000001,TERM0001,,,\n"
    subprocess.run([program, "replay", "--db", book], input=lines.encode(), stdout=subprocess.DEVNULL, check=True)
    with socket.socket() as free:
        free.bind(("127.0.0.1", 0))
        port = free.getsockname()[1]
    host = subprocess.Popen([program, "listen", "--db", book, "--port", str(port), "--count", "1",
                             "--issuers", issuers, "--at", MOMENT])
    frames = [sale(trace % 1000000) for trace in range(1, count + 1)]
    end, took = connect(port), []
    start = time.perf_counter()
    for it in frames:
        sent = time.perf_counter()
        end.sendall(it)
        said = reply(end)
        took.append(time.perf_counter() - sent)
        if b"A1B2C300" not in said:
            sys.exit(f"a sale was not approved: {said}")
    seconds = time.perf_counter() - start
    end.close()
    status = host.wait()
    took.sort()
    print(f"listen, a book in a file: {count} sales in {seconds:.1f} s, {count / seconds:,.0f} a second; a reply "
          f"took {took[len(took) // 2] * 1000:.3f} ms in the middle, {took[len(took) * 99 // 100] * 1000:.3f} ms "
          f"at most for 99 of 100; status {status}")
    start = time.perf_counter()
    said = subprocess.run([program, "once", "--issuers", issuers, "--at", MOMENT], input=b"".join(frames),
                          stdout=subprocess.PIPE, check=True).stdout
    seconds = time.perf_counter() - start
    print(f"once, a book in memory: {count} sales in {seconds:.1f} s, {count / seconds:,.0f} a second, "
          f"{len(said):,} bytes of replies")
    runs = {False: [], True: []}
    for _ in range(3):
        for watched in (False, True):
            runs[watched].append(at_once(work, count // 5, watched))
    for watched, name in ((False, "alone"), (True, "with control, status and log")):
        speed, late, asked = (statistics.median(it) for it in zip(*runs[watched]))
        print(f"{TERMINALS} terminals {name}: {speed:,.0f} sales a second, a reply {late:.1f} ms at most for 99 of 100"
              + (f", {asked:.0f} times asked for a status" if watched else "") + "; the median of three runs")
finally:
    shutil.rmtree(work, ignore_errors=True)
PY
