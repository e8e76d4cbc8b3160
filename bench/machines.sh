#!/bin/sh
# Sales a second of `acqd listen --together 64` over a book on a volume of three hosts beside one on the disk,
# with 1, 16 and 64 connections, each of which sends a sale behind the reply to the one before; and, where the
# kernel has netem, with 1 and 5 ms of delay on each way between the hosts. Then two hosts that share the
# merchants, on a processor each, beside one host on one of them: on the disk, and in memory, where nothing
# is waited for. The hosts stand in namespaces of this machine, as in .ci/machines, and so do the clients; so
# all bricks lie on one disk, that of the folder for temporary files. SECONDS_EACH=10 is how long each is measured.
#
# It has to be run by root, and needs python3 and the packages of docs/MACHINES.md. With a program as its
# argument it is that one that is measured.
set -eu
unset CDPATH
top=$(cd "$(dirname "$0")/.." && pwd)
if [ $# -gt 0 ]; then
    program=$1
else
    "$top/acqd" build
    program=$top/crates/acqd/out/acqd
fi
work=$(mktemp -d)
trap 'rm -rf "$work"' EXIT
unshare --net --mount --uts --ipc --pid --fork --kill-child --mount-proc \
    python3 - "$top" "$program" "$work" "${SECONDS_EACH:-10}" <<'PY'
import importlib.machinery, importlib.util, os, subprocess, sys, time

top, program, work, seconds = *sys.argv[1:4], float(sys.argv[4])
loader = importlib.machinery.SourceFileLoader("machines", f"{top}/.ci/machines")
machines = importlib.util.module_from_spec(importlib.util.spec_from_loader("machines", loader))
sys.dont_write_bytecode = True
loader.exec_module(machines)
MERCHANTS = [f"MERCHANT{it:07}" for it in range(64)]

# A client of some merchants, a connection each, for so many seconds: how many sales, the middle time of a reply
# and that of 99 of 100.
CLIENT = """
import os, selectors, socket, sys, time
address, port, first, count, seconds, trace = sys.argv[1], *map(int, sys.argv[2:5]), float(sys.argv[5]), int(sys.argv[6])
def sale(k):
    text = (f"02007220000000C0800016411111111111111100000000000000100005010930{trace // 1000000:02}"
            f"{trace % 1000000:06}TERM0001MERCHANT{k:07}978").encode()
    return len(text).to_bytes(2, "big") + text
ends, took, said = selectors.DefaultSelector(), [], {}
for k in range(first, first + count):
    for _ in range(200):
        try:
            end = socket.create_connection((address, port))
            break
        except OSError:
            time.sleep(0.05)
    end.setsockopt(socket.IPPROTO_TCP, socket.TCP_NODELAY, 1)
    # As a proxy's check says that it speaks for nobody.
    end.sendall(b"PROXY UNKNOWN\\r\\n")
    ends.register(end, selectors.EVENT_READ, k)
sent, began = {}, time.perf_counter()
def send(end, k):
    global trace
    trace += 1
    sent[k], said[k] = time.perf_counter(), b""
    end.sendall(sale(k))
for it in list(ends.get_map().values()):
    send(it.fileobj, it.data)
while (now := time.perf_counter()) - began < seconds:
    for it, _ in ends.select(1):
        k = it.data
        said[k] += it.fileobj.recv(4096)
        if not said[k]:
            sys.exit("a connection ended")
        if len(said[k]) > 2 and len(said[k]) == 2 + int.from_bytes(said[k][:2], "big"):
            if b"A1B2C300" not in said[k]:
                sys.exit(f"a sale was not approved: {said[k]}")
            took.append(time.perf_counter() - sent[k])
            send(it.fileobj, k)
took.sort()
print(len(took) / (time.perf_counter() - began), took[len(took) // 2], took[len(took) * 99 // 100], trace)
"""
traces = {}


class Served:
    """A host that listens over a new book, on one processor where one is named."""

    def __init__(self, world, host, folder, port, merchants, processor=None):
        self.host, self.port, self.processor = host, port, processor
        self.book = f"{folder}/book{port}.db"
        host.run([world.program, "init", "--db", self.book, "--limit", "999999", "--day", machines.DAY])
        host.run([world.program, "replay", "--db", self.book], machines.setup_of(merchants))
        self.listens = host.listen(self.book, port)
        if processor is not None:
            os.sched_setaffinity(machines.child_of(self.listens.pid), {processor})

    def client(self, first, count, processor=None):
        trace = traces.get(self.book, 0)
        words = [sys.executable, "-c", CLIENT, self.host.address, str(self.port), str(first), str(count), str(seconds), str(trace)]
        if processor is not None:
            words = ["taskset", "-c", str(processor), *words]
        return subprocess.Popen(self.host.words(words), stdout=subprocess.PIPE, stdin=subprocess.DEVNULL)

    def said_by(self, client):
        said = client.communicate()[0].split()
        if client.returncode:
            sys.exit("a client failed")
        traces[self.book] = int(said[3])
        return float(said[0]), float(said[1]) * 1000, float(said[2]) * 1000

    def end(self):
        machines.terminate(self.listens)


def syncs(host, folder):
    """The middle milliseconds of writing 4,096 bytes and having them for good."""
    code = ("import os, sys, time\nfd = os.open(sys.argv[1], os.O_CREAT | os.O_WRONLY)\ntook = []\n"
            "for it in range(200):\n    at = time.perf_counter()\n    os.pwrite(fd, b'x' * 4096, 4096 * it)\n"
            "    os.fdatasync(fd)\n    took.append(time.perf_counter() - at)\n"
            "print(sorted(took)[100] * 1000)\nos.unlink(sys.argv[1])")
    return float(host.run([sys.executable, "-c", code, f"{folder}/syncs"]))


def main():
    os.environ["PATH"] += ":/usr/sbin:/sbin"
    world = machines.World(program, work, 60)
    world.make_volume()
    for it in world.hosts.values():
        it.mount()
    host = world.hosts[1]
    disk = f"{host.folder}/disk"
    has_netem = subprocess.run(["tc", "qdisc", "add", "dev", "v3", "root", "netem", "delay", "0ms"],
                               capture_output=True).returncode == 0
    if has_netem:
        subprocess.run(["tc", "qdisc", "del", "dev", "v3", "root"], check=True)
    else:
        print("no delays are tried: there is no tc, or the kernel has no netem")
    places = [("on the disk", disk, 0), *(("on the volume", host.volume, it) for it in ((0, 1, 5) if has_netem else (0,)))]
    first = {}
    for number, (name, folder, delay) in enumerate(places):
        if delay:
            for it in (1, 2, 3):
                subprocess.run(["tc", "qdisc", "replace", "dev", f"v{it}", "root", "netem", "delay", f"{delay}ms"], check=True)
        text = f"{name}, {delay} ms of delay" if has_netem and number else name
        print(f"{text}: 4,096 bytes for good in {syncs(host, folder):.2f} ms", flush=True)
        served = Served(world, host, folder, 9000 + number, MERCHANTS)
        for count in (1, 16, 64):
            rate, middle, most = served.said_by(served.client(0, count))
            first.setdefault(count, rate)
            print(f"  {count:2} connections: {rate:7,.0f} sales a second, {rate / first[count]:.2f} of the disk's; a reply in "
                  f"{middle:.2f} ms in the middle, {most:.2f} ms at most for 99 of 100", flush=True)
        served.end()
    if has_netem:
        for it in (1, 2, 3):
            subprocess.run(["tc", "qdisc", "del", "dev", f"v{it}", "root"])
    host = world.hosts[3]
    host.run(["mount", "-t", "tmpfs", "none", f"{host.folder}/disk"])
    for name, folder in (("on the disk", f"{world.hosts[2].folder}/disk"), ("in memory", f"{host.folder}/disk")):
        where = world.hosts[2] if name == "on the disk" else host
        one = Served(world, where, folder, 9100, MERCHANTS, 0)
        rate, *_ = one.said_by(one.client(0, 64, 2))
        one.end()
        both = [Served(world, where, folder, 9101 + it, MERCHANTS[32 * it:32 * it + 32], it) for it in (0, 1)]
        clients = [it.client(32 * k, 32, 2 + k) for k, it in enumerate(both)]
        together = sum(it.said_by(client)[0] for it, client in zip(both, clients))
        for it in both:
            it.end()
        print(f"{name}: one host on one processor {rate:,.0f} sales a second; two of split merchants, on a processor each, "
              f"{together:,.0f}, {together / rate:.2f} times", flush=True)


main()
PY
