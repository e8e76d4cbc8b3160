"""Proves and builds acqd: crates side by side, lowest first, as many as processors and memory
allow.

It shows on standard error each crate that is finished, how many are left, and the minutes so far.
What is finished stays in each crate's folder `out`, so a build that was interrupted goes on where
it was. `./acqd build` calls it.

The crates are handed to the kit's own command, `rt`, through the module that it is made of, since
one `rt` in a folder keeps others out of all crates below; with a kit whose module is another one,
`rt all check` does the same work, a crate at a time where it must.
"""

import functools
import importlib.machinery
import importlib.util
import os
import re
import shutil
import subprocess
import sys
import time

TOP = os.path.dirname(os.path.dirname(os.path.abspath(__file__)))
PROGRAM = "acqd"

# What a check takes at most, as most do; the largest take twice as much.
MEMORY_OF_A_CHECK = 2_000_000_000


def kit():
    """The module that the command `rt` is made of; None where it is another one."""
    sys.dont_write_bytecode = True
    folder = os.path.dirname(os.path.realpath(shutil.which("rt") or ""))
    loader = importlib.machinery.SourceFileLoader("rtlib", f"{folder}/rtlib.py")
    module = importlib.util.module_from_spec(importlib.util.spec_from_loader("rtlib", loader))
    sys.modules["rtlib"] = module
    try:
        loader.exec_module(module)
        return module if hasattr(module, "crates_below") and hasattr(module, "lock") else None
    except (OSError, ImportError):
        return None


def free_memory():
    """Bytes of memory that nobody uses."""
    with open("/proc/meminfo", encoding="ascii") as lines:
        return int(re.search(r"MemAvailable: *(\d+)", lines.read())[1]) * 1024


class Build:
    """The work on the libraries that a program uses."""

    def __init__(self, module):
        self.crates = {it.name: it for it in module.crates_below(f"{TOP}/crates")}
        self.below = {
            name: {it.name for it in crate.below()} for name, crate in self.crates.items()
        }
        self.needed = self.below[PROGRAM]
        self.chain = self.chains(module)
        self.done = {it for it in self.needed if self.crates[it].is_built()}
        self.at_work, self.jobs = {}, {}
        self.began = time.monotonic()
        self.processors = len(os.sched_getaffinity(0))

    def chains(self, module):
        """For each crate the lines of it and of the longest way from it up to the program."""
        lines = {name: 0 for name in self.needed}
        for name in self.needed:
            for file in module.files_of(self.crates[name].folder):
                with open(file, "rb") as it:
                    lines[name] += it.read().count(b"\n")
        known = {}
        for name in sorted(self.needed, key=lambda it: -len(self.below[it])):
            above = [known[it] for it in known if name in self.below[it]]
            known[name] = lines[name] + max(above, default=0)
        return known

    def say(self, words):
        minutes, seconds = divmod(int(time.monotonic() - self.began), 60)
        print(f"acqd: {minutes}:{seconds:02} {words}", file=sys.stderr, flush=True)

    def log_of(self, name):
        return f"{self.crates[name].folder}/out/build.log"

    def begin(self, name, jobs, work):
        """Begins work on a crate, in a process of its own, and returns the process."""
        crate = self.crates[name]
        os.makedirs(f"{crate.folder}/out", exist_ok=True)
        process = os.fork()
        if process == 0:
            log = os.open(self.log_of(name), os.O_WRONLY | os.O_CREAT | os.O_TRUNC, 0o644)
            os.dup2(log, 1)
            os.dup2(log, 2)
            crate.out = sys.stdout
            try:
                status = work(crate, ["--jobs", str(jobs)])
            except SystemExit:
                status = 1
            sys.stdout.flush()
            os._exit(1 if status else 0)
        return process

    def prove(self, name, jobs):
        """Begins a library."""
        process = self.begin(name, jobs, lambda crate, flags: crate.build_rlib(flags, anew=False))
        self.at_work[process], self.jobs[name] = name, jobs

    def tell_failure(self, name):
        self.say(f"{name} failed, as {os.path.relpath(self.log_of(name))} says:")
        with open(self.log_of(name), encoding="utf-8", errors="replace") as it:
            sys.stderr.writelines(it.readlines()[-20:])

    def build_program(self):
        """Proves and builds the program, has it say its version, and returns whether that went
        well."""
        self.say("at work on the program")
        self.crates[PROGRAM].held = []
        jobs = min(3, self.processors)
        process = self.begin(PROGRAM, jobs, lambda crate, flags: crate.run(flags, ["--version"]))
        if os.waitpid(process, 0)[1]:
            self.tell_failure(PROGRAM)
            return False
        return True

    def begin_what_fits(self):
        """Begins the crates that are ready, those with most above them first. Where processors
        would stand idle, a crate gets up to three."""
        while True:
            idle = self.processors - sum(self.jobs[it] for it in self.at_work.values())
            left = self.needed - self.done - set(self.at_work.values())
            ready = [it for it in left if self.below[it] <= self.done]
            ready.sort(key=lambda it: -self.chain[it])
            if not ready or idle < 1 or (self.at_work and free_memory() < 2 * MEMORY_OF_A_CHECK):
                return
            self.prove(ready[0], max(1, min(3, idle - len(ready) + 1)))

    def wait(self):
        """Waits for a crate, and returns whether it was proved."""
        process, status = os.wait()
        name = self.at_work.pop(process)
        if status:
            self.tell_failure(name)
            return False
        self.done.add(name)
        left = len(self.needed) - len(self.done)
        others = ", ".join(sorted(self.at_work.values()))
        now = f", at work on {others}" if others else ""
        self.say(f"{name} is proved; {left} crates left{now}")
        return True

    def run(self):
        """Proves all libraries, and returns whether all were."""
        self.say(f"{len(self.needed) - len(self.done)} crates to prove, and then the program")
        fits = True
        while fits and self.done < self.needed:
            self.begin_what_fits()
            fits = self.wait()
        for process in self.at_work:
            os.waitpid(process, 0)
        return fits


def build_by(module):
    """Builds the program by rt's own module, and returns whether it was built."""
    # The sum of a crate takes in those of all below it, which would be made anew for each way down.
    module.Crate.stamp = functools.cache(module.Crate.stamp)
    work = Build(module)
    held = module.lock(list(work.crates.values()))
    fits = work.run() and work.build_program()
    for it in held:
        os.close(it)
    return fits


def build_by_rt():
    """Builds the program by the command rt alone, and returns whether it was built."""
    jobs = str(len(os.sched_getaffinity(0)))
    words = [("rt", "all", "check", "--jobs", jobs), ("rt", "run", "--", "--version")]
    folders = [f"{TOP}/crates", f"{TOP}/crates/{PROGRAM}"]
    runs = (subprocess.run(it, cwd=at, check=False) for it, at in zip(words, folders))
    return not any(it.returncode for it in runs)


def sum_of_sources():
    """The sum of the sources as they are now, by which ./acqd knows what the program is built
    of."""
    words = ["sh", f"{TOP}/scripts/sources"]
    return subprocess.run(words, stdout=subprocess.PIPE, check=True).stdout


def build():
    """Builds the program, and returns the status."""
    began, since = time.time(), time.monotonic()
    sources = sum_of_sources()
    module = kit()
    if not (build_by(module) if module else build_by_rt()):
        return 1
    folder = f"{TOP}/crates/{PROGRAM}"
    stamp = f"{folder}/out/{PROGRAM}.built"
    with open(stamp, "wb") as it:
        it.write(sources)
    # A source that was changed in the meantime is newer than this, and has another sum.
    os.utime(stamp, (began, began))
    minutes, seconds = divmod(int(time.monotonic() - since), 60)
    print(
        f"acqd: built in {minutes}:{seconds:02}: {os.path.relpath(folder)}/out/{PROGRAM},"
        " one file that needs the C library alone",
        file=sys.stderr,
    )
    return 0


if __name__ == "__main__":
    sys.exit(build())
