#!/usr/bin/env python3
"""package.py PROGRAM: the Debian package that scripts/deb makes of the program.

It is installed, upgraded, removed and purged on this machine's files under a layer in memory, which
takes all that is written and is gone with the try. What lacks its tools here is left out: dpkg-deb,
objdump, strip; for the layer the rights of root, dpkg, adduser and mounts; and lintian."""
import functools
import gzip
import os
import re
import shutil
import subprocess
import sys
import tempfile

from terminal import DAY, Wrong, code_of, main, output, run, wanted

HERE = os.path.dirname(os.path.abspath(__file__))
TOP = os.path.dirname(os.path.dirname(HERE))
# A machine of its own: its folder is $0. What stands there of an acqd goes first, in the layer.
LAYER = """
cd "$0" && mount -t tmpfs none . && cd "$0" && mkdir upper work root || exit 1
mount -t overlay none -o lowerdir=/,upperdir="$0/upper",workdir="$0/work" root || exit 1
mount -t proc none root/proc && mount --rbind /dev root/dev || exit 1
chroot root sh -c 'dpkg --purge acqd; userdel acqd
rm -rf /var/lib/acqd /var/log/acqd /run/systemd' >/dev/null 2>&1
echo ready
exec sleep 600
"""


class Package:
    """The package, in a folder of its own, and what is in it."""

    def __init__(self, program):
        self.held = tempfile.TemporaryDirectory()
        self.folder = self.held.name
        output([f"{TOP}/scripts/deb", program, self.folder])
        (self.name,) = os.listdir(self.folder)
        self.path = f"{self.folder}/{self.name}"
        self.tree = f"{self.folder}/tree"
        output(["dpkg-deb", "--raw-extract", self.path, self.tree])

    def field(self, name):
        return output(["dpkg-deb", "--field", self.path, name]).decode().strip()

    def read(self, name):
        with open(f"{self.tree}/{name}", "rb") as it:
            return it.read()


@functools.cache
def package_of(program):
    """The package of the program, which all tries share."""
    return Package(program)


class Machine:
    """This machine's files under a layer."""

    def __init__(self, package):
        self.folder = f"{package.folder}/machine"
        os.mkdir(self.folder)
        apart = ["unshare", "--mount", "--pid", "--fork", "--kill-child"]
        words = [*apart, "sh", "-c", LAYER, self.folder]
        self.process = subprocess.Popen(words, stdout=subprocess.PIPE, stderr=subprocess.PIPE)
        if self.process.stdout.readline() != b"ready\n":
            raise Wrong(f"no layer: {self.process.communicate()[1]}")
        with open(f"/proc/{self.process.pid}/task/{self.process.pid}/children", "rb") as it:
            inside = it.read().decode().strip()
        self.enter = ["nsenter", "-t", inside, "-m", "-p", "chroot", f"{self.folder}/root"]
        shutil.copyfile(package.path, f"/proc/{inside}/root{self.folder}/root/acqd.deb")

    def __enter__(self):
        return self

    def __exit__(self, *_):
        self.process.kill()
        self.process.communicate()
        os.rmdir(self.folder)

    def run(self, *words, given=b""):
        return run([*self.enter, *words], given)

    def output(self, *words, given=b""):
        status, out, faults = self.run(*words, given=given)
        if status:
            raise Wrong(f"{' '.join(words)}: status {status}, {faults}")
        return out

    def acqd(self, *words, given=b""):
        """What the program writes for the user acqd."""
        return self.output("runuser", "-u", "acqd", "--", "acqd", *words, given=given)

    def owned(self, path):
        return self.output("stat", "-c", "%U:%G %a", path).decode().strip()

    def has(self, path):
        return self.run("test", "-e", path)[0] == 0


def what_it_has(program):
    """Its fields, its files, and the program without its symbols."""
    package = package_of(program)
    version = output([program, "--version"]).decode().split()[1]
    fields = [package.field(it) for it in ("Package", "Version", "Architecture")]
    wanted("its fields", fields, ["acqd", version, "amd64"])
    wanted("its name", package.name, f"acqd_{version}_amd64.deb")
    wanted("its program", output([f"{package.tree}/usr/bin/acqd", "--version"]).split()[1],
           version.encode())
    needed = output(["objdump", "-T", program]).decode()
    versions = re.findall(r"GLIBC_([\d.]+)", needed)
    libc = max(versions, key=lambda it: [int(part) for part in it.split(".")])
    wanted("what it depends on", package.field("Depends"), f"adduser, libc6 (>= {libc})")
    listed = output(["dpkg-deb", "--contents", package.path]).decode()
    owners = {line.split()[1] for line in listed.splitlines()}
    wanted("who has its files", owners, {"root/root"})
    unit = package.read("usr/lib/systemd/system/acqd.service").decode()
    wanted("paths of its unit", (unit.count("/usr/bin/acqd"), "/usr/local" in unit), (3, False))
    for name in ("README.md", "docs/INSTALL.md", "examples/machines/acqd.service", "copyright"):
        package.read(f"usr/share/doc/acqd/{name}")


def lists_of(text):
    """The options and arguments of a help, with what each means."""
    lists = re.findall(r"^(?:Options|Arguments):\n((?: .*\n)+)", text, re.MULTILINE)
    return [tuple(re.split("  +", line.strip())) for it in lists for line in it.splitlines()]


def entries_of(section):
    """The same of a section of a manual page."""
    plain = section.replace("\\-", "-").replace("\\fB", "`").replace("\\fR", "`")
    return re.findall(r"^\.TP\n\.B (.*)\n(.*)$", plain, re.MULTILINE)


def the_manual(program):
    """The manual page has each command, and of each the options that its help has."""
    package = package_of(program)
    page = gzip.decompress(package.read("usr/share/man/man1/acqd.1.gz")).decode()
    sections = dict(re.findall(r"^\.S[SH] ([^\n]*)\n(.*?)(?=^\.S[SH] |\Z)", page, re.S | re.M))
    own = output([program, "--help"]).decode()
    wanted("the options of acqd", entries_of(sections["OPTIONS"]), lists_of(own))
    listed = own.partition("\nCommands:\n")[2].partition("\n\n")[0]
    names = [it.split()[0] for it in listed.splitlines() if not it.startswith("  help ")]
    told = [it.partition(" ")[2] for it in sections if it.startswith("acqd ")]
    wanted("the commands of the manual", told, names)
    for name in names:
        entries = entries_of(sections[f"acqd {name}"])
        help_text = output([program, name, "--help"]).decode()
        wanted(f"the options of {name}", entries, lists_of(help_text))
    if shutil.which("man"):
        words = ["man", "--warnings", "-l", f"{package.tree}/usr/share/man/man1/acqd.1.gz"]
        wanted("what man says of it", (run(words)[0], run(words)[2]), (0, ""))


def sale(machine):
    """The code of the sale of examples, by the user acqd over the book of the service."""
    words = ["--db", "/var/lib/acqd/book.db", "--issuers", "/var/lib/acqd/issuers.csv"]
    with open(f"{TOP}/examples/sale.frame", "rb") as it:
        return code_of(machine.acqd("once", *words, given=it.read()))


def set_up(machine):
    """Makes the book and the issuers' file as docs/INSTALL.md does."""
    book = ["--db", "/var/lib/acqd/book.db"]
    machine.acqd("init", *book, "--limit", "999999", "--day", DAY)
    examples = "/usr/share/doc/acqd/examples"
    machine.output("install", "-o", "acqd", "-g", "acqd", "-m", "600",
                   f"{examples}/issuers.csv", "/var/lib/acqd/")
    machine.acqd("replay", *book, given=machine.output("cat", f"{examples}/setup.csv"))


def on_a_machine(program):
    """Installed it makes the user and the folders, and no book; an upgrade, a removal and a purge
    leave the book as it is."""
    package = package_of(program)
    with Machine(package) as machine:
        said = machine.output("dpkg", "--no-triggers", "-i", "/acqd.deb")
        wanted("that it says what to do", b"make a book" in said, True)
        for folder in ("/var/lib/acqd", "/var/log/acqd"):
            wanted(f"who has {folder}", machine.owned(folder), "acqd:acqd 700")
            wanted(f"what is in {folder}", machine.output("ls", "-A", folder), b"")
        user = machine.output("getent", "passwd", "acqd").decode().strip().split(":")
        wanted("the user", user[5:], ["/var/lib/acqd", "/usr/sbin/nologin"])
        enabled = machine.run("find", "/etc/systemd", "-name", "acqd*")[1]
        wanted("what is enabled", enabled, b"")
        set_up(machine)
        wanted("a sale", sale(machine), "00")
        machine.output("chmod", "750", "/var/log/acqd")
        said = machine.output("dpkg", "--no-triggers", "-i", "/acqd.deb")
        wanted("what an upgrade says to do", b"make a book" in said, False)
        wanted("a folder's own mode", machine.owned("/var/log/acqd"), "acqd:acqd 750")
        book = machine.output("sha256sum", "/var/lib/acqd/book.db")
        wanted("the same sale again", sale(machine), "00")
        wanted("the book", machine.output("sha256sum", "/var/lib/acqd/book.db"), book)
        machine.output("dpkg", "--remove", "acqd")
        wanted("that the program is gone", machine.has("/usr/bin/acqd"), False)
        said = machine.output("dpkg", "--purge", "acqd").decode()
        wanted("what a purge leaves", re.findall("acqd: (.*?) stays", said),
               ["/var/lib/acqd", "/var/log/acqd", "the user acqd"])
        wanted("the book then", machine.output("sha256sum", "/var/lib/acqd/book.db"), book)
        wanted("whose it is", machine.owned("/var/lib/acqd/book.db"), "acqd:acqd 600")


def no_errors(program):
    """lintian finds no error."""
    package = package_of(program)
    words = ["lintian", "--fail-on", "error", "--allow-root", package.path]
    status, out, _ = run(words, env={**os.environ, "TMPDIR": package.folder})
    errors = [it for it in out.decode().splitlines() if it.startswith("E:")]
    wanted("what lintian says", (status, errors), (0, []))


def has(*tools):
    return all(shutil.which(it) for it in tools)


def can_layer():
    """Whether files may be laid over this machine's here; a container may forbid it."""
    if os.geteuid() != 0 or not has("dpkg", "adduser", "unshare", "nsenter"):
        return False
    with tempfile.TemporaryDirectory() as folder:
        apart = ["unshare", "--mount", "--pid", "--fork", "--kill-child"]
        layer = LAYER.replace("echo ready\nexec sleep 600\n", "exit 0\n")
        tried = subprocess.run([*apart, "sh", "-c", layer, folder], capture_output=True, check=False)
        return tried.returncode == 0


TRIES = []
if has("dpkg-deb", "objdump", "strip"):
    TRIES += [what_it_has, the_manual]
    TRIES += [on_a_machine] if can_layer() else []
    TRIES += [no_errors] if has("lintian") else []

if __name__ == "__main__":
    sys.exit(main(TRIES))
