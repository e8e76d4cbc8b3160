#!/usr/bin/env python3
"""statements.py [--write]: whether the definitions and statements that docs/inside/BELIEVE.md has a
reader read are those that were read: `tests/statements` has the checksum of each file, as sha256sum
writes them. With `--write` the list is written anew, and what changed is said: read these files
first."""
import hashlib
import os
import re
import sys

HERE = os.path.dirname(os.path.abspath(__file__))
TOP = os.path.dirname(HERE)
LIST = f"{HERE}/statements"


def folders():
    """The crates that the table of docs/inside/BELIEVE.md names: all that their `specs` say is
    read."""
    with open(f"{TOP}/docs/inside/BELIEVE.md", encoding="utf-8") as it:
        lines = [line for line in it if re.match(r"\| [0-9]+ \|", line)]
    words = {word for line in lines for word in re.findall("`([a-z_0-9]+)`", line.split("|")[2])}
    named = sorted(it for it in words if os.path.isdir(f"{TOP}/crates/{it}/specs"))
    return [f"crates/{it}/specs" for it in named]


def sums():
    """The checksum of each file that is read, by its path."""
    found = {}
    for folder in folders():
        for at, _, names in os.walk(f"{TOP}/{folder}"):
            for path in (f"{at}/{name}" for name in names):
                with open(path, "rb") as it:
                    found[os.path.relpath(path, TOP)] = hashlib.sha256(it.read()).hexdigest()
    return found


def kept():
    with open(LIST, encoding="ascii") as it:
        return {path: digits for digits, path in (line.split() for line in it)}


def changes(old, new):
    """What changed between two lists, in words."""
    said = [f"changed: {it}" for it in sorted(old.keys() & new.keys()) if old[it] != new[it]]
    said += [f"gone: {it}" for it in sorted(old.keys() - new.keys())]
    return said + [f"new: {it}" for it in sorted(new.keys() - old.keys())]


def main(words):
    new, old = sums(), kept() if os.path.exists(LIST) else {}
    changed = changes(old, new)
    for it in changed:
        print(it)
    if words == ["--write"]:
        with open(LIST, "w", encoding="ascii") as it:
            it.writelines(f"{new[path]}  {path}\n" for path in sorted(new))
        print(f"{len(new)} files are in the list, {len(changed)} changed")
        return 0
    if changed:
        print("statements: read what changed, and then `python3 tests/statements.py --write`")
        return 1
    print(f"statements: {len(new)} files as they were read")
    return 0


if __name__ == "__main__":
    sys.exit(main(sys.argv[1:]))
