"""Plays rows that are wrong, and wants just the differences that are known to be told of them.

    differ.py FOLDER COMMAND..

The folder has files of wrong rows, and `differences`: what the command prints when it plays these,
and ends with status 1. What it prints more than once, as a scenario over files that stop does,
stands there once. Status 1 where it prints anything else.
"""

import difflib
import os
import subprocess
import sys
from pathlib import Path

KNOWN = "differences"


def parts_of(lines):
    """The lines of a file, and each of its differences, once."""
    parts = []
    for line in lines:
        if line.startswith("        "):
            parts[-1] += f"\n{line}"
        else:
            parts.append(line)
    seen = set()
    for part in parts:
        if not part.startswith(" "):
            seen.clear()
        if part not in seen:
            yield part
        seen.add(part)


def main():
    folder, command = Path(sys.argv[1]), sys.argv[2:]
    names = sorted(it.name for it in folder.iterdir() if it.name != KNOWN)
    words = [os.path.abspath(it) if os.path.exists(it) else it for it in command]
    ran = subprocess.run([*words, *names], cwd=folder, capture_output=True, text=True, check=False)
    came = "\n".join(parts_of(ran.stdout.splitlines())).splitlines()
    known = (folder / KNOWN).read_text(encoding="utf-8").splitlines()
    for line in difflib.unified_diff(known, came, "known", "what was told", lineterm=""):
        print(line)
    if ran.stderr:
        print(ran.stderr, end="")
    if ran.returncode != 1:
        print(f"wrong rows: status {ran.returncode}, and not 1")
    return 0 if (came, ran.stderr, ran.returncode) == (known, "", 1) else 1


if __name__ == "__main__":
    sys.exit(main())
