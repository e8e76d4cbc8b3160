#!/usr/bin/env python3
"""examples.py PROGRAM: runs what the documents for users have one type, and compares what comes.

A block of a document that begins with ```sh is typed line by line into one shell, in a folder of
its own where `examples` and the program `acqd` are. A plain block right behind it is what it
prints, faults too; if there is none it prints nothing. A block with a tool that this machine lacks
is left out, and so is a line that builds the program or tests it. A document that lies elsewhere
is read with DOCUMENTS=FOLDER, as a copy that has to fail."""
import os
import re
import shutil
import subprocess
import sys
import tempfile

from terminal import Wrong, free_port, main, wanted

HERE = os.path.dirname(os.path.abspath(__file__))
TOP = os.path.dirname(os.path.dirname(HERE))
DOCUMENTS = os.environ.get("DOCUMENTS", TOP)
# What comes between two blocks in a shell's output.
MARK = "==== the end of block"
# What isn't typed here, and what may not be there.
LEFT_OUT = ("./acqd build", "./acqd test")
TOOLS = ("sqlite3", "xxd")
FENCED = re.compile(r"^```(\w*)\n(.*?)^```$", re.DOTALL | re.MULTILINE)


def blocks_of(text):
    """The blocks of commands of a document: the line that each begins on, its commands, and what
    they print."""
    fences = list(FENCED.finditer(text))
    for it, behind in zip(fences, [*fences[1:], None]):
        if it[1] != "sh":
            continue
        follows = behind and not behind[1] and not text[it.end() : behind.start()].strip()
        yield text[: it.start()].count("\n") + 1, it[2], behind[2] if follows else ""


def can_run(commands):
    """Whether all tools that these commands want are there."""
    return all(shutil.which(it) for it in TOOLS if re.search(rf"\b{it}\b", commands))


def typed(commands, port):
    """The lines as they are typed, with a port that is free."""
    lines = [it for it in commands.splitlines() if not it.startswith(LEFT_OUT)]
    return "".join(f"{it}\n" for it in lines).replace("8583", str(port))


def printed(program, blocks):
    """What each block prints in the shell of its document."""
    port = free_port()
    script = "".join(f"{typed(it, port)}echo '{MARK}'\n" for it in blocks)
    with tempfile.TemporaryDirectory() as folder:
        shutil.copytree(f"{TOP}/examples", f"{folder}/examples")
        os.symlink(program, f"{folder}/acqd")
        shell = subprocess.Popen(
            ["bash", "-c", script], cwd=folder, stdin=subprocess.DEVNULL, stdout=subprocess.PIPE,
            stderr=subprocess.STDOUT, start_new_session=True,
        )
        try:
            out, _ = shell.communicate(timeout=600)
        finally:
            end_all(shell.pid)
    # The port as a number of its own: its digits may stand in a longer one.
    text = re.sub(rf"(?<!\d){port}(?!\d)", "8583", out.decode("latin-1"))
    came = text.split(f"{MARK}\n")
    wanted("how many blocks were typed to their end", len(came) - 1, len(blocks))
    return came[:-1]


def end_all(group):
    """Ends a host that a document leaves, with all that its shell began."""
    try:
        os.killpg(group, 9)
    except ProcessLookupError:
        pass


def as_the_document_says(program, names):
    with open(f"{DOCUMENTS}/{names[0]}", encoding="utf-8") as it:
        blocks = [block for block in blocks_of(it.read()) if can_run(block[1])]
    if not blocks:
        raise Wrong("no block to type")
    came = printed(program, [commands for _, commands, _ in blocks])
    for (line, _, want), got in zip(blocks, came):
        wanted(f"what the block at line {line} prints", got, want)


NAMES = ["README.md", "examples/README.md", "docs/FIRST-SALE.md", "docs/BOOKKEEPING.md", "docs/ISSUERS.md"]
TRIES = [(as_the_document_says, [name]) for name in NAMES]

if __name__ == "__main__":
    sys.exit(main(TRIES, at_once=4))
