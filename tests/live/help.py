#!/usr/bin/env python3
"""help.py PROGRAM: the texts of scripts/help, which ./acqd shows where nothing is built, are the
program's own.

`help.py PROGRAM --write` has the program write them anew."""
import os
import sys

from terminal import main, output, wanted

HERE = os.path.dirname(os.path.abspath(__file__))
TEXTS = f"{os.path.dirname(os.path.dirname(HERE))}/scripts/help"


def commands_of(text):
    """The names in the list of commands of a help."""
    _, _, behind = text.partition("\nCommands:\n")
    return [line.split()[0] for line in behind.partition("\n\n")[0].splitlines()]


def said(program):
    """What the program says: its help, its version, and the help of each command, by name."""
    own = output([program, "--help"]).decode()
    texts = {"acqd": own, "version": output([program, "--version"]).decode()}
    for name in commands_of(own):
        texts[name] = output([program, "help", name]).decode()
    return {f"{name}.txt": text for name, text in texts.items()}


def as_the_program_says(program):
    texts = said(program)
    wanted("the names of the texts", sorted(os.listdir(TEXTS)), sorted(texts))
    for name, text in texts.items():
        with open(f"{TEXTS}/{name}", encoding="utf-8") as it:
            wanted(f"the text {name}", it.read().splitlines(), text.splitlines())


def each_way_to_ask(program):
    """`COMMAND --help`, `COMMAND -h` and `help COMMAND` are one text."""
    for name in commands_of(output([program, "--help"]).decode()):
        if name != "help":
            text = output([program, "help", name])
            for word in ("--help", "-h"):
                wanted(f"{name} {word}", output([program, name, word]), text)


def write(program):
    """Writes the texts anew."""
    for name in os.listdir(TEXTS):
        os.remove(f"{TEXTS}/{name}")
    for name, text in said(program).items():
        with open(f"{TEXTS}/{name}", "w", encoding="utf-8") as it:
            it.write(text)


if __name__ == "__main__":
    if sys.argv[2:] == ["--write"]:
        sys.exit(write(os.path.abspath(sys.argv[1])))
    sys.exit(main([as_the_program_says, each_way_to_ask]))
