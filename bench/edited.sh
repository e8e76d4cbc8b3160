#!/bin/sh
# edited.sh [EDITS]: changes one cell, or takes out one row, of a book at random, 300 times or as often as its
# argument says, each time in a copy of its own, and asks for the clearing file and the settlement report of its
# days. It prints how many changes were told, how many changed nothing that was asked for, and how many gave
# other files without a word, by table. It needs python3.
set -eu
unset CDPATH
cd "$(dirname "$0")/.."
./acqd build
exec python3 - "$PWD/crates/acqd/out/acqd" "${1:-300}" <<'PY'
import collections, os, random, shutil, sqlite3, subprocess, sys, tempfile

PROGRAM, COUNT = sys.argv[1], int(sys.argv[2])
MOMENT, DAYS, MERCHANTS, SALES = 1714555800, ["2024-05-01", "2024-05-02"], 5, 6


def lines():
    yield "addrange,40000000,49999999,12345,7,"
    for it in range(MERCHANTS):
        yield f"enrol,MERCHANT{it:07},978,1,,"
        yield f"terminal,MERCHANT{it:07},TERM0001,,,"
    reference = 0
    for day in range(len(DAYS)):
        for sale in range(SALES):
            reference += 1
            for it in range(MERCHANTS):
                text = (f"02007220000000C080001641111111111111110000000000000{1000 + sale:05}"
                        f"0501093000{reference:06}TERM0001MERCHANT{it:07}978")
                yield f"frame,{MOMENT},{text.encode().hex()},,,"
                yield f"answer,{MOMENT},MERCHANT{it:07},{reference},approved,A1B2C3"
        yield f"cutover,{MOMENT},,,,"


def files(book):
    """What is said of each day, and whether anything was told."""
    said, told = [], False
    for day in DAYS:
        for command in ("clearing", "report"):
            ran = subprocess.run([PROGRAM, command, "--db", book, "--day", day], capture_output=True)
            said.append(ran.stdout)
            told = told or ran.returncode != 0
    return said, told


def change(book, chance):
    """Changes one cell or takes out one row, and returns the table and what was done."""
    found = sqlite3.connect(book)
    table = chance.choice(["merchants", "requests", "postings", "running", "postings", "running"])
    rows = [it[0] for it in found.execute(f"SELECT rowid FROM {table}")]
    row = chance.choice(rows)
    columns = [it[1] for it in found.execute(f"PRAGMA table_info({table})")]
    column = chance.choice(columns + ["a row"])
    try:
        if column == "a row":
            found.execute(f"DELETE FROM {table} WHERE rowid = ?", (row,))
        else:
            (value,) = found.execute(f"SELECT {column} FROM {table} WHERE rowid = ?", (row,)).fetchone()
            if isinstance(value, int):
                value += chance.choice([-1, 1, 10])
            elif value:
                at = chance.randrange(len(value))
                value = value[:at] + chr(ord(value[at]) ^ 1) + value[at + 1:]
            found.execute(f"UPDATE {table} SET {column} = ? WHERE rowid = ?", (value, row))
        found.commit()
    except sqlite3.Error:
        return None
    finally:
        found.close()
    return table, column


work, chance = tempfile.mkdtemp(), random.Random(8583)
try:
    whole = f"{work}/whole.db"
    subprocess.run([PROGRAM, "init", "--db", whole, "--limit", "999999", "--day", DAYS[0]], check=True)
    text = "".join(f"{it}\n" for it in lines()).encode()
    subprocess.run([PROGRAM, "replay", "--db", whole], input=text, stdout=subprocess.DEVNULL, check=True)
    said, told = files(whole)
    assert not told
    counts, silent = collections.Counter(), collections.Counter()
    while sum(counts.values()) < COUNT:
        book = f"{work}/book.db"
        for end in ("", "-wal"):
            if os.path.exists(book + end):
                os.remove(book + end)
        shutil.copyfile(whole, book)
        done = change(book, chance)
        if done is None:
            continue
        came, told = files(book)
        counts["told" if told else "the same" if came == said else "silent"] += 1
        if not told and came != said:
            silent[done] += 1
    print(f"{COUNT} changes: {counts['told']} told, {counts['the same']} changed nothing that was asked for, "
          f"{counts['silent']} gave other files without a word:")
    for (table, column), times in silent.most_common():
        print(f"  {times} of {table}, {column}")
finally:
    shutil.rmtree(work, ignore_errors=True)
PY
