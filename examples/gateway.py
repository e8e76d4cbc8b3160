#!/usr/bin/env python3
"""gateway.py SOCKET FILE [LIMIT]: a gateway for `acqd listen --gateway SOCKET`, and the issuer.

It approves a request below LIMIT (10000, in minor units) and declines any other with 51. It prints
what an issuer has to be told. FILE keeps what outlasts the gateway (docs/ISSUERS.md)."""
import csv
import json
import os
import socket
import sys
import time


class Kept:
    """The last row that the host told of, and what is kept of each row that isn't done."""

    def __init__(self, path):
        self.path, self.last, self.rows = path, 0, {}
        if os.path.exists(path):
            with open(path, encoding="ascii") as it:
                self.last, rows = json.load(it)
            self.rows = {int(row): it for row, it in rows.items()}

    def behind(self):
        """The N of `from,N`: the greatest row such that all rows up to it are done."""
        return min(self.rows, default=self.last + 1) - 1

    def change(self, row, what=None):
        """Keeps this of a row, or if it is None takes the row as done."""
        self.last = max(self.last, row)
        self.rows.pop(row, None)
        if what is not None:
            self.rows[row] = what
        with open(os.open(f"{self.path}.new", os.O_CREAT | os.O_WRONLY | os.O_TRUNC, 0o600), "w",
                  encoding="ascii") as it:
            json.dump([self.last, self.rows], it)
            it.flush()
            os.fsync(it.fileno())
        os.replace(f"{self.path}.new", self.path)


def lines_of(end):
    """The fields of each whole line that comes."""
    for line in end.makefile(encoding="latin-1", newline="\n"):
        if line.endswith("\n"):
            yield next(csv.reader([line.rstrip("\r\n")]))


def answer_to(merchant, reference, verdict):
    return f'answer,now,"{merchant}",{reference},{verdict}\n'.encode("latin-1")


def masked(card):
    return f"{card[:6]}{'*' * (len(card) - 10)}{card[-4:]}" if len(card) > 12 else "*" * len(card)


def serve(end, kept, limit):
    """Does what the host's lines ask for, until the connection ends."""
    end.sendall(b"from,%d\n" % kept.behind())
    for asked in kept.rows.values():
        end.sendall(answer_to(*asked))
    for word, *fields in lines_of(end):
        if word == "query":
            row, merchant, reference, amount = int(fields[0]), *fields[1:3], int(fields[6])
            verdict = f"approved,{reference[-6:]}" if amount < limit else "declined,51"
            kept.change(row, [merchant, reference, verdict])
            end.sendall(answer_to(merchant, reference, verdict))
        elif word == "advice":
            row, merchant, reference, what = int(fields[0]), *fields[1:4]
            print(",".join([word, *fields[:5], masked(fields[5]), *fields[6:]]), flush=True)
            if what == "timeout":
                print(f"reverse {merchant} {reference} if it was approved", flush=True)
            kept.change(row, kept.rows.get(row))
        elif word in ("done", "refused"):
            for row, (*key, verdict) in list(kept.rows.items()):
                if key == fields[-2:]:
                    if word == "refused" and verdict.startswith("approved"):
                        print(f"reverse {' '.join(key)}: refused with {fields[0]}", flush=True)
                    kept.change(row)
        else:
            sys.exit(f"gateway.py: the host says {word}")


def main():
    path, file, *limit = sys.argv[1:]
    kept = Kept(file)
    while True:
        try:
            with socket.socket(socket.AF_UNIX) as end:
                end.connect(path)
                serve(end, kept, int(*limit or ["10000"]))
        except OSError:  # nobody listens yet, or the host is gone
            time.sleep(0.2)


if __name__ == "__main__":
    main()
