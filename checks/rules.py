#!/usr/bin/env python3
"""rules.py PROGRAM: runs PROGRAM on each text of rules.tsv, and compares the first line that it prints with the one beside it.

A row is a text and its line, with a tab between them; in the text `\\n` stands for a line feed and `\\\\` for a backslash. For each case
of each static rule and shape there is a text that breaks it, and mostly one beside it that differs in one token and keeps it.
"""
import os
import re
import sys
import tempfile

import runs

ROWS = os.path.join(os.path.dirname(os.path.abspath(__file__)), "rules.tsv")


def main(program):
    rows = open(ROWS, "rb").read().splitlines()
    wrong = 0
    with tempfile.TemporaryDirectory() as place:
        for row in rows:
            written, line = row.split(b"\t")
            text = re.sub(rb"\\(.)", lambda m: b"\n" if m[1] == b"n" else m[1], written)
            with open(os.path.join(place, "text.pvl"), "wb") as file:
                file.write(text)
            first = runs.run(program, "verify", "text.pvl", folder=place).stdout.split(b"\n")[0]
            if first != line:
                wrong += 1
                print(f"{written.decode()}: `{first.decode()}`, not `{line.decode()}`")
    return runs.count("texts of the rules", len(rows), wrong)


if __name__ == "__main__":
    sys.exit(main(sys.argv[1]))
