#!/usr/bin/env python3
"""words.py PROGRAM: runs PROGRAM on words of the command line of which one isn't UTF-8, which no test inside a crate can hand over.

Such words are none of the forms: the answer is the line on the usage, and status 4.
"""
import sys

import runs

USAGE = b"usage: vercors verify FILE | run FILE SCHEDULE | explain FILE UNIT | big N\n"
ROWS = [[b"\xff"], [b"verify", b"\xff"], [b"\xff", b"a.pvl"], [b"verify", b"a.pvl", b"\xc3"], [b"verify", b"\xed\xa0\x80"]]


def main(program):
    wrong = 0
    for words in ROWS:
        run = runs.run(program, *words)
        if (run.returncode, run.stdout) != (4, USAGE):
            wrong += 1
            print(f"{words}: status {run.returncode}, `{run.stdout.decode()}`")
    return runs.count("lines of words that aren't UTF-8", len(ROWS), wrong)


if __name__ == "__main__":
    sys.exit(main(sys.argv[1]))
