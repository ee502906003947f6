#!/usr/bin/env python3
"""Names the lines of specs/ and proofs/ that are too long.

widths.py [CRATE..]   of these crates, or of all; imports don't count. Ends with 1 where there is one.
"""
import glob
import os
import sys

MOST = 130
TOP = os.path.join(os.path.dirname(os.path.abspath(__file__)), "..", "crates")


def too_long(path):
    with open(path, encoding="utf-8") as lines:
        for number, line in enumerate(lines, 1):
            line = line.rstrip("\n")
            if len(line) > MOST and not line.startswith(("use ", "pub use ")):
                yield number, len(line)


def main(crates):
    found = 0
    for crate in crates or sorted(os.listdir(TOP)):
        for room in ("specs", "proofs"):
            for path in sorted(glob.glob(os.path.join(TOP, crate, room, "**", "*.antt"), recursive=True)):
                for number, length in too_long(path):
                    found += 1
                    print(f"{os.path.relpath(path, os.path.join(TOP, '..'))}:{number}: {length}")
    return 1 if found else 0


if __name__ == "__main__":
    sys.exit(main(sys.argv[1:]))
