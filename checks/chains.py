#!/usr/bin/env python3
"""Names the longest chain of crates, each standing on the one before it. Ends with 1 where it has more than eight."""
import os
import sys

MOST = 8
CRATES = os.path.join(os.path.dirname(os.path.abspath(__file__)), "..", "crates.txt")


def read(path):
    stands_on = {}
    with open(path, encoding="utf-8") as lines:
        for line in lines:
            line = line.split("#")[0].strip()
            if line:
                name, below = line.split(":")
                stands_on[name.strip()] = below.split()
    return stands_on


def longest(stands_on):
    chains = {}

    def chain(crate):
        if crate not in chains:
            below = [chain(other) for other in stands_on[crate] if other in stands_on]
            chains[crate] = max(below, key=len, default=[]) + [crate]
        return chains[crate]

    return max((chain(crate) for crate in stands_on), key=len, default=[])


def main():
    chain = longest(read(CRATES))
    print(len(chain), " ".join(chain))
    return 1 if len(chain) > MOST else 0


if __name__ == "__main__":
    sys.exit(main())
