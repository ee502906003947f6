#!/usr/bin/env python3
"""Builds the program the first time: proves the crates that it stands on, side by side, and leaves it at its crate's out/.

Usage: first_build.py CRATE

`rt` proves one crate after another in one checkout, and side by side only where it proves all. So the crates that the program
stands on are copied to a folder of their own, proved there as many at a time as there are processors and memory for, and what was
made is moved to the checkout. A line tells each crate that is proved. The status is 0 where the program is built.
"""

import os
import re
import shutil
import subprocess
import sys
import tempfile
from pathlib import Path

TOP = Path(__file__).resolve().parent.parent
GIBIBYTES_EACH = 3


def lines_of_crates():
    """Each crate of crates.txt with its line and the names on it."""
    lines = {}
    for line in (TOP / "crates.txt").read_text().splitlines():
        line = line.split("#")[0].strip()
        if line:
            name, below = line.split(":")
            lines[name.split()[0]] = (line, below.split())
    return lines


def with_those_below(program, lines):
    """The program's crate and all that it stands on, in the order of crates.txt."""
    found, left = set(), [program]
    while left:
        name = left.pop()
        if name in lines and name not in found:
            found.add(name)
            left.extend(lines[name][1])
    return [name for name in lines if name in found]


def side_by_side():
    """How many proofs may run at a time."""
    pages = os.sysconf("SC_PHYS_PAGES") * os.sysconf("SC_PAGE_SIZE")
    return max(1, min(os.cpu_count() or 1, pages // (GIBIBYTES_EACH << 30)))


def copied(names, lines, folder):
    """Copies the crates and what rt reads beside them."""
    (folder / "crates.txt").write_text("".join(f"{lines[name][0]}\n" for name in names))
    shutil.copy(TOP / "HANDLES", folder)
    for name in names:
        shutil.copytree(TOP / "crates" / name, folder / "crates" / name)


def proved(names, folder):
    """Proves the crates in the folder, with a line for each; answers whether all are proved."""
    command = ["rt", "all", "check", "--jobs", str(side_by_side())]
    run = subprocess.Popen(command, cwd=folder, stdout=subprocess.PIPE, stderr=subprocess.STDOUT, text=True)
    last, count = [], 0
    for line in run.stdout:
        last = (last + [line])[-40:]
        told = re.match(r"rt: (\w+) proved$", line)
        if told:
            count += 1
            print(f"{count} of {len(names)}: {told.group(1)} proved", file=sys.stderr, flush=True)
    if run.wait() != 0:
        sys.stderr.writelines(last)
    return run.returncode == 0


def main():
    if len(sys.argv) != 2:
        sys.exit(__doc__.split("\n\n")[1])
    program, lines = sys.argv[1], lines_of_crates()
    names = with_those_below(program, lines)
    with tempfile.TemporaryDirectory() as folder:
        folder = Path(folder)
        copied(names, lines, folder)
        if not proved(names, folder):
            return 1
        built = subprocess.run(["rt", "run", "--", "help"], cwd=folder / "crates" / program, stdout=subprocess.DEVNULL)
        made = folder / "crates" / program / "out" / program
        if not made.exists():
            return built.returncode or 1
        for name in names:
            out = TOP / "crates" / name / "out"
            shutil.rmtree(out, ignore_errors=True)
            shutil.move(folder / "crates" / name / "out", out)
    return 0


if __name__ == "__main__":
    sys.exit(main())
