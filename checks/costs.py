#!/usr/bin/env python3
"""costs.py [COMMAND..]: runs the gate, or the command given, and writes what each crate cost into the table of docs/SPEED.md.

The gate is run as `rt ci --anew`, at the top of the repository, so that it proves and tries all of it from nothing. While it runs, its processes
are looked at, and the processor time of each, user and system together, is counted for the crate that it works on: for the proof, for the
tests, or for the must-fail edits with the check that they begin from. A row of the table stays where its crate wasn't worked on, and goes
where there is no such crate any more. It ends as the command does.
"""
import collections
import os
import re
import subprocess
import sys
import time

TOP = os.path.dirname(os.path.dirname(os.path.abspath(__file__)))
PAGE = os.path.join(TOP, "docs", "SPEED.md")
HEADING = "## What the gate costs (`checks/costs.py`)"
TEXT = """
Seconds of processor time, user and system together, as one run of the gate from nothing took them: for the proof of each crate, for its tests,
and for its must-fail edits with the check that they begin from.

| crate | proof | tests | edits | of how many edits |
|---|---|---|---|---|
"""
TICKS = os.sysconf("SC_CLK_TCK")
PROOF, TESTS, EDITS = range(3)


def crates():
    """The crates of crates.txt, in the order of the file."""
    lines = (line.split("#")[0] for line in open(os.path.join(TOP, "crates.txt"), encoding="utf-8"))
    return [line.partition(":")[0].split()[0] for line in lines if ":" in line]


def parents():
    """The parent of each process that there is."""
    found = {}
    for name in os.listdir("/proc"):
        if name.isdigit():
            try:
                with open(f"/proc/{name}/stat", encoding="utf-8", errors="replace") as file:
                    found[int(name)] = int(file.read().rpartition(")")[2].split()[1])
            except OSError:
                pass
    return found


def is_below(process, top, parent):
    while process in parent:
        if process == top:
            return True
        process = parent[process]
    return False


def look(process):
    """The work of a process, told by its crate and its kind, and the processor time that it has taken; none where it proves nothing."""
    try:
        with open(f"/proc/{process}/cmdline", encoding="utf-8", errors="replace") as file:
            words = file.read().split("\0")
        with open(f"/proc/{process}/stat", encoding="utf-8", errors="replace") as file:
            fields = file.read().rpartition(")")[2].split()
        folder = os.readlink(f"/proc/{process}/cwd")
    except OSError:
        return None
    named = re.search(r"/rattle build --crate-name (\S+)", " ".join(words))
    if not named:
        return None
    kind = EDITS if "rt-edit" in folder else TESTS if any(it.endswith("_tests.o") for it in words) else PROOF
    return (named.group(1), kind), (int(fields[11]) + int(fields[12])) / TICKS, fields[19]


def watch(command):
    """Runs the command, and gives the seconds of each work and the status."""
    running = subprocess.Popen(command, cwd=TOP)
    seen = {}
    while running.poll() is None:
        parent = parents()
        for process in parent:
            if is_below(process, running.pid, parent):
                looked = look(process)
                if looked:
                    work, seconds, start = looked
                    seen[process, start] = (work, seconds)
        time.sleep(0.5)
    total = collections.Counter()
    for work, seconds in seen.values():
        total[work] += seconds
    return total, running.returncode


def cells_of(name, total):
    edits = [it for it in os.listdir(os.path.join(TOP, "crates", name, "must-fail")) if it.endswith(".edit")] if os.path.isdir(
        os.path.join(TOP, "crates", name, "must-fail")) else []
    cells = [f"{total[name, kind]:.0f}" if total[name, kind] else "" for kind in (PROOF, TESTS, EDITS)]
    return cells + [str(len(edits)) if edits else ""]


def write_table(total):
    order = crates()
    page = open(PAGE, encoding="utf-8").read()
    before, _, rest = page.partition(HEADING)
    following = re.search(r"^## ", rest, re.M)
    old, after = (rest[:following.start()], "\n" + rest[following.start():]) if following else (rest, "")
    rows = {}
    for line in old.splitlines():
        cells = [it.strip() for it in line.strip().strip("|").split("|")]
        if line.startswith("| ") and len(cells) == 5 and cells[0] in order:
            rows[cells[0]] = cells[1:]
    rows.update({name: cells_of(name, total) for name in order if any(total[name, kind] for kind in (PROOF, TESTS, EDITS))})
    lines = "".join(f"| {name} | {' | '.join(rows[name])} |\n" for name in order if name in rows)
    sums = [sum(int(rows[name][kind] or 0) for name in rows) for kind in (PROOF, TESTS, EDITS)]
    lines += f"| all, in minutes | {' | '.join(f'{it / 60:.0f}' for it in sums)} | {sum(sums) / 60:.0f} minutes together |\n"
    with open(PAGE, "w", encoding="utf-8") as file:
        file.write(f"{before.rstrip()}\n\n{HEADING}\n{TEXT}{lines}{after}")


def main(command):
    total, status = watch(command or ["rt", "ci", "--anew"])
    write_table(total)
    return status


if __name__ == "__main__":
    sys.exit(main(sys.argv[1:]))
