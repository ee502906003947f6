#!/usr/bin/env python3
"""broken.py [NAME..]: breaks the definitions on purpose, one change of checks/broken/ at a time, and tells what refuses it.

A change is a file `broken/NAME.edit`: a line `crate: CRATE` names the crate that must refuse it, and then come

    file: PATH              a file of definitions, from the root of the repository
    old: TEXT               stands once in that file, in one line
    new: TEXT               what stands there instead
    use: PATH.{NAMES}       an import that the new text needs; any number of them

The first file is one of definitions, and the change is there. Another is one of proofs, where a law that holds of the changed
definition too, as that of runs in related settings, names the part that is changed: there it names the new part, so that not its
wording refuses the change.

Each change is made in a copy of the tree, in which `rt check` of the crate begins with what other copies on this machine kept. All
that stands below is checked first, and the first crate with an error stops the rest; so a change takes from 20 seconds to two
minutes. A line tells whether it was refused, by which file of proofs and which lemma (and in which other files), and the seconds.
Status 1 where one is still proved, is refused by another crate than the one named, or where the definitions themselves no longer
check, which shows nothing.
"""
import os
import re
import shutil
import subprocess
import sys
import tempfile
import time

ROOT = os.path.dirname(os.path.dirname(os.path.abspath(__file__)))
FOLDER = os.path.join(ROOT, "checks", "broken")
ERROR = re.compile(r"^\./(\S+?):\d+:\d+: error: (.*)$", re.M)
BELOW = re.compile(r"^rt: the library (\w+) did not build", re.M)
AFTER = re.compile(r"that depends? on|is not admitted")
NAMED = re.compile(r"`([^`]+)`")


def read_change(name):
    """The crate of a change, and its edits, each by its keys."""
    crate, edits = None, []
    for line in open(os.path.join(FOLDER, name + ".edit"), encoding="utf-8").read().splitlines():
        key, _, text = line.partition(": ")
        if key == "crate":
            crate = text
        elif key == "file":
            edits.append({"file": text, "use": []})
        elif key == "use":
            edits[-1]["use"].append(f"use {text}\n")
        else:
            edits[-1][key] = text
    return crate, edits


def edited(text, edit):
    """The text with an edit made, or None where the old text doesn't stand there once."""
    if text.count(edit["old"]) != 1:
        return None
    return text.replace(edit["old"], edit["new"]).replace("\nuse ", "\n" + "".join(edit["use"]) + "use ", 1)


def check(place, crate):
    """What `rt check` of a crate says, and its status."""
    run = subprocess.run(["rt", "check"], cwd=os.path.join(place, "crates", crate), capture_output=True, text=True)
    return run.stdout + run.stderr, run.returncode


def try_change(place, name):
    """What a change comes to, in words, and whether it is refused as it must be."""
    crate, edits = read_change(name)
    kept = {}
    for edit in edits:
        path = os.path.join(place, edit["file"])
        kept[path] = open(path, encoding="utf-8").read()
    after = [edited(text, edit) for text, edit in zip(kept.values(), edits)]
    if None in after or len(kept) != len(edits):
        return False, "no change: an old text doesn't stand there once"
    for path, text in zip(kept, after):
        write(path, text)
    begun = time.time()
    output, status = check(place, crate)
    seconds = f"{time.time() - begun:.0f} s"
    for path, text in kept.items():
        write(path, text)
    return judged(crate, [edit["file"] for edit in edits], output, status, seconds)


def judged(crate, files, output, status, seconds):
    """What a check comes to, in words, and whether it refuses as it must."""
    if status == 0:
        return False, f"STILL PROVED in {crate}, {seconds}"
    below, errors = BELOW.search(output), [error for error in ERROR.findall(output) if not AFTER.search(error[1])]
    if not errors:
        return False, f"no error in a file: {output[-300:]}"
    refuser, (path, words) = below[1] if below else crate, errors[0]
    lemma = NAMED.search(words)
    where = f"{refuser} {path}" + (f" `{lemma[1]}`" if lemma else "")
    others = sorted({other for other, _ in errors} - {path})
    if any(file.startswith(f"crates/{refuser}/") for file in files):
        return False, f"SHOWS NOTHING: {where}: {words[:300]}, {seconds}"
    if not path.startswith("proofs/"):
        return False, f"not refused by a proof: {where}, {seconds}"
    where += f" (and {', '.join(others)})" if others else ""
    return refuser == crate, f"refused by {where}" + ("" if refuser == crate else f", and not by {crate}") + f", {seconds}"


def write(path, text):
    with open(path, "w", encoding="utf-8") as file:
        file.write(text)


def main(names):
    names = names or sorted(f[:-5] for f in os.listdir(FOLDER) if f.endswith(".edit"))
    missed = 0
    with tempfile.TemporaryDirectory() as above:
        place = os.path.join(above, "tree")
        shutil.copytree(ROOT, place, ignore=shutil.ignore_patterns("out", ".git"))
        for name in names:
            right, words = try_change(place, name)
            missed += not right
            print(f"{name}: {words}", flush=True)
    print(f"{len(names) - missed} changes refused, {missed} not as they must be")
    return 1 if missed else 0


if __name__ == "__main__":
    sys.exit(main(sys.argv[1:]))
