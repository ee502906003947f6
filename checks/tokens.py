#!/usr/bin/env python3
"""Writes the tokens of programs as definitions.

tokens.py FILE..   prints a definition for each program, under the name of its file
"""
import os
import re
import sys

sys.path.insert(0, os.path.dirname(os.path.abspath(__file__)))
import pvl

# the reserved words and the symbols, each with its name (crate pv_tokens)
FIXED = os.path.join(os.path.dirname(os.path.abspath(__file__)), "..", "crates", "pv_tokens", "src", "fixed.rt")
with open(FIXED, encoding="utf-8") as table:
    NAMES = dict(re.findall(r"/// `(.*)`\npub const (\w+): u32 = \d+;", table.read()))

MOST = 130

HEADER = """-- The tokens of worked programs. checks/tokens.py writes this file from the texts.
use Rattle.std.specs.Prelude.{List, [], ◌∷◌}
use Rattle.pv_tokens.specs.declared.Lexeme.{Lexeme}
use Rattle.pv_tokens.specs.declared.fixed.TheConstants.{%s}
use Rattle.worked_texts.specs.Tokens.{named, number, fixed}
"""


def lexemes(text):
    names = {}
    for t in pvl.tokens(text):
        if t.kind == "NAME":
            word = f"named {names.setdefault(t.text, len(names))}"
        elif t.kind == "NUMBER":
            word = f"number {t.text}"
        else:
            word = f"fixed {NAMES[t.text]}"
        yield f"{word} {t.start} {t.end}"


def lines(items):
    """The list of them, in lines that are not too long."""
    line = "   "
    for item in items + ["[]"]:
        piece = f" ∷ {item}" if len(line) > 3 else f" {item}"
        if len(line) + len(piece) > MOST:
            yield line
            piece = f" ∷ {item}"
            line = "   "
        line += piece
    yield line


def main(argv):
    out = []
    used = set()
    for path in argv[1:]:
        name = os.path.splitext(os.path.basename(path))[0]
        with open(path, encoding="utf-8") as f:
            items = list(lexemes(f.read()))
        used |= {item.split()[1] for item in items if item.startswith("fixed ")}
        out.append(f"abbrev pub {name} : List Lexeme\n{name} =\n" + "\n".join(lines(items)) + "\n")
    print("\n".join([HEADER % ", ".join(n for n in NAMES.values() if n in used)] + out), end="")


if __name__ == "__main__":
    main(sys.argv)
