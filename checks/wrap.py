#!/usr/bin/env python3
"""Breaks lines of specs/ and proofs/ that are too long. Usage: wrap.py FILE..; `rt fmt` lays the pieces out after it.

A line is broken where the fewest brackets are open, by preference before an operator or behind `=`, `in` or a semicolon.
"""
import sys

MOST = 130
OPERATORS = ("→", "×", "∷", "++", "&&", "||", "≡", "∙")
DEEPER = 4


def indent_of(line):
    return len(line) - len(line.lstrip())


def cost_of(depth, column, before, behind):
    """How bad it is to break between these two words at a column, with so many brackets open."""
    cost = depth * 20 - column / 12 + (30 if column < MOST * 0.35 else 0)
    if behind in OPERATORS:
        cost -= 12
    if before in ("=", "in", ".", "then", "else") or before.endswith((";", ".")):
        cost -= 14
    if before.endswith(","):
        cost -= 6
    if behind in ("in", "then", "else"):
        cost -= 10
    return cost - (2 if behind.startswith("(") else 0)


def best_break(line):
    """The column of the space at which a line is best broken, if there is one."""
    depth, best = 0, None
    for column, character in enumerate(line):
        depth += (character in "([{") - (character in ")]}")
        if character != " " or not indent_of(line) < column <= MOST:
            continue
        before, behind = line[:column].rstrip().split(" ")[-1], line[column + 1 :].split(" ")[0]
        if not behind or behind in ("=", ":", "of", "|") or before == "λ":
            continue
        cost = cost_of(depth, column, before, behind)
        if best is None or cost <= best[0]:
            best = (cost, column)
    return best and best[1]


def wrapped(line, deeper=DEEPER):
    """The pieces of a line, those behind the first one further in."""
    if len(line) <= MOST or line.startswith("use "):
        return [line]
    if line.lstrip().startswith("--"):
        column, mark = line.rfind(" ", 0, MOST + 1), " " * indent_of(line) + "-- "
        return [line[:column], *wrapped(mark + line[column + 1 :])] if column > len(mark) else [line]
    column = best_break(line)
    if not column:
        return [line]
    rest = " " * (indent_of(line) + deeper) + line[column + 1 :].lstrip()
    return [line[:column].rstrip(), *wrapped(rest, 0)]


def main():
    for path in sys.argv[1:]:
        with open(path, encoding="utf-8") as lines:
            text = lines.read().split("\n")
        with open(path, "w", encoding="utf-8") as out:
            out.write("\n".join(piece for line in text for piece in wrapped(line)))


if __name__ == "__main__":
    main()
