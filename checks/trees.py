#!/usr/bin/env python3
"""Writes the trees of programs as definitions.

trees.py FILE..   prints a definition for each program, under the name of its file
"""
import os
import sys

sys.path.insert(0, os.path.dirname(os.path.abspath(__file__)))
import pvl

OPS = {"+": "Add", "-": "Sub", "*": "Mul", "==": "Eq", "!=": "Ne", "<": "Lt", "<=": "Le", ">": "Gt", ">=": "Ge", "&&": "And",
       "||": "Or", "==>": "Implies", "**": "Star"}


class Writer:
    def __init__(self, text):
        self.text = text
        self.names = {}
        toks = pvl.tokens(text)
        for t in toks:
            if t.kind == "NAME" and t.text not in self.names:
                self.names[t.text] = len(self.names)
        self.program = pvl.Parser(text).program()

    def span(self, s):
        return f"(at {s[0]} {s[1]})" if s else "(at 0 0)"

    def word(self, w):
        return f"(word {self.names[w.name]} {w.span[0]} {w.span[1]})"

    def kind(self, t):
        if isinstance(t, tuple):
            return f"(type.Object (name {self.names[t[1]]}))"
        return {"int": "type.Int", "bool": "type.Truth", "int[]": "type.IntArray", "bool[]": "type.TruthArray"}[t]

    def type_word(self, t, span):
        return f"(type_at {span[0]} {span[1]} {self.kind(t)})"

    def many(self, xs, f):
        return "[]" if not xs else "(" + " ∷ ".join(f(x) for x in xs) + " ∷ [])"

    def option(self, x, f):
        return "None" if x is None else f"(Some {f(x)})"

    def expr(self, n):
        return f"(node {n.span[0]} {n.span[1]} {self.expr_kind(n)})"

    def expr_kind(self, n):
        k = n.kind
        if k == "Number":
            return f"(k.Number {n.value})"
        if k == "Truth":
            return f"(k.Truth {self.text[n.span[0]:n.span[1]]})"
        if k in ("Null", "This", "Result"):
            return f"k.{k}"
        if k == "Var":
            return f"(k.Var {self.word(n.name)})"
        if k == "Field":
            return f"(k.Field {self.expr(n.e)} {self.word(n.name)})"
        if k == "Index":
            return f"(k.Index {self.expr(n.a)} {self.expr(n.i)})"
        if k in ("Not", "Minus", "Old"):
            return f"(k.{k} {self.expr(n.e)})"
        if k == "Binary":
            return f"(k.Binary op.{OPS[n.op]} {self.expr(n.a)} {self.expr(n.b)})"
        if k == "Perm":
            return f"(k.Perm {self.expr(n.e)} {n.a} {n.b} {self.span(n.amount)})"
        if k == "Token":
            return f"(k.Token token.{n.what.capitalize()} {self.expr(n.e)})"
        if k == "Instance":
            return f"(k.Instance {self.option(n.recv, self.expr)} {self.word(n.name)} {self.many(n.args, self.expr)})"
        if k == "Each":
            written = "None" if n.written is None else f"(Some ({self.word(n.written[0])}, {self.word(n.written[1])}))"
            return (f"(k.Each (each {str(n.star).lower()} {self.word(n.name)} {self.expr(n.low)} {self.expr(n.high)} "
                    f"{self.expr(n.body)} {written}))")
        raise ValueError(k)

    def right(self, r):
        k = r.kind
        if k == "Value":
            body = f"(r.Value {self.expr(r.e)})"
        elif k == "RCall":
            body = f"(r.Call {self.option(r.recv, self.expr)} {self.word(r.name)} {self.many(r.args, self.expr)})"
        elif k == "NewObject":
            body = f"(r.NewObject {self.word(r.name)})"
        else:
            body = f"(r.NewArray {self.type_word(r.type[:-2], r.tword)} {self.expr(r.e)})"
        return f"(right {r.span[0]} {r.span[1]} {body})"

    def clause(self, c):
        return f"(clause c.{c[0].capitalize()} {self.expr(c[1])})"

    def contract(self, c):
        return f"(contract {self.many(c, self.clause)})"

    def stmt(self, s):
        return f"(stmt {s.span[0]} {s.span[1]} {self.stmt_kind(s)})"

    def range(self, s):
        return f"(range {self.word(s.var)} {self.expr(s.low)} {self.expr(s.high)})"

    def stmt_kind(self, s):
        k = s.kind
        block = lambda b: self.many(b, self.stmt)
        args = lambda: f"{self.option(s.recv, self.expr)} {self.word(s.name)} {self.many(s.args, self.expr)}"
        if k == "Local":
            return f"(s.Local {self.type_word(s.type, s.tword)} {self.word(s.name)} {self.option(s.right, self.right)})"
        if k == "Assign":
            return f"(s.Assign {self.expr(s.left)} {self.right(s.right)})"
        if k == "Call":
            return f"(s.Call {args()})"
        if k == "If":
            return f"(s.If {self.expr(s.cond)} {block(s.then)} {block(s.other)})"
        if k == "While":
            return f"(s.While {self.many(s.invs, self.expr)} {self.expr(s.cond)} {block(s.body)})"
        if k == "For":
            return f"(s.For {self.range(s)} {self.contract(s.contract)} {block(s.body)})"
        if k == "Par":
            return f"(s.Par {self.option(s.name, self.word)} {self.range(s)} {self.contract(s.contract)} {block(s.body)})"
        if k == "Barrier":
            return f"(s.Barrier {self.word(s.name)} {self.contract(s.contract)})"
        if k == "Act":
            return f"(s.{s.what.capitalize()} {self.expr(s.e)})"
        if k == "Fold":
            folds = self.text[s.span[0]:].startswith("fold")
            return f"(s.{'Fold' if folds else 'Unfold'} {args()})"
        if k == "Assert":
            return f"(s.Assert {self.expr(s.f)})"
        if k == "Send":
            return f"(s.Send {self.word(s.label)} {s.d} {self.expr(s.f)})"
        if k == "Recv":
            return f"(s.Recv {self.word(s.label)})"
        if k == "Return":
            return f"(s.Return {self.option(s.e, self.expr)})"
        raise ValueError(k)

    def param(self, p):
        return f"(param {self.word(p.name)} {self.type_word(p.type, p.tword)})"

    def member(self, m):
        k = m.kind
        if k == "Field":
            return f"m.Field {self.param(m)}"
        if k == "Predicate":
            return f"m.Predicate (predicate {self.span(m.span)} {self.word(m.name)} {self.many(m.params, self.param)} {self.expr(m.body)})"
        if k == "Run":
            return f"m.Run (run {self.span(m.span)} {self.span(m.word.span)} {self.contract(m.contract)} {self.many(m.body, self.stmt)})"
        return (f"m.Method (method {self.span(m.span)} {self.word(m.name)} {self.option(m.result, lambda t: self.type_word(t, m.tword))} {self.many(m.params, self.param)} "
                f"{self.contract(m.contract)} {self.many(m.body, self.stmt)})")

    def class_(self, c):
        return f"class {self.span(c.span)} {self.word(c.name)} {self.option(c.inv, self.expr)} {self.many(c.members, self.member)}"

    def definition(self, name):
        length = f"Some (name {self.names['length']})" if "length" in self.names else "None"
        text = "\n".join("--   " + line for line in self.text.rstrip("\n").split("\n"))
        names = ", ".join(f"{n} {k}" for n, k in self.names.items())
        parts = [f"{name}_{c.name.name.lower()}" for c in self.program]
        classes = "\n".join(f"abbrev pub {p} : Class\n{p} = {self.class_(c)}\n" for p, c in zip(parts, self.program))
        return (f"{text}\n-- names: {names}\n{classes}\nabbrev pub {name} : Program\n"
                f"{name} = record {{ classes = {self.many(parts, str)}; length = {length} }}\n")


HEADER = """-- Worked programs as trees, each below its text. checks/trees.py writes this file from the texts.
use Rattle.std.specs.Prelude.{true, false, Some, None, [], ◌∷◌}
use Rattle.pv_ast.specs.declared.Class.{Class}
use Rattle.pv_ast.specs.declared.Program.{Program}
use Rattle.pv_ast.specs.declared.ExprKind.TheVariants as k
use Rattle.pv_ast.specs.declared.StmtKind.TheVariants as s
use Rattle.pv_ast.specs.declared.RightKind.TheVariants as r
use Rattle.pv_ast.specs.declared.Member.TheVariants as m
use Rattle.pv_ast.specs.declared.ClauseKind.TheVariants as c
use Rattle.pv_ast.specs.declared.PvType.TheVariants as type
use Rattle.pv_ast.specs.declared.Operator.TheVariants as op
use Rattle.pv_ast.specs.declared.Token.TheVariants as token
use Rattle.worked_programs.specs.Nodes.{name, at, word, node, each, type_at, right, clause, contract, range, stmt, param, predicate, method, run, class}
"""


def main(argv):
    out = [HEADER]
    for path in argv[1:]:
        with open(path, encoding="utf-8") as f:
            text = f.read()
        name = os.path.splitext(os.path.basename(path))[0]
        out.append(Writer(text).definition(name))
    print("\n".join(out), end="")


if __name__ == "__main__":
    main(sys.argv)
