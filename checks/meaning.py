#!/usr/bin/env python3
"""Writes what programs become as core trees, worked out apart from the definitions.

meaning.py FILE..   prints a definition for each program, under the name of its file
"""
import os
import sys

sys.path.insert(0, os.path.dirname(os.path.abspath(__file__)))
import pvl

WHOLE = 5342931457063200
COMPARES = {"<": "Less", "<=": "AtMost", ">": "Greater", ">=": "AtLeast"}
BEFORE = {"Less": "Below", "AtMost": "UpTo", "Greater": "Above", "AtLeast": "From"}
BEHIND = {"Less": "Above", "AtMost": "From", "Greater": "Below", "AtLeast": "UpTo"}


def chain(xs, nil="[]"):
    return nil if not xs else "(" + " ∷ ".join(list(xs) + [nil]) + ")"


class Meaning:
    def __init__(self, text):
        self.text = text
        self.names = {}
        for t in pvl.tokens(text):
            if t.kind == "NAME" and t.text not in self.names:
                self.names[t.text] = len(self.names)
        self.classes = pvl.Parser(text).program()
        self.by_name = {c.name.name: c for c in reversed(self.classes)}

    # names and types
    def name(self, n):
        return f"(name {self.names[n]})"

    def at(self, span):
        return f"(at {span[0]} {span[1]})"

    def type(self, t):
        if isinstance(t, tuple):
            return f"(type.Object {self.name(t[1])})"
        return {"int": "type.Int", "bool": "type.Truth", "int[]": "type.IntArray", "bool[]": "type.TruthArray"}[t]

    def field(self, cls, name):
        for m in self.by_name[cls].members:
            if m.kind == "Field" and m.name.name == name:
                return m.type
        return None

    def type_of(self, e, v):
        k = e.kind
        if k == "Number":
            return "int"
        if k == "This":
            return ("obj", self.here)
        if k == "Result":
            return self.result
        if k == "Var":
            return v[e.name.name] if e.name.name in v else self.field(self.here, e.name.name)
        if k == "Field":
            t = self.type_of(e.e, v)
            return self.field(t[1], e.name.name) if isinstance(t, tuple) else "int"
        if k == "Index":
            return self.type_of(e.a, v)[:-2]
        if k == "Old":
            return self.type_of(e.e, v)
        if k in ("Minus",) or (k == "Binary" and e.op in "+-*"):
            return "int"
        return "null" if k == "Null" else "bool"

    # expressions: a written term, whether it is a literal expression, and its kind
    def expr(self, e, v):
        return self.term(e, v)[0]

    def number(self, n):
        return f"(Constant (value.Number ({'pos' if n >= 0 else 'negsuc'} {n if n >= 0 else -n - 1})))"

    def compute(self, op, span, x, y, plain):
        return f"(Compute {'Plain' if plain else 'Tabled'} {op} {x} {y} {self.at(span)})"

    def term(self, e, v, compared=False):
        """The term, and whether it is a literal expression; `compared`: beside a literal expression in a comparison."""
        k = e.kind
        if k == "Number":
            return self.number(e.value), True
        if k == "Truth":
            return f"(Constant (value.Truth {self.text[e.span[0]:e.span[1]]}))", False
        if k == "Null":
            return "(Constant (value.Reference 0))", False
        if k in ("This", "Result"):
            return k, False
        if k == "Var":
            if e.name.name in v:
                return f"(Variable {self.name(e.name.name)})", False
            return f"(Field This {self.name(self.here)} {self.name(e.name.name)} {self.at(e.span)})", False
        if k == "Field":
            t = self.type_of(e.e, v)
            if not isinstance(t, tuple):
                return f"(Length {self.type(t[:-2])} {self.expr(e.e, v)} {self.at(e.span)})", False
            return f"(Field {self.expr(e.e, v)} {self.name(t[1])} {self.name(e.name.name)} {self.at(e.span)})", False
        if k == "Index":
            return f"(Element {self.type(self.type_of(e.a, v)[:-2])} {self.expr(e.a, v)} {self.expr(e.i, v)} {self.at(e.span)})", False
        if k == "Not":
            return f"(Not {self.expr(e.e, v)})", False
        if k == "Old":
            return f"(Old {self.expr(e.e, v)})", False
        if k == "Minus":
            if e.e.kind == "Number":
                return self.number(-e.e.value), True
            x, literal = self.term(e.e, v)
            return self.compute("Minus", e.span, self.number(0), x, literal or compared), literal
        x, one = self.term(e.a, v)
        y, other = self.term(e.b, v)
        if e.op in ("+", "-", "*"):
            plain = (one or other) if e.op == "+" else (other or compared) if e.op == "-" else False
            op = {"+": "Plus", "-": "Minus", "*": "Times"}[e.op]
            return self.compute(op, e.span, x, y, plain), one and other and e.op != "*"
        if e.op in COMPARES or e.op in ("==", "!="):
            x = self.term(e.a, v, other)[0]
            y = self.term(e.b, v, one)[0]
            head = f"Compare {COMPARES[e.op]}" if e.op in COMPARES else f"Equal {'true' if e.op == '==' else 'false'}"
            return f"({head} {x} {y})", False
        return f"({ {'&&': 'And', '**': 'And', '||': 'Or', '==>': 'Implies'}[e.op] } {x} {y})", False

    # formulas
    def pure(self, e):
        if e.kind in ("Perm", "Token", "Instance", "Each"):
            return False
        return all(self.pure(x) for x in self.parts(e))

    def parts(self, e):
        k = e.kind
        return {"Field": lambda: [e.e], "Index": lambda: [e.a, e.i], "Not": lambda: [e.e], "Minus": lambda: [e.e], "Old": lambda: [e.e],
                "Binary": lambda: [e.a, e.b]}.get(k, lambda: [])()

    def object(self, recv, v):
        return ("This", self.here) if recv is None else (self.expr(recv, v), self.type_of(recv, v)[1])

    def formula(self, e, v, around=None):
        span = self.at(around or e.span)
        k = e.kind
        if k == "Binary" and not (self.pure(e) and (around or e.op not in ("&&", "**"))):
            if e.op in ("&&", "**"):
                return f"(Star {self.formula(e.a, v, around)} {self.formula(e.b, v, around)})"
            return f"(When {self.expr(e.a, v)} {self.formula(e.b, v, around or e.span)} {span})"
        if k == "Perm":
            units = e.a * WHOLE // e.b
            p = e.e
            if p.kind == "Index":
                return f"(ElementPermission {self.type(self.type_of(p.a, v)[:-2])} {self.expr(p.a, v)} {self.expr(p.i, v)} {units} {span})"
            if p.kind == "Var":
                return (f"(FieldPermission This {self.name(self.here)} {self.name(p.name.name)} {self.type(self.field(self.here, p.name.name))} "
                        f"{units} {span})")
            c = self.type_of(p.e, v)[1]
            return f"(FieldPermission {self.expr(p.e, v)} {self.name(c)} {self.name(p.name.name)} {self.type(self.field(c, p.name.name))} {units} {span})"
        if k == "Token":
            return f"(Holds token.{e.what.capitalize()} {self.name(self.type_of(e.e, v)[1])} {self.expr(e.e, v)} {span})"
        if k == "Instance":
            x, c = self.object(e.recv, v)
            return f"(Instance {self.name(c)} {self.name(e.name.name)} {x} {chain(self.expr(a, v) for a in e.args)} {span})"
        if k == "Each":
            inner = dict(v, **{e.name.name: "int"})
            items = self.items(e.body, inner, e.name.name, around or e.span)
            return f"(Each {self.name(e.name.name)} {self.expr(e.low, v)} {self.expr(e.high, v)} {items} {span})"
        return f"(Fact {self.expr(e, v)} {span})"

    # items
    def uses(self, e, i):
        if e.kind == "Var":
            return e.name.name == i
        if e.kind in ("Perm", "Token"):
            return self.uses(e.e, i)
        return any(self.uses(x, i) for x in self.parts(e))

    def guards(self, e, i):
        if e.kind != "Binary":
            return None
        if e.op == "&&":
            a, b = self.guards(e.a, i), self.guards(e.b, i)
            return None if a is None or b is None else a + b
        if e.op not in COMPARES:
            return None
        is_i = lambda x: x.kind == "Var" and x.name.name == i
        c = COMPARES[e.op]
        if is_i(e.a) and not self.uses(e.b, i):
            return [(BEFORE[c], e.b)]
        if is_i(e.b) and not self.uses(e.a, i):
            return [(BEHIND[c], e.a)]
        return None if self.uses(e, i) else [("Provided", e)]

    def items(self, e, v, i, around):
        return self.joined(self.item_list(e, v, i, around))

    def joined(self, items):
        out = "NoItems"
        for x in reversed(items):
            out = f"(Join {x} {out})"
        return out

    def item_list(self, e, v, i, around):
        if e.kind == "Binary" and e.op in ("&&", "**"):
            return self.item_list(e.a, v, i, around) + self.item_list(e.b, v, i, around)
        return [self.item(e, v, i, around)]

    def shift(self, e, i):
        if e.kind == "Var":
            return 0
        return e.b.value if e.op == "+" else -e.b.value

    def item(self, e, v, i, around):
        span = self.at(around or e.span)
        if e.kind == "Perm":
            p, n = e.e, self.shift(e.e.i, i)
            return (f"(Elements {self.type(self.type_of(p.a, v)[:-2])} {self.expr(p.a, v)} ({'pos' if n >= 0 else 'negsuc'} {n if n >= 0 else -n - 1}) "
                    f"{e.a * WHOLE // e.b} {span})")
        if e.kind == "Token":
            return f"(Committed {self.name(self.type_of(e.e, v)[1])} {self.expr(e.e, v)} {span})"
        if e.kind == "Binary" and e.op == "==>":
            a = e.a
            if a.kind == "Binary" and a.op == "==" and a.a.kind == "Var" and a.a.name.name == i and not self.uses(a.b, i):
                return f"(Fixed {self.expr(a.b, v)} {self.formula(e.b, v, around or e.span)} {span})"
            cuts = self.guards(a, i)
            if cuts is not None:
                return f"(Guarded {chain(f'{k} {self.expr(t, v)}' for k, t in cuts)} {self.item(e.b, v, i, around or e.span)} {span})"
        return f"(Repeated {self.expr(e, v)} {span})"

    # contracts
    def conjunction(self, fs, v):
        out = [self.formula(f, v) for f in fs]
        if not out:
            return "always"
        text = out[-1]
        for x in reversed(out[:-1]):
            text = f"(Star {x} {text})"
        return text

    def pick(self, c, kind):
        return [f for k, f in c if k in (kind, "context")]

    def contract(self, c, v):
        return f"(contract {self.conjunction(self.pick(c, 'requires'), v)} {self.conjunction(self.pick(c, 'ensures'), v)})"

    def shared(self, c, v, i):
        items = lambda k: self.joined([x for f in self.pick(c, k) for x in self.item_list(f, v, i, None)])
        return f"(shared {self.contract(c, v)} {items('requires')} {items('ensures')})"

    # statements
    def right(self, r, v):
        if r.kind == "Value":
            return f"(Value' {self.expr(r.e, v)})"
        if r.kind == "RCall":
            return self.call(r, v)
        if r.kind == "NewObject":
            return f"(NewObject {self.name(r.name.name)})"
        return f"(NewArray {self.type(r.type[:-2])} {self.expr(r.e, v)})"

    def call(self, r, v):
        x, c = self.object(r.recv, v)
        return f"(Call {self.name(c)} {self.name(r.name.name)} {x} {chain(self.expr(a, v) for a in r.args)})"

    def target(self, e, v):
        t = self.expr(e, v)
        for a, b in (("(Variable", "(ToVariable"), ("(Field", "(ToField"), ("(Element", "(ToElement")):
            if t.startswith(a):
                return b + t[len(a):]
        raise ValueError(t)

    def assigned(self, block):
        out = []
        for s in block:
            if s.kind == "Assign" and s.left.kind == "Var":
                out.append(s.left.name.name)
            for part in ("then", "other", "body"):
                out += self.assigned(getattr(s, part, []) or [])
        return list(dict.fromkeys(out))

    def sent(self, block, v):
        out = []
        for s in block:
            if s.kind == "Send":
                out.append((s.label.name, f"(message {self.name(s.label.name)} {s.d} {self.formula(s.f, v)})"))
            elif s.kind != "For":
                for part in ("then", "other", "body"):
                    out += self.sent(getattr(s, part, []) or [], v)
        return out

    def block(self, ss, v, site):
        v = dict(v)
        out = []
        for n, s in enumerate(ss):
            out.append(self.stmt(s, v, dict(site, way=site["way"] + [n])))
            if s.kind == "Local":
                v[s.name.name] = s.type
        text = "Stop"
        for x in reversed(out):
            text = f"(Then {x} {text})"
        return text

    def stmt(self, s, v, site):
        k, span = s.kind, self.at(s.span)
        if k == "Local":
            r = "(Value' " + {"int": self.number(0), "bool": "(Constant (value.Truth false))"}.get(s.type, "(Constant (value.Reference 0))") + ")"
            return f"(Assign (ToVariable {self.name(s.name.name)}) {self.right(s.right, v) if s.right else r} {span})"
        if k == "Assign":
            return f"(Assign {self.target(s.left, v)} {self.right(s.right, v)} {span})"
        if k == "Call":
            return f"(Assign Nowhere {self.call(s, v)} {span})"
        inner = lambda n: dict(site, way=site["way"] + [n])
        if k == "If":
            return f"(If {self.expr(s.cond, v)} {self.block(s.then, v, inner(0))} {self.block(s.other, v, inner(1))})"
        if k == "While":
            names = [f"({self.name(n)}, {self.type(v[n])})" for n in self.assigned(s.body) if n in v]
            return f"(While {chain(names)} {self.conjunction(s.invs, v)} {self.expr(s.cond, v)} {self.block(s.body, v, inner(0))} {span})"
        if k in ("For", "Par"):
            w = dict(v, **{s.var.name: "int"})
            deeper = inner(0)
            if k == "For":
                deeper.update(head=w, messages=dict(reversed(self.sent(s.body, w))))
            else:
                deeper.update(position=s.var.name)
            team = (f"(team {'true' if k == 'For' else 'false'} {self.name(s.var.name)} {self.expr(s.low, v)} {self.expr(s.high, v)} "
                    f"{self.shared(s.contract, w, s.var.name)})")
            return f"(Members {team} {self.block(s.body, w, deeper)} {span})"
        if k == "Barrier":
            return f"(Meet (barrier {chain(map(str, site['way']))} {self.shared(s.contract, v, site['position'])}) {span})"
        if k == "Act":
            action = {"join": "Join'"}.get(s.what, s.what.capitalize())
            return f"(Act {action} {self.name(self.type_of(s.e, v)[1])} {self.expr(s.e, v)} {span})"
        if k == "Fold":
            x, c = self.object(s.recv, v)
            which = "Fold" if self.text[s.span[0]:].startswith("fold") else "Unfold"
            return f"({which} {self.name(c)} {self.name(s.name.name)} {x} {chain(self.expr(a, v) for a in s.args)} {span})"
        if k == "Assert":
            return f"(Assert {self.formula(s.f, v)} {span})"
        if k == "Send":
            return f"(Send (message {self.name(s.label.name)} {s.d} {self.formula(s.f, site['head'])}) {span})"
        if k == "Recv":
            return f"(Receive {site['messages'][s.label.name]} {span})"
        return f"(Return {'None' if s.e is None else '(Some ' + self.expr(s.e, v) + ')'} {span})"

    # members
    def params(self, ps):
        return chain(f"({self.name(p.name.name)}, {self.type(p.type)})" for p in ps)

    def member(self, m):
        if m.kind == "Field":
            return f"IsField ({self.name(m.name.name)}, {self.type(m.type)})"
        if m.kind == "Predicate":
            v = {p.name.name: p.type for p in m.params}
            return f"IsPredicate (predicate {self.name(m.name.name)} {self.params(m.params)} {self.formula(m.body, v)})"
        run = m.kind == "Run"
        params = [] if run else m.params
        v = {p.name.name: p.type for p in params}
        self.result = None if run else m.result
        old = "\\old" in self.text_of(m)
        return (f"IsMethod (method {'None' if run else '(Some ' + self.name(m.name.name) + ')'} {self.params(params)} "
                f"{'None' if self.result is None else '(Some ' + self.type(self.result) + ')'} {self.contract(m.contract, v)} "
                f"{self.block(m.body, v, dict(way=[], position=None, head=v, messages={}))} {str(old).lower()})")

    def text_of(self, m):
        return " ".join(self.text[f.span[0]:f.span[1]] for _, f in m.contract) + " ".join(self.text[s.span[0]:s.span[1]] for s in m.body)

    def class_(self, c):
        self.here, self.result = c.name.name, None
        inv = "None" if c.inv is None else f"(Some {self.formula(c.inv, {})})"
        return f"class {self.name(c.name.name)} {inv} {chain(self.member(m) for m in c.members)}"

    def definition(self, name):
        parts = [f"{name}_{c.name.name.lower()}" for c in self.classes]
        classes = "\n".join(f"abbrev pub {p} : Class\n{p} = {self.class_(c)}\n" for p, c in zip(parts, self.classes))
        return f"{classes}\nabbrev pub {name} : Program\n{name} = {chain(parts)}\n"


HEADER = """-- What worked programs become, written out. checks/meaning.py works this file out from the texts, apart from the definitions.
use Rattle.std.specs.Prelude.{pos, negsuc, true, false, Some, None, [], ◌∷◌}
use Rattle.pv_ast.specs.declared.PvType.TheVariants as type
use Rattle.pv_ast.specs.declared.Token.TheVariants as token
use Rattle.pv_values.specs.declared.value.Value.TheVariants as value
use Rattle.pv_picks.specs.Plain.Core.{Plus, Minus, Times, Plain, Tabled, Less, AtMost, Greater, AtLeast, Constant, This, Result, Variable, Field, Element, Length, Not, Compute, Compare, Equal, And, Or, Implies, Old, Below, UpTo, Above, From, Provided, Fact, FieldPermission, ElementPermission, Holds, Instance, Star, When, Each, NoItems, Join, Elements, Repeated, Committed, Guarded, Fixed, Fork, Join', Lock, Unlock, Commit, Nowhere, ToVariable, ToField, ToElement, Value', Call, NewObject, NewArray, Assign, If, While, Members, Meet, Act, Fold, Unfold, Assert, Send, Receive, Return, Stop, Then, IsField, IsPredicate, IsMethod, Class, Program}
use Rattle.worked_programs.specs.Nodes.{name, at}
use Rattle.worked_programs.specs.CoreNodes.{always, contract, shared, team, barrier, message, predicate, method, class}
"""


def main(argv):
    out = [HEADER]
    for path in argv[1:]:
        with open(path, encoding="utf-8") as f:
            text = f.read()
        out.append(Meaning(text).definition(os.path.splitext(os.path.basename(path))[0]))
    print("\n".join(out), end="")


if __name__ == "__main__":
    main(sys.argv)
