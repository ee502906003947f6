#!/usr/bin/env python3
"""A reader of programs that was written apart from the one of the crates: tokens and trees, without the limits."""
import re
import sys

sys.setrecursionlimit(20000)

RESERVED = set("""class int boolean bool void resource requires ensures context loop_invariant lock_invariant if else while for
par barrier fork join lock unlock commit fold unfold assert send recv return new null this true false Perm write idle running
committed uncommitted run wait notify""".split())
SYMBOLS = ["==>", "**", "==", "!=", "<=", ">=", "&&", "||", ".."] + list("{}()[];:,.=<>+-*!\\")


class Other(Exception):
    pass


# ---------------------------------------------------------------- tokens

class Tok:
    __slots__ = ("kind", "text", "start", "end")

    def __init__(self, kind, text, start, end):
        self.kind, self.text, self.start, self.end = kind, text, start, end

    def __repr__(self):
        return f"{self.kind}:{self.text}"


WORD = re.compile(r"[A-Za-z_][A-Za-z0-9_]*")
DIGITS = re.compile(r"[0-9]+")
BYTES_OF_WORD = re.compile(r"[A-Za-z0-9_]*")


def tokens(text):
    out, at, n = [], 0, len(text)
    while at < n:
        c = text[at]
        if c in "\t\n\r ":
            at += 1
        elif text.startswith("//@", at) or text.startswith("/*@", at) or text.startswith("@*/", at):
            at += 3
        elif text.startswith("//", at):
            to = text.find("\n", at)
            at = n if to < 0 else to
        elif text.startswith("/*", at):
            to = text.find("*/", at + 2)
            if to < 0:
                raise Other("OpenComment")
            at = to + 2
        else:
            m = WORD.match(text, at)
            if m:
                w = m.group()
                out.append(Tok("word" if w in RESERVED else "NAME", w, at, m.end()))
                at = m.end()
                continue
            m = DIGITS.match(text, at)
            if m:
                if int(m.group()) > 9223372036854775807:
                    raise Other("BadNumber")
                out.append(Tok("NUMBER", m.group(), at, m.end()))
                at = m.end()
                continue
            if c == "\\":
                m = BYTES_OF_WORD.match(text, at + 1)
                if m.group() in ("result", "old", "forall"):
                    to = m.end()
                    if m.group() == "forall" and text.startswith("*", to):
                        to += 1
                    out.append(Tok("word", text[at:to], at, to))
                    at = to
                    continue
            for s in SYMBOLS:
                if text.startswith(s, at):
                    out.append(Tok("sym", s, at, at + len(s)))
                    at += len(s)
                    break
            else:
                raise Other("BadByte")
    return out


# ---------------------------------------------------------------- trees

class N:
    """A node: kind, span (start, end) of its own rule, and named parts."""

    def __init__(self, kind, span, **parts):
        self.kind, self.span = kind, span
        self.__dict__.update(parts)


class Word:
    def __init__(self, tok):
        self.name, self.span = tok.text, (tok.start, tok.end)


class Ex:
    """A parsed expression together with the extent of its tokens (with parentheses around it)."""

    def __init__(self, node, start, end):
        self.node, self.start, self.end = node, start, end


class Parser:
    def __init__(self, text):
        self.toks = tokens(text)
        self.at = 0

    # --- helpers
    def peek(self, k=0):
        j = self.at + k
        return self.toks[j] if j < len(self.toks) else Tok("end", "", -1, -1)

    def is_(self, text, k=0):
        t = self.peek(k)
        return t.kind in ("word", "sym") and t.text == text

    def take(self, text):
        if not self.is_(text):
            raise Other(f"expected {text} at {self.peek()}")
        self.at += 1
        return self.toks[self.at - 1]

    def name(self):
        if self.peek().kind != "NAME":
            raise Other(f"expected NAME at {self.peek()}")
        self.at += 1
        return self.toks[self.at - 1]

    def number(self):
        if self.peek().kind != "NUMBER":
            raise Other(f"expected NUMBER at {self.peek()}")
        self.at += 1
        return self.toks[self.at - 1]

    def last_end(self):
        return self.toks[self.at - 1].end

    # --- programs
    def program(self):
        classes = []
        while self.peek().kind != "end":
            classes.append(self.class_())
        return classes

    def class_(self):
        start = self.peek().start
        inv = None
        if self.is_("lock_invariant"):
            self.at += 1
            inv = self.formula().node
            self.take(";")
        self.take("class")
        name = Word(self.name())
        self.take("{")
        members = []
        while not self.is_("}"):
            members.append(self.member())
        self.take("}")
        return N("Class", (start, self.last_end()), name=name, inv=inv, members=members)

    def is_base(self, k=0):
        return self.is_("int", k) or self.is_("boolean", k) or self.is_("bool", k)

    def type_(self):
        """(type, its span)"""
        start = self.peek().start
        t = self.type_itself()
        return t, (start, self.last_end())

    def type_itself(self):
        if self.is_base():
            b = "int" if self.peek().text == "int" else "bool"
            self.at += 1
            if self.is_("["):
                self.at += 1
                self.take("]")
                return b + "[]"
            return b
        return ("obj", Word(self.name()).name)

    def params(self):
        out = []
        self.take("(")
        if not self.is_(")"):
            while True:
                t, tw = self.type_()
                out.append(N("Param", None, type=t, tword=tw, name=Word(self.name())))
                if not self.is_(","):
                    break
                self.at += 1
        self.take(")")
        return out

    def contract(self):
        clauses = []
        while self.is_("requires") or self.is_("ensures") or self.is_("context"):
            k = self.peek().text
            self.at += 1
            clauses.append((k, self.formula().node))
            self.take(";")
        return clauses

    def member(self):
        start = self.peek().start
        m = self.member_itself()
        m.span = (start, self.last_end())
        return m

    def member_itself(self):
        if self.is_("resource"):
            self.at += 1
            name = Word(self.name())
            ps = self.params()
            self.take("=")
            body = self.formula().node
            self.take(";")
            return N("Predicate", None, name=name, params=ps, body=body)
        if self.is_base() or self.peek().kind == "NAME":
            t, tw = self.type_()
            name = Word(self.name())
            if self.is_(";"):
                self.at += 1
                return N("Field", None, type=t, tword=tw, name=name)
            return self.method([], t, tw, name)
        clauses = self.contract()
        if self.is_("run"):
            w = self.take("run")
            return N("Run", None, word=Word(w), contract=clauses, body=self.block())
        if self.is_("void"):
            self.at += 1
            return self.method(clauses, None, None, Word(self.name()))
        t, tw = self.type_()
        return self.method(clauses, t, tw, Word(self.name()))

    def method(self, clauses, t, tw, name):
        ps = self.params()
        return N("Method", None, name=name, result=t, tword=tw, params=ps, contract=clauses, body=self.block())

    # --- statements
    def block(self):
        self.take("{")
        out = []
        while not self.is_("}"):
            out.append(self.statement())
        self.take("}")
        return out

    def statement(self):
        start = self.peek().start
        s = self.statement_()
        s.span = (start, self.last_end())
        return s

    def range(self):
        self.take("int")
        name = Word(self.name())
        self.take("=")
        low = self.expr().node
        self.take("..")
        return name, low, self.expr().node

    def ifstmt(self):
        self.take("if")
        self.take("(")
        c = self.expr().node
        self.take(")")
        then = self.block()
        other = []
        if self.is_("else"):
            self.at += 1
            if self.is_("if"):
                other = [self.statement()]
            else:
                other = self.block()
        return N("If", None, cond=c, then=then, other=other)

    def statement_(self):
        t = self.peek()
        if self.is_base() or (t.kind == "NAME" and self.peek(1).kind == "NAME"):
            ty, tw = self.type_()
            name = Word(self.name())
            right = None
            if self.is_("="):
                self.at += 1
                right = self.right()
            self.take(";")
            return N("Local", None, type=ty, tword=tw, name=name, right=right)
        if t.kind == "NAME" or self.is_("this"):
            e = self.chain()
            if self.is_("("):
                recv, name = self.target(e)
                args = self.args(False)
                self.take(";")
                return N("Call", None, recv=recv, name=name, args=args)
            if e.node.kind == "This":
                raise Other("this is no place")
            self.take("=")
            r = self.right()
            self.take(";")
            return N("Assign", None, left=e.node, right=r)
        if self.is_("if"):
            return self.ifstmt()
        if self.is_("loop_invariant") or self.is_("while"):
            invs = []
            while self.is_("loop_invariant"):
                self.at += 1
                invs.append(self.formula().node)
                self.take(";")
            self.take("while")
            self.take("(")
            c = self.expr().node
            self.take(")")
            return N("While", None, invs=invs, cond=c, body=self.block())
        if self.is_("for") or self.is_("par"):
            par = self.is_("par")
            self.at += 1
            name = None
            if par and self.peek().kind == "NAME":
                name = Word(self.name())
            self.take("(")
            var, low, high = self.range()
            self.take(")")
            c = self.contract()
            return N("Par" if par else "For", None, name=name, var=var, low=low, high=high, contract=c, body=self.block())
        if self.is_("barrier"):
            self.at += 1
            self.take("(")
            name = Word(self.name())
            self.take(")")
            self.take("{")
            c = self.contract()
            self.take("}")
            return N("Barrier", None, name=name, contract=c)
        for k in ("fork", "join", "lock", "unlock", "commit"):
            if self.is_(k):
                self.at += 1
                e = self.expr().node
                self.take(";")
                return N("Act", None, what=k, e=e)
        if self.is_("fold") or self.is_("unfold"):
            self.at += 1
            recv, name = self.target(self.chain())
            args = self.args(False)
            self.take(";")
            return N("Fold", None, recv=recv, name=name, args=args)
        if self.is_("assert"):
            self.at += 1
            f = self.formula().node
            self.take(";")
            return N("Assert", None, f=f)
        if self.is_("send"):
            self.at += 1
            label = Word(self.name())
            self.take(",")
            d = int(self.number().text)
            self.take(":")
            f = self.formula().node
            self.take(";")
            return N("Send", None, label=label, d=d, f=f)
        if self.is_("recv"):
            self.at += 1
            label = Word(self.name())
            self.take(";")
            return N("Recv", None, label=label)
        if self.is_("return"):
            self.at += 1
            e = None
            if not self.is_(";"):
                e = self.expr().node
            self.take(";")
            return N("Return", None, e=e)
        raise Other(f"statement at {t}")

    def chain(self):
        return self.steps(self.chain_head(), False)

    def chain_head(self):
        t = self.peek()
        if t.kind == "NAME":
            self.at += 1
            return Ex(N("Var", (t.start, t.end), name=Word(t)), t.start, t.end)
        t = self.take("this")
        return Ex(N("This", (t.start, t.end)), t.start, t.end)

    def target(self, e):
        """The receiver and the name of a target that was read as a chain."""
        n = e.node
        if n.kind == "Var":
            return None, n.name
        if n.kind == "Field":
            return n.e, n.name
        raise Other("no target")

    def right(self):
        start = self.peek().start
        r = self.right_()
        r.span = (start, self.last_end())
        return r

    def right_(self):
        if self.is_("new"):
            self.at += 1
            if self.is_base():
                t = self.peek()
                b = "int" if t.text == "int" else "bool"
                self.at += 1
                self.take("[")
                e = self.expr().node
                self.take("]")
                return N("NewArray", None, type=b + "[]", tword=(t.start, t.end), e=e)
            name = Word(self.name())
            self.take("(")
            self.take(")")
            return N("NewObject", None, name=name)
        if self.peek().kind == "NAME" or self.is_("this"):
            back = self.at
            e = self.chain()
            if self.is_("("):
                recv, name = self.target(e)
                return N("RCall", None, recv=recv, name=name, args=self.args(False))
            self.at = back
        return N("Value", None, e=self.expr().node)

    def args(self, formula):
        self.take("(")
        out = []
        if not self.is_(")"):
            while True:
                out.append(self.expr(formula).node)
                if not self.is_(","):
                    break
                self.at += 1
        self.take(")")
        return out

    # --- expressions and formulas
    def formula(self):
        left = self.level()
        if self.is_("==>"):
            self.at += 1
            right = self.formula()
            return self.binary("==>", left, right)
        return left

    def binary(self, op, a, b):
        return Ex(N("Binary", (a.start, b.end), op=op, a=a.node, b=b.node), a.start, b.end)

    def level(self):
        e = self.and_(True)
        for op in ("||", "**"):
            if self.is_(op):
                while self.is_(op):
                    self.at += 1
                    e = self.binary(op, e, self.and_(True))
                break
        return e

    def expr(self, f=False):
        e = self.and_(f)
        while self.is_("||"):
            self.at += 1
            e = self.binary("||", e, self.and_(f))
        return e

    def and_(self, f):
        e = self.eq(f)
        while self.is_("&&"):
            self.at += 1
            e = self.binary("&&", e, self.eq(f))
        return e

    def eq(self, f):
        e = self.rel(f)
        for op in ("==", "!="):
            if self.is_(op):
                self.at += 1
                return self.binary(op, e, self.rel(f))
        return e

    def rel(self, f):
        e = self.sum(f)
        for op in ("<", "<=", ">", ">="):
            if self.is_(op):
                self.at += 1
                return self.binary(op, e, self.sum(f))
        return e

    def sum(self, f):
        e = self.prod(f)
        while self.is_("+") or self.is_("-"):
            op = self.peek().text
            self.at += 1
            e = self.binary(op, e, self.prod(f))
        return e

    def prod(self, f):
        e = self.unary(f)
        while self.is_("*"):
            self.at += 1
            e = self.binary("*", e, self.unary(f))
        return e

    def unary(self, f):
        if self.is_("!") or self.is_("-"):
            t = self.peek()
            self.at += 1
            e = self.unary(f)
            return Ex(N("Not" if t.text == "!" else "Minus", (t.start, e.end), e=e.node), t.start, e.end)
        return self.post(f)

    def post(self, f):
        return self.steps(self.atom(f), f)

    def steps(self, e, f):
        # only NAME and this with steps are the front of a target
        chain = e.node.kind in ("Var", "This") and e.node.span == (e.start, e.end)
        while True:
            if self.is_("."):
                self.at += 1
                t = self.name()
                if f and chain and self.is_("("):
                    args = self.args(True)
                    span = (e.start, self.last_end())
                    e = Ex(N("Instance", span, recv=e.node, name=Word(t), args=args), *span)
                    chain = False
                else:
                    e = Ex(N("Field", (e.start, t.end), e=e.node, name=Word(t)), e.start, t.end)
            elif self.is_("["):
                self.at += 1
                i = self.expr(f).node
                t = self.take("]")
                e = Ex(N("Index", (e.start, t.end), a=e.node, i=i), e.start, t.end)
            else:
                return e

    def atom(self, f):
        t = self.peek()
        span = (t.start, t.end)
        if t.kind == "NUMBER":
            self.at += 1
            return Ex(N("Number", span, value=int(t.text)), *span)
        if t.kind == "NAME":
            self.at += 1
            if f and self.is_("("):
                args = self.args(True)
                span = (t.start, self.last_end())
                return Ex(N("Instance", span, recv=None, name=Word(t), args=args), *span)
            return Ex(N("Var", span, name=Word(t)), *span)
        for w, k in (("true", "Truth"), ("false", "Truth"), ("null", "Null"), ("this", "This")):
            if self.is_(w):
                self.at += 1
                return Ex(N(k, span), *span)
        if f and self.is_("\\result"):
            self.at += 1
            return Ex(N("Result", span), *span)
        if f and self.is_("\\old"):
            self.at += 1
            self.take("(")
            e = self.expr(True).node
            c = self.take(")")
            return Ex(N("Old", (t.start, c.end), e=e), t.start, c.end)
        if f and self.is_("Perm"):
            self.at += 1
            self.take("(")
            e = self.post(True).node
            self.take(",")
            if self.is_("write"):
                w = self.take("write")
                a, b, sp = 1, 1, (w.start, w.end)
            else:
                x = self.number()
                self.take("\\")
                y = self.number()
                a, b, sp = int(x.text), int(y.text), (x.start, y.end)
            c = self.take(")")
            return Ex(N("Perm", (t.start, c.end), e=e, a=a, b=b, amount=sp), t.start, c.end)
        for w in ("idle", "running", "committed", "uncommitted"):
            if f and self.is_(w):
                self.at += 1
                self.take("(")
                e = self.expr(True).node
                c = self.take(")")
                return Ex(N("Token", (t.start, c.end), what=w, e=e), t.start, c.end)
        if self.is_("("):
            if f and (self.is_("\\forall", 1) or self.is_("\\forall*", 1)):
                star = self.is_("\\forall*", 1)
                self.at += 2
                self.take("int")
                name = Word(self.name())
                written = None
                if self.is_("="):
                    self.at += 1
                    low = self.expr(True).node
                    self.take("..")
                    high = self.expr(True).node
                else:
                    self.take(";")
                    low = self.sum(True).node
                    self.take("<=")
                    w1 = Word(self.name())
                    self.take("&&")
                    w2 = Word(self.name())
                    self.take("<")
                    high = self.sum(True).node
                    written = (w1, w2)
                self.take(";")
                body = self.formula().node
                c = self.take(")")
                sp = (t.start, c.end)
                return Ex(N("Each", sp, star=star, name=name, low=low, high=high, body=body, written=written), *sp)
            self.at += 1
            e = self.formula() if f else self.expr(False)
            c = self.take(")")
            return Ex(e.node, t.start, c.end)
        raise Other(f"atom at {t}")


