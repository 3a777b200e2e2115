#!/usr/bin/env python3
"""blocks.py DEFINITION.md: each block of steps of the paper as a definition in Coq, and that the one of Quantile.v is the same, by reflexivity.

So what stands in Quantile.v, set down by a reader, is what the paper's text says: a sign or an operand changed in the paper is refused.
"""
import pathlib
import re
import sys

# What Quantile.v defines of the paper's sentences and not of its blocks.
SENTENCES = """turned significand indexOf reduction quantile inverse inRange count sum squares deviation timesInRange mean spread chanceQuantile limit band
quantileBits inverseBits rootBits"""

HEAD = """(* Made by blocks.py of the blocks of docs/DEFINITION.md. *)
From Coq Require Import ZArith List Bool.
From Awaqlla Require Import Arithmetic Tables Quantile.
Import ListNotations.
Open Scope Z_scope.

Section Paper.

Context {arith : arithmetic}.
"""

TOKEN = re.compile(r"\s*(\w+|⟨|⟩|[⊕⊖⊗⊘×−=<>≤≥(),\[\].])")
RANKS = (("or",), ("=", "<", ">", "≤", "≥"), ("⊕", "⊖"), ("⊗", "⊘", "×"))
# Section 8's letters are whole numbers.
WHOLE = {"f", "n", "S", "D", "c", "w"}
WHOLE_BLOCKS = {"divisor", "limitOf", "lowEnd", "highEnd"}
OWN = {"double": "double arith", "root": "root arith"}


class Reader:
    """An expression of the paper, read from its tokens and written for Coq."""

    def __init__(self, text, whole):
        self.left = TOKEN.findall(text)[::-1]
        self.whole = whole
        if re.sub(r"\s", "", text) != "".join(self.left[::-1]).replace(" ", ""):
            raise SystemExit(f"{text}: not all of it is read")

    def peek(self):
        return self.left[-1] if self.left else ""

    def take(self, wanted=None):
        token = self.left.pop()
        if wanted and token != wanted:
            raise SystemExit(f"{token} where {wanted} was expected")
        return token

    def expression(self, rank=0):
        if rank == len(RANKS):
            return self.signed()
        left = self.expression(rank + 1)
        while self.peek() in RANKS[rank] or (self.whole and rank == 2 and self.peek() == "−"):
            sign = self.take()
            left = self.joined(sign, left, self.expression(rank + 1))
        return left

    def joined(self, sign, left, right):
        if sign in "⊕⊖⊗⊘":
            return f"({left} {sign} {right})"
        if self.whole and sign in "×−=":
            return f"({left} {dict(zip('×−=', ('*', '-', '=?')))[sign]} {right})"
        if sign == "or":
            return f"({left} || {right})"
        if sign in ">≥":
            left, right = right, left
        return f"({dict(zip('=<>≤≥', ('eq', 'lt', 'lt', 'le', 'le')))[sign]} {left} {right})"

    def signed(self):
        if self.peek() != "−":
            return self.dotted()
        self.take()
        of = self.dotted()
        # A pair is turned by section 5, a double by section 3.2.
        return f"(turned {of})" if re.match(r"[A-Z]$|\(fastTwoSum ", of) else f"(− {of})"

    def dotted(self):
        of = self.atom()
        while self.peek() == ".":
            self.take()
            of = f"({self.take()} {of})"
        return of

    def atom(self):
        token = self.take()
        if token == "(":
            inner = self.expression()
            self.take(")")
            return inner
        if token == "⟨":
            low = self.expression()
            self.take(",")
            high = self.expression()
            self.take("⟩")
            return f"⟨{low}, {high}⟩"
        if self.peek() == "[":
            return self.entry(token)
        if self.peek() == "(":
            return self.call(token)
        return token

    def entry(self, name):
        self.take("[")
        place = self.take()
        self.take("]")
        place = place if place.isdigit() else f"(Z.to_nat {place})"
        return f"({'double_at' if name in ('LOGPOLY', 'RECIPROCAL') else 'pair_at'} {name} {place})"

    def call(self, name):
        self.take("(")
        arguments = [self.expression()]
        while self.peek() == ",":
            self.take()
            arguments.append(self.expression())
        self.take(")")
        return f"({OWN.get(name, name)} {' '.join(arguments)})"


def kind_of(name, block):
    if block in WHOLE_BLOCKS and name in WHOLE or name in ("i", "w"):
        return "Z"
    if name == "T":
        return "list (Z * Z)"
    if name == "short":
        return "bool"
    return "pair arith" if name[0].isupper() else "number arith"


def written(text, whole):
    reader = Reader(text, whole)
    out = reader.expression()
    if reader.left:
        raise SystemExit(f"{text}: {reader.left[::-1]} is left over")
    return out


def body_of(lines, whole):
    line, rest = lines[0].strip(), lines[1:]
    if line.startswith("answer "):
        return "  " + written(line[7:], whole)
    test = re.match(r"if (.*): answer (.*)", line)
    if test:
        return f"  if {written(test[1], whole)} then {written(test[2], whole)} else\n{body_of(rest, whole)}"
    name, value = line.split(" = ", 1)
    if name == "i, t, e":
        made = written(value, whole)
        return "".join(f"  let {n} := {field} {made} in\n" for n, field in zip("ite", ("index", "near", "exponent"))) + body_of(rest, whole)
    return f"  let {name} := {written(value, whole)} in\n{body_of(rest, whole)}"


def main():
    text = open(sys.argv[1], encoding="utf-8").read()
    print(HEAD)
    names = []
    for fenced in re.findall(r"^```\n(\w+\(.*?)^```", text, flags=re.S | re.M):
        for block in fenced.strip().split("\n\n"):
            head, *lines = block.splitlines()
            name, words = re.fullmatch(r"(\w+)\((.*)\):", head).groups()
            whole = name == "divisor"
            arguments = " ".join(f"({word} : {kind_of(word, name)})" for word in words.split(", "))
            given = " ".join(words.split(", "))
            print(f"Definition the_{name} {arguments} :=\n{body_of(lines, whole)}.")
            print(f"Lemma {name}_as_written {arguments} : the_{name} {given} = {name} {given}. Proof. reflexivity. Qed.\n")
            names.append(name)
    print("End Paper.")
    defined = re.findall(r"^Definition (\w+)", (pathlib.Path(__file__).parent / "Quantile.v").read_text(encoding="utf-8"), flags=re.M)
    missing = sorted(set(defined) - set(SENTENCES.split()) ^ set(names))
    if missing or len(set(names)) != len(names):
        sys.exit(f"sections 5 to 8: {', '.join(missing) or 'a block twice'}: not the blocks of Quantile.v")
    print(f"{len(names)} blocks", file=sys.stderr)


main()
