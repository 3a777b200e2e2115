"""The blocks of steps of docs/DEFINITION.md as functions, and symbols to compare steps by.

Used by tests/recompute-check, which holds the functions of tools/recompute to the blocks, and by tests/definition-check, which
holds the blocks to the definitions of the crates.
"""
import random
import re

from tool import ROOT, load_recompute, load_tool  # noqa: F401 (the tests import the loaders from here)

PAPER = ROOT / "docs/DEFINITION.md"


class Double:
    """A bit pattern with the paper's signs for the operations, which are those of the module `operations`."""

    operations = None

    def __init__(self, bits):
        self.bits = bits

    def __neg__(self):
        return Double(self.operations.negated(self.bits))

    def __add__(self, other):
        return Double(self.operations.add(self.bits, other.bits))

    def __sub__(self, other):
        return Double(self.operations.sub(self.bits, other.bits))

    def __mul__(self, other):
        return Double(self.operations.mul(self.bits, other.bits))

    def __truediv__(self, other):
        return Double(self.operations.div(self.bits, other.bits))

    def __lt__(self, other):
        return self.operations.less(self.bits, other.bits)

    def __gt__(self, other):
        return self.operations.less(other.bits, self.bits)

    def __le__(self, other):
        return self.operations.at_most(self.bits, other.bits)

    def __ge__(self, other):
        return self.operations.at_most(other.bits, self.bits)

    def __eq__(self, other):
        return self.operations.equal(self.bits, other.bits)


class Pair:
    def __init__(self, low, high):
        self.low = low
        self.high = high

    def __neg__(self):
        return Pair(-self.low, -self.high)


def wrapped(what):
    """Lists, pairs and patterns as the blocks take them."""
    if isinstance(what, list):
        return [wrapped(entry) for entry in what]
    return Pair(Double(what[0]), Double(what[1])) if isinstance(what, tuple) else Double(what)


def plain(what):
    return (what.low.bits, what.high.bits) if isinstance(what, Pair) else what.bits


def heads(text):
    """The name and the arguments of each block."""
    return [(name, words.split(", ")) for name, words in re.findall(r"^(\w+)\(([\w, ]+)\):$", text, flags=re.M)]


def translated(text):
    """The blocks of steps as Python: other signs for the operations, and other words for the head and the answer."""
    lines = []
    for block in re.findall(r"^```\n(\w+\(.*?)^```", text, flags=re.S | re.M):
        for line in block.splitlines():
            if line and not line.startswith(" "):
                line = "def " + line
            if line.startswith("    if "):
                test, rest = line.split(":", 1)
                line = test.replace(" = ", " == ") + ":" + rest
            lines.append(re.sub(r"\banswer\b", "return", line))
    python = "\n".join(lines)
    for sign, other in (("⊕", "+"), ("⊖", "-"), ("⊗", "*"), ("⊘", "/"), ("×", "*"), ("−", "-"), ("≤", "<="), ("≥", ">="), ("⟨", "Pair("), ("⟩", ")")):
        python = python.replace(sign, other)
    return python


class Blocks:
    """The functions of the paper's blocks, over the operations of the module r."""

    def __init__(self, r, text):
        Double.operations = r
        numbers = [cells[0] for head, cells in r.rows_of(text) if head[:2] == ["name", "number"]]
        self.scope = {name: what if name in numbers else wrapped(what) for name, what in vars(r.K).items()}
        self.scope.update(
            Pair=Pair,
            root=lambda x: Double(r.root(x.bits)),
            double=lambda n: Double(r.double(n)),
            quantile=lambda x: Double(r.quantile(x.bits)),
            inverse=lambda x: Double(r.inverse(x.bits)),
            reduction=lambda x: reduced(*r.reduction(x.bits)),
        )
        exec(translated(text), self.scope)

    def call(self, name, *arguments):
        """A block's answer, from and to patterns; True, False and indices stay what they are."""
        given = [what if isinstance(what, (bool, Index)) else wrapped(what) for what in arguments]
        return plain(self.scope[name](*given))

    def limit(self, f, n, s, d, c):
        return plain(self.scope["limitOf"](f, n, s, d, c))

    def end(self, name, n, s, d, w):
        """The end of a band that the block of this name gives."""
        return plain(self.scope[name](n, s, d, w))

    def divisor(self, f, n):
        return self.scope["divisor"](f, n)


class Index(int):
    """A place in a list."""


def reduced(i, t, e):
    return i, Double(t), Double(e)


class Symbols:
    """Operations that only write down what they are given: two results are equal exactly if the same steps led to them.

    Put in the place of the module's own while the object is entered. Comparisons answer by chance, but alike for the same
    operands in one turn, so that over many turns every branch is taken.
    """

    OPERATIONS = ("add", "sub", "mul", "div", "root", "negated", "double", "quantile", "inverse")
    TURNS = range(40)

    def __init__(self, r):
        self.r = r
        self.own = {name: getattr(r, name) for name in (*self.OPERATIONS, "less", "at_most", "equal", "reduction")}
        self.known = {}
        self.turn = 0

    def symbol(self, *what):
        return self.known.setdefault(what, (1 << 70) + len(self.known))

    def chance(self, *what):
        return random.Random(f"{self.turn} {what}").getrandbits(1) == 1

    def reduction(self, x):
        return Index(self.symbol("i", x) % 182), self.symbol("t", x), self.symbol("e", x)

    def __enter__(self):
        for name in self.own:
            maker = self.symbol if name in self.OPERATIONS else self.chance
            setattr(self.r, name, lambda *operands, name=name, maker=maker: maker(name, *operands))
        self.r.reduction = self.reduction
        self.r.quantiles.clear()
        return self

    def __exit__(self, *_):
        for name, function in self.own.items():
            setattr(self.r, name, function)
        self.r.quantiles.clear()

    def argument(self, name):
        """What stands for an argument: T is a list of pairs, i an index; a capital letter is a pair."""
        if name == "T":
            return [self.argument(f"T{i}") for i in range(14)]
        if name == "i":
            return Index(self.turn * 7 % 182)
        if name == "short":
            return self.turn % 2 == 1
        return (self.symbol(name, "low"), self.symbol(name, "high")) if name[0].isupper() else self.symbol(name)


class Paths(Symbols):
    """Symbols whose comparisons answer as they are told, so that every path through a function can be taken, each once."""

    def chance(self, *what):
        if what not in self.taken:
            self.taken[what] = self.told[len(self.taken)] if len(self.taken) < len(self.told) else True
        return self.taken[what]

    def tree(self, function):
        """The function as its tree: each path's tests, in their order and with what they answered, and the symbol that it answers."""
        found, left = [], [[]]
        while left:
            self.told, self.taken = left.pop(), {}
            answer = function()
            found.append((tuple(self.taken.items()), answer))
            answers = list(self.taken.values())
            left += [answers[:k] + [False] for k in range(len(self.told), len(answers))]
        return sorted(found, key=str)
