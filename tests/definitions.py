"""The definitions over doubles in crates/*/specs/*.antt as functions, for tests/definition-check.

Reads what those files use of the language: equations with `let`, application, projections, `cond`, `&&`, `||`, lists with `∷` and `++`,
and whole numbers with + - *. The operations on doubles are those of tools/recompute, or the symbols put in their place.
"""
import re

TOKEN = re.compile(r"(\.\w+)|\s*(0x[0-9a-f_]+|\d[\d_]*|\w+'*|\[\]|∷|\+\+|\|\||&&|==|[()={};*+-])")
FIELDS = {"lo": 0, "hi": 1}


def tokens(text):
    found = []
    place = 0
    text = text.rstrip()
    while place < len(text):
        match = TOKEN.match(text, place)
        if not match:
            raise SyntaxError(text[place : place + 40])
        found.append(match.group(1) or match.group(2))
        place = match.end()
    return found


class Parser:
    """Expressions as tuples: ("let", name, value, body), ("call", head, arguments), ("field", of, name), ("op", sign, left, right) .."""

    RANKS = (("∷", "++"), ("||",), ("&&",), ("==",), ("+", "-"), ("*",))

    def __init__(self, text):
        self.left = tokens(text)[::-1]

    def next(self, wanted=None):
        token = self.left.pop()
        if wanted and token != wanted:
            raise SyntaxError(f"{token} where {wanted} was expected")
        return token

    def peek(self):
        return self.left[-1] if self.left else None

    def expression(self):
        if self.peek() != "let":
            return self.operators(0)
        self.next()
        name = self.next()
        self.next("=")
        value = self.expression()
        self.next("in")
        return ("let", name, value, self.expression())

    def operators(self, rank):
        if rank == len(self.RANKS):
            return self.application()
        left = self.operators(rank + 1)
        while self.peek() in self.RANKS[rank]:
            sign = self.next()
            # A list goes on to the right.
            right = self.operators(rank if rank == 0 else rank + 1)
            left = ("op", sign, left, right)
        return left

    def application(self):
        head = self.atom()
        arguments = []
        while self.peek() is not None and re.match(r"[\w(]|\[\]", self.peek()) and self.peek() not in ("in", "let"):
            arguments.append(self.atom())
        return ("call", head, arguments) if arguments else head

    def atom(self):
        """An argument, with the projections that are written tight behind it."""
        found = self.bare()
        while self.peek() is not None and self.peek().startswith("."):
            found = ("field", found, self.next()[1:])
        return found

    def bare(self):
        token = self.next()
        if token == "(":
            inner = self.expression()
            self.next(")")
            return inner
        if token == "record":
            return self.record()
        if token == "[]":
            return ("empty",)
        if token[0].isdigit():
            return ("number", int(token.replace("_", ""), 0))
        return ("name", token)

    def record(self):
        self.next("{")
        fields = []
        while self.peek() != "}":
            name = self.next()
            self.next("=")
            fields.append((name, self.expression()))
            if self.peek() == ";":
                self.next()
        self.next("}")
        return ("record", fields)


class Definitions:
    """The equations of some files, called by name."""

    def __init__(self, r, paths):
        self.equations = {}
        for path in paths:
            code = re.sub(r"--[^\n]*", "", path.read_text())
            for paragraph in re.split(r"\n\s*\n", code):
                match = re.search(r"^(\w+)((?: \w+)*) =(.*)", paragraph, flags=re.M | re.S)
                if match:
                    self.equations[match.group(1)] = (match.group(2).split(), match.group(3))
        # Section 6.1 of the paper is about whole numbers; what comes of it is one symbol on both sides.
        self.known = {
            "add": lambda _, x, y: r.add(x, y),
            "sub": lambda _, x, y: r.sub(x, y),
            "mul": lambda _, x, y: r.mul(x, y),
            "div": lambda _, x, y: r.div(x, y),
            "neg": lambda x: r.negated(x),
            "sqrt_of": lambda x: r.root(x),
            "lt": lambda x, y: r.less(x, y),
            "le": lambda x, y: r.at_most(x, y),
            "eq": lambda x, y: r.equal(x, y),
            "eqb": lambda m, n: m == n,
            "leb": lambda m, n: m <= n,
            "ltb": lambda m, n: m < n,
            "first_of": lambda numbers: next((n for n in numbers if n), 0),
            "nat_le": lambda m, n: m <= n,
            "nat_lt": lambda m, n: m < n,
            "of_bits": lambda _, bits: bits,
            "from_bits": lambda _, bits: bits,
            "to_bits": lambda _, x: x,
            "of_int": lambda _, n: r.double(n),
            "pos": lambda n: n,
            "slice_index_or": lambda entries, i, default: entries[i] if i < len(entries) else default,
            "get_or": lambda entries, i, default: entries[i] if i < len(entries) else default,
            "scaled_of": lambda b: {"m": b, "e": b},
            "index_of": lambda b: r.reduction(b)[0],
            "reduced_of": lambda b: r.reduction(b)[1],
            "exponent_of": lambda b, _: r.reduction(b)[2],
            "f_erfcinv": lambda x: r.quantile(x),
            "f_erfinv": lambda x: r.inverse(x),
            "binary64": None,
            "nan": None,
        }

    def call(self, name, *arguments):
        parameters, body = self.equations[name]
        if isinstance(body, str):
            body = Parser(body).expression()
            self.equations[name] = (parameters, body)
        scope = dict(zip(parameters, arguments))
        if len(arguments) > len(parameters) and body[0] == "call":
            # An equation between functions: the arguments beyond its own go to the right side.
            beyond = {f"argument {i}": value for i, value in enumerate(arguments[len(parameters) :])}
            return self.value(("call", body[1], body[2] + [("name", key) for key in beyond]), {**scope, **beyond})
        if len(arguments) != len(parameters):
            raise TypeError(f"{name} has {len(parameters)} arguments")
        return self.value(body, scope)

    def value(self, what, scope):
        kind = what[0]
        if kind == "let":
            return self.value(what[3], {**scope, what[1]: self.value(what[2], scope)})
        if kind == "number":
            return what[1]
        if kind == "empty":
            return []
        if kind == "field":
            of = self.value(what[1], scope)
            return of[what[2]] if isinstance(of, dict) else of[FIELDS[what[2]]]
        if kind == "record":
            fields = {name: self.value(inner, scope) for name, inner in what[1]}
            return (fields["lo"], fields["hi"]) if set(fields) == set(FIELDS) else fields
        if kind == "op" and what[1] in ("||", "&&"):
            left = self.value(what[2], scope)
            return left if left == (what[1] == "||") else self.value(what[3], scope)
        if kind == "op":
            return self.operator(what[1], self.value(what[2], scope), self.value(what[3], scope))
        head, arguments = (what, []) if kind == "name" else (what[1], what[2])
        return self.applied(head[1], arguments, scope)

    def applied(self, name, arguments, scope):
        if name == "cond":
            test, good, bad = arguments
            return self.value(good if self.value(test, scope) else bad, scope)
        given = [self.value(argument, scope) for argument in arguments]
        if name in scope and not given:
            return scope[name]
        if name in self.known:
            return self.known[name](*given) if given else self.known[name]
        return self.call(name, *given)

    @staticmethod
    def operator(sign, left, right):
        if sign == "∷":
            return [left] + right
        if sign == "++":
            return left + right
        if sign == "==":
            return left == right
        return {"+": left + right, "-": left - right, "*": left * right}[sign]
