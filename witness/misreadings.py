#!/usr/bin/env python3
"""misreadings.py [--check] [DEFINITION.md]: one step of the paper misread, in every way of a list made here; which number of sections 12 and 13 shows it.

The blocks, and the lists of sections 7 and 7.5 written as blocks, become one C++ program over the processor's doubles, in which a misreading of one line
takes the place of the line. A misreading that no number shows is tried at all 999,999 chances and shares: it must change no answer. Prints the table
of witness/misreadings.txt, and ends with 1 if a misreading changes an answer and no number shows it. --check tries the numbers alone, and that the
table stands as it comes out. Needs g++ on an x86-64 machine.
"""
import pathlib
import re
import shutil
import subprocess
import sys
import tempfile

HERE = pathlib.Path(__file__).resolve().parent
NAME = r"[A-Za-z_]\w*"
SIZES = {"horner10": 10, "paired10": 10, "paired11": 11, "paired14": 14}
LISTS = {"LOGPOLY": 6, "SHORTP": 11, "SHORTQ": 11}
# The lists of sections 7 and 7.5, as blocks.
PROSE = """
quantile(x):
    if x = ZERO: answer INFINITE
    if x = TWO: answer −INFINITE
    if x < ZERO or x > TWO or isNaN(x): answer NOT_A_NUMBER
    if x = ONE: answer ZERO
    if x < TENTH: answer small(x)
    answer central(x)

small(x):
    i, t, e = reduction(x)
    L = logOfDouble(i, t, e)
    answer value(asymptotic(L, x ≥ SHORT_FROM))

inverse(x):
    if x = ZERO: answer x
    if x = ONE: answer INFINITE
    if x = −ONE: answer −INFINITE
    if x < −ONE or x > ONE or isNaN(x): answer NOT_A_NUMBER
    a = size(x)
    A = ⟨ZERO, a⟩
    r = size(value(core(A)))
    if x < ZERO: answer −r
    answer r
"""
# A function, and one that is taken for it.
ALIKE = {
    "twoSum": "fastTwoSum",
    "fastTwoSum": "twoSum",
    "twoDifference": "twoSum",
    "shortRational": "longRational",
    "longRational": "shortRational",
    "taylor4": "taylor7",
    "taylor7": "taylor4",
    "middle": "quickRational",
    "quickRational": "carefulRational",
    "carefulRational": "quickRational",
}
CONSTANTS = {
    "CUT_1": "CUT_2", "CUT_2": "CUT_1", "CUT_3": "CUT_4", "CUT_4": "CUT_3", "TENTH": "SHORT_FROM", "SHORT_FROM": "TENTH", "ERROR_1": "ERROR_2",
    "ERROR_2": "ERROR_1", "HALF": "ONE", "ONE": "TWO", "TWO": "ONE", "FOUR": "TWO", "LARGE": "FOUR", "ZERO": "ONE", "CENTRE": "HALF", "T0": "T1", "T1": "T2",
    "T2": "T1", "T3": "T4", "T4": "T5", "T5": "T6", "T6": "T5", "MIDP": "MIDQ", "MIDQ": "MIDP", "SHORTP": "SHORTQ", "SHORTQ": "SHORTP", "LONGP": "LONGQ",
    "LONGQ": "LONGP", "ROOT_TWO": "TWO", "CHANCE_SCALE": "SHARE_SCALE", "SHARE_SCALE": "CHANCE_SCALE", "SAMPLE_FORM": "PLAIN_FORM",
}


def blocks_of(text):
    fenced = re.findall(r"^```\n(\w+\(.*?)^```", text, flags=re.S | re.M)
    for block in re.split(r"\n\n+", "\n\n".join(fenced + [PROSE]).strip()):
        head, *lines = block.splitlines()
        name, words = re.fullmatch(r"(\w+)\((.*)\):", head).groups()
        yield name, words.split(", "), [line.strip() for line in lines]


def split_arguments(text):
    """The arguments of a call, at its outermost commas."""
    parts, depth, start = [], 0, 0
    for i, c in enumerate(text):
        depth += c in "(⟨["
        depth -= c in ")⟩]"
        if c == "," and depth == 0:
            parts.append(text[start:i].strip())
            start = i + 1
    return parts + [text[start:].strip()]


def calls_in(text):
    """Calls and pairs: where their arguments stand."""
    for match in re.finditer(r"\w+\(|⟨", text):
        depth, end = 1, match.end()
        while depth:
            depth += text[end] in "(⟨"
            depth -= text[end] in ")⟩"
            end += 1
        yield match.end(), end - 1


def is_pair(argument):
    named = re.fullmatch(r"−?[A-Z]\d?", argument) or re.match(r"−?(T\[\d+\]$|[A-Z]+\[\w+\]$|T[0-2]$|LOG2$)", argument)
    return bool(named) and not argument.startswith("LOGPOLY")


def kind(argument):
    if re.fullmatch(r"[A-Z]{4,5}", argument) and argument in LISTS or argument in ("MIDP", "MIDQ", "LONGP", "LONGQ", "T"):
        return "list"
    if argument in ("i", "f", "n", "S", "D", "c", "w", "short"):
        return argument
    return "pair" if is_pair(argument) or re.match(r"⟨|centred\(|horner|paired|divide\(|fastTwoSum|core", argument) else "double"


def exchanges(text):
    for start, end in calls_in(text):
        arguments = split_arguments(text[start:end])
        for i in range(len(arguments) - 1):
            a, b = arguments[i : i + 2]
            if kind(a) == kind(b) and a != b:
                yield text[:start] + ", ".join([*arguments[:i], b, a, *arguments[i + 2 :]]) + text[end:], f"{a} and {b} exchanged"


def replacements(text, known, block):
    """Texts with one token changed, and what was changed."""
    for match in re.finditer(r"[⊕⊖⊗⊘<>≤≥−]|\.low|\.high|" + NAME, text):
        token, put = match.group(), lambda new: text[: match.start()] + new + text[match.end() :]
        behind = text[match.end() : match.end() + 1]
        if token in "⊕⊖":
            yield put("⊖" if token == "⊕" else "⊕"), f"the other sign for {token}"
        elif token in "⊗⊘":
            yield put("⊕"), f"⊕ for {token}"
        elif token in "<>≤≥":
            yield put({"<": "≤", ">": "≥", "≤": "<", "≥": ">"}[token]), f"{token} with or without equality"
            yield put({"<": ">", ">": "<", "≤": "≥", "≥": "≤"}[token]), f"{token} turned round"
        elif token == "−":
            yield (put("+"), "+ for −") if behind == " " else (put(""), "a − left out")
        elif token in (".low", ".high"):
            yield put(".high" if token == ".low" else ".low"), f"the other part for {token}"
        elif behind == "(" and token in ALIKE:
            yield put(ALIKE[token]), f"{ALIKE[token]} for {token}"
        elif behind != "(" and token in CONSTANTS:
            yield put(CONSTANTS[token]), f"{CONSTANTS[token]} for {token}"
        elif behind not in ("(", "[") and token in known and not text[: match.start()].endswith("."):
            for other in known:
                if other != token and re.sub(r"\d", "", other) == re.sub(r"\d", "", token) and other != token:
                    yield put(other), f"{other} for {token}"
    for match in re.finditer(r"(\w+)\[(\d+)\]", text):
        for near in (int(match[2]) - 1, int(match[2]) + 1):
            if 0 <= near < SIZES.get(block, LISTS.get(match[1], 14)):
                yield text[: match.start(2)] + str(near) + text[match.end(2) :], f"{match[1]}[{near}] for {match[0]}"
    for match in re.finditer(r"(\w+(?:\.\w+)?) (⊖|⊘) (\w+(?:\.\w+)?)(?![\w(\[])", text):
        yield text[: match.start()] + f"{match[3]} {match[2]} {match[1]}" + text[match.end() :], f"the operands of {match[0]} exchanged"
    for match in re.finditer(r"\((\w+(?:\.\w+)?) ([⊕⊖]) (\w+(?:\.\w+)?)\) ([⊕⊖]) (\w+(?:\.\w+)?)(?![\w(])", text):
        yield text[: match.start()] + f"{match[1]} {match[2]} ({match[3]} {match[4]} {match[5]})" + text[match.end() :], "grouped from the right"


def variants(text, known, block):
    seen = {text}
    for new, what in [*exchanges(text), *replacements(text, known, block)]:
        if new not in seen:
            seen.add(new)
            yield new, what


SIGNS = {"⊕": "+", "⊖": "-", "⊗": "*", "⊘": "/", "×": "*", "−": "-", "≤": "<=", "≥": ">=", "⟨": "Pair{", "⟩": "}"}


def cpp(text):
    """An expression or a test of the paper as C++."""
    for sign, other in SIGNS.items():
        text = text.replace(sign, other)
    text = re.sub(r"\bdouble\(", "as_double(", text)
    return re.sub(r"\bshort\b", "short_", re.sub(r" = ", " == ", text))


class Program:
    """The blocks in C++, with every misreading beside its line."""

    def __init__(self, text):
        self.misread, self.out = [], []
        blocks = list(blocks_of(text))
        for name, words, _ in blocks:
            self.out.append(f"static {self.answers(name)} {name}({self.parameters(name, words)});")
        for name, words, lines in blocks:
            self.block(name, words, lines)

    @staticmethod
    def answers(name):
        if name == "divisor":
            return "long"
        doubles = "value productPlus multiplyThenAdd polynomial4 polynomial5 logResidue logShare central quantile small inverse limitOf halfBand lowEnd highEnd"
        return "double" if name in doubles.split() else "Pair"

    @staticmethod
    def parameters(name, words):
        kinds = {"T": "const Pair *", "short": "bool ", "i": "int ", "w": "long ", "c": "long ", "f": "long ", "n": "long "}
        own = lambda word: "long " if name in ("divisor", "limitOf", "lowEnd", "highEnd") else kinds["T"] if word == "T" else None
        pick = lambda w: own(w) or ({"short": "bool ", "i": "int ", "w": "long "}.get(w) or ("Pair " if w[0].isupper() else "double "))
        return ", ".join(pick(word) + cpp(word) for word in words)

    def chosen(self, name, number, text, known, part):
        """The text as C++, with its misreadings chosen by `misread`."""
        chain = ""
        for new, what in variants(text, known, name):
            self.misread.append(f"{name}, {part} {number + 1}: {what}")
            chain += f"misread == {len(self.misread)} ? ({cpp(new)}) : "
        return chain + f"({cpp(text)})"

    def block(self, name, words, lines):
        known = [word for word in words if word != "short"]
        self.out.append(f"static {self.answers(name)} {name}({self.parameters(name, words)}) {{")
        for k, line in enumerate(lines):
            test = re.fullmatch(r"if (.*): answer (.*)", line)
            if test:
                self.misread += [f"{name}, line {k + 1}: the test always holds", f"{name}, line {k + 1}: the test never holds"]
                always = len(self.misread) - 1
                holds = f"misread == {always} || (misread != {always + 1} && ({self.chosen(name, k, test[1], known, 'test of line')}))"
                self.out.append(f"    if ({holds}) return {self.chosen(name, k, test[2], known, 'line')};")
            elif line.startswith("answer "):
                self.out.append(f"    return {self.chosen(name, k, line[7:], known, 'line')};")
            else:
                to, value = line.split(" = ", 1)
                own = f"[{to}]" if "," in to else to
                self.out.append(f"    auto {own} = {self.chosen(name, k, value, known, 'line')};")
                known = known + to.split(", ")
        self.out.append("}")


def constants_of(text):
    """Sections 14 and 15 in C++."""
    head, lists = None, {}
    for line in text[text.index("\n## 14. ") : text.index("\n## 16. ")].splitlines():
        cells = [cell.strip() for cell in line.strip().strip("|").split("|")] if line.startswith("|") else None
        if not cells or head is None:
            head = cells
        elif set("".join(cells)) <= set("-"):
            continue
        elif head[:2] == ["name", "bits"]:
            yield f"static const double {cells[0]} = bits(0x{cells[1]}ull);"
        elif head[:3] == ["name", "low", "high"]:
            yield f"static const Pair {cells[0]} = {{bits(0x{cells[1]}ull), bits(0x{cells[2]}ull)}};"
        elif head[:2] == ["name", "number"] and cells[1].isdigit():
            yield f"static const long {cells[0]} = {cells[1]};"
        elif head[0] == "i":
            for name, cell in zip(head[1:], cells[1:]):
                lists.setdefault(name.split("[i]")[0], {}).setdefault(name.split("[i]")[1].strip(), []).append(f"bits(0x{cell}ull)")
    for name, columns in lists.items():
        if "" in columns:
            yield f"static const double {name}[] = {{{', '.join(columns[''])}}};"
        else:
            yield f"static const Pair {name}[] = {{" + ", ".join(f"{{{low}, {high}}}" for low, high in zip(columns["low"], columns["high"])) + "};"


def rows_of(text):
    """The numbers of sections 12 and 13 that touch doubles: what is asked, in C++, and its pattern or patterns."""
    section = text[text.index("\n## 13.") : text.index("\n## 14.")]
    head = None
    for line in section.splitlines():
        cells = [cell.strip() for cell in line.strip().strip("|").split("|")] if line.startswith("|") else None
        if not cells or head is None:
            head = cells
            continue
        bits = lambda cell: f"bits(0x{cell}ull)"
        if head[0] == "x" and head[-1] == "quantile(x)" and re.fullmatch("[0-9a-f]{16}", cells[0]):
            yield f"quantile({cells[0]})", f"shown(quantile({bits(cells[0])}))", cells[-1]
        elif head == ["x", "p"] and cells[0].startswith("inverse"):
            x = cells[0][8:24]
            yield f"inverse({x})", f"shown(inverse({bits(x)}))", cells[1]
        elif head[0] == "form" and "refusal" not in cells[3] and cells[0].isdigit():
            times = [int(word) for word in cells[1].split(", ")]
            n, s, q = len(times), sum(times), sum(t * t for t in times)
            asked = f"shown(limitOf({cells[0]}, {n}, {s}, {n * q - s * s}, {cells[2]}))"
            yield f"limit of {cells[1]} at {cells[2]}, form {cells[0]}", asked, cells[3].split()[3]
        elif head[:2] == ["times", "share"] and len(cells) == 4 and "refusal" not in cells[2] and cells[1].isdigit():
            times = [int(word) for word in cells[0].split(", ")]
            n, s, q = len(times), sum(times), sum(t * t for t in times)
            for end, said in zip(("lowEnd", "highEnd"), cells[2:]):
                yield f"band of {cells[0]} at {cells[1]}", f"shown({end}({n}, {s}, {n * q - s * s}, {cells[1]}))", said


def worked_of(text):
    """Section 12's lines from L on, both parts of each pair: what is asked of the steps that Worked.v names, and its patterns."""
    section = text[text.index("\n## 12.") : text.index("\n## 13.")]
    block = re.findall(r"^```\n(.*?)^```", section, flags=re.S | re.M)[0]
    steps = [re.fullmatch(r"(\S+)\s+(.+?)\s{2,}(.*)", line).groups() for line in block.splitlines()]
    names = iter("z D V P W L Z R U U2 U4 U8".split() + [f"{side}.{k}" for side in "PQ" for k in range(10)] + ["quotient", "answer"])
    for section, name, values in steps:
        if section.startswith("6.") and name in "zDVPW" or section == "7.4":
            yield f"section 12, {name}", next(names), values.split()


SHELL = """
#include <math.h>
#include <stdint.h>
#include <stdio.h>
#include <stdlib.h>
#include <string.h>
struct Pair { double low, high; };
struct Reduced { int i; double t, e; };
static inline Pair operator-(Pair a) { return Pair{-a.low, -a.high}; }
static inline double bits(uint64_t b) { double x; memcpy(&x, &b, 8); return x; }
static inline uint64_t shown(double x) { uint64_t b; if (x != x) return 0x7ff8000000000000ull; memcpy(&b, &x, 8); return b; }
static inline double as_double(long n) { return (double)n; }
static inline double root(double x) { return sqrt(x); }
static inline double size(double x) { return fabs(x); }
static inline bool isNaN(double x) { return x != x; }
static int misread;
static const double INFINITE = bits(0x7ff0000000000000ull), NOT_A_NUMBER = bits(0x7ff8000000000000ull);
@CONSTANTS@
static Reduced reduction(double x) {
    uint64_t b = shown(x) & 0x7fffffffffffffffull, f = b >> 52, m = b & 0xfffffffffffffull;
    long c = (long)f - 1023;
    if (f >= 1) m += 1ull << 52;
    else { long j = 0; while (m && m < 1ull << 52) { m <<= 1; j++; } c = -1022 - j; if (!m) m = 1ull << 52; }
    double p = bits(0x3ff0000000000000ull + (m - (1ull << 52)));
    if ((long)m >= ROOT_AT) return Reduced{(int)((m >> 45) - INDEX_FIRST), p * HALF, as_double(c + 1)};
    return Reduced{(int)((m >> 44) - INDEX_FIRST), p * ONE, as_double(c)};
}
@BLOCKS@
struct Row { uint64_t (*of)(); uint64_t said; const char *name; };
static Pair step(int k, const Pair *T, Pair Q0, Pair U, Pair U2, Pair U4, Pair U8) {
    Pair Q[5] = {Q0, multiplyAdd(T[3], U, T[2]), multiplyAdd(T[5], U, T[4]), multiplyAdd(T[7], U, T[6]), multiplyAdd(T[9], U, T[8])};
    if (k < 5) return Q[k];
    Pair R0 = multiplyAdd(U2, Q[1], Q[0]), R1 = multiplyAdd(U2, Q[3], Q[2]);
    return k == 5 ? R0 : k == 6 ? R1 : k == 7 ? multiplyAdd(U4, R1, R0) : k == 8 ? multiplyAdd(U2, T[10], Q[4]) : paired11(T, Q0, U, U2, U4, U8);
}
static Pair worked(int k) {
    auto [i, t, e] = reduction(as_double(1000) / as_double(CHANCE_SCALE));
    double z = logResidue(i, t);
    Pair V = logSum(i, e, z), P = logPolynomial(z), W = addToDouble(V.high, Pair{V.low + P.low, P.high}), L = logOfDouble(i, t, e);
    Pair Z = -fastTwoSum(L.high, L.low), R = pairRoot(Z), U = reciprocal(R), U2 = multiply(U, U), U4 = multiply(U2, U2), U8 = multiply(U4, U4);
    Pair own[12] = {Pair{z, z}, multiplyDoubleAdd(LOG2, e, LOGARITHM[i]), V, P, W, L, Z, R, U, U2, U4, U8};
    if (k < 12) return own[k];
    Pair P0 = multiplyAdd(SHORTP[1], U, SHORTP[0]), Q0 = multiplyAddDouble(SHORTQ[1], U, ONE);
    if (k < 22) return step(k - 12, SHORTP, P0, U, U2, U4, U8);
    if (k < 32) return step(k - 22, SHORTQ, Q0, U, U2, U4, U8);
    Pair N = paired11(SHORTP, P0, U, U2, U4, U8), D = paired11(SHORTQ, Q0, U, U2, U4, U8);
    return k == 32 ? divide(N, D) : shortRational(U, R);
}
static const Row rows[] = {
@ROWS@
};
static uint64_t quantiles[1000000], inverses[1000000];
int main(int argc, char **argv) {
    for (misread = 0; misread <= @COUNT@; misread++) {
        const char *shows = NULL;
        for (const Row &row : rows)
            if (row.of() != row.said) { shows = row.name; break; }
        if (misread == 0 && shows) { printf("0 %s does not come out\\n", shows); return 1; }
        long changed = 0, first = 0, changed_shares = 0, first_share = 0;
        if ((misread == 0 || !shows) && argc < 2)
            for (long c = 1; c < 1000000; c++) {
                uint64_t q = shown(quantile(as_double(c) / as_double(500000))), v = shown(inverse(as_double(c) / as_double(1000000)));
                if (misread == 0) { quantiles[c] = q; inverses[c] = v; }
                if (q != quantiles[c] && !changed++) first = c;
                if (v != inverses[c] && !changed_shares++) first_share = c;
            }
        if (misread) printf("%ld\\t%ld\\t%ld\\t%ld\\t%s\\n", changed, first, changed_shares, first_share, shows ? shows : "");
        fflush(stdout);
    }
}
"""


def program_of(text):
    """The C++ program, and the misreadings by their numbers."""
    program = Program(text)
    rows = [f'{{[]() -> uint64_t {{ return {asked}; }}, 0x{said}ull, "{name}"}},' for name, asked, said in rows_of(text)]
    for k, (name, _, values) in enumerate(worked_of(text)):
        for part, value in zip(("low", "high") if len(values) == 2 else ("low",), values):
            rows.append(f'{{[]() -> uint64_t {{ return shown(worked({k}).{part}); }}, 0x{value}ull, "{name}"}},')
    source = SHELL
    for name, lines in {"CONSTANTS": constants_of(text), "BLOCKS": program.out, "ROWS": rows, "COUNT": [str(len(program.misread))]}.items():
        source = source.replace(f"@{name}@", "\n".join(lines))
    return source, program.misread


def run(source, *arguments):
    with tempfile.TemporaryDirectory() as folder:
        file = pathlib.Path(folder) / "misread.cc"
        file.write_text(source)
        subprocess.run(["g++", "-std=c++17", "-O1", "-w", "-ffp-contract=off", "-o", f"{folder}/misread", str(file)], check=True)
        return subprocess.run([f"{folder}/misread", *arguments], stdout=subprocess.PIPE, text=True).stdout


def changes(changed, first, shares, first_share):
    """What a misreading changes, in words."""
    words = [f"{n} {what}, the first {at}" for n, at, what in ((changed, first, "chances"), (shares, first_share, "shares")) if int(n)]
    return "; ".join(words) or "none"


def main():
    quick = "--check" in sys.argv
    given = [word for word in sys.argv[1:] if word != "--check"]
    text = pathlib.Path(given[0] if given else HERE.parent / "docs/DEFINITION.md").read_text(encoding="utf-8")
    if quick and not shutil.which("g++"):
        print("misreadings skipped: there is no g++")
        return
    source, misread = program_of(text)
    out = run(source, *(["rows"] if quick else []))
    if out.startswith("0 "):
        sys.exit(out.strip())
    table, unseen, harmless = [], 0, 0
    for name, line in zip(misread, out.splitlines()):
        *numbers, shows = line.split("\t")
        what = "" if shows else changes(*numbers)
        unseen += what not in ("", "none")
        harmless += what == "none"
        table.append(f"{name}\t{shows or 'no number'}\t{what}")
    table.append(f"misreadings: {len(misread)}, {len(misread) - unseen - harmless} shown by a number, {harmless} change no answer, {unseen} unseen")
    if quick and table != (HERE / "misreadings.txt").read_text(encoding="utf-8").splitlines()[2:]:
        sys.exit("misreadings: witness/misreadings.txt is not what comes out; misreadings.py makes it again")
    print(table[-1] if quick else "\n".join(["What is misread, what shows it, and what it changes where nothing does", "", *table]))
    sys.exit(1 if unseen else 0)


main()
