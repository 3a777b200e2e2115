#!/usr/bin/env python3
"""rows.py DEFINITION.md: every number of sections 12 and 13 that touches doubles, as theorems in Coq over Flocq's binary64."""
import re
import sys

HEAD = """(* Made by rows.py of sections 12 and 13 of docs/DEFINITION.md: what the paper says comes out, by computation. *)
From Coq Require Import ZArith List.
From Awaqlla Require Import Binary64 Arithmetic Tables Quantile Worked.
Import ListNotations.
Open Scope Z_scope.

Definition at_ (b : Z) : number flocq := of_pattern flocq b.
Definition shown (x : number flocq) : Z := pattern flocq x.

(* Both sides are computed once, when the proof is checked. *)
Ltac by_computing := match goal with |- _ = ?said => vm_cast_no_check (eq_refl said) end."""

PATTERN = r"([0-9a-f]{16})"


def tables(text):
    """The tables of a text: head and rows."""
    head = None
    for line in text.splitlines():
        if not line.startswith("|"):
            head = None
            continue
        cells = [cell.strip() for cell in line.strip().strip("|").split("|")]
        if head is None:
            head = cells
        elif not set("".join(cells)) <= set("-"):
            yield head, cells


def listed(entries):
    return "[ " + ";\n    ".join(entries) + " ]"


def theorem(name, questions, answers):
    print(f"\nTheorem {name} :\n  {listed(questions)}\n  = {listed(answers)}.\nProof. by_computing. Qed.")
    return f"{len(questions)} {name}"


def answer(kind, refusal, cell, *more):
    """What a limit or a band is said to be: patterns, or a refusal's number."""
    number = re.fullmatch(r"refusal (\d+)", cell)
    return f"{refusal} {number[1]}" if number else f"{kind} " + " ".join("0x" + word for word in " ".join((cell, *more)).split())


def section_13(text):
    found = {name: ([], []) for name in ("operations", "roots", "quantiles", "inverses", "limits", "bands")}

    def add(name, question, said):
        found[name][0].append(question)
        found[name][1].append(said)

    for head, cells in tables(text):
        times = lambda cell: "[" + cell.replace(",", ";") + "]"
        if head[0] == "operation":
            of, two = re.match(rf"root\({PATTERN}\)", cells[0]), re.match(rf"{PATTERN} (.) {PATTERN}", cells[0])
            if of:
                add("roots", f"rootBits (arith := flocq) 0x{of[1]}", f"0x{cells[1]}")
            else:
                add("operations", f"shown (at_ 0x{two[1]} {two[2]} at_ 0x{two[3]})", f"0x{cells[1]}")
        elif head[0] == "x" and head[-1] == "quantile(x)":
            add("quantiles", f"quantileBits (arith := flocq) 0x{cells[0]}", f"0x{cells[-1]}")
        elif head == ["x", "p"]:
            add("inverses", f"inverseBits (arith := flocq) 0x{re.match(rf'inverse.{PATTERN}', cells[0])[1]}", f"0x{cells[1]}")
        elif head[0] == "form":
            add("limits", f"limit (arith := flocq) {cells[0]} {times(cells[1])} {cells[2]}", answer("Answer", "Refusal", cells[3]))
        elif head[:2] == ["times", "share"]:
            add("bands", f"band (arith := flocq) {times(cells[0])} {cells[1]}", answer("Ends", "RefusedBand", *cells[2:]))
    if not all(questions for questions, _ in found.values()):
        sys.exit("section 13: a table is missing")
    return [theorem(name, *both) for name, both in found.items()]


# The lines whose value is a whole number, in decimal; m has 16 digits of it.
WHOLE = {("8", name) for name in ("f", "n", "S", "Q", "D", "divisor")} | {("6.1", name) for name in "mci"}


def steps_of(block):
    """The lines of section 12: section and name, and the values."""
    for line in block.splitlines():
        section, name, values = re.fullmatch(r"(\S+)\s+(.+?)\s{2,}(.*)", line).groups()
        yield (section, name), [f"({value})" if (section, name) in WHOLE else f"0x{value}" for value in values.split()]


def section_12(text):
    sample, plain = [list(steps_of(block)) for block in re.findall(r"^```\n(.*?)^```", text, flags=re.S | re.M)]
    write = lambda lines: "[ " + ";\n    ".join("[" + "; ".join(values) + "]" for _, values in lines) + " ]"
    # The lines of the other form stand in for those that they name, in their order, each once.
    left, other = plain[:], []
    for name, values in sample:
        changed = left.pop(0)[1] if left and left[0][0] == name and left[0][1] != values else values
        other.append((name, changed))
    if left:
        raise SystemExit(f"section 12: {left[0]} names no line that it would change")
    for name, form, lines in (("worked", "SAMPLE_FORM", sample), ("worked_plain", "PLAIN_FORM", other)):
        print(f"\nTheorem {name} : lines {form} =\n  {write(lines)}.\nProof. by_computing. Qed.")
    return [f"{len(sample)} lines", f"{len(plain)} of the other form"]


def main():
    text = open(sys.argv[1], encoding="utf-8").read()
    print(HEAD)
    counts = section_12(text[text.index("\n## 12.") : text.index("\n## 13.")]) + section_13(text[text.index("\n## 13.") : text.index("\n## 14.")])
    print(", ".join(counts), file=sys.stderr)


main()
