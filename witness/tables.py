#!/usr/bin/env python3
"""tables.py DEFINITION.md: sections 14 and 15 as Coq, read from the paper's own tables. Patterns stand as the paper writes them."""
import re
import sys

HEAD = """(* Made by tables.py of sections 14 and 15 of docs/DEFINITION.md: constants, lists and tables over any arithmetic.
   Beside them the NaN and the infinity of section 2. *)
From Coq Require Import ZArith List.
From Awaqlla Require Import Arithmetic.
Import ListNotations.
Open Scope Z_scope.

(* A pair of doubles, low part and high part *)
Record pair (arith : arithmetic) := Pair { low : number arith; high : number arith }.
Arguments Pair {arith}.
Arguments low {arith}.
Arguments high {arith}.

Definition bits {arith} (b : Z) : number arith := of_pattern arith b.
Definition both {arith} (b : Z * Z) : pair arith := Pair (bits (fst b)) (bits (snd b)).

Notation NAN := (bits 0x7ff8000000000000).
Notation INFINITY := (bits 0x7ff0000000000000).

(* T[i], of a list of pairs and of one of doubles: lists are kept as patterns. *)
Definition pair_at {arith} (T : list (Z * Z)) (i : nat) : pair arith := both (nth i T (0x7ff8000000000000, 0x7ff8000000000000)).
Definition double_at {arith} (T : list Z) (i : nat) : number arith := bits (nth i T 0x7ff8000000000000)."""

PATTERN = re.compile(r"[0-9a-f]{16}")


def rows_of(text):
    """The rows of the paper's tables, each with its table's head."""
    head = None
    for line in text.splitlines():
        if not line.startswith("|"):
            head = None
            continue
        cells = [cell.strip() for cell in line.strip().strip("|").split("|")]
        if head is None:
            head = cells
        elif not set("".join(cells)) <= set("-"):
            yield head, cells


def patterns(cells):
    for cell in cells:
        if not PATTERN.fullmatch(cell):
            raise SystemExit(f"{cell} is no pattern of 16 digits")
    return ["0x" + cell for cell in cells]


def main():
    text = open(sys.argv[1], encoding="utf-8").read()
    doubles, whole, lists = {}, {}, {}
    for head, cells in rows_of(text[text.index("\n## 14. ") : text.index("\n## 16. ")]):
        if head[:2] == ["name", "bits"]:
            doubles[cells[0]] = "bits " + patterns(cells[1:2])[0]
        elif head[:3] == ["name", "low", "high"]:
            doubles[cells[0]] = f"both ({', '.join(patterns(cells[1:3]))})"
        elif head[:2] == ["name", "number"]:
            if cells[1].isdigit():
                whole[cells[0]] = cells[1]
        elif head[0] == "i":
            for name, value in zip(head[1:], patterns(cells[1:])):
                column = lists.setdefault(name.split("[i]")[0], {}).setdefault(name.split("[i]")[1].strip(), [])
                if int(cells[0]) != len(column):
                    raise SystemExit(f"{name}: entry {cells[0]} where {len(column)} was expected")
                column.append(value)
    print(HEAD)
    for name, value in doubles.items():
        print(f"Notation {name} := ({value}).")
    for name, columns in lists.items():
        entries = columns[""] if "" in columns else [f"({low}, {high})" for low, high in zip(columns["low"], columns["high"])]
        print(f"\n(* {len(entries)} entries *)\nDefinition {name} := [\n  " + ";\n  ".join(entries) + "\n].")
    print()
    for name, value in whole.items():
        print(f"Definition {name} := {value}.")
    print(f"{len(doubles)} doubles and pairs, {len(whole)} whole numbers, {len(lists)} lists", file=sys.stderr)


main()
