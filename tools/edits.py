"""The must-fail edits, crates/CRATE/must-fail/TOPIC.edit, and what the prover said of one: for tools/refusals and tools/alone.

An edit holds paragraphs, each one wrong program, '# FUNCTION: what is wrong', or one wrong definition, '# NAME (FILE.LAW): what is wrong', where LAW
stands in proofs/FILE.antt. Where the step that is wrong stands in another function today than in the one that the paragraph is named by, that one's name
is behind it, '# NAME [FUNCTION]: what is wrong', and its own proof refuses it. Behind that line stand its replacements: file:, old: and new:.
"""
import glob
import os
import re
from typing import NamedTuple, Optional

HEAD = re.compile(r"# ([a-z_0-9]+)(?: \[([a-z_0-9]+)\])?(?: \(([^ ()]+\.[^ ().]+)\))?: ")
# Errors that only say that something before failed, or that the proof names a goal which the code no longer has.
ECHO = re.compile("so this cannot be checked|has no field|has no `|is not in scope|was rejected|not admitted|not checked|exports no")
# A goal of the code as it is now, which neither a proof of ours nor the search closes.
OPEN = re.compile(r"note: (?:\./)?src/\S+: (?:it is not proved that |`search` found no proof)")
# What rt prints of an edit, and where the first error stands.
TRIED = re.compile(r"rt: must-fail ([a-z_0-9]+)/([A-Za-z0-9_.-]+\.edit): ((?:refused, as it must be|NOT REFUSED|NOT TRIED|BAD EDIT).*)")


class Wrong(NamedTuple):
    name: str  # the function, or the definition
    at: Optional[str]  # the function whose proof refuses it; of a definition none
    law: Optional[str]  # FILE.LAW, of a definition
    pairs: list  # its replacements: file, old, new


def pairs_of(text):
    """The replacements of a paragraph."""
    file = old = None
    for line in text.split("\n"):
        if line.startswith("file: "):
            file = line[6:]
        elif line.startswith("old: "):
            old = line[5:]
        elif line.startswith("new:"):
            yield file, old, line[4:].removeprefix(" ")


def functions_beside(path):
    """The functions in src/ of the edit's crate."""
    texts = glob.glob(os.path.join(os.path.dirname(path), "..", "src", "**", "*.rt"), recursive=True)
    return {name for text in texts for name in re.findall(r"\bfn (\w+)", open(text, encoding="utf-8").read())}


def paragraphs(path):
    """What is wrong in each paragraph that changes something, and the faults of the file itself."""
    found, faults, seen, functions = [], [], set(), functions_beside(path)
    with open(path, encoding="utf-8") as file:
        texts = re.split(r"\n\s*\n", file.read().strip("\n"))
    for number, text in enumerate(texts, 1):
        head, pairs = HEAD.match(text), list(pairs_of(text))
        folders = {file.split("/")[0] if file else None for file, _, _ in pairs}
        if not pairs:
            if re.search("^(file|old):", text, re.M):
                faults.append(f"paragraph {number} replaces nothing")
        elif None in folders:
            faults.append(f"paragraph {number} names no file")
        elif folders not in ({"src"}, {"specs"}):
            faults.append(f"paragraph {number} changes a proof, or code and definitions")
        elif not head or (head.group(3) is None) != (folders == {"src"}) or (head.group(2) and head.group(3)):
            faults.append(f"paragraph {number} does not name what refuses it")
        else:
            name, other, law = head.groups()
            at = None if law else other or name
            if at and at not in functions:
                faults.append(f"no function in src/: {at}")
            elif (law or at) in seen:
                faults.append(f"twice: {law or at}")
            else:
                seen.add(law or at)
                found.append(Wrong(name, at, law, pairs))
    return found, faults


def said_in(log):
    """What has an error of its own in a log of the prover: FILE.LAW, or 'fn FUNCTION' where a goal that the code has now was left open."""
    found, is_open = set(), False
    for line in log.splitlines():
        error = re.match(r"\S*/proofs/(\S*)\.antt:\d*:\d*: error:* (.*)", line)
        if error and not ECHO.search(line):
            law = re.match("`([^`]*)`: ", error.group(2))
            found.add(f"{error.group(1)}.{law.group(1)}".split(" ")[0] if law else error.group(1))
        if OPEN.match(line):
            is_open = True
        unproved = re.match(r"fn \S*?([a-z_0-9]*): (not proved|no proof: .*did not prove)", line)
        if unproved and (is_open or unproved.group(2) != "not proved"):
            found.add("fn " + unproved.group(1))
        if line.startswith("fn "):
            is_open = False
    return sorted(found)


def refuses(said, wrong):
    """Whether what was said is an error of the law that is named, or of the function's own proof."""
    if wrong.law:
        return wrong.law in said
    return any(line == "fn " + wrong.at or re.fullmatch(rf"(.*/)?{wrong.at}/(Proof|Answers|Invariants)(\..*)?", line) for line in said)
