"""What the page's reader is tried on, with the answers: from the paper, from documents 01 and 02 with the Rust's quantiles (tools/leaf.py), from the
other witnesses (tools/recompute, tools/plot), from stored lists and from Python's own calendar and decimals. None comes from the page."""
import datetime
import decimal
import json
import pathlib
import random
import re
import subprocess
import sys
import tempfile
import xml.etree.ElementTree

sys.dont_write_bytecode = True
ROOT = pathlib.Path(__file__).resolve().parent.parent.parent
sys.path.insert(0, str(ROOT / "tools"))
from index import index_of, nearly_right  # noqa: E402 (the path is set above)
from leaf import NEW, OLD, Leaf, bits_of, double_of, limit_of, mean_and_spread, quantiles  # noqa: E402

# Document 01's thirteen cases marked *.
STARRED = [
    ["quantile", "0000000000000000", "7ff0000000000000"],
    ["quantile", "8000000000000000", "7ff0000000000000"],
    ["quantile", "4000000000000000", "fff0000000000000"],
    ["quantile", "3ff0000000000000", "0000000000000000"],
    ["quantile", "bff0000000000000", "7ff8000000000000"],
    ["quantile", "4000000000000001", "7ff8000000000000"],
    ["root", "4010000000000000", "4000000000000000"],
    ["root", "0000000000000001", "1e60000000000000"],
    ["root", "8000000000000000", "8000000000000000"],
    ["index", "16a09e667f3bcc", "181"],
    ["index", "16a09e667f3bcd", "0"],
    ["limit", "1", "100, 100", "1", "4059000000000000"],
    ["limit", "1", "90, 110", "500000", "4059000000000000"],
]
STEPPED = ["releases", "marks", "beyond-even", "few-and-equal", "forms", "largest"]


def text(path):
    return (ROOT / path).read_text(encoding="utf-8")


def limits(number):
    """Random times at chances whose quantile is stored, under both forms: what document 01's formula gives in this machine's doubles."""
    chance, found = random.Random(45), []
    for k in range(number):
        form, c = (OLD, NEW)[k % 2], chance.choice(sorted(quantiles()))
        most = chance.choice([3, 200, 1048575])
        times = [chance.randint(1, most) for _ in range(chance.choice([2, 3, 8, 40, 128]))]
        values = [*mean_and_spread(times, form), quantiles()[c], limit_of(times, c, form)]
        found.append([form, times, c, " ".join(f"{bits_of(x):016x}" for x in values)])
    return found


def worked():
    """Section 12's two blocks: all lines under form 2, and those in which form 1's differ, with their places."""
    section = text("docs/DEFINITION.md").split(". A worked limit\n")[1].split("\n## ")[0]
    whole, differing = [block.strip("\n").split("\n") for block in section.split("```")[1::2]]
    heads = [line[:24] for line in whole]
    return {"times": [90, 110], "chance": 1000, "2": whole, "differing": differing, "places": [heads.index(line[:24]) for line in differing]}


def ways():
    """The way that section 13 says each argument of the quantile and of the inverse takes."""
    section = text("docs/DEFINITION.md").split(". Numbers to try\n")[1].split("\n## ")[0]
    quantiles = re.findall(r"^\| ([0-9a-f]{16}) \| (.*?) \| [0-9a-f]{16} \|$", section, re.M)
    inverses = re.findall(r"^\| inverse\(([0-9a-f]{16})\) \((.*)\) \|", section, re.M)
    return {"quantile": quantiles, "inverse": inverses}


def volumes(folder):
    """Every stored volume, and the large ones that tools/sample-volumes makes, with their listings."""
    subprocess.run([sys.executable, "-B", str(ROOT / "tools/sample-volumes"), "--full", folder], check=True, stdout=subprocess.DEVNULL)
    paths = sorted((ROOT / "data").glob("*.volume")) + sorted(pathlib.Path(folder).glob("*.volume"))
    return [[path.stem, path.read_bytes().hex(), path.with_suffix(".listing").read_text(encoding="ascii")] for path in paths]


def steps():
    """What tools/recompute prints of every record of some volumes."""
    found = []
    for name in STEPPED:
        volume = (ROOT / f"data/{name}.volume").read_bytes()
        for i in range(len(text(f"data/{name}.listing").splitlines()) - 1):
            done = subprocess.run([sys.executable, "-B", str(ROOT / "tools/recompute"), "--record", str(i)], input=volume, capture_output=True, check=True)
            found.append([volume.hex(), i, done.stdout.decode("utf-8")])
    return found


def pictures():
    """What tools/plot draws, as tags with their attributes and texts."""
    found = []
    for name, target in (("releases", "lld-x86_64"), ("releases", "mold"), ("marks", "few"), ("marks", "!~"), ("forms", "few"), ("largest", "n" * 32)):
        volume = (ROOT / f"data/{name}.volume").read_bytes()
        done = subprocess.run([sys.executable, "-B", str(ROOT / "tools/plot"), target], input=volume, capture_output=True, check=True)
        marks = [[mark.tag.split("}")[1], dict(mark.attrib), mark.text] for mark in xml.etree.ElementTree.fromstring(done.stdout)][1:]
        found.append([volume.hex(), target, marks])
    return found


def indexes():
    """Volumes with their index, and with nearly right ones."""
    leaves = [Leaf(1, b"m"), Leaf(2, b"!"), Leaf(3, b"mm"), Leaf(3, b"m"), Leaf(4, b"lld", times=(7, 9, 8))]
    found = []
    for n in range(2, len(leaves) + 1):
        placed, at = [], 0
        for leaf in leaves[:n]:
            placed.append((leaf.name, at))
            at += len(leaf.bytes())
        volume = b"".join(leaf.bytes() for leaf in leaves[:n]).hex()
        found.append([volume, index_of(placed).hex(), True])
        found.append([volume, (index_of(placed) + b"behind").hex(), True])
        found += [[volume, wrong.hex(), False] for wrong in nearly_right(placed)]
    return found


def decimals():
    chance = random.Random(7)
    bits = [bits_of(chance.uniform(-6e6, 6e6)) for _ in range(300)] + [0, 1, 0x8000000000000000, 0x7FEFFFFFFFFFFFFF, 0x0010000000000000, 0xC0F0000000000000]
    with decimal.localcontext() as context:
        context.prec = 2000
        return [[f"{x:016x}", format(decimal.Decimal(double_of(x)), "f")] for x in bits]


def dates():
    return [[day, str(datetime.date(2000, 1, 1) + datetime.timedelta(day))] for day in [*range(0, 65536, 61), 59, 60, 365, 366, 36524, 36584, 65535]]


def quantile_lines():
    """The Rust's answers of the stored numbers: an argument and its quantile a line."""
    lines = [line.split() for line in text("crates/replay_numbers/stdin").splitlines()]
    return "".join(f"{x} {p}\n" for letter, x, p, _ in lines if letter == "q")


def cases():
    with tempfile.TemporaryDirectory() as folder:
        stored = volumes(folder)
    return {
        "starred": STARRED,
        "quantiles": quantile_lines(),
        "limits": limits(2000),
        "worked": worked(),
        "ways": ways(),
        "volumes": stored,
        "journal": text("crates/replay_cases/stdin"),
        "steps": steps(),
        "pictures": pictures(),
        "indexes": indexes(),
        "decimals": decimals(),
        "dates": dates(),
    }


# ---- The sources: whole numbers alone where a bit counts, nothing that would reach out or make markup of a text.

EXACT = ["doubles.js", "pairs.js", "quantile.js", "limit.js"]
ALLOWED = r"\[\d+\]|refusal: \d+|toString\(16\)|padStart\(16,|\b\d: \d+n"
REFUSED_EXACT = r"Number|parseFloat|parseInt|Float64|(?<![\w$])\d[\w.]*(?<!n)\b"
MARKUP = r"innerHTML|outerHTML|insertAdjacent|document\.write|\beval\b|new Function"
OUTSIDE = r"\bfetch\b|XMLHttp|WebSocket|EventSource|sendBeacon|\bimport\b|https?:(?!//www\.w3\.org/2000/svg\")"
REFUSED = rf"Math\b|{MARKUP}|{OUTSIDE}"


def faults():
    """What a source holds that it must not."""
    for path in sorted((ROOT / "reader").glob("*.js")):
        source = re.sub(r"//(?!www\.w3).*", "", path.read_text(encoding="utf-8"))
        yield from (f"reader/{path.name}: {found[0]}" for found in re.finditer(REFUSED, source))
        if path.name in EXACT:
            plain = re.sub(ALLOWED, "", re.sub(r'"(\\.|[^"\\])*"', '""', source))
            yield from (f"reader/{path.name}: {found[0]}" for found in re.finditer(REFUSED_EXACT, plain))


if __name__ == "__main__":
    wrong = list(faults())
    for line in wrong:
        print(f"reader: {line} does not belong there", file=sys.stderr)
    if wrong:
        sys.exit(1)
    json.dump(cases(), sys.stdout)
