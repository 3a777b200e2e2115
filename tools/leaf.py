"""Document 01's Limit, Leaf and mark, with document 02's two forms, its order of the marks and its profile, for the tools that make volumes:
written from the papers alone, and not from our code.

The quantile is not worked out here. Its bits come from the Rust: tools/leaf-quantiles has those of ten chances, and the
list crates/replay_numbers/stdin, whose lines q tools/quantile-vectors writes, those of some more. The rest of a limit is worked out in
this machine's doubles, whose +, *, / and sqrt round correctly.
"""
import functools
import math
import pathlib
import struct

ROOT = pathlib.Path(__file__).resolve().parent.parent
LONGEST = 65536  # bytes of a volume, at the most
OLD, NEW = 1, 2  # the forms: document 01's, and document 02's (2026-04), which every new record has


def bits_of(x):
    return struct.unpack("<Q", struct.pack("<d", x))[0]


def double_of(bits):
    return struct.unpack("<d", struct.pack("<Q", bits))[0]


# ---- The quantile of a chance, from the Rust.


def words_of(path):
    """The words of every line that is no comment."""
    with open(ROOT / path, encoding="ascii") as lines:
        return [line.split() for line in lines if not line.startswith("#")]


def quantiles_of_ten():
    return {int(chance): int(bits, 16) for chance, bits in words_of("tools/leaf-quantiles")}


@functools.cache
def quantiles_stored():
    """The Rust's answers of the stored list whose argument is chance / 500000 of some chance."""
    found = {}
    for letter, argument, result, _ in words_of("crates/replay_numbers/stdin"):
        x = double_of(int(argument, 16)) if letter == "q" else 0
        chance = round(x * 500000) if 0 < x < 2 else 0
        if chance > 0 and chance / 500000 == x:
            found[chance] = int(result, 16)
    return found


@functools.cache
def quantiles():
    """The quantile of each chance that stands in a list, read when the first is asked for."""
    bits = {**quantiles_stored(), **quantiles_of_ten()}
    assert quantiles_stored().items() <= bits.items(), "the two lists of quantiles differ"
    return {chance: double_of(pattern) for chance, pattern in bits.items()}


EIGHT = [1, 2, 1000, 250000, 500000, 750000, 999998, 999999]  # over the whole range that a reader takes
OFFERED = [1, 10, 100, 1000, 10000, 100000, 250000, 500000]  # eight that append takes (document 02, 2026-10)
PROFILE = (1, 10, 100, 1000)  # those of a leaf of the profile, exactly (document 02, 2026-14)


# ---- Limit, mark and Leaf.


def divisor_of(form, n):
    """What D is divided by."""
    return {OLD: n * n, NEW: n * (n - 1)}[form]


def mean_and_spread(times, form):
    n, total = len(times), sum(times)
    d = n * sum(time * time for time in times) - total * total
    return float(total) / float(n), math.sqrt(float(d) / float(divisor_of(form, n)))


def limit_of(times, chance, form):
    """mean + (spread * 1.4142135623730951) * e, one rounding an operation, products from the left."""
    mean, spread = mean_and_spread(times, form)
    return mean + (spread * 1.4142135623730951) * quantiles()[chance]


def mark_of(times):
    """S is tested first, then F, then N (document 02, 2026-07)."""
    if len(times) < 8:
        return "S"
    return "F" if len(set(times)) == 1 else "N"


def in_profile(form, chances, times):
    """A leaf of the profile for safety controllers (document 02, 2026-14)."""
    return form == NEW and tuple(chances) == PROFILE and len(times) >= 32


class Leaf:
    """A record as its fields, in range or not. Limits that are not given are worked out by its form, as bits, when they are asked
    for; a count that is not given is the section's own."""

    def __init__(self, day=1, name=b"A", chances=(500000,), times=(100, 100), form=NEW, limits=None, counts=None):
        self.form, self.day, self.name = form, day, bytes(name)
        self.chances, self.times = tuple(chances), tuple(times)
        self.counts = counts or {}
        if limits is not None:
            self.limits = tuple(limits)

    @functools.cached_property
    def limits(self):
        return tuple(bits_of(limit_of(self.times, chance, self.form)) for chance in self.chances)

    def fields(self):
        """Each field in byte order: what it is, its width, its value."""
        yield "form", 2, self.form
        yield "day", 2, self.day
        sections = [("name", 1, self.name), ("chance", 4, self.chances), ("time", 4, self.times), ("limit", 8, self.limits)]
        for kind, width, values in sections:
            yield kind + " count", 2, self.counts.get(kind, len(values))
            for i, value in enumerate(values):
                yield f"{kind} {i}", width, value

    def bytes(self):
        return b"".join(value.to_bytes(width, "little") for _, width, value in self.fields())

    def place(self, wanted):
        """The first byte of a field, and its width."""
        at = 0
        for kind, width, _ in self.fields():
            if kind == wanted:
                return at, width
            at += width
        raise KeyError(wanted)

    def line(self):
        """The record's line of the listing, with mean and spread behind the mark (document 02, 2026-03)."""
        moments = [f"{bits_of(x):016x}" for x in mean_and_spread(self.times, self.form)]
        pairs = [f"{chance}:{limit:016x}" for chance, limit in zip(self.chances, self.limits)]
        return " ".join([self.name.decode("ascii"), str(self.day), mark_of(self.times), *moments, *pairs]) + "\n"


# ---- A volume's leaves, read by their counts and not judged.


def leaf_at(volume, at):
    """The leaf that starts at a place, and the place behind it; struct.error where the volume ends before that."""
    form, day = struct.unpack_from("<HH", volume, at)
    at += 4
    sections = []
    for kind in "BIIQ":
        (count,) = struct.unpack_from("<H", volume, at)
        sections.append(struct.unpack_from(f"<{count}{kind}", volume, at + 2))
        at += 2 + struct.calcsize(f"<{count}{kind}")
    name, chances, times, limits = sections
    return Leaf(day, name, chances, times, form, limits), at


def leaves_of(volume):
    """Each leaf with its start; a torn end is left out."""
    at = 0
    while at < len(volume):
        try:
            leaf, end = leaf_at(volume, at)
        except struct.error:
            return
        yield at, leaf
        at = end
