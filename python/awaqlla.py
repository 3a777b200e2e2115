"""Awaqlla from Python: one file over ctypes and the shared library libawaqlla.so, the standard library alone.

    import awaqlla
    for record in awaqlla.Volume.read("links.volume"):
        print(record.name, record.date, record.mean, record.limits[1000])

A Volume is a journal in memory, an iterable of its records. Every call of include/awaqlla.h is here: the numbers (sqrt_bits, f_erfcinv_bits, f_erfinv_bits,
limit, band), and the journal's as a Volume's methods. Whatever is refused is an exception with the refusal's number and, where there is one, its place:
Declined, Damaged, LineRefused and InputTorn, all of them Refused. The numbers are those of docs/DEFINITION.md, section 10.

What is exact. A Record's mean, spread and limits, and what limit() and band() answer, are Fractions that have exactly the value of the double that the
definition gives, to its last bit; bits_of() gives its pattern. That double is the definition's rounded answer: mean is S / n rounded once. The numbers
before any rounding are exact_mean, S / n, and exact_variance, D / (n * n) or D / (n * (n - 1)); the root of the last is seldom a fraction, so spread is
exact as the double that the definition gives and not as that root.

Nothing here reads or writes a file but Volume.read: an append to a file is the command awaqlla's, which locks it and syncs it.
The library is the one that AWAQLLA_LIBRARY names, or the one of this clone or of this installation, or the system's.
"""
import ctypes
import datetime
import operator
import os
import struct
from fractions import Fraction
from typing import NamedTuple

MAX_LENGTH = 65536  # bytes of a journal, at the most
MAX_RECORD = 652  # bytes of a record
MAX_LINE = 267  # bytes of a line of the listing, with its line end
MAX_INDEX = 2 + 1985 * (2 + 32 + 4)  # a record has 33 bytes or more, and an entry of the index 38 or fewer
DONE, DECLINED, DAMAGED, LINE_REFUSED = range(4)  # the first number of an answer; of a merge, 3 is a torn input
OPTION_INDEX, OPTION_PROFILE = 1, 2
EPOCH = datetime.date(2000, 1, 1)  # day 0


# ---- The library.


def library_path():
    """Where the shared library is: named, in the clone, in the installation, or where the system looks."""
    here = os.path.dirname(os.path.realpath(__file__))
    near = [os.path.join(here, *way) for way in (("..", "target", "libawaqlla.so"), ("..", "..", "libawaqlla.so.1"))]
    named = os.environ.get("AWAQLLA_LIBRARY")
    return named or next((path for path in near if os.path.exists(path)), "libawaqlla.so.1")


BYTES, NUMBERS, WORDS = ctypes.POINTER(ctypes.c_uint8), ctypes.POINTER(ctypes.c_uint32), ctypes.POINTER(ctypes.c_uint64)
SIZE, U16, U32, U64 = ctypes.c_size_t, ctypes.c_uint16, ctypes.c_uint32, ctypes.c_uint64
JOURNAL = [BYTES, SIZE, SIZE]  # a slice, its size, and the journal's length in it
OFFER = [*JOURNAL, U16, BYTES, SIZE, NUMBERS, SIZE]  # the journal, day, name and chances; times or a log follow
OPTIONS = [SIZE, BYTES, SIZE, U32]  # budget, index and options
TRIAL = [BYTES, SIZE, *JOURNAL, BYTES, SIZE]

# Each call of include/awaqlla.h: its result and its arguments.
CALLS = {
    "sqrt_bits": (U64, [U64]),
    "f_erfcinv_bits": (U64, [U64]),
    "f_erfinv_bits": (U64, [U64]),
    "limit_bits": (None, [U32, NUMBERS, SIZE, U32, WORDS]),
    "band_bits": (None, [NUMBERS, SIZE, U32, WORDS]),
    "scan": (None, [*JOURNAL, WORDS]),
    "part": (None, [*JOURNAL, SIZE, WORDS]),
    "mark": (U64, [*JOURNAL, SIZE]),
    "profile_scan": (None, [*JOURNAL, WORDS]),
    "profile_part": (None, [*JOURNAL, SIZE, WORDS]),
    "profile_mark": (U64, [*JOURNAL, SIZE]),
    "append": (None, [*OFFER, NUMBERS, SIZE, WORDS]),
    "append_upto": (None, [*OFFER, NUMBERS, SIZE, SIZE, WORDS]),
    "append_log": (None, [*OFFER, BYTES, SIZE, WORDS]),
    "append_log_upto": (None, [*OFFER, BYTES, SIZE, SIZE, WORDS]),
    "append_with": (None, [*OFFER, NUMBERS, SIZE, *OPTIONS, WORDS]),
    "append_log_with": (None, [*OFFER, BYTES, SIZE, *OPTIONS, WORDS]),
    "index": (None, [*JOURNAL, BYTES, SIZE, WORDS]),
    "line": (SIZE, [BYTES, SIZE, SIZE, BYTES, SIZE]),
    "merge": (None, [*JOURNAL, *JOURNAL, BYTES, SIZE, WORDS]),
    "trial": (None, [*TRIAL, SIZE, WORDS]),
    "trial_unknown": (None, [*TRIAL, WORDS]),
}


def opened(path):
    """The library's calls by their names, without awaqlla_ in front."""
    library = ctypes.CDLL(path)
    calls = {}
    for name, (result, arguments) in CALLS.items():
        calls[name] = getattr(library, "awaqlla_" + name)
        calls[name].restype, calls[name].argtypes = result, arguments
    return calls


LIBRARY = opened(library_path())


# ---- What goes to the library, and what comes back.


def as_bytes(data):
    """Bytes, a text or a buffer, as an array that the library reads, and their number; never NULL."""
    data = data.encode("utf-8", "surrogatepass") if isinstance(data, str) else bytes(data)
    return (ctypes.c_uint8 * max(len(data), 1)).from_buffer_copy(data or b"\0"), len(data)


def as_numbers(numbers):
    """Whole numbers as an array of u32, and their number."""
    numbers = list(map(as_number, numbers))
    return (ctypes.c_uint32 * max(len(numbers), 1))(*numbers), len(numbers)


def as_number(number):
    """A whole number as a u32. One that has no room there is in no range of the definition, and goes as one that is in none."""
    return number if 0 <= operator.index(number) < 2**32 else 2**32 - 1


def as_size(number):
    """A budget or a position as a size. One beyond all sizes goes as the largest, which no record and no journal has."""
    return min(within(number, "a budget or a position"), 2**64 - 1)


def as_bits(number):
    return within(number, "a double's bits", 2**64)


def within(number, what, end=None):
    """A whole number from 0 on and below the end."""
    if not 0 <= operator.index(number) or (end is not None and number >= end):
        raise ValueError(f"{what}: {number}")
    return number


def words(count):
    return (ctypes.c_uint64 * count)()


def fraction_of(bits):
    """The exact value of the double with these bits."""
    return Fraction(struct.unpack("<d", struct.pack("<Q", bits))[0])


def bits_of(number):
    """The bits of a double, or of a Fraction that has a double's value."""
    double = float(number)
    if Fraction(double) != number:
        raise ValueError(f"{number} is no double's value")
    return struct.unpack("<Q", struct.pack("<d", double))[0]


# ---- Refusals.


class Refused(Exception):
    """A refusal: its number, its place where there is one, and of a merge whose journal it is, 1 or 2."""

    def __init__(self, number, place=None, whose=None):
        at = "" if place is None else f" at byte {place}"
        of = "" if whose is None else f" of the {('first', 'second')[whose - 1]} journal"
        super().__init__(f"{number}{at}{of}")
        self.number, self.place, self.whose = number, place, whose


class Declined(Refused):
    """What was offered or asked for is refused; of a merge 13 has a place in the result."""


class Damaged(Refused):
    """A journal that was handed has a fault; its place is the refused field's first byte."""


class LineRefused(Refused):
    """A line of a log is refused; its place is the line's first byte."""


class InputTorn(Refused):
    """An input of a merge ends torn."""


def answer(out, third=LineRefused):
    """The numbers behind the first of an answer, or what refuses it. third is what the first number 3 means."""
    kind, number, place = out[0], out[1], out[2] if len(out) > 2 else 0
    if kind == DONE:
        return list(out[1:])
    if kind == DECLINED:
        raise Declined(number, place or None)
    whose = out[3] if len(out) == 4 else None
    if kind == DAMAGED:
        raise Damaged(number, place, whose)
    raise third(number, None if third is InputTorn else place, whose)


# ---- Numbers.


def sqrt_bits(x):
    """The square root of the double with the bits x, correctly rounded, as bits."""
    return LIBRARY["sqrt_bits"](as_bits(x))


def f_erfcinv_bits(x):
    """The quantile: the inverse of the complementary error function, bits for bits."""
    return LIBRARY["f_erfcinv_bits"](as_bits(x))


def f_erfinv_bits(x):
    """The inverse of the error function, bits for bits."""
    return LIBRARY["f_erfinv_bits"](as_bits(x))


class Limit(NamedTuple):
    """Mean, spread, quantile and limit, each exactly the double that the definition gives."""

    mean: Fraction
    spread: Fraction
    quantile: Fraction
    limit: Fraction


class Band(NamedTuple):
    """The shortest and the longest time, each exactly the double that the definition gives."""

    low: Fraction
    high: Fraction


def limit(times, chance, form=2):
    """The limit of times in ticks at a chance in a million, under a form; Declined by 2, 5 or 6."""
    out = words(5)
    LIBRARY["limit_bits"](as_number(form), *as_numbers(times), as_number(chance), out)
    return Limit(*map(fraction_of, answer(out)))


def band(times, share):
    """The band around the mean of times with a share in a million inside; Declined by 18 or 6."""
    out = words(3)
    LIBRARY["band_bits"](*as_numbers(times), as_number(share), out)
    return Band(*map(fraction_of, answer(out)))


# ---- A journal.


class State(NamedTuple):
    """The end state of a journal: whether it ends torn, its records, and the bytes that they take."""

    torn: bool
    records: int
    committed: int


class Record:
    """A record of a journal, of its bytes, which the library has judged."""

    def __init__(self, data, place):
        self.bytes, self.place = bytes(data), place
        self.form, self.day, size = struct.unpack_from("<HHH", data)
        self.name = bytes(data[6 : 6 + size]).decode("ascii")
        self.chances, at = section(data, 6 + size, "I")
        self.times, at = section(data, at, "I")
        patterns, _ = section(data, at, "Q")
        self.limit_bits = dict(zip(self.chances, patterns))
        self.limits = {chance: fraction_of(bits) for chance, bits in self.limit_bits.items()}
        self.mean, self.spread = limit(self.times, self.chances[0], self.form)[:2]

    @property
    def date(self):
        return EPOCH + datetime.timedelta(self.day)

    @property
    def mark(self):
        """S fewer than 8 times, F 8 or more and all equal, N others."""
        return Volume(self.bytes, room=0).mark(0)

    @property
    def exact_mean(self):
        """The mean before it is rounded."""
        return Fraction(sum(self.times), len(self.times))

    @property
    def exact_variance(self):
        """The square of the spread before anything is rounded: D / (n * n) under form 1, D / (n * (n - 1)) under form 2."""
        n, total = len(self.times), sum(self.times)
        return Fraction(n * sum(time * time for time in self.times) - total * total, n * (n if self.form == 1 else n - 1))

    def line(self):
        """The record's line of the listing, with its line end."""
        return Volume(self.bytes, room=0).line(0)

    def __repr__(self):
        return f"<Record {self.name} {self.date} {self.mark}, {len(self.times)} times>"


def section(data, at, kind):
    """The numbers of a section of a record, behind their count, and where it ends."""
    (count,) = struct.unpack_from("<H", data, at)
    return struct.unpack_from(f"<{count}{kind}", data, at + 2), at + 2 + count * struct.calcsize("<" + kind)


def record_size(data, at):
    """The bytes of the record at a place, by its counts."""
    end = at + 6 + struct.unpack_from("<H", data, at + 4)[0]
    for size in (4, 4, 8):
        end += 2 + size * struct.unpack_from("<H", data, end)[0]
    return end - at


class Trial(NamedTuple):
    """What a log's links of a name did: their number, the overs at each chance, and the lowest chance exceeded, or None."""

    links: int
    overs: dict
    exceeded: object


class Volume:
    """A journal in memory, in a slice of so much room, of its data or of a length said. An iterable of its records; what is damaged is refused when it is
    read. A call that is refused changes nothing."""

    def __init__(self, data=b"", room=MAX_LENGTH, length=None):
        self.room = max(room, len(data))
        self.length = len(data) if length is None else as_size(length)
        self.buffer = (ctypes.c_uint8 * max(self.room, 1))()
        ctypes.memmove(self.buffer, bytes(data), len(data))

    @classmethod
    def read(cls, path):
        """The volume of a file. Of one that is too long, so much is read that it is refused by 1."""
        with open(path, "rb") as file:
            return cls(file.read(MAX_LENGTH + 1))

    def journal(self):
        return self.buffer, self.room, self.length

    def __bytes__(self):
        return ctypes.string_at(self.buffer, min(self.length, self.room))

    # -- Reading.

    def scan(self, profile=False):
        """The end state, or Damaged; by the profile for safety controllers where that is asked."""
        out = words(3)
        LIBRARY["profile_scan" if profile else "scan"](*self.journal(), out)
        if out[0] == DAMAGED:
            raise Damaged(out[1], out[2])
        return State(out[0] == 1, out[1], out[2])

    def part(self, i, profile=False):
        """Where record i starts, and how many bytes it has; refused as its mark is."""
        self.mark(i, profile)
        out = words(2)
        LIBRARY["profile_part" if profile else "part"](*self.journal(), as_size(i), out)
        return tuple(out)

    def mark(self, i, profile=False):
        """The mark of record i; Declined by 10 where there are not so many, and as the scan."""
        self.scan(profile)
        mark = LIBRARY["profile_mark" if profile else "mark"](*self.journal(), as_size(i))
        if mark < ord("A"):
            raise Declined(mark)
        return chr(mark)

    def line(self, i):
        """Line i of the listing: the records' lines, then the end state's; empty behind it."""
        out = (ctypes.c_uint8 * MAX_LINE)()
        size = LIBRARY["line"](self.buffer, min(self.length, self.room), as_size(i), out, MAX_LINE)
        return ctypes.string_at(out, size).decode("ascii")

    def records(self, profile=False):
        """The records that stand. The journal is judged once, and then gone through by its counts."""
        state, data = self.scan(profile), bytes(self)
        at = 0
        for _ in range(state.records):
            size = record_size(data, at)
            yield Record(data[at : at + size], at)
            at += size

    def __iter__(self):
        return self.records()

    def __len__(self):
        return self.scan().records

    def __getitem__(self, i):
        """Record i, from 0; Declined by 10 where there are not so many."""
        start, size = self.part(i)
        return Record(bytes(self)[start : start + size], start)

    def listing(self):
        """The whole listing."""
        try:
            state = self.scan()
        except Damaged:
            return self.line(0)
        return "".join(record.line() for record in self) + self.line(state.records)

    # -- Appends.

    def append(self, day, name, chances, times, budget=None, index=None, profile=False):
        """Appends a record of form 2, and answers the length: all of it, or as many bytes as the budget has. day is a date or the days since 2000-01-01.
        index is a bytearray with the journal's index at its front, which is kept. Declined, Damaged, and nothing changes."""
        return self.appended("append", day, name, chances, as_numbers(times), (budget, index, profile))

    def append_log(self, day, name, chances, log, budget=None, index=None, profile=False):
        """The same of the times that a log, its bytes, has for the name; LineRefused, with the place in the log, comes first."""
        return self.appended("append_log", day, name, chances, as_bytes(log), (budget, index, profile))

    def appended(self, call, day, name, chances, times, options):
        budget, index, profile = options
        day = within((day - EPOCH).days if isinstance(day, datetime.date) else day, "a day", 65536)
        most = 2**64 - 1 if budget is None else as_size(budget)
        kept = as_bytes(index or b"")
        more = []
        if index is not None or profile:
            call += "_with"
            more = [most, *kept, (OPTION_INDEX if index is not None else 0) | (OPTION_PROFILE if profile else 0)]
        elif budget is not None:
            call += "_upto"
            more = [most]
        out = words(3)
        LIBRARY[call](*self.journal(), day, *as_bytes(name), *as_numbers(chances), *times, *more, out)
        self.length = answer(out)[0]
        if index is not None:
            index[:] = ctypes.string_at(*kept)
        return self.length

    # -- Index, merge and trial.

    def index(self, room=MAX_INDEX):
        """The journal's index, its bytes, made in a buffer of so much room; Declined by 15, Damaged."""
        buffer = (ctypes.c_uint8 * max(room, 1))()
        out = words(3)
        LIBRARY["index"](*self.journal(), buffer, room, out)
        return ctypes.string_at(buffer, answer(out)[0])

    def merge(self, second, room=MAX_LENGTH):
        """A new volume of this one's records and another's, by day; Declined, Damaged or InputTorn, with whose it is."""
        merged = Volume(room=room)
        out = words(4)
        LIBRARY["merge"](*self.journal(), *second.journal(), merged.buffer, merged.room, out)
        merged.length = answer(out, InputTorn)[0]
        return merged

    def trial(self, log, index=None):
        """What the links of a log did, by name, at the limits that stand; LineRefused, Damaged, or Declined by 14 where the index is not the journal's."""
        index = self.index() if index is None else index
        self.unknown(log, index)
        return {name: self.trial_at(log, i, index) for i, (name, _) in enumerate(entries(index))}

    def trial_at(self, log, position, index=None):
        """The same of the entry at a position of the index, from 0; Declined by 10 where there are not so many."""
        out = words(12)
        given = self.trial_given(log, index)
        LIBRARY["trial"](*given, as_size(position), out)
        links, chances, exceeded, *overs = answer(out)
        start = entries(ctypes.string_at(*given[-2:]))[position][1]
        data = bytes(self)
        of = Record(data[start : start + record_size(data, start)], start).chances
        return Trial(links, dict(zip(of, overs[:chances])), exceeded or None)

    def unknown(self, log, index=None):
        """How many lines of a log have names that are not in the index."""
        out = words(3)
        LIBRARY["trial_unknown"](*self.trial_given(log, index), out)
        return answer(out)[0]

    def trial_given(self, log, index):
        return *as_bytes(log), *self.journal(), *as_bytes(self.index() if index is None else index)


def entries(index):
    """The names of an index, with the start of each name's last record."""
    (count,), at, found = struct.unpack_from("<H", index), 2, []
    for _ in range(count):
        (size,) = struct.unpack_from("<H", index, at)
        name = bytes(index[at + 2 : at + 2 + size]).decode("ascii")
        found.append((name, struct.unpack_from("<I", index, at + 2 + size)[0]))
        at += size + 6
    return found
