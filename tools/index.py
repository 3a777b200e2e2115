"""Document 02's index of standing leaves (2026-08), for the tools that hand one in: its bytes, from the leaves' names and starts. Written from the
paper alone, and not from our code.
"""


def entries_of(placed):
    """The entries of leaves, given as name and start in the volume's order: one for each name, rising by name bytes (a name that begins another
    comes first), with the start of that name's last leaf."""
    last = {}
    for name, start in placed:
        last[name] = start
    return sorted(last.items())


def bytes_of(entries, count=None):
    """A u16 count, then each entry: a u16 name count, the name, and a u32 start."""
    whole = b"".join(len(name).to_bytes(2, "little") + name + start.to_bytes(4, "little") for name, start in entries)
    return (len(entries) if count is None else count).to_bytes(2, "little") + whole


def index_of(placed):
    """The index of leaves."""
    return bytes_of(entries_of(placed))


def nearly_right(placed):
    """Indexes that are nearly those of two leaves or more, none of them theirs: a count too high or too low, entries exchanged, missing, twice
    or of a name that no leaf has, an older leaf's start, and names by their length first."""
    entries = entries_of(placed)
    yield from (bytes_of(entries, len(entries) + off) for off in (-1, 1, 256))
    yield from (bytes_of([*entries[:i], entries[i + 1], entries[i], *entries[i + 2 :]]) for i in range(len(entries) - 1))
    for i, (name, start) in enumerate(entries):
        yield bytes_of(entries[:i] + entries[i + 1 :])
        yield bytes_of(entries[: i + 1] + entries[i:])
        yield bytes_of([*entries[: i + 1], (name + b"!", start), *entries[i + 1 :]])
        older = [at for who, at in placed if who == name and at != start]
        yield from (bytes_of([*entries[:i], (name, at), *entries[i + 1 :]]) for at in (*older, start + 1))
    by_length = sorted(entries, key=lambda entry: (len(entry[0]), entry[0]))
    if by_length != entries:
        yield bytes_of(by_length)
