"""What the tests in Python share: counts of what was tried, what differed, programs and files, and what document 01's book says. Importing it puts
tools/ on the path of modules.

The expected bytes come from tools/leaf.py, which is written from documents 01 and 02 with the Rust's quantiles, not from this library."""

import itertools
import os
import re
import resource
import signal
import subprocess
import sys
import tempfile

TOP = os.path.dirname(os.path.dirname(os.path.abspath(__file__)))
PROGRAM = os.path.join(TOP, "target", "awaqlla")
sys.path.insert(0, os.path.join(TOP, "tools"))
from leaf import EIGHT, OFFERED, OLD, Leaf  # noqa: E402, F401 (the path is set above; the checks import these from here)

WAIT = 60  # seconds after which a program that should end by itself counts as hanging
counts = {}
wrong = []


def count(what, number=1):
    counts[what] = counts.get(what, 0) + number


def expect(what, got, wanted):
    if got != wanted:
        wrong.append(f"{what}: {got!r}, and not {wanted!r}")


def compare(topic, got, wanted, of):
    """Counts a comparison by its topic; what differs is named by `of`, a text or what makes one."""
    count(topic)
    if got != wanted:
        expect(f"{topic}: {of() if callable(of) else of}", got, wanted)


def takes_no_words(doc):
    """For a test without arguments: --help prints what it does, and any other word is wrong usage."""
    if len(sys.argv) > 1:
        print(doc)
        sys.exit(0 if sys.argv[1:] == ["--help"] else 2)


def report(name):
    """Prints what was tried and what was wrong; the exit status."""
    for what, number in counts.items():
        print(f"{name}: {number} {what}")
    for line in wrong[:20]:
        print(line if len(line) < 400 else line[:400] + " ..")
    print(f"{name}: {len(wrong)} wrong")
    return 1 if wrong else 0


# ---- Files and programs.


def build():
    """Proves and builds target/awaqlla where it is missing or old."""
    done = subprocess.run([os.path.join(TOP, "tools", "program")], stdout=subprocess.PIPE, stderr=subprocess.STDOUT)
    if done.returncode != 0:
        sys.stdout.write(done.stdout.decode("utf-8", "replace"))
        sys.exit(2)


def unexplained(said):
    """What a command says on standard error, without the lines that put its verdict into words; these are tests/programs-check's."""
    return b"".join(line for line in said.splitlines(True) if not re.match(rb"awaqlla: (\d+: |from byte \d+ on |head -c \d+ )", line))


def status_of(out):
    """The exit status of what a command printed: 2 where it printed nothing."""
    last = out.splitlines()[-1:]
    return 2 if not last else 1 if last[0].split(b" ")[0] in (b"declined", b"log", b"damaged", b"torn", b"refused") and last[0].count(b" ") < 4 else 0


def read(path):
    if not os.path.exists(path):
        return None
    with open(path, "rb") as file:
        return file.read()


def write(path, data):
    if data is None:
        if os.path.exists(path):
            os.remove(path)
        return
    with open(path, "wb") as file:
        file.write(data)


def run(program, data):
    done = subprocess.run([PROGRAM, program], input=data, capture_output=True, timeout=WAIT)
    expect(f"{program}: standard error", unexplained(done.stderr), b"")
    return done.stdout.decode("ascii")


def limited(largest):
    """What a process does before it runs, so that a file grows to so many bytes and a write beyond them fails."""

    def limit():
        signal.signal(signal.SIGXFSZ, signal.SIG_IGN)
        resource.setrlimit(resource.RLIMIT_FSIZE, (largest, largest))

    return limit


def called(program, *words, **options):
    """What a program prints, and what it says on standard error."""
    done = subprocess.run([PROGRAM, program, *words], stdin=subprocess.DEVNULL, capture_output=True, timeout=WAIT, **options)
    expect(f"{program} {words}: exit status", done.returncode, status_of(done.stdout))
    return done.stdout.decode("ascii"), unexplained(done.stderr).decode("ascii", "replace")


def piped(command, data, pieces=None):
    """What a command prints, and what it says on standard error; its input is handed over so many bytes at a time."""
    process = subprocess.Popen(command, stdin=subprocess.PIPE, stdout=subprocess.PIPE, stderr=subprocess.PIPE)
    try:
        for at in range(0, len(data), pieces or len(data) or 1):
            process.stdin.write(data[at : at + (pieces or len(data))])
            if pieces:
                process.stdin.flush()
    except BrokenPipeError:
        pass  # it stops reading at a line that is refused
    try:
        out, err = process.communicate(timeout=WAIT)
    except BrokenPipeError:
        out, err = process.stdout.read(), process.stderr.read()
        process.wait()
    return out, unexplained(err)


def answered(tool, *words, given=b""):
    """A tool's exit status, what it prints, and what it says on standard error."""
    done = subprocess.run([os.path.join(TOP, "tools", tool), *words], input=given, capture_output=True, check=False)
    return done.returncode, done.stdout.decode(), done.stderr.decode()


def called_over(tool, files, calls):
    """Calls of a tool over files by their names and bytes. A call is the files' names, what it is given, and the exit status, what it prints and who
    says something on standard error."""
    with tempfile.TemporaryDirectory() as folder:
        for name, data in files.items():
            write(os.path.join(folder, name), data)
        for names, given, wanted in calls:
            status, out, said = answered(tool, *(os.path.join(folder, name) for name in names.split()), given=given)
            compare("calls of the program", (status, out, said.split(":")[0]), wanted, names)
    compare("calls of the program", answered(tool, "--help")[0], 0, "--help")


def offered(leaf):
    """The arguments behind FILE."""
    return [str(leaf.day), leaf.name.decode("ascii"), *map(str, leaf.chances)]


def ticks(leaf):
    return " ".join(map(str, leaf.times)).encode("ascii")


def synced(what, folder, command, data, verdict, calls):
    """By the system's calls, where strace can show them: a command's writes and syncs come in this order, and the verdict's is the last."""
    trace = os.path.join(folder, "trace")
    words = ["strace", "-o", trace, "-e", "trace=fsync,write", *command]
    try:
        done = subprocess.run(words, input=data, capture_output=True, timeout=WAIT)
    except FileNotFoundError:
        done = None
    if done is None or not done.stdout.startswith(verdict):
        count("traces left out: there is no strace, or it may not trace")
        return
    lines = [line.split("(") for line in read(trace).decode("ascii").splitlines() if "(" in line]
    expect(f"{what}: the order of syncs", [line[0] for line in lines], calls)
    expect(f"{what}: the verdict", lines[-1][1].startswith("1,"), True)
    count("orders of syncs")


# ---- What the book says.


def joined(leaves):
    return b"".join(leaf.bytes() for leaf in leaves)


def listing(leaves, torn):
    """The listing of the records, with a torn end or without (document 01, Marks and listing)."""
    end = f"{'torn' if torn else 'whole'} {len(leaves)} {len(joined(leaves))}\n"
    return "".join(leaf.line() for leaf in leaves) + end


# ---- Every set of standard streams closed, over every kind of file.


def close_all(closed):
    for number in closed:
        os.close(number)


def closed_streams(folder, command):
    """command is what stands before FILE. With a stream closed nothing may change, and the exit status is 2."""
    path = os.path.join(folder, "volume")
    base = Leaf(day=5)
    data = base.bytes()
    kept = {"missing": b"", "whole": data, "torn": data}
    kinds = {"missing": None, "whole": data, "torn": data + data[:20], "damaged": b"\x03\x00" + data}
    offers = {"accepted": base, "declined": Leaf(day=5, times=(7,))}
    sets = [closed for size in range(4) for closed in itertools.combinations((0, 1, 2), size)]
    for closed, (kind, before), (fate, leaf) in itertools.product(sets, kinds.items(), offers.items()):
        what = f"{os.path.basename(command[0])}, closed {closed}, {kind}, {fate}"
        write(path, before)
        write(os.path.join(folder, "ticks"), ticks(leaf))
        names = [os.path.join(folder, name) for name in ("ticks", "out", "err")]
        with open(names[0], "rb") as source, open(names[1], "wb") as out, open(names[2], "wb") as err:
            done = subprocess.run(
                [*command, path, *offered(leaf)], stdin=source, stdout=out, stderr=err, timeout=WAIT, preexec_fn=lambda: close_all(closed)
            )
        said = read(names[2])
        if closed:
            verdict, after, wanted = b"", before, 2
            if 2 not in closed:
                expect(f"{what}: standard error", said.count(b"\n"), 1)
        elif kind == "damaged":
            verdict, after, wanted = b"damaged 2 0\n", before, 1
        elif fate == "declined":
            verdict, after, wanted = b"declined 6\n", before, 1
        else:
            after = kept[kind] + data
            verdict, wanted = b"extended %d\n" % len(after), 0
        expect(f"{what}: standard output", read(names[1]), verdict)
        expect(f"{what}: file", read(path), after)
        expect(f"{what}: exit status", done.returncode, wanted)
        count("sets of streams closed, over missing, whole, torn and damaged files")
