"""The command as these tests start it, quickly: its words, its input from a file, what it prints and says, its exit status.

The one program is target/awaqlla, of crate awaqlla and the crates command_..; a preloaded library needs it linked with the machine's C library, which
`dynamic` does."""

import os
import signal
import subprocess
import sys

from checking import TOP, read

TRIED = os.environ.get("AWAQLLA_TRIED")  # another program to be tried in its place, linked with the machine's C library: tools/mutants makes one
STOPS = "AWAQLLA_STOPS" in os.environ  # the test is over at the first case with something wrong
AWAQLLA = TRIED or os.path.join(TOP, "target", "awaqlla")
WAIT = 10  # seconds after which a run counts as hanging


def in_memory():
    """A folder for files in memory, where a sync costs nothing, or None."""
    return "/dev/shm" if os.access("/dev/shm", os.W_OK | os.X_OK) else None


def made(*words):
    """Runs what builds something; where that fails, it says why, and the test is over."""
    done = subprocess.run(words, cwd=TOP, stdout=subprocess.PIPE, stderr=subprocess.STDOUT)
    if done.returncode != 0:
        sys.stdout.write(done.stdout.decode("utf-8", "replace"))
        sys.exit(2)
    return done.stdout.decode("utf-8", "replace")


def ready():
    """Builds the command where it is missing or old."""
    if not TRIED:
        made(os.path.join(TOP, "tools", "program"))


def dynamic():
    """What stands before a command's other words: the same object as the program's, linked so that a library can be preloaded."""
    ready()
    path = TRIED or os.path.join(TOP, "target", "awaqlla-dynamic")
    if not TRIED:
        made(os.path.join(TOP, "tools", "program"), path)
    return lambda name: [path, name]


class Hanging(Exception):
    pass


def alarmed(*_):
    raise Hanging


class Starter:
    """Starts commands in a folder of its own. Files stand for the streams, since a pipe to read costs more than a run."""

    def __init__(self, folder):
        self.streams = [os.path.join(folder, name) for name in ("stdin", "stdout", "stderr")]
        signal.signal(signal.SIGALRM, alarmed)

    def run(self, words, given=b"", more=None):
        """The exit status, negative where a signal ended it, what is printed and what is said; None for the status where it hangs."""
        with open(self.streams[0], "wb") as file:
            file.write(given)
        flags = os.O_WRONLY | os.O_CREAT | os.O_TRUNC
        actions = [(os.POSIX_SPAWN_OPEN, 0, self.streams[0], os.O_RDONLY, 0)]
        actions += [(os.POSIX_SPAWN_OPEN, fd, self.streams[fd], flags, 0o666) for fd in (1, 2)]
        pid = os.posix_spawn(words[0], words, {**os.environ, **(more or {})}, file_actions=actions)
        signal.setitimer(signal.ITIMER_REAL, WAIT)
        try:
            status = os.waitstatus_to_exitcode(os.waitpid(pid, 0)[1])
        except Hanging:
            os.kill(pid, signal.SIGKILL)
            os.waitpid(pid, 0)
            status = None
        signal.setitimer(signal.ITIMER_REAL, 0)
        return status, read(self.streams[1]), read(self.streams[2])
