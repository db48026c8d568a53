"""Runs of the built program for the scripts beside it: thousands a minute, with what they read and write in memory where the host has a
folder for that."""
import multiprocessing
import os
import pathlib
import signal
import subprocess
import tempfile

TOP = pathlib.Path(__file__).resolve().parent.parent
PROGRAM = os.environ.get("ALPINE", str(TOP / "crates" / "alpine" / "out" / "alpine"))
IN_MEMORY = "/dev/shm" if os.access("/dev/shm", os.W_OK) else None


def folder_in_memory():
    """A new folder, which goes with the `with` that it stands in."""
    return tempfile.TemporaryDirectory(prefix="alpine-", dir=IN_MEMORY)


class Room:
    """A folder of one process, below one that is given, in which it runs one program at a time."""

    def __init__(self, below):
        self.path = pathlib.Path(tempfile.mkdtemp(dir=below))
        self.given, self.written, self.said = self.path / "given", self.path / "written", self.path / "said"

    def start(self, words, given=b"", environment=os.environ, files=()):
        """Starts the program with these words and this input, and gives the number of its process."""
        self.given.write_bytes(given)
        reads = (os.POSIX_SPAWN_OPEN, 0, str(self.given), os.O_RDONLY, 0)
        files = [reads, opened(1, self.written), opened(2, self.said), *files]
        return os.posix_spawn(PROGRAM, [PROGRAM, *words], environment, file_actions=files)

    def run(self, words, given=b"", **how):
        """The status of a run, what it said and what it wrote. A run of two minutes is killed, and has the status of that."""
        status = ended_within(self.start(words, given, **how), 120)
        return status, self.said.read_bytes(), self.written.read_bytes()


class Preloaded(Room):
    """A room whose programs have a library that refuses the call with a number, which a variable names, and counts the calls."""

    def __init__(self, below, library, variable):
        super().__init__(below)
        self.library, self.variable, self.told = library, variable, self.path / "told"

    @staticmethod
    def compiled(source, below):
        library = f"{below}/{source.stem}.so"
        subprocess.run(["cc", "-O1", "-shared", "-fPIC", "-o", library, str(source)], check=True)
        return library

    def count(self, words, given, number):
        """How a run ends whose call with this number is refused, and how many calls it made; with 0 none is."""
        environment = os.environ | {"LD_PRELOAD": self.library, self.variable: str(number), "TELL": "9"}
        ended = self.run(words, given, environment=environment, files=[opened(9, self.told)])
        return ended, int(self.told.read_text() or 0)


def opened(descriptor, path):
    """That a program has this file, without its bytes, at this descriptor."""
    return os.POSIX_SPAWN_OPEN, descriptor, str(path), os.O_WRONLY | os.O_CREAT | os.O_TRUNC, 0o600


def ended_within(process, seconds):
    """The status of the process, which is killed after so many seconds: then it is the signal's number, negative."""
    signal.signal(signal.SIGALRM, lambda *_: os.kill(process, signal.SIGKILL))
    signal.setitimer(signal.ITIMER_REAL, seconds)
    _, status = os.waitpid(process, 0)
    signal.setitimer(signal.ITIMER_REAL, 0)
    return os.waitstatus_to_exitcode(status)


def side_by_side(jobs, work, items, begin=None, given=(), at_once=64):
    """What `work` gives for each of the items, in their order, by so many processes, each of which calls `begin` first."""
    with multiprocessing.Pool(jobs, begin, given) as pool:
        yield from pool.imap(work, items, at_once)


def processors():
    return len(os.sched_getaffinity(0))
