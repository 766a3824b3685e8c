"""Runs of a program under limits of time and of memory, and the count of what held and what didn't."""
import collections
import os
import resource
import signal
import subprocess
import tempfile
import threading
from dataclasses import dataclass, field

# Every run has to end within these seconds of the processor, and those for each megabyte of the texts that it reads; past them the
# system ends it. One that only waits is ended after ten minutes.
SECONDS = 10
SECONDS_PER_MEGABYTE = 3
WAITING = 600

# The most memory, in bytes, that a run may ask for: every program meets it, and so does this one.
MEMORY = 1 << 31

# How many failures are shown in full.
SHOWN = 40


def limit_memory():
    """Limits the memory of this process and of all that it starts."""
    resource.setrlimit(resource.RLIMIT_AS, (MEMORY, MEMORY))
    resource.setrlimit(resource.RLIMIT_CORE, (0, 0))


@dataclass(frozen=True)
class Run:
    """How a run ended: its status (below 0 by a signal, None past its time), what it wrote, and the counts of the shim: requests for
    memory, reads, writes, openings, the most memory in kilobytes and the milliseconds of the processor."""
    status: object
    output: bytes
    errors: bytes
    counts: tuple = ()

    def told(self):
        ended = "past its time" if self.status in (None, -signal.SIGKILL, -signal.SIGXCPU) else f"status {self.status}"
        return f"{ended}, {len(self.output)} bytes {self.output[:120]!r} {self.errors[:80]!r}"


@dataclass
class Tally:
    """What held and what didn't, from any thread."""
    passed: int = 0
    failed: int = 0
    notes: collections.Counter = field(default_factory=collections.Counter)
    lock: threading.Lock = field(default_factory=threading.Lock)

    def hold(self, claim, name, *details):
        """Counts a claim, and shows the name and the details of one that doesn't hold."""
        with self.lock:
            if claim:
                self.passed += 1
                return True
            self.failed += 1
            if self.failed <= SHOWN:
                print(f"FAILED {name}", *(f"\n    {detail}" for detail in details), flush=True)
            return False

    def note(self, what, count=1):
        """Counts what was tried, so that a run tells how much of it there was."""
        with self.lock:
            self.notes[what] += count


class Runner:
    """Starts programs: a folder for texts, the shim, and where each program lies."""

    def __init__(self, folder, shim, paths):
        self.folder, self.shim, self.paths = folder, shim, paths

    def keep(self, text):
        """A file of the folder with this text."""
        handle, path = tempfile.mkstemp(dir=self.folder)
        with os.fdopen(handle, "wb") as file:
            file.write(text)
        return path

    def drop(self, path):
        os.unlink(path)

    def folder_of_own(self):
        return tempfile.mkdtemp(dir=self.folder)

    def run(self, name, words, text=b"", given=b"", told=None, **streams):
        """Runs a program with `given` as its standard input, told what to refuse, and the streams that are named in place of
        pipes. `text` is what its file holds, for the limit of time."""
        environment, counts = {}, None
        if told is not None:
            counts = tempfile.mktemp(dir=self.folder)
            environment = {"LD_PRELOAD": self.shim, "HOSTILE_COUNTS": counts}
            environment.update((f"HOSTILE_{key.upper()}", str(value)) for key, value in told.items())
        pipes = {"stdin": subprocess.PIPE, "stdout": subprocess.PIPE, "stderr": subprocess.PIPE} | streams
        process = subprocess.Popen([self.paths[name.split()[0]], *words], env=environment, **pipes)
        seconds = SECONDS + SECONDS_PER_MEGABYTE * (len(text) + len(given)) // 1_000_000
        try:
            resource.prlimit(process.pid, resource.RLIMIT_CPU, (seconds, seconds))
        except ProcessLookupError:
            pass
        try:
            output, errors = process.communicate(given if pipes["stdin"] == subprocess.PIPE else None, timeout=WAITING)
            status = process.returncode
        except subprocess.TimeoutExpired:
            process.kill()
            output, errors = process.communicate()
            status = None
        run = Run(status, output or b"", errors or b"", read_counts(counts))
        return told_as_output(run) if " " in name else run


def told_as_output(run):
    """The same run with the line of a fault as its output, and without one of the other statuses."""
    is_line = run.errors.startswith(b"zone: ") and run.errors.endswith(b"\n") and run.errors.count(b"\n") == 1
    if run.status in (None, 0, 4) or run.output or not is_line:
        return run
    return Run(run.status, run.errors if run.status == 2 else b"", b"", run.counts)


def read_counts(path):
    """The counts that the shim wrote, and none where the program was ended by a signal."""
    if path is None or not os.path.exists(path):
        return ()
    with open(path, encoding="ascii") as file:
        numbers = tuple(int(word) for word in file.read().split())
    os.unlink(path)
    return numbers
