"""Each request for memory and each call of the outside, refused in turn, and the ends that a stream can have."""
import collections
import errno
import os

from programs import FILE

# The statuses at which nothing may be written.
SILENT = (1, 3, 5, 6, 7, 8)

# Where memory is refused: the words are taken first, then the patterns are built, then the rest.
NO_WORDS, NOT_BUILT, NO_MEMORY = 7, 8, 5


def is_due(run, clean, statuses):
    """Whether a run that met a refusal ended as the clean run does, or with one of these statuses and what is due there."""
    if run.errors:
        return False
    if run.status in SILENT and run.status != clean.status:
        return run.status in statuses and not run.output
    if run.status == 4:
        return 4 in statuses and clean.output.startswith(run.output)
    return (run.status, run.output) == (clean.status, clean.output)


class Refusals:
    """Over one case: the runner, where what held is counted, the case and its clean run."""

    def __init__(self, runner, tally, case):
        self.runner, self.tally, self.case = runner, tally, case
        self.path = runner.keep(case.text)
        self.clean = self.run({})

    def run(self, told, **streams):
        case = self.case
        return self.runner.run(case.program.name, case.words_for(self.path), case.text, case.given, told, **streams)

    def hold(self, claim, what, run):
        self.tally.hold(claim, f"{self.case.name()}: {what}", f"got {run.told()}", f"clean {self.clean.told()}")

    def held(self, what, told, statuses, **streams):
        """Holds a run that is told so to the clean run, or to these statuses."""
        run = self.run(told, **streams)
        self.hold(is_due(run, self.clean, statuses), what, run)
        return run

    def memory(self, number):
        """The request for memory of that number is refused, and then all from it on."""
        told = {"call": "memory", "number": number}
        self.held(f"request {number} for memory", told, (3, 4, 5, NO_WORDS, NOT_BUILT))
        run = self.held(f"requests for memory from {number} on", told | {"on": 1}, (3, 4, 5, NO_WORDS, NOT_BUILT))
        return run.status

    def memory_in_order(self, statuses):
        """Status 7 comes only before all others, 8 only before the rest, and no run does its work with no memory at all."""
        stages = [{NO_WORDS: 0, NOT_BUILT: 1}.get(status, 2) for status in statuses]
        wrong = [place + 1 for place in range(1, len(stages)) if stages[place] < stages[place - 1]]
        self.tally.hold(not wrong and statuses[0] in (NO_WORDS, NOT_BUILT, NO_MEMORY),
                        f"{self.case.name()}: the order of statuses without memory", f"wrong at {wrong[:10]}")

    def calls(self):
        """Each opening, read and write fails in turn, with whole pieces and a byte at a time, and a call is interrupted."""
        _, reads, writes, opens = self.clean.counts[:4]
        yield from self.each("open", opens, {}, (3,))
        yield from self.each("read", reads, {}, (3,))
        yield from self.each("write", writes, {}, (4,))
        small = self.held("a byte at a time", {"step": 1}, ())
        _, reads, writes, _ = small.counts[:4]
        yield from self.each("read", reads, {"step": 1}, (3,))
        yield from self.each("write", writes, {"step": 1}, (4,))

    def each(self, call, count, told, statuses):
        """The failing calls of a kind, each to be made. One whose number is past the last changes nothing."""
        for number in range(1, count + 1):
            for error, ends in ((errno.EIO, ()), (errno.EINTR, (0, 2))):
                words = told | {"call": call, "number": number, "error": error}
                yield lambda words=words, ends=ends: self.failing(words, statuses, ends)
        words = told | {"call": call, "number": count + 1}
        yield lambda: self.held(f"{words}, past the last", words, ())

    def failing(self, told, statuses, also):
        """A failed call is told; one that was only interrupted may be made again, and the run then ends as the clean one."""
        run = self.run(told)
        is_told = run.status in statuses and is_due(run, self.clean, statuses)
        is_made_again = run.status in also and is_due(run, self.clean, ())
        self.hold(is_told or is_made_again, f"{told}", run)

    def streams(self):
        """A full device, a pipe that nobody reads, streams that are closed, and what stands in place of the file."""
        if self.clean.output:
            with open("/dev/full", "wb") as full:
                self.ended("a full device", 4, stdout=full)
            unread = unread_pipe()
            self.ended("a pipe that nobody reads", 4, stdout=unread)
            os.close(unread)
            self.ended("a closed standard output", 4, preexec_fn=lambda: os.close(1), stdout=None)
        if self.case.program.has_input and FILE in self.case.words:
            self.ended("a closed standard input", 3, preexec_fn=lambda: os.close(0), stdin=None)
            self.ended("both closed", 3, preexec_fn=lambda: (os.close(0), os.close(1)), stdin=None, stdout=None)
            with open("/dev/zero", "rb") as endless:
                self.ended("an input that never ends", 6, stdin=endless)
            with open(os.devnull, "wb") as unread:
                self.ended("an input that is open for writing alone", 3, stdin=unread)
        if FILE in self.case.words:
            self.in_place("a missing file", os.path.join(self.runner.folder, "missing"), 3)
            self.in_place("a directory", self.runner.folder, 3)
            self.in_place("a source that never ends", "/dev/zero", 6)
            if os.geteuid() != 0:
                self.in_place("an unreadable file", unreadable(self.runner), 3)

    def ended(self, what, status, **streams):
        run = self.run({}, **streams)
        self.hold(run.status == status and not run.errors, what, run)

    def in_place(self, what, path, status):
        """Something else in place of the file."""
        words = self.case.words_for(path)
        run = self.runner.run(self.case.program.name, words, b" " * (1 << 24), self.case.given)
        self.hold((run.status, run.output, run.errors) == (status, b"", b""), what, run)


def unread_pipe():
    """The end for writing of a pipe whose other end is closed."""
    read_end, write_end = os.pipe()
    os.close(read_end)
    return write_end


def unreadable(runner):
    path = runner.keep(b"Zone A 0:00 - A\n")
    os.chmod(path, 0)
    return path


def try_all(pool, runner, tally, cases):
    """All of these over each case, on the threads of the pool."""
    for case in cases:
        refusals = Refusals(runner, tally, case)
        refusals.hold(refusals.clean.status in (0, 2), "a clean run", refusals.clean)
        refusals.streams()
        list(pool.map(lambda call: call(), refusals.calls()))
        requests = refusals.clean.counts[0]
        statuses = list(pool.map(refusals.memory, range(1, requests + 1)))
        refusals.memory_in_order(statuses)
        ends = ", ".join(f"{count} times {status}" for status, count in sorted(collections.Counter(statuses).items()))
        print(f"{case.name()}: {requests} requests for memory, each refused; and all from each on, which ends {ends}", flush=True)
