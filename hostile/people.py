"""The command `zone` over a small source: each request for memory and each call of the outside refused in turn, and what may stand in
place of its source, its input and its output. It tells its faults on standard error, in one line that begins with its name."""
import errno
import os

from programs import SMALL

NEW_YORK = "America/New_York"
REQUESTS = b"at America/New_York @1710053999\nlocal America/New_York 2024-11-03 01:30\nwhat\nat US/Eastern @0\n"
PLAIN_REQUESTS = b"at America/New_York 1710053999000000000\nat America/New_York 5686009200000000000\nwhat\nlocal US/Eastern 2150-07-01 12:00:00.000000000\n"
LOG = b"1710053999 a\nno time\n@0 b"

# The words behind --source FILE, and the input.
CASES = [
    (("at", NEW_YORK, "@1710053999", "@0.5"), b""),
    (("local", NEW_YORK, "2024-03-10 02:30"), b""),
    (("convert", NEW_YORK, "Europe/Madrid", "2024-11-03 01:30", "--json"), b""),
    (("list", NEW_YORK, "@1700000000", "@1800000000"), b""),
    (("alarm", NEW_YORK, "02:30", "--from", "2024-03-09", "--count", "4", "--gap", "before"), b""),
    (("names", "eastern"), b""),
    (("string", NEW_YORK), b""),
    (("file", NEW_YORK), b""),
    (("chart", NEW_YORK, "UTC", "2024"), b""),
    (("at", "Nowhere", "@0"), b""),
    (("local", NEW_YORK, "2024-03-10"), b""),
    (("stream",), REQUESTS),
    (("stream", "--plain"), PLAIN_REQUESTS),
    (("log", NEW_YORK), LOG),
]
SHORTAGE = (3, 4, 5, 7)


def is_line(errors):
    """Whether this is a line that tells a fault, or a first part of one, or nothing."""
    return errors == b"" or (errors.startswith(b"zone: "[:len(errors)]) and errors.count(b"\n") <= 1)


class People:
    """Over one case: the runner, where what held is counted, the case and its clean run."""

    def __init__(self, runner, tally, words, given):
        self.runner, self.tally, self.words, self.given = runner, tally, words, given
        self.path = runner.keep(SMALL)
        self.clean = self.run({})

    def run(self, told, path=None, **streams):
        return self.runner.run("zone", ["--source", path or self.path, *self.words], SMALL, self.given, told, **streams)

    def held(self, what, statuses, told, **how):
        """Holds a run to the clean one, or to one of these statuses with a first part of what the clean one writes."""
        run, clean = self.run(told, **how), self.clean
        same = (run.status, run.output, run.errors) == (clean.status, clean.output, clean.errors)
        told_so = run.status in statuses and clean.output.startswith(run.output) and is_line(run.errors)
        self.tally.hold(same or told_so, f"zone {' '.join(self.words)}: {what}", f"got {run.told()}", f"clean {clean.told()}")
        return run

    def shortages(self):
        """The first requests, which take the words, and then one of each score."""
        count = self.clean.counts[0] + 1
        for number in [*range(1, min(count, 60)), *range(60, count, 20)]:
            for on in ({}, {"on": 1}):
                yield lambda told={"call": "memory", "number": number} | on: self.held(f"{told}", SHORTAGE, told)

    def calls(self):
        """A failed opening or read is status 3, a failed write 4; one of standard error changes no status."""
        _, reads, writes, opens = self.clean.counts[:4]
        for call, count, statuses in (("open", opens, (3,)), ("read", reads, (3,)), ("write", writes, (4, self.clean.status))):
            for number in range(1, count + 1):
                told = {"call": call, "number": number, "error": errno.EIO}
                yield lambda told=told, statuses=statuses: self.held(f"{told}", statuses, told)
        yield lambda: self.held("a byte at a time", (), {"step": 1})

    def streams(self):
        self.held("a missing file", (3,), {}, path=os.path.join(self.runner.folder, "missing"))
        self.held("a directory", (3,), {}, path=self.runner.folder)
        self.held("a source that never ends", (6,), {}, path="/dev/zero")
        if self.clean.output:
            with open("/dev/full", "wb") as full:
                self.held("a full device", (4,), {}, stdout=full)
            self.held("a closed standard output", (4,), {}, preexec_fn=lambda: os.close(1), stdout=None)
        if self.given:
            self.held("a closed standard input", (3,), {}, preexec_fn=lambda: os.close(0), stdin=None)


def try_all(pool, runner, tally):
    for words, given in CASES:
        people = People(runner, tally, words, given)
        tally.hold(people.clean.status in (0, 2), f"zone {' '.join(words)}: a clean run", people.clean.told())
        people.streams()
        list(pool.map(lambda call: call(), [*people.calls(), *people.shortages()]))
        print(f"zone {' '.join(words)}: {people.clean.counts[0]} requests for memory, one of a score refused, and all from each on", flush=True)
