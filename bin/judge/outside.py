"""What the scripts that compare share: the programs of this repository, the reference compiler `zic`, `zdump` and Python's
zoneinfo, and the comparison of two zones at each side of each change."""
import functools
import io
import os
import shutil
import subprocess
import sys
from datetime import datetime, timedelta, timezone
from zoneinfo import ZoneInfo

from tzfile import TzFile

BIN = os.path.dirname(os.path.dirname(os.path.realpath(__file__)))
EPOCH = datetime(1970, 1, 1, tzinfo=timezone.utc)


def year_start(year):
    return (datetime(year, 1, 1, tzinfo=timezone.utc) - EPOCH) // timedelta(seconds=1)


# the years for which the programs work out the rules of a source, two days less at each end
FIRST, LAST = year_start(1800) + 172800, year_start(2100) - 172800


def found(name):
    """The path of a program of this machine."""
    path = os.environ.get("PATH", "") + os.pathsep + os.path.join(os.sep, "usr", "sbin")
    return shutil.which(name, path=path) or sys.exit(f"{name} is not installed")


@functools.lru_cache(maxsize=None)
def programs(*names):
    """The paths of programs of this repository, which are proved and built first where they aren't built or are old."""
    status = subprocess.run([os.path.join(BIN, "build"), *names], stdin=subprocess.DEVNULL).returncode
    if status:
        sys.exit(status)
    return [os.path.join(os.path.dirname(BIN), "crates", f"{name}_program", "out", f"{name}_program") for name in names]


def program(name):
    return programs(name)[0]


def run_zone(*given, **how):
    """A run of `zone` with these words, and its output as text."""
    return subprocess.run([program("zone"), *given], capture_output=True, text=True, **how)


def plain_form(source, path):
    """Writes the plain form of a source to a file."""
    run = run_zone("plain", source)
    if run.returncode:
        sys.exit(f"zone plain: status {run.returncode}, {run.stderr.strip()}")
    with open(path, "w", encoding="utf-8", newline="") as file:
        file.write(run.stdout)
    return path


def answered(source, requests):
    """The answers of `zone stream --plain` to requests of zone_answers."""
    run = run_zone("--source", source, "stream", "--plain", input=requests)
    return run.stdout.splitlines() if run.returncode == 0 else sys.exit(f"zone stream --plain: status {run.returncode}, {run.stdout[:100]!r}")


def in_full(clock):
    """What clocks show as `zone` writes it for people, in the words of the other programs: the name, and then date, time and offset."""
    day, time, offset, name = clock.split()
    return [name, day, f"{time}.000000000", offset if len(offset) > 6 else f"{offset}:00"]


def listed(source, name, begin, end):
    """The changes of a zone from a second on and before another, as zone_list has them in its rows."""
    run = run_zone("--source", source, "list", name, f"@{begin}", f"@{end}", stdin=subprocess.DEVNULL)
    if run.returncode:
        sys.exit(f"zone list {name}: status {run.returncode}, {run.stderr.strip()}")
    rows = (line.removeprefix("@").split(": ", 1) for line in run.stdout.splitlines())
    return [[second, *in_full(clocks.split(" to ")[1].split(",")[0])] for second, clocks in rows]


def named_copy(source, path):
    """Writes a copy of a source with `%z` replaced by `ZZZ`: zic spells out that name, and the programs take it as it stands."""
    with open(source, encoding="utf-8") as file, open(path, "w", encoding="utf-8") as copy:
        copy.write(file.read().replace("%z", "ZZZ"))
    return path


def compiled(source, folder, bloat):
    """The files that `zic -b BLOAT` makes of a source in a new folder, by name."""
    made = subprocess.run([found("zic"), "-b", bloat, "-d", folder, source], stderr=subprocess.PIPE, text=True)
    if made.returncode:
        sys.exit(f"zic refuses {source}: {made.stderr}")
    return files_in(folder)


def files_in(folder):
    """The contents of the files below a folder, by their path in it."""
    contents = {}
    for inside, _, names in os.walk(folder):
        for name in names:
            path = os.path.join(inside, name)
            with open(path, "rb") as file:
                contents[os.path.relpath(path, folder)] = file.read()
    return dict(sorted(contents.items()))


def machine_files(folder):
    """Those files of a machine's zoneinfo folder that are of version 2 and up and have no leap seconds."""
    told = {name: data for name, data in files_in(folder).items() if data[:4] == b"TZif" and data[4:5] >= b"2"}
    return {name: data for name, data in told.items() if not TzFile(data).leaps}


def distinct(files):
    """One name for each content."""
    return {name: data for data, name in {data: name for name, data in reversed(files.items())}.items()}


def zone_info(data):
    """Python's reader over the bytes of a file."""
    return ZoneInfo.from_file(io.BytesIO(data))


def moment(second):
    return EPOCH + timedelta(0, second)


def shown(zone, second):
    """The offset and the name that a zone of Python's gives an instant."""
    local = moment(second).astimezone(zone)
    return local.utcoffset() // timedelta(seconds=1), local.tzname()


def local_text(local, nanos):
    """The text of a local time, counted in seconds from the local beginning of 1970."""
    return f"{moment(local).isoformat(' ')[:19]}.{nanos:09d}"


def offset_text(total):
    size = abs(total)
    return f"{'-' if total < 0 else '+'}{size // 3600:02d}:{size // 60 % 60:02d}:{size % 60:02d}"


class Tally:
    """Counts what is the same, and shows the first differences."""

    def __init__(self, most=10):
        self.same, self.differing, self.most = 0, 0, most

    def tell(self, is_same, text):
        """Counts one; `text` makes the line of a difference."""
        if is_same:
            self.same += 1
            return
        self.differing += 1
        if self.differing <= self.most:
            print(f"  {text()}", flush=True)

    def close(self, title):
        print(f"{title}: {self.same} the same, {self.differing} differ", flush=True)
        return self.differing


def tzif_files(source, names, tally):
    """The files that zone_tzif writes for these names; a name without one counts as a difference."""
    tzif, files = program("zone_tzif"), {}
    for name in names:
        run = subprocess.run([tzif, source, name], stdin=subprocess.DEVNULL, capture_output=True)
        tally.tell(run.returncode == 0, lambda: f"{name}: status {run.returncode}, {run.stdout[:80]!r}")
        if run.returncode == 0:
            files[name] = run.stdout
    return files


def put(files, folder):
    """Writes files below a folder."""
    for name, data in files.items():
        path = os.path.join(folder, name)
        os.makedirs(os.path.dirname(path), exist_ok=True)
        with open(path, "wb") as file:
            file.write(data)


class Reader:
    """zone_file_answers over bytes, put into a file of a folder."""

    def __init__(self, folder):
        self.path, self.program = os.path.join(folder, "file"), program("zone_file_answers")

    def asked(self, data, requests=""):
        """The status of a run, and what it wrote."""
        with open(self.path, "wb") as file:
            file.write(data)
        run = subprocess.run([self.program, self.path], input=requests, capture_output=True, text=True)
        return run.returncode, run.stdout


def sides(files, first=FIRST, last=LAST, more=()):
    """The seconds to each side of each change between two seconds: of the changes of some files, and of more."""
    edges = {t for data in files for t in TzFile(data).changes(first, last)}
    edges |= {t for t in more if first <= t <= last}
    return sorted({t + d for t in edges | {first, last} for d in (-1, 0)})


def compare_shown(name, ours, theirs, seconds, tally):
    """Offset and name of two files at some instants, by Python's zoneinfo."""
    mine, other = zone_info(ours), zone_info(theirs)
    for second in seconds:
        got, due = shown(mine, second), shown(other, second)
        tally.tell(got == due, lambda: f"{name} at {second}: {got}, zic: {due}")


# the zones of the tz database with a saving below 0, and the links to them: here daylight saving time is a saving above 0
BELOW_ZERO = {"Africa/Casablanca", "Africa/El_Aaiun", "Africa/Windhoek", "Europe/Dublin", "Eire", "Europe/Prague",
              "Europe/Bratislava"}


def compare_by_zdump(ours, theirs, folder, below_zero=BELOW_ZERO):
    """The changes of 1800 to 2099 that `zdump` finds in two sets of files; of the zones below zero without their flags."""
    tally, rows = Tally(), []
    names = list(distinct({name: ours[name] + theirs[name] for name in ours}))
    for number, files in enumerate((ours, theirs)):
        put(files, os.path.join(folder, f"zdump {number}"))
        rows.append(zdump_rows(os.path.join(folder, f"zdump {number}"), names))
    for name in names:
        got, due = (without_flags(told[name]) if name in below_zero else told[name] for told in rows)
        tally.tell(got == due, lambda: f"{name}: {sorted(set(got) ^ set(due))[:3]}")
    return tally.close("changes by zdump, a file each")


def zdump_rows(folder, names, years="1800,2100"):
    """The changes that `zdump` finds in files of a folder: of each two lines a second apart the later one, as its second, offset,
    name and flag, where one of these three changes. A whole path keeps it from the machine's own files."""
    paths = {os.path.join(os.path.abspath(folder), name): name for name in names}
    told = subprocess.run([found("zdump"), "-v", "-c", years, *paths], check=True, capture_output=True, text=True).stdout
    lines = {name: [] for name in names}
    for line in told.splitlines():
        words = line.rsplit(None, 15)
        if len(words) == 16 and words[0].rstrip() in paths:
            at = datetime.strptime(" ".join(words[2:6]), "%b %d %H:%M:%S %Y").replace(tzinfo=timezone.utc)
            kind = int(words[15].partition("=")[2]), words[13], words[14]
            lines[paths[words[0].rstrip()]].append(((at - EPOCH) // timedelta(seconds=1), *kind))
    return {name: [b for a, b in zip(told, told[1:]) if b[0] == a[0] + 1 and b[1:] != a[1:]] for name, told in lines.items()}


def without_flags(rows):
    """The rows at which more than the flag changes."""
    kept = []
    for second, offset, name, _ in rows:
        if not kept or kept[-1][1:] != (offset, name):
            kept.append((second, offset, name))
    return kept
