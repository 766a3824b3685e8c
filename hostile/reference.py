"""Answers from outside: what zic compiles, read by Python's zoneinfo."""
import os
import shutil
import struct
import subprocess
from datetime import datetime, timedelta, timezone
from zoneinfo import ZoneInfo

EPOCH = datetime(1970, 1, 1, tzinfo=timezone.utc)
SECOND = timedelta(seconds=1)


def first_second(year):
    return (datetime(year, 1, 1, tzinfo=timezone.utc) - EPOCH) // SECOND


# What is asked lies in the years 1800 to 2099, in UTC and by the clocks of every zone.
LOW, HIGH = first_second(1800) + 200_000, first_second(2100) - 200_000


def find_zic():
    path = os.environ.get("PATH", "") + os.pathsep + os.path.join(os.sep, "usr", "sbin")
    return shutil.which("zic", path=path)


def changes(data):
    """The times in the second block of a compiled file."""
    def counts(at):
        return struct.unpack(">6I", data[at + 20:at + 44])
    isut, isstd, leap, times, types, chars = counts(0)
    second = 44 + times * 5 + types * 6 + chars + leap * 8 + isstd + isut
    times = counts(second)[3]
    return struct.unpack(f">{times}q", data[second + 44:second + 44 + 8 * times])


class Zone:
    """A zone as it is compiled in a file that is open."""

    def __init__(self, file, name):
        self.info = ZoneInfo.from_file(file, key=name)
        file.seek(0)
        self.data = file.read()
        self.changes = [second for second in changes(self.data) if LOW <= second <= HIGH]
        seen = [second + step for second in self.changes + [LOW, HIGH] for step in (-1, 0)]
        self.totals = sorted({self.total(second) for second in seen})

    def at(self, second):
        return (EPOCH + second * SECOND).astimezone(self.info)

    def total(self, second):
        return self.at(second).utcoffset() // SECOND

    def name(self, second):
        return self.at(second).tzname()

    def instants(self, local):
        """The seconds at which the zone's clocks show that local second, by time."""
        return sorted(local - total for total in self.totals if self.total(local - total) == total)


def local_text(second, nanos=0):
    """The text of a local second of the years 1 to 9999."""
    return f"{EPOCH.replace(tzinfo=None) + second * SECOND:%Y-%m-%d %H:%M:%S}.{nanos:09d}".rjust(29, "0")


def zoned_text(local, total, nanos=0):
    size = abs(total)
    sign = "-" if total < 0 else "+"
    return f"{local_text(local, nanos)} {sign}{size // 3600:02d}:{size // 60 % 60:02d}:{size % 60:02d}"


def at_answer(zone, second, nanos):
    total = zone.total(second)
    return zoned_text(second + total, total, nanos)


def local_answer(zone, local, nanos):
    return " | ".join(zoned_text(local, local - second, nanos) for second in zone.instants(local)) or "none"


def compiled(zic, source, folder, names):
    """The zones of a source by their names, or why zic refuses it."""
    run = subprocess.run([zic, "-b", "fat", "-d", folder, source], capture_output=True, text=True, check=False)
    if run.returncode:
        return run.stderr
    zones = {}
    for name in names:
        with open(os.path.join(folder, name), "rb") as file:
            zones[name] = Zone(file, name)
    return zones
