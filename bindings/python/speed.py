#!/usr/bin/env python3
"""usage: speed.py SOURCE [ROUNDS]

The processor time of a call in nanoseconds, the best of nine turns: of a function of the library that does nothing, which is
ctypes' own cost, of an offset at an instant, of one of many at once, in any order and rising, of one of many local times and instants, and of a datetime's
utcoffset, tzname, dst and astimezone with a zone of sefunjaro.py and with Python's zoneinfo. Where pandas is installed, of the
same local times and instants by it too."""
import ctypes
import time
from array import array
from datetime import datetime, timedelta, timezone
from zoneinfo import ZoneInfo

from given import words

SOURCE, *ROUNDS = words(__doc__, "file", "number?")
import sefunjaro  # noqa: E402

NAME = "America/New_York"


def locals_in(zone, rounds):
    start = datetime(1970, 1, 1, tzinfo=zone)
    return [start + timedelta(seconds=turn * 7919 * 3600 % 2030000000) for turn in range(rounds)]


def of_pandas(seconds, shown):
    """Local times and instants by pandas, of which each local time in a fold is the first and each in a gap the one after it."""
    try:
        import numpy
        import pandas
    except ImportError:
        return {}
    instants = pandas.DatetimeIndex(numpy.frombuffer(seconds, numpy.int64).astype("datetime64[s]"), tz="UTC")
    locals_ = pandas.DatetimeIndex(numpy.frombuffer(shown, numpy.int64).astype("datetime64[s]"))
    first = numpy.ones(len(locals_), bool)
    return {
        "to_local, pandas": lambda: instants.tz_convert(NAME).tz_localize(None),
        "to_instants, pandas": lambda: locals_.tz_localize(NAME, ambiguous=first, nonexistent="shift_forward"),
    }


def main():
    rounds = int((ROUNDS or ["2000"])[0])
    mine, theirs = sefunjaro.Source.from_path(SOURCE).zone(NAME), ZoneInfo(NAME)
    nothing, closed = sefunjaro._close, ctypes.byref(sefunjaro._RawHandle())
    seconds = [turn * 7919 * 3600 % 2030000000 for turn in range(rounds)]
    many, rising = array("q", seconds), array("q", sorted(seconds))
    shown = mine.to_local(many)
    in_utc = locals_in(timezone.utc, rounds)
    in_mine, in_theirs = locals_in(mine, rounds), locals_in(theirs, rounds)
    parts = {
        "an empty loop": lambda: [None for _ in seconds],
        "a call that does nothing": lambda: [nothing(closed) for _ in seconds],
        "offset_at": lambda: [mine.offset_at(second) for second in seconds],
        "offsets_at": lambda: mine.offsets_at(many),
        "offsets_at, rising": lambda: mine.offsets_at(rising),
        "to_local": lambda: mine.to_local(many),
        "to_instants": lambda: mine.to_instants(shown),
        "utcoffset": lambda: [moment.utcoffset() for moment in in_mine],
        "utcoffset, zoneinfo": lambda: [moment.utcoffset() for moment in in_theirs],
        "tzname": lambda: [moment.tzname() for moment in in_mine],
        "tzname, zoneinfo": lambda: [moment.tzname() for moment in in_theirs],
        "dst": lambda: [moment.dst() for moment in in_mine],
        "dst, zoneinfo": lambda: [moment.dst() for moment in in_theirs],
        "astimezone": lambda: [moment.astimezone(mine) for moment in in_utc],
        "astimezone, zoneinfo": lambda: [moment.astimezone(theirs) for moment in in_utc],
    }
    parts.update(of_pandas(many, shown))
    best = dict.fromkeys(parts, float("inf"))
    for _ in range(9):
        for name, part in parts.items():
            start = time.process_time()
            part()
            best[name] = min(best[name], (time.process_time() - start) / rounds * 1e9)
    for name, nanos in best.items():
        print(f"{name}: {nanos:.0f}")


main()
