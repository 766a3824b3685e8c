#!/usr/bin/env python3
"""usage: compare_zoneinfo.py SOURCE [CASES [SEED]]

Compares the zones of sefunjaro.py, as tzinfo, with Python's zoneinfo over the files that `zic -b fat` makes of the same SOURCE, which is
in plain form. For every name, at each side of each change from 1900 to 2119: utcoffset, tzname and fold of the instant, and
utcoffset and tzname at both folds of the local times about the change, those in its gap or fold among them. Then CASES (100,000) random
cases from SEED (1), half of them to 2119 and half to 9996: astimezone, arithmetic, differences, isoformat and timestamp. Names that the source leaves to zic (`%z`) are
replaced by a fixed one for both. SEFUNJARO_LIBRARY names the library. Its status is 1 where something differs."""
import os
import random
import sys
import tempfile
from datetime import datetime, timedelta

from given import words

# (another script takes its comparisons, and has words of its own)
GIVEN = words(__doc__, "file", "number?", "number?") if __name__ == "__main__" else []
import sefunjaro  # noqa: E402
from outside import Tally, compiled, moment, named_copy, year_start, zone_info
from tzfile import TzFile

FIRST, LAST, FAR = year_start(1900), year_start(2120), year_start(9997)
SECOND = timedelta(seconds=1)


def of_local(local, zone):
    """What a zone says of a local time at both folds."""
    told = []
    for fold in (0, 1):
        there = local.replace(tzinfo=zone, fold=fold)
        told.append((there.utcoffset(), there.tzname()))
    return told


def of_instant(second, zone):
    """What a zone shows at an instant."""
    there = moment(second).astimezone(zone)
    return there.replace(tzinfo=None), there.fold, there.utcoffset(), there.tzname()


def compare_changes(name, mine, theirs, changes, tally):
    """The instants at each side of each change, and the local times about it."""
    for change in changes:
        for second in (change - 1, change):
            got, due = of_instant(second, mine), of_instant(second, theirs)
            tally.tell(got == due, lambda: f"{name} at {second}: {got}, zoneinfo: {due}")
        shown = {moment(second).astimezone(theirs).replace(tzinfo=None, fold=0) for second in (change - 1, change)}
        low, high = min(shown), max(shown)
        locals_of = {edge + SECOND * step for edge in shown for step in (-1, 0, 1)} | {low + (high - low) / 2}
        for local in sorted(locals_of):
            got, due = of_local(local, mine), of_local(local, theirs)
            tally.tell(got == due, lambda: f"{name} of {local}: {got}, zoneinfo: {due}")


def stepped(moment, step):
    """A step of time that stays far from the ends of datetime's years."""
    return moment + step if moment.year < 2000 else moment - step


def of_case(zone, other, local, fold, second, step):
    """What datetime makes of two zones, a local time, an instant and a step of time."""
    there = local.replace(tzinfo=zone, fold=fold)
    shown = datetime.fromtimestamp(second, zone)
    return (
        there.isoformat(), there.tzname(), there.timestamp(), stepped(there, step).isoformat(), there - moment(second),
        there.astimezone(other).isoformat(), there.astimezone(other).fold, shown.isoformat(), shown.fold,
        f"{stepped(shown, step):%c %Z %z}",
    )


def compare_random(mine, theirs, cases, seed, tally):
    """Random cases over all names."""
    choose, names = random.Random(seed), sorted(mine)
    for case in range(cases):
        one, two, last = choose.choice(names), choose.choice(names), choose.choice((LAST, FAR))
        local = datetime(1900, 1, 1) + timedelta(microseconds=choose.randrange((last - FIRST) * 10**6))
        fold, second = choose.randrange(2), choose.randrange(FIRST, last)
        step = timedelta(seconds=choose.randrange(10**8))
        got = of_case(mine[one], mine[two], local, fold, second, step)
        due = of_case(theirs[one], theirs[two], local, fold, second, step)
        tally.tell(got == due, lambda: f"case {case}, {one} and {two}, {local}, {fold}, {second}, {step}: {got}, zoneinfo: {due}")


def main():
    cases, seed = (int(word) for word in (GIVEN[1:] + ["100000", "1"][len(GIVEN) - 1:]))
    with tempfile.TemporaryDirectory() as folder:
        copied = named_copy(GIVEN[0], os.path.join(folder, "source"))
        files = compiled(copied, os.path.join(folder, "files"), "fat")
        source = sefunjaro.Source.from_path(copied)
    names = [name for name in source if name in files]
    missing = sorted(set(source) ^ set(files))
    if missing:
        print(f"names on one side alone: {missing}")
    mine = {name: source.zone(name) for name in names}
    theirs = {name: zone_info(files[name]) for name in names}
    by_change, by_chance = Tally(), Tally()
    for name in names:
        compare_changes(name, mine[name], theirs[name], TzFile(files[name]).changes(FIRST, LAST), by_change)
    compare_random(mine, theirs, cases, seed, by_chance)
    differing = by_change.close(f"{len(names)} names, at each side of each change")
    differing += by_chance.close(f"random cases, seed {seed}")
    sys.exit(1 if differing or missing else 0)


if __name__ == "__main__":
    main()
