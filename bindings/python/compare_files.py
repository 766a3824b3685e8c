#!/usr/bin/env python3
"""usage: compare_files.py [FOLDER]

Compares the zones that sefunjaro.py opens from compiled files, and from the POSIX strings at their ends, with Python's zoneinfo: all
different files below FOLDER (/usr/share/zoneinfo) of version 2 and up without leap seconds. For every file, at each side of each change
from 1900 to 2399: utcoffset, tzname and fold of the instant, and utcoffset and tzname at both folds of the local times about the change.
A string is asked from 2000 to 2399, beside a file without changes whose footer it is. In the second of a file's last change the footer
speaks here, and the change in zoneinfo: where the two say otherwise, that change is left out. SEFUNJARO_LIBRARY names the library. Its
status is 1 where something differs."""
import os
import struct
import sys

from given import words

GIVEN = words(__doc__, "folder?")
import sefunjaro  # noqa: E402
from compare_zoneinfo import compare_changes
from outside import Tally, distinct, machine_files, year_start, zone_info
from tzfile import Footer, TzFile

FIRST, PRESENT, LAST = year_start(1900), year_start(2000), year_start(2400)


def alone(footer):
    """A file without changes, with standard time for its kind and a string for its footer."""
    offset, _, name = Footer(footer).standard
    names = name.encode() + b"\0"
    block = b"TZif2" + bytes(15) + struct.pack(">6IiBB", 0, 0, 0, 0, 1, len(names), offset, 0, 0) + names
    return block + block + b"\n" + footer.encode() + b"\n"


def parts_at_last(file):
    """The second of the last change, where the footer says otherwise than the change does."""
    if not file.footer or not file.times:
        return None
    return None if file.footer.at(file.times[-1]) == file.kinds[-1] else file.times[-1]


def main():
    folder = GIVEN[0] if GIVEN else os.path.join(os.sep, "usr", "share", "zoneinfo")
    of_files, of_strings, strings = Tally(), Tally(), set()
    files = distinct(machine_files(folder))
    for name, data in files.items():
        file = TzFile(data)
        if file.text:
            strings.add(file.text)
        changes = [second for second in file.changes(FIRST, LAST) if second != parts_at_last(file)]
        compare_changes(name, sefunjaro.Zone.from_file(data, name), zone_info(data), changes, of_files)
    for text in strings:
        data = alone(text)
        changes = [PRESENT] + TzFile(data).changes(PRESENT, LAST)
        compare_changes(text, sefunjaro.Zone.from_posix(text), zone_info(data), changes, of_strings)
    differing = of_files.close(f"{len(files)} files, at each side of each change")
    differing += of_strings.close(f"{len(strings)} strings")
    sys.exit(1 if differing else 0)


main()
