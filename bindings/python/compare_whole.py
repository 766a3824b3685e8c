#!/usr/bin/env python3
"""usage: compare_whole.py SOURCE

Every zone of a source in any form that zic reads, as the file and the string that the library gives of it, beside
the files that zic makes: at both sides of each change of 1900 to 2099 the file and that of `zic -b fat` have the same offset and
abbreviation by `zoneinfo`, and the string stands at the end of the zone's own file. It counts the strings that are those of
`zic -b slim`, and ends with 1 where something differs."""
import io
import sys
import tempfile
import zoneinfo
from datetime import datetime, timezone

from given import words

SOURCE, = words(__doc__, "file")
from outside import compiled  # noqa: E402
from sefunjaro import NoTail, Source  # noqa: E402

FIRST, LAST = (int(datetime(year, 1, 1, tzinfo=timezone.utc).timestamp()) for year in (1900, 2100))


def tail_of(zone):
    try:
        return zone.posix_tail().text
    except NoTail:
        return ""


def shown(zone, second):
    local = datetime.fromtimestamp(second, timezone.utc).astimezone(zone)
    return local.utcoffset(), local.tzname()


def main():
    source = Source.from_path(SOURCE)
    wrong = same_strings = sides = 0
    with tempfile.TemporaryDirectory() as folder:
        made = {form: compiled(SOURCE, f"{folder}/{form}", form) for form in ("fat", "slim")}
        for name in source:
            zone = source.zone(name)
            file, due, slim = zone.to_tzif(), made["fat"][name], made["slim"][name]
            tail = tail_of(zone)
            same_strings += slim.split(b"\n")[-2].decode() == tail
            ours, theirs = (zoneinfo.ZoneInfo.from_file(io.BytesIO(read)) for read in (file, due))
            seconds = [change.second + side for change in zone.changes(FIRST, LAST) for side in (-1, 0)]
            sides += len(seconds)
            if file.split(b"\n")[-2].decode() != tail or any(shown(ours, second) != shown(theirs, second) for second in seconds):
                wrong += 1
                print(f"differs: {name}")
    print(f"{len(source)} names, {sides} sides of changes, {same_strings} strings as zic's, {wrong} differ")
    return 1 if wrong else 0


sys.exit(main())
