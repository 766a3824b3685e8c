"""Compiled zones (TZif files, RFC 8536) and the strings at their end, read by themselves: where a zone changes, and what the
standard says of an instant. For the scripts that compare; the programs of this repository have no part in it."""
import re
from bisect import bisect_right
from datetime import date
from itertools import accumulate
from struct import unpack

DAY = 86400
NAME = r"(<[^>]+>|[A-Za-z]+)"
CLOCK = r"([+-]?\d+(?::\d+){0,2})"
DATE = r"(J\d+|\d+|M\d+\.\d+\.\d+)(?:/" + CLOCK + ")?"
STRING = re.compile(f"{NAME}{CLOCK}(?:{NAME}{CLOCK}?(?:,{DATE},{DATE})?)?")


def seconds_of(text):
    """The seconds of `hh`, `hh:mm` or `hh:mm:ss` with an optional sign."""
    parts = [int(part) for part in text.lstrip("+-").split(":")] + [0, 0]
    size = parts[0] * 3600 + parts[1] * 60 + parts[2]
    return -size if text.startswith("-") else size


def day_in(year, text):
    """The day, counted from 1970-01-01, that the date of a rule names in a year."""
    first = date(year, 1, 1).toordinal() - date(1970, 1, 1).toordinal()
    if text[0] == "M":
        month, week, weekday = (int(part) for part in text[1:].split("."))
        start = date(year, month, 1)
        after = date(year + month // 12, month % 12 + 1, 1)
        ahead = (weekday - start.isoweekday()) % 7 + 7 * (week - 1)
        length = (after - start).days
        return first + (start - date(year, 1, 1)).days + (ahead if ahead < length else ahead - 7)
    if text[0] == "J":
        number = int(text[1:])
        is_leap = year % 4 == 0 and (year % 100 != 0 or year % 400 == 0)
        return first + number - 1 + (1 if is_leap and number > 59 else 0)
    return first + int(text)


class Footer:
    """The string at a file's end: standard time, and maybe daylight saving time with the two dates of its rule."""

    def __init__(self, text):
        found = STRING.fullmatch(text)
        if not found:
            raise ValueError(f"no POSIX string: {text}")
        name, offset, other, ahead, start, start_clock, end, end_clock = found.groups()
        self.standard = (-seconds_of(offset), False, name.strip("<>"))
        self.daylight = None
        if other:
            east = -seconds_of(ahead) if ahead else self.standard[0] + 3600
            self.daylight = (east, True, other.strip("<>"))
            self.start = (start, seconds_of(start_clock or "2"))
            self.end = (end, seconds_of(end_clock or "2"))

    def edges(self, year):
        """The start and the end of daylight saving time in a year of the zone's clocks; both may lie past the year's edges."""
        if not self.daylight:
            return []
        (start, start_clock), (end, end_clock) = self.start, self.end
        standard, daylight = self.standard[0], self.daylight[0]
        return [day_in(year, start) * DAY + start_clock - standard, day_in(year, end) * DAY + end_clock - daylight]

    def at(self, second):
        """The kind of an instant: offset, whether it is daylight saving time, and name."""
        if not self.daylight:
            return self.standard
        year = date.fromordinal(date(1970, 1, 1).toordinal() + (second + self.standard[0]) // DAY).year
        return self.daylight if any(self.lasts(first, second) for first in range(year - 2, year + 2)) else self.standard

    def lasts(self, year, second):
        """Whether the daylight saving time that starts in a year holds: to the end in that year, or in the next one."""
        start, end = self.edges(year)
        return start <= second < (end if start <= end else self.edges(year + 1)[1])


class TzFile:
    """The second block of a file of version 2 and up, and its footer; `parts` are the places at which the file's parts end."""

    def __init__(self, data):
        if data[:4] != b"TZif" or data[4:5] < b"2":
            raise ValueError("no file of version 2 and up")
        isut, isstd, leaps, times, kinds, names = unpack(">6I", data[20:44])
        second = 44 + times * 5 + kinds * 6 + names + leaps * 8 + isstd + isut
        isut, isstd, self.leaps, times, kinds, names = unpack(">6I", data[second + 20:second + 44])
        sizes = [44, second - 44, 44, 8 * times, times, 6 * kinds, names, self.leaps * 12, isstd, isut, 1]
        self.parts = list(accumulate(sizes))
        head, numbers, records, texts = self.parts[2:6]
        self.times = list(unpack(f">{times}q", data[head:numbers]))
        told = [unpack(">iBB", data[start:start + 6]) for start in range(records, texts, 6)]
        named = [(offset, flag == 1, data[texts + place:data.index(0, texts + place)].decode()) for offset, flag, place in told]
        self.first, self.kinds = named[0], [named[number] for number in data[numbers:records]]
        self.text = data[self.parts[-1]:data.index(b"\n", self.parts[-1])].decode()
        self.footer = Footer(self.text) if self.text else None

    def at(self, second):
        """The kind of an instant; from the last change on the footer's, where there is one."""
        if self.footer and (not self.times or second >= self.times[-1]):
            return self.footer.at(second)
        place = bisect_right(self.times, second)
        return self.kinds[place - 1] if place else self.first

    def changes(self, low, high):
        """The seconds from low to high at which the file has a change, or its footer starts or ends daylight saving time."""
        told = [t for t in self.times if low <= t <= high]
        if not self.footer:
            return told
        since = max(self.times[-1], low) if self.times else low
        years = range(date.fromordinal(date(1970, 1, 1).toordinal() + since // DAY).year, 1971 + high // (DAY * 365))
        return told + sorted(edge for year in years for edge in self.footer.edges(year) if since < edge <= high)
