"""A slow reading of the plain form of a source: what a zone's lines put in force, each year's rules fired one by one, over any number of
years from 1800 on. It is written from what the zic manual says of the lines, and from what this repository says of them where zic may
choose; it shares nothing with the programs."""
from bisect import bisect_right
from datetime import date
from functools import lru_cache

MONTHS = "Jan Feb Mar Apr May Jun Jul Aug Sep Oct Nov Dec".split()
WEEKDAYS = "Mon Tue Wed Thu Fri Sat Sun".split()
CYCLE = 400 * 365 * 86400 + 97 * 86400
# 1699-01-01 00:00:00 UTC, from which cycles are counted
CYCLES_FROM = (date(1699, 1, 1) - date(1970, 1, 1)).days * 86400


def day_number(year, month, day):
    """The days from 1970-01-01 to a date of any year, the calendar of years that Python doesn't have being that of cycles before."""
    cycles = (year - 1970) // 400
    return (date(year - 400 * cycles, month, 1) - date(1970, 1, 1)).days + 146097 * cycles + day - 1


def month_length(year, month):
    following = (year + 1, 1) if month == 12 else (year, month + 1)
    return day_number(*following, 1) - day_number(year, month, 1)


@lru_cache(maxsize=None)
def named_day(spec, year, month):
    """The number of the day that a text names: 5, lastSun, Sun>=8 or Sun<=25."""
    first = day_number(year, month, 1)
    if spec.isdecimal():
        return first + int(spec) - 1
    if spec.startswith("last"):
        return max(k for k in range(first, first + month_length(year, month)) if weekday(k) == spec[4:])
    day, sign, number = spec[:3], spec[3:5], int(spec[5:])
    days = range(first + number - 1, first + number + 6) if sign == ">=" else range(first + number - 1, first + number - 8, -1)
    return next(k for k in days if weekday(k) == day)


def weekday(number):
    return WEEKDAYS[(number + 3) % 7]


def clock_time(text):
    """The seconds of a time or of an amount, and the letter of its clock."""
    mark = text[-1] if text[-1] in "wsugz" else "w"
    digits = text.rstrip("wsugz")
    sign, parts = (-1 if digits.startswith("-") else 1), [int(part) for part in digits.lstrip("-").split(":")]
    return sign * sum(part * size for part, size in zip(parts, (3600, 60, 1))), {"g": "u", "z": "u"}.get(mark, mark)


class Rule:
    def __init__(self, words):
        begin, end, _, month, self.day, at, saving, letters = words
        self.begin = int(begin)
        self.end = {"only": self.begin, "max": None}[end] if not end.isdecimal() else int(end)
        self.month = MONTHS.index(month) + 1
        self.time, self.clock = clock_time(at)
        self.saving = clock_time(saving)[0]
        self.letters = "" if letters == "-" else letters

    def applies(self, year):
        return self.begin <= year and (self.end is None or year <= self.end)

    def moment(self, year, offset, saving):
        ahead = {"u": 0, "s": offset, "w": offset + saving}[self.clock]
        return named_day(self.day, year, self.month) * 86400 + self.time - ahead


class Line:
    def __init__(self, words):
        offset, self.rules, self.format, *end = words
        self.offset = clock_time(offset)[0]
        self.end = end

    def until(self, saving):
        year, month, day, time = (self.end + ["Jan", "1", "0:00"][len(self.end) - 1:])[:4]
        seconds, clock = clock_time(time)
        ahead = {"u": 0, "s": self.offset, "w": self.offset + saving}[clock]
        return named_day(day, int(year), MONTHS.index(month) + 1) * 86400 + seconds - ahead

    def name(self, saving, letters):
        if "/" in self.format:
            return self.format.split("/")[saving != 0]
        return self.format.replace("%s", letters)


def firings(line, rules, is_last, years):
    """The rules of a line as they fire, year by year: the second, the saving and the letters, and the saving after all years."""
    fired, saving = [], 0
    for year in range(1800, 1800 + years if is_last else min(1800 + years, int(line.end[0]) + 1)):
        left = [rule for rule in rules if rule.applies(year)]
        while left:
            rule = min(left, key=lambda r: r.moment(year, line.offset, saving))
            second = rule.moment(year, line.offset, saving)
            if not is_last and second >= line.until(saving):
                break
            left.remove(rule)
            saving = rule.saving
            fired.append((second, saving, rule.letters))
    return fired, saving


def listed(line, fired, start):
    """The entries of a line: what fires from its start on, and what is in force at its start."""
    def entry(second, saving, letters):
        return second, (line.offset, saving, line.name(saving, letters))
    if start is None:
        return [entry(*f) for f in fired]
    at = next((i for i, f in enumerate(fired) if f[0] == start), None)
    before = fired if at is None else fired[:at]
    rows = [entry(*f) for f in before if f[0] > start] + ([] if at is None else [entry(*f) for f in fired[at:]])
    if at is None:
        past = [f for f in fired if f[0] < start]
        first = next((f for f in fired if f[1] == 0), None)
        if past:
            rows.append(entry(start, *past[-1][1:]))
        elif first:
            rows.append(entry(start, 0, first[2]))
    return rows


def total(span):
    return span[0] + span[1]


def collapsed(first, rows):
    kept = []
    for second, span in rows:
        if len(kept) > 1 and second + total(kept[-1][1]) <= kept[-1][0] + total(kept[-2][1]):
            kept[-1] = kept[-1][0], span
        elif not kept or kept[-1][1] != span:
            kept.append((second, span))
    return kept[1:] if kept and kept[0][1] == first else kept


class Schedule:
    """What is in force in a zone, its lines being expanded over some years: a first span, and entries by their second."""

    def __init__(self, lines, rulesets, years):
        rows, start, self.first = [], None, None
        for place, line in enumerate(lines):
            is_last = place == len(lines) - 1
            if line.rules in rulesets:
                fired, saving = firings(line, rulesets[line.rules], is_last, years)
                rows += listed(line, fired, start)
            else:
                saving = 0 if line.rules == "-" else clock_time(line.rules)[0]
                span = line.offset, saving, line.name(saving, "")
                if start is None:
                    self.first = span
                else:
                    rows.append((start, span))
            start = None if is_last else line.until(saving)
        rows.sort(key=lambda row: row[0])
        if self.first is None:
            self.first = next(span for _, span in rows if span[1] == 0)
        self.entries = collapsed(self.first, rows)
        self.seconds = [second for second, _ in self.entries]

    def span_at(self, second):
        place = bisect_right(self.seconds, second)
        return self.entries[place - 1][1] if place else self.first


class Zone:
    """A zone, each instant of which is looked up over as many years as it asks for: 300, and 400 for each cycle of 400 years from 2099
    on."""

    def __init__(self, text, name):
        self.rulesets, self.lines, held = {}, [], False
        for row in text.splitlines():
            words = row.partition("#")[0].split()
            if words[:1] == ["Rule"]:
                self.rulesets.setdefault(words[1], []).append(Rule(words[2:]))
            elif words[:1] == ["Zone"]:
                held = words[1] == name
                self.lines += [Line(words[2:])] if held else []
            elif words and held:
                self.lines.append(Line(words))
        self.schedules = {}

    def over(self, years):
        if years not in self.schedules:
            self.schedules[years] = Schedule(self.lines, self.rulesets, years)
        return self.schedules[years]

    def total(self, second):
        years = 300 + 400 * max(0, (second - CYCLES_FROM) // CYCLE)
        return total(self.over(years).span_at(second))

    def changes(self, low, high):
        """The seconds of its entries between two years."""
        first, last = (day_number(year, 1, 1) * 86400 for year in (low, high))
        return [second for second in self.over(high - 1798).seconds if first <= second < last]
