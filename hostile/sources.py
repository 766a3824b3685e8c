"""Sources made from chance: in what both this project and zic take, with one known fault, and broken ones."""

MONTHS = "Jan Feb Mar Apr May Jun Jul Aug Sep Oct Nov Dec".split()
WEEKDAYS = "Mon Tue Wed Thu Fri Sat Sun".split()


def clock(seconds):
    sign, size = ("-" if seconds < 0 else ""), abs(seconds)
    text = f"{sign}{size // 3600}:{size // 60 % 60:02d}"
    return text + (f":{size % 60:02d}" if size % 60 else "")


def day(r, month):
    """A day of any year that lies in its month whatever the year."""
    weekday = r.choice(WEEKDAYS)
    return r.choice([str(r.randint(1, 28)), f"last{weekday}", f"{weekday}>={r.randint(1, 22)}", f"{weekday}<={r.randint(8, 28)}"])


def time(r):
    return clock(r.choice([0, 1, 2, 3, 23, 24]) * 3600 + r.choice([0, 0, 0, 1800, 1799])) + r.choice(["", "", "s", "u"])


def abbreviation(r):
    return "".join(r.choice("ABCDEFGHIJKLMNOPQRSTUVWXYZ") for _ in range(3))


def yearly_rules(r, ruleset, letters, first, last):
    """Two rules of the years from first to last: saving begins and ends, some months apart. For the rules of all later years zic
    may write a day of February without leap days, which zoneinfo takes for the day before: they begin in March."""
    months = (r.randint(3 if last is None else 2, 5), r.randint(8, 11))
    begin, end = months if r.random() < 0.7 else months[::-1]
    saving = r.choice([3600, 3600, 3600, 1800, 7200])
    to = "max" if last is None else "only" if first == last else str(last)
    return [f"Rule {ruleset} {first} {to} - {MONTHS[begin - 1]} {day(r, begin)} {time(r)} {clock(saving)} {letters[0]}",
            f"Rule {ruleset} {first} {to} - {MONTHS[end - 1]} {day(r, end)} {time(r)} 0 {letters[1]}"]


def ruleset(r, name):
    """Rules of one to four spans of years, that don't overlap, and in the end of every year or of no saving: the first year, and
    the lines."""
    lines, year, letters = [], r.randint(1850, 1960), r.choice([("S", "-"), ("D", "S"), ("S", "R")])
    first = year
    for _ in range(r.randint(1, 4)):
        last = year + r.choice([0, 0, 1, 5, 20])
        lines += yearly_rules(r, name, letters, year, last)
        year = last + r.randint(1, 20)
    if r.random() < 0.6:
        lines += yearly_rules(r, name, letters, year, None)
    else:
        lines.append(f"Rule {name} {year} only - {r.choice(MONTHS[1:11])} {r.randint(1, 28)} {time(r)} 0 {letters[1]}")
    r.shuffle(lines)
    return first, lines


def zone_lines(r, zone, first_years):
    """One to four lines, of which the ends rise by years. A line is ruled only after its ruleset's first rules."""
    count, year, start, lines = r.randint(1, 4), r.randint(1830, 1900), None, []
    for place in range(count):
        offset = clock(r.choice([r.randint(-12, 14) * 3600, r.randint(-12, 14) * 3600 + r.choice([1800, -900]), r.randint(-40_000, 40_000)]))
        before = [name for name, first in first_years.items() if place and first + 1 < start]
        is_ruled = before and r.random() < 0.7
        saving = r.choice(before) if is_ruled else r.choice(["-", "-", "1:00"]) if 0 < place < count - 1 else "-"
        form = r.choice([abbreviation(r)[:2] + "%sT", f"{abbreviation(r)}/{abbreviation(r)}"]) if is_ruled else abbreviation(r)
        end = ""
        if place < count - 1:
            month = r.randint(1, 12)
            end = " " + r.choice([f"{year}", f"{year} {MONTHS[month - 1]}", f"{year} {MONTHS[month - 1]} {day(r, month)}",
                                  f"{year} {MONTHS[month - 1]} {day(r, month)} {time(r)}"])
            start, year = year, year + r.randint(2, 60)
        head = f"Zone {zone}" if place == 0 else r.choice(["\t\t\t", " ", "   "])
        lines.append(f"{head} {offset} {saving} {form}{end}")
    return lines


def common_source(r):
    """A source that both take: its lines, and the names of its zones and of the links to them."""
    first_years, lines = {}, []
    for name in ("Ra", "Rb", "Rc")[:r.randint(0, 3)]:
        first_years[name], rules = ruleset(r, name)
        lines += rules
    zones = [f"Test/Z{n}" for n in range(r.randint(1, 3))]
    for zone in zones:
        lines += zone_lines(r, zone, first_years)
        if r.random() < 0.3:
            lines += r.choice([["# a comment"], [""], ["   # another"]])
    links = [f"Test/L{n}" for n in range(r.randint(0, 2))]
    lines += [f"Link {r.choice(zones)} {link}" for link in links]
    return lines, zones + links


LINE_FAULTS = [
    ("Rule F 2000x only - Jan 1 0:00 0 -", "FailedYearParse"),
    ("Rule F 2000 99999999999999999999 - Jan 1 0:00 0 -", "FailedYearParse"),
    ("Zone F 0:00 - FFF 99999999999999999999", "FailedYearParse"),
    ("Rule F 2000 only - Janu 1 0:00 0 -", "FailedMonthParse"),
    ("Rule F 2000 only - Jan lastXyz 0:00 0 -", "FailedWeekdayParse"),
    ("Rule F 2000 only - Jan Xyz>=4 0:00 0 -", "FailedWeekdayParse"),
    ("Rule F 2000 only - Jan 32 0:00 0 -", "InvalidDaySpec"),
    ("Rule F 2000 only - Jan 0 0:00 0 -", "InvalidDaySpec"),
    ("Rule F 2000 only HEY Jan 1 0:00 0 -", "TypeColumnContainedNonHyphen"),
    ("Rule F 2000 only - Jan 1 0:00", "InvalidLineType"),
    ("what", "InvalidLineType"),
    ("link Test/Z0 F", "InvalidLineType"),
    ("Zone F 0:00 - FFF Jan", "InvalidLineType"),
    ("Zone F 200 - FFF", "InvalidTimeSpecAndType"),
    ("Zone F 1:00u - FFF", "NonWallClockInTimeSpec"),
    ("Zone F 0:00 1 FFF", "CouldNotParseSaving"),
]

# Lines after which a zone has no schedule, or none that can be shown.
ZONE_FAULTS = [
    (["Zone F 0:00 - FFF", " 1:00 - GGG"], "schedule MissingUntil"),
    (["Zone F 0:00 - FFF 10000", " 1:00 - GGG"], "schedule YearRange"),
    (["Zone F 0:00 - FFF 2000", " 1:00 Nope GGG"], "schedule UnknownRuleset"),
    (["Rule F min 1990 - Jan 1 0:00 0 -", "Zone F 0:00 F FFF"], "schedule RuleYears"),
    (["Rule F 2000 only - Jan Sun<=1 0:00 0 -", "Zone F 0:00 F FFF"], "schedule DayRange"),
    (["Rule F 2000 only - Jan 1 0:00 1:00 S", "Zone F 0:00 F FFF"], "schedule NoStandardSpan"),
    (["Zone F 26:00 - FFF"], "offset range"),
    (["Link Test/Z0 F1", "Link F1 F"], "unknown zone"),
    ([], "unknown zone"),
]

REQUEST_FAULTS = [("what", "request"), ("", "request"), ("at  Test/Z0 0", "request"), ("at Test/Z0 +0", "request"), ("at Test/Z0 " + "9" * 31, "request"),
                  ("local Test/Z0 2001-02-29 00:00:00.000000000", "request"), ("local Test/Z0 2001-01-01 24:00:00.000000000", "request"),
                  ("at Test/Z0 " + "9" * 30, "range"), ("at Test/Z0 -" + "9" * 30, "range")]


def faulty_source(r):
    """A source with one known fault, and its number and cause: `source N: ..`, or the cause of the zone F where it is asked."""
    lines, _ = common_source(r)
    kind = r.choice(["line", "build", "zone", "text"])
    if kind == "zone":
        more, cause = r.choice(ZONE_FAULTS)
        return lines + more, None, cause
    if kind == "line":
        line, cause = r.choice(LINE_FAULTS)
        place = r.randint(0, len(lines))
        return lines[:place] + [line] + lines[place:], place + 1, f"line {cause}"
    if kind == "text":
        place = r.randint(0, len(lines))
        return lines[:place] + ["# \udcff"] + lines[place:], place + 1, "not text"
    more, cause = r.choice([
        (["Zone F 0:00 Nope FFF"], "UnknownRuleset"), (["Zone Test/Z0 0:00 - FFF"], "DuplicateZone"),
        (["Link Test/Z0 F", "Link Test/Z0 F"], "DuplicateLink"), (["Link Test/Z0 F", " 0:00 - FFF"], "SurpriseContinuationLine"),
        (["Rule F 2000 only - Jan 1 0:00 0 -", " 0:00 - FFF"], "SurpriseContinuationLine")])
    return lines + more, len(lines) + len(more), f"build {cause}"


ODD_FIELDS = ["-", "0", "-0", "00:00", "24:00", "-24:00", "99:00", "127:59:59", "128:00", "25:00u", "2:00s", "0:00z", "-1:00", "lastSun", "Sun>=31", "Sun<=1", "Feb", "Feb 30",
              "31", "29", "9999", "10000", "0", "-1", "1", "1799", "1800", "2099", "2100", "min", "max", "only", "maximum", "o", "%s", "%z", "%s%s%s", "A/B", "A/", "/", "%d",
              "9223372036854775807", "-9223372036854775808", "9223372036854775808", "1:00", "26:00", "25:59:59", "\x00", "\u00e9", "\u2003", "#", "\"A\"", "S" * 300]


class Database:
    """The blocks of a whole database: each ruleset's lines, and each zone's with the names of the rulesets that they name."""

    def __init__(self, path):
        self.rulesets, self.zones = {}, []
        with open(path, encoding="utf-8") as file:
            for line in file.read().split("\n"):
                self.take(line)

    def take(self, line):
        words = line.split("#")[0].split()
        if words[:1] == ["Rule"]:
            self.rulesets.setdefault(words[1], []).append(line)
        elif words[:1] == ["Zone"]:
            self.zones.append(([line], {words[3]}))
        elif words and words[0] != "Link":
            self.zones[-1][0].append(line)
            self.zones[-1][1].add(words[1])

    def part(self, r):
        """One to three zones with the rules that they name."""
        zones = r.sample(self.zones, r.randint(1, 3))
        named = sorted({ruleset for _, rulesets in zones for ruleset in rulesets if ruleset in self.rulesets})
        lines = [line for ruleset in named for line in self.rulesets[ruleset]] + [line for zone, _ in zones for line in zone]
        return lines, [zone[0].split()[1] for zone, _ in zones]


def change_field(r, lines):
    place = r.randrange(len(lines))
    words = lines[place].split()
    if words:
        at = r.randrange(len(words))
        words[at] = r.choice([r.choice(ODD_FIELDS), r.choice(words), words[at] * 2, words[at][:-1], str(r.randint(-10**6, 10**6)), clock(r.randint(-500_000, 500_000))])
        lead = "\t" if lines[place][:1].isspace() else ""
        lines[place] = lead + " ".join(words)


def change_end(r, lines):
    """A line's end in another year, so that ends don't rise."""
    places = [place for place, line in enumerate(lines) if not line.startswith("Rule")]
    if not places:
        return
    place = r.choice(places)
    words = lines[place].split("#")[0].split()
    at = 5 if words[:1] == ["Zone"] else 3
    if len(words) > at:
        words[at] = str(r.choice([r.randint(1, 9999), r.randint(1780, 2110), r.randint(1900, 2000)]))
        lines[place] = ("" if words[0] == "Zone" else " ") + " ".join(words)


def move_line(r, lines):
    place, other = r.randrange(len(lines)), r.randrange(len(lines))
    change = r.choice(["drop", "copy", "swap"])
    if change == "drop" and len(lines) > 1:
        del lines[place]
    elif change == "copy":
        lines.insert(other, lines[place])
    else:
        lines[place], lines[other] = lines[other], lines[place]


def change_bytes(r, text):
    """A byte changed, put in, taken out, or the rest cut off."""
    at = r.randrange(len(text) + 1)
    change = r.randrange(8)
    if change == 0:
        return text[:at]
    piece = bytes([r.choice([r.randrange(256), r.choice(b"\0\t\n\v\r #%/:-<>=0129AZ\xff\xc3")])])
    return text[:at] + (piece if change < 6 else b"") + text[at + (change % 2 or change > 5):]


def broken_source(r, database):
    """A part of a real database with one to six changes, and the names that it had."""
    lines, names = database.part(r)
    for _ in range(r.randint(1, 4)):
        r.choice([change_field, change_field, change_end, change_end, move_line])(r, lines)
    text = "\n".join(lines).encode("utf-8", "replace") + b"\n"
    for _ in range(r.choice([0, 0, 1, 2])):
        text = change_bytes(r, text)
    return text, names
