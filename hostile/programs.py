"""The programs that are tried: a table, in which a new program is one entry. What is due of statuses and lines is what
docs/PROGRAMS.md says of them."""
import os
import re
from dataclasses import dataclass

ZONED = r"-?\d{4}-\d\d-\d\d \d\d:\d\d:\d\d\.\d{9} [+-]\d\d:\d\d:\d\d"
SOURCE_FAULTS = (
    r"source \d+: (not text"
    r"|line (FailedYearParse|FailedMonthParse|FailedWeekdayParse|InvalidLineType|TypeColumnContainedNonHyphen"
    r"|CouldNotParseSaving|InvalidDaySpec|InvalidTimeSpecAndType|NonWallClockInTimeSpec)"
    r"|build (SurpriseContinuationLine|UnknownRuleset|DuplicateZone|DuplicateLink))")
ZONE_FAULTS = (
    r"unknown zone|schedule (UnknownRuleset|MissingUntil|YearRange|RuleYears|DayRange|NoStandardSpan)|offset range")

# What stands for the file among the words.
FILE = "FILE"

# What a file is: source text in its plain form, source text in any form, or a compiled zone.
SOURCE, ANY_SOURCE, COMPILED = "source", "any source", "compiled"


@dataclass(frozen=True)
class Program:
    """A program: its words, the form of what it writes at status 0, the label and the own causes of its fault lines, what its file
    is, and whether standard input holds requests. A name of two words is a command of `zone`, whose faults are told on standard error: a
    run of it has them as its output (`running.py`)."""
    name: str
    words: tuple
    form: str
    label: str
    causes: str
    takes: str = SOURCE
    has_input: bool = False

    def is_answer(self, output):
        """Whether these bytes have the form of what is written at status 0."""
        return re.fullmatch(self.form.encode(), output) is not None

    def is_fault(self, output):
        """Whether these bytes are a fault line."""
        of_file = {SOURCE: f"{SOURCE_FAULTS}|{self.label}: ({ZONE_FAULTS})", ANY_SOURCE: UNREAD, COMPILED: "file: refused"}
        fault = f"{of_file[self.takes]}|{self.label}: ({self.causes})"
        return re.fullmatch(rf"({fault})\n".encode(), output) is not None

    def is_own_fault(self, output):
        """Whether these bytes are a fault line with a cause of the program's own, which a sound zone may have."""
        return not self.has_input and re.fullmatch(rf"{self.label}: ({self.causes})\n".encode(), output) is not None

    def words_for(self, path, name=None):
        """The words for that file, and for that zone in place of the entry's."""
        words = [path if word == FILE else word for word in self.words]
        if name is not None:
            words = [name if word == NEW_YORK else word for word in words]
        return words

    def has_zone(self):
        """Whether it is asked for one zone, which its words name."""
        return NEW_YORK in self.words

    def script(self):
        """The script that starts it, which is its program's name too."""
        return self.name.split()[0]


NEW_YORK = "America/New_York"

# What `zone` tells of a file that is no source in any form.
UNREAD = (r'zone: "[^"\n]*": (this is a compiled file, and a source is wanted|line \d+ of this source( in plain form)? can\'t be read: [^\n]+'
          "|this source has more than 16,777,216 bytes( in plain form)?)")

# What of `zone` isn't in the table is tried by people.py, and by bin/try_zone.
APART = ("zone",)

ANSWERS = rf"(({ZONED}( \| {ZONED})*|none)\n)*"

PROGRAMS = [
    Program("zone_answers", (FILE,), ANSWERS, r"request \d+", "not text|request|range", has_input=True),
    Program("zone_file_answers", (FILE,), ANSWERS, r"request \d+", "not text|request|range", takes=COMPILED, has_input=True),
    Program("zone plain", ("plain", FILE), r"(# version [^\n]+\n)?((Rule|Zone|Link)? [^\n]*\n)*", "zone", "out of memory", takes=ANY_SOURCE),
    Program("zone_list", (FILE, NEW_YORK, "1000000000", "4102444800"), rf"( *-?\d+  [^\n]*  {ZONED}\n)*", "list", "range"),
    Program("zone_alarm", (FILE, NEW_YORK, "2024-03-09", "02:30:00", "30"), rf"(({ZONED}|-?\d{{4}}-\d\d-\d\d none)\n)*", "alarm", "range"),
    Program("zone_tail", (FILE, NEW_YORK), r"(-?\d+|all) [^\n]+\n", "tail", "shape|range|name"),
    Program("zone_tzif", (FILE, NEW_YORK), r"TZif[\0-\xff]*", "tzif", "times|types|names"),
    Program("zone tree", ("--source", FILE, "tree"), r"[\0-\xff]*\0{1024}", "zone", r'"[^\n]+": [^\n]+', takes=ANY_SOURCE),
    Program("zone tree --to-2099", ("--source", FILE, "tree", "--to-2099"), r"[\0-\xff]*\0{1024}", "zone", r'"[^\n]+": [^\n]+', takes=ANY_SOURCE),
]

# A zone of two yearly rules, which zic can compile.
ONE_ZONE = b"""\
Rule US 2007 max - Mar Sun>=8 2:00 1:00 D
Rule US 2007 max - Nov Sun>=1 2:00 0 S
Zone America/New_York -5:00 US E%sT
"""

# A small file with ruled zones, links and a tangled zone.
SMALL = ONE_ZONE + b"""\
# Another ruleset, two more zones and a link.
Rule EU 1977 1980 - Apr Sun>=1 1:00u 1:00 S
Rule EU 1977 only - Sep lastSun 1:00u 0 -
Rule EU 1978 only - Oct 1 1:00u 0 -
Zone Europe/Madrid -0:14:44 - LMT 1901 Jan 1 0:00u
 0:00 - WET 1940 Mar 16 23:00

 1:00 EU CE%sT
Zone Test/Knot 10:00 - A 2000
 5:00 - B 1999 Dec 31 20:00
 0:00 - C
Link America/New_York US/Eastern
"""

# An instant of each zone, and local times that are skipped, shown once, twice and three times.
REQUESTS = b"""\
at America/New_York 1710053999999999999
at Europe/Madrid -2177452800000000000
at US/Eastern 0
local America/New_York 2024-03-10 02:30:00.000000000
local US/Eastern 2024-07-01 12:00:00.000000001
local America/New_York 2024-11-03 01:30:00.000000000
local Test/Knot 1999-12-31 19:30:00.000000000
"""




def without_names(requests):
    """The same requests to a program whose file is one zone."""
    return re.sub(rb"^(at|local) \S+", rb"\1", requests, flags=re.MULTILINE)


@dataclass(frozen=True)
class Case:
    """A program with its words, the text of its file, and its standard input."""
    program: Program
    words: tuple
    text: bytes
    given: bytes = b""

    def name(self):
        return " ".join((self.program.name, *self.words))

    def words_for(self, path):
        return [path if word == FILE else word for word in self.words]


def small_cases(programs, compiled):
    """For each program a run over the small file, or over a zone of it that is compiled, one that ends with a fault line, and what it
    does besides."""
    cases = []
    for program in programs:
        given = REQUESTS if program.has_input else b""
        if program.takes == COMPILED:
            cases += [Case(program, program.words, compiled, without_names(given)), Case(program, program.words, compiled + b"x")]
            continue
        cases.append(Case(program, program.words, SMALL, given))
        if program.takes == SOURCE:
            cases.append(Case(program, program.words, SMALL + b"Zone America/New_York 0:00 - UTC\n", given))
        if program.name == "zone_answers":
            cases.append(Case(program, ("--generate", "2"), b""))
            cases.append(Case(program, program.words, SMALL, REQUESTS + b"at Test/Other 0\n"))
        elif program.has_zone():
            cases.append(Case(program, (FILE, "Test/Other", *program.words[2:]), SMALL))
    return cases


def standing(root):
    """The programs of the table whose script stands in bin/."""
    return [program for program in PROGRAMS if os.path.exists(os.path.join(root, "bin", program.script()))]
