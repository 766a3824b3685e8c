"""Texts that nobody writes by hand, from one byte to 16 MiB, each with what is due of it: the programs are asked for the zone A."""
import re
import struct
from dataclasses import dataclass

from programs import ANY_SOURCE, COMPILED, SOURCE

# The most bytes that a text may have.
LIMIT = 1 << 24

ZONE = b"Zone A 0:00 - AAA\n"

# What may be due: answers; answers, or that memory ran out; a fault line of the program's own label; no bytes and this status.
ANSWERS, MAY_RUN_OUT, UNKNOWN = "answers", "answers or 5", "unknown zone"

# What `zone plain` tells of a text that takes too much in plain form, and of one that is no UTF-8 in a line.
TOO_LONG = "this source has more than 16,777,216 bytes in plain form"
NOT_TEXT = "line {} of this source can't be read: it isn't text in UTF-8"


@dataclass(frozen=True)
class Text:
    name: str
    text: bytes
    due: object
    # What is due of `zone plain`, where that is its own.
    due_of_plain: object = None


def repeated(piece, size):
    """As many of the piece as have this many bytes at most."""
    return piece * (size // len(piece))


def numbered(form, size):
    """Lines with a number in each, of this many bytes at most."""
    lines, length, number = [], 0, 0
    while True:
        line = form(number)
        length += len(line)
        if length > size:
            return b"".join(lines)
        lines.append(line)
        number += 1


def day_of(number, first=1):
    """A day for each number, rising, from that year on."""
    year, rest = divmod(number, 12 * 28)
    month, day = divmod(rest, 28)
    return b"%d %s %d" % (first + year % (9999 - first), b"Jan Feb Mar Apr May Jun Jul Aug Sep Oct Nov Dec".split()[month], day + 1)


def hour_of(number):
    """An hour for each number, rising, from the year 2000 on."""
    day, hour = divmod(number, 24)
    return b"%s %d:00" % (day_of(day, 2000), hour)


def rule(number):
    """A rule of every year, whose saving is 0 for every other one."""
    mark = (b"w", b"s", b"u")[number % 3]
    return b"Rule R min max - Jan 1 %d:%02d:%02d%s %d:00 -\n" % (number // 3600 % 24, number // 60 % 60, number % 60, mark, number % 2)


def all_years(number):
    return rule(number).replace(b"min", b"1800")


TWO_RULES = b"Rule R 1900 max - Mar Sun>=8 2:00 1:00 D\nRule R 1900 max - Nov Sun>=1 2:00 0 S\n"

# Texts of any size: what grows with it, how it is made from a number of bytes, and what is due.
SHAPES = {
    "empty lines": (lambda size: repeated(b"\n", size - len(ZONE)) + ZONE, ANSWERS),
    "comments": (lambda size: repeated(b"# a comment line of some forty characters\n", size - len(ZONE)) + ZONE, ANSWERS),
    "one long comment": (lambda size: b"#" * (size - len(ZONE) - 1) + b"\n" + ZONE, ANSWERS),
    "one line of spaces": (lambda size: b" " * (size - len(ZONE) - 1) + b"\n" + ZONE, ANSWERS),
    "one line of fields": (lambda size: repeated(b"Zone ", size), "source 1: line InvalidLineType"),
    "one line of spaces and a letter": (lambda size: b" " * (size - 1) + b"x", "source 1: line InvalidLineType"),
    "a name": (lambda size: ZONE + b"Zone " + b"N" * (size - len(ZONE) - 20) + b" 0:00 - AAA\n", ANSWERS),
    "a format": (lambda size: b"Zone A 0:00 - " + b"F" * (size - 20) + b"\n", ANSWERS),
    "a year": (lambda size: b"Zone A 0:00 - AAA " + b"9" * (size - 20) + b"\n", "source 1: line FailedYearParse"),
    "spaces between fields": (lambda size: b"Zone A 0:00 - AAA 2000" + b" " * (size - 30) + b"Jan\n", ANSWERS),
    "zones": (lambda size: ZONE + numbered(lambda n: b"Zone Z/%07d 0:00 - AAA\n" % n, size - len(ZONE)), ANSWERS),
    "links to one zone": (lambda size: ZONE + numbered(lambda n: b"Link A L/%07d\n" % n, size - len(ZONE)), ANSWERS),
    "continuations": (lambda size: b"Zone A 0:00 - AAA 1\n" + numbered(lambda n: b" %d:00 - BBB %s\n" % (n % 2, day_of(n)), size - 30)
                      + b" 0:00 - CCC\n", ANSWERS),
    "rulesets": (lambda size: ZONE + numbered(lambda n: b"Rule R%07d 1900 max - Mar 1 2:00 1:00 D\n" % n, size - len(ZONE)), ANSWERS),
    "rules of one year": (lambda size: numbered(lambda n: all_years(n).replace(b"max", b"only"), size - 20) + b"Zone A 0:00 R AAA\n", ANSWERS),
    "rules of all years": (lambda size: numbered(all_years, size - 20) + b"Zone A 0:00 R AAA\n", MAY_RUN_OUT),
    "ruled continuations": (lambda size: TWO_RULES + b"Zone A 0:00 - AAA 1\n"
                            + numbered(lambda n: b" 0:00 R B%%sB %s\n" % hour_of(n), size - 150) + b" 0:00 - CCC\n", ANSWERS),
}


def ruleset_name(number, rulesets):
    """The name of one of so many rulesets, which go round."""
    return b"R" if rulesets == 1 else b"R%c" % (97 + number % rulesets)


def rules_and_lines(size, rulesets=1, offsets=1):
    """Half rules of all years, half lines under them, whose ends rise, and whose rulesets and offsets go round."""
    half = size // 2

    def ruled(number):
        hour, minute = divmod(number // rulesets % offsets, 60)
        return b" %d:%02d %s B%%sB %s\n" % (hour, minute, ruleset_name(number, rulesets), hour_of(number))

    return (numbered(lambda n: all_years(n).replace(b" R ", b" %s " % ruleset_name(n, rulesets)), half) + b"Zone A 0:00 - AAA 1\n"
            + numbered(ruled, size - half - 40) + b" 0:00 - CCC\n")


def rules_and_offsets(count):
    """A ruleset of so many rules, and as many lines under it, each with an offset of its own and `%z`."""
    def ruled(number):
        minutes, seconds = divmod(number, 60)
        return b" 0:%02d:%02d R %%z %s\n" % (minutes, seconds, hour_of(number))

    rules = b"".join(b"Rule R %d only - Jan 1 0:00 0 -\n" % (1800 + number % 300) for number in range(count))
    return rules + b"Zone A 0:00 - AAA 1\n" + b"".join(map(ruled, range(count))) + b" 0:00 - CCC\n"


def rulesets_alike(rulesets, rules, lines):
    """So many rulesets, of so many rules each, which differ in the letters of the last one, and lines under each of them, and then under
    the last two by turns."""
    def name_of(number):
        return b"R%c%c" % (97 + number // 26, 97 + number % 26)

    def alike(number):
        return b"".join(b"Rule %s %d only - Jan 1 %d:00 0 %d\n" % (name_of(number), 1800 + place // 24, place % 24, number * (place + 1 == rules))
                        for place in range(rules))

    return (b"".join(map(alike, range(rulesets))) + b"Zone A 0:00 - AAA 1\n"
            + b"".join(b" 0:00 %s B%%sB %s\n" % (name_of(number if number < rulesets else rulesets - 1 - number % 2), hour_of(number))
                       for number in range(lines)) + b" 0:00 - CCC\n")


def small_texts():
    yield Text("nothing", b"", UNKNOWN)
    for value in range(256):
        byte = bytes([value])
        blank = value in b"\t\n\v\f\r #"
        fault = UNKNOWN if blank else "source 1: not text" if value >= 128 else "source 1: line InvalidLineType"
        yield Text(f"the byte {value}", byte, fault)
        fault = "source 1: not text" if value >= 128 else ANSWERS
        yield Text(f"a comment with the byte {value}", b"#" + byte + b"\n" + ZONE, fault)
    for name, piece in (("too long a form", b"\xc0\x80"), ("a half of a pair", b"\xed\xa0\x80"), ("past the last character", b"\xf4\x90\x80\x80"),
                        ("a cut character", b"\xe2\x82")):
        yield Text(name, ZONE + b"# " + piece + b"\n", "source 2: not text")
    yield Text("CR LF", (ZONE + b"# x\n\n").replace(b"\n", b"\r\n"), ANSWERS)
    yield Text("CR alone", (ZONE + b"# x\n").replace(b"\n", b"\r"), None)
    yield Text("no last line feed", ZONE[:-1], ANSWERS)
    yield Text("a NUL in a name", ZONE + b"Zone A\0 0:00 - AAA\n", None)


def large_texts():
    yield Text("16,777,216 spaces", b" " * LIMIT, UNKNOWN)
    yield Text("16,777,217 spaces", b" " * (LIMIT + 1), 6)
    yield Text("16,777,217 bytes of comments", b"#" * 80 + b"\n" + b"#" * (LIMIT - 80), 6)
    yield Text("a million empty lines", b"\n" * 1_000_000 + ZONE, ANSWERS)
    yield Text("a million empty lines, and no line", b"\n" * 1_000_000 + b"x", "source 1000001: line InvalidLineType")
    yield Text("100,000 links", ZONE + b"".join(b"Link A L%d\n" % n for n in range(100_000)), ANSWERS)
    yield Text("a chain of 100,000 links", ZONE + b"".join(b"Link L%d L%d\n" % (n - 1, n) for n in range(100_000, 0, -1)) + b"Link A L0\n", MAY_RUN_OUT)
    yield Text("a circle of 100,000 links", ZONE + b"".join(b"Link L%d L%d\n" % (n, (n + 1) % 100_000) for n in range(100_000)), MAY_RUN_OUT)
    yield Text("100,000 continuations", b"Zone A 0:00 - AAA 1\n" + b"".join(b" 1:00 - BBB %s\n" % day_of(n) for n in range(99_999)) + b" 0:00 - CCC\n", ANSWERS)
    yield Text("10,000 rules of all years", b"".join(map(all_years, range(10_000))) + b"Zone A 0:00 R AAA\n", ANSWERS)
    yield Text("rules from min on", b"".join(map(rule, range(1000))) + b"Zone A 0:00 R AAA\n", "schedule RuleYears")
    yield Text("2,000 rules under 2,000 offsets of %z", rules_and_offsets(2_000), ANSWERS, TOO_LONG)
    yield Text("400 rulesets of 200 rules that differ in their last", rulesets_alike(400, 200, 30_000), ANSWERS)
    megabyte = b"M" * 1_000_000
    yield Text("a zone's name of a megabyte", ZONE + b"Zone " + megabyte + b" 0:00 - AAA\n", ANSWERS)
    yield Text("a ruleset's name of a megabyte", TWO_RULES.replace(b" R ", b" " + megabyte + b" ") + b"Zone A 0:00 " + megabyte + b" AAA\n", ANSWERS)
    yield Text("a link's name of a megabyte", ZONE + b"Link A " + megabyte + b"\n", ANSWERS)
    for marks, letters in ((10, 10), (1_000, 100), (10_000, 1_000), (100_000, 100_000), (1_000_000, 10)):
        rules = TWO_RULES.replace(b" S\n", b" " + b"S" * letters + b"\n").replace(b" D\n", b" " + b"D" * letters + b"\n")
        yield Text(f"{marks} times %s with {letters} letters", rules + b"Zone A 0:00 R " + b"%s" * marks + b"\n", MAY_RUN_OUT)
    for name, (make, due) in SHAPES.items():
        yield Text(f"16 MiB: {name}", make(LIMIT), due)


def request_texts():
    """Standard inputs beside a file with the zone A."""
    yield Text("no requests", b"", ANSWERS)
    for value in range(256):
        fault = "request 1: not text" if value >= 128 else "request 1: request"
        yield Text(f"the request of the byte {value}", bytes([value]), fault)
    yield Text("a request of 16 MiB", b"at A " + b"9" * (LIMIT - 5), "request 1: request")
    yield Text("a request for a name of 16 MiB", b"at " + b"N" * (LIMIT - 5) + b" 0", "request 1: unknown zone")
    yield Text("16,777,217 bytes of requests", repeated(b"at A 0\n", LIMIT) + b"\n" * 4, 6)
    yield Text("a million empty requests", b"\n" * 1_000_000, "request 1: request")
    yield Text("two million requests", b"at A 0\n" * 2_000_000, ANSWERS)
    yield Text("300,000 local requests", b"local A 1970-01-01 00:00:00.000000000\n" * 300_000, ANSWERS)


def long_name_file(length, changes, kinds=1):
    """A compiled zone with changes between kinds whose names are the ends of one long name: each kind's begins a byte later."""
    first = b"TZif2" + bytes(15) + struct.pack(">6I", 0, 0, 0, 0, 1, 1) + bytes(7)
    head = b"TZif2" + bytes(15) + struct.pack(">6I", 0, 0, 0, changes, kinds, length)
    times = struct.pack(f">{changes}q", *range(changes))
    numbers = bytes(number % kinds for number in range(changes))
    records = b"".join(struct.pack(">iBB", 3600 * (number % 2), 0, number) for number in range(kinds))
    return first + head + times + numbers + records + b"A" * (length - 1) + b"\0" + b"\n\n"


def compiled_texts(compiled):
    """A compiled zone that is cut at each byte, and one with a byte changed or put in at each place."""
    for length in range(len(compiled)):
        yield Text(f"a compiled zone of {length} bytes", compiled[:length], "file: refused")
        yield Text(f"a compiled zone with byte {length} changed", compiled[:length] + bytes([compiled[length] ^ 0x41]) + compiled[length + 1:], None)
        yield Text(f"a compiled zone with a byte put in at {length}", compiled[:length] + b"\1" + compiled[length:], None)
    yield Text("a compiled zone and more", compiled + b"\n", "file: refused")
    yield Text("160 KB of one name and 8,888 changes", long_name_file(80_000, 8_888), ANSWERS)
    yield Text("160 KB of a name, 256 kinds and 8,888 changes", long_name_file(80_000, 8_888, 256), ANSWERS)
    yield Text("16 MB of a name, 256 kinds and 880,000 changes", long_name_file(8_000_000, 880_000, 256), ANSWERS)
    yield Text("a compiled zone and 16 MiB more", compiled + b"\n" * (LIMIT - len(compiled)), "file: refused")


def is_due(program, run, due):
    """Whether a run over a text ended as is due of it."""
    if run.errors:
        return False
    if program.takes == COMPILED and due != 6 and run.status == 2 and run.output == b"file: refused\n":
        return due is None or due == "file: refused"
    answers = run.status == 0 and program.is_answer(run.output)
    fault = run.status == 2 and program.is_fault(run.output)
    if due is None:
        return answers or fault or (program.takes == ANY_SOURCE and (run.status, run.output) == (5, b""))
    if isinstance(due, int):
        return (run.status, run.output) == (due, b"")
    if due == ANSWERS:
        return answers or program.is_own_fault(run.output)
    if due == MAY_RUN_OUT:
        return answers or program.is_own_fault(run.output) or (run.status, run.output) == (5, b"")
    if program.takes == ANY_SOURCE:
        return fault and run.output.endswith(f'": {due}\n'.encode())
    if due.startswith(("source", "request", "file")):
        return fault and run.output == due.encode() + b"\n"
    return fault and re.fullmatch(rf"{program.label}: {due}\n".encode(), run.output) is not None


def due_of(program, text):
    """What is due of a program that reads the text as another kind of file, or that looks for no zone A in it."""
    due = text.due
    if program.takes == ANY_SOURCE and text.due_of_plain is not None:
        return text.due_of_plain
    if program.takes == SOURCE or due == 6:
        return due
    if program.takes == COMPILED:
        return "file: refused"
    is_told = isinstance(due, str) and due.startswith("source ") and due.endswith("not text")
    return NOT_TEXT.format(due.split()[1].rstrip(":")) if is_told else None


def try_all(pool, runner, tally, programs, compiled):
    """Each text over each program, as its file or as its standard input."""
    def hold(program, text, path, given, due):
        run = runner.run(program.name, program.words_for(path, "A"), text.text, given)
        tally.hold(is_due(program, run, due), f"{program.name} over {text.name}", f"due {due}", f"got {run.told()}")

    def as_file(text):
        path = runner.keep(text.text)
        for program in programs:
            hold(program, text, path, b"at A 0\n" if program.has_input else b"", due_of(program, text))
        runner.drop(path)

    def as_compiled(text):
        path = runner.keep(text.text)
        for program in programs:
            if program.takes == COMPILED:
                hold(program, text, path, b"at 0\nlocal 2024-03-10 02:30:00.000000000\n", text.due)
        runner.drop(path)

    def as_input(text):
        paths = {SOURCE: runner.keep(ZONE), COMPILED: runner.keep(compiled)}
        for program in programs:
            if program.has_input and (program.takes == SOURCE or text.due != "request 1: unknown zone"):
                given = text.text if program.takes == SOURCE or text.due == 6 else text.text.replace(b" A ", b" ")
                hold(program, text, paths[program.takes], given, text.due)
        for path in paths.values():
            runner.drop(path)
    list(pool.map(as_file, small_texts()))
    list(pool.map(as_compiled, compiled_texts(compiled)))
    list(pool.map(as_input, request_texts()))
    for text in large_texts():
        as_file(text)
