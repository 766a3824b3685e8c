"""Sources made from chance, each asked of the programs. A case is named by the seed, its kind and its number, and can be repeated
alone."""
import io
import random
import re
import shutil

import reference
import sources
from programs import SOURCE, ZONED

# How many cases of each kind there are among ten.
SHARES = (("common", 4), ("fault", 2), ("broken", 4))

NANOS = 10**9


def encoded(lines):
    return "\n".join(lines).encode("utf-8", "surrogateescape") + b"\n"


def days_before(year, month, day):
    """Days from 1970-01-01, by years that begin in March, for any year."""
    year -= month <= 2
    era, of_era = year // 400, year % 400
    of_year = (153 * ((month + 9) % 12) + 2) // 5 + day - 1
    return era * 146097 + of_era * 365 + of_era // 4 - of_era // 100 + of_year - 719468


def instant_of(zoned):
    """The instant of a zoned text, in nanoseconds."""
    sign, year, month, day, hour, minute, second, nanos, ahead, *offset = re.fullmatch(
        r"(-?)(\d{4})-(\d\d)-(\d\d) (\d\d):(\d\d):(\d\d)\.(\d{9}) ([+-])(\d\d):(\d\d):(\d\d)", zoned).groups()
    days = days_before(-int(year) if sign else int(year), int(month), int(day))
    local = days * 86400 + int(hour) * 3600 + int(minute) * 60 + int(second)
    total = int(offset[0]) * 3600 + int(offset[1]) * 60 + int(offset[2])
    return (local - (total if ahead == "+" else -total)) * NANOS + int(nanos)


class Fuzzer:
    """Tries cases over the programs that read a source."""

    def __init__(self, runner, tally, programs, seed, database):
        self.runner, self.tally, self.seed = runner, tally, seed
        self.programs = {program.name: program for program in programs}
        self.others = [program for program in programs if program.takes == SOURCE and program.has_zone()]
        self.zic = reference.find_zic()
        self.database = sources.Database(database)

    def cases(self, count):
        """The kinds and numbers of so many cases."""
        for number in range(count):
            place = number % sum(share for _, share in SHARES)
            for kind, share in SHARES:
                place -= share
                if place < 0:
                    yield kind, number
                    break

    def try_case(self, case):
        kind, number = case
        r = random.Random(f"{self.seed} {kind} {number}")
        name = f"fuzz {self.seed} {kind} {number}"
        getattr(self, kind)(r, name)

    def run(self, program, words, text, requests=None):
        path = self.runner.keep(text)
        given = b"" if requests is None else "\n".join(requests).encode() + b"\n"
        run = self.runner.run(program, [path, *words], text, given)
        self.runner.drop(path)
        return run

    def plain(self, text):
        path = self.runner.keep(text)
        run = self.runner.run("zone plain", ["plain", path], text)
        self.runner.drop(path)
        return run

    def hold(self, claim, name, text, *details):
        self.tally.hold(claim, name, *details, f"source {text.decode('utf-8', 'backslashreplace')!r}"[:3000])

    # In what both take: the answers are those of zic and zoneinfo.

    def common(self, r, name):
        lines, names = sources.common_source(r)
        text = encoded(lines)
        path, folder = self.runner.keep(text), self.runner.folder_of_own()
        zones = reference.compiled(self.zic, path, folder, names)
        shutil.rmtree(folder)
        self.runner.drop(path)
        if isinstance(zones, str):
            self.hold(False, f"{name}: zic refuses it", text, zones)
            return
        asked = [request for zone in names for request in self.asked(r, zone, zones[zone])]
        self.tally.note("answers compared with zic", len(asked))
        run = self.run("zone_answers", [], text, [request for request, _ in asked])
        got = run.output.decode().split("\n")[:-1]
        wrong = [(request, due, line) for (request, due), line in zip(asked, got) if due != line]
        self.hold(run.status == 0 and not run.errors and len(got) == len(asked) and not wrong, name, text, run.told(), *wrong[:3])
        if "zone plain" in self.programs:
            self.written_plain(name, text, asked)
        if "zone_file_answers" in self.programs:
            self.over_file(r, name, zones[names[0]])
        zone, (program, ask) = r.choice(names), r.choice([("zone_list", self.listed), ("zone_alarm", self.rung), ("zone_tzif", self.filed)])
        if program in self.programs:
            ask(r, name, text, zone, zones[zone])

    def asked(self, r, name, zone):
        """Requests to a zone with their answers, at changes, at what they skip and repeat, and anywhere."""
        edges = r.sample(zone.changes, min(len(zone.changes), 6))
        anywhere = [r.randint(reference.LOW, reference.HIGH) for _ in range(4)]
        for second in [edge + step for edge in edges for step in (-1, 0, 1)] + anywhere:
            nanos = r.choice([0, 1, 999999999, r.randrange(NANOS)])
            yield f"at {name} {second * NANOS + nanos}", reference.at_answer(zone, second, nanos)
        for local in [edge + zone.total(edge + side) + step for edge in edges for side in (-1, 0) for step in (-1, 0)] + anywhere:
            nanos = r.choice([0, 1, 999999999, r.randrange(NANOS)])
            yield f"local {name} {reference.local_text(local, nanos)}", reference.local_answer(zone, local, nanos)

    def written_plain(self, name, text, asked):
        """The same source in its plain form gives the same answers."""
        plain = self.plain(text)
        run = self.run("zone_answers", [], plain.output, [request for request, _ in asked])
        due = "".join(f"{answer}\n" for _, answer in asked)
        self.hold((plain.status, plain.errors, run.status, run.output.decode()) == (0, b"", 0, due), f"{name}: zone plain", text, plain.told(), run.told())

    def over_file(self, r, name, zone):
        """The file that zic made, asked for the same, and with some bytes changed."""
        asked = list(self.asked(r, "-", zone))
        requests = [request.replace(" -", "", 1) for request, _ in asked]
        run = self.run("zone_file_answers", [], zone.data, requests)
        due = "".join(f"{answer}\n" for _, answer in asked)
        self.hold((run.status, run.output.decode(), run.errors) == (0, due, b""), f"{name}: zone_file_answers", zone.data, run.told(), due)
        changed = sources.change_bytes(r, zone.data)
        run = self.run("zone_file_answers", [], changed, requests)
        self.has_form(f"{name}: a changed file", "zone_file_answers", run, changed, len(requests))

    def listed(self, r, name, text, zone_name, zone):
        """The listed changes are those at which zic's zone changes its offset or its name."""
        low, high = sorted(r.randint(reference.LOW, reference.first_second(2037)) for _ in range(2))
        run = self.run("zone_list", [zone_name, str(low), str(high)], text)
        rows = [(int(time), text_, zoned) for time, text_, zoned in re.findall(rf" *(-?\d+)  (.*?) *  ({ZONED})\n", run.output.decode())]
        wrong = [row for row in rows if row[1:] != shown(zone, row[0])]
        times = [row[0] for row in rows if changes_at(zone, row[0])]
        due = [second for second in zone.changes if low <= second < high and changes_at(zone, second)]
        self.hold(run.status == 0 and not run.errors and not wrong and times == due, f"{name}: zone_list {zone_name} {low} {high}", text, run.told(), wrong[:3],
                  sorted(set(times) ^ set(due))[:5])

    def rung(self, r, name, text, zone_name, zone):
        """An alarm rings at the first instant at which the clocks show its time."""
        edges = [edge + zone.total(edge - 1) for edge in zone.changes] or [0]
        local = r.choice([r.choice(edges) + r.randint(-3600, 3600), r.randint(reference.LOW, reference.HIGH)])
        days, (date, time) = r.randint(1, 5), reference.local_text(local)[:19].split(" ")
        run = self.run("zone_alarm", [zone_name, date, time, str(days)], text)
        due = "".join(ring_line(zone, local + 86400 * day) for day in range(days))
        self.hold((run.status, run.output.decode(), run.errors) == (0, due, b""), f"{name}: zone_alarm {zone_name} {date} {time} {days}", text, run.told(), due)

    def filed(self, r, name, text, zone_name, zone):
        """The file of the zone, read by zoneinfo, has the offsets and the names of zic's. There is none where two changes have one
        time, as where a line ends at the very second at which a rule fires."""
        run = self.run("zone_tzif", [zone_name], text)
        if (run.status, run.output, run.errors) == (2, b"tzif: times\n", b""):
            self.tally.note("zones with two changes at one time, which have no file")
            return
        asked = [second + step for second in zone.changes for step in (-1, 0)] + [r.randint(reference.LOW, reference.HIGH) for _ in range(20)]
        wrong = ["no file"]
        if run.status == 0:
            other = reference.Zone(io.BytesIO(run.output), zone_name)
            wrong = [second for second in asked if shown(zone, second) != shown(other, second)]
        self.hold(run.status == 0 and not run.errors and not wrong, f"{name}: zone_tzif {zone_name}", text, run.told(), wrong[:5])

    # With one known fault put in: its line.

    def fault(self, r, name):
        if r.random() < 0.2:
            self.faulty_request(r, name)
            return
        lines, number, cause = sources.faulty_source(r)
        text = encoded(lines)
        line = f"source {number}: {cause}" if number else f"request 3: {cause}"
        run = self.run("zone_answers", [], text, ["at Test/Z0 0", "at Test/Z0 -1", "at F 0"])
        self.hold((run.status, run.output.decode(), run.errors) == (2, line + "\n", b""), name, text, run.told(), line)
        for program in self.another(r):
            line = line if number else f"{program.label}: {cause}"
            run = self.run(program.name, ["F", *program.words[2:]], text)
            self.hold((run.status, run.output.decode(), run.errors) == (2, line + "\n", b""), f"{name}: {program.name}", text, run.told(), line)

    def another(self, r):
        """One of the programs over one zone, where one is tried."""
        return r.sample(self.others, min(len(self.others), 1))

    def faulty_request(self, r, name):
        lines, _ = sources.common_source(r)
        text = encoded(lines)
        request, cause = r.choice(sources.REQUEST_FAULTS)
        place = r.randint(0, 4)
        run = self.run("zone_answers", [], text, ["at Test/Z0 0"] * place + [request] + ["at Test/Z0 1"] * r.randint(0, 3))
        self.hold((run.status, run.output.decode(), run.errors) == (2, f"request {place + 1}: {cause}\n", b""), name, text, request, run.told())

    # All others: the statuses, the form of what is written, and that an answer asked back is the same.

    def broken(self, r, name):
        text, names = sources.broken_source(r, self.database)
        zone = r.choice(names)
        locals_ = [reference.local_text(r.choice([r.randint(reference.LOW, reference.HIGH), r.randint(-10**9, 2 * 10**9)]), r.choice([0, 1, 999999999])) for _ in range(10)]
        run = self.run("zone_answers", [], text, [f"local {zone} {local}" for local in locals_] + [f"at {zone} {r.randint(-10**20, 10**20)}"])
        self.tally.note(f"broken sources that end with {run.status}")
        if self.has_form(name, "zone_answers", run, text, 11) and run.status == 0:
            self.asked_back(name, zone, text, run.output.decode())
        if "zone plain" in self.programs:
            self.has_form(f"{name}: zone plain", "zone plain", self.plain(text), text, None)
        for program in self.another(r):
            run = self.run(program.name, [zone, *program.words[2:]], text)
            self.has_form(f"{name}: {program.name}", program.name, run, text, None)

    def has_form(self, name, program, run, text, count):
        """Answers or a fault line, and so many answers."""
        program = self.programs[program]
        answers = run.status == 0 and program.is_answer(run.output) and count in (None, run.output.count(b"\n"))
        claim = not run.errors and (answers or run.status == 2 and program.is_fault(run.output))
        self.hold(claim, name, text, run.told())
        return claim

    def asked_back(self, name, zone, text, output):
        """Each instant of the answers, asked with `at`, gives the same text; and what it is read as, asked with `local`, has it."""
        told = [line for lines in output.split("\n")[:-1] for line in lines.split(" | ") if line != "none"]
        if not told:
            return
        requests = [f"at {zone} {instant_of(line)}" for line in told]
        run = self.run("zone_answers", [], text, requests + [f"local {zone} {line[:line.rindex(' ')]}" for line in told])
        lines = run.output.decode().split("\n")[:-1]
        same = lines[:len(told)] == told and all(line in answer.split(" | ") for line, answer in zip(told, lines[len(told):]))
        self.hold(run.status == 0 and len(lines) == 2 * len(told) and same, f"{name}: asked back", text, requests, run.told())


def shown(zone, second):
    total = zone.total(second)
    return zone.name(second), reference.zoned_text(second + total, total)


def changes_at(zone, second):
    """Whether the offset or the name is another from that second on."""
    return (zone.name(second - 1), zone.total(second - 1)) != (zone.name(second), zone.total(second))


def ring_line(zone, local):
    """The line of the day on which the clocks are to show that local second."""
    instants = zone.instants(local)
    if not instants:
        return reference.local_text(local)[:10] + " none\n"
    return reference.zoned_text(local, local - instants[0]) + "\n"
