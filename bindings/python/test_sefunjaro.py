"""The tests of sefunjaro.py over a small source of its own: python3 -m unittest, with SEFUNJARO_LIBRARY set."""
import array
import base64
import copy
import ctypes
import enum
import importlib.util
import inspect
import io
import os
import pathlib
import pickle
import resource
import signal
import tempfile
import threading
import time as clock
import unittest
import warnings
import weakref
import zoneinfo
from datetime import date, datetime, time, timedelta, timezone

import sefunjaro
from sefunjaro import Change, Clock, Gap, Instant, Source, Status, Zone

SOURCE = """\
Rule Mid 1900 only - Jan 1 0:00 0 -
Rule Mid 1981 max - Mar lastSun 1:00u 1:00 S
Rule Mid 1996 max - Oct lastSun 1:00u 0 -
Zone Here/Middle 1:00 Mid CE%sT
Zone Here/Far 25:00 - FAR
Zone Here/Long 1:00 - AbbreviationOfTwentySix
Zone Here/Twice 0:00 - A 2000 Jan 1 2:00
  -1:00 - B 2000 Jan 1 1:30
  -2:00 - C
Link Here/Middle There/Middle
"""
GEORGIA = """\
Rule E 1981 max - Mar lastSun 0:00 1:00 -
Rule E 1996 max - Oct lastSun 0:00 0 -
Zone Asia/Tbilisi 4:00 E +04/+05 1996 Oct lastSun
 4:00 1:00 +05 1997 Mar lastSun
 4:00 E +04/+05 1998 Jan 1
 4:00 - GET
"""
SPRING, AUTUMN = 1711846800, 1729990800  # 2024-03-31 and 2024-10-27, 01:00 UTC
SKIPPED, TWICE = datetime(2024, 3, 31, 2, 30), datetime(2024, 10, 27, 2, 30)


REFUSES = importlib.util.find_spec("_testcapi") is not None


def refusals_of(call):
    """How often a call ends with MemoryError where its first allocation is refused, then its second alone, and so on until none is."""
    import _testcapi

    for number in range(10_000):
        _testcapi.set_nomemory(number, number + 1)
        try:
            call()
        except MemoryError:
            continue
        except ctypes.ArgumentError as refused:
            # What ctypes makes of a MemoryError in turning an argument.
            if "MemoryError" not in str(refused):
                raise
            continue
        finally:
            _testcapi.remove_mem_hooks()
        return number
    raise AssertionError("a call that never ends with an answer")


def hours(number):
    return timedelta(hours=number)


def pickled(value):
    """A value as it is read from its pickle, by each protocol."""
    return [pickle.loads(pickle.dumps(value, protocol)) for protocol in range(pickle.HIGHEST_PROTOCOL + 1)]


def in_child(asks):
    """Whether a child of fork finds something so, and doesn't hang."""
    with warnings.catch_warnings():
        warnings.simplefilter("ignore", DeprecationWarning)
        process = os.fork()
    if not process:
        try:
            os._exit(0 if asks() else 1)
        finally:
            os._exit(2)
    for _ in range(2000):
        ended, status = os.waitpid(process, os.WNOHANG)
        if ended:
            return status == 0
        clock.sleep(0.01)
    os.kill(process, signal.SIGKILL)
    os.waitpid(process, 0)
    return False


class OfOther(Zone):
    """A class of zones that takes other words."""

    def __new__(cls, one, other, more):
        raise AssertionError

    def __init__(self, one, other, more):
        raise AssertionError


class Zones(unittest.TestCase):
    @classmethod
    def setUpClass(cls):
        cls.source = Source(SOURCE)
        cls.zone = cls.source.zone("Here/Middle")

    def test_names(self):
        self.assertEqual(list(self.source), ["Here/Far", "Here/Long", "Here/Middle", "Here/Twice", "There/Middle"])
        self.assertEqual(len(self.source), 5)
        self.assertEqual((self.zone.name, str(self.zone)), ("Here/Middle", "Here/Middle"))

    def test_sources(self):
        for text in (SOURCE.encode(), bytearray(SOURCE.encode()), memoryview(SOURCE.encode())):
            self.assertEqual(len(Source(text)), 5)
        self.assertEqual(list(Source("")), [])
        for text in (None, 5, ["Zone"]):
            with self.assertRaises(TypeError):
                Source(text)

    def test_releases(self):
        for plain in (False, True):
            self.assertEqual(Source("# version 2026b\n" + SOURCE, plain=plain).version, "2026b")
            self.assertEqual(Source(f"# version {'é' * 100}\n" + SOURCE, plain=plain).version, "é" * 100)
            self.assertIsNone(Source(SOURCE + "# version 2026b\n", plain=plain).version)

    def test_look_ups(self):
        zone = self.zone
        self.assertEqual((zone.offset_at(SPRING - 1, 999_999_999), zone.offset_at(SPRING)), (3600, 7200))
        self.assertEqual(zone.in_force(SPRING - 1), (3600, False, "CET"))
        self.assertEqual(zone.in_force(SPRING), (7200, True, "CEST"))
        self.assertEqual(zone.clock_at(SPRING, 5), (Clock(2024, 3, 31, 3, 0, 0, 5), 7200))
        self.assertEqual(zone.text_at(SPRING, 5), "2024-03-31 03:00:00.000000005 +02:00:00")
        self.assertEqual(self.source.zone("Here/Long").in_force(0).name, "AbbreviationOfTwentySix")

    def test_instants(self):
        self.assertEqual(self.zone.instants(TWICE), [(AUTUMN - 1800, 0, 7200), (AUTUMN + 1800, 0, 3600)])
        self.assertEqual(self.zone.instants(Clock(2024, 7, 1, 12, 0, 0, 7)), [(1719828000, 7, 7200)])
        self.assertEqual(self.zone.instants(datetime(2024, 7, 1, 12, 0, 0, 7)), [(1719828000, 7000, 7200)])
        self.assertEqual(self.zone.instants(Clock.of(datetime(2024, 7, 1, 12, 0, 0, 7))), [(1719828000, 7000, 7200)])
        self.assertEqual(self.zone.instants(SKIPPED), [])
        self.assertEqual(self.zone.gap(SKIPPED), Gap(SPRING, 3600, 7200))
        self.assertIsNone(self.zone.gap(TWICE))
        self.assertEqual(Instant(AUTUMN, 1999, 0).utc, datetime(2024, 10, 27, 1, 0, 0, 1, tzinfo=timezone.utc))
        zone = self.source.zone("Here/Twice")
        offsets = [instant.offset for instant in zone.instants(datetime(2000, 1, 1, 1, 15))]
        self.assertEqual(offsets, sorted(offsets, reverse=True))
        self.assertEqual(len(offsets), 3)

    def test_read_local(self):
        self.assertEqual(sefunjaro.read_local("-0044-03-15 12:30:00.000000001"), Clock(-44, 3, 15, 12, 30, 0, 1))
        for text in ("", "2024-03-15 12:30:00", "2024-02-30 12:30:00.000000000", "x"):
            with self.assertRaises(sefunjaro.NotRead):
                sefunjaro.read_local(text)

    def test_read_zoned(self):
        self.assertEqual(sefunjaro.read_zoned("1969-12-31 18:59:59.999999999 -05:00:00"), Instant(-1, 999_999_999, -18000))
        text = self.zone.text_at(SPRING, 5)
        self.assertEqual(sefunjaro.read_zoned(text), (SPRING, 5, 7200))
        for text in ("", text[:-1], text + " ", "2024-02-30 03:00:00.000000005 +02:00:00"):
            with self.assertRaises(sefunjaro.NotRead):
                sefunjaro.read_zoned(text)

    def test_changes(self):
        zone = self.zone
        self.assertEqual((zone.saving_at(SPRING - 1, 999_999_999), zone.saving_at(SPRING)), (0, 3600))
        spring, autumn = Change(SPRING, 7200, 3600, "CEST", True), Change(AUTUMN, 3600, 0, "CET", True)
        self.assertEqual((zone.next_change(SPRING - 1), zone.next_change(SPRING)), (spring, autumn))
        self.assertIsNone(zone.next_change(2**63 - 1))
        self.assertEqual(zone.changes(SPRING, AUTUMN), [spring])
        self.assertEqual(zone.changes(SPRING, AUTUMN + 1), [spring, autumn])
        self.assertEqual(zone.changes(AUTUMN, SPRING), [])
        # In 2150 and in 9999 the rules are as now.
        self.assertEqual(datetime(2150, 7, 1, tzinfo=zone).utcoffset(), hours(2))
        self.assertEqual((zone.next_change(5680281600).second, zone.next_change(253396947599).second, zone.next_change(253396947600)), (5687802000, 253396947600, None))
        self.assertEqual((zone.last_year, Source("Zone A 1:00 - A 2150\n 2:00 - B\n").zone("A").last_year), (9999, 2099))
        every = zone.changes(-(2**63), 2**63 - 1)
        self.assertEqual(every[-1].second, 253396947600)
        self.assertEqual([change.second for change in every], sorted({change.second for change in every}))
        self.assertEqual(spring.utc, datetime(2024, 3, 31, 1, tzinfo=timezone.utc))
        # In the spring of 1997 a line of Georgia says again what holds, and in 1998 the abbreviation alone is another.
        georgia = Source(GEORGIA).zone("Asia/Tbilisi")
        nothing, name = Change(859662000, 18000, 3600, "+05", False), Change(883598400, 14400, 0, "GET", True)
        self.assertEqual(georgia.next_change(849398400), nothing)
        self.assertEqual(georgia.changes(849398400, 2**63 - 1), [Change(877806000, 14400, 0, "+04", True), name])
        self.assertEqual(georgia.changes(849398400, 2**63 - 1, every=True), [nothing, Change(877806000, 14400, 0, "+04", True), name])
        winter = Source("Zone Here/Negative 1:00 -1:00 GMT\n").zone("Here/Negative")
        self.assertEqual(datetime(2024, 1, 1, tzinfo=winter).dst(), -hours(1))
        self.assertEqual(datetime(2024, 1, 1, tzinfo=winter).utcoffset(), hours(0))

    def test_rings(self):
        zone = self.zone
        self.assertEqual(zone.ring(TWICE), (AUTUMN - 1800, 0, 7200))
        self.assertIsNone(zone.ring(SKIPPED))
        self.assertEqual(zone.ring(Clock(2024, 7, 1, 12, 0, 0, 7)), (1719828000, 7, 7200))
        with self.assertRaises(sefunjaro.OutOfRange):
            zone.ring(Clock(2024, 2, 30))
        rings = list(zone.alarms(time(2, 30), date(2024, 3, 30), 3))
        self.assertEqual([day for day, _ in rings], [date(2024, 3, 30), date(2024, 3, 31), date(2024, 4, 1)])
        self.assertEqual([ring and ring.second for _, ring in rings], [SPRING - 84600, None, SPRING + 84600])

    def test_offsets_at(self):
        seconds = [SPRING - 1, SPRING, AUTUMN - 1, AUTUMN, 4_000_000_000, -(10**11), *range(0, 2 * 10**9, 29_999)]
        due = [self.zone.offset_at(second) for second in seconds]
        for asked in (seconds, tuple(seconds), array.array("q", seconds), memoryview(array.array("q", seconds)).toreadonly()):
            self.assertEqual(list(self.zone.offsets_at(asked)), due, type(asked))
        twice = memoryview(array.array("q", [second for second in seconds for _ in range(2)]))[::2]
        self.assertEqual(list(self.zone.offsets_at(twice)), due)
        self.assertEqual(self.zone.offsets_at([]), array.array("i"))
        self.assertEqual(self.zone.offsets_at(iter(seconds)).itemsize, 4)
        for asked in (b"12345678", array.array("i", [1]), array.array("d", [1.0]), array.array("Q", [1]), memoryview(bytes(16)).cast("q", (2, 1))):
            with self.assertRaises(TypeError):
                self.zone.offsets_at(asked)
        for asked in ([0, 253402300800], [0, -377705116801], [0, 2**63]):
            with self.assertRaises(sefunjaro.OutOfRange):
                self.zone.offsets_at(asked)
        with self.assertRaisesRegex(sefunjaro.OutOfRange, "place 70001"):
            self.zone.offsets_at([0] * 70_001 + [253402300800, 0])
        self.assertEqual(list(sefunjaro.Zone.from_posix("EST5").offsets_at([0, 1])), [-18000, -18000])

    def test_clocks_at(self):
        seconds = [SPRING - 1, SPRING, AUTUMN - 1, AUTUMN, 4_000_000_000, -(10**11)]
        self.assertEqual(self.zone.clocks_at(seconds), [self.zone.clock_at(second)[0] for second in seconds])
        self.assertEqual(self.zone.texts_at(seconds), "".join(self.zone.text_at(second) + "\n" for second in seconds))
        self.assertEqual((self.zone.clocks_at([]), self.zone.texts_at([])), ([], ""))
        for ask in (self.zone.clocks_at, self.zone.texts_at):
            for asked in ([0, 253402300800], [0, 253402300799], [0, -377705116801]):
                with self.assertRaisesRegex(sefunjaro.OutOfRange, "place 1"):
                    ask(asked)

    def test_answer_at(self):
        answer = self.zone.answer_at(SPRING, 5)
        self.assertEqual(answer[:5], (7200, True, 3600, Clock(2024, 3, 31, 3, 0, 0, 5), "CEST"))
        self.assertEqual(answer[5:], (SPRING, AUTUMN))
        self.assertEqual(sefunjaro.Zone.from_posix("EST5").answer_at(7)[2:], (None, Clock(1969, 12, 31, 19, 0, 7), "EST", 7, 2**63 - 1))
        self.assertEqual(sefunjaro.Zone.from_posix("CET-1CEST,M3.5.0,M10.5.0/3").answer_at(SPRING)[5:], (SPRING, AUTUMN))
        self.assertEqual(Source(SOURCE).zone("Here/Long").answer_at(0).name, "AbbreviationOfTwentySix")
        with self.assertRaises(sefunjaro.OutOfRange):
            self.zone.answer_at(253402300799)

    def test_instants_of(self):
        shown = [Clock(2024, 3, 31, 2, 30), datetime(2024, 10, 27, 2, 30), Clock(2024, 7, 1, 12)]
        Fold, GapRule, Kind = sefunjaro.Fold, sefunjaro.GapRule, sefunjaro.Kind
        found = self.zone.instants_of(shown)
        self.assertEqual(found[0], (SPRING + 1800, 3600, Kind.GAP))
        self.assertEqual(found[1], (AUTUMN - 1800, 7200, Kind.FOLD))
        self.assertEqual(found[2], (1719828000, 7200, Kind.ONE))
        found = self.zone.instants_of(shown, fold=Fold.SECOND, gap=GapRule.AFTER)
        self.assertEqual(found[:2], [(SPRING - 1800, 7200, Kind.GAP), (AUTUMN + 1800, 3600, Kind.FOLD)])
        self.assertEqual(self.zone.instants_of(shown[:1], gap=GapRule.NONE), [(SPRING, 3600, Kind.GAP)])
        self.assertEqual(self.zone.instants_of([]), [])
        with self.assertRaisesRegex(sefunjaro.OutOfRange, "place 1"):
            self.zone.instants_of([Clock(2024, 2, 29), Clock(2023, 2, 29)])
        with self.assertRaises(ValueError):
            self.zone.instants_of(shown, gap=3)

    def test_to_local(self):
        zone = Source(SOURCE).zone("Here/Middle")
        theirs = zoneinfo.ZoneInfo.from_file(io.BytesIO(zone.to_tzif()))
        seconds = [SPRING - 1, SPRING, AUTUMN - 1, AUTUMN, *range(10**9, 2 * 10**9, 4_999_999)]
        epoch = datetime(1970, 1, 1)
        due = [int((datetime.fromtimestamp(second, theirs).replace(tzinfo=None) - epoch).total_seconds()) for second in seconds]
        self.assertEqual(zone.to_local(seconds), array.array("q", due))
        shown = zone.to_local([-377705116800, 253402300799])
        self.assertEqual(list(shown), [second + zone.offset_at(second) for second in (-377705116800, 253402300799)])
        for asked in ([253402300800], [-377705116801], [2**63]):
            with self.assertRaises(sefunjaro.OutOfRange):
                zone.to_local(asked)
        with self.assertRaises(TypeError):
            zone.to_local(array.array("d", [1.0]))
        self.assertEqual(list(sefunjaro.Zone.from_posix("EST5").to_local([0, 1])), [-18000, -17999])

    def test_to_instants(self):
        zone = Source(SOURCE).zone("Here/Middle")
        theirs = zoneinfo.ZoneInfo.from_file(io.BytesIO(zone.to_tzif()))
        epoch = datetime(1970, 1, 1)
        shown = [SPRING + 3600 + minute * 60 for minute in range(-90, 150, 7)] + [AUTUMN + minute * 60 for minute in range(-90, 250, 7)]
        shown += range(10**9, 2 * 10**9, 4_999_999)
        for fold in (0, 1):
            clocks = [(epoch + timedelta(seconds=second)).replace(tzinfo=theirs, fold=fold) for second in shown]
            due = array.array("q", (int(clock.timestamp()) for clock in clocks))
            self.assertEqual(zone.to_instants(shown, fold=("first", "second")[fold], gap=("before", "after")[fold]), due)
        skipped = [0, SPRING + 3600 + 1800]
        self.assertEqual(list(zone.to_instants(skipped, gap="before")), [-3600, SPRING + 1800])
        self.assertEqual(list(zone.to_instants(skipped, gap="after")), [-3600, SPRING - 1800])
        with self.assertRaisesRegex(sefunjaro.Skipped, "place 1"):
            zone.to_instants(skipped, gap="refuse")
        for words in ({"fold": "third"}, {"gap": "none"}):
            with self.assertRaises(ValueError):
                zone.to_instants([0], **words)
        for asked, second in ((Clock(-9999, 1, 1), -377705116800), (Clock(0, 1, 1), -62167219200), (Clock(9999, 12, 31, 23, 59, 59), 253402300799)):
            self.assertEqual(list(zone.to_instants([second])), [zone.instants(asked)[0].second])
        with self.assertRaises(sefunjaro.OutOfRange):
            zone.to_instants([0, 253402300800])
        self.assertEqual(list(sefunjaro.Zone.from_posix("EST5").to_instants([0])), [18000])

    def test_what_is_kept(self):
        """What a zone is asked again is told as before, near changes and far from them, whoever asks between."""
        zone = Source(SOURCE).zone("Here/Middle")
        theirs = zoneinfo.ZoneInfo.from_file(io.BytesIO(zone.to_tzif()))
        fixed = sefunjaro.Zone.from_posix("EST5")
        moments = [datetime(2024, 3, 31) + timedelta(minutes=minutes) for change in (0, 301_500, 525_600) for minutes in range(change - 4000, change + 4000, 331)]
        for _ in range(3):
            for moment in moments:
                for fold in (0, 1):
                    mine, other = moment.replace(tzinfo=zone, fold=fold), moment.replace(tzinfo=theirs, fold=fold)
                    self.assertEqual((mine.utcoffset(), mine.tzname(), mine.dst()), (other.utcoffset(), other.tzname(), other.dst()))
                    self.assertEqual(moment.replace(tzinfo=fixed).utcoffset(), timedelta(hours=-5))
                utc = moment.replace(tzinfo=timezone.utc)
                mine, other = utc.astimezone(zone), utc.astimezone(theirs)
                self.assertEqual((mine.replace(tzinfo=None), mine.fold), (other.replace(tzinfo=None), other.fold))
        zone.close()
        with self.assertRaises(sefunjaro.NotOpen):
            moments[0].replace(tzinfo=zone).utcoffset()

    def test_whole(self):
        self.assertEqual(self.zone.posix_tail(), ("CET-1CEST,M3.5.0,M10.5.0/3", True))
        short = Source("Zone Letters 2 - CD\nZone Signs -3 - %z\nZone Underscore 5 - A_B\nZone Umlauts 5 - ÄÄÄ\n")
        tails = [short.zone(name).posix_tail() for name in ("Letters", "Signs", "Underscore", "Umlauts")]
        self.assertEqual(tails, [("<CD>-2", False), ("<-03>3", True), ("<A_B>-5", False), ("<ÄÄÄ>-5", False)])
        file = self.zone.to_tzif()
        read = zoneinfo.ZoneInfo.from_file(io.BytesIO(file))
        for second in (0, SPRING - 1, SPRING, AUTUMN - 1, AUTUMN, 4_000_000_000):
            local = datetime.fromtimestamp(second, timezone.utc).astimezone(read)
            self.assertEqual((local.utcoffset(), local.tzname()), (hours(self.zone.offset_at(second) / 3600), self.zone.in_force(second).name))
        self.assertEqual(file.split(b"\n")[-2], b"CET-1CEST,M3.5.0,M10.5.0/3")
        source = Source("Zone Shape 1:00 - A 2099 Jun 1\n 2:00 - B\nZone Wide 25:30 - X\nZone Names 1:00 - A<B\nZone Long 1:00 - " + "A" * 256 + "\n")
        for name, cause in (("Shape", "SHAPE"), ("Wide", "OFFSET_RANGE"), ("Names", "NAME")):
            with self.assertRaises(sefunjaro.NoTail) as raised:
                source.zone(name).posix_tail()
            self.assertEqual((raised.exception.status, raised.exception.cause), (Status.NONE, sefunjaro.TailCause[cause]))
        with self.assertRaises(sefunjaro.NoTzif) as raised:
            source.zone("Long").to_tzif()
        self.assertIs(raised.exception.cause, sefunjaro.TzifCause.NAMES)
        for call in (sefunjaro.Zone.posix_tail, sefunjaro.Zone.to_tzif, sefunjaro.Zone.tail_for_ever, sefunjaro.Zone.to_tzif_for_ever):
            with self.assertRaises(sefunjaro.NotKept):
                call(sefunjaro.Zone.from_posix("UTC0"))

    def test_whole_for_ever(self):
        source = Source(
            "Rule E 1981 max - Mar lastSun 1:00u 0 -\nRule E 1996 max - Oct lastSun 1:00u -1:00 -\nZone Ireland 1:00 E IST/GMT\n"
            "Rule G 2013 max - Mar lastThu 26:00 1:00 D\nRule G 2013 max - Oct lastThu 26:00 0 S\nZone Late -3:00 G X%sT\n"
            "Rule N 1981 2150 - Mar lastSun 1:00u 1:00 S\nRule N 1996 2150 - Oct lastSun 1:00u 0 -\nZone Ends 1:00 N CE%sT\n"
            "Zone Wide 25:30 - X\nZone Names 1:00 - A<B\nZone Long 1:00 - " + "A" * 256 + "\n"
        )
        for name, text, is_posix, begins in (
            ("Ireland", "IST-1GMT0,M10.5.0,M3.5.0/1", True, b"TZif2"),
            ("Late", "XST3XDT,M3.5.4/26,M10.5.4/26", False, b"TZif3"),
        ):
            zone = source.zone(name)
            self.assertEqual(zone.tail_for_ever(), (text, is_posix))
            file = zone.to_tzif_for_ever()
            self.assertEqual((file[:5], file.split(b"\n")[-2].decode()), (begins, text))
            read = zoneinfo.ZoneInfo.from_file(io.BytesIO(file))
            for year in range(1980, 9999, 7):
                local = datetime(year, 7, 1, tzinfo=timezone.utc).astimezone(read)
                self.assertEqual(local.utcoffset(), hours(zone.offset_at(int(local.timestamp())) / 3600))
        for name, cause in (("Ends", "RULES_END"), ("Wide", "OFFSET_RANGE"), ("Names", "NAME")):
            zone = source.zone(name)
            for call, error in ((zone.tail_for_ever, sefunjaro.NoTail), (zone.to_tzif_for_ever, sefunjaro.NoTzif)):
                with self.assertRaises(error) as raised:
                    call()
                self.assertIs(raised.exception.cause, sefunjaro.EverCause[cause])
        with self.assertRaises(sefunjaro.NoTzif) as raised:
            source.zone("Long").to_tzif_for_ever()
        self.assertIs(raised.exception.cause, sefunjaro.EverCause.NAMES)

    def test_version(self):
        self.assertEqual((sefunjaro.VERSION, sefunjaro.FIRST_YEAR, sefunjaro.LAST_YEAR), ("2.0.0", 1800, 2099))

    def test_fold_and_gap(self):
        # local time, fold, offset in hours, name; the standard offset is 1 hour throughout
        rows = [
            (datetime(2024, 3, 31, 1, 59, 59, 999999), 1, 1, "CET"),
            (datetime(2024, 3, 31, 2), 0, 1, "CET"),
            (datetime(2024, 3, 31, 2), 1, 2, "CEST"),
            (SKIPPED, 0, 1, "CET"),
            (SKIPPED, 1, 2, "CEST"),
            (datetime(2024, 3, 31, 3), 0, 2, "CEST"),
            (datetime(2024, 10, 27, 1, 59, 59, 999999), 1, 2, "CEST"),
            (TWICE, 0, 2, "CEST"),
            (TWICE, 1, 1, "CET"),
            (datetime(2024, 10, 27, 3), 0, 1, "CET"),
        ]
        for local, fold, offset, name in rows:
            moment = local.replace(tzinfo=self.zone, fold=fold)
            self.assertEqual((moment.utcoffset(), moment.tzname(), moment.dst()), (hours(offset), name, hours(offset - 1)), moment)

    def test_datetime(self):
        first, second = (TWICE.replace(tzinfo=self.zone, fold=fold) for fold in (0, 1))
        self.assertEqual(first.isoformat(), "2024-10-27T02:30:00+02:00")
        self.assertEqual(second.isoformat(), "2024-10-27T02:30:00+01:00")
        self.assertEqual(second.timestamp() - first.timestamp(), 3600)
        for second_of_day, fold in ((AUTUMN - 3601, 0), (AUTUMN - 1, 0), (AUTUMN, 1), (AUTUMN + 3599, 1), (AUTUMN + 3600, 0)):
            self.assertEqual(datetime.fromtimestamp(second_of_day, self.zone).fold, fold)
            self.assertEqual(datetime.fromtimestamp(second_of_day, self.zone).timestamp(), second_of_day)
        self.assertEqual(f"{first:%Z %z}", "CEST +0200")
        self.assertEqual(first + timedelta(days=1), datetime(2024, 10, 28, 2, 30, tzinfo=self.zone))
        self.assertEqual(datetime(2024, 7, 1, 12, tzinfo=timezone.utc).astimezone(self.zone).hour, 14)
        self.assertIsNone(time(12, tzinfo=self.zone).utcoffset())
        self.assertEqual(datetime.max.replace(tzinfo=self.zone).utcoffset(), hours(2 - 1))
        behind = Source("Zone Behind -5 - EST\n").zone("Behind")
        last, first = datetime.max.replace(tzinfo=behind), datetime.min.replace(tzinfo=self.zone)
        self.assertEqual((last.tzname(), last.dst(), first.tzname(), first.dst()), ("EST", hours(0), "CET", hours(0)))
        instant, = behind.instants(datetime.max)
        self.assertEqual(behind.text_at(instant.second, instant.nanosecond), "9999-12-31 23:59:59.999999000 -05:00:00")
        with self.assertRaises(OverflowError):
            datetime.max.replace(tzinfo=timezone.utc).astimezone(self.zone)
        with self.assertRaises(TypeError):
            self.zone.fromutc("noon")
        with self.assertRaises(ValueError):
            self.zone.fromutc(datetime(2024, 1, 1, tzinfo=timezone.utc))

    def test_day_or_more(self):
        far = self.source.zone("Here/Far")
        self.assertEqual(far.text_at(0), "1970-01-02 01:00:00.000000000 +25:00:00")
        self.assertEqual(far.changes(0, 10**10), [])
        for ask in (far.utcoffset, lambda moment: moment.replace(tzinfo=timezone.utc).astimezone(far)):
            with self.assertRaises(sefunjaro.OffsetTooLarge):
                ask(datetime(2024, 1, 1))
        self.assertEqual(far.tzname(datetime(2024, 1, 1)), "FAR")

    def test_numbers(self):
        # None of these may be cut to a number that the library takes.
        for second, nanosecond in ((2**63, 0), (-(2**63) - 1, 0), (2**64, 0), (0, -1), (0, 10**9), (0, 2**32), (10**12, 0)):
            for ask in (self.zone.offset_at, self.zone.in_force, self.zone.clock_at, self.zone.text_at, self.zone.saving_at):
                with self.assertRaises(sefunjaro.OutOfRange):
                    ask(second, nanosecond)
        day = Clock(2024, 1, 1)
        wrong = [{"year": 10000}, {"year": 2024 + 2**32}, {"month": 257}, {"month": 13}, {"day": 257}, {"hour": 256}, {"minute": -1},
                 {"second": 60}, {"nanosecond": 2**32}, {"nanosecond": 10**9}, {"month": 2, "day": 30}]
        for parts in wrong:
            with self.assertRaises(sefunjaro.OutOfRange):
                self.zone.instants(day._replace(**parts))
        for ask in (self.zone.next_change, lambda second: self.zone.changes(0, second), lambda second: self.zone.changes(second, 0)):
            with self.assertRaises(sefunjaro.OutOfRange):
                ask(2**63)
        with self.assertRaises(TypeError):
            self.zone.offset_at(0.5)

    def test_copies(self):
        moment = TWICE.replace(tzinfo=self.zone)
        self.assertIs(copy.copy(self.zone), self.zone)
        self.assertIs(copy.deepcopy(moment).tzinfo, self.zone)

    def test_pickles(self):
        # A source by its text, a zone by that and its name; zones of one pickle are one object as they were.
        for source in (self.source, Source(SOURCE, plain=True)):
            for again in pickled(source):
                self.assertIsNot(again, source)
                self.assertEqual(list(again), list(source))
            zone = source.zone("There/Middle")
            for again in [*pickled(zone), *pickled(zone.share())]:
                self.assertIsNot(again, zone)
                self.assertEqual((again.name, again.key), ("There/Middle", "There/Middle"))
                self.assertEqual(again.changes(0, SPRING), zone.changes(0, SPRING))
            moment, other = pickle.loads(pickle.dumps([TWICE.replace(tzinfo=zone, fold=1), SKIPPED.replace(tzinfo=zone)]))
            self.assertIs(moment.tzinfo, other.tzinfo)
            self.assertEqual((moment.fold, moment.utcoffset()), (1, hours(1)))
        self.assertIs(type(pickled(OfOther._of(self.source, "Here/Middle"))[0]), OfOther)
        zone = self.source.zone("Here/Middle")
        zone.close()
        with self.assertRaises(sefunjaro.NotOpen):
            pickle.dumps(zone)

    def test_objects(self):
        zone, other = self.source.zone("Here/Middle"), self.source.zone("Here/Middle")
        self.assertNotEqual(zone, other)
        self.assertEqual(len({zone, other, copy.copy(zone)}), 2)
        self.assertIs(weakref.ref(zone)(), zone)
        with self.assertRaises(AttributeError):
            zone.key = "Here/Far"
        shared = OfOther._of(self.source, "Here/Middle").share()
        self.assertIs(type(shared), OfOther)
        self.assertRegex(repr(shared), "OfOther 'Here/Middle'")

    def test_always(self):
        # Where nothing ever changes a time of day without a date has an offset, as zoneinfo has it.
        def asked(zone):
            noon = time(12, tzinfo=zone)
            return noon.utcoffset(), noon.tzname(), noon.dst()

        source = Source(SOURCE + "Zone Here/Saving 1:00 1:00 SAV\nZone Here/Again 1:00 - AGN 2000\n 1:00 - AGN\n")
        none, file = (None, None, None), Zone.from_file
        self.assertEqual(asked(source.zone("Here/Saving")), (hours(2), "SAV", hours(1)))
        self.assertEqual(asked(source.zone("Here/Again")), (hours(1), "AGN", hours(0)))
        self.assertEqual([asked(source.zone(name)) for name in ("Here/Middle", "Here/Twice")], [none, none])
        self.assertEqual(asked(Zone.from_posix("<+03>-3")), (hours(3), "+03", None))
        self.assertEqual([asked(Zone.from_posix(string)) for string in (Files.STRING, "<+03>-3<+04>,M3.5.0,M10.5.0")], [none, none])
        self.assertEqual(asked(file(source.zone("Here/Long").to_tzif())), (hours(1), "AbbreviationOfTwentySix", None))
        self.assertEqual([asked(file(told)) for told in (Files.FILE, source.zone("Here/Twice").to_tzif())], [none, none])
        with self.assertRaises(sefunjaro.OffsetTooLarge):
            time(12, tzinfo=source.zone("Here/Far")).utcoffset()

    def test_other_zones(self):
        # A datetime of another zone names another local time.
        zone, utc = self.zone, TWICE.replace(tzinfo=timezone.utc)
        self.assertEqual(zone.instants(TWICE.replace(tzinfo=zone, fold=1)), zone.instants(TWICE))
        for ask in (zone.instants, zone.gap, zone.ring):
            for moment in (utc, TWICE.replace(tzinfo=zone.share())):
                with self.assertRaisesRegex(ValueError, "another zone"):
                    ask(moment)
        self.assertEqual(zone.instants(utc.astimezone(zone)), [(AUTUMN + 5400, 0, 3600)])

    def test_not_text(self):
        # A lone surrogate.
        rows = [
            (lambda: self.source.zone("Here/\ud800Middle"), sefunjaro.UnknownZone, Status.NOT_TEXT),
            (lambda: Zone.from_posix("<\ud800\ud800\ud800>0"), sefunjaro.NotRead, Status.NOT_TEXT),
            (lambda: sefunjaro.read_local("\ud800"), sefunjaro.NotRead, Status.NOT_READ),
            (lambda: sefunjaro.read_zoned("\ud800"), sefunjaro.NotRead, Status.NOT_READ),
            (lambda: Source("\n\ud800\n"), sefunjaro.NoPlainForm, Status.NO_PLAIN_FORM),
            (lambda: Source("\n\ud800\n", plain=True), sefunjaro.SourceError, Status.NOT_TEXT),
        ]
        for ask, kind, status in rows:
            with self.assertRaises(kind) as raised:
                ask()
            self.assertEqual((type(raised.exception), raised.exception.status), (kind, status))

    def test_mutating_datetimes(self):
        class Same(datetime):
            def __add__(self, other):
                return self if other == timedelta(0) else super().__add__(other)

        zone = Source(SOURCE + "Zone London 0 Mid GMT/BST\n").zone("London")
        moment = Same(2024, 10, 27, 1, 30, tzinfo=zone)
        self.assertEqual((zone.fromutc(moment).fold, moment.fold, type(zone.fromutc(moment))), (1, 0, Same))


class Public(unittest.TestCase):
    def test_words(self):
        """What is public has a docstring, and hints of all that it takes and gives."""
        found = [(name, getattr(sefunjaro, name)) for name in sefunjaro.__all__]
        found += [(f"{name}.{word}", item) for name, kind in found if inspect.isclass(kind) and not issubclass(kind, enum.Enum)
                  for word, item in vars(kind).items() if not word.startswith("_")]
        for name, item in found:
            item = item.fget if isinstance(item, property) else getattr(item, "__func__", item)
            if inspect.isclass(item) or inspect.isfunction(item):
                self.assertTrue(inspect.getdoc(item), name)
            if inspect.isfunction(item) and item.__name__ != "<lambda>" and not name.endswith(("_make", "_replace", "_asdict")):
                hints = inspect.signature(item)
                taken = [word for word in hints.parameters.values() if word.name not in ("self", "cls")]
                self.assertNotIn(inspect.Parameter.empty, [hints.return_annotation, *(word.annotation for word in taken)], name)


class Files(unittest.TestCase):
    """A file that `zic -b slim` wrote of the rules of Europe from 1996 on, after local mean time, and the string at its end."""

    STRING = "CET-1CEST,M3.5.0,M10.5.0/3"
    FILE = base64.b64decode(
        "VFppZjIAAAAAAAAAAAAAAAAAAAAAAAAAAAAAAAAAAAAAAAAAAAAAAQAAAAEAAAAAAAAAVFppZjIAAAAAAAAAAAAAAAAAAAAAAAAA"
        "AAAAAAAAAAAAAAACAAAAAwAAAA3/////kWBQTwAAAAAxXdkQAgEAAAIxAAAAABwgAQQAAA4QAAlMTVQAQ0VTVABDRVQACkNFVC0x"
        "Q0VTVCxNMy41LjAsTTEwLjUuMC8zCg=="
    )

    def test_far_off(self):
        # 2400 has its changes on 26 March and 29 October, both at 01:00 UTC
        for zone in (sefunjaro.Zone.from_file(self.FILE), sefunjaro.Zone.from_posix(self.STRING)):
            self.assertEqual(zone.in_force(13576813199), (3600, False, "CET"))
            self.assertEqual(zone.in_force(13576813200), (7200, True, "CEST"))
            self.assertEqual(zone.text_at(13576813200, 5), "2400-03-26 03:00:00.000000005 +02:00:00")
            self.assertEqual(zone.instants(datetime(2400, 10, 29, 2, 30)), [(13595560200, 0, 7200), (13595563800, 0, 3600)])
            self.assertEqual(zone.gap(datetime(2400, 3, 26, 2, 30)), Gap(13576813200, 3600, 7200))
            self.assertIsNone(zone.ring(datetime(2400, 3, 26, 2, 30)))
            summer = datetime(2400, 7, 1, 12, tzinfo=zone)
            self.assertEqual((summer.utcoffset(), summer.tzname(), summer.dst()), (hours(2), "CEST", None))
            self.assertEqual(summer.astimezone(timezone.utc).astimezone(zone), summer)
            with self.assertRaises(sefunjaro.NotKept):
                zone.saving_at(0)
            self.assertEqual(zone.changes(13576813200, 13595562000), [(13576813200, 7200, 3600, "CEST", True)])
            self.assertEqual((zone.next_change(13576813199).second, zone.last_year), (13576813200, 9999))
            self.assertEqual(zone.share().offset_at(13576813200), 7200)

    def test_mean_time(self):
        zone = sefunjaro.Zone.from_file(bytearray(self.FILE))
        self.assertEqual((zone.in_force(-1855958962), zone.in_force(-1855958961)), ((561, False, "LMT"), (3600, False, "CET")))
        self.assertEqual(sefunjaro.Zone.from_posix(self.STRING).offset_at(-1855958962), 3600)

    def test_names(self):
        with tempfile.TemporaryDirectory() as folder:
            path = pathlib.Path(folder, "Paris")
            path.write_bytes(self.FILE)
            self.assertEqual([sefunjaro.Zone.from_file(named).name for named in (path, str(path))], [str(path)] * 2)
            self.assertEqual(sefunjaro.Zone.from_file(path, "Paris").name, "Paris")
            self.assertIsNone(sefunjaro.Zone.from_file(path).key)
            with open(path, "rb") as file:
                self.assertEqual(sefunjaro.Zone.from_file(file, "Paris").key, "Paris")
        zone = sefunjaro.Zone.from_posix("UTC0")
        self.assertEqual((zone.name, zone.key), ("UTC0", None))
        with self.assertRaises(FileNotFoundError):
            sefunjaro.Zone.from_file(path)

    def test_pickles(self):
        # By the bytes of the file and its name, or by the string.
        for zone in (sefunjaro.Zone.from_file(self.FILE), OfOther.from_file(self.FILE, "Paris"), sefunjaro.Zone.from_posix(self.STRING)):
            for again in [*pickled(zone), *pickled(zone.share())]:
                self.assertEqual((type(again), again.name, again.key), (type(zone), zone.name, zone.key))
                self.assertEqual(again.text_at(13576813200, 5), zone.text_at(13576813200, 5))

    def test_faults(self):
        for told, cause in ((b"", sefunjaro.FileCause.REFUSED), (self.FILE[:-1], sefunjaro.FileCause.REFUSED),
                            (self.FILE[:-2] + b"X\n", sefunjaro.FileCause.FOOTER)):
            with self.assertRaises(sefunjaro.NotRead) as caught:
                sefunjaro.Zone.from_file(told)
            self.assertEqual((caught.exception.status, caught.exception.cause), (Status.NOT_READ, cause))
        for text in ("", "CET", "CET-25", "CET-1CEST"):
            with self.assertRaises(sefunjaro.NotRead) as caught:
                sefunjaro.Zone.from_posix(text)
            self.assertIsNone(caught.exception.cause)


class Faults(unittest.TestCase):
    def test_sources(self):
        # text, exception, status, cause, line
        rows = [
            ("\nRule R 2000 max - Nof Sun>=1 2:00 0 S\n", sefunjaro.BadLine, 5, sefunjaro.LineCause.FAILED_MONTH_PARSE, 2),
            ("Zone A 1:00 - X\nnothing\n", sefunjaro.BadLine, 5, sefunjaro.LineCause.INVALID_LINE_TYPE, 2),
            ("Zone A 1:00 - X\nZone A 1:00 - X\n", sefunjaro.BadJoin, 6, sefunjaro.JoinCause.DUPLICATE_ZONE, 2),
            ("Zone A 1:00 None X\n", sefunjaro.BadJoin, 6, sefunjaro.JoinCause.UNKNOWN_RULESET, 1),
            (b"\n\n\xff\n", sefunjaro.SourceError, 4, None, 3),
            (b"#" * (2**24 + 1), sefunjaro.SourceError, 3, None, None),
        ]
        for text, kind, status, cause, line in rows:
            with self.assertRaises(kind) as raised:
                Source(text, plain=True)
            error = raised.exception
            self.assertEqual((type(error), error.status, error.line), (kind, status, line))
            self.assertIs(error.cause, cause)

    def test_any_form(self):
        text = "R EU 1981 ma - Mar lastSu 1u 1 S\nR EU 1996 ma - O lastSu 1u 0 -\nZ Here 1 EU CE%sT\nL There Here/Too\nL Here There\n"
        source = Source(text)
        self.assertEqual(list(source), ["Here", "Here/Too", "There"])
        self.assertEqual([source.zone("Here/Too").offset_at(second) for second in (SPRING - 1, SPRING)], [3600, 7200])
        with self.assertRaises(sefunjaro.BadLine):
            Source(text, plain=True)
        cause = sefunjaro.PlainCause
        for text, kind, status, why, line in (
            ("\nRule R 2000 max - Foo 1 2:00 0 S\n", sefunjaro.NoPlainForm, Status.NO_PLAIN_FORM, cause.MONTH, 2),
            (b"\n\n\xff\n", sefunjaro.NoPlainForm, Status.NO_PLAIN_FORM, cause.NOT_TEXT, 3),
            ("Link A B\n", sefunjaro.NoPlainForm, Status.NO_PLAIN_FORM, cause.TARGET, 1),
            (b"#" * (2**24 + 1), sefunjaro.SourceError, Status.TOO_LONG, None, None),
        ):
            with self.assertRaises(kind) as raised:
                Source(text)
            error = raised.exception
            self.assertEqual((type(error), error.status, error.line), (kind, status, line))
            self.assertIs(error.cause, why)

    def test_zones(self):
        text = "Rule R min 1990 - Jan 1 0:00 0 -\nZone Rules 0:00 R A\nZone Open 0:00 - A\n 1:00 - B\nZone Wide 26:00 - X\n"
        source = Source(text, plain=True)
        for name, kind, status, cause in (
            ("None", sefunjaro.UnknownZone, Status.UNKNOWN_ZONE, None),
            ("", sefunjaro.UnknownZone, Status.UNKNOWN_ZONE, None),
            ("Open", sefunjaro.NoSchedule, Status.NO_SCHEDULE, sefunjaro.ScheduleCause.MISSING_UNTIL),
            ("Rules", sefunjaro.NoSchedule, Status.NO_SCHEDULE, sefunjaro.ScheduleCause.RULE_YEARS),
            ("Wide", sefunjaro.OffsetRange, Status.OFFSET_RANGE, None),
        ):
            with self.assertRaises(kind) as raised:
                source.zone(name)
            self.assertEqual(raised.exception.status, status)
            self.assertIs(raised.exception.cause, cause)
        with self.assertRaises(KeyError):
            source.zone("None")


class Lifetimes(unittest.TestCase):
    def test_closed(self):
        source = Source(SOURCE)
        zone = source.zone("Here/Middle")
        other = zone.share()
        source.close()
        source.close()
        for ask in (lambda: source.zone("Here/Middle"), lambda: len(source), lambda: list(source), lambda: source.version):
            with self.assertRaises(sefunjaro.NotOpen):
                ask()
        moment = TWICE.replace(tzinfo=zone)
        with zone:
            self.assertEqual(moment.utcoffset(), hours(2))
        for ask in (moment.utcoffset, moment.tzname, zone.share, lambda: zone.offset_at(0), lambda: zone.in_force(0),
                    lambda: zone.clock_at(0), lambda: zone.text_at(0), lambda: zone.instants(TWICE), lambda: zone.gap(TWICE), moment.dst,
                    lambda: zone.next_change(0), lambda: zone.changes(0, 1), lambda: zone.ring(TWICE), zone.posix_tail, zone.to_tzif):
            with self.assertRaises(sefunjaro.NotOpen):
                ask()
        self.assertEqual(other.offset_at(SPRING), 7200)

    def test_threads(self):
        zone, wrong = Source(SOURCE).zone("Here/Middle"), []
        zones = [zone] * 4 + [zone.share() for _ in range(4)]

        def ask(zone):
            for second in range(SPRING - 500, SPRING + 500):
                if zone.offset_at(second) != (3600 if second < SPRING else 7200):
                    wrong.append(second)

        threads = [threading.Thread(target=ask, args=(zone,)) for zone in zones]
        for thread in threads:
            thread.start()
        for thread in threads:
            thread.join()
        self.assertEqual(wrong, [])

    def test_closed_while_asked(self):
        zone = Source(SOURCE).zone("Here/Middle")
        ends = []

        def ask():
            try:
                while True:
                    zone.offset_at(SPRING)
            except sefunjaro.NotOpen:
                ends.append(True)

        threads = [threading.Thread(target=ask) for _ in range(4)]
        for thread in threads:
            thread.start()
        zone.close()
        for thread in threads:
            thread.join()
        self.assertEqual(ends, [True] * 4)

    def test_calls_under_way(self):
        zone, offset, statuses = Source(SOURCE).zone("Here/Middle"), ctypes.c_int32(), []
        begun, leave = threading.Event(), threading.Event()

        def slow(handle):
            begun.set()
            leave.wait()
            return sefunjaro._offset_at(handle, SPRING, 0, ctypes.byref(offset))

        reader = threading.Thread(target=lambda: statuses.append(zone._handle.ask(slow)))
        closer = threading.Thread(target=zone.close)
        reader.start()
        begun.wait()
        # Another call comes through meanwhile, until the zone is being closed; close itself waits.
        self.assertEqual(zone.offset_at(SPRING), 7200)
        closer.start()
        with self.assertRaises(sefunjaro.NotOpen):
            while True:
                zone.offset_at(SPRING)
        self.assertTrue(closer.is_alive())
        leave.set()
        for thread in (reader, closer):
            thread.join()
        self.assertEqual((statuses, offset.value, zone._handle.raw.is_open), ([Status.DONE], 7200, False))

    def test_closed_in_a_call(self):
        # As a signal's handler does, in the middle of a call of its own thread.
        zone, offset = Source(SOURCE).zone("Here/Middle"), ctypes.c_int32()

        def closing(handle):
            zone.close()
            with self.assertRaises(sefunjaro.NotOpen):
                zone.offset_at(SPRING)
            return sefunjaro._offset_at(handle, SPRING, 0, ctypes.byref(offset))

        self.assertEqual((zone._handle.ask(closing), offset.value), (Status.DONE, 7200))
        self.assertFalse(zone._handle.raw.is_open)

    def child(self, zone):
        """Whether a child of fork can ask a zone and close it, and open another."""
        def asks():
            asked = zone.offset_at(SPRING) == 7200
            zone.close()
            return asked and Source(SOURCE).zone("Here/Middle").offset_at(SPRING) == 7200

        return in_child(asks)

    def test_fork(self):
        zone, ends = Source(SOURCE).zone("Here/Middle"), threading.Event()

        def ask():
            while not ends.is_set():
                zone.offset_at(SPRING)

        threads = [threading.Thread(target=ask) for _ in range(4)]
        for thread in threads:
            thread.start()
        children = [self.child(zone) for _ in range(20)]
        ends.set()
        for thread in threads:
            thread.join()
        self.assertEqual(children, [True] * 20)

    @unittest.skipUnless(REFUSES, "this Python has no _testcapi, which refuses memory")
    def test_refused_memory(self):
        # Each allocation of Python's refused in turn, up to the first call that needs no more: the answer is MemoryError, and the
        # next one is as before.
        zone = Source(SOURCE).zone("Here/Middle")
        local, instant = datetime(2024, 7, 1, tzinfo=zone), datetime(2024, 7, 1, tzinfo=timezone.utc)
        seconds = array.array("q", range(0, SPRING, 10_000_000))
        shown = zone.to_local(seconds)
        calls = (
            local.utcoffset, local.dst, local.tzname, lambda: instant.astimezone(zone), lambda: zone.offsets_at(seconds),
            lambda: zone.to_local(seconds), lambda: zone.to_instants(shown), lambda: Source(SOURCE).zone("Here/Long").tzname(local),
        )
        refused = 0
        for call in calls:
            due = call()
            refused += refusals_of(call)
            self.assertEqual(call(), due)
        self.assertGreater(refused, len(calls))

    def test_memory(self):
        # A million zones, most of one line, closed or only dropped; with sources, shared zones and some that are refused.
        source = Source(SOURCE)

        def rounds(number):
            for turn in range(number):
                if turn % 100 == 0:
                    source.zone("Here/Middle").share().close()
                    Source("Zone A 1:00 - X\n").zone("A")
                    for refused in (lambda: Source("Zone A 1:00 None X\n"), lambda: source.zone("None")):
                        with self.assertRaises(sefunjaro.Error):
                            refused()
                zone = source.zone("Here/Long")
                if turn % 2 == 0:
                    zone.close()

        def held():
            return resource.getrusage(resource.RUSAGE_SELF).ru_maxrss

        rounds(20_000)
        before = held()
        rounds(980_000)
        self.assertLess(held() - before, 2048)


if __name__ == "__main__":
    unittest.main()
