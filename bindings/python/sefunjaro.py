"""Sefunjaro for Python: the zones of the tz database, as `datetime.tzinfo` and asked both ways.

    from datetime import datetime
    import sefunjaro

    paris = sefunjaro.zone("Europe/Paris")
    datetime(2024, 7, 14, 21, 15, tzinfo=paris).isoformat()      # '2024-07-14T21:15:00+02:00'
    paris.instants(datetime(2024, 10, 27, 2, 30))                # both instants of a local time that clocks show twice
    sefunjaro.Source.from_path("tzdata.zi").zone("Europe/Paris") # the same of a source of one's own

`zone` takes the machine's own source: the file that the environment variable SEFUNJARO_TZDATA names, or else
/usr/share/zoneinfo/tzdata.zi, in any form that zic reads. It is read once in a process. Such a zone is one object for each name, as
`zoneinfo.ZoneInfo` is, pickled by its name, and stays open: `close` leaves it as it is.

One file over ctypes. It loads libsefunjaro.so.2, which `bin/make_library` makes: the file that the environment variable
SEFUNJARO_LIBRARY names, else the one beside this module, else the one that the system's loader finds. What a datetime asks of its zone is
asked in C where the module _sefunjaro stands beside this one, built for this version of Python (`bin/make_module`); IS_IN_C tells. With
SEFUNJARO_CTYPES set it isn't looked for. Both answer the same, the one in C about ten times faster.

Instants are given as seconds from 1970-01-01 00:00:00 UTC and nanoseconds, offsets as seconds east of UTC. Any number of threads may
ask one source or one zone at once; `close` waits for the calls that are under way, and a call after it raises NotOpen. A child of fork
may go on with what was open: it asks without a lock, and waits for no thread that it doesn't have.

What `zoneinfo` does otherwise, besides what only one of the two has:
- `dst` of a zone of a file or of a POSIX string is None, since a file doesn't say the saving; zoneinfo guesses it.
- A name is looked up in the source and is no path, so "../Europe/Paris" raises UnknownZone, a KeyError, and no ValueError.
- Zones are kept by their names until `clear_cache`, and not only the last eight and those in use.
- A zone of a file can be pickled: with the file's bytes.
- `str` of a zone of a file without a name is "file", and `close` is there: `str` of a datetime in a closed zone raises NotOpen, as all
  that asks it.
"""
from __future__ import annotations

import array
import ctypes
import datetime
import enum
import functools
import importlib
import operator
import os
import threading
import weakref
from typing import (
    IO, TYPE_CHECKING, Any, Callable, ClassVar, Dict, Iterable, Iterator, List, NamedTuple, NoReturn, Optional, Set, Tuple, Type, TypeVar, Union,
)

__all__ = [
    "Answer", "BadJoin", "BadLine", "Change", "Clock", "Error", "EverCause", "FileCause", "FIRST_YEAR", "Fold", "Found", "Gap", "GapRule",
    "InForce", "Instant", "IS_IN_C", "JoinCause", "Kind", "LAST_YEAR", "LineCause", "NoPlainForm", "NoSchedule", "NoTail", "NotKept",
    "NotOpen", "NotRead", "NoTzdata", "NoTzif", "OffsetRange", "OffsetTooLarge", "OutOfRange", "PlainCause", "PosixTail", "ScheduleCause",
    "Skipped", "Source", "SourceError", "Status", "TailCause", "TzifCause", "UnknownZone", "VERSION", "Zone", "ZoneError",
    "available_zones", "machine_source", "read_local", "read_zoned", "zone",
]


Status = enum.IntEnum(
    "Status",
    "DONE NOT_OPEN NO_MEMORY TOO_LONG NOT_TEXT BAD_LINE BAD_JOIN UNKNOWN_ZONE NO_SCHEDULE OFFSET_RANGE OUT_OF_RANGE NONE "
    "NOT_READ NOT_KEPT NO_PLAIN_FORM",
    module=__name__,
    start=0,
)
"""What a call of the library answers: `enum sefunjaro_status` of the header."""

LineCause = enum.IntEnum(
    "LineCause",
    "FAILED_YEAR_PARSE FAILED_MONTH_PARSE FAILED_WEEKDAY_PARSE INVALID_LINE_TYPE TYPE_COLUMN_CONTAINED_NON_HYPHEN "
    "COULD_NOT_PARSE_SAVING INVALID_DAY_SPEC INVALID_TIME_SPEC_AND_TYPE NON_WALL_CLOCK_IN_TIME_SPEC",
    module=__name__,
)
"""Why a line of a source can't be read."""

JoinCause = enum.IntEnum("JoinCause", "SURPRISE_CONTINUATION_LINE UNKNOWN_RULESET DUPLICATE_LINK DUPLICATE_ZONE", module=__name__)
"""Why a line of a source may not follow those before it."""

ScheduleCause = enum.IntEnum(
    "ScheduleCause",
    "UNKNOWN_RULESET MISSING_UNTIL YEAR_RANGE RULE_YEARS DAY_RANGE NO_STANDARD_SPAN",
    module=__name__,
)
"""Why a zone has no schedule."""

PlainCause = enum.IntEnum(
    "PlainCause",
    "NOT_TEXT QUOTES LINE_TYPE FIELD_COUNT RULESET_NAME YEAR YEAR_ORDER TYPE MONTH DAY TIME SAVING FORMAT UNSAYABLE CONTINUATION "
    "UNKNOWN_RULESET DUPLICATE_ZONE LINK_IS_ZONE DUPLICATE_LINK TARGET TOO_LONG NAME",
    module=__name__,
)
"""Why a source in any form has no plain form; the header says more of each. Each but TOO_LONG is that of a line."""

FileCause = enum.IntEnum("FileCause", "REFUSED FOOTER", module=__name__)
"""Why a compiled file is not read."""

TailCause = enum.IntEnum("TailCause", "SHAPE OFFSET_RANGE NAME", module=__name__)
"""Why a zone has no string that carries it on."""

TzifCause = enum.IntEnum("TzifCause", "TIMES TYPES NAMES", module=__name__)
"""Why a zone has no TZif file."""

EverCause = enum.IntEnum("EverCause", "SHAPE OFFSET_RANGE NAME NO_RULE TIMES TYPES NAMES RULES_END SAVING", module=__name__)
"""Why a zone has no string or no TZif file for ever."""

Fold = enum.IntEnum("Fold", "FIRST SECOND", module=__name__, start=0)
"""Which instant is meant of a local time that has more than one."""

GapRule = enum.IntEnum("GapRule", "BEFORE AFTER NONE", module=__name__, start=0)
"""What is meant by a local time that clocks skip: the instant by the offset before the change, that by the one after it, or none: then the
change is told."""

Kind = enum.IntEnum("Kind", "GAP ONE FOLD MORE", module=__name__, start=0)
"""How many instants a local time has: none, one, two, or more."""


class Error(Exception):
    """What the library refuses: its `status`, and the `cause` and the `line` of the source (from 1), or None where there is none."""

    status: Status = Status.DONE
    cause: Optional[enum.IntEnum]
    line: Optional[int]

    def __init__(
        self, words: str, *, status: Optional[Status] = None, cause: Optional[enum.IntEnum] = None, line: Optional[int] = None
    ) -> None:
        super().__init__(words)
        if status is not None:
            self.status = status
        self.cause = cause
        self.line = line

    def __str__(self) -> str:
        return str(self.args[0])


class NotOpen(Error):
    """The source or the zone was closed."""

    status = Status.NOT_OPEN


class SourceError(Error):
    """A source is refused: it is longer than 16,777,216 bytes (TOO_LONG), or a line of it is not UTF-8 (NOT_TEXT)."""


class BadLine(SourceError):
    """A line of a source can't be read; `cause` is a LineCause."""

    status = Status.BAD_LINE


class BadJoin(SourceError):
    """A line of a source may not follow those before it; `cause` is a JoinCause."""

    status = Status.BAD_JOIN


class NoPlainForm(SourceError):
    """A source in any form has no plain form; `cause` is a PlainCause."""

    status = Status.NO_PLAIN_FORM


class ZoneError(Error):
    """A zone of a source can't be opened."""


class UnknownZone(ZoneError, KeyError):
    """The name is that of no zone, and of no link to one. Where it can't be, since it is not UTF-8, the status is NOT_TEXT."""

    status = Status.UNKNOWN_ZONE


class NoSchedule(ZoneError):
    """The zone has no schedule; `cause` is a ScheduleCause."""

    status = Status.NO_SCHEDULE


class OffsetRange(ZoneError):
    """Some offset of the zone is 26 hours or more in size."""

    status = Status.OFFSET_RANGE


class NoTail(ZoneError):
    """No string carries the zone on; `cause` is a TailCause, or an EverCause of `tail_for_ever`."""

    status = Status.NONE


class NoTzif(ZoneError):
    """The zone has no TZif file; `cause` is a TzifCause, or an EverCause of `to_tzif_for_ever`."""

    status = Status.NONE


class OutOfRange(Error, ValueError):
    """A date lies outside the years -9999 to 9999, an instant does by more than 93,599 seconds, the greatest offset, or the parts are
    no date, no time or no instant."""

    status = Status.OUT_OF_RANGE


class NotRead(Error, ValueError):
    """The text is none of those that are read; of a compiled file, `cause` is a FileCause. Where it is not UTF-8, the status may be
    NOT_TEXT."""

    status = Status.NOT_READ


class NotKept(Error):
    """The zone is that of a file or of a POSIX string, of which this is not asked."""

    status = Status.NOT_KEPT


class NoTzdata(Error):
    """The machine has no source of the tz database where one is looked for; the text names the place. Its `__cause__` is the OSError."""


class Skipped(Error, ValueError):
    """Clocks never show the local time; `to_instants` was asked to refuse such ones."""

    status = Status.NONE


class OffsetTooLarge(Error, ValueError):
    """An offset or a saving of 24 hours or more, which the zone has and `datetime` can't hold."""


class Clock(NamedTuple):
    """A local date and a time of day. The year before 1 is 0."""

    year: int
    month: int
    day: int
    hour: int = 0
    minute: int = 0
    second: int = 0
    nanosecond: int = 0

    @classmethod
    def of(cls, local: datetime.datetime) -> "Clock":
        """The parts of a datetime, whose zone is left aside."""
        return cls(local.year, local.month, local.day, local.hour, local.minute, local.second, local.microsecond * 1000)


class Instant(NamedTuple):
    """An instant, and an offset: of an instant at which clocks show a local time, the one in force then."""

    second: int
    nanosecond: int
    offset: int

    @property
    def utc(self) -> datetime.datetime:
        """The instant as a datetime in UTC, to the microsecond below. OverflowError outside the years 1 to 9999."""
        return _EPOCH + datetime.timedelta(seconds=self.second, microseconds=self.nanosecond // 1000)


class Gap(NamedTuple):
    """A change by which clocks are set ahead over a local time: its second, and the offsets up to it and from it on."""

    second: int
    before: int
    after: int


class Found(NamedTuple):
    """One instant of a local time, to the second; the offset by which it is that; and how many instants the local time has. By
    `GapRule.NONE` the second of the change that skips it, and the offset up to that."""

    second: int
    offset: int
    kind: Kind


class Change(NamedTuple):
    """What is in force in a zone from a second on: the offset, how many seconds of it are the saving, and the abbreviation; and whether
    one of them is another than just before."""

    second: int
    offset: int
    saving: int
    name: str
    differs: bool

    @property
    def utc(self) -> datetime.datetime:
        """The second as a datetime in UTC. OverflowError outside the years 1 to 9999."""
        return _EPOCH + datetime.timedelta(seconds=self.second)


class PosixTail(NamedTuple):
    """A POSIX TZ string, and whether POSIX has a place for the abbreviations in it: three bytes or more, ASCII letters, digits, `+` and
    `-`. Others, as "<CD>-2" and "<A_B>-5", are read as UTC by the GNU C library."""

    text: str
    is_posix: bool


class InForce(NamedTuple):
    """What is in force in a zone: the offset, whether there is daylight saving time, and the abbreviation."""

    offset: int
    is_saving: bool
    name: str


class Answer(NamedTuple):
    """All that a zone says of an instant: the offset, whether there is daylight saving time, how many seconds of the offset are the saving
    (None in a zone of a file or of a POSIX string), what clocks show, and the abbreviation; and the first of the seconds throughout which
    all this but the local time holds, and the one after the last of them: in a zone of a source those between two entries of it, and else
    those from the instant's own up to that at which another offset, abbreviation or kind of time comes."""

    offset: int
    is_saving: bool
    saving: Optional[int]
    clock: Clock
    name: str
    begin: int
    end: int


def _struct(name: str, **fields: Any) -> Any:
    """A struct of the header, by its fields in order."""
    return type(name, (ctypes.Structure,), {"_fields_": list(fields.items())})


_RawHandle = _struct("_RawHandle", at=ctypes.c_void_p, is_open=ctypes.c_bool)
_RawFault = _struct("_RawFault", status=ctypes.c_uint32, cause=ctypes.c_uint32, line=ctypes.c_size_t)
_RawInForce = _struct("_RawInForce", offset=ctypes.c_int32, is_saving=ctypes.c_bool, name_length=ctypes.c_size_t)
_RawClock = _struct(
    "_RawClock",
    year=ctypes.c_int32, month=ctypes.c_uint8, day=ctypes.c_uint8, hour=ctypes.c_uint8, minute=ctypes.c_uint8,
    second=ctypes.c_uint8, nanosecond=ctypes.c_uint32,
)
_RawReading = _struct("_RawReading", second=ctypes.c_int64, offset=ctypes.c_int32)
_RawGap = _struct("_RawGap", second=ctypes.c_int64, before=ctypes.c_int32, after=ctypes.c_int32)
_RawFound = _struct("_RawFound", second=ctypes.c_int64, offset=ctypes.c_int32, kind=ctypes.c_uint32)
_RawAnswer = _struct(
    "_RawAnswer",
    offset=ctypes.c_int32, is_saving=ctypes.c_bool, is_kept=ctypes.c_bool, saving=ctypes.c_int64, clock=_RawClock,
    name_length=ctypes.c_size_t, **{"from": ctypes.c_int64}, until=ctypes.c_int64,
)
_RawYears = _struct("_RawYears", first=ctypes.c_int32, last=ctypes.c_int32)
_RawChange = _struct(
    "_RawChange",
    second=ctypes.c_int64, offset=ctypes.c_int32, saving=ctypes.c_int64, name_length=ctypes.c_size_t, differs=ctypes.c_bool,
)
_RawInstant = _struct("_RawInstant", second=ctypes.c_int64, nanosecond=ctypes.c_uint32, offset=ctypes.c_int32)

_FORM = "plain form of the source"
_TwoReadings = _RawReading * 2
# Each abbreviation of the tz database fits; a longer one is asked for again.
_NAME_ROOM = 16
_Name = ctypes.c_uint8 * _NAME_ROOM
_EPOCH = datetime.datetime(1970, 1, 1, tzinfo=datetime.timezone.utc)
_EPOCH_DAY = _EPOCH.toordinal()
# The last second of which an abbreviation is told: that of 9999, and so much later as the greatest offset is.
_LAST_SECOND = 253402300799 + 93599


def _load() -> ctypes.CDLL:
    file = "libsefunjaro.so.2"
    named = os.environ.get("SEFUNJARO_LIBRARY")
    beside = os.path.join(os.path.dirname(os.path.abspath(__file__)), file)
    try:
        return ctypes.CDLL(named or (beside if os.path.exists(beside) else file))
    except OSError as error:
        raise ImportError(f"{error}; SEFUNJARO_LIBRARY names the file {file} that bin/make_library makes") from error


def _function(name: str, *arguments: Any, answer: Any = ctypes.c_uint32) -> Callable[..., int]:
    found: Any = getattr(_library, name)
    found.argtypes = arguments
    found.restype = answer
    function: Callable[..., int] = found
    return function


_library = _load()
_at, _size, _length = ctypes.c_void_p, ctypes.c_size_t, ctypes.c_size_t
_instant = (ctypes.c_int64, ctypes.c_uint32)
_source_open = _function("sefunjaro_source_open", ctypes.c_char_p, _length, _at, _at)
_source_open_plain = _function("sefunjaro_source_open_plain", ctypes.c_char_p, _length, _at, _at)
_name_count = _function("sefunjaro_name_count_by", _at, _at)
_name = _function("sefunjaro_name_by", _at, _size, _at, _size, _at)
_source_version = _function("sefunjaro_source_version_by", _at, _at, _size, _at)
_zone_open = _function("sefunjaro_zone_open_by", _at, ctypes.c_char_p, _length, _at, _at)
_file_open = _function("sefunjaro_file_open", ctypes.c_char_p, _length, _at, _at)
_posix_open = _function("sefunjaro_posix_open", ctypes.c_char_p, _length, _at, _at)
_share = _function("sefunjaro_share_by", _at, _at)
_close = _function("sefunjaro_close", _at, answer=None)
_offset_at = _function("sefunjaro_offset_at_by", _at, *_instant, _at)
_offsets_at = _function("sefunjaro_offsets_at_by", _at, _at, _size, _at, _size, _at)
_clocks_at = _function("sefunjaro_clocks_at_by", _at, _at, _size, _at, _size, _at)
_texts_at = _function("sefunjaro_texts_at_by", _at, _at, _size, _at, _size, _at, _at)
_instants_of = _function("sefunjaro_instants_of_by", _at, _at, _size, ctypes.c_uint32, ctypes.c_uint32, _at, _size, _at)
_answer_at = _function("sefunjaro_answer_at_by", _at, *_instant, _at, _at, _size)
_in_force = _function("sefunjaro_in_force_by", _at, *_instant, _at, _at, _size)
_clock_at = _function("sefunjaro_clock_at_by", _at, *_instant, _at, _at)
_text_at = _function("sefunjaro_text_at_by", _at, *_instant, _at, _size, _at)
_readings = _function("sefunjaro_readings_by", _at, _at, _at, _size, _at, _at)
_read_local = _function("sefunjaro_read_local", ctypes.c_char_p, _length, _at)
_read_zoned = _function("sefunjaro_read_zoned", ctypes.c_char_p, _length, _at)
_saving_at = _function("sefunjaro_saving_at_by", _at, *_instant, _at)
_years = _function("sefunjaro_years_by", _at, _at)
_next_change = _function("sefunjaro_next_change_by", _at, ctypes.c_int64, _at)
_changes = _function("sefunjaro_changes_by", _at, ctypes.c_int64, ctypes.c_int64, _at, _size, _at)
_ring = _function("sefunjaro_ring_by", _at, _at, _at)
_tail = _function("sefunjaro_tail_by", _at, _at, _size, _at, _at, _at)
_tzif = _function("sefunjaro_tzif_by", _at, _at, _size, _at, _at)
_tail_for_ever = _function("sefunjaro_tail_for_ever_by", _at, _at, _size, _at, _at, _at)
_tzif_for_ever = _function("sefunjaro_tzif_for_ever_by", _at, _at, _size, _at, _at)
_version = _function("sefunjaro_version", _at, _size, _at, _at, answer=None)


def _version_of_library() -> Tuple[str, int, int]:
    text, whole, years = ctypes.create_string_buffer(32), ctypes.c_size_t(), _RawYears()
    _version(text, len(text), ctypes.byref(whole), ctypes.byref(years))
    return text.raw[: whole.value].decode(), years.first, years.last


VERSION, FIRST_YEAR, LAST_YEAR = _version_of_library()
"""The version of the library's calls, and the first and the last year that the rules of a source are worked out for; past the last a zone
goes on where its lines do, as `Zone.last_year` tells."""


# How many seconds are asked in one call.
_AT_ONCE = 1 << 16
# The first second of -9999, and the one after 9999, in UTC.
_FIRST_SECOND, _END_SECOND = -377705116800, 253402300800
# What is asked of each of many seconds, and the rules of `to_instants`, as the module in C numbers them.
_OFFSETS, _LOCALS, _INSTANTS = range(3)
_FOLDS, _GAPS = ("first", "second"), ("before", "after", "refuse")


def _seconds_of(seconds: Any) -> memoryview:
    """A buffer of 64-bit integers of one dimension, as it is or made of integers."""
    try:
        view = memoryview(seconds)
    except TypeError:
        try:
            return memoryview(array.array("q", seconds))
        except OverflowError:
            raise OutOfRange("a second is none of 64 bits") from None
    if view.ndim != 1 or view.itemsize != 8 or view.format.lstrip("@=") not in ("l", "q"):
        raise TypeError(f"64-bit integers of one dimension are wanted, not {view.format!r} of {view.ndim}")
    return view


def _raise(status: int, of: str, fault: Any = None) -> NoReturn:
    """Raises what a status other than DONE stands for; `of` names what was asked."""
    line = fault.line or None if fault is not None else None
    cause = fault.cause if fault is not None else 0
    if status == Status.NO_MEMORY:
        raise MemoryError(of)
    if status == Status.NOT_OPEN:
        raise NotOpen(f"{of} is closed")
    if status == Status.BAD_LINE:
        raise BadLine(f"{of}, line {line}: {LineCause(cause).name}", cause=LineCause(cause), line=line)
    if status == Status.BAD_JOIN:
        raise BadJoin(f"{of}, line {line}: {JoinCause(cause).name}", cause=JoinCause(cause), line=line)
    if status == Status.NO_PLAIN_FORM:
        where = f"{of}, line {line}" if line else of
        raise NoPlainForm(f"{where}: no plain form, {PlainCause(cause).name}", cause=PlainCause(cause), line=line)
    if status == Status.NO_SCHEDULE:
        raise NoSchedule(f"{of}: no schedule, {ScheduleCause(cause).name}", cause=ScheduleCause(cause), line=line)
    if status == Status.UNKNOWN_ZONE:
        raise UnknownZone(f"{of} is no zone of the source")
    if status == Status.OFFSET_RANGE:
        raise OffsetRange(f"{of}: an offset of 26 hours or more")
    if status == Status.OUT_OF_RANGE:
        raise OutOfRange(f"{of}: out of range")
    if status == Status.NOT_READ and cause:
        raise NotRead(f"{of}: no compiled file that is read, {FileCause(cause).name}", cause=FileCause(cause))
    if status == Status.NOT_READ:
        raise NotRead(f"{of}: not a text that is read")
    if status == Status.NOT_KEPT:
        raise NotKept(f"{of} is a zone of a file or of a POSIX string, of which this is not asked")
    kind = SourceError if of in ("source", _FORM) else ZoneError
    where = f"{of}, line {line}" if line else of
    raise kind(f"{where}: {Status(status).name}", status=Status(status), line=line)


def _within(value: int, low: int, high: int) -> int:
    """An integer that the C type holds. ctypes would cut off the bits that don't fit."""
    value = operator.index(value)
    if not low <= value <= high:
        raise OutOfRange(f"{value}: out of range")
    return value


def _utf8(text: str) -> bytes:
    """A text as it is passed. What can't be UTF-8, a lone surrogate, is passed as bytes that are not, for the library to refuse."""
    return text.encode("utf-8", "surrogatepass")


def _second(value: int) -> int:
    return _within(value, -(2**63), 2**63 - 1)


def _nanosecond(value: int) -> int:
    return _within(value, 0, 999_999_999)


def _raw_clock(local: Union[datetime.datetime, Clock]) -> Any:
    if isinstance(local, datetime.datetime):
        return _RawClock(local.year, local.month, local.day, local.hour, local.minute, local.second, local.microsecond * 1000)
    year, *parts, nanosecond = local
    return _RawClock(_within(year, -(2**31), 2**31 - 1), *(_within(part, 0, 255) for part in parts), _within(nanosecond, 0, 2**32 - 1))


def _clock_after(shown: int) -> Any:
    """The date and time so many seconds after 1970-01-01 00:00:00 by the same clock, also of years that `datetime` doesn't have."""
    days, of_day = divmod(shown, 86400)
    # The calendar repeats after 400 years, which are 146,097 days.
    cycles, days = divmod(days + _EPOCH_DAY - 1, 146097)
    date, minutes = datetime.date.fromordinal(days + 1), of_day // 60
    return _RawClock(date.year + 400 * cycles, date.month, date.day, minutes // 60, minutes % 60, of_day % 60, 0)


def _clock(raw: Any) -> Clock:
    return Clock(raw.year, raw.month, raw.day, raw.hour, raw.minute, raw.second, raw.nanosecond)


@functools.lru_cache(maxsize=1024)
def _delta(offset: int) -> datetime.timedelta:
    if abs(offset) >= 86400:
        raise OffsetTooLarge(f"{offset} seconds are 24 hours or more, which datetime can't hold")
    return datetime.timedelta(seconds=offset)


def _condition() -> threading.Condition:
    """A condition. Where there is no memory for its lock, Python itself raises RuntimeError."""
    try:
        return threading.Condition()
    except RuntimeError:
        raise MemoryError from None


class _Handle:
    """A handle of the library. Any number of threads read it at once, each call over a copy of its own; `close` waits for those that are
    under way, and those that come later find it closed.

    Each thread has a number of its own of the calls that it has under way, in a dictionary whose steps are whole: more than one where a
    signal's handler asks in the middle of a call. So no lock is taken to read."""

    __slots__ = ("raw", "calls", "is_closing", "is_left", "ended", "__weakref__")

    def __init__(self) -> None:
        self.raw: Any = _RawHandle()
        self.calls: Dict[int, int] = {}
        self.is_closing = False
        # Whether the last call that is under way closes the handle.
        self.is_left = False
        self.ended = _condition()
        _handles.add(self)

    @property
    def at(self) -> Any:
        """Where a call opens it, while nobody else has it."""
        return ctypes.byref(self.raw)

    def ask(self, call: Callable[..., int], *arguments: Any) -> int:
        """The status of a call that reads the handle."""
        thread, calls = threading.get_ident(), self.calls
        outer = calls.get(thread, 0)
        try:
            calls[thread] = outer + 1
            if self.is_closing:
                return Status.NOT_OPEN
            return call(ctypes.byref(_RawHandle(self.raw.at, self.raw.is_open)), *arguments)
        finally:
            if outer:
                calls[thread] = outer
            else:
                calls.pop(thread, None)
            if self.is_closing:
                self._end()

    def _end(self) -> None:
        """A call has ended that `close` waits for, or that closes in its place."""
        with self.ended:
            self.ended.notify_all()
            if self.is_left and not self.calls:
                self._release()

    def _release(self) -> None:
        # The handle is a closed one before the library lets go, so that a child of fork closes nothing that a thread was closing.
        raw, self.raw = self.raw, _RawHandle()
        _close(ctypes.byref(raw))

    def close(self) -> None:
        self.is_closing = True
        if threading.get_ident() in self.calls:
            # A signal's handler closes it in the middle of a call of its own thread, for which it can't wait.
            self.is_left = True
            return
        with self.ended:
            while self.calls:
                self.ended.wait()
            self._release()

    def forked(self, thread: int) -> None:
        """In the child of fork only that thread goes on: no other has calls under way, or holds the lock."""
        for other in list(self.calls):
            if other != thread:
                del self.calls[other]
        self.ended = _condition()

    def __del__(self, close: Callable[..., int] = _close) -> None:
        # Nobody else has the handle any more, so there is nothing to wait for.
        if hasattr(self, "raw"):
            close(ctypes.byref(self.raw))


_handles: weakref.WeakSet[_Handle] = weakref.WeakSet()


def _forked() -> None:
    thread = threading.get_ident()
    for handle in list(_handles):
        handle.forked(thread)


os.register_at_fork(after_in_child=_forked)


_Text = Union[bytes, bytearray, memoryview, str]
_Self = TypeVar("_Self", bound="_Opened")
_OfZone = TypeVar("_OfZone", bound="Zone")


class _Opened:
    """What sources and zones have in common."""

    __slots__ = ()

    _handle: _Handle
    # What it is opened from, as pickle takes it: a call, and what it is given. None where it was closed.
    _origin: Optional[Tuple[Callable[..., Any], Tuple[Any, ...]]]
    # Whether it is that of the machine, for all who ask for it.
    _is_shared: bool

    def _lend(self, at: Optional[int], is_open: bool) -> None:
        """Nobody but the handle's own object reads it."""

    def close(self: _Self) -> None:
        """Gives back the memory, after the calls that are under way. What is asked afterwards raises NotOpen; closing again does
        nothing. What others may hold too, a zone that was opened by its name alone or the machine's source, stays open."""
        if not self._is_shared:
            self._origin = None
            self._lend(0, False)
            self._handle.close()

    def __enter__(self: _Self) -> _Self:
        return self

    def __exit__(self, *_exception: object) -> None:
        self.close()

    def __copy__(self: _Self) -> _Self:
        return self

    def __deepcopy__(self: _Self, _memo: object) -> _Self:
        return self

    def __reduce__(self) -> Tuple[Callable[..., Any], Tuple[Any, ...]]:
        if self._origin is None:
            raise NotOpen(f"{self!r} is closed, and can't be pickled")
        return self._origin


class Source(_Opened):
    """A source of the tz database in any form that zic reads, as that of tzdata.zi; with `plain` one in plain form and in no other, as
    zone plain wrote it, which is read in less time.

    Raises SourceError where the text has more than 16,777,216 bytes, and NoPlainForm with the first line that is refused and the cause;
    what BadLine, BadJoin and SourceError of a line say is of the plain form that is made of the text, and so is their line. With `plain`
    they are of the text: SourceError where a line is not UTF-8, BadLine and BadJoin with the first line that is refused and the cause.

    It is pickled with its text, and keeps that until it is closed."""

    __slots__ = ("_handle", "_origin", "_is_shared", "__weakref__")

    def __init__(self, text: _Text, *, plain: bool = False) -> None:
        self._handle = _Handle()
        self._is_shared = False
        if isinstance(text, str):
            text = _utf8(text)
        elif not isinstance(text, bytes):
            text = memoryview(text).tobytes()
        self._origin = (_opened_source, (type(self), text, plain))
        fault = _RawFault()
        open_text = _source_open_plain if plain else _source_open
        status = open_text(text, len(text), self._handle.at, ctypes.byref(fault))
        if status:
            of_form = not plain and status in (Status.NOT_TEXT, Status.BAD_LINE, Status.BAD_JOIN)
            _raise(status, _FORM if of_form else "source", fault)

    @classmethod
    def from_path(cls, path: Union[str, os.PathLike[str]], *, plain: bool = False) -> "Source":
        """The source that a file holds. OSError where it can't be read."""
        with open(path, "rb") as file:
            return cls(file.read(), plain=plain)

    def zone(self, name: str) -> "Zone":
        """The zone of a name; it needs the source no more.

        Raises UnknownZone, NoSchedule, OffsetRange, and NotOpen where the source was closed."""
        return Zone(self, name)

    def __len__(self) -> int:
        """How many names find a zone: those of zones, and of the links to them."""
        count = ctypes.c_size_t()
        status = self._handle.ask(_name_count, ctypes.byref(count))
        if status:
            _raise(status, "source")
        return count.value

    def __iter__(self) -> Iterator[str]:
        """The names that find a zone, in byte order."""
        return map(self._name_at, range(len(self)))

    def __bool__(self) -> bool:
        return True

    @property
    def version(self) -> Optional[str]:
        """The release that the source names by its first line, as "2026b" in `# version 2026b`, or None where it names none. Raises
        NotOpen where the source was closed."""
        status, release = self._text(_source_version)
        if status == Status.NONE:
            return None
        if status:
            _raise(status, "source")
        return release

    def _name_at(self, place: int) -> str:
        status, name = self._text(_name, place)
        if status:
            _raise(status, "source")
        return name

    def _text(self, call: Callable[..., int], *asked: Any) -> Tuple[int, str]:
        """The status of a call, and what it puts into a room, which grows as it has to."""
        whole, room = ctypes.c_size_t(), 64
        while True:
            found = (ctypes.c_uint8 * room)()
            status = self._handle.ask(call, *asked, found, room, ctypes.byref(whole))
            if status:
                return status, ""
            if whole.value <= room:
                return status, bytes(found[: whole.value]).decode()
            room = whole.value

    def __repr__(self) -> str:
        return f"<sefunjaro.Source at {id(self):#x}>"


def _opened_source(kind: Type[Source], text: bytes, plain: bool) -> Source:
    return kind(text, plain=plain)


_ReadFrom = Tuple[Type[Source], bytes, bool]
# Zones of one source that are read from pickles one by one share it: the source that was read last, with what it was read from.
_last_read: Dict[None, Tuple[_ReadFrom, Source]] = {}


def _last_source(told: _ReadFrom) -> Source:
    found = _last_read.get(None)
    if found is None or found[0] != told:
        found = _last_read[None] = told, _opened_source(*told)
    return found[1]


def _opened_zone(kind: Type[_OfZone], source: _ReadFrom, name: str) -> _OfZone:
    return kind._of(_last_source(source), name)


_TZDATA = "/usr/share/zoneinfo/tzdata.zi"
# The machine's source by no name, once it was read. A step of a dictionary is whole, so no lock is held that a child of fork waits for.
_machine: Dict[None, Source] = {}


def machine_source() -> Source:
    """The machine's own source of the tz database: the file that the environment variable SEFUNJARO_TZDATA names, or else
    /usr/share/zoneinfo/tzdata.zi, in any form that zic reads. It is read once in a process, stays open, and is pickled as the machine's.

    Raises NoTzdata where there is no such file that can be read, and what `Source` raises."""
    found = _machine.get(None)
    return _machine.setdefault(None, _read_machine()) if found is None else found


def _read_machine() -> Source:
    named = os.environ.get("SEFUNJARO_TZDATA")
    try:
        source = Source.from_path(named or _TZDATA)
    except OSError as error:
        place = f"{named!r}, which SEFUNJARO_TZDATA names" if named else f"{_TZDATA!r}, and SEFUNJARO_TZDATA names no other file"
        raise NoTzdata(f"no source of the tz database: {error.strerror}: {place}") from error
    except Error as error:
        error.args = (f"{named or _TZDATA}: {error}",)
        raise
    source._is_shared = True
    source._origin = (machine_source, ())
    return source


def available_zones() -> Set[str]:
    """The names that find a zone of the machine's source. Raises as `machine_source`."""
    return set(machine_source())


def zone(name: str) -> "Zone":
    """The zone of a name in the machine's source, one object for each name: `Zone.named`."""
    return Zone.named(name)


class _ByCtypes(datetime.tzinfo):
    """What a datetime asks of a zone, where it isn't asked in C."""

    __slots__ = ()

    def utcoffset(self: Any, dt: Optional[datetime.datetime]) -> Optional[datetime.timedelta]:
        """The offset of a local time; of None, as a `datetime.time` asks, that of a zone in which nothing ever changes, or else None.
        Raises OffsetTooLarge."""
        found: Optional[datetime.timedelta] = self._utcoffset_of_none() if dt is None else _delta(self._chosen(dt)[0])
        return found

    def tzname(self: Any, dt: Optional[datetime.datetime]) -> Optional[str]:
        """The abbreviation of a local time, and of None as `utcoffset`."""
        found: Optional[str] = self._tzname_of_none() if dt is None else self.in_force(*self._chosen(dt)[1:]).name
        return found

    def dst(self: Any, dt: Optional[datetime.datetime]) -> Optional[datetime.timedelta]:
        """The saving of a local time: how much of the offset it is, and of None as `utcoffset`; None in a zone of a file or of a POSIX
        string, which has none. Raises OffsetTooLarge."""
        found: Optional[datetime.timedelta] = self._dst_of_none() if dt is None else self._saving_of(*self._chosen(dt)[1:])
        return found

    def _answer_all(self: Any, kind: int, asked: bytes, told: bytearray, fold: int, gap: int) -> Tuple[int, int]:
        """Answers each second of a buffer into another: the status, and how many were answered."""
        seconds = array.array("q", asked)
        if kind == _INSTANTS:
            found: Tuple[int, int] = self._instants_of(seconds, told, fold, gap)
            return found
        offsets, place = (ctypes.c_int32 * len(seconds))(), ctypes.c_size_t()
        status = self._handle.ask(_offsets_at, asked, len(seconds), offsets, len(seconds), ctypes.byref(place))
        if not status:
            told[:] = offsets if kind == _OFFSETS else array.array("q", map(operator.add, seconds, offsets)).tobytes()
        return status, place.value

    def _instants_of(self: Any, shown: array.array[int], told: bytearray, fold: int, gap: int) -> Tuple[int, int]:
        found = array.array("q")
        for place, local in enumerate(shown):
            if not _FIRST_SECOND <= local < _END_SECOND:
                return Status.OUT_OF_RANGE, place
            readings, count, skipped = self._read(_clock_after(local))
            if count:
                found.append(readings[1 if fold and count > 1 else 0].second)
            elif _GAPS[gap] == "refuse":
                return Status.NONE, place
            else:
                found.append(local - (skipped.after if gap else skipped.before))
        told[:] = found.tobytes()
        return Status.DONE, len(shown)

    def fromutc(self: Any, dt: datetime.datetime) -> datetime.datetime:
        """The local time of a UTC time to which this zone is attached, with its fold. Raises OffsetTooLarge, and OverflowError where
        the local date lies outside the years 1 to 9999."""
        if not isinstance(dt, datetime.datetime):
            raise TypeError("fromutc() requires a datetime argument")
        if dt.tzinfo is not self:
            raise ValueError("fromutc: dt.tzinfo is not self")
        second = (dt.toordinal() - _EPOCH_DAY) * 86400 + dt.hour * 3600 + dt.minute * 60 + dt.second
        local = dt + _delta(self.offset_at(second, dt.microsecond * 1000))
        readings, _, _ = self._read(_raw_clock(local))
        return local if readings[0].second == second else local.replace(fold=1)


def _refuse(status: int, of: "Zone") -> NoReturn:
    _raise(status, repr(of._name))


def _module_in_c() -> Any:
    """The module in C, bound to the library, or None where there is none."""
    if os.environ.get("SEFUNJARO_CTYPES"):
        return None
    try:
        found = importlib.import_module(f"{__name__}._sefunjaro" if __package__ == __name__ else "_sefunjaro")
    except ImportError:
        return None
    calls: Tuple[Any, ...] = (_offset_at, _in_force, _saving_at, _readings, _changes)
    found.bind(*(ctypes.cast(call, ctypes.c_void_p).value for call in calls), _refuse, _delta)
    return found


_in_c = _module_in_c()
IS_IN_C: bool = _in_c is not None
"""Whether what a datetime asks is asked in C."""

if TYPE_CHECKING:
    _Asked = _ByCtypes
else:
    _Asked = _in_c.Asked if IS_IN_C else _ByCtypes


class Zone(_Asked, _Opened):
    """A zone, as `datetime.tzinfo`, and with calls of its own.

    As tzinfo it follows PEP 495. Of a local time that clocks show twice, `fold` 0 is the first instant and 1 the second. A local time
    that clocks skip has the offset before the change where `fold` is 0, and that after it where it is 1. Where the offset is 24 hours
    or more, which `datetime` can't hold, OffsetTooLarge is raised.

    Two zones are equal where they are one object. A zone is pickled by what it was opened from: its name, its source's text and its name,
    the string, or the bytes of the file; a copy is the same object."""

    __slots__ = ("_handle", "_name", "_key", "_is_fixed", "_origin", "_is_shared", "__weakref__")

    _name: str
    _key: Optional[str]
    # Whether nothing ever changes in it, once that was asked.
    _is_fixed: Optional[bool]
    _kept: ClassVar[Dict[str, Any]] = {}
    # tzinfo has another.
    __reduce__ = _Opened.__reduce__

    def __init_subclass__(cls, **words: Any) -> None:
        super().__init_subclass__(**words)
        cls._kept = {}

    def __init__(self, source: Source, name: str) -> None:
        self._begin(name, name)
        told, fault, origin = _utf8(name), _RawFault(), source._origin
        status = source._handle.ask(_zone_open, told, len(told), self._handle.at, ctypes.byref(fault))
        if status == Status.NOT_TEXT:
            raise UnknownZone(f"{name!r} is no zone of the source: it is not UTF-8", status=Status.NOT_TEXT)
        if status or origin is None:
            _raise(status or Status.NOT_OPEN, "source" if status in (Status.DONE, Status.NOT_OPEN) else repr(name), fault)
        self._origin = (type(self).no_cache, (name,)) if source._is_shared else (_opened_zone, (type(self), origin[1], name))
        self._lend(self._handle.raw.at, True)

    def _begin(self, name: str, key: Optional[str]) -> None:
        """What each zone has before it is opened."""
        self._lend(0, False)
        self._handle = _Handle()
        self._name, self._key = name, key
        self._is_fixed, self._is_shared, self._origin = None, False, None

    @classmethod
    def _of(cls: Type[_OfZone], source: Source, name: str) -> _OfZone:
        """The zone of a name, also where a subclass takes other arguments."""
        zone = datetime.tzinfo.__new__(cls)
        Zone.__init__(zone, source, name)
        return zone

    @classmethod
    def named(cls: Type[_OfZone], name: str) -> _OfZone:
        """The zone of a name in the machine's source (`machine_source`). It is one object for each name and class, also for many
        threads, until `clear_cache`; it is pickled by its name, and `close` leaves it open.

        Raises UnknownZone, also where the name has a zero byte, NoTzdata where the machine has no source, and what `Source` and
        `Source.zone` raise."""
        found: Optional[_OfZone] = cls._kept.get(name)
        if found is None:
            zone = cls.no_cache(name)
            zone._is_shared, zone._origin = True, (cls.named, (name,))
            kept: _OfZone = cls._kept.setdefault(name, zone)
            return kept
        return found

    @classmethod
    def no_cache(cls: Type[_OfZone], name: str) -> _OfZone:
        """The same as an object of its own, which can be closed; so it is when it is read from a pickle."""
        if not isinstance(name, str):
            raise TypeError(f"a zone's name is a str, not {type(name).__name__}")
        if "\0" in name:
            raise UnknownZone(f"{name!r} is no zone: it has a zero byte")
        return cls._of(machine_source(), name)

    @classmethod
    def clear_cache(cls, *, only_keys: Optional[Iterable[str]] = None) -> None:
        """Forgets the zones that `named` keeps for this class, all or those of some names: it opens them anew. Those that someone holds
        stay as they are. The source isn't read again."""
        if only_keys is None:
            cls._kept.clear()
        else:
            for key in only_keys:
                cls._kept.pop(key, None)

    @classmethod
    def from_file(
        cls: Type[_OfZone], file: Union[bytes, bytearray, memoryview, str, os.PathLike[str], IO[bytes]], name: Optional[str] = None
    ) -> _OfZone:
        """The zone of a compiled file (TZif, as below /usr/share/zoneinfo), from its bytes, its path or the file that is open, with what
        its footer says from its last change on. It keeps no saving: `dst` is None, `saving_at`, `posix_tail`, `to_tzif` and both for
        ever raise NotKept, and the `saving` of its changes is an hour where it is daylight saving time.

        Raises NotRead with its cause, and OSError where the file can't be read."""
        path = None
        if isinstance(file, (str, os.PathLike)):
            path = str(os.fspath(file))
            with open(path, "rb") as opened:
                told = opened.read()
        else:
            told = memoryview(file if isinstance(file, (bytes, bytearray, memoryview)) else file.read()).tobytes()
        return cls._of_file(told, name or path or "file", name)

    @classmethod
    def _of_file(cls: Type[_OfZone], told: bytes, name: str, key: Optional[str]) -> _OfZone:
        return cls._opened(_file_open, told, name, key, (cls._of_file, (told, name, key)))

    @classmethod
    def from_posix(cls: Type[_OfZone], text: str) -> _OfZone:
        """The zone that a POSIX string stands for at all times, as "CET-1CEST,M3.5.0,M10.5.0/3"; its name is the string. It has no
        changes and no saving, as the zone of a file. Raises NotRead."""
        return cls._opened(_posix_open, _utf8(text), text, None, (cls.from_posix, (text,)))

    @classmethod
    def _opened(cls: Type[_OfZone], call: Callable[..., int], told: bytes, name: str, key: Optional[str], origin: Any) -> _OfZone:
        zone = datetime.tzinfo.__new__(cls)
        zone._begin(name, key)
        fault = _RawFault()
        status = call(told, len(told), zone._handle.at, ctypes.byref(fault))
        if status == Status.NOT_TEXT:
            raise NotRead(f"{name!r}: not UTF-8", status=Status.NOT_TEXT)
        if status:
            _raise(status, repr(name), fault)
        zone._origin = origin
        zone._lend(zone._handle.raw.at, True)
        return zone

    def share(self: _OfZone) -> _OfZone:
        """Another object on the same zone, which is closed by itself. The zone itself is there once, until its last object is closed."""
        other = datetime.tzinfo.__new__(type(self))
        other._begin(self._name, self._key)
        status = self._handle.ask(_share, other._handle.at)
        if status:
            _raise(status, repr(self._name))
        other._origin = (type(self).no_cache, (self._name,)) if self._is_shared else self._origin
        other._lend(other._handle.raw.at, True)
        return other

    @property
    def key(self) -> Optional[str]:
        """The name by which the zone was opened from a source, or that a file was given; else None."""
        return self._key

    @property
    def name(self) -> str:
        """The name by which the zone was opened; of a file its path or what it was called, of a POSIX string the string."""
        return self._name

    @property
    def last_year(self) -> int:
        """The last year up to whose end the zone says what is in force: 9999 where its lines go on for ever, as those of every zone of the
        tz database do, and where it is that of a file or of a POSIX string; else LAST_YEAR, after which no rule fires."""
        year = ctypes.c_int32()
        status = self._handle.ask(_years, ctypes.byref(year))
        if status:
            _raise(status, repr(self._name))
        return year.value

    def offset_at(self, second: int, nanosecond: int = 0) -> int:
        """The offset in force at an instant. Raises OutOfRange more than 93,599 seconds outside the years -9999 to 9999."""
        return self._number_at(_offset_at, ctypes.c_int32(), second, nanosecond)

    def offsets_at(self, seconds: Any) -> array.array[int]:
        """The offsets in force at many seconds, in their order, as an `array('i')`. They stand in a buffer of one dimension and 64-bit
        integers, as `array('q')` or numpy's int64, or come of anything that gives integers. Raises TypeError of another buffer, and
        OutOfRange where one lies outside the years -9999 to 9999 in UTC, with its place in the text."""
        return self._answers(_OFFSETS, seconds)

    def to_local(self, seconds: Any) -> array.array[int]:
        """What clocks show at many seconds, in their order, as an `array('q')`: each as the seconds from 1970-01-01 00:00:00 by the same
        clocks, so that numpy's `view("datetime64[s]")` of it are the local times. Takes and raises what `offsets_at` does."""
        return self._answers(_LOCALS, seconds)

    def to_instants(self, shown: Any, *, fold: str = "first", gap: str = "before") -> array.array[int]:
        """The seconds at which clocks show many local times, in their order, as an `array('q')`. The local times are given as `to_local`
        gives them. Of one that clocks show twice or more often it is the "first" or the "second"; one that they skip is taken by the
        offset "before" the change or by that "after" it, or with "refuse" raises Skipped. Takes and raises what `offsets_at` does, and
        ValueError of another rule."""
        if fold not in _FOLDS or gap not in _GAPS:
            raise ValueError(f"fold is one of {', '.join(_FOLDS)}, and gap one of {', '.join(_GAPS)}")
        return self._answers(_INSTANTS, shown, _FOLDS.index(fold), _GAPS.index(gap))

    def clocks_at(self, seconds: Any) -> List[Clock]:
        """What clocks show at many seconds, in their order. Takes and raises what `offsets_at` does, and raises OutOfRange also where a
        local date lies outside the years -9999 to 9999."""
        asked = _seconds_of(seconds).tobytes()
        count = len(asked) // 8
        clocks = (_RawClock * count)()
        self._ask_all(_clocks_at, asked, count, clocks, count)
        return [_clock(clock) for clock in clocks]

    def texts_at(self, seconds: Any) -> str:
        """The texts of many seconds, one after another, each as `text_at` has it, with a line feed behind it. Takes and raises what
        `clocks_at` does."""
        asked = _seconds_of(seconds).tobytes()
        count, whole = len(asked) // 8, ctypes.c_size_t()
        room = 41 * count
        text = ctypes.create_string_buffer(room or 1)
        self._ask_all(_texts_at, asked, count, text, room, ctypes.byref(whole))
        return text.raw[: whole.value].decode()

    def instants_of(
        self, shown: Iterable[Union[datetime.datetime, Clock]], *, fold: Fold = Fold.FIRST, gap: GapRule = GapRule.BEFORE
    ) -> List[Found]:
        """One instant of each of many local times, in their order, by the rules. Raises OutOfRange, with the place in the text, and
        ValueError as `instants`."""
        fold, gap = Fold(fold), GapRule(gap)
        clocks = [self._asked(local) for local in shown]
        count = len(clocks)
        found = (_RawFound * count)()
        self._ask_all(_instants_of, (_RawClock * count)(*clocks), count, fold, gap, found, count)
        return [Found(one.second, one.offset, Kind(one.kind)) for one in found]

    def _ask_all(self, call: Callable[..., int], *asked: Any) -> None:
        """Asks a call that takes a list, and tells a place last."""
        place = ctypes.c_size_t()
        status = self._handle.ask(call, *asked, ctypes.byref(place))
        if status == Status.OUT_OF_RANGE:
            raise OutOfRange(f"{self._name!r}: out of range at place {place.value}")
        if status:
            _raise(status, repr(self._name))

    def _answers(self: Any, kind: int, seconds: Any, fold: int = 0, gap: int = 0) -> array.array[int]:
        """What is asked of each of many seconds."""
        view, found = _seconds_of(seconds), array.array("i" if kind == _OFFSETS else "q")
        for begin in range(0, len(view), _AT_ONCE):
            # A copy, so that nobody changes what is asked while it is.
            asked = view[begin : begin + _AT_ONCE].tobytes()
            told = bytearray(len(asked) // 8 * found.itemsize)
            status, place = self._answer_all(kind, asked, told, fold, gap)
            if status == Status.OUT_OF_RANGE:
                raise OutOfRange(f"{self._name!r}: out of range at place {begin + place}")
            if status == Status.NONE:
                raise Skipped(f"{self._name!r}: clocks skip the local time at place {begin + place}")
            if status:
                _raise(status, repr(self._name))
            found.frombytes(told)
        return found

    def _number_at(self, call: Callable[..., int], number: Any, second: int, nanosecond: int) -> int:
        """The number that a call tells of an instant."""
        handle, second, nanosecond = self._handle, _second(second), _nanosecond(nanosecond)
        status = handle.ask(call, second, nanosecond, ctypes.byref(number))
        if status:
            _raise(status, repr(self._name))
        value: int = number.value
        return value

    def _named_at(self, call: Callable[..., int], found: Any, second: int, nanosecond: int) -> str:
        """The abbreviation at an instant, by a call that tells its length with the rest."""
        name, room = _Name(), _NAME_ROOM
        handle, second, nanosecond = self._handle, _second(second), _nanosecond(nanosecond)
        while True:
            status = handle.ask(call, second, nanosecond, ctypes.byref(found), name, room)
            if status:
                _raise(status, repr(self._name))
            if found.name_length <= room:
                return bytes(name[: found.name_length]).decode()
            room = found.name_length
            name = (ctypes.c_uint8 * room)()

    def in_force(self, second: int, nanosecond: int = 0) -> InForce:
        """The offset, whether there is daylight saving time, and the abbreviation at an instant. Raises OutOfRange as `offset_at`."""
        found = _RawInForce()
        name = self._named_at(_in_force, found, second, nanosecond)
        return InForce(found.offset, found.is_saving, name)

    def answer_at(self, second: int, nanosecond: int = 0) -> Answer:
        """All that the zone says of an instant, in one call. Raises OutOfRange as `clock_at`."""
        found = _RawAnswer()
        name = self._named_at(_answer_at, found, second, nanosecond)
        saving = found.saving if found.is_kept else None
        return Answer(found.offset, found.is_saving, saving, _clock(found.clock), name, getattr(found, "from"), found.until)

    def clock_at(self, second: int, nanosecond: int = 0) -> Tuple[Clock, int]:
        """The local date and time of an instant, and the offset in force. Raises OutOfRange where the local date lies outside the years
        -9999 to 9999."""
        clock, offset = _RawClock(), ctypes.c_int32()
        handle, second, nanosecond = self._handle, _second(second), _nanosecond(nanosecond)
        status = handle.ask(_clock_at, second, nanosecond, ctypes.byref(clock), ctypes.byref(offset))
        if status:
            _raise(status, repr(self._name))
        return _clock(clock), offset.value

    def text_at(self, second: int, nanosecond: int = 0) -> str:
        """The text of an instant, `YYYY-MM-DD hh:mm:ss.nnnnnnnnn +hh:mm:ss`. Raises OutOfRange as `clock_at`."""
        text, whole = ctypes.create_string_buffer(40), ctypes.c_size_t()
        handle, second, nanosecond = self._handle, _second(second), _nanosecond(nanosecond)
        status = handle.ask(_text_at, second, nanosecond, text, 40, ctypes.byref(whole))
        if status:
            _raise(status, repr(self._name))
        return text.raw[: whole.value].decode()

    def saving_at(self, second: int, nanosecond: int = 0) -> int:
        """How many seconds of the offset at an instant are the saving: above 0 in daylight saving time, and below 0 where winter time
        is the one with a saving. Raises OutOfRange as `offset_at`, and NotKept."""
        return self._number_at(_saving_at, ctypes.c_int64(), second, nanosecond)

    def next_change(self, second: int) -> Optional[Change]:
        """The first change after a second, also where it changes nothing, or None where there is none up to the end of 9999. Raises
        OutOfRange where 64 bits don't hold the second."""
        change = _RawChange()
        handle, second = self._handle, _second(second)
        status = handle.ask(_next_change, second, ctypes.byref(change))
        if status == Status.NONE:
            return None
        if status:
            _raise(status, repr(self._name))
        return self._change(change) if change.second <= _LAST_SECOND else None

    def _change(self, raw: Any) -> Change:
        """A change with its abbreviation."""
        return Change(raw.second, raw.offset, raw.saving, self.in_force(raw.second).name, raw.differs)

    def changes(self, begin: int, end: int, *, every: bool = False) -> List[Change]:
        """The changes from the second `begin` on and before the second `end`, by time: those in which something differs, or with `every`
        also those that change nothing; none is told past the end of 9999. Raises OutOfRange as `next_change`."""
        room, count = 0, ctypes.c_size_t()
        found = (_RawChange * room)()
        handle, begin, end = self._handle, _second(begin), min(_second(end), _LAST_SECOND + 1)
        while True:
            status = handle.ask(_changes, begin, end, ctypes.byref(found), room, ctypes.byref(count))
            if status:
                _raise(status, repr(self._name))
            if count.value <= room:
                return [self._change(change) for change in found if every or change.differs]
            room = count.value
            found = (_RawChange * room)()

    def posix_tail(self) -> PosixTail:
        """The POSIX TZ string that carries the zone on after its last change, as zic writes it at a file's end, and whether POSIX has a
        place for the abbreviations in it. Raises NoTail and NotKept."""
        return self._string_by(_tail, TailCause)

    def tail_for_ever(self) -> PosixTail:
        """The string that carries the zone on in each year up to 9999, with times from -167 to 167 hours, as a file's end has it, and whether
        it is one of `posix_tail`'s with such names. Raises NoTail, with an EverCause, and NotKept."""
        return self._string_by(_tail_for_ever, EverCause)

    def _string_by(self, call: Callable[..., int], causes: Type[enum.IntEnum]) -> PosixTail:
        is_posix = ctypes.c_bool()
        told, cause = self._whole(call, 64, ctypes.byref(is_posix))
        if cause:
            raise NoTail(f"{self._name!r}: no string, {causes(cause).name}", cause=causes(cause))
        return PosixTail(told.decode(), is_posix.value)

    def to_tzif(self) -> bytes:
        """The zone's TZif file, which `zoneinfo.ZoneInfo.from_file` reads. Raises NoTzif, and NotKept."""
        return self._file_by(_tzif, TzifCause)

    def to_tzif_for_ever(self) -> bytes:
        """The zone's TZif file with the string of `tail_for_ever` at its end, right in each year. Raises NoTzif, with an EverCause, and
        NotKept."""
        return self._file_by(_tzif_for_ever, EverCause)

    def _file_by(self, call: Callable[..., int], causes: Type[enum.IntEnum]) -> bytes:
        told, cause = self._whole(call, 4096)
        if cause:
            raise NoTzif(f"{self._name!r}: no file, {causes(cause).name}", cause=causes(cause))
        return told

    def _whole(self, call: Callable[..., int], room: int, *answers: Any) -> Tuple[bytes, int]:
        """What a call puts into a room, which grows as it has to, or the number of the cause that there is none. Its other answers go to
        the places that are given."""
        whole, fault, handle = ctypes.c_size_t(), _RawFault(), self._handle
        while True:
            found = ctypes.create_string_buffer(room)
            status = handle.ask(call, found, room, ctypes.byref(whole), *answers, ctypes.byref(fault))
            if status == Status.NONE:
                return b"", fault.cause
            if status:
                _raise(status, repr(self._name))
            if whole.value <= room:
                return found.raw[: whole.value], 0
            room = whole.value

    def ring(self, local: Union[datetime.datetime, Clock]) -> Optional[Instant]:
        """When a daily alarm rings on the day and at the time of day of a local time: the first instant at which clocks show it, or
        None where they skip it. Raises OutOfRange and ValueError as `instants`."""
        clock, reading, handle = self._asked(local), _RawReading(), self._handle
        status = handle.ask(_ring, ctypes.byref(clock), ctypes.byref(reading))
        if status == Status.NONE:
            return None
        if status:
            _raise(status, repr(self._name))
        return Instant(reading.second, clock.nanosecond, reading.offset)

    def alarms(self, at: datetime.time, first: datetime.date, days: int) -> Iterator[Tuple[datetime.date, Optional[Instant]]]:
        """Each of so many days with its ring, as `ring`, of an alarm that is set to a time of day. OverflowError where a day lies past
        the year 9999."""
        for day in range(days):
            date = first + datetime.timedelta(days=day)
            yield date, self.ring(datetime.datetime.combine(date, at.replace(tzinfo=None)))

    def instants(self, local: Union[datetime.datetime, Clock]) -> List[Instant]:
        """All instants at which clocks show a local time, by time. A datetime's fold is left aside.

        Raises OutOfRange where the parts are no date or no time, or the year is outside -9999 to 9999, and ValueError where the datetime
        is attached to another zone, in which its parts are another local time: `replace(tzinfo=None)` leaves that aside, and
        `astimezone` converts."""
        clock = self._asked(local)
        readings, count, _ = self._read(clock)
        nanosecond = clock.nanosecond
        return [Instant(reading.second, nanosecond, reading.offset) for reading in readings[:count]]

    def gap(self, local: Union[datetime.datetime, Clock]) -> Optional[Gap]:
        """The change by which clocks skip a local time, or None where they show it. Raises OutOfRange and ValueError as `instants`."""
        _, count, gap = self._read(self._asked(local))
        return None if count else Gap(gap.second, gap.before, gap.after)

    def _asked(self, local: Union[datetime.datetime, Clock]) -> Any:
        """A local time of this zone, as it is passed."""
        if isinstance(local, datetime.datetime) and local.tzinfo is not None and local.tzinfo is not self:
            raise ValueError(f"{local!r} is a local time of another zone than {self._name!r}")
        return _raw_clock(local)

    def _read(self, clock: Any) -> Tuple[Any, int, Any]:
        """All readings of a local time, how many there are, and the gap where there are none."""
        readings, room, count, gap = _TwoReadings(), 2, ctypes.c_size_t(), _RawGap()
        handle = self._handle
        while True:
            status = handle.ask(_readings, ctypes.byref(clock), readings, room, ctypes.byref(count), ctypes.byref(gap))
            if status:
                _raise(status, repr(self._name))
            if count.value <= room:
                return readings, count.value, gap
            room = count.value
            readings = (_RawReading * room)()

    def _chosen(self, local: datetime.datetime) -> Tuple[int, int, int]:
        """The offset of a local time by PEP 495, and a second and nanosecond at which it is in force."""
        clock = _raw_clock(local)
        readings, count, gap = self._read(clock)
        if count:
            reading = readings[1 if local.fold and count > 1 else 0]
            return reading.offset, reading.second, clock.nanosecond
        return (gap.after, gap.second, 0) if local.fold else (gap.before, gap.second - 1, 0)

    def _never_changes(self) -> bool:
        """Whether nothing ever changes in the zone, so that it has an offset without a date."""
        if self._is_fixed is None:
            self._is_fixed = self._has_no_change()
        return self._is_fixed

    def _has_no_change(self) -> bool:
        second = -(2**63)
        while True:
            change = self.next_change(second)
            if change is None or change.differs:
                return change is None
            second = change.second

    def _utcoffset_of_none(self) -> Optional[datetime.timedelta]:
        return _delta(self.offset_at(0)) if self._never_changes() else None

    def _tzname_of_none(self) -> Optional[str]:
        return self.in_force(0).name if self._never_changes() else None

    def _dst_of_none(self) -> Optional[datetime.timedelta]:
        return self._saving_of(0, 0) if self._never_changes() else None

    def _saving_of(self, second: int, nanosecond: int) -> Optional[datetime.timedelta]:
        """The saving at an instant, or None in a zone that tells none."""
        try:
            return _delta(self.saving_at(second, nanosecond))
        except NotKept:
            return None

    def __repr__(self) -> str:
        return f"<{type(self).__module__}.{type(self).__qualname__} {self._name!r}>"

    def __str__(self) -> str:
        return self._name


def read_local(text: str) -> Clock:
    """The local time that a text `YYYY-MM-DD hh:mm:ss.nnnnnnnnn` names. Raises NotRead."""
    told = _utf8(text)
    clock = _RawClock()
    status = _read_local(told, len(told), ctypes.byref(clock))
    if status:
        _raise(status, repr(text))
    return _clock(clock)


def read_zoned(text: str) -> Instant:
    """The instant and the offset that a text `YYYY-MM-DD hh:mm:ss.nnnnnnnnn +hh:mm:ss` names, as `Zone.text_at` writes it. Raises
    NotRead."""
    told = _utf8(text)
    instant = _RawInstant()
    status = _read_zoned(told, len(told), ctypes.byref(instant))
    if status:
        _raise(status, repr(text))
    return Instant(instant.second, instant.nanosecond, instant.offset)
