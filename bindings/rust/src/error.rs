//! What the library refuses.

use crate::raw::{
    RawFault, BAD_JOIN, BAD_LINE, NONE, NOT_KEPT, NOT_OPEN, NOT_READ, NOT_TEXT, NO_MEMORY, NO_PLAIN_FORM, NO_SCHEDULE, OFFSET_RANGE,
    OUT_OF_RANGE, TOO_LONG, UNKNOWN_ZONE,
};
use crate::Gap;
use std::fmt;

/// Why a call was refused. A `line` is that of the source, from 1; of [`Source::open`](crate::Source::open) it is that of the text where
/// the error is `NoPlainForm`, and else that of the text's plain form.
#[derive(Clone, Copy, Debug, PartialEq, Eq)]
#[non_exhaustive]
pub enum Error {
    /// There is no memory.
    NoMemory,
    /// The source is longer than 16,777,216 bytes.
    TooLong,
    /// A line of the source is not UTF-8.
    NotText { line: usize },
    /// A line of the source can't be read.
    BadLine { line: usize, cause: LineCause },
    /// A line of the source may not follow those before it.
    BadJoin { line: usize, cause: JoinCause },
    /// A source in any form has no plain form.
    NoPlainForm { line: usize, cause: PlainCause },
    /// The plain form of a source would be longer than 16,777,216 bytes.
    PlainTooLong,
    /// The name is that of no zone, and of no link to one.
    UnknownZone,
    /// The zone has no schedule.
    NoSchedule { cause: ScheduleCause },
    /// No string carries the zone on.
    NoTail { cause: TailCause },
    /// The zone has no TZif file.
    NoTzif { cause: TzifCause },
    /// The zone has no string, or no TZif file, for ever.
    NotForEver { cause: EverCause },
    /// Some offset of the zone is 26 hours or more in size.
    OffsetRange,
    /// A date lies outside the years -9999 to 9999, an instant does by more than 93,599 seconds, the greatest offset, or the parts are no
    /// date, no time or no instant.
    OutOfRange,
    /// The text is none of those that are read.
    NotRead,
    /// The bytes are no compiled file that is read.
    File { cause: FileCause },
    /// The zone is that of a file or of a POSIX string, of which this is not asked.
    NotKept,
    /// Clocks skip the local time of which an instant was to be chosen.
    Skipped { gap: Gap },
    /// Clocks show the local time again, of which the only instant was to be chosen; the first and the last second at which they do.
    Repeated { first: i64, last: i64 },
    /// The library answered a status, or told a cause, that this crate doesn't know: the archive is of another version.
    Unexpected { status: u32, cause: u32 },
}

/// Why a line of a source can't be read.
#[derive(Clone, Copy, Debug, PartialEq, Eq)]
#[non_exhaustive]
pub enum LineCause {
    FailedYearParse,
    FailedMonthParse,
    FailedWeekdayParse,
    InvalidLineType,
    TypeColumnContainedNonHyphen,
    CouldNotParseSaving,
    InvalidDaySpec,
    InvalidTimeSpecAndType,
    NonWallClockInTimeSpec,
}

/// Why a line of a source may not follow those before it.
#[derive(Clone, Copy, Debug, PartialEq, Eq)]
#[non_exhaustive]
pub enum JoinCause {
    SurpriseContinuationLine,
    UnknownRuleset,
    DuplicateLink,
    DuplicateZone,
}

/// Why a line of a source in any form has no plain form. The header says more of each.
#[derive(Clone, Copy, Debug, PartialEq, Eq)]
#[non_exhaustive]
pub enum PlainCause {
    NotText,
    Quotes,
    LineType,
    FieldCount,
    RulesetName,
    Year,
    YearOrder,
    Type,
    Month,
    Day,
    Time,
    Saving,
    Format,
    Unsayable,
    Continuation,
    UnknownRuleset,
    DuplicateZone,
    LinkIsZone,
    DuplicateLink,
    Target,
    Name,
}

/// Why a zone has no schedule.
#[derive(Clone, Copy, Debug, PartialEq, Eq)]
#[non_exhaustive]
pub enum ScheduleCause {
    UnknownRuleset,
    MissingUntil,
    YearRange,
    RuleYears,
    DayRange,
    NoStandardSpan,
}

/// Why a compiled file is not read.
#[derive(Clone, Copy, Debug, PartialEq, Eq)]
#[non_exhaustive]
pub enum FileCause {
    /// It is no TZif file, or has leap seconds or an offset of 26 hours or more.
    Refused,
    /// Its footer is not empty, and no POSIX string of those that are read.
    Footer,
}

const FILE_CAUSES: [FileCause; 2] = [FileCause::Refused, FileCause::Footer];

/// Why a zone has no string that carries it on. The header says more of each.
#[derive(Clone, Copy, Debug, PartialEq, Eq)]
#[non_exhaustive]
pub enum TailCause {
    Shape,
    OffsetRange,
    Name,
}

/// Why a zone has no TZif file. The header says more of each.
#[derive(Clone, Copy, Debug, PartialEq, Eq)]
#[non_exhaustive]
pub enum TzifCause {
    Times,
    Types,
    Names,
}

/// Why a zone has no string or no TZif file for ever. The header says more of each.
#[derive(Clone, Copy, Debug, PartialEq, Eq)]
#[non_exhaustive]
pub enum EverCause {
    Shape,
    OffsetRange,
    Name,
    NoRule,
    Times,
    Types,
    Names,
    RulesEnd,
    Saving,
}

const LINE_CAUSES: [LineCause; 9] = [
    LineCause::FailedYearParse,
    LineCause::FailedMonthParse,
    LineCause::FailedWeekdayParse,
    LineCause::InvalidLineType,
    LineCause::TypeColumnContainedNonHyphen,
    LineCause::CouldNotParseSaving,
    LineCause::InvalidDaySpec,
    LineCause::InvalidTimeSpecAndType,
    LineCause::NonWallClockInTimeSpec,
];

const JOIN_CAUSES: [JoinCause; 4] = [
    JoinCause::SurpriseContinuationLine,
    JoinCause::UnknownRuleset,
    JoinCause::DuplicateLink,
    JoinCause::DuplicateZone,
];

const PLAIN_CAUSES: [PlainCause; 20] = [
    PlainCause::NotText,
    PlainCause::Quotes,
    PlainCause::LineType,
    PlainCause::FieldCount,
    PlainCause::RulesetName,
    PlainCause::Year,
    PlainCause::YearOrder,
    PlainCause::Type,
    PlainCause::Month,
    PlainCause::Day,
    PlainCause::Time,
    PlainCause::Saving,
    PlainCause::Format,
    PlainCause::Unsayable,
    PlainCause::Continuation,
    PlainCause::UnknownRuleset,
    PlainCause::DuplicateZone,
    PlainCause::LinkIsZone,
    PlainCause::DuplicateLink,
    PlainCause::Target,
];

/// The number of the cause that no line is to blame for.
const PLAIN_TOO_LONG: u32 = 21;

/// The number of a bad name, which stands behind it.
const PLAIN_NAME: u32 = 22;

const SCHEDULE_CAUSES: [ScheduleCause; 6] = [
    ScheduleCause::UnknownRuleset,
    ScheduleCause::MissingUntil,
    ScheduleCause::YearRange,
    ScheduleCause::RuleYears,
    ScheduleCause::DayRange,
    ScheduleCause::NoStandardSpan,
];

const TAIL_CAUSES: [TailCause; 3] = [TailCause::Shape, TailCause::OffsetRange, TailCause::Name];

const TZIF_CAUSES: [TzifCause; 3] = [TzifCause::Times, TzifCause::Types, TzifCause::Names];

const EVER_CAUSES: [EverCause; 9] = [
    EverCause::Shape,
    EverCause::OffsetRange,
    EverCause::Name,
    EverCause::NoRule,
    EverCause::Times,
    EverCause::Types,
    EverCause::Names,
    EverCause::RulesEnd,
    EverCause::Saving,
];

/// The cause of a number, which counts from 1.
fn numbered<Cause: Copy>(causes: &[Cause], number: u32) -> Option<Cause> {
    causes.get((number as usize).checked_sub(1)?).copied()
}

impl Error {
    /// What a status other than DONE stands for, where the call tells no fault.
    pub(crate) fn of_status(status: u32) -> Error {
        Error::of_fault(status, &RawFault::default())
    }

    /// What a status other than DONE stands for, of a call that asks for a zone's string.
    pub(crate) fn of_tail(status: u32, fault: &RawFault) -> Error {
        let cause = if status == NONE { numbered(&TAIL_CAUSES, fault.cause) } else { None };
        cause.map_or_else(|| Error::of_fault(status, fault), |cause| Error::NoTail { cause })
    }

    /// The same of a zone's file.
    pub(crate) fn of_tzif(status: u32, fault: &RawFault) -> Error {
        let cause = if status == NONE { numbered(&TZIF_CAUSES, fault.cause) } else { None };
        cause.map_or_else(|| Error::of_fault(status, fault), |cause| Error::NoTzif { cause })
    }

    /// The same of its string or its file for ever.
    pub(crate) fn of_ever(status: u32, fault: &RawFault) -> Error {
        let cause = if status == NONE { numbered(&EVER_CAUSES, fault.cause) } else { None };
        cause.map_or_else(|| Error::of_fault(status, fault), |cause| Error::NotForEver { cause })
    }

    /// What a status other than DONE and the fault of its call stand for.
    pub(crate) fn of_fault(status: u32, fault: &RawFault) -> Error {
        let line = fault.line;
        let told = match status {
            NO_MEMORY => Some(Error::NoMemory),
            TOO_LONG => Some(Error::TooLong),
            NOT_TEXT => Some(Error::NotText { line }),
            BAD_LINE => numbered(&LINE_CAUSES, fault.cause).map(|cause| Error::BadLine { line, cause }),
            BAD_JOIN => numbered(&JOIN_CAUSES, fault.cause).map(|cause| Error::BadJoin { line, cause }),
            NO_PLAIN_FORM if fault.cause == PLAIN_TOO_LONG => Some(Error::PlainTooLong),
            NO_PLAIN_FORM if fault.cause == PLAIN_NAME => Some(Error::NoPlainForm { line, cause: PlainCause::Name }),
            NO_PLAIN_FORM => numbered(&PLAIN_CAUSES, fault.cause).map(|cause| Error::NoPlainForm { line, cause }),
            UNKNOWN_ZONE => Some(Error::UnknownZone),
            NO_SCHEDULE => numbered(&SCHEDULE_CAUSES, fault.cause).map(|cause| Error::NoSchedule { cause }),
            OFFSET_RANGE => Some(Error::OffsetRange),
            OUT_OF_RANGE => Some(Error::OutOfRange),
            NOT_READ if fault.cause == 0 => Some(Error::NotRead),
            NOT_READ => numbered(&FILE_CAUSES, fault.cause).map(|cause| Error::File { cause }),
            NOT_KEPT => Some(Error::NotKept),
            // A value of this crate is always open and a name is asked for below the count, so these two are never met.
            NOT_OPEN | NONE => None,
            _ => None,
        };
        told.unwrap_or(Error::Unexpected { status, cause: fault.cause })
    }
}

impl fmt::Display for Error {
    fn fmt(&self, out: &mut fmt::Formatter<'_>) -> fmt::Result {
        match self {
            Error::NoMemory => write!(out, "no memory"),
            Error::TooLong => write!(out, "the source is longer than 16,777,216 bytes"),
            Error::NotText { line } => write!(out, "line {line}: not UTF-8"),
            Error::BadLine { line, cause } => write!(out, "line {line}: {cause:?}"),
            Error::BadJoin { line, cause } => write!(out, "line {line}: {cause:?}"),
            Error::NoPlainForm { line, cause } => write!(out, "line {line}: no plain form, {cause:?}"),
            Error::PlainTooLong => write!(out, "the source's plain form would be longer than 16,777,216 bytes"),
            Error::UnknownZone => write!(out, "unknown zone"),
            Error::NoSchedule { cause } => write!(out, "no schedule: {cause:?}"),
            Error::NoTail { cause } => write!(out, "no string carries the zone on: {cause:?}"),
            Error::NoTzif { cause } => write!(out, "no TZif file: {cause:?}"),
            Error::NotForEver { cause } => write!(out, "nothing carries the zone on for ever: {cause:?}"),
            Error::OffsetRange => write!(out, "an offset of 26 hours or more"),
            Error::OutOfRange => write!(out, "out of range"),
            Error::NotRead => write!(out, "not a text that is read"),
            Error::File { cause } => write!(out, "no compiled file that is read: {cause:?}"),
            Error::Skipped { gap } => write!(out, "clocks skip the local time: from {} to {} at {}", gap.before, gap.after, gap.second),
            Error::Repeated { first, last } => write!(out, "clocks show the local time again: {first}, {last}"),
            Error::NotKept => write!(out, "of a zone of a file or of a POSIX string this is not asked"),
            Error::Unexpected { status, cause } => write!(out, "the library answered status {status} with cause {cause}"),
        }
    }
}

impl std::error::Error for Error {}
