//! The zones of the tz database, asked at instants and at local times, by the proved engine of `libsefunjaro`.
//!
//! The library is the archive in the folder that the environment variable `SEFUNJARO_FOLDER` names, or else the one that pkg-config knows.
//!
//! ```
//! # std::env::set_var("SEFUNJARO_TZDATA", "tests/small.zi");
//! use sefunjaro::{Clock, Zone};
//!
//! let paris = Zone::named("Europe/Paris")?;
//! assert_eq!(paris.offset_at(1711846800, 0)?, 7200);
//!
//! let twice = Clock { year: 2024, month: 10, day: 27, hour: 2, minute: 30, second: 0, nanosecond: 0 };
//! let offsets: Vec<i32> = paris.instants(&twice)?.map(|instant| instant.offset).collect();
//! assert_eq!(offsets, [7200, 3600]);
//! # Ok::<(), Box<dyn std::error::Error>>(())
//! ```
//!
//! [`Zone::named`] takes the machine's own source, as that of the package tzdata, [`Source::open`] one of your own, in any form that zic
//! reads; [`Zone::from_tzif`] takes a compiled file, and [`Zone::from_posix`] a POSIX string.
//!
//! Instants are seconds from 1970-01-01 00:00:00 UTC and nanoseconds, from 0 to 999,999,999; offsets are seconds east of UTC, at most
//! 93,599 to either side. Any number of threads may ask one value at once (it is [`Send`] and [`Sync`]); [`Zone::share`] gives a thread a
//! value of its own on the same zone. An answer that is or has a `String` or a `Vec` takes memory, and so does a local time with more
//! than two instants, which no zone of the tz database has. Other look-ups take none: the library's calls behind them are passed no
//! allocator, and none of them answers that there was no memory.

mod changes;
mod error;
mod instant;
mod lists;
mod named;
mod raw;
mod source;
mod whole;
mod zone;

pub use changes::{Change, Changes};
pub use error::{Error, EverCause, FileCause, JoinCause, LineCause, PlainCause, ScheduleCause, TailCause, TzifCause};
pub use instant::Instant;
pub use lists::{Fold, Found, GapRule, Kind};
pub use named::{machine_source, NamedError};
pub use source::{Names, Source};
pub use whole::PosixTail;
pub use zone::{Answer, Choice, InForce, Instants, LocalTime, Zone};

use raw::{RawHandle, DONE};
use std::ops::RangeInclusive;
use std::str::FromStr;

/// A local date and a time of day. Any numbers may stand in it; a call answers [`Error::OutOfRange`] where they are no date or no time.
#[repr(C)]
#[derive(Clone, Copy, Debug, Default, PartialEq, Eq, PartialOrd, Ord, Hash)]
pub struct Clock {
    /// The year; the year before 1 is 0.
    pub year: i32,
    pub month: u8,
    pub day: u8,
    pub hour: u8,
    pub minute: u8,
    pub second: u8,
    pub nanosecond: u32,
}

/// The local time that a text `YYYY-MM-DD hh:mm:ss.nnnnnnnnn` names, with a `-` before a year below 0.
///
/// # Errors
///
/// [`Error::NotRead`] for any other text.
///
/// ```
/// let local: sefunjaro::Clock = "2024-03-31 02:30:00.000000000".parse()?;
/// assert_eq!((local.year, local.hour), (2024, 2));
/// assert_eq!("2024-03-31".parse::<sefunjaro::Clock>(), Err(sefunjaro::Error::NotRead));
/// # Ok::<(), sefunjaro::Error>(())
/// ```
impl FromStr for Clock {
    type Err = Error;

    fn from_str(text: &str) -> Result<Clock, Error> {
        let mut clock = Clock::default();
        // SAFETY: the text is never null, and nothing overlaps.
        let status = unsafe { raw::sefunjaro_read_local(text.as_ptr(), text.len(), &mut clock) };
        done(status).map(|()| clock)
    }
}

/// A change by which clocks are set ahead over a local time.
#[repr(C)]
#[derive(Clone, Copy, Debug, Default, PartialEq, Eq, Hash)]
pub struct Gap {
    /// The second of the change.
    pub second: i64,
    /// The offset in force up to it.
    pub before: i32,
    /// The offset in force from it on.
    pub after: i32,
}

/// The version of the library's calls, as `SEFUNJARO_VERSION` of its header.
///
/// ```
/// assert_eq!(sefunjaro::version(), "2.0.0");
/// ```
pub fn version() -> String {
    let mut text = vec![0; 32];
    let (mut whole, mut years) = (0, raw::RawYears::default());
    // SAFETY: the room is as long as is said, and nothing overlaps.
    unsafe { raw::sefunjaro_version(text.as_mut_ptr(), text.len(), &mut whole, &mut years) };
    text.truncate(whole);
    String::from_utf8_lossy(&text).into_owned()
}

/// The years that the rules of a source are worked out for. Before the first nothing changes in a zone, and after the last no rule fires
/// in one that doesn't go on for ever: [`Zone::last_year`] tells.
///
/// ```
/// assert_eq!(sefunjaro::rule_years(), 1800..=2099);
/// ```
pub fn rule_years() -> RangeInclusive<i32> {
    let (mut none, mut whole, mut years) = ([0; 1], 0, raw::RawYears::default());
    // SAFETY: the room is as long as is said, and nothing overlaps.
    unsafe { raw::sefunjaro_version(none.as_mut_ptr(), 0, &mut whole, &mut years) };
    years.first..=years.last
}

fn done(status: u32) -> Result<(), Error> {
    if status == DONE {
        Ok(())
    } else {
        Err(Error::of_status(status))
    }
}

/// A handle of the library. Calls that open or close it have it alone; those that read it take a copy.
struct Handle(RawHandle);

// SAFETY: a handle may go to another thread where the calls are ordered, and moving a value between threads orders them.
unsafe impl Send for Handle {}

// SAFETY: whoever has a `&` copies the handle, and calls over copies may run at once, while nobody opens, closes or moves it.
unsafe impl Sync for Handle {}

impl Handle {
    fn closed() -> Handle {
        Handle(RawHandle::CLOSED)
    }

    fn at(&mut self) -> *mut RawHandle {
        &mut self.0
    }

    fn copy(&self) -> RawHandle {
        self.0.copy()
    }
}

impl Drop for Handle {
    fn drop(&mut self) {
        // SAFETY: nobody else has the handle.
        unsafe { raw::sefunjaro_close(self.at()) }
    }
}
