//! Instants, as texts and as the system's time.

use crate::{done, raw, Clock, Error};
use std::fmt;
use std::str::FromStr;
use std::time::{Duration, SystemTime, UNIX_EPOCH};

const SECOND: u32 = 1_000_000_000;
const DAY: i128 = 86400;

/// An instant, and an offset: of an instant at which clocks show a local time, the one in force then.
#[derive(Clone, Copy, Debug, PartialEq, Eq, Hash)]
pub struct Instant {
    pub second: i64,
    pub nanosecond: u32,
    pub offset: i32,
}

/// The instant and the offset that a text `YYYY-MM-DD hh:mm:ss.nnnnnnnnn +hh:mm:ss` names, as [`Zone::text_at`](crate::Zone::text_at)
/// writes it.
///
/// # Errors
///
/// [`Error::NotRead`] for any other text.
///
/// ```
/// let read: sefunjaro::Instant = "1969-12-31 18:59:59.000000005 -05:00:00".parse()?;
/// assert_eq!((read.second, read.nanosecond, read.offset), (-1, 5, -18000));
/// assert_eq!("1969-12-31".parse::<sefunjaro::Instant>(), Err(sefunjaro::Error::NotRead));
/// # Ok::<(), sefunjaro::Error>(())
/// ```
impl FromStr for Instant {
    type Err = Error;

    fn from_str(text: &str) -> Result<Instant, Error> {
        let mut read = raw::RawInstant::default();
        // SAFETY: the text is never null, and nothing overlaps.
        done(unsafe { raw::sefunjaro_read_zoned(text.as_ptr(), text.len(), &mut read) })?;
        Ok(Instant { second: read.second, nanosecond: read.nanosecond, offset: read.offset })
    }
}

/// The year, the month and the day of a number of days from 1970-01-01 on, in the Gregorian calendar without end.
fn date_of(days: i128) -> (i128, u8, u8) {
    // Days are counted from 0000-03-01 on, so that February 29 is the last of its year; 146,097 of them are 400 years.
    let days = days + 719_468;
    let (cycle, day) = (days.div_euclid(146_097), days.rem_euclid(146_097));
    let year = (day - day / 1460 + day / 36_524 - day / 146_096) / 365;
    let day = day - (365 * year + year / 4 - year / 100);
    let month = (5 * day + 2) / 153;
    let is_next_year = month >= 10;
    let number = if is_next_year { month - 9 } else { month + 3 };
    (cycle * 400 + year + i128::from(is_next_year), number as u8, (day - (153 * month + 2) / 5 + 1) as u8)
}

/// The text that [`FromStr`] reads, where the year is one of -9999 to 9999.
///
/// ```
/// let instant = sefunjaro::Instant { second: -1, nanosecond: 5, offset: -18000 };
/// assert_eq!(instant.to_string(), "1969-12-31 18:59:59.000000005 -05:00:00");
/// ```
impl fmt::Display for Instant {
    fn fmt(&self, out: &mut fmt::Formatter<'_>) -> fmt::Result {
        let local = i128::from(self.second) + i128::from(self.offset);
        let (year, month, day) = date_of(local.div_euclid(DAY));
        let time = local.rem_euclid(DAY);
        let (sign, offset) = (if self.offset < 0 { '-' } else { '+' }, self.offset.unsigned_abs());
        write!(out, "{}{:04}-{month:02}-{day:02}", if year < 0 { "-" } else { "" }, year.unsigned_abs())?;
        write!(out, " {:02}:{:02}:{:02}.{:09}", time / 3600, time / 60 % 60, time % 60, self.nanosecond)?;
        write!(out, " {sign}{:02}:{:02}:{:02}", offset / 3600, offset / 60 % 60, offset % 60)
    }
}

/// The text that [`FromStr`] reads, where the parts are a date of the years -9999 to 9999 and a time.
///
/// ```
/// let clock: sefunjaro::Clock = "-0044-03-15 12:30:00.000000001".parse()?;
/// assert_eq!(clock.to_string(), "-0044-03-15 12:30:00.000000001");
/// # Ok::<(), sefunjaro::Error>(())
/// ```
impl fmt::Display for Clock {
    fn fmt(&self, out: &mut fmt::Formatter<'_>) -> fmt::Result {
        let Clock { year, month, day, hour, minute, second, nanosecond } = self;
        write!(out, "{}{:04}-{month:02}-{day:02}", if *year < 0 { "-" } else { "" }, year.unsigned_abs())?;
        write!(out, " {hour:02}:{minute:02}:{second:02}.{nanosecond:09}")
    }
}

/// The instant as the system's time; its offset is left aside.
///
/// # Errors
///
/// [`Error::OutOfRange`] where the system's time doesn't reach it, or the nanosecond is a second or more.
///
/// ```
/// use std::time::{Duration, SystemTime, UNIX_EPOCH};
///
/// let instant: sefunjaro::Instant = "1970-01-01 02:00:01.500000000 +02:00:00".parse()?;
/// assert_eq!(SystemTime::try_from(instant)?, UNIX_EPOCH + Duration::from_millis(1500));
/// # Ok::<(), sefunjaro::Error>(())
/// ```
impl TryFrom<Instant> for SystemTime {
    type Error = Error;

    fn try_from(instant: Instant) -> Result<SystemTime, Error> {
        let seconds = Duration::from_secs(instant.second.unsigned_abs());
        let whole = if instant.second < 0 { UNIX_EPOCH.checked_sub(seconds) } else { UNIX_EPOCH.checked_add(seconds) };
        let part = Duration::from_nanos(instant.nanosecond.into());
        whole.filter(|_| instant.nanosecond < SECOND).and_then(|whole| whole.checked_add(part)).ok_or(Error::OutOfRange)
    }
}

/// The system's time as an instant, at the offset 0 of UTC; [`Zone::instant_at`](crate::Zone::instant_at) has a zone's.
///
/// # Errors
///
/// [`Error::OutOfRange`] where 64 bits don't hold the second.
///
/// ```
/// use std::time::{Duration, UNIX_EPOCH};
///
/// let instant = sefunjaro::Instant::try_from(UNIX_EPOCH - Duration::from_millis(500))?;
/// assert_eq!((instant.second, instant.nanosecond, instant.offset), (-1, 500_000_000, 0));
/// # Ok::<(), sefunjaro::Error>(())
/// ```
impl TryFrom<SystemTime> for Instant {
    type Error = Error;

    fn try_from(time: SystemTime) -> Result<Instant, Error> {
        let (second, nanosecond) = match time.duration_since(UNIX_EPOCH) {
            Ok(after) => (i128::from(after.as_secs()), after.subsec_nanos()),
            Err(error) => {
                let before = error.duration();
                let part = before.subsec_nanos();
                (-i128::from(before.as_secs()) - i128::from(part > 0), (SECOND - part) % SECOND)
            }
        };
        let second = i64::try_from(second).map_err(|_| Error::OutOfRange)?;
        Ok(Instant { second, nanosecond, offset: 0 })
    }
}
