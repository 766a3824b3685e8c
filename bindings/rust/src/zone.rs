//! A zone.

use crate::raw::{self, RawAnswer, RawFault, RawHandle, RawInForce, RawReading, DONE};
use crate::{done, Clock, Error, Gap, Handle, Instant};
use std::fmt;
use std::iter::FusedIterator;
use std::ops::Range;
use std::time::SystemTime;

/// A zone of the tz database.
///
/// Any number of threads may ask it at once:
///
/// ```
/// use sefunjaro::Source;
/// use std::thread;
///
/// let zone = Source::open(b"Zone A 1:00 - A\n")?.zone("A")?;
/// thread::scope(|scope| {
///     for _ in 0..8 {
///         scope.spawn(|| assert_eq!(zone.offset_at(0, 0), Ok(3600)));
///     }
/// });
/// # Ok::<(), sefunjaro::Error>(())
/// ```
pub struct Zone {
    handle: Handle,
    /// The name by which it was opened from a source.
    name: Option<Box<str>>,
}

/// What is in force in a zone.
#[derive(Clone, Debug, PartialEq, Eq, Hash)]
pub struct InForce {
    pub offset: i32,
    /// Whether there is daylight saving time: a saving above 0, or what a file marks as such.
    pub is_saving: bool,
    /// The abbreviation.
    pub name: String,
}

/// All that a zone says of an instant.
#[derive(Clone, Debug, PartialEq, Eq, Hash)]
pub struct Answer {
    pub offset: i32,
    /// Whether there is daylight saving time, as [`InForce`] tells it.
    pub is_saving: bool,
    /// How many seconds of the offset are the saving; of a zone of a file or of a POSIX string, none.
    pub saving: Option<i64>,
    /// What clocks show.
    pub clock: Clock,
    /// The abbreviation.
    pub name: String,
    /// Seconds, among them the instant's, throughout which all this but the local time holds: in a zone of a source those between two
    /// entries of it, and else those from the instant's on up to that at which another offset, abbreviation or kind of time comes.
    pub seconds: Range<i64>,
}

/// What a zone makes of a local time: its instants, or the change that skips it.
#[derive(Clone, Debug)]
pub enum LocalTime {
    Shown(Instants),
    Skipped(Gap),
}

/// Which instant of a local time is taken.
#[derive(Clone, Copy, Debug, PartialEq, Eq, Hash)]
pub enum Choice {
    /// The first at which clocks show it.
    Earlier,
    /// The last.
    Later,
    /// The one, where there is no other; else it is refused.
    Only,
}

impl Zone {
    pub(crate) fn of(handle: Handle, name: &str) -> Zone {
        Zone { handle, name: Some(name.into()) }
    }

    pub(crate) fn handle(&self) -> &Handle {
        &self.handle
    }

    /// Opens the zone of a compiled file (TZif, as below /usr/share/zoneinfo) from its bytes, which are used no more afterwards, with
    /// what its footer says from its last change on. Its saving is not kept.
    ///
    /// # Errors
    ///
    /// [`Error::File`], [`Error::NoMemory`].
    ///
    /// ```
    /// use sefunjaro::{Error, FileCause, Zone};
    ///
    /// assert_eq!(Zone::from_tzif(b"TZif").err(), Some(Error::File { cause: FileCause::Refused }));
    /// ```
    pub fn from_tzif(bytes: &[u8]) -> Result<Zone, Error> {
        Zone::opened(raw::sefunjaro_file_open, bytes)
    }

    /// Opens the zone that a POSIX string stands for at all times. Its saving is not kept.
    ///
    /// # Errors
    ///
    /// [`Error::NotRead`] where the text is no such string, [`Error::NoMemory`].
    ///
    /// ```
    /// use sefunjaro::{Error, Zone};
    ///
    /// let zone = Zone::from_posix("CET-1CEST,M3.5.0,M10.5.0/3")?;
    /// assert_eq!((zone.offset_at(1711846799, 0)?, zone.offset_at(1711846800, 0)?), (3600, 7200));
    /// assert_eq!(zone.saving_at(0, 0), Err(Error::NotKept));
    /// assert_eq!(Zone::from_posix("CET").err(), Some(Error::NotRead));
    /// # Ok::<(), sefunjaro::Error>(())
    /// ```
    pub fn from_posix(text: &str) -> Result<Zone, Error> {
        Zone::opened(raw::sefunjaro_posix_open, text.as_bytes())
    }

    fn opened(
        open: unsafe extern "C" fn(*const u8, usize, *mut RawHandle, *mut RawFault) -> u32,
        told: &[u8],
    ) -> Result<Zone, Error> {
        let mut handle = Handle::closed();
        let mut fault = RawFault::default();
        // SAFETY: the bytes are never null, nobody writes them during the call, and nothing overlaps.
        match unsafe { open(told.as_ptr(), told.len(), handle.at(), &mut fault) } {
            DONE => Ok(Zone { handle, name: None }),
            status => Err(Error::of_fault(status, &fault)),
        }
    }

    /// The name by which the zone was opened from a source; of a file or of a POSIX string, none.
    ///
    /// ```
    /// let zone = sefunjaro::Source::open(b"Zone A 1:00 - A\n")?.zone("A")?;
    /// assert_eq!(zone.name(), Some("A"));
    /// assert_eq!(sefunjaro::Zone::from_posix("AAA0")?.name(), None);
    /// # Ok::<(), sefunjaro::Error>(())
    /// ```
    pub fn name(&self) -> Option<&str> {
        self.name.as_deref()
    }

    /// Another value on the same zone, for a thread that outlives this one. The zone itself is there once.
    ///
    /// # Errors
    ///
    /// [`Error::NoMemory`].
    ///
    /// ```
    /// let zone = sefunjaro::Source::open(b"Zone A 1:00 - A\n")?.zone("A")?;
    /// let other = zone.share()?;
    /// drop(zone);
    /// assert_eq!(other.offset_at(0, 0), Ok(3600));
    /// # Ok::<(), sefunjaro::Error>(())
    /// ```
    pub fn share(&self) -> Result<Zone, Error> {
        let mut handle = Handle::closed();
        // SAFETY: the copy serves this call alone, and the two handles are not one.
        done(unsafe { raw::sefunjaro_share_by(&mut self.handle.copy(), handle.at()) })?;
        Ok(Zone { handle, name: self.name.clone() })
    }

    /// The system's time as an instant, with the offset in force.
    ///
    /// # Errors
    ///
    /// As [`Zone::offset_at`].
    ///
    /// ```
    /// use std::time::{SystemTime, UNIX_EPOCH};
    ///
    /// let zone = sefunjaro::Source::open(b"Zone A 1:00 - A\n")?.zone("A")?;
    /// assert_eq!(zone.instant_at(UNIX_EPOCH)?.to_string(), "1970-01-01 01:00:00.000000000 +01:00:00");
    /// println!("{}", zone.instant_at(SystemTime::now())?);
    /// # Ok::<(), sefunjaro::Error>(())
    /// ```
    pub fn instant_at(&self, time: SystemTime) -> Result<Instant, Error> {
        let instant = Instant::try_from(time)?;
        Ok(Instant { offset: self.offset_at(instant.second, instant.nanosecond)?, ..instant })
    }

    /// The offset in force at an instant.
    ///
    /// # Errors
    ///
    /// [`Error::OutOfRange`] more than 93,599 seconds outside the years -9999 to 9999, or where the nanosecond is a second or more.
    ///
    /// ```
    /// let zone = sefunjaro::Source::open(b"Zone A 1:00 - A\n")?.zone("A")?;
    /// assert_eq!(zone.offset_at(1711846800, 0), Ok(3600));
    /// assert_eq!(zone.offset_at(i64::MAX, 0), Err(sefunjaro::Error::OutOfRange));
    /// # Ok::<(), sefunjaro::Error>(())
    /// ```
    #[inline]
    pub fn offset_at(&self, second: i64, nanosecond: u32) -> Result<i32, Error> {
        let mut offset = 0;
        // SAFETY: the copy serves this call alone.
        done(unsafe { raw::sefunjaro_offset_at_by(&mut self.handle.copy(), second, nanosecond, &mut offset) })?;
        Ok(offset)
    }

    /// The offset, whether there is daylight saving time, and the abbreviation at an instant.
    ///
    /// # Errors
    ///
    /// As [`Zone::offset_at`].
    ///
    /// ```
    /// let zone = sefunjaro::Source::open(b"Zone A -5:00 - EST\n")?.zone("A")?;
    /// let found = zone.in_force(0, 0)?;
    /// assert_eq!((found.offset, found.is_saving, found.name.as_str()), (-18000, false, "EST"));
    /// # Ok::<(), sefunjaro::Error>(())
    /// ```
    pub fn in_force(&self, second: i64, nanosecond: u32) -> Result<InForce, Error> {
        let (found, name) = with_name(|name| {
            let mut found = RawInForce::default();
            // SAFETY: the copy serves this call alone, and the room is as long as is said.
            done(unsafe {
                raw::sefunjaro_in_force_by(&mut self.handle.copy(), second, nanosecond, &mut found, name.as_mut_ptr(), name.len())
            })?;
            Ok((found.name_length, found))
        })?;
        Ok(InForce { offset: found.offset, is_saving: found.is_saving, name })
    }

    /// All that the zone says of an instant, in one call.
    ///
    /// # Errors
    ///
    /// As [`Zone::clock_at`].
    ///
    /// ```
    /// let zone = sefunjaro::Source::open(b"Zone A 1:00 - A 2000\n 2:00 - B\n")?.zone("A")?;
    /// let answer = zone.answer_at(0, 0)?;
    /// assert_eq!((answer.offset, answer.saving, answer.name.as_str()), (3600, Some(0), "A"));
    /// assert_eq!((answer.clock.hour, answer.seconds), (1, i64::MIN..946681200));
    /// # Ok::<(), sefunjaro::Error>(())
    /// ```
    pub fn answer_at(&self, second: i64, nanosecond: u32) -> Result<Answer, Error> {
        let (told, name) = with_name(|name| {
            let mut told = RawAnswer::default();
            // SAFETY: the copy serves this call alone, and the room is as long as is said.
            done(unsafe {
                raw::sefunjaro_answer_at_by(&mut self.handle.copy(), second, nanosecond, &mut told, name.as_mut_ptr(), name.len())
            })?;
            Ok((told.name_length, told))
        })?;
        Ok(Answer {
            offset: told.offset,
            is_saving: told.is_saving,
            saving: told.is_kept.then_some(told.saving),
            clock: told.clock,
            name,
            seconds: told.from..told.until,
        })
    }

    /// The local date and time of an instant, and the offset in force.
    ///
    /// # Errors
    ///
    /// [`Error::OutOfRange`] where the local date lies outside the years -9999 to 9999, or the nanosecond is a second or more.
    ///
    /// ```
    /// let zone = sefunjaro::Source::open(b"Zone A 1:00 - A\n")?.zone("A")?;
    /// let (clock, offset) = zone.clock_at(0, 5)?;
    /// assert_eq!((clock.to_string().as_str(), offset), ("1970-01-01 01:00:00.000000005", 3600));
    /// # Ok::<(), sefunjaro::Error>(())
    /// ```
    #[inline]
    pub fn clock_at(&self, second: i64, nanosecond: u32) -> Result<(Clock, i32), Error> {
        let (mut clock, mut offset) = (Clock::default(), 0);
        // SAFETY: the copy serves this call alone.
        done(unsafe { raw::sefunjaro_clock_at_by(&mut self.handle.copy(), second, nanosecond, &mut clock, &mut offset) })?;
        Ok((clock, offset))
    }

    /// The text of an instant, `YYYY-MM-DD hh:mm:ss.nnnnnnnnn +hh:mm:ss` with a `-` before a year below 0.
    ///
    /// # Errors
    ///
    /// As [`Zone::clock_at`].
    ///
    /// ```
    /// let zone = sefunjaro::Source::open(b"Zone A 1:00 - A\n")?.zone("A")?;
    /// assert_eq!(zone.text_at(0, 5)?, "1970-01-01 01:00:00.000000005 +01:00:00");
    /// # Ok::<(), sefunjaro::Error>(())
    /// ```
    pub fn text_at(&self, second: i64, nanosecond: u32) -> Result<String, Error> {
        let mut text = vec![0; 40];
        let mut whole = 0;
        // SAFETY: the copy serves this call alone, and the room is as long as is said.
        done(unsafe {
            raw::sefunjaro_text_at_by(&mut self.handle.copy(), second, nanosecond, text.as_mut_ptr(), text.len(), &mut whole)
        })?;
        text.truncate(whole);
        String::from_utf8(text).map_err(|_| Error::Unexpected { status: 0, cause: 0 })
    }

    /// All instants at which clocks show a local time, by time: none where clocks skip it, most often one, two where they are set
    /// back over it, and more in zones without order.
    ///
    /// # Errors
    ///
    /// [`Error::OutOfRange`] where the parts are no date or no time, or the year lies outside -9999 to 9999.
    ///
    /// ```
    /// let zone = sefunjaro::Source::open(b"Zone A 2:00 - A 2000\n 1:00 - B\n")?.zone("A")?;
    /// let instants = zone.instants(&"1999-12-31 23:30:00.000000000".parse()?)?;
    /// assert_eq!(instants.map(|instant| instant.second).collect::<Vec<_>>(), [946675800, 946679400]);
    /// # Ok::<(), sefunjaro::Error>(())
    /// ```
    pub fn instants(&self, local: &Clock) -> Result<Instants, Error> {
        Ok(self.read(local)?.0)
    }

    /// The instants of a local time, or the change that skips it where there are none.
    ///
    /// # Errors
    ///
    /// As [`Zone::instants`].
    ///
    /// ```
    /// use sefunjaro::{LocalTime, Source};
    ///
    /// let zone = Source::open(b"Zone A 1:00 - A 2000\n 2:00 - B\n")?.zone("A")?;
    /// let LocalTime::Skipped(gap) = zone.local_time(&"2000-01-01 00:30:00.000000000".parse()?)? else { panic!() };
    /// assert_eq!((gap.second, gap.before, gap.after), (946681200, 3600, 7200));
    /// # Ok::<(), sefunjaro::Error>(())
    /// ```
    pub fn local_time(&self, local: &Clock) -> Result<LocalTime, Error> {
        let (instants, gap) = self.read(local)?;
        Ok(if instants.len() == 0 { LocalTime::Skipped(gap) } else { LocalTime::Shown(instants) })
    }

    /// One instant of a local time, as it is chosen.
    ///
    /// # Errors
    ///
    /// [`Error::Skipped`] with the change where clocks skip it, [`Error::Repeated`] where they show it again and the choice is
    /// [`Choice::Only`], and as [`Zone::instants`].
    ///
    /// ```
    /// use sefunjaro::{Choice, Error, Source};
    ///
    /// let zone = Source::open(b"Zone A 2:00 - A 2000\n 1:00 - B\n")?.zone("A")?;
    /// let twice = "1999-12-31 23:30:00.000000000".parse()?;
    /// let (earlier, later) = (zone.instant(&twice, Choice::Earlier)?, zone.instant(&twice, Choice::Later)?);
    /// assert_eq!((earlier.offset, later.offset), (7200, 3600));
    /// assert_eq!(zone.instant(&twice, Choice::Only), Err(Error::Repeated { first: 946675800, last: 946679400 }));
    /// # Ok::<(), sefunjaro::Error>(())
    /// ```
    pub fn instant(&self, local: &Clock, choice: Choice) -> Result<Instant, Error> {
        let (instants, gap) = self.read(local)?;
        let (Some(first), Some(last)) = (instants.at(0), instants.at(instants.count.wrapping_sub(1))) else {
            return Err(Error::Skipped { gap });
        };
        match choice {
            Choice::Only if first != last => Err(Error::Repeated { first: first.second, last: last.second }),
            Choice::Later => Ok(last),
            Choice::Earlier | Choice::Only => Ok(first),
        }
    }

    fn read(&self, local: &Clock) -> Result<(Instants, Gap), Error> {
        let mut two = [RawReading::default(); 2];
        let (count, gap) = self.fill(local, &mut two)?;
        let mut instants = Instants { two, more: Vec::new(), next: 0, count, nanosecond: local.nanosecond };
        if count > two.len() {
            instants.more = vec![RawReading::default(); count];
            self.fill(local, &mut instants.more)?;
        }
        Ok((instants, gap))
    }

    fn fill(&self, local: &Clock, room: &mut [RawReading]) -> Result<(usize, Gap), Error> {
        let (mut count, mut gap) = (0, Gap::default());
        // SAFETY: the copy serves this call alone, the room is as long as is said, and nothing overlaps.
        done(unsafe {
            raw::sefunjaro_readings_by(&mut self.handle.copy(), local, room.as_mut_ptr(), room.len(), &mut count, &mut gap)
        })?;
        Ok((count, gap))
    }
}

/// What a call tells that writes an abbreviation, with the whole of it: where it is longer than the room, the call is made again with
/// room for all. The call answers how long it is, too.
fn with_name<T>(mut call: impl FnMut(&mut [u8]) -> Result<(usize, T), Error>) -> Result<(T, String), Error> {
    let mut name = vec![0; 16];
    loop {
        let (length, told) = call(&mut name)?;
        let is_whole = length <= name.len();
        name.resize(length, 0);
        if is_whole {
            let name = String::from_utf8(name).map_err(|_| Error::Unexpected { status: 0, cause: 0 })?;
            return Ok((told, name));
        }
    }
}

impl fmt::Debug for Zone {
    fn fmt(&self, out: &mut fmt::Formatter<'_>) -> fmt::Result {
        out.debug_struct("Zone").field("name", &self.name).finish_non_exhaustive()
    }
}

/// The instants of a local time, by time.
#[derive(Clone)]
pub struct Instants {
    two: [RawReading; 2],
    /// All of them, where there are more than two.
    more: Vec<RawReading>,
    next: usize,
    count: usize,
    nanosecond: u32,
}

impl Instants {
    fn at(&self, place: usize) -> Option<Instant> {
        let all = if self.more.is_empty() { &self.two[..self.count] } else { &self.more[..] };
        let found = all.get(place)?;
        Some(Instant { second: found.second, nanosecond: self.nanosecond, offset: found.offset })
    }
}

impl Iterator for Instants {
    type Item = Instant;

    fn next(&mut self) -> Option<Instant> {
        let found = self.at(self.next)?;
        self.next += 1;
        Some(found)
    }

    fn size_hint(&self) -> (usize, Option<usize>) {
        let left = self.count - self.next;
        (left, Some(left))
    }
}

impl ExactSizeIterator for Instants {}

impl FusedIterator for Instants {}

impl fmt::Debug for Instants {
    fn fmt(&self, out: &mut fmt::Formatter<'_>) -> fmt::Result {
        out.debug_list().entries(self.clone()).finish()
    }
}
