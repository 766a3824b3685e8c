//! The changes of a zone.

use crate::raw::{self, DONE, NONE};
use crate::{done, Clock, Error, Instant, Zone};
use std::iter::FusedIterator;

/// A change: what is in force in a zone from a second on. [`Zone::in_force`] tells the abbreviation itself.
#[repr(C)]
#[derive(Clone, Copy, Debug, Default, PartialEq, Eq, Hash)]
pub struct Change {
    pub second: i64,
    /// The offset that is in force from it on.
    pub offset: i32,
    /// How many seconds of the offset are the saving; below 0 where winter time is the one with a saving.
    pub saving: i64,
    /// How many bytes the abbreviation has.
    pub name_length: usize,
    /// Whether the offset, the saving or the abbreviation is another than just before the second.
    pub differs: bool,
}

impl Zone {
    /// How many seconds of the offset at an instant are the saving: above 0 in daylight saving time, and below 0 where winter time is
    /// the one with a saving.
    ///
    /// # Errors
    ///
    /// As [`Zone::offset_at`], and [`Error::NotKept`].
    ///
    /// ```
    /// let zone = sefunjaro::Source::open(b"Zone A 1:00 1:00 A\n")?.zone("A")?;
    /// assert_eq!((zone.offset_at(0, 0)?, zone.saving_at(0, 0)?), (7200, 3600));
    /// # Ok::<(), sefunjaro::Error>(())
    /// ```
    #[inline]
    pub fn saving_at(&self, second: i64, nanosecond: u32) -> Result<i64, Error> {
        let mut saving = 0;
        // SAFETY: the copy serves this call alone.
        done(unsafe { raw::sefunjaro_saving_at_by(&mut self.handle().copy(), second, nanosecond, &mut saving) })?;
        Ok(saving)
    }

    /// The first change after a second, also where it changes nothing, or none. The saving of a zone of a file or of a POSIX string is an
    /// hour where it is daylight saving time, since these say no more.
    ///
    /// ```
    /// let zone = sefunjaro::Source::open(b"Zone A 1:00 - A 2000 Jan 1\n 2:00 - B\n")?.zone("A")?;
    /// assert_eq!(zone.next_change(0).map(|change| (change.second, change.offset)), Some((946681200, 7200)));
    /// assert_eq!(zone.next_change(946681200), None);
    /// # Ok::<(), sefunjaro::Error>(())
    /// ```
    #[inline]
    pub fn next_change(&self, second: i64) -> Option<Change> {
        let mut change = Change::default();
        // SAFETY: the copy serves this call alone.
        let status = unsafe { raw::sefunjaro_next_change_by(&mut self.handle().copy(), second, &mut change) };
        (status == DONE).then_some(change)
    }

    /// The last year up to whose end the zone says what is in force: 9999 where its lines go on for ever, as those of every zone of the tz
    /// database do, and where it is that of a file or of a POSIX string; else that of [`rule_years`](crate::rule_years), after which no rule
    /// fires.
    ///
    /// # Errors
    ///
    /// None today.
    ///
    /// ```
    /// use sefunjaro::{Error, Source, Zone};
    ///
    /// assert_eq!(Source::open(b"Zone A 1:00 - A\n")?.zone("A")?.last_year(), Ok(9999));
    /// assert_eq!(Source::open(b"Zone A 1:00 - A 2150\n 2:00 - B\n")?.zone("A")?.last_year(), Ok(2099));
    /// assert_eq!(Zone::from_posix("AAA0")?.last_year(), Ok(9999));
    /// # Ok::<(), Error>(())
    /// ```
    pub fn last_year(&self) -> Result<i32, Error> {
        let mut last = 0;
        // SAFETY: the copy serves this call alone.
        done(unsafe { raw::sefunjaro_years_by(&mut self.handle().copy(), &mut last) })?;
        Ok(last)
    }

    /// Whether the zone keeps its saving: not that of a file or of a POSIX string.
    ///
    /// ```
    /// assert!(sefunjaro::Source::open(b"Zone A 1:00 - A\n")?.zone("A")?.keeps_saving());
    /// assert!(!sefunjaro::Zone::from_posix("AAA0")?.keeps_saving());
    /// # Ok::<(), sefunjaro::Error>(())
    /// ```
    pub fn keeps_saving(&self) -> bool {
        self.saving_at(0, 0) != Err(Error::NotKept)
    }

    /// The changes from the second `from` on and before the second `to`, by time, in which something differs. It takes no memory.
    /// Those of a zone that goes on for ever are told up to the end of the year 10501.
    ///
    /// ```
    /// let zone = sefunjaro::Source::open(b"Zone A 1:00 - A 2000 Jan 1\n 2:00 - B 2001 Jan 1\n 3:00 - C\n")?.zone("A")?;
    /// let seconds: Vec<i64> = zone.changes(0, 978300000).map(|change| change.second).collect();
    /// assert_eq!(seconds, [946681200]);
    /// assert_eq!(zone.changes(i64::MIN, i64::MAX).count(), 2);
    /// # Ok::<(), sefunjaro::Error>(())
    /// ```
    pub fn changes(&self, from: i64, to: i64) -> Changes<'_> {
        Changes { every: false, ..self.every_change(from, to) }
    }

    /// The same, with the changes that change nothing.
    ///
    /// ```
    /// // One of these lines begins with what holds already.
    /// let rules = "Rule E 1996 max - Mar lastSun 0:00 1:00 -\nRule E 1996 max - Oct lastSun 0:00 0 -\n";
    /// let lines = "Zone A 4:00 E A 1996 Oct 27\n 4:00 1:00 A 1997 Mar 30\n 4:00 E A 2004\n 4:00 - A\n";
    /// let zone = sefunjaro::Source::open(format!("{rules}{lines}").as_bytes())?.zone("A")?;
    /// assert_eq!((zone.changes(0, 1 << 32).count(), zone.every_change(0, 1 << 32).count()), (14, 15));
    /// # Ok::<(), sefunjaro::Error>(())
    /// ```
    pub fn every_change(&self, from: i64, to: i64) -> Changes<'_> {
        // `next_change` tells what is after a second; none is at the least one.
        Changes { zone: self, after: from.checked_sub(1).unwrap_or(from), to, every: true }
    }

    /// When a daily alarm rings on the day and at the time of day of a local time: the first instant at which clocks show it, or none
    /// where they skip it.
    ///
    /// # Errors
    ///
    /// [`Error::OutOfRange`] where the parts are no date or no time.
    ///
    /// ```
    /// let zone = sefunjaro::Source::open(b"Zone A 1:00 - A 2000 Jan 1\n 2:00 - B\n")?.zone("A")?;
    /// assert_eq!(zone.ring(&"2000-01-01 00:30:00.000000000".parse()?)?, None);
    /// assert_eq!(zone.ring(&"2000-01-02 00:30:00.000000000".parse()?)?.map(|ring| ring.second), Some(946765800));
    /// # Ok::<(), sefunjaro::Error>(())
    /// ```
    pub fn ring(&self, local: &Clock) -> Result<Option<Instant>, Error> {
        let mut ring = raw::RawReading::default();
        // SAFETY: the copy serves this call alone.
        match unsafe { raw::sefunjaro_ring_by(&mut self.handle().copy(), local, &mut ring) } {
            NONE => Ok(None),
            status => done(status).map(|()| {
                Some(Instant { second: ring.second, nanosecond: local.nanosecond, offset: ring.offset })
            }),
        }
    }
}

/// The changes of a zone in a window of time, by time.
#[derive(Clone, Debug)]
pub struct Changes<'a> {
    zone: &'a Zone,
    after: i64,
    to: i64,
    every: bool,
}

impl Iterator for Changes<'_> {
    type Item = Change;

    fn next(&mut self) -> Option<Change> {
        loop {
            let change = self.zone.next_change(self.after).filter(|change| change.second < self.to)?;
            self.after = change.second;
            if self.every || change.differs {
                return Some(change);
            }
        }
    }
}

impl FusedIterator for Changes<'_> {}
