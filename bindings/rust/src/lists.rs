//! What a zone is asked of many seconds, or of many local times, at once.

use crate::{done, raw, Clock, Error, Zone};

/// Which instant is meant of a local time that has more than one.
#[repr(u32)]
#[derive(Clone, Copy, Debug, PartialEq, Eq, Hash)]
pub enum Fold {
    First = 0,
    Second = 1,
}

/// What is meant by a local time that clocks skip.
#[repr(u32)]
#[derive(Clone, Copy, Debug, PartialEq, Eq, Hash)]
pub enum GapRule {
    /// The instant by the offset in force up to the change that skips it.
    Before = 0,
    /// The instant by the offset in force from that change on.
    After = 1,
    /// No instant: that change is told.
    None = 2,
}

/// How many instants a local time has.
#[repr(u32)]
#[derive(Clone, Copy, Debug, Default, PartialEq, Eq, Hash)]
pub enum Kind {
    /// None: clocks skip it.
    #[default]
    Gap = 0,
    One = 1,
    /// Two: clocks are set back over it.
    Fold = 2,
    /// More, as in zones without order.
    More = 3,
}

/// One instant of a local time; its nanosecond is that of the local time.
#[repr(C)]
#[derive(Clone, Copy, Debug, Default, PartialEq, Eq, Hash)]
pub struct Found {
    /// The instant; by [`GapRule::None`] the second of the change that skips the local time.
    pub second: i64,
    /// The offset by which the local time is that instant; by [`GapRule::None`] the one in force up to the change.
    pub offset: i32,
    pub kind: Kind,
}

impl Zone {
    /// The offsets at many seconds, in their order, as far as there is room. Seconds that rise cost least.
    ///
    /// # Errors
    ///
    /// [`Error::OutOfRange`] where one lies outside the years -9999 to 9999 in UTC; the room is as it was then.
    ///
    /// ```
    /// let zone = sefunjaro::Source::open(b"Zone A 1:00 - A 2000\n 2:00 - B\n")?.zone("A")?;
    /// let mut offsets = [0; 2];
    /// zone.offsets_at(&[0, 1711846800], &mut offsets)?;
    /// assert_eq!(offsets, [3600, 7200]);
    /// # Ok::<(), sefunjaro::Error>(())
    /// ```
    pub fn offsets_at(&self, seconds: &[i64], offsets: &mut [i32]) -> Result<(), Error> {
        let (mut copy, mut place) = (self.handle().copy(), 0);
        // SAFETY: the copy serves this call alone, both lists are as long as is said, and nothing overlaps.
        done(unsafe {
            raw::sefunjaro_offsets_at_by(&mut copy, seconds.as_ptr(), seconds.len(), offsets.as_mut_ptr(), offsets.len(), &mut place)
        })
    }

    /// What clocks show at many seconds, in their order, as far as there is room. Seconds that rise cost least.
    ///
    /// # Errors
    ///
    /// [`Error::OutOfRange`] where one lies outside the years -9999 to 9999 in UTC, or its local date does; the room is as it was then.
    ///
    /// ```
    /// use sefunjaro::{Clock, Source};
    ///
    /// let zone = Source::open(b"Zone A 1:00 - A 2000\n 2:00 - B\n")?.zone("A")?;
    /// let mut clocks = [Clock::default(); 2];
    /// zone.clocks_at(&[0, 1711846800], &mut clocks)?;
    /// assert_eq!(clocks.map(|clock| clock.to_string()), ["1970-01-01 01:00:00.000000000", "2024-03-31 03:00:00.000000000"]);
    /// # Ok::<(), sefunjaro::Error>(())
    /// ```
    pub fn clocks_at(&self, seconds: &[i64], clocks: &mut [Clock]) -> Result<(), Error> {
        let (mut copy, mut place) = (self.handle().copy(), 0);
        // SAFETY: the copy serves this call alone, both lists are as long as is said, and nothing overlaps.
        done(unsafe {
            raw::sefunjaro_clocks_at_by(&mut copy, seconds.as_ptr(), seconds.len(), clocks.as_mut_ptr(), clocks.len(), &mut place)
        })
    }

    /// The texts of many seconds, one after another, each as [`Zone::text_at`] has it, with a line feed behind it.
    ///
    /// # Errors
    ///
    /// As [`Zone::clocks_at`].
    ///
    /// ```
    /// let zone = sefunjaro::Source::open(b"Zone A 1:00 - A\n")?.zone("A")?;
    /// assert_eq!(zone.texts_at(&[0, 60])?, "1970-01-01 01:00:00.000000000 +01:00:00\n1970-01-01 01:01:00.000000000 +01:00:00\n");
    /// # Ok::<(), sefunjaro::Error>(())
    /// ```
    pub fn texts_at(&self, seconds: &[i64]) -> Result<String, Error> {
        let mut text = vec![0; seconds.len() * 41];
        let (mut copy, mut whole, mut place) = (self.handle().copy(), 0, 0);
        // SAFETY: the copy serves this call alone, the list and the room are as long as is said, and nothing overlaps.
        done(unsafe {
            raw::sefunjaro_texts_at_by(
                &mut copy,
                seconds.as_ptr(),
                seconds.len(),
                text.as_mut_ptr(),
                text.len(),
                &mut whole,
                &mut place,
            )
        })?;
        text.truncate(whole);
        String::from_utf8(text).map_err(|_| Error::Unexpected { status: 0, cause: 0 })
    }

    /// One instant of each of many local times, in their order, as far as there is room: of one with more than one instant that of
    /// `fold`, and of one that clocks skip what `gap` names.
    ///
    /// # Errors
    ///
    /// [`Error::OutOfRange`] where some parts are no date or no time, or the year lies outside -9999 to 9999; the room is as it was then.
    ///
    /// ```
    /// use sefunjaro::{Fold, Found, GapRule, Kind, Source};
    ///
    /// let zone = Source::open(b"Zone A 2:00 - A 2000\n 1:00 - B\n")?.zone("A")?;
    /// let mut found = [Found::default()];
    /// zone.instants_of(&["1999-12-31 23:30:00.000000000".parse()?], Fold::Second, GapRule::Before, &mut found)?;
    /// assert_eq!(found, [Found { second: 946679400, offset: 3600, kind: Kind::Fold }]);
    /// # Ok::<(), sefunjaro::Error>(())
    /// ```
    pub fn instants_of(&self, locals: &[Clock], fold: Fold, gap: GapRule, found: &mut [Found]) -> Result<(), Error> {
        let (mut copy, mut place) = (self.handle().copy(), 0);
        // SAFETY: the copy serves this call alone, both lists are as long as is said, nothing overlaps, and a kind is one of `Kind`.
        done(unsafe {
            raw::sefunjaro_instants_of_by(
                &mut copy,
                locals.as_ptr(),
                locals.len(),
                fold as u32,
                gap as u32,
                found.as_mut_ptr(),
                found.len(),
                &mut place,
            )
        })
    }
}
