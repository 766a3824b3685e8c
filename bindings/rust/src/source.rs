//! A source of the tz database.

use crate::raw::{self, RawFault, DONE, NONE};
use crate::{done, Error, Handle, Zone};
use std::fmt;

/// A source of the tz database.
pub struct Source {
    handle: Handle,
}

impl Source {
    /// Opens a source from its text in any form that zic reads, as that of tzdata.zi. The text is used no more afterwards.
    ///
    /// # Errors
    ///
    /// [`Error::TooLong`]; [`Error::NoPlainForm`] of the first line that is refused; [`Error::PlainTooLong`]; [`Error::NotText`],
    /// [`Error::BadLine`] and [`Error::BadJoin`] of the plain form, in which the line is then counted; [`Error::NoMemory`].
    ///
    /// ```
    /// use sefunjaro::{Error, PlainCause, Source};
    ///
    /// let source = Source::open(b"Z Europe/Paris 1 EU CE%sT\nR EU 1981 ma - Mar lastSu 1u 1 S\nR EU 1996 ma - O lastSu 1u 0 -\n")?;
    /// assert_eq!(source.zone("Europe/Paris")?.offset_at(1711846800, 0), Ok(7200));
    ///
    /// let refused = Source::open(b"R EU 1981 ma - Foo 1 0 1 S\n").err();
    /// assert_eq!(refused, Some(Error::NoPlainForm { line: 1, cause: PlainCause::Month }));
    /// # Ok::<(), sefunjaro::Error>(())
    /// ```
    pub fn open(text: &[u8]) -> Result<Source, Error> {
        let mut handle = Handle::closed();
        let mut fault = RawFault::default();
        // SAFETY: the text is never null, nobody writes it during the call, and nothing overlaps.
        let status = unsafe { raw::sefunjaro_source_open(text.as_ptr(), text.len(), handle.at(), &mut fault) };
        Source::opened(handle, status, &fault)
    }

    /// Opens a source from its text in plain form, and in no other, which is used no more afterwards.
    ///
    /// # Errors
    ///
    /// [`Error::TooLong`]; [`Error::NotText`], [`Error::BadLine`] and [`Error::BadJoin`] of the first line that is refused;
    /// [`Error::NoMemory`].
    ///
    /// ```
    /// use sefunjaro::{Error, LineCause, Source};
    ///
    /// let refused = Source::open_plain(b"Zone A 1:00 - A\nRule R 2000 max - Nof Sun>=1 2:00 0 S\n").err();
    /// assert_eq!(refused, Some(Error::BadLine { line: 2, cause: LineCause::FailedMonthParse }));
    /// ```
    pub fn open_plain(text: &[u8]) -> Result<Source, Error> {
        let mut handle = Handle::closed();
        let mut fault = RawFault::default();
        // SAFETY: the text is never null, nobody writes it during the call, and nothing overlaps.
        let status = unsafe { raw::sefunjaro_source_open_plain(text.as_ptr(), text.len(), handle.at(), &mut fault) };
        Source::opened(handle, status, &fault)
    }

    fn opened(handle: Handle, status: u32, fault: &RawFault) -> Result<Source, Error> {
        if status == DONE {
            Ok(Source { handle })
        } else {
            Err(Error::of_fault(status, fault))
        }
    }

    /// Opens the zone of a name. The zone needs its source no more.
    ///
    /// # Errors
    ///
    /// [`Error::UnknownZone`], [`Error::NoSchedule`], [`Error::OffsetRange`], [`Error::NoMemory`].
    ///
    /// ```
    /// use sefunjaro::{Error, Source};
    ///
    /// let source = Source::open(b"Zone A 1:00 - A\nLink A B\n")?;
    /// assert_eq!(source.zone("B")?.offset_at(0, 0), Ok(3600));
    /// assert_eq!(source.zone("C").err(), Some(Error::UnknownZone));
    /// # Ok::<(), sefunjaro::Error>(())
    /// ```
    pub fn zone(&self, name: &str) -> Result<Zone, Error> {
        let mut handle = Handle::closed();
        let mut fault = RawFault::default();
        // SAFETY: the copy serves this call alone, the name is never null, and the two handles are not one.
        let status =
            unsafe { raw::sefunjaro_zone_open_by(&mut self.handle.copy(), name.as_ptr(), name.len(), handle.at(), &mut fault) };
        if status == DONE {
            Ok(Zone::of(handle, name))
        } else {
            Err(Error::of_fault(status, &fault))
        }
    }

    /// The names that find a zone, in byte order: those of zones, and of the links to them.
    ///
    /// # Errors
    ///
    /// None that a caller can bring about.
    ///
    /// ```
    /// use sefunjaro::Source;
    ///
    /// let source = Source::open(b"Zone B 1:00 - B\nLink B A\n")?;
    /// assert_eq!(source.names()?.collect::<Vec<_>>(), ["A", "B"]);
    /// # Ok::<(), sefunjaro::Error>(())
    /// ```
    pub fn names(&self) -> Result<Names<'_>, Error> {
        let mut count = 0;
        // SAFETY: the copy serves this call alone.
        done(unsafe { raw::sefunjaro_name_count_by(&mut self.handle.copy(), &mut count) })?;
        Ok(Names { source: self, places: 0..count })
    }

    /// The same without a `String` for each: every name in turn, in one room.
    ///
    /// # Errors
    ///
    /// None that a caller can bring about.
    ///
    /// ```
    /// use sefunjaro::Source;
    ///
    /// let mut bytes = 0;
    /// Source::open(b"Zone Bb 1:00 - B\nLink Bb A\n")?.each_name(|name| bytes += name.len())?;
    /// assert_eq!(bytes, 3);
    /// # Ok::<(), sefunjaro::Error>(())
    /// ```
    pub fn each_name(&self, mut each: impl FnMut(&str)) -> Result<(), Error> {
        let mut room = String::new();
        for place in self.names()?.places {
            room = self.name_in(place, room)?.unwrap_or_default();
            each(&room);
        }
        Ok(())
    }

    /// The name at a place below the count, in a room that goes again.
    fn name_in(&self, place: usize, room: String) -> Result<Option<String>, Error> {
        // SAFETY: the copy serves this call alone, and the room is as long as is said.
        told(room, |room, whole| unsafe {
            raw::sefunjaro_name_by(&mut self.handle.copy(), place, room.as_mut_ptr(), room.len(), whole)
        })
    }

    fn name(&self, place: usize) -> Option<String> {
        self.name_in(place, String::new()).ok().flatten()
    }

    /// The release that the source names by its first line, as `2026b` in `# version 2026b`, or none where it names none.
    ///
    /// # Errors
    ///
    /// None that a caller can bring about.
    ///
    /// ```
    /// use sefunjaro::Source;
    ///
    /// let source = Source::open(b"# version 2026b\nZone A 1:00 - A\n")?;
    /// assert_eq!(source.version()?.as_deref(), Some("2026b"));
    /// # Ok::<(), sefunjaro::Error>(())
    /// ```
    pub fn version(&self) -> Result<Option<String>, Error> {
        // SAFETY: the copy serves this call alone, and the room is as long as is said.
        told(String::new(), |room, whole| unsafe {
            raw::sefunjaro_source_version_by(&mut self.handle.copy(), room.as_mut_ptr(), room.len(), whole)
        })
    }
}

/// What a call puts into a room, which grows as it has to, and of which it tells the whole length, or none where there is none.
fn told(room: String, mut call: impl FnMut(&mut [u8], &mut usize) -> u32) -> Result<Option<String>, Error> {
    let mut text = room.into_bytes();
    text.resize(text.capacity().max(64), 0);
    loop {
        let mut whole = 0;
        match call(&mut text, &mut whole) {
            NONE => return Ok(None),
            status => done(status)?,
        }
        let is_whole = whole <= text.len();
        text.resize(whole, 0);
        if is_whole {
            return String::from_utf8(text).map(Some).map_err(|_| Error::Unexpected { status: 0, cause: 0 });
        }
    }
}

impl fmt::Debug for Source {
    fn fmt(&self, out: &mut fmt::Formatter<'_>) -> fmt::Result {
        out.debug_struct("Source").finish_non_exhaustive()
    }
}

/// The names of a source, in byte order.
#[derive(Debug, Clone)]
pub struct Names<'a> {
    source: &'a Source,
    places: std::ops::Range<usize>,
}

impl Iterator for Names<'_> {
    type Item = String;

    fn next(&mut self) -> Option<String> {
        self.source.name(self.places.next()?)
    }

    fn size_hint(&self) -> (usize, Option<usize>) {
        self.places.size_hint()
    }
}

impl ExactSizeIterator for Names<'_> {}
