//! A zone as a whole: the string that carries it on, and its file.

use crate::raw::{self, RawFault, DONE};
use crate::{Error, Zone};

/// A POSIX TZ string.
#[derive(Clone, Debug, PartialEq, Eq, Hash)]
pub struct PosixTail {
    pub text: String,
    /// Whether POSIX has a place for the abbreviations in it: three bytes or more, ASCII letters, digits, `+` and `-`. Others, as `<CD>-2`
    /// and `<A_B>-5`, are read as UTC by the GNU C library.
    pub is_posix: bool,
}

impl PosixTail {
    fn of(told: Vec<u8>, is_posix: bool) -> Result<PosixTail, Error> {
        let text = String::from_utf8(told).map_err(|_| Error::Unexpected { status: 0, cause: 0 })?;
        Ok(PosixTail { text, is_posix })
    }
}

impl Zone {
    /// The POSIX TZ string that carries the zone on after its last change, as zic writes it at a file's end.
    ///
    /// # Errors
    ///
    /// [`Error::NoTail`], [`Error::NotKept`], [`Error::NoMemory`].
    ///
    /// ```
    /// use sefunjaro::{Error, Source, TailCause};
    ///
    /// let source = Source::open(b"Zone A -3:00 - -03\nZone B 1:00 - B 2099\n 2:00 - C\n")?;
    /// assert_eq!(source.zone("A")?.posix_tail()?.text, "<-03>3");
    /// assert_eq!(source.zone("B")?.posix_tail(), Err(Error::NoTail { cause: TailCause::Shape }));
    /// # Ok::<(), sefunjaro::Error>(())
    /// ```
    pub fn posix_tail(&self) -> Result<PosixTail, Error> {
        let mut is_posix = false;
        let told = filled(64, Error::of_tail, |room, whole, fault| {
            // SAFETY: the copy serves this call alone, the room is as long as is said, and nothing overlaps.
            unsafe {
                raw::sefunjaro_tail_by(&mut self.handle().copy(), room.as_mut_ptr(), room.len(), whole, &mut is_posix, fault)
            }
        })?;
        PosixTail::of(told, is_posix)
    }

    /// The string that carries the zone on in each year up to 9999, with times from -167 to 167 hours, as a file's end has it; `is_posix` is
    /// whether it is one of [`posix_tail`](Zone::posix_tail)'s with such names.
    ///
    /// # Errors
    ///
    /// [`Error::NotForEver`], [`Error::NotKept`], [`Error::NoMemory`].
    ///
    /// ```
    /// use sefunjaro::{Error, EverCause, Source};
    ///
    /// let rule = "Rule R 2000 2150 - Mar 1 1:00 1:00 S\nRule R 2000 2150 - Oct 1 1:00 0 -\n";
    /// let source = Source::open(format!("{rule}Zone A -3:00 - -03\nZone B 1:00 R B\n").as_bytes())?;
    /// assert_eq!(source.zone("A")?.tail_for_ever()?.text, "<-03>3");
    /// assert_eq!(source.zone("B")?.tail_for_ever(), Err(Error::NotForEver { cause: EverCause::RulesEnd }));
    /// # Ok::<(), sefunjaro::Error>(())
    /// ```
    pub fn tail_for_ever(&self) -> Result<PosixTail, Error> {
        let mut is_posix = false;
        let told = filled(64, Error::of_ever, |room, whole, fault| {
            // SAFETY: the copy serves this call alone, the room is as long as is said, and nothing overlaps.
            unsafe {
                let copy = &mut self.handle().copy();
                raw::sefunjaro_tail_for_ever_by(copy, room.as_mut_ptr(), room.len(), whole, &mut is_posix, fault)
            }
        })?;
        PosixTail::of(told, is_posix)
    }

    /// The zone's TZif file (RFC 8536), with that string as its footer where there is one.
    ///
    /// # Errors
    ///
    /// [`Error::NoTzif`], [`Error::NotKept`], [`Error::NoMemory`].
    ///
    /// ```
    /// let zone = sefunjaro::Source::open(b"Zone A -3:00 - -03\n")?.zone("A")?;
    /// let file = zone.to_tzif()?;
    /// assert!(file.starts_with(b"TZif2") && file.ends_with(b"\n<-03>3\n"));
    /// # Ok::<(), sefunjaro::Error>(())
    /// ```
    pub fn to_tzif(&self) -> Result<Vec<u8>, Error> {
        filled(4096, Error::of_tzif, |room, whole, fault| {
            // SAFETY: the copy serves this call alone, the room is as long as is said, and nothing overlaps.
            unsafe { raw::sefunjaro_tzif_by(&mut self.handle().copy(), room.as_mut_ptr(), room.len(), whole, fault) }
        })
    }

    /// The zone's TZif file with the string of [`tail_for_ever`](Zone::tail_for_ever) as its footer, right in each year up to 9999.
    ///
    /// # Errors
    ///
    /// [`Error::NotForEver`], [`Error::NotKept`], [`Error::NoMemory`].
    ///
    /// ```
    /// let zone = sefunjaro::Source::open(b"Zone A -3:00 - -03\n")?.zone("A")?;
    /// assert!(zone.to_tzif_for_ever()?.ends_with(b"\n<-03>3\n"));
    /// # Ok::<(), sefunjaro::Error>(())
    /// ```
    pub fn to_tzif_for_ever(&self) -> Result<Vec<u8>, Error> {
        filled(4096, Error::of_ever, |room, whole, fault| {
            // SAFETY: the copy serves this call alone, the room is as long as is said, and nothing overlaps.
            unsafe { raw::sefunjaro_tzif_for_ever_by(&mut self.handle().copy(), room.as_mut_ptr(), room.len(), whole, fault) }
        })
    }
}

/// What a call puts into a room, which grows as it has to, and of which it tells the whole length, or why there is nothing.
fn filled(
    room: usize,
    refused: fn(u32, &RawFault) -> Error,
    mut call: impl FnMut(&mut [u8], &mut usize, &mut RawFault) -> u32,
) -> Result<Vec<u8>, Error> {
    let mut found = vec![0; room];
    loop {
        let (mut whole, mut fault) = (0, RawFault::default());
        let status = call(&mut found, &mut whole, &mut fault);
        if status != DONE {
            return Err(refused(status, &fault));
        }
        let is_whole = whole <= found.len();
        found.resize(whole, 0);
        if is_whole {
            return Ok(found);
        }
    }
}
