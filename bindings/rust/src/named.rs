//! Zones by their names alone, of the machine's own source.

use crate::{Error, Source, Zone};
use std::path::{Path, PathBuf};
use std::sync::{Mutex, PoisonError};
use std::{env, fmt, fs, io};

/// The file that is read where the environment variable `SEFUNJARO_TZDATA` names none.
const TZDATA: &str = "/usr/share/zoneinfo/tzdata.zi";

/// The machine's source, once it was read. It is there to the end of the process.
static MACHINE: Mutex<Option<&'static Source>> = Mutex::new(None);

/// Why there is no zone of a name alone.
#[derive(Debug)]
#[non_exhaustive]
pub enum NamedError {
    /// The file can't be read in which the machine has its source: the one that the environment variable `SEFUNJARO_TZDATA` names
    /// (`is_named`), or else `/usr/share/zoneinfo/tzdata.zi`.
    NoTzdata { path: PathBuf, is_named: bool, error: io::Error },
    /// That file holds no source that is read.
    Source { path: PathBuf, error: Error },
    /// The name has a zero byte.
    ZeroByte,
    /// The source has no such zone, or one that can't be opened.
    Zone(Error),
}

impl fmt::Display for NamedError {
    fn fmt(&self, out: &mut fmt::Formatter<'_>) -> fmt::Result {
        match self {
            NamedError::NoTzdata { path, is_named, error } => {
                let why = if *is_named { "which SEFUNJARO_TZDATA names" } else { "and SEFUNJARO_TZDATA names no other file" };
                write!(out, "no source of the tz database: {error}: {}, {why}", path.display())
            }
            NamedError::Source { path, error } => write!(out, "{}: {error}", path.display()),
            NamedError::ZeroByte => write!(out, "the name of the zone has a zero byte"),
            NamedError::Zone(error) => write!(out, "{error}"),
        }
    }
}

impl std::error::Error for NamedError {
    fn source(&self) -> Option<&(dyn std::error::Error + 'static)> {
        match self {
            NamedError::NoTzdata { error, .. } => Some(error),
            NamedError::Source { error, .. } => Some(error),
            NamedError::ZeroByte | NamedError::Zone(_) => None,
        }
    }
}

/// The machine's own source of the tz database: the file that the environment variable `SEFUNJARO_TZDATA` names, or else
/// `/usr/share/zoneinfo/tzdata.zi`, in any form that zic reads. It is read once in a process; one that can't be read is looked for again
/// by the next call.
///
/// # Errors
///
/// [`NamedError::NoTzdata`], [`NamedError::Source`].
///
/// ```
/// # std::env::set_var("SEFUNJARO_TZDATA", "tests/small.zi");
/// let source = sefunjaro::machine_source()?;
/// assert!(source.names()?.any(|name| name == "Europe/Paris"));
/// # Ok::<(), Box<dyn std::error::Error>>(())
/// ```
pub fn machine_source() -> Result<&'static Source, NamedError> {
    let mut kept = MACHINE.lock().unwrap_or_else(PoisonError::into_inner);
    if let Some(source) = *kept {
        return Ok(source);
    }
    let named = env::var_os("SEFUNJARO_TZDATA").filter(|path| !path.is_empty());
    let path = named.as_deref().map_or(Path::new(TZDATA), Path::new);
    let text = fs::read(path).map_err(|error| NamedError::NoTzdata { path: path.into(), is_named: named.is_some(), error })?;
    let source = Source::open(&text).map_err(|error| NamedError::Source { path: path.into(), error })?;
    Ok(kept.insert(Box::leak(Box::new(source))))
}

impl Zone {
    /// Opens the zone of a name in the machine's own source ([`machine_source`]).
    ///
    /// # Errors
    ///
    /// [`NamedError`]: of a name that no zone has it is [`NamedError::Zone`] with [`Error::UnknownZone`].
    ///
    /// ```
    /// # std::env::set_var("SEFUNJARO_TZDATA", "tests/small.zi");
    /// use sefunjaro::{Error, NamedError, Zone};
    ///
    /// let paris = Zone::named("Europe/Paris")?;
    /// assert_eq!(paris.offset_at(1711846800, 0)?, 7200);
    /// assert!(matches!(Zone::named("Europe/Nowhere"), Err(NamedError::Zone(Error::UnknownZone))));
    /// # Ok::<(), Box<dyn std::error::Error>>(())
    /// ```
    pub fn named(name: &str) -> Result<Zone, NamedError> {
        if name.contains('\0') {
            return Err(NamedError::ZeroByte);
        }
        machine_source()?.zone(name).map_err(NamedError::Zone)
    }
}
