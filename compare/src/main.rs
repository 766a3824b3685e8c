//! What `zone_answers FILE` does on a source and requests that have no fault, in plain Rust: to measure beside. With two words more it
//! does a part as `zone_measure` does: `join`, `instants` or `locals`, so many times.
mod calendar;
mod hash;
mod parts;
mod source;
mod text;
mod zone;

use hash::Map;
use source::Table;
use std::io::Write;
use std::process::ExitCode;
use text::{add_zoned, read_instant, read_local};
use zone::Zone;

/// The seconds of the years -9999 to 9999.
const SECONDS: std::ops::Range<i64> = -377_705_116_800..253_402_300_800;

/// The lines of a text: cut at each LF, a last empty piece left out, one CR at the end of a piece dropped.
fn lines(text: &str) -> impl Iterator<Item = &str> {
    text.split_terminator('\n')
        .map(|line| line.strip_suffix('\r').unwrap_or(line))
}

/// The zones that were asked for so far.
struct Zones<'t> {
    table: &'t Table<'t>,
    places: Map<&'t [u8], usize>,
    zones: Vec<Zone>,
}

impl<'t> Zones<'t> {
    fn find(&mut self, name: &'t [u8]) -> Option<&Zone> {
        if let Some(place) = self.places.get(name) {
            return Some(&self.zones[*place]);
        }
        self.zones
            .push(Zone::compile(self.table, self.table.zone(name)?)?);
        self.places.insert(name, self.zones.len() - 1);
        self.zones.last()
    }

    /// Adds the line of a request.
    fn answer(&mut self, request: &'t [u8], lines: &mut Vec<u8>) -> Option<()> {
        if let Some(rest) = request.strip_prefix(b"at ") {
            let (name, number) = cut(rest)?;
            let (second, nanos) = read_instant(number)?;
            let total = self.find(name)?.total_at(second);
            let local = second + i64::from(total);
            if !SECONDS.contains(&second) || !SECONDS.contains(&local) {
                return None;
            }
            add_zoned(lines, local, nanos, total)?;
        } else {
            let (name, local) = cut(request.strip_prefix(b"local ")?)?;
            let (second, nanos) = read_local(local)?;
            let before = lines.len();
            for total in self.find(name)?.totals_of(second) {
                if lines.len() > before {
                    lines.extend_from_slice(b" | ");
                }
                add_zoned(lines, second, nanos, total)?;
            }
            if lines.len() == before {
                lines.extend_from_slice(b"none");
            }
        }
        lines.push(b'\n');
        Some(())
    }
}

/// What stands before the first space, which is something, and after it.
fn cut(text: &[u8]) -> Option<(&[u8], &[u8])> {
    let space = text.iter().position(|byte| *byte == b' ')?;
    (space > 0).then(|| (&text[..space], &text[space + 1..]))
}

/// The lines that answer the requests, or the line that is refused.
fn answers(source: &str, requests: &str) -> Result<Vec<u8>, String> {
    let table = Table::read(source).map_err(|line| format!("source line {line}"))?;
    let mut zones = Zones {
        table: &table,
        places: Map::default(),
        zones: Vec::new(),
    };
    let mut answers = Vec::with_capacity(requests.len());
    for (index, request) in lines(requests).enumerate() {
        zones
            .answer(request.as_bytes(), &mut answers)
            .ok_or_else(|| format!("request line {}", index + 1))?;
    }
    Ok(answers)
}

fn run(file: &str) -> std::io::Result<()> {
    let source = std::fs::read_to_string(file)?;
    let requests = std::io::read_to_string(std::io::stdin().lock())?;
    let lines = answers(&source, &requests).map_err(std::io::Error::other)?;
    std::io::stdout().lock().write_all(&lines)
}

fn main() -> ExitCode {
    let words: Vec<String> = std::env::args().collect();
    let done = match &words[..] {
        [_, file] => run(file),
        [_, file, part, times] => parts::run(file, part, times),
        _ => Err(std::io::Error::other(
            "usage: compare FILE [PART TIMES] < REQUESTS",
        )),
    };
    match done {
        Ok(()) => ExitCode::SUCCESS,
        Err(why) => {
            eprintln!("{why}");
            ExitCode::FAILURE
        }
    }
}
