//! answers ZONES: answers the requests on standard input as `zone_answers` does, each zone opened once.

use sefunjaro::{Clock, Source, Zone};
use std::collections::HashMap;
use std::error::Error;
use std::io::{self, BufRead, BufWriter, Write};
use std::{env, fs};

fn answer(zone: &Zone, kind: &str, value: &str, out: &mut impl Write) -> Result<(), Box<dyn Error>> {
    const SECOND: i128 = 1_000_000_000;
    if kind == "at" {
        let instant: i128 = value.parse()?;
        let (second, nanosecond) = (instant.div_euclid(SECOND), instant.rem_euclid(SECOND));
        writeln!(out, "{}", zone.text_at(second.try_into()?, nanosecond.try_into()?)?)?;
        return Ok(());
    }
    let local: Clock = value.parse()?;
    let texts: Result<Vec<String>, _> =
        zone.instants(&local)?.map(|instant| zone.text_at(instant.second, instant.nanosecond)).collect();
    let texts = texts?;
    writeln!(out, "{}", if texts.is_empty() { "none".to_owned() } else { texts.join(" | ") })?;
    Ok(())
}

fn main() -> Result<(), Box<dyn Error>> {
    let path = env::args().nth(1).ok_or("usage: answers ZONES <REQUESTS")?;
    let source = Source::open(&fs::read(path)?)?;
    let mut zones: HashMap<String, Zone> = HashMap::new();
    let mut out = BufWriter::new(io::stdout().lock());
    for line in io::stdin().lock().lines() {
        let line = line?;
        let mut words = line.splitn(3, ' ');
        let (Some(kind), Some(name), Some(value)) = (words.next(), words.next(), words.next()) else {
            return Err("a request has three words".into());
        };
        if !zones.contains_key(name) {
            zones.insert(name.to_owned(), source.zone(name)?);
        }
        answer(&zones[name], kind, value, &mut out)?;
    }
    out.flush()?;
    Ok(())
}
