//! first ZONES: the two answers with which the README begins.

use sefunjaro::Source;

fn main() -> Result<(), Box<dyn std::error::Error>> {
    let path = std::env::args().nth(1).ok_or("usage: first ZONES")?;
    let zone = Source::open(&std::fs::read(path)?)?.zone("America/New_York")?;
    println!("{}", zone.text_at(1710054000, 0)?);
    for instant in zone.instants(&"2024-11-03 01:30:00.000000000".parse()?)? {
        println!("{}", zone.text_at(instant.second, instant.nanosecond)?);
    }
    Ok(())
}
