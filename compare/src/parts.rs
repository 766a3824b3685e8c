//! Parts of the work, each done so many times; two numbers of what was counted in all of them.
use crate::source::Table;
use crate::zone::Zone;
use std::io::{Error, Result};

/// 1850-01-01 00:00:00 UTC, and the seconds from one instant that is asked to the next.
const FIRST: i64 = -3_786_825_600;
const STEP: i64 = 19_723_087;
const LOOKS: usize = 400;

/// Does the part, and prints the numbers.
pub fn run(file: &str, part: &str, times: &str) -> Result<()> {
    let source = std::fs::read_to_string(file)?;
    let times: usize = times.parse().map_err(Error::other)?;
    let refused = |line| Error::other(format!("source line {line}"));
    let (mut all, mut found) = (0, 0);
    if part == "join" {
        for _ in 0..times {
            let table = Table::read(&source).map_err(refused)?;
            all += table.zone_count();
            found += table.link_count();
        }
    } else {
        let zones = zones_of(&Table::read(&source).map_err(refused)?)
            .ok_or_else(|| Error::other("a zone"))?;
        let look = match part {
            "instants" => Zone::is_saving_at,
            "locals" => Zone::is_read_once,
            _ => return Err(Error::other("no such part")),
        };
        for _ in 0..times {
            for zone in &zones {
                found += (0..LOOKS)
                    .filter(|i| look(zone, FIRST + *i as i64 * STEP))
                    .count();
            }
            all += zones.len() * LOOKS;
        }
    }
    println!("{all} {found}");
    Ok(())
}

/// The zones of the table, and those of links to one.
fn zones_of(table: &Table<'_>) -> Option<Vec<Zone>> {
    table
        .names()
        .map(|name| Zone::compile(table, table.zone(name)?))
        .collect()
}
