//! The spans of a zone, in compact arrays.
use crate::source::{End, Rule, Saving, Stretch, Table};

/// The years in which rules fire.
const YEARS: std::ops::Range<i32> = 1800..2100;

/// What is in force from a second on.
#[derive(Clone, PartialEq)]
struct Force {
    offset: i64,
    saving: i64,
    name: Vec<u8>,
}

impl Force {
    fn new(stretch: &Stretch<'_>, saving: i64, letters: &[u8]) -> Force {
        let name = abbreviation(stretch.format, saving, letters);
        Force {
            offset: stretch.offset,
            saving,
            name,
        }
    }

    fn total(&self) -> i64 {
        self.offset + self.saving
    }
}

type Entry = (i64, Force);

/// A zone as it is asked: one total more than times.
pub struct Zone {
    times: Vec<i64>,
    totals: Vec<i32>,
    are_saving: Vec<bool>,
    /// Where each span but the last ends by its local time.
    ends: Vec<i64>,
    is_orderly: bool,
}

impl Zone {
    /// The zone of these lines.
    pub fn compile(table: &Table<'_>, lines: &[Stretch<'_>]) -> Option<Zone> {
        let mut entries = Vec::new();
        let mut start = None;
        for stretch in lines {
            let fired = firings(table, stretch)?;
            let saving = match stretch.saving {
                Saving::Fixed(saving) => {
                    entries.extend(start.map(|start| (start, Force::new(stretch, saving, b""))));
                    saving
                }
                Saving::Ruled(_) => {
                    list(&mut entries, stretch, start, &fired);
                    fired.last().map_or(0, |(_, rule)| rule.saving)
                }
            };
            let end = stretch.end.as_ref();
            start = end.map(|end| end.clock.instant(end.shown, stretch.offset, saving));
        }
        entries.sort_by_key(|entry| entry.0);
        let first = match lines[0].saving {
            Saving::Fixed(saving) => Force::new(&lines[0], saving, b""),
            Saving::Ruled(_) => entries.iter().find(|entry| entry.1.saving == 0)?.1.clone(),
        };
        Zone::of(first, collapsed(entries))
    }

    /// The arrays of these entries after what holds before them.
    fn of(first: Force, mut entries: Vec<Entry>) -> Option<Zone> {
        if entries.first().map_or(false, |entry| entry.1 == first) {
            entries.remove(0);
        }
        let times: Vec<i64> = entries.iter().map(|entry| entry.0).collect();
        let all = std::iter::once(&first).chain(entries.iter().map(|entry| &entry.1));
        let totals: Vec<i32> = all.clone().map(|force| force.total() as i32).collect();
        let are_saving = all.map(|force| force.saving > 0).collect();
        if totals.iter().any(|total| total.unsigned_abs() > 93_599) {
            return None;
        }
        let ends: Vec<i64> = times
            .iter()
            .zip(&totals)
            .map(|(time, total)| time + i64::from(*total))
            .collect();
        let begins = times
            .iter()
            .zip(&totals[1..])
            .map(|(time, total)| time + i64::from(*total));
        let is_orderly = ends.windows(2).all(|pair| pair[0] <= pair[1])
            && ends
                .iter()
                .skip(1)
                .zip(begins.clone())
                .all(|(end, begin)| begin <= *end)
            && begins
                .clone()
                .skip(1)
                .zip(&ends)
                .all(|(begin, end)| end <= &begin);
        Some(Zone {
            times,
            totals,
            are_saving,
            ends,
            is_orderly,
        })
    }

    /// The total in force at a second.
    pub fn total_at(&self, second: i64) -> i32 {
        self.totals[self.times.partition_point(|time| *time <= second)]
    }

    /// Whether a saving above 0 is in force at a second.
    pub fn is_saving_at(&self, second: i64) -> bool {
        self.are_saving[self.times.partition_point(|time| *time <= second)]
    }

    /// Whether exactly one instant is read as a local second.
    pub fn is_read_once(&self, second: i64) -> bool {
        let mut totals = self.totals_of(second);
        totals.next().is_some() && totals.next().is_none()
    }

    /// The totals at which a local second is read, by the instants.
    pub fn totals_of(&self, second: i64) -> impl Iterator<Item = i32> + '_ {
        let (from, most) = if self.is_orderly {
            (self.ends.partition_point(|end| *end <= second), 2)
        } else {
            (0, self.totals.len())
        };
        let spans = from..self.totals.len().min(from + most);
        spans
            .filter(move |span| self.contains(*span, second))
            .map(|span| self.totals[span])
    }

    fn contains(&self, span: usize, second: i64) -> bool {
        let total = i64::from(self.totals[span]);
        (span == 0 || self.times[span - 1] + total <= second)
            && (span == self.times.len() || second < self.ends[span])
    }
}

/// What rules put in force in a stretch, by time, where its saving is that of rules.
fn firings<'t>(table: &'t Table<'_>, stretch: &Stretch<'_>) -> Option<Vec<(i64, &'t Rule<'t>)>> {
    let mut fired = Vec::new();
    let Saving::Ruled(name) = stretch.saving else {
        return Some(fired);
    };
    let rules = table.rules.get(name)?;
    let last = stretch
        .end
        .as_ref()
        .map_or(YEARS.end, |end| YEARS.end.min(end.year + 1));
    let (mut here, mut saving) = (Vec::new(), 0);
    for year in YEARS.start..last {
        here.extend(
            rules
                .iter()
                .filter(|rule| rule.first <= year && year <= rule.last)
                .map(|rule| (rule.shown_in(year), rule)),
        );
        fire_year(&mut here, stretch, &mut saving, &mut fired);
        here.clear();
    }
    Some(fired)
}

/// Fires the rules of a year, each under the saving of the one before it, up to the stretch's end.
fn fire_year<'t>(
    here: &mut Vec<(i64, &'t Rule<'t>)>,
    stretch: &Stretch<'_>,
    saving: &mut i64,
    fired: &mut Vec<(i64, &'t Rule<'t>)>,
) {
    while !here.is_empty() {
        let moment =
            |(shown, rule): &(i64, &Rule<'_>)| rule.clock.instant(*shown, stretch.offset, *saving);
        let (mut place, mut time) = (0, moment(&here[0]));
        for other in 1..here.len() {
            let later = moment(&here[other]);
            if later < time {
                (place, time) = (other, later);
            }
        }
        if stretch.end.as_ref().map_or(false, |end: &End| {
            end.clock.instant(end.shown, stretch.offset, *saving) <= time
        }) {
            return;
        }
        let (_, rule) = here.remove(place);
        *saving = rule.saving;
        fired.push((time, rule));
    }
}

/// Adds the entries of a ruled stretch with that start: its firings from the start on, and what holds at it.
fn list(
    entries: &mut Vec<Entry>,
    stretch: &Stretch<'_>,
    start: Option<i64>,
    fired: &[(i64, &Rule<'_>)],
) {
    let force = |rule: &Rule<'_>| Force::new(stretch, rule.saving, rule.letters);
    let Some(start) = start else {
        entries.extend(fired.iter().map(|(time, rule)| (*time, force(rule))));
        return;
    };
    let place = fired.iter().position(|firing| firing.0 == start);
    let (before, from) = fired.split_at(place.unwrap_or(fired.len()));
    entries.extend(
        before
            .iter()
            .filter(|firing| start < firing.0)
            .map(|(time, rule)| (*time, force(rule))),
    );
    entries.extend(from.iter().map(|(time, rule)| (*time, force(rule))));
    if place.is_none() {
        let last = fired.iter().rev().find(|firing| firing.0 < start);
        let held = last.or_else(|| fired.iter().find(|firing| firing.1.saving == 0));
        entries.extend(held.map(|(_, rule)| (start, force(rule))));
    }
}

/// The entries without those that say what holds already, and those that are over by their local time before they begin.
fn collapsed(entries: Vec<Entry>) -> Vec<Entry> {
    let mut kept: Vec<Entry> = Vec::with_capacity(entries.len());
    for entry in entries {
        match kept.as_mut_slice() {
            [.., before, last] if entry.0 + last.1.total() <= last.0 + before.1.total() => {
                last.1 = entry.1
            }
            [.., last] if last.1 == entry.1 => (),
            _ => kept.push(entry),
        }
    }
    kept
}

/// A format under a saving and a rule's letters.
fn abbreviation(format: &[u8], saving: i64, letters: &[u8]) -> Vec<u8> {
    if let Some(slash) = format.iter().position(|byte| *byte == b'/') {
        return if saving == 0 {
            format[..slash].to_vec()
        } else {
            format[slash + 1..].to_vec()
        };
    }
    let mut name = Vec::with_capacity(format.len() + letters.len());
    let mut rest = format;
    while let Some((byte, after)) = rest.split_first() {
        if rest.starts_with(b"%s") {
            name.extend_from_slice(letters);
            rest = &rest[2..];
        } else {
            name.push(*byte);
            rest = after;
        }
    }
    name
}
