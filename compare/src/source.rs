//! A source: its lines by patterns, joined to a table.
use crate::calendar::{day_number, first_from, month_length};
use crate::hash::Map;
use regex::bytes::{CaptureLocations, Regex};

/// The clock that a time is told by.
#[derive(Clone, Copy)]
pub enum Clock {
    Wall,
    Standard,
    Utc,
}

impl Clock {
    /// The instant at which the clock shows a second.
    pub fn instant(self, second: i64, offset: i64, saving: i64) -> i64 {
        match self {
            Clock::Wall => second - (offset + saving),
            Clock::Standard => second - offset,
            Clock::Utc => second,
        }
    }
}

/// A day of a month.
#[derive(Clone, Copy)]
enum Day {
    Number(u32),
    Last(u32),
    OnOrBefore(u32, u32),
    OnOrAfter(u32, u32),
}

impl Day {
    fn in_month(self, year: i32, month: u32) -> i64 {
        match self {
            Day::Number(number) => day_number(year, month, number),
            Day::Last(weekday) => first_from(
                weekday,
                day_number(year, month, month_length(year, month)) - 6,
            ),
            Day::OnOrBefore(weekday, number) => {
                first_from(weekday, day_number(year, month, number) - 6)
            }
            Day::OnOrAfter(weekday, number) => first_from(weekday, day_number(year, month, number)),
        }
    }
}

pub struct Rule<'a> {
    pub first: i32,
    pub last: i32,
    month: u32,
    day: Day,
    time: i64,
    pub clock: Clock,
    pub saving: i64,
    pub letters: &'a [u8],
}

impl Rule<'_> {
    /// The second of a year that the rule's clock shows when it fires.
    pub fn shown_in(&self, year: i32) -> i64 {
        86_400 * self.day.in_month(year, self.month) + self.time
    }
}

pub enum Saving<'a> {
    Fixed(i64),
    Ruled(&'a [u8]),
}

/// When a stretch ends, by its clock.
pub struct End {
    pub year: i32,
    pub shown: i64,
    pub clock: Clock,
}

/// A line of a zone.
pub struct Stretch<'a> {
    pub offset: i64,
    pub saving: Saving<'a>,
    pub format: &'a [u8],
    pub end: Option<End>,
}

#[derive(Default)]
pub struct Table<'a> {
    pub rules: Map<&'a [u8], Vec<Rule<'a>>>,
    zones: Map<&'a [u8], Vec<Stretch<'a>>>,
    links: Map<&'a [u8], &'a [u8]>,
}

impl<'a> Table<'a> {
    /// The table of a source, or the number of the line that is refused.
    pub fn read(source: &'a str) -> Result<Table<'a>, usize> {
        let mut reader = Reader::new();
        let mut table = Table::default();
        let mut open = None;
        for (index, line) in crate::lines(source).enumerate() {
            reader
                .join(&mut table, &mut open, line.as_bytes())
                .ok_or(index + 1)?;
        }
        Ok(table)
    }

    /// The lines of the zone that a name finds, through one link at most.
    pub fn zone(&self, name: &[u8]) -> Option<&[Stretch<'a>]> {
        let lines = self
            .zones
            .get(name)
            .or_else(|| self.zones.get(self.links.get(name)?))?;
        Some(lines)
    }
}

impl Table<'_> {
    pub fn zone_count(&self) -> usize {
        self.zones.len()
    }

    pub fn link_count(&self) -> usize {
        self.links.len()
    }

    /// The names of the zones, and those of links to one.
    pub fn names(&self) -> impl Iterator<Item = &[u8]> {
        let leads = |(name, target): &(&&[u8], &&[u8])| {
            !self.zones.contains_key(**name) && self.zones.contains_key(**target)
        };
        let links = self
            .links
            .iter()
            .filter(move |link| leads(link))
            .map(|(name, _)| *name);
        self.zones.keys().copied().chain(links)
    }
}

/// A pattern with the places of its groups' parts.
struct Pattern {
    regex: Regex,
    parts: CaptureLocations,
}

impl Pattern {
    fn new(text: &str) -> Pattern {
        let regex = Regex::new(text).expect("a pattern");
        let parts = regex.capture_locations();
        Pattern { regex, parts }
    }

    fn matches(&mut self, line: &[u8]) -> bool {
        self.regex.captures_read(&mut self.parts, line).is_some()
    }

    fn part<'a>(&self, line: &'a [u8], group: usize) -> Option<&'a [u8]> {
        self.parts.get(group).map(|(start, end)| &line[start..end])
    }

    /// The parts of the groups from 1 on, each of which took part.
    fn parts<'a, const N: usize>(&self, line: &'a [u8]) -> [&'a [u8]; N] {
        std::array::from_fn(|i| self.part(line, i + 1).unwrap_or(b""))
    }
}

struct Reader {
    blank: Regex,
    zone: Pattern,
    continuation: Pattern,
    rule: Pattern,
    link: Pattern,
}

impl Reader {
    fn new() -> Reader {
        let end = r"(\S+)\s+(\S+)\s+(\S+)\s*([0-9]+)?\s*([A-Za-z]+)?\s*([A-Za-z0-9><=]+)?\s*([0-9:]+[suwz]?)?\s*(?:#.*)?$";
        Reader {
            blank: Regex::new(r"(?-u)^\s*(?:#.*)?$").expect("a pattern"),
            zone: Pattern::new(&format!(r"(?-u)^Zone\s+([A-Za-z0-9/_+-]+)\s+{end}")),
            continuation: Pattern::new(&format!(r"(?-u)^\s+{end}")),
            rule: Pattern::new(
                r"(?-u)^Rule\s+(\S+)\s+(\S+)\s+(\S+)\s+(\S+)\s+(\S+)\s+(\S+)\s+(\S+)\s+(\S+)\s+(\S+)\s*(?:#.*)?$",
            ),
            link: Pattern::new(r"(?-u)^Link\s+(\S+)\s+(\S+)\s*(?:#.*)?$"),
        }
    }

    /// Joins a line to the table. The open zone is the one that a continuation belongs to.
    fn join<'a>(
        &mut self,
        table: &mut Table<'a>,
        open: &mut Option<&'a [u8]>,
        line: &'a [u8],
    ) -> Option<()> {
        let first = line.first().copied().unwrap_or(b'#');
        if first == b'#' {
            return Some(());
        }
        match first {
            b'R' if self.rule.matches(line) => {
                let [name, from, to, hyphen, month, day, time, saving, letters] =
                    self.rule.parts(line);
                let rule = rule_of([from, to, hyphen, month, day, time, saving, letters])?;
                table.rules.entry(name).or_default().push(rule);
            }
            b'Z' if self.zone.matches(line) => {
                let stretch = stretch_of(&self.zone, line, 2)?;
                let name = self.zone.part(line, 1)?;
                *open = stretch.end.is_some().then(|| name);
                table.zones.entry(name).or_default().push(stretch);
            }
            b'L' if self.link.matches(line) => {
                let [target, name] = self.link.parts(line);
                table.links.insert(name, target);
            }
            _ if self.blank.is_match(line) => (),
            _ if self.continuation.matches(line) => {
                let stretch = stretch_of(&self.continuation, line, 1)?;
                let name = (*open)?;
                if stretch.end.is_none() {
                    *open = None;
                }
                table.zones.get_mut(name)?.push(stretch);
            }
            _ => return None,
        }
        Some(())
    }
}

/// The stretch whose columns are the groups from one on.
fn stretch_of<'a>(pattern: &Pattern, line: &'a [u8], first: usize) -> Option<Stretch<'a>> {
    let column = |place| pattern.part(line, first + place);
    let rules = column(1)?;
    let is_name = |byte: &u8| matches!(byte, b'-' | b'_' | b'A'..=b'Z' | b'a'..=b'z');
    let saving = match rules {
        b"-" => Saving::Fixed(0),
        _ if rules.iter().all(is_name) => Saving::Ruled(rules),
        _ => Saving::Fixed(wall_time(rules)?),
    };
    let end = match column(3) {
        Some(year) => Some(end_of(year, [column(4), column(5), column(6)])?),
        None => None,
    };
    Some(Stretch {
        offset: wall_time(column(0)?)?,
        saving,
        format: column(2)?,
        end,
    })
}

fn end_of(year: &[u8], columns: [Option<&[u8]>; 3]) -> Option<End> {
    let [month, day, time] = columns;
    let year = number(year)? as i32;
    let month = month.map_or(Some(1), month_number)?;
    let day = day.map_or(Some(Day::Number(1)), day_of)?;
    let (time, clock) = time.map_or(Some((0, Clock::Wall)), time_of)?;
    Some(End {
        year,
        shown: 86_400 * day.in_month(year, month) + time,
        clock,
    })
}

fn rule_of<'a>(columns: [&'a [u8]; 8]) -> Option<Rule<'a>> {
    let [from, to, hyphen, month, day, time, saving, letters] = columns;
    if hyphen != b"-" && hyphen != "\u{2010}".as_bytes() {
        return None;
    }
    let first = number(from)? as i32;
    let last = match to {
        b"only" => first,
        b"max" => i32::MAX,
        _ => number(to)? as i32,
    };
    let (time, clock) = time_of(time)?;
    Some(Rule {
        first,
        last,
        month: month_number(month)?,
        day: day_of(day)?,
        time,
        clock,
        saving: wall_time(saving)?,
        letters: if letters == b"-" { b"" } else { letters },
    })
}

/// The number of one to nine digits.
fn number(text: &[u8]) -> Option<u32> {
    if text.is_empty() || text.len() > 9 {
        return None;
    }
    text.iter().try_fold(0, |before, byte| match byte {
        b'0'..=b'9' => Some(10 * before + u32::from(byte - b'0')),
        _ => None,
    })
}

/// The place, from 0, of the name in full or in three letters.
fn place_of(text: &[u8], names: &[&str]) -> Option<u32> {
    let is_it = |name: &&str| {
        text.eq_ignore_ascii_case(name.as_bytes())
            || text.eq_ignore_ascii_case(&name.as_bytes()[..3])
    };
    Some(names.iter().position(is_it)? as u32)
}

fn month_number(text: &[u8]) -> Option<u32> {
    let names = [
        "january",
        "february",
        "march",
        "april",
        "may",
        "june",
        "july",
        "august",
        "september",
        "october",
        "november",
        "december",
    ];
    Some(place_of(text, &names)? + 1)
}

fn weekday_number(text: &[u8]) -> Option<u32> {
    place_of(
        text,
        &[
            "sunday",
            "monday",
            "tuesday",
            "wednesday",
            "thursday",
            "friday",
            "saturday",
        ],
    )
}

fn day_of(text: &[u8]) -> Option<Day> {
    if let Some(day) = number(text) {
        return Some(Day::Number(day));
    }
    if let Some(weekday) = text.strip_prefix(b"last") {
        return Some(Day::Last(weekday_number(weekday)?));
    }
    let sign = text.iter().position(|byte| matches!(byte, b'<' | b'>'))?;
    let (weekday, rest) = text.split_at(sign);
    let (weekday, day) = (weekday_number(weekday)?, number(rest.get(2..)?)?);
    match &rest[..2] {
        b">=" => Some(Day::OnOrAfter(weekday, day)),
        b"<=" => Some(Day::OnOrBefore(weekday, day)),
        _ => None,
    }
}

/// The seconds of a time, and its clock.
fn time_of(text: &[u8]) -> Option<(i64, Clock)> {
    if text == b"-" {
        return Some((0, Clock::Wall));
    }
    let (text, clock) = match text {
        [rest @ .., b's'] => (rest, Clock::Standard),
        [rest @ .., b'u' | b'g' | b'z'] => (rest, Clock::Utc),
        [rest @ .., b'w'] => (rest, Clock::Wall),
        _ => (text, Clock::Wall),
    };
    let (is_negative, digits) = match text {
        [b'-', rest @ ..] => (true, rest),
        _ => (false, text),
    };
    let (mut seconds, mut unit) = (0, 3_600);
    for part in digits.split(|byte| *byte == b':') {
        seconds += i64::from(number(part)?) * unit;
        unit /= 60;
    }
    Some((if is_negative { -seconds } else { seconds }, clock))
}

fn wall_time(text: &[u8]) -> Option<i64> {
    match time_of(text)? {
        (seconds, Clock::Wall) => Some(seconds),
        _ => None,
    }
}
