//! Local and zoned texts, written and read.
use crate::calendar::{date_of, day_number, month_length};

/// The two digits of each number below 100.
static PAIRS: [[u8; 2]; 100] = pairs();

const fn pairs() -> [[u8; 2]; 100] {
    let mut pairs = [[0; 2]; 100];
    let mut number = 0;
    while number < 100 {
        pairs[number] = [b'0' + number as u8 / 10, b'0' + number as u8 % 10];
        number += 1;
    }
    pairs
}

fn put(text: &mut [u8; 40], place: usize, number: u32) {
    text[place..place + 2].copy_from_slice(&PAIRS[number as usize]);
}

/// Adds the zoned text of a local second and its nanoseconds at an offset; none where its year has more than four digits.
pub fn add_zoned(lines: &mut Vec<u8>, second: i64, nanos: u32, offset: i32) -> Option<()> {
    let (day, time) = (second.div_euclid(86_400), second.rem_euclid(86_400) as u32);
    let (year, month, date) = date_of(day);
    let size = year.unsigned_abs();
    if size > 9_999 {
        return None;
    }
    let mut text = *b"0000-00-00 00:00:00.000000000 +00:00:00\0";
    put(&mut text, 0, size / 100);
    put(&mut text, 2, size % 100);
    put(&mut text, 5, month);
    put(&mut text, 8, date);
    put(&mut text, 11, time / 3_600);
    put(&mut text, 14, time / 60 % 60);
    put(&mut text, 17, time % 60);
    if nanos != 0 {
        text[20] += (nanos / 100_000_000) as u8;
        put(&mut text, 21, nanos / 1_000_000 % 100);
        put(&mut text, 23, nanos / 10_000 % 100);
        put(&mut text, 25, nanos / 100 % 100);
        put(&mut text, 27, nanos % 100);
    }
    if offset < 0 {
        text[30] = b'-';
    }
    let offset = offset.unsigned_abs();
    put(&mut text, 31, offset / 3_600);
    put(&mut text, 34, offset / 60 % 60);
    put(&mut text, 37, offset % 60);
    if year < 0 {
        lines.push(b'-');
    }
    lines.extend_from_slice(&text[..39]);
    Some(())
}

/// The second and the nanoseconds of a local text.
pub fn read_local(text: &[u8]) -> Option<(i64, u32)> {
    let (is_negative, text) = match text {
        [b'-', rest @ ..] => (true, rest),
        _ => (false, text),
    };
    let text: &[u8; 29] = text.try_into().ok()?;
    if [text[4], text[7], text[10], text[13], text[16], text[19]] != *b"-- ::." {
        return None;
    }
    let year = digits(&text[..4])? as i32;
    let (month, day) = (digits(&text[5..7])?, digits(&text[8..10])?);
    let (hour, minute, second) = (
        digits(&text[11..13])?,
        digits(&text[14..16])?,
        digits(&text[17..19])?,
    );
    let nanos = digits(&text[20..])?;
    let year = if is_negative { -year } else { year };
    let is_date = (1..=12).contains(&month)
        && 1 <= day
        && day <= month_length(year, month)
        && !(is_negative && year == 0);
    if !is_date || hour > 23 || minute > 59 || second > 59 {
        return None;
    }
    let time = (hour * 60 + minute) * 60 + second;
    Some((
        day_number(year, month, day) * 86_400 + i64::from(time),
        nanos,
    ))
}

/// The number that ASCII digits write, at most nine of them.
fn digits(text: &[u8]) -> Option<u32> {
    let (mut number, mut are_digits) = (0, true);
    for byte in text {
        let digit = byte.wrapping_sub(b'0');
        are_digits &= digit < 10;
        number = number * 10 + u32::from(digit);
    }
    are_digits.then(|| number)
}

/// The second, rounded down, and the nanoseconds of a number of nanoseconds: an optional `-` and 1 to 27 digits. More have no date.
pub fn read_instant(text: &[u8]) -> Option<(i64, u32)> {
    let (is_negative, text) = match text {
        [b'-', rest @ ..] => (true, rest),
        _ => (false, text),
    };
    if text.is_empty() || text.len() > 27 {
        return None;
    }
    let (whole, part) = text.split_at(text.len().saturating_sub(9));
    let nanos = digits(part)?;
    let (mut second, mut are_digits) = (0, true);
    for byte in whole {
        let digit = byte.wrapping_sub(b'0');
        are_digits &= digit < 10;
        second = second * 10 + i64::from(digit);
    }
    match (are_digits, is_negative, nanos) {
        (false, _, _) => None,
        (true, false, _) => Some((second, nanos)),
        (true, true, 0) => Some((-second, 0)),
        (true, true, _) => Some((-second - 1, 1_000_000_000 - nanos)),
    }
}
