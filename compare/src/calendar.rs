//! The Gregorian calendar by day numbers, where 0 is 1970-01-01.

/// Days from 0000-03-01, or a multiple of 146,097 days before it, to 1970-01-01.
const SHIFT: i64 = 719_468 + 146_097 * 100;

/// The day number of a day of a month; a number past the month's end counts on.
pub fn day_number(year: i32, month: u32, day: u32) -> i64 {
    let year = (year + 40_000 - i32::from(month < 3)) as u32;
    let months = (month + 9) % 12;
    let (century, rest) = (year / 100, year % 100);
    let before = century * 36_524 + century / 4 + rest * 1_461 / 4;
    i64::from(before + (153 * months + 2) / 5 + day - 1) - SHIFT
}

/// The year, the month and the day of a day number.
pub fn date_of(day: i64) -> (i32, u32, u32) {
    let quarters = (day + SHIFT) as u32 * 4 + 3;
    let century = quarters / 146_097;
    let quarters = quarters % 146_097 | 3;
    let product = u64::from(quarters) * 2_939_745;
    let (year, left) = ((product >> 32) as u32, product as u32 / 2_939_745 / 4);
    let both = left * 2_141 + 197_913;
    let (month, day) = (both >> 16, (both & 0xffff) / 2_141);
    let is_next = left >= 306;
    let year = (century * 100 + year) as i32 - 40_000 + i32::from(is_next);
    (year, if is_next { month - 12 } else { month }, day + 1)
}

/// How many days a month has.
pub fn month_length(year: i32, month: u32) -> u32 {
    match month {
        2 if year % 4 == 0 && (year % 100 != 0 || year % 400 == 0) => 29,
        2 => 28,
        _ => 30 | (month ^ (month >> 3)),
    }
}

/// The first day from a day on that has a weekday, where 0 is Sunday.
pub fn first_from(weekday: u32, day: i64) -> i64 {
    day + (i64::from(weekday) - (day + 4)).rem_euclid(7)
}
