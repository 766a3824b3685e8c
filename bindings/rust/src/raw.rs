//! The header `sefunjaro.h`, as far as this crate calls it. Calls that read a handle take a copy of it, which serves one call.

use std::os::raw::c_void;
use std::ptr;

#[repr(C)]
pub struct RawHandle {
    at: *mut c_void,
    is_open: bool,
}

impl RawHandle {
    pub const CLOSED: RawHandle = RawHandle { at: ptr::null_mut(), is_open: false };

    /// A copy for one call that reads. It is never opened or closed.
    #[inline]
    pub fn copy(&self) -> RawHandle {
        RawHandle { at: self.at, is_open: self.is_open }
    }
}

#[repr(C)]
#[derive(Default)]
pub struct RawFault {
    pub status: u32,
    pub cause: u32,
    pub line: usize,
}

#[repr(C)]
#[derive(Default)]
pub struct RawInForce {
    pub offset: i32,
    pub is_saving: bool,
    pub name_length: usize,
}

#[repr(C)]
#[derive(Default)]
pub struct RawAnswer {
    pub offset: i32,
    pub is_saving: bool,
    pub is_kept: bool,
    pub saving: i64,
    pub clock: crate::Clock,
    pub name_length: usize,
    pub from: i64,
    pub until: i64,
}

#[repr(C)]
#[derive(Clone, Copy, Default)]
pub struct RawReading {
    pub second: i64,
    pub offset: i32,
}

#[repr(C)]
#[derive(Default)]
pub struct RawInstant {
    pub second: i64,
    pub nanosecond: u32,
    pub offset: i32,
}

#[repr(C)]
#[derive(Default)]
pub struct RawYears {
    pub first: i32,
    pub last: i32,
}

pub const DONE: u32 = 0;
pub const NOT_OPEN: u32 = 1;
pub const NO_MEMORY: u32 = 2;
pub const TOO_LONG: u32 = 3;
pub const NOT_TEXT: u32 = 4;
pub const BAD_LINE: u32 = 5;
pub const BAD_JOIN: u32 = 6;
pub const UNKNOWN_ZONE: u32 = 7;
pub const NO_SCHEDULE: u32 = 8;
pub const OFFSET_RANGE: u32 = 9;
pub const OUT_OF_RANGE: u32 = 10;
pub const NONE: u32 = 11;
pub const NOT_READ: u32 = 12;
pub const NOT_KEPT: u32 = 13;
pub const NO_PLAIN_FORM: u32 = 14;

extern "C" {
    pub fn sefunjaro_source_open(text: *const u8, length: usize, source: *mut RawHandle, fault: *mut RawFault) -> u32;
    pub fn sefunjaro_source_open_plain(text: *const u8, length: usize, source: *mut RawHandle, fault: *mut RawFault) -> u32;
    pub fn sefunjaro_name_count_by(copy: *mut RawHandle, count: *mut usize) -> u32;
    pub fn sefunjaro_name_by(copy: *mut RawHandle, place: usize, name: *mut u8, room: usize, whole: *mut usize) -> u32;
    pub fn sefunjaro_source_version_by(copy: *mut RawHandle, version: *mut u8, room: usize, whole: *mut usize) -> u32;
    pub fn sefunjaro_zone_open_by(
        copy: *mut RawHandle,
        name: *const u8,
        length: usize,
        zone: *mut RawHandle,
        fault: *mut RawFault,
    ) -> u32;
    pub fn sefunjaro_file_open(bytes: *const u8, length: usize, zone: *mut RawHandle, fault: *mut RawFault) -> u32;
    pub fn sefunjaro_posix_open(text: *const u8, length: usize, zone: *mut RawHandle, fault: *mut RawFault) -> u32;
    pub fn sefunjaro_share_by(copy: *mut RawHandle, other: *mut RawHandle) -> u32;
    pub fn sefunjaro_close(handle: *mut RawHandle);
    pub fn sefunjaro_offsets_at_by(
        copy: *mut RawHandle,
        seconds: *const i64,
        count: usize,
        offsets: *mut i32,
        room: usize,
        place: *mut usize,
    ) -> u32;
    pub fn sefunjaro_clocks_at_by(
        copy: *mut RawHandle,
        seconds: *const i64,
        count: usize,
        clocks: *mut crate::Clock,
        room: usize,
        place: *mut usize,
    ) -> u32;
    pub fn sefunjaro_texts_at_by(
        copy: *mut RawHandle,
        seconds: *const i64,
        count: usize,
        text: *mut u8,
        room: usize,
        whole: *mut usize,
        place: *mut usize,
    ) -> u32;
    pub fn sefunjaro_instants_of_by(
        copy: *mut RawHandle,
        clocks: *const crate::Clock,
        count: usize,
        fold: u32,
        gap: u32,
        found: *mut crate::Found,
        room: usize,
        place: *mut usize,
    ) -> u32;
    pub fn sefunjaro_offset_at_by(copy: *mut RawHandle, second: i64, nanosecond: u32, offset: *mut i32) -> u32;
    pub fn sefunjaro_in_force_by(
        copy: *mut RawHandle,
        second: i64,
        nanosecond: u32,
        found: *mut RawInForce,
        name: *mut u8,
        room: usize,
    ) -> u32;
    pub fn sefunjaro_answer_at_by(
        copy: *mut RawHandle,
        second: i64,
        nanosecond: u32,
        answer: *mut RawAnswer,
        name: *mut u8,
        room: usize,
    ) -> u32;
    pub fn sefunjaro_clock_at_by(
        copy: *mut RawHandle,
        second: i64,
        nanosecond: u32,
        clock: *mut crate::Clock,
        offset: *mut i32,
    ) -> u32;
    pub fn sefunjaro_text_at_by(
        copy: *mut RawHandle,
        second: i64,
        nanosecond: u32,
        text: *mut u8,
        room: usize,
        whole: *mut usize,
    ) -> u32;
    pub fn sefunjaro_readings_by(
        copy: *mut RawHandle,
        local: *const crate::Clock,
        readings: *mut RawReading,
        room: usize,
        count: *mut usize,
        gap: *mut crate::Gap,
    ) -> u32;
    pub fn sefunjaro_read_local(text: *const u8, length: usize, clock: *mut crate::Clock) -> u32;
    pub fn sefunjaro_read_zoned(text: *const u8, length: usize, instant: *mut RawInstant) -> u32;
    pub fn sefunjaro_saving_at_by(copy: *mut RawHandle, second: i64, nanosecond: u32, saving: *mut i64) -> u32;
    pub fn sefunjaro_years_by(copy: *mut RawHandle, last: *mut i32) -> u32;
    pub fn sefunjaro_next_change_by(copy: *mut RawHandle, second: i64, change: *mut crate::Change) -> u32;
    pub fn sefunjaro_ring_by(copy: *mut RawHandle, local: *const crate::Clock, ring: *mut RawReading) -> u32;
    pub fn sefunjaro_tail_by(copy: *mut RawHandle, text: *mut u8, room: usize, whole: *mut usize, is_posix: *mut bool, fault: *mut RawFault) -> u32;
    pub fn sefunjaro_tzif_by(copy: *mut RawHandle, file: *mut u8, room: usize, whole: *mut usize, fault: *mut RawFault) -> u32;
    pub fn sefunjaro_tail_for_ever_by(copy: *mut RawHandle, text: *mut u8, room: usize, whole: *mut usize, is_posix: *mut bool, fault: *mut RawFault) -> u32;
    pub fn sefunjaro_tzif_for_ever_by(copy: *mut RawHandle, file: *mut u8, room: usize, whole: *mut usize, fault: *mut RawFault) -> u32;
    pub fn sefunjaro_version(text: *mut u8, room: usize, whole: *mut usize, years: *mut RawYears);
}

#[cfg(test)]
mod tests {
    use super::*;
    use crate::{Change, Clock, Found, Gap};
    use std::mem::{size_of, MaybeUninit};
    use std::ptr::addr_of;

    /// A struct's name and size, and where its fields begin.
    macro_rules! layout {
        ($name:literal, $kind:ty: $($field:ident)*) => {{
            let value = MaybeUninit::<$kind>::uninit();
            let start = value.as_ptr();
            let mut text = format!("{} {}:", $name, size_of::<$kind>());
            $(
                // SAFETY: the place of a field is taken, and nothing is read there.
                let place = unsafe { addr_of!((*start).$field) } as usize - start as usize;
                text += &format!(" {} {place}", stringify!($field));
            )*
            text + "\n"
        }};
    }

    #[test]
    fn layouts() {
        let all = [
            layout!("Handle", RawHandle: at is_open),
            layout!("Fault", RawFault: status cause line),
            layout!("InForce", RawInForce: offset is_saving name_length),
            layout!("Clock", Clock: year month day hour minute second nanosecond),
            layout!("Reading", RawReading: second offset),
            layout!("Gap", Gap: second before after),
            layout!("Found", Found: second offset kind),
            layout!("Answer", RawAnswer: offset is_saving is_kept saving clock name_length from until),
            layout!("Years", RawYears: first last),
            layout!("Change", Change: second offset saving name_length differs),
            layout!("Instant", RawInstant: second nanosecond offset),
        ];
        assert_eq!(all.concat(), include_str!(concat!(env!("CARGO_MANIFEST_DIR"), "/layouts.txt")));
    }
}
