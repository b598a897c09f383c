//! Where the fields of the label records (DSCBs) lie, and big-endian access.

/// Bytes in a record.
pub const RECORD: usize = 140;
/// Byte 44 of every record but a format 0 tells its format.
pub const FORMAT: usize = 44;
pub const FORMAT_1: u8 = 0xF1;
pub const FORMAT_3: u8 = 0xF3;
pub const FORMAT_4: u8 = 0xF4;
pub const FORMAT_5: u8 = 0xF5;

/// Format 1 fields.
pub const EXPIRY: usize = 56;
pub const EXTENT_COUNT: usize = 59;
pub const UNIT: usize = 94;
pub const SECONDARY: usize = 95;
pub const LAST_BLOCK: usize = 98;
/// The address of the format 3 (in a format 1), of the next format 5 (in a format 5).
pub const LINK: usize = 135;

pub const UNIT_TRACKS: u8 = 0x80;
pub const UNIT_CYLINDERS: u8 = 0xC0;
pub const UNIT_ABSOLUTE: u8 = 0x00;

/// Extent types.
pub const ANY_TRACKS: u8 = 0x01;
pub const WHOLE_CYLINDERS: u8 = 0x81;

/// Entries in a format 5.
pub const ENTRIES: usize = 26;
/// Extents a data set may have, and those of them that its format 1 holds.
pub const MAX_EXTENTS: usize = 16;
pub const IN_FORMAT_1: usize = 3;

pub type Record = [u8; RECORD];
pub const FORMAT_0: Record = [0; RECORD];

/// Reads two bytes, big-endian.
#[inline]
pub fn be16(record: &Record, at: usize) -> u32 {
    u32::from(record[at]) << 8 | u32::from(record[at + 1])
}

/// Reads three bytes, big-endian.
pub fn be24(record: &Record, at: usize) -> u32 {
    u32::from(record[at]) << 16 | be16(record, at + 1)
}

/// Writes the low two bytes of `value`, big-endian.
pub fn put16(bytes: &mut [u8], at: usize, value: u32) {
    bytes[at..at + 2].copy_from_slice(&value.to_be_bytes()[2..]);
}

/// Writes the low three bytes of `value`, big-endian.
pub fn put24(bytes: &mut [u8], at: usize, value: u32) {
    bytes[at..at + 3].copy_from_slice(&value.to_be_bytes()[1..]);
}

/// The five bytes of an address at `at`.
#[inline]
pub fn link(record: &Record, at: usize) -> [u8; 5] {
    [record[at], record[at + 1], record[at + 2], record[at + 3], record[at + 4]]
}

/// Where entry `i` of a format 5 lies: byte 44 stands between entries 7 and 8.
pub fn entry_at(i: usize) -> usize {
    4 + 5 * i + usize::from(i >= 8)
}

/// Where extent `e` (3 to 15) lies in a format 3: byte 44 stands between extents 6 and 7.
pub fn format_3_extent_at(e: usize) -> usize {
    4 + 10 * (e - IN_FORMAT_1) + usize::from(e >= 7)
}

/// Where extent `e` (0 to 2) lies in a format 1.
pub fn format_1_extent_at(e: usize) -> usize {
    105 + 10 * e
}

/// The ten bytes of extent `e` in a format 1 or a format 3; none where there is no such extent or a
/// record has another length.
pub fn extent_part<'a>(format_1: &'a [u8], format_3: &'a [u8], e: usize) -> &'a [u8] {
    if [format_1, format_3].iter().any(|record| record.len() != RECORD) {
        return &[];
    }
    let (record, at) = match e {
        _ if e < IN_FORMAT_1 => (format_1, format_1_extent_at(e)),
        _ if e < MAX_EXTENTS => (format_3, format_3_extent_at(e)),
        _ => return &[],
    };
    &record[at..at + 10]
}

/// The three stretches of a format 1 that hold the 52 attribute bytes.
pub const ATTRIBUTES: [(usize, usize); 3] = [(45, 59), (60, 94), (101, 105)];
