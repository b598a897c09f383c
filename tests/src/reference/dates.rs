//! Expiry dates: document 02, [5]. Bytes are looked up whole, two digits at a time, and so are the days
//! of each year.

/// "Digits 0, C, Y, Y, D, D, D and sign F, a half byte each."
pub type Packed = [u8; 4];
/// "Year less 1900 (1 byte) and day (2 bytes)". In the order of arrays the later date is the greater: by
/// its year, at equal years by its day.
pub type Stored = [u8; 3];

/// "Four zero bytes for none, stored as zeros."
const NONE: Packed = [0; 4];
pub const NONE_STORED: Stored = [0; 3];

/// A byte that is no two digits.
const NO_PAIR: u8 = 0xFF;

/// The two digits of each number below 100, a half byte each.
const PAIRS: [u8; 100] = {
    let mut pairs = [0; 100];
    let mut n = 0;
    while n < 100 {
        pairs[n] = (n / 10 * 16 + n % 10) as u8;
        n += 1;
    }
    pairs
};

/// The number that the digits of a byte make.
const NUMBERS: [u8; 256] = {
    let mut numbers = [NO_PAIR; 256];
    let mut n = 0;
    while n < 100 {
        numbers[PAIRS[n] as usize] = n as u8;
        n += 1;
    }
    numbers
};

/// The days of each year by its byte: 1900 isn't a leap year, and from 1904 to 2096 every fourth is. None
/// from 2100 on.
const DAYS: [u16; 256] = {
    let mut days = [0; 256];
    let mut year = 0;
    while year < 200 {
        days[year] = 365;
        year += 1;
    }
    let mut leap = 4;
    while leap < 200 {
        days[leap] = 366;
        leap += 4;
    }
    days
};

#[inline]
fn is_date(year: u8, day: u16) -> bool {
    // Day 0 wraps to one that no year has.
    day.wrapping_sub(1) < DAYS[usize::from(year)]
}

/// The stored form of a date.
#[inline]
pub fn stored(packed: &Packed) -> Option<Stored> {
    let [century, years, tens, ones] = *packed;
    let (years, tens) = (NUMBERS[usize::from(years)], NUMBERS[usize::from(tens)]);
    let digits = century <= 1 && years != NO_PAIR && tens != NO_PAIR && ones < 0xA0;
    if !digits || ones & 0x0F != 0x0F {
        return None;
    }
    let year = 100 * century + years;
    let day = 10 * u16::from(tens) + u16::from(ones >> 4);
    let [high, low] = day.to_be_bytes();
    is_date(year, day).then_some([year, high, low])
}

/// The packed form of a date.
#[inline]
pub fn packed(stored: &Stored) -> Option<Packed> {
    let [year, high, low] = *stored;
    let day = u16::from_be_bytes([high, low]);
    if !is_date(year, day) {
        return None;
    }
    let (century, years) = if year < 100 { (0, year) } else { (1, year - 100) };
    let (tens, ones) = (usize::from(day / 10), (day % 10) as u8);
    Some([century, PAIRS[usize::from(years)], PAIRS[tens], ones << 4 | 0x0F])
}

/// The stored form of the date that an allocate is given, or of none.
#[inline]
pub fn expiry(packed: &Packed) -> Option<Stored> {
    if *packed == NONE {
        return Some(NONE_STORED);
    }
    stored(packed)
}
