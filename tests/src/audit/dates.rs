//! A slow second opinion on dates: their half bytes as text, and a calendar of months.

const MONTHS: [u32; 12] = [31, 28, 31, 30, 31, 30, 31, 31, 30, 31, 30, 31];

/// The days of a year.
fn days(year: u32) -> u32 {
    let leap = year.is_multiple_of(4) && !year.is_multiple_of(100) || year.is_multiple_of(400);
    MONTHS.iter().sum::<u32>() + u32::from(leap)
}

fn is_date(year: u32, day: u32) -> bool {
    (1900..=2099).contains(&year) && (1..=days(year)).contains(&day)
}

/// Year and day of a packed date.
pub fn of_packed(bytes: &[u8]) -> Option<(u32, u32)> {
    let text: String = bytes.iter().map(|byte| format!("{byte:02X}")).collect();
    let digits = text.strip_prefix('0')?.strip_suffix('F')?;
    if digits.len() != 6 || !digits.chars().all(|digit| digit.is_ascii_digit()) {
        return None;
    }
    let number = |text: &str| text.parse::<u32>().ok();
    let (century, year, day) = (&digits[..1], number(&digits[1..3])?, number(&digits[3..])?);
    let first = match century {
        "0" => 1900,
        "1" => 2000,
        _ => return None,
    };
    is_date(first + year, day).then_some((first + year, day))
}

/// Year and day of a stored date.
pub fn of_stored(bytes: &[u8]) -> Option<(u32, u32)> {
    let &[year, high, low] = bytes else { return None };
    let (year, day) = (1900 + u32::from(year), 256 * u32::from(high) + u32::from(low));
    is_date(year, day).then_some((year, day))
}

/// The packed form of a year from 1900 on and a day below 1000, be there such a date or not.
pub fn packed(year: u32, day: u32) -> [u8; 4] {
    let text = format!("0{}{:02}{day:03}F", (year - 1900) / 100, year % 100);
    u32::from_str_radix(&text, 16).expect("eight digits").to_be_bytes()
}

/// The stored form of a year from 1900 to 2155 and a day, be there such a date or not.
pub fn stored(year: u32, day: u32) -> [u8; 3] {
    [(year - 1900) as u8, (day / 256) as u8, (day % 256) as u8]
}

/// What bytes 56 to 58 hold after an allocate with this expiry date.
pub fn expiry(bytes: &[u8]) -> Option<[u8; 3]> {
    match bytes {
        [0, 0, 0, 0] => Some([0; 3]),
        _ => of_packed(bytes).map(|(year, day)| stored(year, day)),
    }
}

/// Whether a stored date, or what stands in its place, is later than another: "if its year byte is
/// higher, or at equal years its day is".
pub fn is_later(one: &[u8], other: &[u8]) -> bool {
    let day = |bytes: &[u8]| 256 * u32::from(bytes[1]) + u32::from(bytes[2]);
    one[0] > other[0] || one[0] == other[0] && day(one) > day(other)
}
