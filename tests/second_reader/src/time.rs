//! Times.  Days are counted with years that begin in March, so that the odd
//! month comes last and no list of month lengths is needed.  A date is real
//! exactly when it comes back from its own day number.

/// 01, M5: 99991231235959Z, the last second of the years allowed.
pub const LAST: u64 = 253_402_300_799;

/// Days from 0000-03-01 to 1970-01-01.
const TO_1970: u64 = 719_468;

/// Days since 1970-01-01, for a year from 1970 on.
fn day_number(year: u64, month: u64, day: u64) -> u64 {
    let (march_year, march_month) =
        if month > 2 { (year, month - 3) } else { (year - 1, month + 9) };
    let before_year = 365 * march_year + march_year / 4 - march_year / 100 + march_year / 400;
    let before_month = (153 * march_month + 2) / 5;
    before_year + before_month + day - 1 - TO_1970
}

/// The date of a day number.
fn date(days: u64) -> (u64, u64, u64) {
    let days = days + TO_1970;
    let era = days / 146_097;
    let in_era = days % 146_097;
    let year_in_era = (in_era - in_era / 1_460 + in_era / 36_524 - in_era / 146_096) / 365;
    let in_year = in_era - (365 * year_in_era + year_in_era / 4 - year_in_era / 100);
    let march_month = (5 * in_year + 2) / 153;
    let day = in_year - (153 * march_month + 2) / 5 + 1;
    let month = if march_month < 10 { march_month + 3 } else { march_month - 9 };
    let year = 400 * era + year_in_era + u64::from(month <= 2);
    (year, month, day)
}

/// 01: "Only GeneralizedTime of 15 octets, YYYYMMDDHHMMSSZ, years 1970 to 9999,
/// real Gregorian dates, hours to 23, minutes and seconds to 59."
pub fn read(text: &[u8]) -> Option<u64> {
    if text.len() != 15 || text[14] != b'Z' || !text[..14].iter().all(u8::is_ascii_digit) {
        return None;
    }
    let number = |from: usize, to: usize| {
        text[from..to].iter().fold(0u64, |sum, digit| sum * 10 + u64::from(digit - b'0'))
    };
    let (year, month, day) = (number(0, 4), number(4, 6), number(6, 8));
    let (hour, minute, second) = (number(8, 10), number(10, 12), number(12, 14));
    let in_range = year >= 1970
        && (1..=12).contains(&month)
        && (1..=31).contains(&day)
        && hour <= 23
        && minute <= 59
        && second <= 59;
    if !in_range {
        return None;
    }
    let days = day_number(year, month, day);
    if date(days) != (year, month, day) {
        return None;
    }
    // 01: "Seconds are 86,400 times the days since 1970-01-01, plus the time
    // of day."
    Some(86_400 * days + 3_600 * hour + 60 * minute + second)
}

/// The fifteen octets of a time up to `LAST`.
pub fn write(seconds: u64) -> Vec<u8> {
    assert!(seconds <= LAST);
    let (year, month, day) = date(seconds / 86_400);
    let rest = seconds % 86_400;
    let (hour, minute, second) = (rest / 3_600, rest / 60 % 60, rest % 60);
    format!("{year:04}{month:02}{day:02}{hour:02}{minute:02}{second:02}Z").into_bytes()
}
