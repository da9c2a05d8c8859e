//! Times, against 01's own list of month lengths walked day by day.

use second_reader::time;

/// "The month lengths are a constant list: 31, 28 or 29, 31, 30, 31, 30, 31,
/// 31, 30, 31, 30, 31."
const MONTHS: [u64; 12] = [31, 28, 31, 30, 31, 30, 31, 31, 30, 31, 30, 31];

#[test]
fn every_day_from_1970_to_9999() {
    let mut days = 0;
    for year in 1970..=9999u64 {
        let leap = year % 4 == 0 && (year % 100 != 0 || year % 400 == 0);
        for month in 1..=12u64 {
            let length = MONTHS[month as usize - 1] + u64::from(leap && month == 2);
            for day in 1..=length {
                let text = format!("{year:04}{month:02}{day:02}000000Z");
                assert_eq!(time::read(text.as_bytes()), Some(86_400 * days), "{text}");
                assert_eq!(time::write(86_400 * days), text.as_bytes());
                days += 1;
            }
            let past = format!("{year:04}{month:02}{:02}000000Z", length + 1);
            assert_eq!(time::read(past.as_bytes()), None, "{past}");
        }
    }
    assert_eq!(86_400 * days - 1, time::LAST);
}

#[test]
fn every_second_of_a_day() {
    for second in 0..86_400u64 {
        let text =
            format!("20050501{:02}{:02}{:02}Z", second / 3_600, second / 60 % 60, second % 60);
        assert_eq!(time::read(text.as_bytes()), Some(1_114_905_600 + second));
    }
}

#[test]
fn no_times() {
    let none: [&[u8]; 24] = [
        b"",
        b"Z",
        b"20050501010000",
        b"20050501010000z",
        b"20050501010000Z ",
        b" 20050501010000Z",
        b"200505010100Z",
        b"20050501010000.0Z",
        b"20050501010000+0000",
        b"050501010000Z",
        b"19691231235959Z",
        b"00000101000000Z",
        b"20050001000000Z",
        b"20051301000000Z",
        b"20050100000000Z",
        b"20050132000000Z",
        b"20050431000000Z",
        b"20050229000000Z",
        b"20050501240000Z",
        b"20050501006000Z",
        b"20050501000060Z",
        b"2005050101000/Z",
        b"2005050101000:Z",
        b"\xb2005050101000Z",
    ];
    for text in none {
        assert_eq!(time::read(text), None, "{}", String::from_utf8_lossy(text));
    }
    assert_eq!(time::read(b"19700101000000Z"), Some(0));
    assert_eq!(time::read(b"24000229235959Z"), Some(13_574_649_599));
}
