//! Contents that stand at a limit of 01, or break one of its rules, and versions
//! that are not A0 03 02 01 00.

use super::prng::Rng;
use crate::piece::{Length, Piece};

/// Contents for an element of this tag, most of them at or past a limit.
pub fn contents(rng: &mut Rng, tag: u8) -> Vec<u8> {
    let length = rng.below(70);
    match tag {
        0x18 => rng.pick(&TIMES).to_vec(),
        0x02 => rng.pick(&SERIALS).to_vec(),
        0x06 => rng.pick(&OIDS).to_vec(),
        0x0A => rng.pick(&CODES).to_vec(),
        0x03 => rng.pick(&BITS).to_vec(),
        _ => rng.octets(length),
    }
}

/// Texts around what is a time.
const TIMES: [&[u8]; 34] = [
    b"19700101000000Z",
    b"19691231235959Z",
    b"20000229000000Z",
    b"21000229000000Z",
    b"20040229235959Z",
    b"20050229000000Z",
    b"99991231235959Z",
    b"20050501010060Z",
    b"20050501016000Z",
    b"20050501240000Z",
    b"20050431000000Z",
    b"20050631000000Z",
    b"20050931000000Z",
    b"20051131000000Z",
    b"20050132000000Z",
    b"20050100000000Z",
    b"20050001000000Z",
    b"20051301000000Z",
    b"20050501010000z",
    b"20050501010000",
    b"20050501010000ZZ",
    b"20050501010000.5Z",
    b"20050501010000+0000",
    b"200505010100Z",
    b"050501010000Z",
    b"2005050101000/Z",
    b"2005050101000:Z",
    b"/0050501010000Z",
    b":0050501010000Z",
    b" 0050501010000Z",
    b"+2005050101000Z",
    b"",
    b"24000229000000Z",
    b"99990229000000Z",
];
const SERIALS: [&[u8]; 11] = [
    &[],
    &[0x80],
    &[0xFF],
    &[0, 0],
    &[0, 0x7F],
    &[0, 0x80],
    &[0],
    &[0x7F],
    &[0x7F; 20],
    &[0x7F; 21],
    &[0, 0xFF, 1, 1, 1, 1, 1, 1, 1, 1, 1, 1, 1, 1, 1, 1, 1, 1, 1, 1, 1],
];
const OIDS: [&[u8]; 9] = [
    &[],
    &[0x80],
    &[0x80, 1],
    &[0x2A, 0x80, 1],
    &[0x81],
    &[0x2A, 0x86],
    &[0x2A, 0x81, 0x80, 1],
    &[0x2B, 0x0E, 3, 2, 0x1A],
    &[0x2B, 6, 1, 5, 5, 7, 0x30, 1, 1],
];
const CODES: [&[u8]; 13] =
    [&[], &[0], &[1], &[3], &[4], &[6], &[7], &[8], &[10], &[11], &[0xFF], &[0, 1], &[0, 0]];
const BITS: [&[u8]; 7] = [&[], &[0], &[0, 0], &[1, 0], &[7, 0x80], &[8, 1], &[0xFF, 0]];

/// 1 is the next version, and so comes more often.
const VERSIONS: [&[u8]; 12] =
    [&[1], &[1], &[1], &[2], &[0x7F], &[0x80], &[0xFF], &[0, 0], &[0, 0x80], &[0, 1], &[1, 0], &[]];
/// What may be left over in a version's A0.
const BEHIND_A_VERSION: [&[u8]; 6] =
    [&[0x05, 0x00], &[0x02, 0x01, 0x00], &[0x00], &[0x02], &[0x1F], &[0xA0, 0x00]];

/// Another version than 0, now and then with more behind it.
pub fn version(rng: &mut Rng) -> Piece {
    let number = *rng.pick(&VERSIONS);
    let mut pieces = vec![Piece::plain(0x02, number)];
    if rng.once_in(5) {
        pieces.push(Piece::Raw(rng.pick(&BEHIND_A_VERSION).to_vec()));
    }
    Piece::holds(0xA0, pieces)
}

/// A version in another form than A0 03 02 01 00.
pub fn version_form(rng: &mut Rng) -> Piece {
    let zero = Piece::plain(0x02, &[0]);
    let length = Length::InOctets(rng.between(1, 3));
    match rng.below(8) {
        0 => Piece::holds(0xA0, vec![]),
        1 => Piece::holds(0xA0, vec![Piece::plain(*rng.pick(&[0x0A, 0x0A, 0x04, 0x22]), &[0])]),
        2 | 3 => {
            let more = Piece::Raw(rng.pick(&BEHIND_A_VERSION).to_vec());
            Piece::holds(0xA0, vec![zero, more])
        }
        4 => Piece::holds(*rng.pick(&[0xA1, 0xA2, 0xA3, 0x80]), vec![zero]),
        5 => Piece::plain(0x80, &[0]),
        6 => Piece::Holds { tag: 0xA0, length, pieces: vec![zero] },
        _ => Piece::holds(0xA0, vec![Piece::Plain { tag: 0x02, length, contents: vec![0] }]),
    }
}

/// What may come after a tag octet: nothing, length octets cut off, lengths of
/// other forms, lengths that go too far, and contents that do not belong.
pub const AFTER_A_TAG: [&[u8]; 18] = [
    &[],
    &[],
    &[0x80],
    &[0x81],
    &[0x82],
    &[0x82, 0x01],
    &[0x84, 0, 0],
    &[0x89],
    &[0xFF],
    &[0x85],
    &[0x86, 0x01],
    &[0x88, 0x01, 0x02, 0x03],
    &[0x88],
    &[0x05],
    &[0x81, 0x00],
    &[0x81, 0x02, 0x05, 0x00],
    &[0x00],
    &[0x02, 0x05, 0x00],
];

/// A time with each field at an end of its range, or past it.
pub fn time_text(rng: &mut Rng) -> Vec<u8> {
    let year = *rng.pick(&[0, 1969, 1970, 1972, 1999, 2000, 2004, 2005, 2100, 2400, 9999]);
    let month = rng.below(14);
    let day = *rng.pick(&[0, 1, 28, 29, 29, 30, 30, 31, 31, 32]);
    let mut clock = [rng.below(24), rng.below(60), rng.below(60)];
    match rng.below(6) {
        0 => clock = [23, 59, 59],
        1 => clock[0] = *rng.pick(&[23, 24, 25, 60, 99]),
        2 => clock[1] = *rng.pick(&[59, 60, 61, 99]),
        3 => clock[2] = *rng.pick(&[59, 60, 60, 61, 99]),
        _ => {}
    }
    let [hour, minute, second] = clock;
    // Mostly a real date, so that the time of day decides.
    let (month, day) = if rng.once_in(2) { (month, day) } else { (rng.between(1, 12), 28) };
    format!("{year:04}{month:02}{day:02}{hour:02}{minute:02}{second:02}Z").into_bytes()
}
