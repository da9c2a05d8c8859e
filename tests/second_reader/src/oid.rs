//! Object identifiers: their rule and the ones that 01 names.

/// Content of the basic response type, as 01 gives it.
pub const BASIC: [u8; 9] = [0x2B, 0x06, 0x01, 0x05, 0x05, 0x07, 0x30, 0x01, 0x01];
/// 1.3.6.1.5.5.7.48.1.2, the nonce.
pub const NONCE: [u8; 9] = [0x2B, 0x06, 0x01, 0x05, 0x05, 0x07, 0x30, 0x01, 0x02];
/// 1.3.6.1.5.5.7.48.1.6, archive cutoff.
pub const ARCHIVE_CUTOFF: [u8; 9] = [0x2B, 0x06, 0x01, 0x05, 0x05, 0x07, 0x30, 0x01, 0x06];
/// 1.3.6.1.5.5.7.48.1.9, extended revoke.
pub const EXTENDED_REVOKE: [u8; 9] = [0x2B, 0x06, 0x01, 0x05, 0x05, 0x07, 0x30, 0x01, 0x09];
/// 1.3.14.3.2.26, SHA-1, as 01 gives it.
pub const SHA_1: [u8; 5] = [0x2B, 0x0E, 0x03, 0x02, 0x1A];

/// 01: "An OID has content; each part's first octet is not 80 hex, and the
/// last octet is below 80 hex."
pub fn keeps_rule(content: &[u8]) -> bool {
    // A part is a run of octets from 80 hex up, closed by one below.
    let mut parts = content.split_inclusive(|octet| *octet < 0x80).peekable();
    parts.peek().is_some() && parts.all(|part| part[0] != 0x80 && part[part.len() - 1] < 0x80)
}

/// Writes an OID from its numbers, as in 1.3.6.1.
pub fn from_numbers(numbers: &[u64]) -> Vec<u8> {
    let mut content = Vec::new();
    let joined = numbers[0] * 40 + numbers[1];
    for number in std::iter::once(&joined).chain(&numbers[2..]) {
        let mut part = vec![(number % 128) as u8];
        let mut rest = number / 128;
        while rest > 0 {
            part.insert(0, 0x80 + (rest % 128) as u8);
            rest /= 128;
        }
        content.extend(part);
    }
    content
}
