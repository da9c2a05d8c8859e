//! Serials, as whole numbers.

/// A whole number: its octets, high first, without leading zeros (so zero has
/// none).  Whether it may be a serial is `keeps_rule`'s question.
#[derive(Debug, Clone, PartialEq, Eq)]
pub struct Serial {
    magnitude: Vec<u8>,
}

/// 01: "A serial is 1 to 20 octets, first bit clear, minimal: a leading 00
/// only where it is alone or the next octet is 80 hex or more."
pub fn keeps_rule(content: &[u8]) -> bool {
    match content {
        [] => false,
        [only] => *only < 0x80,
        [0x00, next, ..] => content.len() <= 20 && *next >= 0x80,
        [first, ..] => content.len() <= 20 && *first < 0x80,
    }
}

impl Serial {
    /// The number that a content means, if it keeps the rule.
    pub fn from_content(content: &[u8]) -> Option<Serial> {
        keeps_rule(content).then(|| Serial::from_magnitude(content))
    }

    /// A number from octets, high first; leading zeros are dropped.
    pub fn from_magnitude(octets: &[u8]) -> Serial {
        Serial { magnitude: octets.iter().copied().skip_while(|octet| *octet == 0).collect() }
    }

    /// The content of the INTEGER that means this number.
    pub fn content(&self) -> Vec<u8> {
        let mut content = self.magnitude.clone();
        if content.first().is_none_or(|first| *first >= 0x80) {
            content.insert(0, 0);
        }
        content
    }

    /// The number itself where it is small enough to say.
    pub fn small(&self) -> Option<u64> {
        (self.magnitude.len() <= 8)
            .then(|| self.magnitude.iter().fold(0, |sum, octet| sum * 256 + u64::from(*octet)))
    }
}
