//! Lower-case hex, both ways.

pub fn write(octets: &[u8]) -> String {
    let mut text = String::with_capacity(2 * octets.len());
    for octet in octets {
        text.push(char::from_digit(u32::from(octet >> 4), 16).unwrap());
        text.push(char::from_digit(u32::from(octet & 15), 16).unwrap());
    }
    text
}

/// Reads hex; blanks and line ends between digits are passed over.
pub fn read(text: &str) -> Option<Vec<u8>> {
    let mut digits = Vec::new();
    for character in text.chars() {
        if !character.is_whitespace() {
            digits.push(character.to_digit(16)? as u8);
        }
    }
    if digits.len() % 2 != 0 {
        return None;
    }
    Some(digits.chunks(2).map(|pair| pair[0] * 16 + pair[1]).collect())
}
