//! The words of a command. What is not written exactly so is no word.

/// The words of a line. Two spaces together, or one at an end, give an empty
/// word, which no command takes.
pub fn words(line: &[u8]) -> Option<Vec<&str>> {
    let line = std::str::from_utf8(line).ok()?;
    Some(line.split(' ').collect())
}

/// At most so many bytes, each of two lower-case hex digits; `-` is none.
pub fn bytes(word: &str, most: usize) -> Option<Vec<u8>> {
    match word {
        "-" => Some(Vec::new()),
        "" => None,
        _ if word.len() > 2 * most => None,
        _ => word.as_bytes().chunks(2).map(byte).collect(),
    }
}

/// Exactly so many bytes.
pub fn byte_array<const COUNT: usize>(word: &str) -> Option<[u8; COUNT]> {
    bytes(word, COUNT)?.try_into().ok()
}

/// A decimal number without sign or leading zero, at most so large.
pub fn decimal(word: &str, most: usize) -> Option<usize> {
    let only_digits = word.bytes().all(|character| character.is_ascii_digit());
    let leading_zero = word.len() > 1 && word.starts_with('0');
    if !only_digits || leading_zero {
        return None;
    }
    word.parse().ok().filter(|&number| number <= most)
}

fn byte(digits: &[u8]) -> Option<u8> {
    match *digits {
        [high, low] => Some(16 * digit(high)? + digit(low)?),
        _ => None,
    }
}

/// The number that one lower-case hex digit writes.
pub fn digit(character: u8) -> Option<u8> {
    match character {
        b'0'..=b'9' => Some(character - b'0'),
        b'a'..=b'f' => Some(character - b'a' + 10),
        _ => None,
    }
}
