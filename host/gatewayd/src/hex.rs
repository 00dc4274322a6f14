//! Bytes as hexadecimal digits.

pub fn write(bytes: &[u8]) -> String {
    const DIGITS: &[u8; 16] = b"0123456789abcdef";
    let mut text = String::with_capacity(2 * bytes.len());
    for byte in bytes {
        text.push(DIGITS[usize::from(byte >> 4)].into());
        text.push(DIGITS[usize::from(byte & 15)].into());
    }
    text
}

/// The bytes, or the place of the first character that is no digit; an odd last digit is at fault
/// by its place, too.
pub fn read(text: &str) -> Result<Vec<u8>, usize> {
    let mut digits = Vec::with_capacity(text.len());
    for (place, character) in text.chars().enumerate() {
        digits.push(character.to_digit(16).ok_or(place)? as u8);
    }
    if digits.len() % 2 == 1 {
        return Err(digits.len() - 1);
    }
    Ok(digits.chunks(2).map(|pair| pair[0] << 4 | pair[1]).collect())
}

#[cfg(test)]
mod tests {
    use super::*;

    #[test]
    fn both_ways() {
        assert_eq!(write(&[0, 0x9a, 0xff]), "009aff");
        assert_eq!(read("009AfF"), Ok(vec![0, 0x9a, 0xff]));
        assert_eq!(read("00g0"), Err(2));
        assert_eq!(read("000"), Err(2));
        assert_eq!(read("0é"), Err(1));
    }
}
