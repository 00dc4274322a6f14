//! Alerts and their checksum (WTLS 10.2).

#[derive(Clone, Copy, PartialEq, Eq, Debug)]
pub enum Level {
    Warning = 1,
    Critical = 2,
    Fatal = 3,
}

#[derive(Clone, Copy, PartialEq, Eq, Debug)]
pub struct Alert {
    pub level: Level,
    pub description: u8,
    pub checksum: [u8; 4],
}

pub fn level(number: u8) -> Option<Level> {
    match number {
        1 => Some(Level::Warning),
        2 => Some(Level::Critical),
        3 => Some(Level::Fatal),
        _ => None,
    }
}

/// The descriptions of the list in 10.2.
const ASSIGNED: [u8; 32] = [
    0, 1, 5, 10, 11, 20, 21, 22, 30, 40, 42, 43, 44, 45, 46, 47, 48, 49, 50, 51, 52, 53, 54, 55,
    56, 57, 60, 70, 71, 80, 90, 100,
];

pub fn is_assigned(description: u8) -> bool {
    ASSIGNED.contains(&description)
}

/// Exactly level, description and checksum, the first two assigned; nothing for all else.
pub fn read(content: &[u8]) -> Option<Alert> {
    let [number, description, a, b, c, d] = *content else { return None };
    let level = level(number)?;
    is_assigned(description).then_some(Alert { level, description, checksum: [a, b, c, d] })
}

pub fn write(level: u8, description: u8, checksum: [u8; 4]) -> Vec<u8> {
    let mut content = vec![level, description];
    content.extend(checksum);
    content
}

/// The XOR of a record's 4-byte blocks, the last one filled with zeros.
pub fn checksum(record: &[u8]) -> [u8; 4] {
    let mut sum = [0; 4];
    for (place, byte) in record.iter().enumerate() {
        sum[place % 4] ^= byte;
    }
    sum
}

#[cfg(test)]
mod tests {
    use super::*;

    /// Cases A to D.
    #[test]
    fn checksums() {
        assert_eq!(checksum(&[]), [0; 4]);
        assert_eq!(checksum(&[5]), [5, 0, 0, 0]);
        assert_eq!(checksum(&[0x43, 0, 0, 1, 2]), [0x41, 0, 0, 1]);
        assert_eq!(checksum(&[1, 2, 3, 4, 1, 2, 3, 4]), [0; 4]);
    }

    #[test]
    fn assigned_descriptions() {
        let assigned: Vec<u8> = (0..=255).filter(|d| is_assigned(*d)).collect();
        assert_eq!(assigned.len(), 32);
        assert!(!is_assigned(41) && !is_assigned(58) && is_assigned(42) && is_assigned(57));
    }

    #[test]
    fn exact_length() {
        assert!(read(&[1, 0, 9, 9, 9]).is_none());
        assert!(read(&[1, 0, 9, 9, 9, 9, 9]).is_none());
        assert!(read(&[0, 0, 9, 9, 9, 9]).is_none());
        assert!(read(&[4, 0, 9, 9, 9, 9]).is_none());
        assert!(read(&[1, 2, 9, 9, 9, 9]).is_none());
        assert_eq!(read(&[3, 100, 1, 2, 3, 4]).unwrap().checksum, [1, 2, 3, 4]);
    }
}
