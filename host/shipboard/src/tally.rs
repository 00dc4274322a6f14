//! The unit's tally in its 16 bytes.

use crate::TALLY_SIZE;

/// How many records were handed out, forged, too old and repeated; each count stops at 2^32 - 1. A fresh one is `default()`.
#[derive(Clone, Copy, PartialEq, Eq, Default, Debug)]
pub struct Tally {
    bytes: [u8; TALLY_SIZE],
}

impl Tally {
    /// The tally of stored bytes: all strings of 16 bytes are one.
    pub fn load(bytes: [u8; TALLY_SIZE]) -> Tally {
        Tally { bytes }
    }

    /// The bytes to store.
    pub fn save(&self) -> &[u8; TALLY_SIZE] {
        &self.bytes
    }

    pub fn handed_out(&self) -> u32 {
        self.count(0)
    }

    pub fn forged(&self) -> u32 {
        self.count(4)
    }

    pub fn too_old(&self) -> u32 {
        self.count(8)
    }

    pub fn repeated(&self) -> u32 {
        self.count(12)
    }

    pub(crate) fn lent(&mut self) -> &mut [u8] {
        &mut self.bytes
    }

    fn count(&self, at: usize) -> u32 {
        let mut four = [0; 4];
        four.copy_from_slice(&self.bytes[at..at + 4]);
        u32::from_be_bytes(four)
    }
}
