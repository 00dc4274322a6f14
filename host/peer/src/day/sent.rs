//! The records that the shore sent, and alerts about each of them.

use super::Day;
use crate::alert;
use crate::shore::Checksum;
use crate::wire::Content;

/// How many forgotten checksums a day goes on naming.
const FORGOTTEN: usize = 6;

impl Day<'_> {
    /// The checksums that the shore goes by, the newest first.
    pub(super) fn records_sent(&self) -> Vec<Checksum> {
        self.model.shore().map_or(Vec::new(), |shore| shore.records_sent().to_vec())
    }

    /// Those of `before` that the shore no longer goes by: one too many, or from before a start.
    pub(super) fn forget(&mut self, before: Vec<Checksum>) {
        let now = self.records_sent();
        self.forgotten.extend(before.iter().rev().filter(|sum| !now.contains(sum)));
        let many = self.forgotten.len().saturating_sub(FORGOTTEN);
        self.forgotten.drain(..many);
    }

    /// The newest checksum, any that is kept, or one that is forgotten.
    pub(super) fn some_checksum(&mut self) -> Checksum {
        let kept = self.records_sent();
        let newest = kept.first().copied().unwrap_or([0; 4]);
        match self.rng.under(10) {
            0..=3 => newest,
            4..=7 if !kept.is_empty() => self.rng.pick(&kept),
            8 if !self.forgotten.is_empty() => self.rng.pick(&self.forgotten),
            9 => alert::checksum(&[0xc1, 0, 1, 0, 1, 1]),
            _ => newest,
        }
    }

    /// Some alerts of ours, then a clear warning about each record that is kept, and about each
    /// of those that were forgotten last.
    pub(super) fn earlier_records(&mut self) {
        for _ in 0..self.rng.under(10) {
            self.alert();
        }
        let mut sums = self.records_sent();
        sums.extend(self.forgotten.iter().rev());
        for sum in sums {
            let content = alert::write(1, 90, sum);
            let number = self.rng.draw() as u16;
            let datagram = self.unit.clear(Content::Alert, false, number, &content);
            self.receive(&datagram);
        }
    }
}
