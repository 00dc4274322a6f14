//! How often each refusal met a ship, by the hour; counted here until it is saved.

use crate::clock::Moment;
use crate::note::Note;
use crate::ship::Ship;
use crate::store::engine::Row;
use std::collections::BTreeMap;

#[derive(Default)]
pub struct Counts(BTreeMap<(usize, u64, u8), Count>);

struct Count {
    count: i64,
    last: Moment,
}

const MILLISECONDS_OF_AN_HOUR: u64 = 3_600_000;

impl Counts {
    /// Counts a note, if it is a refusal.
    pub fn note(&mut self, ship: Option<usize>, note: &Note, time: Moment) {
        let (Some(ship), Note::Refused { refusal, .. } | Note::RefusedWhole { refusal, .. }) =
            (ship, note)
        else {
            return;
        };
        let key = (ship, time.0 / MILLISECONDS_OF_AN_HOUR, refusal.number());
        let found = self.0.entry(key).or_insert(Count { count: 0, last: time });
        found.count += 1;
        found.last = time;
    }

    pub fn is_empty(&self) -> bool {
        self.0.is_empty()
    }

    /// In the order of their ships' identifiers, as rows are locked.
    pub fn rows(&self, ships: &[Ship]) -> Vec<Row> {
        let mut rows: Vec<_> = self.0.iter().collect();
        rows.sort_by_key(|((ship, hour, refusal), _)| (ships[*ship].session.id, *hour, *refusal));
        let row = |(key, found): &(&(usize, u64, u8), &Count)| {
            let (ship, hour, refusal) = **key;
            let start = hour * MILLISECONDS_OF_AN_HOUR;
            vec![
                ships[ship].session.id[..].into(),
                (start as i64).into(),
                i64::from(refusal).into(),
                found.count.into(),
                (found.last.0 as i64).into(),
            ]
        };
        rows.iter().map(row).collect()
    }
}
