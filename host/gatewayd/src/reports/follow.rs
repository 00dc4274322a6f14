//! Reports as they come. Where several gateways write, one that began earlier may commit later: so what is recent is read again, and
//! what was told is remembered.

use super::{each, Line, Wanted};
use crate::clock::Moment;
use crate::store::engine::{Engine, Fault};
use std::collections::BTreeMap;

#[derive(Default)]
pub struct Follow {
    /// All reports up to this one were told.
    settled: i64,
    recent: BTreeMap<i64, Moment>,
}

/// No transaction lasts so long.
const LONGEST: u64 = 60_000;

impl Follow {
    /// Hands over what has come since the last time.
    pub fn next(
        &mut self,
        engine: &mut dyn Engine,
        wanted: &Wanted,
        now: Moment,
        mut hand_over: impl FnMut(&Line),
    ) -> Result<(), Fault> {
        let recent = &mut self.recent;
        each(engine, wanted, self.settled, |line| {
            if recent.insert(line.id, line.received).is_none() {
                hand_over(line);
            }
        })?;
        let span = if engine.words().is_shared { LONGEST } else { 0 };
        while let Some(first) = self.recent.first_entry() {
            if first.get().0 + span > now.0 {
                break;
            }
            self.settled = first.remove_entry().0;
        }
        Ok(())
    }
}
