//! The reports in the store, for those who read them.

pub mod follow;
pub mod form;
pub mod missing;
pub mod options;

use crate::clock::Moment;
use crate::store::engine::{Engine, Fault, Row, Value};

/// Which reports are wanted: received from one moment until before another, of all ships or of one.
#[derive(Clone, PartialEq, Eq, Debug)]
pub struct Wanted {
    pub from: Moment,
    pub to: Moment,
    pub ship: Option<String>,
}

/// A report as it was received.
#[derive(Clone, PartialEq, Eq, Debug)]
pub struct Line {
    /// In the order of arrival.
    pub id: i64,
    pub ship: String,
    pub received: Moment,
    /// Numbers begin anew with each opening of the ship's connection.
    pub opening: i64,
    pub number: u16,
    pub bytes: Vec<u8>,
}

/// Reports in one answer of the store, at most.
const AT_ONCE: i64 = 1000;

/// The reports behind this one, in the order of arrival; not all of them, but some if there are any.
pub fn after(engine: &mut dyn Engine, wanted: &Wanted, id: i64) -> Result<Vec<Line>, Fault> {
    let (ship, mut values) = wanted.narrowed();
    values.insert(0, id.into());
    let sql = format!(
        "SELECT reports.id, ships.name, received, reports.opening, number, bytes \
         FROM reports JOIN ships ON ships.identifier = reports.ship \
         WHERE reports.id > $1 AND received >= $2 AND received < $3 {ship} \
         ORDER BY reports.id LIMIT {AT_ONCE}"
    );
    engine.query(&sql, &values)?.iter().map(|row| line(row)).collect()
}

/// All of them, handed over in the order of arrival. Gives the last one's place, or the one it was given.
pub fn each(
    engine: &mut dyn Engine,
    wanted: &Wanted,
    mut after_id: i64,
    mut hand_over: impl FnMut(&Line),
) -> Result<i64, Fault> {
    loop {
        let lines = after(engine, wanted, after_id)?;
        let Some(last) = lines.last() else { return Ok(after_id) };
        after_id = last.id;
        lines.iter().for_each(&mut hand_over);
    }
}

impl Wanted {
    pub fn all() -> Wanted {
        Wanted { from: Moment(0), to: Moment(i64::MAX as u64), ship: None }
    }

    /// The condition on the ship, and the values: $2 and $3 are the span.
    fn narrowed(&self) -> (&'static str, Vec<Value>) {
        let mut values = vec![(self.from.0 as i64).into(), (self.to.0 as i64).into()];
        let Some(ship) = &self.ship else { return ("", values) };
        values.push(ship[..].into());
        ("AND ships.name = $4", values)
    }
}

fn line(row: &Row) -> Result<Line, Fault> {
    let fields = || {
        Some(Line {
            id: row.first()?.int()?,
            ship: row.get(1)?.text()?.to_string(),
            received: Moment(row.get(2)?.int()?.try_into().ok()?),
            opening: row.get(3)?.int()?,
            number: row.get(4)?.int()?.try_into().ok()?,
            bytes: row.get(5)?.bytes()?.to_vec(),
        })
    };
    fields().ok_or_else(|| Fault::Broken("a report's row is damaged".to_string()))
}
