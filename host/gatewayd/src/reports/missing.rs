//! The gaps in a ship's numbers. Under each opening the Finished has number 0 and reports begin with 1; an alert or a Finished said
//! again has a number, too, so a gap may be one of these.

use super::Wanted;
use crate::store::engine::{places, Engine, Fault, Row, Value};

/// Numbers of which no report is there, from the first to the last.
#[derive(PartialEq, Eq, Debug)]
pub struct Gap {
    pub ship: String,
    pub opening: i64,
    pub first: i64,
    pub last: i64,
}

/// Numbers that are asked for in one statement, at most.
const AT_ONCE: i64 = 500;

/// Of each opening under which something was received in the span: the gaps up to the highest number received in it, from the lowest
/// one received in it, or from 1 if nothing below that came before.
pub fn gaps(engine: &mut dyn Engine, wanted: &Wanted) -> Result<Vec<Gap>, Fault> {
    let mut gaps = Vec::new();
    let (ship, values) = wanted.narrowed();
    let ship = ship.replace("$4", "$3");
    let sql = format!(
        "SELECT ship, name, opening, previous, number, earliest FROM ( \
             SELECT reports.ship AS ship, ships.name AS name, reports.opening AS opening, number, \
                 LAG(number) OVER (PARTITION BY reports.ship, reports.opening ORDER BY number) AS previous, \
                 MIN(id) OVER (PARTITION BY reports.ship, reports.opening) AS earliest \
             FROM reports JOIN ships ON ships.identifier = reports.ship \
             WHERE received >= $1 AND received < $2 {ship}) AS numbered \
         WHERE previous IS NULL AND number > 1 OR number > previous + 1 \
         ORDER BY name, opening, number"
    );
    for row in engine.query(&sql, &values)? {
        let hole = Hole::read(&row)
            .ok_or_else(|| Fault::Broken("a report's row is damaged".to_string()))?;
        gaps.extend(hole.gaps(engine)?);
    }
    Ok(gaps)
}

/// Numbers of which none was received in the span: those between two that were, or those below the lowest.
struct Hole {
    ship: Value,
    name: String,
    opening: i64,
    previous: Option<i64>,
    next: i64,
    /// The first report of this opening in the span.
    earliest: i64,
}

impl Hole {
    fn read(row: &Row) -> Option<Hole> {
        Some(Hole {
            ship: row.first()?.clone(),
            name: row.get(1)?.text()?.to_string(),
            opening: row.get(2)?.int()?,
            previous: row.get(3)?.int(),
            next: row.get(4)?.int()?,
            earliest: row.get(5)?.int()?,
        })
    }

    /// What is left of it by what was received at other times.
    fn gaps(&self, engine: &mut dyn Engine) -> Result<Vec<Gap>, Fault> {
        let mut gaps: Vec<Gap> = Vec::new();
        let mut end = self.next;
        // Downwards: below the lowest one, the first that came before ends it.
        while end > self.previous.unwrap_or(0) + 1 {
            let start = (end - AT_ONCE).max(self.previous.unwrap_or(0) + 1);
            let there = self.there(engine, start, end)?;
            if self.previous.is_none() && there.iter().any(|(_, id)| *id < self.earliest) {
                return Ok(Vec::new());
            }
            for number in
                (start..end).rev().filter(|number| there.iter().all(|(one, _)| one != number))
            {
                match gaps.last_mut() {
                    Some(gap) if gap.first == number + 1 => gap.first = number,
                    _ => gaps.push(Gap {
                        ship: self.name.clone(),
                        opening: self.opening,
                        first: number,
                        last: number,
                    }),
                }
            }
            end = start;
        }
        gaps.reverse();
        Ok(gaps)
    }

    /// Which of these numbers were received at all, and their places in the order of arrival.
    fn there(
        &self,
        engine: &mut dyn Engine,
        start: i64,
        end: i64,
    ) -> Result<Vec<(i64, i64)>, Fault> {
        let sql = format!(
            "SELECT number, id FROM reports WHERE ship = $1 AND opening = $2 AND number IN ({})",
            places(3, (end - start) as usize)
        );
        let values: Vec<Value> = [self.ship.clone(), self.opening.into()]
            .into_iter()
            .chain((start..end).map(Value::Int))
            .collect();
        let pair = |row: &Row| Some((row.first()?.int()?, row.get(1)?.int()?));
        Ok(engine.query(&sql, &values)?.iter().filter_map(pair).collect())
    }
}
