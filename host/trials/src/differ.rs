//! Random days of the second implementation, each call made by the exported library too, in one process.

use peer::console::Console;
use peer::day::{self, Spent};
use peer::report::{Counts, Report};
use peer::rng::Rng;

use crate::library::Library;

#[derive(Default)]
struct Trial {
    library: Library,
    counts: Counts,
    calls: u64,
    difference: Option<String>,
}

/// Days until so many datagrams are received; then one day on which the protected sending numbers run out, one on which the
/// clear ones do, and one on which those of a started handshake do.
pub fn run(datagrams: u64, seed: u64) -> Result<String, String> {
    let mut seeds = Rng::new(seed);
    let mut model = Console::default();
    let mut trial = Trial::default();
    let mut days = 0;
    while trial.difference.is_none() && trial.library.datagrams < datagrams {
        days += 1;
        day::random(seeds.draw(), &mut model, &mut |line, expected| {
            trial.compare(line, &expected) && trial.library.datagrams < datagrams
        });
    }
    let (received, calls) = (trial.library.datagrams, trial.calls);
    for which in Spent::ALL {
        if trial.difference.is_none() {
            days += 1;
            day::spent(seeds.draw(), which, &mut model, &mut |line, expected| {
                trial.compare(line, &expected)
            });
        }
    }
    if let Some(difference) = trial.difference {
        return Err(format!("trials: seed {seed}, day {days}: difference\n{difference}"));
    }
    let spending_calls = trial.calls - calls;
    let report = Report { seed, calls, days, spending_calls, counts: trial.counts };
    Ok(format!("trials: {received} datagrams through the exported library\n{report}"))
}

impl Trial {
    /// Makes the call of a line; false where the library gives something else.
    fn compare(&mut self, line: &[u8], expected: &[String]) -> bool {
        if expected == ["bad line"] {
            return true;
        }
        self.calls += 1;
        let got = self.library.line(line);
        let text = String::from_utf8_lossy(line);
        if let Some(wrong) = self.library.wrong.take() {
            self.difference = Some(format!("input    {text}\n{wrong}"));
        } else if got != expected {
            self.difference =
                Some(format!("input    {text}\nexpected {expected:?}\ngot      {got:?}"));
        }
        self.counts.count(&got);
        self.difference.is_none()
    }
}
