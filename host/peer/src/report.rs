//! What a run of random days has to say: how often everything occurred, or the first difference.

use std::collections::BTreeMap;
use std::fmt;

/// No more lines than this are shown; `--keep` keeps them all.
const MOST_SHOWN: usize = 40;

/// How often each answer, refusal and state was seen.
#[derive(Default, Debug)]
pub struct Counts {
    seen: BTreeMap<(Group, String), u64>,
}

#[derive(Clone, Copy, PartialEq, Eq, PartialOrd, Ord, Debug)]
enum Group {
    Calls,
    Answers,
    Refusals,
    States,
}

#[derive(Debug)]
pub struct Report {
    pub seed: u64,
    pub calls: u64,
    pub days: u64,
    pub spending_calls: u64,
    pub counts: Counts,
}

#[derive(Debug)]
pub struct Difference {
    pub seed: u64,
    pub day: u64,
    pub call: u64,
    pub line: Vec<u8>,
    pub expected: Vec<String>,
    pub got: Vec<String>,
    /// The lines of that day and the one before: some days begin with calls to the connection of
    /// the last.
    pub days_lines: Vec<Vec<u8>>,
    /// The few of those lines that still make a difference.
    pub few: Vec<Vec<u8>>,
}

impl Counts {
    pub fn count(&mut self, lines: &[String]) {
        for line in lines {
            if let Some((group, name)) = group(line) {
                *self.seen.entry((group, name)).or_insert(0) += 1;
            }
        }
    }

    fn line(&self, group: Group) -> String {
        let mut seen: Vec<(&str, u64)> = Vec::new();
        for ((of, name), count) in &self.seen {
            if *of == group {
                seen.push((name, *count));
            }
        }
        seen.sort_by_key(|(name, _)| (name.parse::<u8>().unwrap_or(0), name.to_string()));
        let words: Vec<String> =
            seen.iter().map(|(name, count)| format!("{name}:{count}")).collect();
        words.join(" ")
    }
}

/// Which count a line of the console belongs to.
fn group(line: &str) -> Option<(Group, String)> {
    let words: Vec<&str> = line.split(' ').collect();
    match words[..] {
        ["bad", "line"] => Some((Group::Calls, "bad-line".to_string())),
        ["state", name, ..] => Some((Group::States, name.to_string())),
        [_, "refused", number, ..] => Some((Group::Refusals, number.to_string())),
        [call, "ok"] => Some((Group::Calls, call.to_string())),
        ["receive", "records", _] => Some((Group::Calls, "receive".to_string())),
        ["out", _] => None,
        [_, answer, ..] => Some((Group::Answers, answer.to_string())),
        _ => None,
    }
}

impl fmt::Display for Report {
    fn fmt(&self, to: &mut fmt::Formatter) -> fmt::Result {
        let Report { seed, calls, .. } = self;
        writeln!(to, "peer: seed {seed}, {calls} calls, no difference")?;
        writeln!(
            to,
            "days {}, further calls to spend the numbers {}",
            self.days, self.spending_calls
        )?;
        writeln!(to, "calls    {}", self.counts.line(Group::Calls))?;
        writeln!(to, "answers  {}", self.counts.line(Group::Answers))?;
        writeln!(to, "refusals {}", self.counts.line(Group::Refusals))?;
        writeln!(to, "states   {}", self.counts.line(Group::States))
    }
}

impl fmt::Display for Difference {
    fn fmt(&self, to: &mut fmt::Formatter) -> fmt::Result {
        writeln!(
            to,
            "peer: seed {}, call {} (day {}): difference",
            self.seed, self.call, self.day
        )?;
        writeln!(to, "input    {}", String::from_utf8_lossy(&self.line))?;
        for line in &self.expected {
            writeln!(to, "expected {line}")?;
        }
        for line in &self.got {
            writeln!(to, "got      {line}")?;
        }
        if !self.few.is_empty() {
            writeln!(to, "of the day's lines {} are enough for a difference:", self.few.len())?;
        }
        for line in self.few.iter().take(MOST_SHOWN) {
            writeln!(to, "{}", String::from_utf8_lossy(line))?;
        }
        Ok(())
    }
}

#[cfg(test)]
mod tests {
    use super::*;

    #[test]
    fn groups() {
        let name = |line: &str| group(line).map(|(group, name)| format!("{group:?} {name}"));
        assert_eq!(name("0 refused 9").unwrap(), "Refusals 9");
        assert_eq!(name("receive refused 4 at 7").unwrap(), "Refusals 4");
        assert_eq!(name("2 data 5 6").unwrap(), "Answers data");
        assert_eq!(name("0 spec").unwrap(), "Answers spec");
        assert_eq!(name("start ok").unwrap(), "Calls start");
        assert_eq!(name("state Open n=1").unwrap(), "States Open");
        assert_eq!(name("out 00"), None);
    }
}
