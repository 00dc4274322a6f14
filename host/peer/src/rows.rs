//! Which rows of Open a run of lines met: beside what started handshake, what kind of record under
//! whose keys, and what it gave. A second console goes along with the lines, since whose a record is
//! does not stand in them.

use std::collections::BTreeMap;
use std::fmt;

use crate::console::Console;
use crate::day;
use crate::hex;
use crate::rng::Rng;
use crate::shore::{Answer, Judged, Phase, Received, Shore, Started, State, Tally};
use crate::wire::{self, Content, Record};

#[derive(Default)]
pub struct Rows {
    console: Console,
    seen: BTreeMap<String, u64>,
}

/// The rows that random days meet.
pub fn of_days(seed: u64, days: u64) -> Rows {
    let mut seeds = Rng::new(seed);
    let (mut rows, mut model) = (Rows::default(), Console::default());
    for _ in 0..days {
        day::random(seeds.draw(), &mut model, &mut |line: &[u8], _| {
            rows.line(line);
            true
        });
    }
    rows
}

impl fmt::Display for Rows {
    fn fmt(&self, to: &mut fmt::Formatter) -> fmt::Result {
        for (row, count) in &self.seen {
            writeln!(to, "{count:>8}  {row}")?;
        }
        let missing = self.missing();
        for row in &missing {
            writeln!(to, " missing  {row}")?;
        }
        writeln!(to, "rows {}, due and missing {}", self.seen.len(), missing.len())
    }
}

impl Rows {
    pub fn line(&mut self, line: &[u8]) {
        let before = self.console.shore().filter(|shore| shore.state() == State::Open).cloned();
        let lines = self.console.line(line);
        let Some(before) = before else { return };
        let text = String::from_utf8_lossy(line).to_string();
        let words: Vec<&str> = text.split(' ').collect();
        match (&words[..], &lines[..]) {
            (["receive", datagram, random, _], [first, ..]) if first.contains("records") => {
                self.records(before, &read(datagram), &read(random));
            }
            (["message", _, random, _], [first, second, ..]) if second.contains("records") => {
                if let Some(datagram) = shown(first, words[1]) {
                    self.records(before, &datagram, &read(random));
                }
            }
            (["send" | "close" | "start", ..], [first, _, ..]) => {
                self.count(format!("{}: {}", phase(&before), without_numbers(first, words[0])));
            }
            (["alert", how, ..], [first, _, ..]) => {
                let call = format!("alert {how}");
                self.count(format!("{}: {}", phase(&before), without_numbers(first, &call)));
            }
            _ => {}
        }
    }

    /// `Open+Spec: protected handshake under started: open`, and how often.
    pub fn seen(&self) -> &BTreeMap<String, u64> {
        &self.seen
    }

    /// Those that are due and were not met.
    pub fn missing(&self) -> Vec<String> {
        due().into_iter().filter(|row| !self.seen.contains_key(row)).collect()
    }

    fn count(&mut self, row: String) {
        *self.seen.entry(row).or_insert(0) += 1;
    }

    /// Each record by itself, in the state that those before it leave.
    fn records(&mut self, mut shore: Shore, datagram: &[u8], random: &[u8]) {
        for (place, record) in wire::frame(datagram).unwrap_or_default().iter().enumerate() {
            if shore.state() != State::Open {
                return;
            }
            let bytes = &datagram[record.start..record.fragment.end];
            let fragment = &datagram[record.fragment.clone()];
            let kind = kind(&shore, record, fragment, place);
            let is_hello = !record.protected && record.content == Content::Handshake;
            if place > 0 && is_hello && fragment[0] == 1 {
                self.count(format!("{}: {kind}: 8", phase(&shore)));
                continue;
            }
            let row = format!("{}: {kind}", phase(&shore));
            let received = shore.receive(bytes, random, 128, &mut Tally::default());
            if let Received::Records { answers, .. } = received {
                self.count(format!("{row}: {}", answer(&answers[0])));
            }
        }
    }
}

/// The rows of Open as the rules give them: with no started handshake, with one that is replied to,
/// and with one whose change cipher spec has come. What follows the last colon are outcomes.
const DUE: &str = "\
Open: hello of the open one: resent
Open: hello of neither: reply 12 13
Open: hello behind another record: 8
Open: clear change cipher spec: 8
Open: clear alert: 8
Open: clear handshake: 8
Open: clear data: 8
Open: protected change cipher spec under open: 12 11 10
Open: protected alert under open: warning critical barred 12 11 10
Open: protected handshake under open: again 17 12 11 10
Open: protected handshake under neither: 9
Open: protected data under open: data 12 11 10
Open: protected data under neither: 9
Open: send: ok 6 16
Open: alert protected: ok 6 16
Open: alert clear: 8 16
Open: close: ok
Open: start: 8
Open+Replied: hello of the open one: resent
Open+Replied: hello of the started one: resent
Open+Replied: hello of neither: reply 12 13
Open+Replied: hello behind another record: 8
Open+Replied: clear change cipher spec: spec 12
Open+Replied: clear alert: warning critical fatal 12 14
Open+Replied: clear handshake: 8
Open+Replied: clear data: 8
Open+Replied: protected change cipher spec under open: 12 11
Open+Replied: protected alert under open: warning critical barred 12 11 10
Open+Replied: protected alert under started: 9
Open+Replied: protected handshake under open: again 17 12 11 10
Open+Replied: protected handshake under started: 9
Open+Replied: protected handshake under both: 17 12
Open+Replied: protected data under open: data 12 11 10
Open+Replied: protected data under started: 9
Open+Replied: protected data under both: data
Open+Replied: protected data under neither: 9
Open+Replied: send: ok 6 16
Open+Replied: alert protected: ok 6 16
Open+Replied: alert clear: ok 6 16
Open+Replied: close: ok
Open+Replied: start: 8
Open+Spec: hello of the open one: resent
Open+Spec: hello of the started one: resent
Open+Spec: hello of neither: reply 12 13
Open+Spec: hello behind another record: 8
Open+Spec: clear change cipher spec: 8
Open+Spec: clear alert: warning critical fatal 12 14
Open+Spec: clear handshake: 8
Open+Spec: clear data: 8
Open+Spec: protected change cipher spec under open: 12 11
Open+Spec: protected alert under open: warning critical barred 12 11 10
Open+Spec: protected alert under started: 9
Open+Spec: protected handshake under open: again 17 12 11 10
Open+Spec: protected handshake under started: open 17 12 11 10
Open+Spec: protected handshake under both: open 17 12
Open+Spec: protected handshake under neither: 9
Open+Spec: protected data under open: data 12 11 10
Open+Spec: protected data under started: 9
Open+Spec: protected data under both: data
Open+Spec: protected data under neither: 9
Open+Spec: send: ok 6 16
Open+Spec: alert protected: ok 6 16
Open+Spec: alert clear: ok 6 16
Open+Spec: close: ok
Open+Spec: start: 8
";

fn due() -> Vec<String> {
    let mut due = Vec::new();
    for line in DUE.lines() {
        let (row, outcomes) = line.rsplit_once(": ").unwrap_or((line, ""));
        due.extend(outcomes.split(' ').map(|outcome| format!("{row}: {outcome}")));
    }
    due
}

fn read(word: &str) -> Vec<u8> {
    hex::read(word.as_bytes()).unwrap_or_default()
}

/// The datagram of a message, by the first line that it gave.
fn shown(first: &str, message: &str) -> Option<Vec<u8>> {
    match first.split(' ').collect::<Vec<_>>()[..] {
        ["message", "received", start, ..] => {
            Some(read(message).split_off(start.parse().unwrap_or(0)))
        }
        ["message", "gathered", datagram, ..] => Some(read(datagram)),
        _ => None,
    }
}

fn phase(shore: &Shore) -> &'static str {
    match shore.started() {
        None => "Open",
        Some(Started { phase: Phase::Replied, .. }) => "Open+Replied",
        Some(Started { phase: Phase::Spec, .. }) => "Open+Spec",
    }
}

fn kind(shore: &Shore, record: &Record, fragment: &[u8], place: usize) -> String {
    let content = match record.content {
        Content::ChangeCipherSpec => "change cipher spec",
        Content::Alert => "alert",
        Content::Handshake => "handshake",
        Content::Data => "data",
    };
    if record.protected {
        return format!("protected {content} under {}", whose(shore, record, fragment));
    }
    match record.content == Content::Handshake && fragment[0] == 1 {
        true if place > 0 => "hello behind another record".to_string(),
        true => format!("hello of {}", said(shore, fragment)),
        false => format!("clear {content}"),
    }
}

fn said(shore: &Shore, message: &[u8]) -> &'static str {
    let started = shore.started().and_then(|started| started.handshake.hello());
    match (shore.handshake().hello() == Some(message), started == Some(message)) {
        (true, _) => "the open one",
        (_, true) => "the started one",
        _ => "neither",
    }
}

/// Under whose keys a record is right.
fn whose(shore: &Shore, record: &Record, fragment: &[u8]) -> &'static str {
    let open = shore.handshake().content_length(record, fragment).is_some();
    let started = shore
        .started()
        .is_some_and(|started| started.handshake.content_length(record, fragment).is_some());
    match (open, started) {
        (true, true) => "both",
        (true, false) => "open",
        (false, true) => "started",
        (false, false) => "neither",
    }
}

fn answer(answer: &Judged) -> String {
    match answer {
        Ok(Answer::Reply(_)) => "reply".to_string(),
        Ok(Answer::Resent(_)) => "resent".to_string(),
        Ok(Answer::Data { .. }) => "data".to_string(),
        Ok(Answer::Warning(_)) => "warning".to_string(),
        Ok(Answer::Critical(_)) => "critical".to_string(),
        Ok(Answer::Fatal(_)) => "fatal".to_string(),
        Ok(Answer::Barred(_)) => "barred".to_string(),
        Ok(Answer::Spec) => "spec".to_string(),
        Ok(Answer::Open) => "open".to_string(),
        Ok(Answer::Again) => "again".to_string(),
        Err(refusal) => (*refusal as u8).to_string(),
    }
}

/// `close: ok`, `send: 15`.
fn without_numbers(line: &str, call: &str) -> String {
    let outcome = line.split(' ').next_back().unwrap_or("");
    format!("{call}: {outcome}")
}
