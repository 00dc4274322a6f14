//! Random days of the second implementation's ship, each call made by the exported library too, in one process. Beside each line stand
//! the checks that no line can show: that a refused call touched nothing, that only the counted bytes of the output were written, and
//! that the unit loads from what was saved.
//!
//! CALLS and SEED in the environment say how many calls, and from which seed; 20,000 and 1 where they do not.

use peer::report::{Counts, Report};
use peer::rng::Rng;
use peer::shipconsole::ShipConsole;
use peer::shipday;
use shipboard::{Answer, Received, Refusal, Refused, Sense, Tally, Unit};

/// What lies in the output before a call.
const BLANK: u8 = 0xa5;

#[derive(Default)]
struct Library {
    unit: Option<Unit>,
    tally: Tally,
    /// What was wrong beyond the lines.
    wrong: Option<&'static str>,
}

#[derive(Default)]
struct Trial {
    library: Library,
    counts: Counts,
    calls: u64,
    difference: Option<String>,
}

#[test]
fn days_of_the_second_implementation() {
    let (calls, seed) = (said("CALLS", 20_000), said("SEED", 1));
    let mut seeds = Rng::new(seed);
    let mut model = ShipConsole::default();
    let mut trial = Trial::default();
    let mut days = 0;
    while trial.difference.is_none() && trial.calls < calls {
        days += 1;
        shipday::random(seeds.draw(), &mut model, &mut |line, expected| {
            trial.compare(line, &expected) && trial.calls < calls
        });
    }
    let before = trial.calls;
    for protected in [true, false] {
        if trial.difference.is_none() {
            days += 1;
            shipday::spent(seeds.draw(), protected, &mut model, &mut |line, expected| {
                trial.compare(line, &expected)
            });
        }
    }
    if let Some(difference) = trial.difference {
        panic!("seed {seed}, day {days}: difference\n{difference}");
    }
    let spending_calls = trial.calls - before;
    println!("{}", Report { seed, calls: before, days, spending_calls, counts: trial.counts });
}

fn said(name: &str, otherwise: u64) -> u64 {
    std::env::var(name).map_or(otherwise, |text| text.parse().expect(name))
}

impl Trial {
    /// Makes the call of a line; false where the library gives something else.
    fn compare(&mut self, line: &[u8], expected: &[String]) -> bool {
        if expected == ["bad line"] {
            return true;
        }
        self.calls += 1;
        let got = self.library.line(line);
        let text = String::from_utf8_lossy(line);
        if let Some(wrong) = self.library.wrong.take() {
            self.difference = Some(format!("input    {text}\n{wrong}"));
        } else if got != expected {
            self.difference =
                Some(format!("input    {text}\nexpected {expected:?}\ngot      {got:?}"));
        }
        self.counts.count(&got);
        self.difference.is_none()
    }
}

impl Library {
    /// The lines of one call.
    fn line(&mut self, line: &[u8]) -> Vec<String> {
        let text = String::from_utf8_lossy(line).into_owned();
        let words: Vec<&str> = text.split(' ').collect();
        let mut lines = Vec::new();
        if let ["fresh", id, secret, width] = words[..] {
            match Unit::fresh(&bytes(id), &bytes(secret), number(width) as u32) {
                Ok(unit) => {
                    self.unit = Some(unit);
                    self.tally = Tally::default();
                    lines.push("fresh ok".to_string());
                }
                Err(refusal) => lines.push(refused("fresh", refusal)),
            }
        } else {
            let Some(unit) = self.unit.clone() else { return lines };
            self.call(unit, &words, &mut lines);
        }
        lines.push(self.state_line());
        lines
    }

    fn call(&mut self, mut unit: Unit, words: &[&str], lines: &mut Vec<String>) {
        let before = unit.clone();
        match words[..] {
            ["hello", random, macs, refresh, room] => {
                let mut out = vec![BLANK; number(room)];
                let sent = unit
                    .hello(&bytes(random), &bytes(macs), number(refresh) as u32, &mut out)
                    .map(<[u8]>::to_vec);
                self.sent("hello", sent, &out, lines);
            }
            ["again", room] => {
                let mut out = vec![BLANK; number(room)];
                let sent = unit.again(&mut out).map(<[u8]>::to_vec);
                self.sent("again", sent, &out, lines);
            }
            ["receive", datagram, room] => {
                self.receive(&mut unit, &bytes(datagram), number(room), lines)
            }
            ["send", data, room] => {
                let mut out = vec![BLANK; number(room)];
                let sent = unit.send_data(&bytes(data), &mut out).map(<[u8]>::to_vec);
                self.sent("send", sent, &out, lines);
            }
            ["alert", sense, level, description, record, room] => {
                let sense = if sense == "clear" { Sense::Clear } else { Sense::Protected };
                let (level, description) = (number(level) as u32, number(description) as u32);
                let mut out = vec![BLANK; number(room)];
                let sent = unit
                    .send_alert(sense, level, description, &bytes(record), &mut out)
                    .map(<[u8]>::to_vec);
                self.sent("alert", sent, &out, lines);
            }
            ["close"] => lines.push(done("close", unit.close())),
            ["start"] => lines.push(done("start", unit.start())),
            _ => lines.push(format!("a call that is not known: {words:?}")),
        }
        if lines[0].contains("refused") && unit != before {
            self.wrong = Some("a refused call changed the unit");
        }
        if Unit::load(unit.save()).as_ref() != Ok(&unit) {
            self.wrong = Some("what was saved does not load");
        }
        self.unit = Some(unit);
    }

    fn receive(&mut self, unit: &mut Unit, datagram: &[u8], room: usize, lines: &mut Vec<String>) {
        let (mut out, tally) = (vec![BLANK; room], self.tally);
        let got = unit.receive(&mut self.tally, datagram, &mut out);
        let written = got.as_ref().map_or(0, |received| received.to_send().len());
        self.received(got, datagram, tally, lines);
        self.untouched(&out, written);
    }

    /// What a datagram got; the tally is what it was before.
    fn received(
        &mut self,
        got: Result<Received, Refused>,
        datagram: &[u8],
        tally: Tally,
        lines: &mut Vec<String>,
    ) {
        match got {
            Err(refused) => {
                let number = refused.refusal.number();
                lines.push(match number {
                    1..=5 => format!("receive refused {number} at {}", refused.offset),
                    _ => format!("receive refused {number}"),
                });
                if self.tally != tally {
                    self.wrong = Some("a refused datagram changed the tally");
                }
            }
            Ok(received) => {
                lines.push(format!("receive records {}", received.answers().len()));
                let records = peer::wire::frame(datagram).unwrap_or_default();
                for (index, answer) in received.answers().enumerate() {
                    if let Answer::Data { number, start, .. } = answer {
                        if records[index].fragment.start != start || records[index].number != number
                        {
                            self.wrong = Some("the data is not that of its record");
                        }
                    }
                    lines.push(format!("{index} {}", words_of(&answer)));
                }
                let handed_out = self.tally.handed_out() - tally.handed_out();
                if received.reports().count() as u32 != handed_out {
                    self.wrong = Some("the reports are not those that were counted");
                }
                if !received.to_send().is_empty() {
                    lines.push(format!("out {}", hex(received.to_send())));
                }
            }
        }
    }

    fn sent(
        &mut self,
        call: &str,
        sent: Result<Vec<u8>, Refusal>,
        out: &[u8],
        lines: &mut Vec<String>,
    ) {
        match sent {
            Ok(record) => {
                lines.push(format!("{call} ok"));
                lines.push(format!("out {}", hex(&record)));
                self.untouched(out, record.len());
            }
            Err(refusal) => {
                lines.push(refused(call, refusal));
                self.untouched(out, 0);
            }
        }
    }

    /// The bytes of the output behind the counted ones.
    fn untouched(&mut self, out: &[u8], written: usize) {
        if out[written..].iter().any(|byte| *byte != BLANK) {
            self.wrong = Some("a byte of the output was touched that is not counted");
        }
    }

    /// The state as the bytes of the unit and of the tally show it (crates/lentunit/specs/Saved.antt has the places).
    fn state_line(&self) -> String {
        let Some(unit) = &self.unit else {
            return "state None n=- marks=0000000000000000 arrived=0 sent=-,- checksum=00000000 tally=0,0,0,0"
                .to_string();
        };
        let (saved, tally) = (unit.save(), self.tally);
        let (highest, marks) = (big(&saved[162..164]), big(&saved[164..172]));
        let n = if marks == 0 { "-".to_string() } else { highest.to_string() };
        let sent = match (big(&saved[172..176]), big(&saved[176..180])) {
            (0, 0) => "-,-".to_string(),
            (0, clear) => format!("-,{clear}"),
            (protected, clear) => format!("{protected},{clear}"),
        };
        format!(
            "state {:?} n={n} marks={marks:016x} arrived={} sent={sent} checksum={} tally={},{},{},{}",
            unit.state(),
            unit.arrived(),
            hex(&saved[8..12]),
            tally.handed_out(),
            tally.forged(),
            tally.too_old(),
            tally.repeated(),
        )
    }
}

fn refused(call: &str, refusal: Refusal) -> String {
    format!("{call} refused {}", refusal.number())
}

fn done(call: &str, done: Result<(), Refusal>) -> String {
    match done {
        Ok(()) => format!("{call} ok"),
        Err(refusal) => refused(call, refusal),
    }
}

fn words_of(answer: &Answer) -> String {
    match answer {
        Answer::Hello => "hello".to_string(),
        Answer::Spec => "spec".to_string(),
        Answer::Open(size) => format!("open {size}"),
        Answer::Again => "again".to_string(),
        Answer::Request => "request".to_string(),
        Answer::Ignored => "ignored".to_string(),
        Answer::Data { start, bytes, .. } => format!("data {start} {}", bytes.len()),
        Answer::Warning(description) => format!("warning {description}"),
        Answer::Critical(description) => format!("critical {description}"),
        Answer::Fatal(description) => format!("fatal {description}"),
        Answer::Barred(description) => format!("barred {description}"),
        Answer::Refused(refusal) => format!("refused {}", refusal.number()),
    }
}

/// A byte string of a line that the second implementation took for a call.
fn bytes(word: &str) -> Vec<u8> {
    match word {
        "-" => Vec::new(),
        _ => (0..word.len() / 2)
            .map(|i| u8::from_str_radix(&word[2 * i..2 * i + 2], 16).expect("hex"))
            .collect(),
    }
}

fn number(word: &str) -> usize {
    word.parse().expect("a number")
}

fn hex(bytes: &[u8]) -> String {
    bytes.iter().map(|byte| format!("{byte:02x}")).collect()
}

fn big(bytes: &[u8]) -> u64 {
    bytes.iter().fold(0, |sum, byte| sum << 8 | u64::from(*byte))
}
