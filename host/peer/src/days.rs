//! Many random days through a console program, every line compared with the model's.
//!
//! Three threads: this one makes the calls and their expected lines, one writes the calls to the
//! program, one reads the program's lines and compares. What is expected is always queued before
//! the call is, so that the comparer never waits for a line whose call was not yet made.

use std::io::{self, BufRead, BufReader, BufWriter, Write};
use std::path::PathBuf;
use std::process::{Child, ChildStdout, Command, Stdio};
use std::sync::mpsc::{sync_channel, Receiver};
use std::thread;

use crate::console::{self, Console};
use crate::day::{self, Sink, Spent};
use crate::report::{Counts, Difference, Report};
use crate::rng::Rng;
use crate::shipconsole::{self, ShipConsole};
use crate::shipday;
use crate::shrink;

/// A console, and the days that are made for it.
pub trait End {
    type Model: Default;
    fn random(seed: u64, model: &mut Self::Model, sink: &mut Sink);
    /// One of the days on which numbers are spent, by turns.
    fn spent(seed: u64, turn: usize, model: &mut Self::Model, sink: &mut Sink);
    fn run(input: &[u8], output: &mut Vec<u8>) -> io::Result<()>;
}

pub struct Ashore;
/// The console ashore, asked why before each receive.
pub struct Asking;
pub struct Aboard;

impl End for Ashore {
    type Model = Console;

    fn random(seed: u64, model: &mut Console, sink: &mut Sink) {
        day::random(seed, model, sink)
    }

    fn spent(seed: u64, turn: usize, model: &mut Console, sink: &mut Sink) {
        day::spent(seed, Spent::ALL[turn % Spent::ALL.len()], model, sink)
    }

    fn run(input: &[u8], output: &mut Vec<u8>) -> io::Result<()> {
        console::run(input, output)
    }
}

impl End for Asking {
    type Model = Console;

    fn random(seed: u64, model: &mut Console, sink: &mut Sink) {
        day::asking(seed, model, sink)
    }

    fn spent(seed: u64, turn: usize, model: &mut Console, sink: &mut Sink) {
        Ashore::spent(seed, turn, model, sink)
    }

    fn run(input: &[u8], output: &mut Vec<u8>) -> io::Result<()> {
        console::run(input, output)
    }
}

impl End for Aboard {
    type Model = ShipConsole;

    fn random(seed: u64, model: &mut ShipConsole, sink: &mut Sink) {
        shipday::random(seed, model, sink)
    }

    fn spent(seed: u64, turn: usize, model: &mut ShipConsole, sink: &mut Sink) {
        shipday::spent(seed, turn % 2 == 0, model, sink)
    }

    fn run(input: &[u8], output: &mut Vec<u8>) -> io::Result<()> {
        shipconsole::run(input, output)
    }
}

/// What to run.
#[derive(Clone, Debug, PartialEq, Eq)]
pub struct Plan {
    pub seed: u64,
    pub calls: u64,
    /// Days on which sending numbers run out, by turns the protected ones, the clear ones, and the
    /// clear ones of a started handshake.
    pub spent: u64,
    /// Where to leave the few lines that make a difference.
    pub keep: Option<PathBuf>,
    pub program: Vec<String>,
}

/// A call on its way to the comparer.
struct Expected {
    day: u64,
    line: Vec<u8>,
    lines: Vec<String>,
}

impl Plan {
    /// Reads `--seed S --calls N [--spent K] [--keep FILE] --console PROGRAM [ARGUMENT ..]`.
    pub fn read(words: &[&str]) -> Option<Plan> {
        let (mut seed, mut calls, mut spent, mut keep) = (None, None, None, None);
        let mut words = words.iter();
        loop {
            match (*words.next()?, *words.next()?) {
                ("--seed", value) => seed = Some(value.parse().ok()?),
                ("--calls", value) => calls = Some(value.parse().ok()?),
                ("--spent", value) => spent = Some(value.parse().ok()?),
                ("--keep", value) => keep = Some(PathBuf::from(value)),
                ("--console", program) => {
                    let calls = calls?;
                    let rest = words.map(|word| word.to_string());
                    return Some(Plan {
                        seed: seed?,
                        calls,
                        spent: spent.unwrap_or(3 * (calls / 200_000)),
                        keep,
                        program: std::iter::once(program.to_string()).chain(rest).collect(),
                    });
                }
                _ => return None,
            }
        }
    }
}

/// Runs the plan; an Err is a difference, or a program that could not be run.
pub fn run<E: End>(plan: &Plan) -> Result<Report, Box<Difference>> {
    let mut child = match start(plan) {
        Ok(child) => child,
        Err(error) => return Err(Box::new(could_not_start(plan, &error.to_string()))),
    };
    let stdin = child.stdin.take().expect("stdin is piped");
    let stdout = child.stdout.take().expect("stdout is piped");
    let (expect, expected) = sync_channel::<Expected>(50_000);
    let (write, written) = sync_channel::<Vec<u8>>(1_000);
    let last_newline = plan.seed.is_multiple_of(2);
    let writer = thread::spawn(move || write_all(BufWriter::new(stdin), &written, last_newline));
    let for_comparer = plan.clone();
    let comparer = thread::spawn(move || compare(&for_comparer, child, stdout, &expected));
    let (days, spending_calls) = make_days::<E>(plan, |day, line, lines| {
        let sent = expect.send(Expected { day, line: line.to_vec(), lines });
        sent.is_ok() && write.send(line.to_vec()).is_ok()
    });
    drop((expect, write));
    writer.join().expect("the writer does not panic");
    match comparer.join().expect("the comparer does not panic") {
        Ok(counts) => {
            let Plan { seed, calls, .. } = *plan;
            Ok(Report { seed, calls, days, spending_calls, counts })
        }
        Err(mut difference) => {
            difference.few = shrink::shrink::<E>(&plan.program, &difference.days_lines);
            keep(plan, &difference.few);
            Err(difference)
        }
    }
}

fn start(plan: &Plan) -> std::io::Result<Child> {
    Command::new(&plan.program[0])
        .args(&plan.program[1..])
        .stdin(Stdio::piped())
        .stdout(Stdio::piped())
        .spawn()
}

/// Makes ordinary days until enough calls are made, then the days that spend the numbers.
/// Each call is handed on with its day and its lines, until no more are wanted.
pub fn make_days<E: End>(
    plan: &Plan,
    mut hand_on: impl FnMut(u64, &[u8], Vec<String>) -> bool,
) -> (u64, u64) {
    let mut seeds = Rng::new(plan.seed);
    let mut model = E::Model::default();
    let (mut days, mut calls, mut gone) = (0, 0, false);
    while calls < plan.calls && !gone {
        days += 1;
        E::random(seeds.draw(), &mut model, &mut |line, lines| {
            gone = !hand_on(days, line, lines);
            calls += 1;
            !gone && calls < plan.calls
        });
    }
    let ordinary = calls;
    for turn in 0..plan.spent {
        if gone {
            break;
        }
        days += 1;
        E::spent(seeds.draw(), turn as usize, &mut model, &mut |line, lines| {
            gone = !hand_on(days, line, lines);
            calls += 1;
            !gone
        });
    }
    (days, calls - ordinary)
}

/// Writes until there is no more, or until the program stops reading. The last line may lack its
/// newline.
fn write_all(mut stdin: impl Write, lines: &Receiver<Vec<u8>>, last_newline: bool) {
    let mut first = true;
    while let Ok(line) = lines.recv() {
        let newline = if first { &b""[..] } else { b"\n" };
        if stdin.write_all(&[newline, &line].concat()).is_err() {
            return;
        }
        first = false;
    }
    // A program that has ended shows itself to the comparer.
    let _ = stdin.write_all(if last_newline { b"\n" } else { b"" });
    let _ = stdin.flush();
}

/// Reads and compares each line, then the end of the output and the program's exit.
fn compare(
    plan: &Plan,
    mut child: Child,
    stdout: ChildStdout,
    expected: &Receiver<Expected>,
) -> Result<Counts, Box<Difference>> {
    let mut output = BufReader::new(stdout);
    let mut counts = Counts::default();
    let (mut call, mut day, mut today, mut yesterday) = (0, 0, Vec::new(), Vec::new());
    while let Ok(next) = expected.recv() {
        call += 1;
        if next.day != day {
            day = next.day;
            yesterday = std::mem::take(&mut today);
        }
        today.push(next.line.clone());
        let got = read_lines(&mut output, &next.lines);
        if got != next.lines {
            // The child is this thread's own; it may have ended already.
            let _ = child.kill();
            let _ = child.wait();
            let days_lines = [yesterday, today].concat();
            let Expected { line, lines: expected, .. } = next;
            let seed = plan.seed;
            return Err(Box::new(Difference {
                seed,
                day,
                call,
                line,
                expected,
                got,
                days_lines,
                few: Vec::new(),
            }));
        }
        counts.count(&next.lines);
    }
    let got = read_end(&mut output, &mut child);
    if got != ["end of output, exit status 0"] {
        return Err(Box::new(at_the_end(plan, day, call, got)));
    }
    Ok(counts)
}

/// Reads lines as long as they are the expected ones; the first other one is the last given.
fn read_lines(output: &mut impl BufRead, expected: &[String]) -> Vec<String> {
    let mut got = Vec::new();
    for expect in expected {
        got.push(read_line(output));
        if got.last() != Some(expect) {
            break;
        }
    }
    got
}

/// A line without its newline. One that lacks it, and the end, are told apart from all that the
/// model writes.
fn read_line(output: &mut impl BufRead) -> String {
    let mut bytes = Vec::new();
    match output.read_until(b'\n', &mut bytes) {
        Ok(0) => "end of output".to_string(),
        Ok(_) if bytes.pop() == Some(b'\n') => String::from_utf8_lossy(&bytes).into_owned(),
        Ok(_) => format!("a line without its end: {}", String::from_utf8_lossy(&bytes)),
        Err(error) => format!("no line: {error}"),
    }
}

fn read_end(output: &mut impl BufRead, child: &mut Child) -> Vec<String> {
    let line = read_line(output);
    if line != "end of output" {
        let _ = child.kill();
        let _ = child.wait();
        return vec![line];
    }
    let status = match child.wait() {
        Ok(status) if status.code() == Some(0) => "exit status 0".to_string(),
        Ok(status) => status.to_string(),
        Err(error) => error.to_string(),
    };
    vec![format!("end of output, {status}")]
}

fn keep(plan: &Plan, lines: &[Vec<u8>]) {
    let Some(path) = &plan.keep else { return };
    if let Err(error) = std::fs::write(path, shrink::text(lines)) {
        eprintln!("peer: {}: {error}", path.display());
    }
}

fn at_the_end(plan: &Plan, day: u64, call: u64, got: Vec<String>) -> Difference {
    Difference {
        seed: plan.seed,
        day,
        call,
        line: b"(the end of the input)".to_vec(),
        expected: vec!["end of output, exit status 0".to_string()],
        got,
        days_lines: Vec::new(),
        few: Vec::new(),
    }
}

fn could_not_start(plan: &Plan, error: &str) -> Difference {
    let mut difference = at_the_end(plan, 0, 0, vec![error.to_string()]);
    difference.line = b"(the start of the program)".to_vec();
    difference
}

#[cfg(test)]
mod tests {
    use super::*;

    #[test]
    fn plans() {
        let plan =
            Plan::read(&["--seed", "7", "--calls", "400000", "--console", "x", "y"]).unwrap();
        assert_eq!((plan.seed, plan.calls, plan.spent), (7, 400_000, 6));
        assert_eq!(plan.program, ["x", "y"]);
        assert_eq!(Plan::read(&["--seed", "7", "--console", "x"]), None);
        assert_eq!(Plan::read(&["--seed", "x", "--calls", "1", "--console", "x"]), None);
        assert_eq!(Plan::read(&["--calls", "1", "--seed"]), None);
    }
}
