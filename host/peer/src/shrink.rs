//! Makes a day with a difference short: leaves out lines as long as there is still a difference.

use std::io::Write;
use std::process::{Command, Stdio};
use std::thread;

use crate::days::End;

/// All trials together run at most so many lines.
const MOST_LINES: usize = 1_000_000;

/// As few of the lines as can be found by leaving out halves, quarters and so on, then each.
pub fn shrink<E: End>(program: &[String], lines: &[Vec<u8>]) -> Vec<Vec<u8>> {
    let mut lines = lines.to_vec();
    let mut tried = 0;
    if !differs::<E>(program, &lines) {
        return Vec::new();
    }
    let mut size = lines.len();
    while size > 0 {
        let mut place = 0;
        while place < lines.len() && tried < MOST_LINES {
            tried += lines.len();
            let end = lines.len().min(place + size);
            let fewer = [&lines[..place], &lines[end..]].concat();
            if differs::<E>(program, &fewer) {
                lines = fewer;
            } else {
                place = end;
            }
        }
        size /= 2;
    }
    lines
}

/// The lines as one input.
pub fn text(lines: &[Vec<u8>]) -> Vec<u8> {
    lines.iter().flat_map(|line| [line, &b"\n"[..]].concat()).collect()
}

/// Whether the program writes anything but what the model writes.
fn differs<E: End>(program: &[String], lines: &[Vec<u8>]) -> bool {
    let input = text(lines);
    let mut expected = Vec::new();
    E::run(&input[..], &mut expected).expect("memory takes all lines");
    output(program, input) != Some(expected)
}

/// What the program writes for an input; nothing if it cannot be run.
fn output(program: &[String], input: Vec<u8>) -> Option<Vec<u8>> {
    let mut child = Command::new(&program[0])
        .args(&program[1..])
        .stdin(Stdio::piped())
        .stdout(Stdio::piped())
        .spawn()
        .ok()?;
    let mut stdin = child.stdin.take()?;
    // A program that stops reading has a difference already.
    let writer = thread::spawn(move || drop(stdin.write_all(&input)));
    let output = child.wait_with_output().ok()?;
    writer.join().ok()?;
    Some(output.stdout)
}
