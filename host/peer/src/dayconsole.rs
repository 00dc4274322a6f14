//! The lines that the day console must write.

use std::io::{self, BufRead, Write};

use crate::dayfile::{self, Report};
use crate::hex;

const MOST_REPORTS: usize = 5000;
const MOST_BYTES: usize = 70_000;
const MOST_LINE: usize = 8192;

#[derive(Default)]
struct Hand {
    list: Vec<Report>,
    file: Vec<u8>,
}

pub fn run(mut input: impl BufRead, mut output: impl Write) -> io::Result<()> {
    let mut hand = Hand::default();
    let mut line = Vec::new();
    while input.read_until(b'\n', &mut line)? > 0 {
        if line.last() == Some(&b'\n') {
            line.pop();
        }
        output.write_all(hand.line(&line).as_bytes())?;
        line.clear();
    }
    output.flush()
}

impl Hand {
    fn line(&mut self, line: &[u8]) -> String {
        let said = if line.len() <= MOST_LINE { self.call(line) } else { None };
        match said {
            None => "bad line\n".to_string(),
            Some(said) => {
                let (reports, file) = (self.list.len(), self.file.len());
                format!("{said}state reports={reports} file={file}\n")
            }
        }
    }

    fn call(&mut self, line: &[u8]) -> Option<String> {
        let words: Vec<&[u8]> = line.split(|byte| *byte == b' ').collect();
        match words[..] {
            [b"report", number, bytes] => self.report(decimal(number, 65535)?, string(bytes)?),
            [b"file", bytes] => self.append(string(bytes)?),
            [b"clear"] => {
                *self = Hand::default();
                Some("clear ok\n".to_string())
            }
            [b"write", room] => self.write(decimal(room, MOST_BYTES)?),
            [b"read"] => self.read(),
            [b"mend", room] => self.mend(decimal(room, MOST_BYTES)?),
            _ => None,
        }
    }

    fn report(&mut self, number: usize, bytes: Vec<u8>) -> Option<String> {
        let used: usize = self.list.iter().map(|report| report.bytes.len()).sum();
        if self.list.len() == MOST_REPORTS || used + bytes.len() > MOST_BYTES {
            return Some("report full\n".to_string());
        }
        self.list.push(Report { number: number as u16, bytes });
        Some("report ok\n".to_string())
    }

    fn append(&mut self, bytes: Vec<u8>) -> Option<String> {
        if self.file.len() + bytes.len() > MOST_BYTES {
            return Some("file full\n".to_string());
        }
        self.file.extend(bytes);
        Some("file ok\n".to_string())
    }

    fn write(&self, room: usize) -> Option<String> {
        Some(match dayfile::write(&self.list, room) {
            Ok(file) => format!("write ok\nout {}\n", hex::write(&file)),
            Err(refusal) => format!("write refused {refusal}\n"),
        })
    }

    fn read(&self) -> Option<String> {
        Some(match dayfile::read(&self.file) {
            Ok(list) => {
                let mut said = "read ok\n".to_string();
                for report in list {
                    said += &format!("{} {}\n", report.number, hex::write(&report.bytes));
                }
                said
            }
            Err(refusal) => format!("read refused {refusal}\n"),
        })
    }
}

impl Hand {
    fn mend(&self, room: usize) -> Option<String> {
        Some(match dayfile::mend(&self.file, room) {
            Ok(mended) => {
                let changed = if mended.changed { "changed" } else { "unchanged" };
                let (kept, after) = (mended.kept, mended.after);
                let file = hex::write(&mended.file);
                format!("mend kept {kept} after {after} {changed}\nout {file}\n")
            }
            Err(refusal) => format!("mend refused {refusal}\n"),
        })
    }
}

/// A byte string: `-`, or digits, at least two.
fn string(word: &[u8]) -> Option<Vec<u8>> {
    match word {
        b"-" => Some(Vec::new()),
        b"" => None,
        _ => hex::read(word),
    }
}

/// A number without sign or leading zero, of at most nine digits and at most `most`.
fn decimal(word: &[u8], most: usize) -> Option<usize> {
    let plain =
        matches!(word, b"0") || (matches!(word.first(), Some(b'1'..=b'9')) && word.len() <= 9);
    if !plain || !word.iter().all(u8::is_ascii_digit) {
        return None;
    }
    let number: usize = std::str::from_utf8(word).ok()?.parse().ok()?;
    (number <= most).then_some(number)
}
