//! `dayfile`: the day's list of a ship as one file for the port office.

mod list;

use dayfile::{Refusal, Report, MOST_BYTES, MOST_IN_REPORT, MOST_REPORTS};
use std::fs::{self, OpenOptions};
use std::io::{self, Write};
use std::process::ExitCode;

const USAGE: &str = "\
dayfile write --list DAY.jsonl --ship NAME OUT   the file of a ship's reports of a day
dayfile read FILE [--json]                       the reports of a file, one to a line
dayfile mend FILE OUT                            the whole reports from the front of a cut file, with a new trailer
";

/// Exit statuses: 0 done (mend: unchanged), 1 refused or wrong, 2 used wrongly, 3 mended and changed.
fn main() -> ExitCode {
    let arguments: Option<Vec<String>> =
        std::env::args_os().skip(1).map(|word| word.into_string().ok()).collect();
    let arguments = arguments.unwrap_or_default();
    let words: Vec<&str> = arguments.iter().map(String::as_str).collect();
    let done = match words[..] {
        ["write", "--list", day, "--ship", ship, out] => write(day, ship, out),
        ["read", file] => read(file, false),
        ["read", file, "--json"] | ["read", "--json", file] => read(file, true),
        ["mend", file, out] => mend(file, out),
        ["--help"] | ["-h"] => {
            print!("{USAGE}");
            return ExitCode::SUCCESS;
        }
        _ => {
            eprint!("{USAGE}");
            return ExitCode::from(2);
        }
    };
    match done {
        Ok(status) => status,
        Err(wrong) => {
            eprintln!("dayfile: {wrong}");
            ExitCode::FAILURE
        }
    }
}

fn write(day: &str, ship: &str, out: &str) -> Result<ExitCode, String> {
    let text = fs::read_to_string(day).map_err(|error| format!("{day}: {error}"))?;
    let list = list::reports(&text, ship).map_err(|wrong| format!("{day}: {wrong}"))?;
    if list.is_empty() {
        let ships = list::ships(&text);
        return Err(format!("{day}: no reports of {ship:?}; the list has {}", ships.join(", ")));
    }
    check(&list).map_err(|wrong| format!("{ship}: {wrong}"))?;
    let file = dayfile::write(&list).map_err(|refusal| format!("{ship}: {refusal}"))?;
    put(out, &file)?;
    say(&format!("{out}: {} reports of {ship}, {} bytes\n", list.len(), file.len()))?;
    Ok(ExitCode::SUCCESS)
}

/// What does not fit one file, in words, before anything is written.
fn check(list: &[Report]) -> Result<(), String> {
    for (index, report) in list.iter().enumerate() {
        let size = report.bytes.len();
        if size == 0 || size > MOST_IN_REPORT {
            let number = report.number;
            return Err(format!(
                "report {} (number {number}) has {size} bytes, not 1 to 1,400",
                index + 1
            ));
        }
    }
    if list.len() > MOST_REPORTS {
        return Err(format!("{} reports; one file holds {MOST_REPORTS}", list.len()));
    }
    let size = dayfile::size(list);
    if size > MOST_BYTES {
        return Err(format!(
            "{} reports make {size} bytes; one file holds {MOST_BYTES}",
            list.len()
        ));
    }
    Ok(())
}

fn read(path: &str, json: bool) -> Result<ExitCode, String> {
    let file = fs::read(path).map_err(|error| format!("{path}: {error}"))?;
    let list = dayfile::read(&file)
        .map_err(|refusal| format!("{path}: {refusal}{}", place(refusal, &file)))?;
    let text: String = list.iter().map(|report| line(report, json)).collect();
    say(&text)?;
    Ok(ExitCode::SUCCESS)
}

/// Where bytes that are the file of no list stop being one.
fn place(refusal: Refusal, file: &[u8]) -> String {
    if refusal != Refusal::NoFile {
        return String::new();
    }
    let (mut kept, mut at) = (0, 0);
    while let Some((_, bytes)) = dayfile::report(file, at) {
        kept += 1;
        at += 5 + bytes.len();
    }
    format!("; {kept} whole reports end at byte {at}, and their trailer does not stand there (dayfile mend keeps them)")
}

/// Text on standard output.
fn say(text: &str) -> Result<(), String> {
    let mut output = io::stdout();
    let done = output.write_all(text.as_bytes()).and_then(|()| output.flush());
    done.map_err(|error| format!("standard output: {error}"))
}

/// The mended file stands in `out`, which was not there before, so the input is never written over.
fn mend(path: &str, out: &str) -> Result<ExitCode, String> {
    let file = fs::read(path).map_err(|error| format!("{path}: {error}"))?;
    let mended = dayfile::mend(&file).map_err(|refusal| format!("{path}: {refusal}"))?;
    put(out, &mended.file)?;
    let changed = if mended.changed { "changed" } else { "unchanged" };
    let (kept, after) = (mended.kept, mended.after);
    say(&format!("{out}: kept {kept} reports, {after} bytes stood after them, {changed}\n"))?;
    Ok(if mended.changed { ExitCode::from(3) } else { ExitCode::SUCCESS })
}

/// Number, length, bytes.
fn line(report: &Report, json: bool) -> String {
    let (number, length) = (report.number, report.bytes.len());
    let bytes: String = report.bytes.iter().map(|byte| format!("{byte:02x}")).collect();
    if json {
        format!("{{\"number\":{number},\"length\":{length},\"bytes\":\"{bytes}\"}}\n")
    } else {
        format!("{number}\t{length}\t{bytes}\n")
    }
}

/// Writes a file that was not there before; where writing fails nothing is left.
fn put(path: &str, bytes: &[u8]) -> Result<(), String> {
    let wrong = |error: io::Error| format!("{path}: {error}");
    let mut file = OpenOptions::new().write(true).create_new(true).open(path).map_err(wrong)?;
    if let Err(error) = file.write_all(bytes).and_then(|()| file.sync_all()) {
        let _ = fs::remove_file(path);
        return Err(wrong(error));
    }
    Ok(())
}
