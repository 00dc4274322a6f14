//! The command line of `reports`.

use super::form::Form;
use super::Wanted;
use crate::clock::{Moment, MILLISECONDS_OF_A_DAY};
use crate::store::Where;
use std::ffi::OsString;

pub const HELP: &str = "\
reports: what the ships reported, from the gateway's store, which is only read.

    reports --state DIRECTORY [OPTIONS]
    reports --store postgres://USER@HOST/DATABASE [OPTIONS]

    --day YYYY-MM-DD       received on this day (UTC)
    --from TIME, --to TIME received from here on, and before this: YYYY-MM-DD or
                           YYYY-MM-DDTHH:MM:SS, with a fraction if need be (UTC)
    --ship NAME            of this ship
    --format FORM          text (ship, time, opening, number, length, bytes in hexadecimal; tabs
                           between them), json (one object to a line) or csv  [text]
    --follow               goes on with those that come
    --missing              instead, the gaps in the numbers under each opening: ship, opening,
                           first, last, count
    --help, --version

Exit status: 0, 2 wrong command line, 4 the store cannot be read.
";

#[derive(PartialEq, Eq, Debug)]
pub enum Command {
    Help,
    Version,
    List(Options),
}

#[derive(PartialEq, Eq, Debug)]
pub struct Options {
    pub store: Where,
    pub wanted: Wanted,
    pub form: Form,
    pub follow: bool,
    pub missing: bool,
}

pub fn read(mut words: impl Iterator<Item = OsString>) -> Result<Command, String> {
    let (mut state, mut address) = (None, None);
    let mut wanted = Wanted::all();
    let (mut form, mut follow, mut missing) = (Form::Text, false, false);
    while let Some(word) = words.next() {
        let word = text(word)?;
        let mut value = || words.next().ok_or_else(|| format!("{word} needs a value"));
        match &word[..] {
            "--help" | "-h" => return Ok(Command::Help),
            "--version" | "-V" => return Ok(Command::Version),
            "--state" => state = Some(value()?.into()),
            "--store" => address = Some(text(value()?)?),
            "--day" => {
                let value = text(value()?)?;
                let start = Moment::read(&value).filter(|_| Moment::is_day(&value));
                wanted.from = start.ok_or_else(|| format!("{word}: {value} is no day"))?;
                wanted.to = Moment(wanted.from.0 + MILLISECONDS_OF_A_DAY);
            }
            "--from" => wanted.from = moment(&word, value()?)?,
            "--to" => wanted.to = moment(&word, value()?)?,
            "--ship" => wanted.ship = Some(text(value()?)?),
            "--format" => {
                form = match &text(value()?)?[..] {
                    "text" => Form::Text,
                    "json" => Form::Json,
                    "csv" => Form::Csv,
                    other => return Err(format!("{word}: {other} is not text, json or csv")),
                }
            }
            "--follow" => follow = true,
            "--missing" => missing = true,
            _ => return Err(format!("unknown word {word}")),
        }
    }
    if follow && missing {
        return Err("--follow and --missing do not go together".to_string());
    }
    let store = Where::said(state, address)?;
    Ok(Command::List(Options { store, wanted, form, follow, missing }))
}

fn text(word: OsString) -> Result<String, String> {
    word.into_string().map_err(|word| format!("{} is not UTF-8", word.to_string_lossy()))
}

fn moment(word: &str, value: OsString) -> Result<Moment, String> {
    let value = text(value)?;
    Moment::read(&value).ok_or_else(|| format!("{word}: {value} is no time"))
}

#[cfg(test)]
mod tests {
    use super::*;

    fn words(line: &str) -> Result<Command, String> {
        read(line.split_whitespace().map(OsString::from))
    }

    #[test]
    fn spans_and_faults() {
        let Ok(Command::List(options)) = words("--state s --day 2026-11-15 --format csv") else {
            panic!()
        };
        let span = (options.wanted.from.to_string(), options.wanted.to.to_string());
        assert_eq!(span.0, "2026-11-15T00:00:00.000Z");
        assert_eq!(span.1, "2026-11-16T00:00:00.000Z");
        assert_eq!((options.form, options.store), (Form::Csv, Where::Directory("s".into())));
        let line = "--state s --from 2026-11-15T08:30:00 --to 2026-11-15T08:30:00.5Z --follow";
        let Ok(Command::List(options)) = words(line) else { panic!() };
        assert_eq!(options.wanted.to.0 - options.wanted.from.0, 500);
        for line in [
            "",
            "--day 2026-11-15",
            "--state s --day 2026-11-31",
            "--state s --day 2026-11-15T08:30:00",
            "--state s --from yesterday",
            "--state s --format xml",
            "--state s --follow --missing",
            "--state s more",
            "--state",
        ] {
            assert!(words(line).is_err(), "{line}");
        }
    }
}
