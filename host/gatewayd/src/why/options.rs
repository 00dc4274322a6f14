//! The command line of `why`.

use crate::store::Where;
use std::ffi::OsString;
use std::path::PathBuf;

pub const HELP: &str = "\
why: why a datagram of a ship was refused, by the connection that the gateway's store has of it.
The store is only read, and nothing changes.

    why --state DIRECTORY --sessions FILE --ship NAME [OPTIONS] < DATAGRAM
    why --store postgres://USER@HOST/DATABASE --sessions FILE --ship NAME [OPTIONS] < DATAGRAM

    --sessions FILE        the planted sessions: the store has no secrets, and without the ship's
                           own everything would be forged
    --ship NAME            of this ship
    --index N              the record with this index in the datagram  [0]
    --edition N            1 or 2, by which the reason is named  [1]
    --packet N             the datagram is the payload of this packet of a capture file (pcap)
    --raw                  it is read as it is; else hexadecimal digits are read as such
    --json                 the facts by name, in one line
    --help, --version

Exit status: 0, 2 wrong command line or datagram, 3 the sessions file, 4 the store cannot be read.
";

#[derive(PartialEq, Eq, Debug)]
pub enum Command {
    Help,
    Version,
    Ask(Options),
}

#[derive(Clone, PartialEq, Eq, Debug)]
pub struct Options {
    pub store: Where,
    pub sessions: PathBuf,
    pub ship: String,
    pub index: usize,
    pub edition: u32,
    pub packet: Option<usize>,
    pub raw: bool,
    pub json: bool,
}

pub fn read(mut words: impl Iterator<Item = OsString>) -> Result<Command, String> {
    let (mut state, mut address, mut sessions, mut ship) = (None, None, None, None);
    let (mut index, mut edition, mut packet) = (0, 1, None);
    let (mut raw, mut json) = (false, false);
    while let Some(word) = words.next() {
        let word = text(word)?;
        let mut value = || words.next().ok_or_else(|| format!("{word} needs a value"));
        match &word[..] {
            "--help" | "-h" => return Ok(Command::Help),
            "--version" | "-V" => return Ok(Command::Version),
            "--state" => state = Some(value()?.into()),
            "--store" => address = Some(text(value()?)?),
            "--sessions" => sessions = Some(value()?.into()),
            "--ship" => ship = Some(text(value()?)?),
            "--index" => index = number(&word, value()?)?,
            "--edition" => edition = number(&word, value()?)? as u32,
            "--packet" => packet = Some(number(&word, value()?)?),
            "--raw" => raw = true,
            "--json" => json = true,
            _ => return Err(format!("unknown word {word}")),
        }
    }
    if !matches!(edition, 1 | 2) {
        return Err("--edition: 1 or 2".to_string());
    }
    let store = Where::said(state, address)?;
    let sessions = sessions.ok_or("--sessions FILE is missing")?;
    let ship = ship.ok_or("--ship NAME is missing")?;
    Ok(Command::Ask(Options { store, sessions, ship, index, edition, packet, raw, json }))
}

fn text(word: OsString) -> Result<String, String> {
    word.into_string().map_err(|word| format!("{} is not UTF-8", word.to_string_lossy()))
}

fn number(word: &str, value: OsString) -> Result<usize, String> {
    let value = text(value)?;
    let number = value.parse::<u32>().map_err(|_| format!("{word}: {value} is no number"))?;
    Ok(number as usize)
}

#[cfg(test)]
mod tests {
    use super::*;

    #[test]
    fn words_and_faults() {
        let words = |line: &str| read(line.split_whitespace().map(OsString::from));
        let Ok(Command::Ask(options)) = words("--state s --sessions f --ship A") else { panic!() };
        assert_eq!(
            (options.index, options.edition, options.packet, options.json),
            (0, 1, None, false)
        );
        let line = "--state s --sessions f --ship A --index 3 --edition 2 --packet 7 --json";
        let Ok(Command::Ask(options)) = words(line) else { panic!() };
        assert_eq!(
            (options.index, options.edition, options.packet, options.json),
            (3, 2, Some(7), true)
        );
        assert_eq!(words("--help"), Ok(Command::Help));
        for line in [
            "",
            "--state s --ship A",
            "--state s --sessions f",
            "--sessions f --ship A",
            "--state s --sessions f --ship A --edition 3",
            "--state s --sessions f --ship A --index -1",
            "--state s --sessions f --ship A --index x",
            "--state s --sessions f --ship",
            "--state s --sessions f --ship A more",
        ] {
            assert!(words(line).is_err(), "{line}");
        }
    }
}
