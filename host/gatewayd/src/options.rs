//! The command line.

use crate::store::{Start, Where};
use std::ffi::OsString;
use std::net::SocketAddr;
use std::path::PathBuf;
use std::time::Duration;

pub const HELP: &str = "\
gatewayd: the shore end of the link, over UDP. One connection for each planted session.

    gatewayd --sessions FILE --state DIRECTORY [OPTIONS]
    gatewayd --sessions FILE --store ADDRESS [OPTIONS]
    gatewayd --set-up | psql DATABASE     roles and tables for --store, once

    --sessions FILE        planted sessions, one to a line: identifier (16 hexadecimal digits),
                           secret (40), the ship's name. Refused if others can read it, and if it
                           belongs to another user.
    --state DIRECTORY      the store, an SQLite file, and the lock on it. Made if it is not there.
    --store ADDRESS        instead, a PostgreSQL database, which other gateways may use, too:
                           postgres://USER@HOST/DATABASE, as for psql
    --restored             the store is of an earlier time (a backup): on the connections in it
                           nothing more is sent until each is opened again
    --afresh               every connection is a fresh one, and the ships say hello again; reports
                           and barred sessions stay
    --listen ADDRESS:PORT  where to listen  [127.0.0.1:9202]; not asked if a socket was handed over
                           (LISTEN_FDS, as systemd does it)
    --listen-messages ADDRESS:PORT  where relays of short messages send to: the user data of one
                           message to a datagram  [none]
    --gather-for SECONDS   parts of a short message wait so long for the others  [300]
    --warn-every SECONDS   at most one warning 57 to a ship in this time  [60]
    --hint-every SECONDS   a datagram that no ship takes is answered by no_connection, at most once
                           to a host in this time  [never]
    --log-every SECONDS    at most one log line of a kind for a ship in this time  [10]
    --help, --version

SIGINT and SIGTERM end it. SIGHUP starts it anew in the same place: sessions are read again, and
what arrives meanwhile waits. (On a terminal, SIGHUP ends it.)
Exit status: 0 ended by a signal, 2 wrong command line, 3 sessions file, 4 store, 5 cannot listen,
6 store or network failed while running.
`reports --help` tells how to read what was reported.
";

#[derive(PartialEq, Eq, Debug)]
pub enum Command {
    Help,
    Version,
    SetUp,
    Run(Options),
}

#[derive(PartialEq, Eq, Debug)]
pub struct Options {
    pub sessions: PathBuf,
    pub store: Where,
    pub start: Start,
    pub listen: SocketAddr,
    pub listen_messages: Option<SocketAddr>,
    pub gather_for: Duration,
    pub warn_every: Duration,
    pub hint_every: Option<Duration>,
    pub log_every: Duration,
}

/// What was said so far.
struct Said {
    sessions: Option<PathBuf>,
    state: Option<PathBuf>,
    store: Option<String>,
    start: Start,
    listen: SocketAddr,
    listen_messages: Option<SocketAddr>,
    gather_for: Duration,
    warn_every: Duration,
    hint_every: Option<Duration>,
    log_every: Duration,
}

pub fn read(mut words: impl Iterator<Item = OsString>) -> Result<Command, String> {
    let mut said = Said {
        sessions: None,
        state: None,
        store: None,
        start: Start::AsItWas,
        listen: SocketAddr::from(([127, 0, 0, 1], 9202)),
        listen_messages: None,
        gather_for: Duration::from_secs(300),
        warn_every: Duration::from_secs(60),
        hint_every: None,
        log_every: Duration::from_secs(10),
    };
    while let Some(word) = words.next() {
        let word = text(word)?;
        match &word[..] {
            "--help" | "-h" => return Ok(Command::Help),
            "--version" | "-V" => return Ok(Command::Version),
            "--set-up" => return Ok(Command::SetUp),
            _ => said.option(&word, || words.next())?,
        }
    }
    let sessions = said.sessions.ok_or("--sessions FILE is missing")?;
    Ok(Command::Run(Options {
        sessions,
        store: Where::said(said.state, said.store)?,
        start: said.start,
        listen: said.listen,
        listen_messages: said.listen_messages,
        gather_for: said.gather_for,
        warn_every: said.warn_every,
        hint_every: said.hint_every,
        log_every: said.log_every,
    }))
}

impl Said {
    fn option(
        &mut self,
        word: &str,
        next: impl FnOnce() -> Option<OsString>,
    ) -> Result<(), String> {
        let value = || next().ok_or_else(|| format!("{word} needs a value"));
        match word {
            "--sessions" => self.sessions = Some(value()?.into()),
            "--state" => self.state = Some(value()?.into()),
            "--store" => self.store = Some(text(value()?)?),
            "--restored" => self.start = Start::Restored,
            "--afresh" => self.start = Start::Afresh,
            "--listen" => self.listen = address(word, value()?)?,
            "--listen-messages" => self.listen_messages = Some(address(word, value()?)?),
            "--gather-for" => self.gather_for = seconds(word, value()?)?,
            "--warn-every" => self.warn_every = seconds(word, value()?)?,
            "--hint-every" => self.hint_every = Some(seconds(word, value()?)?),
            "--log-every" => self.log_every = seconds(word, value()?)?,
            _ => return Err(format!("unknown word {word}")),
        }
        Ok(())
    }
}

/// Paths may be any bytes, everything else is UTF-8.
fn text(word: OsString) -> Result<String, String> {
    word.into_string().map_err(|word| format!("{} is not UTF-8", word.to_string_lossy()))
}

fn address(word: &str, value: OsString) -> Result<SocketAddr, String> {
    let value = text(value)?;
    value.parse().map_err(|_| format!("{word}: {value} is no ADDRESS:PORT"))
}

/// Seconds, with a fraction if need be.
fn seconds(word: &str, value: OsString) -> Result<Duration, String> {
    let value = text(value)?;
    let seconds = value.parse().ok().and_then(|seconds| Duration::try_from_secs_f64(seconds).ok());
    seconds.ok_or_else(|| format!("{word}: {value} is no number of seconds"))
}

#[cfg(test)]
mod tests {
    use super::*;
    use std::os::unix::ffi::OsStringExt;

    fn words(line: &str) -> Result<Command, String> {
        read(line.split_whitespace().map(OsString::from))
    }

    #[test]
    fn defaults_and_faults() {
        let Ok(Command::Run(options)) = words("--state s --sessions f") else { panic!() };
        assert_eq!(options.listen.to_string(), "127.0.0.1:9202");
        assert_eq!(options.store, Where::Directory("s".into()));
        assert_eq!(options.hint_every, None);
        assert_eq!(options.listen_messages, None);
        let line = "--state s --sessions f --warn-every 0.5 --hint-every 7";
        let Ok(Command::Run(options)) = words(line) else { panic!() };
        assert_eq!(options.warn_every, Duration::from_millis(500));
        assert_eq!(options.hint_every, Some(Duration::from_secs(7)));
        assert_eq!(words("--help"), Ok(Command::Help));
        for line in [
            "",
            "--state s",
            "--sessions f",
            "--sessions f --store mysql://x",
            "--state",
            "--listen x",
            "--listen-messages x",
            "--warn-every -1",
            "--state s --sessions f --reopen-after 5",
            "--log-every nan",
            "x",
        ] {
            assert!(words(line).is_err(), "{line}");
        }
    }

    #[test]
    fn any_bytes_in_a_path_and_none_elsewhere() {
        let odd = || OsString::from_vec(b"a\xff".to_vec());
        let plain = ["--state", "s", "--sessions"].map(OsString::from);
        let Ok(Command::Run(options)) = read(plain.into_iter().chain([odd()])) else { panic!() };
        assert_eq!(options.sessions, PathBuf::from(odd()));
        for word in ["--listen", "--warn-every", "--help-me"] {
            assert!(read([OsString::from(word), odd()].into_iter()).is_err());
        }
        assert!(read([odd()].into_iter()).unwrap_err().contains("not UTF-8"));
    }
}
