//! The command line.

use peer::hex;
use peer::keys::Kind;
use std::net::SocketAddr;
use std::path::PathBuf;
use std::time::Duration;

pub const HELP: &str = "\
unitsim: a ship's unit behind a bad link, for trying a gateway.

    unitsim --to ADDRESS:PORT --sessions FILE --ship NAME [OPTIONS]

    --to ADDRESS:PORT    the gateway
    --sessions FILE      the gateway's sessions file
    --ship NAME          which ship of it to be
    --reports N          how many reports to send  [300]
    --seed N             what the link does follows from it  [1]
    --lose P, --repeat P, --delay P, --reorder P, --damage P
                         per cent of the datagrams that the link loses, sends twice, holds back for
                         up to 40 datagrams, lets the next ones pass, changes a byte of  [0]
    --forward P          per cent of the reports that take the store-and-forward routing and come forty
                         places late, once the gateway has our Finished  [0]
    --reboots N          so many times in the middle of the day the unit loses its power, forgets all and says
                         hello anew; each second time once more, as soon as it has heard the reply  [0]
    --strangers N        so many hellos in the ship's name, from another host, after each reply that the
                         ship heard and before its Finished  [0]
    --every MILLISECONDS pause behind each datagram  [1]
    --timer MILLISECONDS how long the ship waits for a reply before it says its hello again  [20]
    --messages SECONDS   sends by short messages, one to a datagram, and the link has its faults for
                         each; the gateway is one that drops parts which have waited for so long
    --mac sha80|sha      [sha80]
    --refresh N          the key refresh  [4]
    --expected FILE      writes what must be in the list: number, length, bytes in hexadecimal
    --capture FILE       writes all datagrams as they left and came, for tshark
    --close              ends the day with a protected close notice
    --help

The ship is the proved unit (crates/shipboard); each call is made on the second implementation's ship
(`peer`), too, and both must answer the same. Every datagram that the link delivers also goes through
the shore's rules as `peer` has them, so what the gateway must hand out is known to the byte. Each
reply of the gateway is compared, too.
Exit status: 0 done, 1 the gateway or the ship answered wrongly or not at all, 2 wrong command line.
";

pub struct Options {
    pub to: SocketAddr,
    pub session: Vec<u8>,
    pub secret: Vec<u8>,
    pub width: u32,
    pub ship: String,
    pub reports: usize,
    pub seed: u64,
    pub rates: Rates,
    pub reboots: usize,
    pub strangers: usize,
    pub every: Duration,
    pub timer: Duration,
    pub kind: Kind,
    pub refresh: u8,
    pub expected: Option<PathBuf>,
    pub capture: Option<PathBuf>,
    pub close: bool,
    pub messages: Option<Duration>,
}

/// Per cent of the datagrams.
#[derive(Clone, Copy, Default)]
pub struct Rates {
    pub lose: usize,
    pub repeat: usize,
    pub delay: usize,
    pub reorder: usize,
    pub damage: usize,
    pub forward: usize,
}

pub fn read(mut words: impl Iterator<Item = String>) -> Result<Option<Options>, String> {
    let (mut to, mut sessions, mut ship) = (None, None, None);
    let (mut expected, mut capture, mut close) = (None, None, false);
    let mut messages = None;
    let (mut reports, mut seed, mut every, mut timer) = (300, 1, 1, 20);
    let (mut reboots, mut strangers) = (0, 0);
    let mut rates = Rates::default();
    let (mut kind, mut refresh) = (Kind::Sha80, 4);
    while let Some(word) = words.next() {
        if word == "--help" || word == "-h" {
            return Ok(None);
        }
        if word == "--close" {
            close = true;
            continue;
        }
        let value = words.next().ok_or_else(|| format!("{word} needs a value"))?;
        match &word[..] {
            "--to" => to = Some(number(&word, &value)?),
            "--sessions" => sessions = Some(PathBuf::from(value)),
            "--ship" => ship = Some(value),
            "--expected" => expected = Some(PathBuf::from(value)),
            "--capture" => capture = Some(PathBuf::from(value)),
            "--reports" => reports = number(&word, &value)?,
            "--seed" => seed = number(&word, &value)?,
            "--lose" => rates.lose = percent(&word, &value)?,
            "--repeat" => rates.repeat = percent(&word, &value)?,
            "--delay" => rates.delay = percent(&word, &value)?,
            "--reorder" => rates.reorder = percent(&word, &value)?,
            "--damage" => rates.damage = percent(&word, &value)?,
            "--forward" => rates.forward = percent(&word, &value)?,
            "--reboots" => reboots = number(&word, &value)?,
            "--strangers" => strangers = number(&word, &value)?,
            "--every" => every = number(&word, &value)?,
            "--timer" => timer = number(&word, &value)?,
            "--refresh" => refresh = number(&word, &value)?,
            "--messages" => messages = Some(Duration::from_secs(number(&word, &value)?)),
            "--mac" if value == "sha80" => kind = Kind::Sha80,
            "--mac" if value == "sha" => kind = Kind::Sha,
            _ => return Err(format!("{word} {value} is not known")),
        }
    }
    let to = to.ok_or("--to ADDRESS:PORT is missing")?;
    let ship = ship.ok_or("--ship NAME is missing")?;
    let sessions = sessions.ok_or("--sessions FILE is missing")?;
    let (session, secret, width) = planted(&sessions, &ship)?;
    let (every, timer) = (Duration::from_millis(every), Duration::from_millis(timer));
    Ok(Some(Options {
        to,
        session,
        secret,
        width,
        ship,
        reports,
        seed,
        rates,
        reboots,
        strangers,
        every,
        timer,
        kind,
        refresh,
        expected,
        capture,
        close,
        messages,
    }))
}

fn number<T: std::str::FromStr>(word: &str, value: &str) -> Result<T, String> {
    value.parse().map_err(|_| format!("{word}: {value} cannot be read"))
}

fn percent(word: &str, value: &str) -> Result<usize, String> {
    let percent = number(word, value)?;
    if percent > 100 {
        return Err(format!("{word}: {value} is more than 100"));
    }
    Ok(percent)
}

/// The session of a ship and its width, 32 where the file says none; the gateway is strict about the
/// file, so here little is asked of it.
fn planted(path: &PathBuf, ship: &str) -> Result<(Vec<u8>, Vec<u8>, u32), String> {
    let text =
        std::fs::read_to_string(path).map_err(|error| format!("{}: {error}", path.display()))?;
    for line in text.lines().filter(|line| !line.trim_start().starts_with('#')) {
        let mut words = line.split_whitespace();
        let (Some(session), Some(secret)) = (words.next(), words.next()) else { continue };
        let mut rest: Vec<&str> = words.collect();
        let width = match rest.first().and_then(|word| word.strip_prefix("width=")) {
            Some(width) => {
                rest.remove(0);
                number("width", width)?
            }
            None => 32,
        };
        if rest.join(" ") == ship {
            let bytes = |word: &str| {
                hex::read(word.as_bytes())
                    .ok_or(format!("{}: {word} is not hexadecimal", path.display()))
            };
            return Ok((bytes(session)?, bytes(secret)?, width));
        }
    }
    Err(format!("{}: no ship {ship}", path.display()))
}
