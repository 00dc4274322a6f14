//! The sessions file: which sessions are planted. One to a line: identifier (16 hexadecimal
//! digits), master secret (40), if wanted the width of the ship's window (`width=` and 32 to 64,
//! else it is 32), and the ship's name, which is the rest of the line. Empty lines and lines that
//! begin with `#` are skipped.

use crate::hex;
use crate::signals;
use std::collections::HashSet;
use std::fmt;
use std::fs::File;
use std::io::Read;
use std::os::unix::fs::{MetadataExt, PermissionsExt};
use std::path::Path;

pub type Identifier = [u8; 8];
pub type Secret = [u8; 20];

#[derive(Clone, PartialEq, Eq)]
pub struct Session {
    pub id: Identifier,
    pub secret: Secret,
    /// How many of the newest numbers are marked; a report further behind is too old.
    pub width: u32,
    pub ship: String,
}

/// What is wrong with the file, and where: lines and columns count from 1, columns in characters.
#[derive(PartialEq, Eq, Debug)]
pub struct Fault {
    pub line: usize,
    pub column: usize,
    pub what: String,
}

const WIDTH: &str = "width=";
const WIDTHS: std::ops::RangeInclusive<u32> = gateway::WIDTH_LEAST..=gateway::WIDTH_MOST;
const LARGEST_NAME: usize = 64;
const LARGEST_FILE: u64 = 16 << 20;

/// Secrets stay out of what a debugger or a failed test prints.
impl fmt::Debug for Session {
    fn fmt(&self, f: &mut fmt::Formatter) -> fmt::Result {
        write!(f, "session {} of {}", hex::write(&self.id), self.ship)
    }
}

/// Reads the file; what is wrong comes as one line.
pub fn load(path: &Path) -> Result<Vec<Session>, String> {
    let told = |what: &dyn fmt::Display| format!("{}: {what}", path.display());
    let mut file = File::open(path).map_err(|error| told(&error))?;
    let found = file.metadata().map_err(|error| told(&error))?;
    if !found.is_file() {
        return Err(told(&"not a file"));
    }
    let mode = found.permissions().mode() & 0o777;
    if mode & 0o066 != 0 {
        return Err(told(&format!("others can read or write it (mode {mode:03o}): chmod 600")));
    }
    let (owner, user) = (found.uid(), signals::user());
    if owner != user && owner != 0 {
        return Err(told(&format!(
            "belongs to user {owner}, neither to us (user {user}) nor to root"
        )));
    }
    if found.len() > LARGEST_FILE {
        return Err(told(&"larger than 16 MB"));
    }
    let mut bytes = Vec::new();
    file.read_to_end(&mut bytes).map_err(|error| told(&error))?;
    let sessions = read(&bytes).map_err(|fault| {
        format!("{}:{}:{}: {}", path.display(), fault.line, fault.column, fault.what)
    })?;
    if sessions.is_empty() {
        return Err(told(&"no session in it"));
    }
    Ok(sessions)
}

pub fn read(bytes: &[u8]) -> Result<Vec<Session>, Fault> {
    let mut sessions = Vec::new();
    let mut twice = Twice::default();
    for (index, bytes) in bytes.split(|byte| *byte == b'\n').enumerate() {
        let fault = |(column, what): (usize, String)| Fault { line: index + 1, column, what };
        let line = std::str::from_utf8(bytes).map_err(|error| {
            let before = String::from_utf8_lossy(&bytes[..error.valid_up_to()]);
            fault((before.chars().count() + 1, "not UTF-8".to_string()))
        })?;
        let line = line.strip_suffix('\r').unwrap_or(line);
        if line.trim().is_empty() || line.trim_start().starts_with('#') {
            continue;
        }
        let session = read_line(line).map_err(fault)?;
        twice.refuse(&session).map_err(|what| fault((1, what)))?;
        sessions.push(session);
    }
    Ok(sessions)
}

/// One session, or the column and what is wrong there.
fn read_line(line: &str) -> Result<Session, (usize, String)> {
    let mut words = Words { line, column: 1 };
    let id = words.bytes::<8>("the identifier")?;
    let secret = words.bytes::<20>("the secret")?;
    let width = words.width()?;
    let (column, ship) = words.rest();
    let ship = ship.trim_end();
    if ship.is_empty() {
        return Err((column, "the ship's name is missing".to_string()));
    }
    if ship.chars().count() > LARGEST_NAME {
        return Err((column, format!("the ship's name is longer than {LARGEST_NAME} characters")));
    }
    if let Some(place) = ship.chars().position(char::is_control) {
        return Err((column + place, "a control character in the ship's name".to_string()));
    }
    Ok(Session { id, secret, width, ship: ship.to_string() })
}

/// Two sessions with one identifier could not be told apart on the wire, and two ships with one
/// name not in the list.
#[derive(Default)]
struct Twice {
    identifiers: HashSet<Identifier>,
    names: HashSet<String>,
}

impl Twice {
    fn refuse(&mut self, session: &Session) -> Result<(), String> {
        if !self.identifiers.insert(session.id) {
            return Err(format!("the identifier {} is planted twice", hex::write(&session.id)));
        }
        if !self.names.insert(session.ship.clone()) {
            return Err(format!("two ships are named {}", session.ship));
        }
        Ok(())
    }
}

/// Takes words from the front of a line and knows its column.
struct Words<'a> {
    line: &'a str,
    column: usize,
}

impl<'a> Words<'a> {
    fn skip_blanks(&mut self) {
        let left = self.line.trim_start_matches([' ', '\t']);
        self.column += self.line.len() - left.len();
        self.line = left;
    }

    fn word(&mut self) -> (usize, &'a str) {
        self.skip_blanks();
        let end = self.line.find([' ', '\t']).unwrap_or(self.line.len());
        let (word, left) = self.line.split_at(end);
        let column = self.column;
        self.column += word.chars().count();
        self.line = left;
        (column, word)
    }

    fn rest(&mut self) -> (usize, &'a str) {
        self.skip_blanks();
        (self.column, self.line)
    }

    /// The width, where the next word says one; a name cannot begin with `width=`.
    fn width(&mut self) -> Result<u32, (usize, String)> {
        self.skip_blanks();
        if !self.line.starts_with(WIDTH) {
            return Ok(gateway::WIDTH_LEAST);
        }
        let (column, word) = self.word();
        let digits = &word[WIDTH.len()..];
        let plain = digits.len() == 2 && digits.bytes().all(|digit| digit.is_ascii_digit());
        match digits.parse() {
            Ok(width) if plain && WIDTHS.contains(&width) => Ok(width),
            _ => Err((column, format!("the width is {digits:?}, not a number from 32 to 64"))),
        }
    }

    fn bytes<const N: usize>(&mut self, what: &str) -> Result<[u8; N], (usize, String)> {
        let (column, word) = self.word();
        if word.is_empty() {
            return Err((column, format!("{what} is missing")));
        }
        let bytes = hex::read(word).map_err(|place| {
            let here = word.chars().nth(place).is_some_and(|digit| digit.is_ascii_hexdigit());
            let fault = if here {
                "has an odd number of digits"
            } else {
                "has a character that is no hexadecimal digit"
            };
            (column + place, format!("{what} {fault}"))
        })?;
        let size = bytes.len();
        bytes.try_into().map_err(|_| (column, format!("{what} has {size} bytes, not {N}")))
    }
}

#[cfg(test)]
mod tests {
    use super::*;

    const ID: &str = "0102030405060708";
    const SECRET: &str = "000102030405060708090a0b0c0d0e0f10111213";

    fn fault(text: &str) -> (usize, usize, String) {
        let fault = read(text.as_bytes()).unwrap_err();
        (fault.line, fault.column, fault.what)
    }

    #[test]
    fn sessions_and_comments() {
        let text = format!(
            "# planted\n\n  {ID}\t{SECRET}  Sea Star \r\n\t# end\n1112131415161718 {SECRET} Möwe"
        );
        let sessions = read(text.as_bytes()).unwrap();
        assert_eq!(sessions.len(), 2);
        assert_eq!(sessions[0].id, [1, 2, 3, 4, 5, 6, 7, 8]);
        assert_eq!(sessions[0].secret[19], 0x13);
        assert_eq!(sessions[0].ship, "Sea Star");
        assert_eq!(sessions[1].ship, "Möwe");
        assert_eq!(read(b"").unwrap(), []);
    }

    #[test]
    fn faults_with_line_and_column() {
        assert_eq!(
            fault("\n 01x2"),
            (2, 4, "the identifier has a character that is no hexadecimal digit".to_string())
        );
        assert_eq!(fault("010"), (1, 3, "the identifier has an odd number of digits".to_string()));
        assert_eq!(fault("0102"), (1, 1, "the identifier has 2 bytes, not 8".to_string()));
        assert_eq!(fault(ID), (1, 17, "the secret is missing".to_string()));
        assert_eq!(
            fault(&format!("{ID} 00")),
            (1, 18, "the secret has 1 bytes, not 20".to_string())
        );
        assert_eq!(
            fault(&format!("{ID} {SECRET} ")),
            (1, 59, "the ship's name is missing".to_string())
        );
        assert_eq!(
            fault(&format!("{ID} {SECRET} A\u{7}")),
            (1, 60, "a control character in the ship's name".to_string())
        );
        let long = "x".repeat(65);
        assert_eq!(fault(&format!("{ID} {SECRET} {long}")).1, 59);
        let twice = format!("{ID} {SECRET} A\n{ID} {SECRET} B");
        assert_eq!(fault(&twice), (2, 1, format!("the identifier {ID} is planted twice")));
        let named = format!("{ID} {SECRET} A\n1112131415161718 {SECRET} A");
        assert_eq!(fault(&named), (2, 1, "two ships are named A".to_string()));
        assert_eq!(
            fault("é1"),
            (1, 1, "the identifier has a character that is no hexadecimal digit".to_string())
        );
    }

    #[test]
    fn widths() {
        let width = |word: &str| {
            let text = format!("{ID} {SECRET} {word} Sea Star");
            let session = read(text.as_bytes()).unwrap().remove(0);
            (session.width, session.ship)
        };
        assert_eq!(width(""), (32, "Sea Star".to_string()));
        for given in 32..=64 {
            assert_eq!(width(&format!("width={given}")), (given, "Sea Star".to_string()));
        }
        assert_eq!(width("Width=64"), (32, "Width=64 Sea Star".to_string()));
        for bad in ["31", "65", "", "0", "064", "6 4", "+4", "x", "4294967328", "64x"] {
            let digits = bad.split(' ').next().unwrap();
            let what = format!("the width is {digits:?}, not a number from 32 to 64");
            assert_eq!(fault(&format!("\n{ID} {SECRET}  width={bad} A")), (2, 60, what), "{bad}");
        }
        let nameless = (1, 68, "the ship's name is missing".to_string());
        assert_eq!(fault(&format!("{ID} {SECRET} width=40 ")), nameless);
    }

    #[test]
    fn not_utf8() {
        let fault = read(b"#ok\n\xc3\xa9\xff").unwrap_err();
        assert_eq!((fault.line, fault.column, &fault.what[..]), (2, 2, "not UTF-8"));
    }

    #[test]
    fn every_cut_and_every_changed_byte_is_read_or_refused() {
        let text = format!("# c\n{ID} {SECRET} Sea Star\n");
        for cut in 0..text.len() {
            let _ = read(&text.as_bytes()[..cut]);
            for byte in 0..=255 {
                let mut bytes = text.clone().into_bytes();
                bytes[cut] = byte;
                let _ = read(&bytes);
            }
        }
    }
}
