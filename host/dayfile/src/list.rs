//! The gateway's list of a day: JSON lines as `reports` writes them (docs/GATEWAY.md). This is the one place that knows
//! their form.

use dayfile::Report;

/// The reports of a ship in a list, in its order.
pub fn reports(text: &str, ship: &str) -> Result<Vec<Report>, String> {
    let mut list = Vec::new();
    for (index, line) in text.lines().enumerate() {
        let place = |what: String| format!("line {}: {what}", index + 1);
        let line = Line::read(line).map_err(place)?;
        if line.ship == ship {
            list.push(Report { number: line.number, bytes: line.bytes });
        }
    }
    Ok(list)
}

/// The names of the ships in a list, each once.
pub fn ships(text: &str) -> Vec<String> {
    let mut names: Vec<String> =
        text.lines().filter_map(|line| Line::read(line).ok()).map(|line| line.ship).collect();
    names.sort();
    names.dedup();
    names
}

struct Line {
    ship: String,
    number: u16,
    bytes: Vec<u8>,
}

impl Line {
    /// `{"ship":"..","time":"..","opening":O,"number":N,"length":L,"bytes":".."}`
    fn read(line: &str) -> Result<Line, String> {
        let mut rest = line;
        skip(&mut rest, "{\"ship\":\"")?;
        let ship = string(&mut rest)?;
        skip(&mut rest, ",\"time\":\"")?;
        string(&mut rest)?;
        // Lists of before the store have no opening.
        if skip(&mut rest, ",\"opening\":").is_ok() {
            number(&mut rest)?;
        }
        skip(&mut rest, ",\"number\":")?;
        let number = number(&mut rest)?;
        let number =
            u16::try_from(number).map_err(|_| format!("number {number} is over 65,535"))?;
        skip(&mut rest, ",\"length\":")?;
        let length = self::number(&mut rest)?;
        skip(&mut rest, ",\"bytes\":\"")?;
        let bytes = bytes(&string(&mut rest)?)?;
        skip(&mut rest, "}")?;
        if !rest.is_empty() {
            return Err(format!("more behind the line's end: {rest:?}"));
        }
        if bytes.len() as u64 != length {
            return Err(format!("length {length}, but {} bytes", bytes.len()));
        }
        Ok(Line { ship, number, bytes })
    }
}

fn skip(rest: &mut &str, expected: &str) -> Result<(), String> {
    match rest.strip_prefix(expected) {
        Some(after) => {
            *rest = after;
            Ok(())
        }
        None => Err(format!(
            "expected {expected} before {:?}",
            rest.chars().take(20).collect::<String>()
        )),
    }
}

/// What stands before the closing quote; `\"` and `\\` are the two escapes of a name.
fn string(rest: &mut &str) -> Result<String, String> {
    let mut text = String::new();
    let mut letters = rest.char_indices();
    while let Some((at, letter)) = letters.next() {
        match letter {
            '"' => {
                *rest = &rest[at + 1..];
                return Ok(text);
            }
            '\\' => match letters.next() {
                Some((_, escaped @ ('"' | '\\'))) => text.push(escaped),
                _ => return Err("an escape that is neither \\\" nor \\\\".to_string()),
            },
            _ => text.push(letter),
        }
    }
    Err("a string without its closing quote".to_string())
}

fn number(rest: &mut &str) -> Result<u64, String> {
    let size = rest.bytes().take_while(u8::is_ascii_digit).count();
    let (digits, after) = rest.split_at(size);
    *rest = after;
    digits
        .parse()
        .map_err(|_| format!("no number before {:?}", after.chars().take(20).collect::<String>()))
}

fn bytes(digits: &str) -> Result<Vec<u8>, String> {
    let wrong = || "bytes that are not pairs of hexadecimal digits".to_string();
    if !digits.len().is_multiple_of(2) || !digits.bytes().all(|digit| digit.is_ascii_hexdigit()) {
        return Err(wrong());
    }
    (0..digits.len())
        .step_by(2)
        .map(|at| u8::from_str_radix(&digits[at..at + 2], 16).map_err(|_| wrong()))
        .collect()
}

#[cfg(test)]
mod tests {
    use super::*;

    const LINE: &str = r#"{"ship":"a\"b\\c","time":"2026-11-15T00:00:00.007Z","opening":1,"number":17,"length":2,"bytes":"4869"}"#;

    #[test]
    fn a_line_as_reports_writes_it() {
        let list = reports(LINE, "a\"b\\c").unwrap();
        assert_eq!(list, [Report { number: 17, bytes: b"Hi".to_vec() }]);
        assert_eq!(reports(&LINE.replace(",\"opening\":1", ""), "a\"b\\c").unwrap(), list);
        assert_eq!(reports(LINE, "another").unwrap(), []);
    }

    #[test]
    fn what_is_wrong_is_said_with_its_line() {
        let text = format!("{LINE}\n{}\n", LINE.replace("\"length\":2", "\"length\":3"));
        assert_eq!(reports(&text, "x").unwrap_err(), "line 2: length 3, but 2 bytes");
        for digits in ["+1", "4869 ", "486", "zz69"] {
            assert!(reports(&LINE.replace("4869", digits), "x").is_err(), "{digits}");
        }
        let text = LINE.replace("17", "65536");
        assert_eq!(reports(&text, "x").unwrap_err(), "line 1: number 65536 is over 65,535");
    }
}
