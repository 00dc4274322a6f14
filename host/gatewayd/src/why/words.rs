//! A reason in words: what was found, and what to do about it; short for the log; and its facts as JSON.

use super::reason::{Condition, Content, Key, Reason, Under, Why};
use crate::hex;
use serde_json::{json, Value};

/// One paragraph: which record, what was found, and what the one on duty does about it.
pub fn paragraph(why: &Why) -> String {
    let what = match why.reason.is_of_a_record() {
        true => format!(
            "Record {} ({}, the connection in {})",
            why.record.place, why.record.kind, why.record.state
        ),
        false => "The datagram".to_string(),
    };
    match why.reason.number() {
        0 => format!("{what} is not refused. {}", advice(&why.reason)),
        16 => format!("There is nothing to ask: {}. {}", facts(&why.reason), advice(&why.reason)),
        number => {
            format!("{what} is refused {number}: {}. {}", facts(&why.reason), advice(&why.reason))
        }
    }
}

/// The facts of a reason in words, as they stand in a line of the log.
pub fn facts(reason: &Reason) -> String {
    match reason {
        Reason::None => "nothing is refused".to_string(),
        Reason::Argument => "there is no such record in the datagram, or no such edition".to_string(),
        Reason::Size { size } => format!("it has {size} bytes, and 1 to 1,400 are allowed"),
        Reason::Header { at, left, needs } => {
            format!("{left} bytes are left at byte {at} where a header of {needs} begins")
        }
        Reason::Type { at, byte } => format!("{byte:02x} at byte {at} is no type of a record"),
        Reason::Fragment { at, left, .. } if *left == 0 => {
            format!("the record at byte {at} has nothing behind its header")
        }
        Reason::Fragment { at, stated, left } => {
            format!("the record at byte {at} says {stated} bytes, and {left} are left")
        }
        Reason::Ninth { at } => format!("a ninth record begins at byte {at}"),
        Reason::Ended => "the connection has ended".to_string(),
        Reason::NotAllowed => "such a record has no place in this state".to_string(),
        Reason::Forged { number, fragment, keys } => format!(
            "forged: number {number}, {fragment} bytes, its code is wrong under {}",
            keys.iter().map(key).collect::<Vec<_>>().join(" and under ")
        ),
        Reason::TooOld { under, number, highest, limit } => format!(
            "too old: number {number}, where {highest} has come {} and {limit} is the last too old one",
            of(*under)
        ),
        Reason::Repeated { under, number, highest, mark } => format!(
            "repeated: number {number} was taken before {}, {mark} below {highest}, the highest",
            of(*under)
        ),
        Reason::BadHello { field } => format!("the hello is malformed at its {field}"),
        Reason::BadContent { protected, size, content } => {
            let numbered = protected.map(|(under, number)| format!(", number {number} {}", of(under)));
            format!("malformed: {}{}", contents(*size, *content), numbered.unwrap_or_default())
        }
        Reason::Unacceptable { first } => format!("the hello is not acceptable: {}", condition(first)),
        Reason::Checksum { checksum, sent } => {
            let sent: Vec<String> = sent.iter().map(|one| hex::write(one)).collect();
            let sent = if sent.is_empty() { "none was sent".to_string() } else { sent.join(", ") };
            format!("its checksum {} is of no record of ours ({sent})", hex::write(checksum))
        }
        Reason::WrongFinished { under, number, found } => format!(
            "the Finished with number {number} {} has other contents than it must have: {}",
            of(*under),
            hex::write(found)
        ),
    }
}

/// What the one on duty does about it.
pub fn advice(reason: &Reason) -> &'static str {
    match reason {
        Reason::None => "If its report is not in the list, it has not arrived, or it arrived under an earlier connection.",
        Reason::Argument => "Records are counted from 0, and editions are 1 and 2.",
        Reason::Size { .. } | Reason::Header { .. } | Reason::Type { .. } | Reason::Fragment { .. } => {
            "It is damaged or cut, or no datagram of a ship's. Where a ship's own come so, look at its modem and at the relay before us."
        }
        Reason::Ninth { .. } => "A unit puts at most eight records into a datagram. Tell who sends it.",
        Reason::Ended => "A barred session never comes back: plant a new one in the unit and here.",
        Reason::NotAllowed => {
            "Mostly it comes late, or the unit takes the connection for another one than it is. The ship's hello puts both right."
        }
        Reason::Forged { .. } => {
            "It was damaged on the link, or it is of an earlier connection of this ship, or a stranger wrote it. One is nothing. Where all of a \
             ship's are, compare what is planted there and here, and let it say hello."
        }
        Reason::TooOld { .. } => {
            "Look for it in the list by its number. If it is not there, have it sent again, which gives it a new number. Where this is \
             frequent, plant the session with a wider window (width=64)."
        }
        Reason::Repeated { .. } => "Its report is in the list already, once. Nothing is to be done.",
        Reason::BadHello { .. } | Reason::BadContent { .. } => {
            "The unit, or whoever writes in its name, does not keep the rules. Where it has a right code, it is the unit: note its version."
        }
        Reason::Unacceptable { .. } => "Set the unit to what the gateway takes, or compare the planted identifier.",
        Reason::Checksum { .. } => "An alert in the clear that answers nothing of ours: a stranger's, or of an earlier handshake.",
        Reason::WrongFinished { .. } => {
            "Its code was right, so the secret is: the two ends heard different hellos. The ship says hello again. Where it comes again, \
             note the unit's version."
        }
    }
}

/// The facts by name, for programs.
pub fn json(why: &Why) -> Value {
    let mut facts = facts_by_name(&why.reason);
    facts["refusal"] = why.reason.number().into();
    if why.reason.is_of_a_record() {
        facts["state"] = why.record.state.clone().into();
        facts["kind"] = why.record.kind.clone().into();
        facts["place"] = why.record.place.into();
    }
    facts
}

fn facts_by_name(reason: &Reason) -> Value {
    match reason {
        Reason::None | Reason::Argument | Reason::Ended | Reason::NotAllowed => json!({}),
        Reason::Size { size } => json!({ "size": size }),
        Reason::Header { at, left, needs } => json!({ "at": at, "left": left, "needs": needs }),
        Reason::Type { at, byte } => json!({ "at": at, "type": byte }),
        Reason::Fragment { at, stated, left } => {
            json!({ "at": at, "length": stated, "left": left })
        }
        Reason::Ninth { at } => json!({ "at": at }),
        Reason::Forged { number, fragment, keys } => {
            let keys: Vec<Value> =
                keys.iter().map(|key| json!({ "key": key.number, "code": key.code })).collect();
            json!({ "number": number, "fragment": fragment, "keys": keys })
        }
        Reason::TooOld { under, number, highest, limit } => {
            json!({ "under": name(*under), "number": number, "highest": highest, "limit": limit })
        }
        Reason::Repeated { under, number, highest, mark } => {
            json!({ "under": name(*under), "number": number, "highest": highest, "mark": mark })
        }
        Reason::BadHello { field } => json!({ "field": field }),
        Reason::BadContent { protected, size, content } => {
            let mut facts = json!({ "content": size });
            if let Some((under, number)) = protected {
                facts["under"] = name(*under).into();
                facts["number"] = (*number).into();
            }
            match *content {
                Content::Change { value: Some(value) } => facts["value"] = value.into(),
                Content::Alert { told: Some((level, description)) } => {
                    facts["level"] = level.into();
                    facts["description"] = description.into();
                }
                Content::Handshake { told: Some((kind, length)) } => {
                    facts["type"] = kind.into();
                    facts["length"] = length.into();
                }
                _ => {}
            }
            facts
        }
        Reason::Unacceptable { first } => match first {
            Condition::Version(version) => json!({ "first": "version", "had": version }),
            Condition::Session(session) => {
                json!({ "first": "session", "had": hex::write(session) })
            }
            Condition::Pairs(pairs) => json!({ "first": "pair", "had": pairs }),
            Condition::Compression(had) => {
                json!({ "first": "compression", "had": hex::write(had) })
            }
            Condition::Numbering(had) => json!({ "first": "numbering", "had": had }),
        },
        Reason::Checksum { checksum, sent } => {
            let sent: Vec<String> = sent.iter().map(|one| hex::write(one)).collect();
            json!({ "checksum": hex::write(checksum), "sent": sent })
        }
        Reason::WrongFinished { under, number, found } => {
            json!({ "under": name(*under), "number": number, "found": hex::write(found) })
        }
    }
}

fn name(under: Under) -> &'static str {
    match under {
        Under::Open => "open",
        Under::Started => "started",
    }
}

fn of(under: Under) -> &'static str {
    match under {
        Under::Open => "on the open connection",
        Under::Started => "in the handshake under way",
    }
}

fn key(key: &Key) -> String {
    format!("key {} (codes of {} bytes)", key.number, key.code)
}

fn contents(size: usize, content: Content) -> String {
    match content {
        Content::Change { value: Some(value) } => format!("a change cipher spec of value {value}"),
        Content::Change { value: None } => format!("a change cipher spec of {size} bytes"),
        Content::Alert { told: Some((level, description)) } => {
            format!("an alert of level {level}, description {description}")
        }
        Content::Alert { told: None } => format!("an alert of {size} bytes"),
        Content::Handshake { told: Some((kind, length)) } => {
            format!("a handshake message of type {kind} that says {length} bytes, in {size}")
        }
        Content::Handshake { told: None } => format!("a handshake message of {size} bytes"),
        Content::Data => format!("data of {size} bytes"),
    }
}

fn condition(first: &Condition) -> String {
    match first {
        Condition::Version(version) => format!("it is of version {version}, and 1 is taken"),
        Condition::Session(session) => {
            format!("it names session {}, which is not this ship's", hex::write(session))
        }
        Condition::Pairs(pairs) => {
            let pairs: Vec<String> = pairs.iter().map(|(c, m)| format!("{c}/{m}")).collect();
            format!("none of its pairs of cipher and code is taken: {}", pairs.join(", "))
        }
        Condition::Compression(methods) => {
            format!("none of its compressions is taken: {}", hex::write(methods))
        }
        Condition::Numbering(mode) => format!("it wants numbering {mode}, and 2 is taken"),
    }
}

#[cfg(test)]
mod tests {
    use super::*;
    use crate::why::reason::Record;

    fn each() -> Vec<(Reason, &'static str, &'static str)> {
        use Under::{Open, Started};
        let key = |number, code| Key { number, code };
        vec![
            (Reason::None, "is not refused", r#"{"kind":"protected-data","place":2,"refusal":0,"state":"Open"}"#),
            (Reason::Argument, "no such record", r#"{"refusal":16}"#),
            (Reason::Size { size: 1401 }, "it has 1401 bytes", r#"{"refusal":1,"size":1401}"#),
            (
                Reason::Header { at: 7, left: 2, needs: 3 },
                "2 bytes are left at byte 7 where a header of 3 begins",
                r#"{"at":7,"left":2,"needs":3,"refusal":2}"#,
            ),
            (Reason::Type { at: 6, byte: 0x13 }, "13 at byte 6", r#"{"at":6,"refusal":3,"type":19}"#),
            (
                Reason::Fragment { at: 3, stated: 9, left: 4 },
                "at byte 3 says 9 bytes, and 4 are left",
                r#"{"at":3,"left":4,"length":9,"refusal":4}"#,
            ),
            (
                Reason::Fragment { at: 3, stated: 0, left: 0 },
                "nothing behind its header",
                r#"{"at":3,"left":0,"length":0,"refusal":4}"#,
            ),
            (Reason::Ninth { at: 99 }, "ninth record begins at byte 99", r#"{"at":99,"refusal":5}"#),
            (Reason::Ended, "has ended", r#"{"kind":"protected-data","place":2,"refusal":7,"state":"Open"}"#),
            (Reason::NotAllowed, "no place in this state", r#""refusal":8"#),
            (
                Reason::Forged { number: 5, fragment: 30, keys: vec![key(1, 10), key(0, 20)] },
                "number 5, 30 bytes, its code is wrong under key 1 (codes of 10 bytes) and under key 0 (codes of 20 bytes)",
                r#""keys":[{"code":10,"key":1},{"code":20,"key":0}]"#,
            ),
            (
                Reason::TooOld { under: Open, number: 17, highest: 60, limit: 28 },
                "number 17, where 60 has come on the open connection and 28 is the last too old one",
                r#""highest":60,"kind":"protected-data","limit":28,"number":17"#,
            ),
            (
                Reason::Repeated { under: Started, number: 17, highest: 20, mark: 3 },
                "number 17 was taken before in the handshake under way, 3 below 20",
                r#""mark":3,"number":17"#,
            ),
            (Reason::BadHello { field: "suites" }, "malformed at its suites", r#""field":"suites""#),
            (
                Reason::BadContent { protected: Some((Open, 4)), size: 6, content: Content::Alert { told: Some((9, 40)) } },
                "an alert of level 9, description 40, number 4 on the open connection",
                r#""content":6,"description":40"#,
            ),
            (
                Reason::BadContent { protected: None, size: 1, content: Content::Change { value: Some(2) } },
                "a change cipher spec of value 2",
                r#""value":2"#,
            ),
            (
                Reason::BadContent { protected: None, size: 3, content: Content::Handshake { told: Some((20, 12)) } },
                "type 20 that says 12 bytes, in 3",
                r#""length":12"#,
            ),
            (
                Reason::Unacceptable { first: Condition::Pairs(vec![(0, 1), (3, 2)]) },
                "cipher and code is taken: 0/1, 3/2",
                r#""first":"pair","had":[[0,1],[3,2]]"#,
            ),
            (
                Reason::Unacceptable { first: Condition::Session(vec![1, 2]) },
                "names session 0102",
                r#""first":"session","had":"0102""#,
            ),
            (
                Reason::Checksum { checksum: [0, 1, 2, 255], sent: vec![[0xc0, 1, 1, 0]] },
                "its checksum 000102ff is of no record of ours (c0010100)",
                r#""checksum":"000102ff""#,
            ),
            (
                Reason::WrongFinished { under: Open, number: 3, found: vec![7; 12] },
                "number 3 on the open connection has other contents than it must have: 070707070707070707070707",
                r#""found":"070707070707070707070707""#,
            ),
        ]
    }

    /// Each reason has all of its facts in its words and in its JSON, its number, and something to do.
    #[test]
    fn each_reason_in_words() {
        for (reason, words, facts) in each() {
            let record = Record { state: "Open".into(), kind: "protected-data".into(), place: 2 };
            let why = Why { reason, record };
            let told = paragraph(&why);
            assert!(told.contains(words), "{told}");
            let number = why.reason.number();
            assert!(
                matches!(number, 0 | 16) || told.contains(&format!(" refused {number}: ")),
                "{told}"
            );
            assert_eq!(
                told.starts_with("Record 2 (protected-data, the connection in Open)"),
                why.reason.is_of_a_record()
            );
            assert!(told.ends_with('.') && !told.contains("  ") && !told.contains('\n'), "{told}");
            assert!(!advice(&why.reason).is_empty());
            let json = json(&why).to_string();
            assert!(json.contains(facts), "{json}");
        }
    }
}
