//! Every exported call with each lent slice at lengths 0 and 1, at its limit and one past it, and with numbers out of range.
//! Each refusal must leave every lent byte as it was.

use gateway::raw::{self, Result as Raw};
use gateway::State;
use peer::keys::Kind;
use peer::macs;
use peer::wire::Content;

use crate::open::{Lent, Link, RANDOM};

/// How many cases were tried, and the first that was wrong.
#[derive(Default)]
struct Cases {
    tried: u64,
    wrong: Option<String>,
}

pub fn run() -> Result<String, String> {
    let mut cases = Cases::default();
    cases.fresh();
    cases.widths();
    cases.mac();
    for kind in [Kind::Sha80, Kind::Sha] {
        let link = Link::in_state(State::Open, kind);
        cases.receive(&link);
        cases.framing(&link);
        cases.send_data(&link, kind.code_size());
        for protected in [0, 1] {
            let state = if protected == 0 { State::Replied } else { State::Open };
            let code = if protected == 0 { 0 } else { kind.code_size() };
            cases.send_alert(&Link::in_state(state, kind), protected, code);
        }
        cases.states(kind);
    }
    match cases.wrong {
        Some(wrong) => Err(format!("trials: {wrong}")),
        None => Ok(format!("trials: {} calls at the limits", cases.tried)),
    }
}

impl Cases {
    fn expect(&mut self, what: &str, right: bool, given: Raw) {
        self.tried += 1;
        if !right && self.wrong.is_none() {
            self.wrong = Some(format!("{what}: {given:?}"));
        }
    }

    /// Against the second implementation's list.
    fn mac(&mut self) {
        for edition in (0..=5).chain([254, 255, 256, 257, 258, u32::MAX]) {
            for number in (0..=257).chain([258, 260, u32::MAX]) {
                for room in [0, 1, 9, 10, 11, 40] {
                    let mut out = vec![0x5a; room];
                    let given = raw::mac(edition, number, &mut out);
                    let (refusal, name, count) = mac_expected(edition, number, room);
                    let mut left = name.as_bytes().to_vec();
                    left.resize(room.max(name.len()), 0x5a);
                    let right = (given.refusal, given.written, given.count)
                        == (refusal, name.len(), count)
                        && out == left;
                    self.expect(&format!("mac {edition} {number} with room {room}"), right, given);
                }
            }
        }
    }

    fn fresh(&mut self) {
        for id in [0, 1, 7, 8, 9, 20] {
            for secret in [0, 1, 8, 19, 20, 21] {
                for room in [0, 1, 939, 940, 941] {
                    let mut state = vec![0x5a; room];
                    let given = raw::fresh(&vec![1; id], &vec![2; secret], 45, &mut state);
                    let taken = (id, secret, room) == (8, 20, 940);
                    let right = match taken {
                        true => given.refusal == 0 && raw::state(&state).count == 0,
                        false => given.refusal == 16 && state == vec![0x5a; room],
                    };
                    let what = format!("fresh with {id}, {secret} and {room} bytes");
                    self.expect(&what, right && (given.written, given.count) == (0, 0), given);
                }
            }
        }
    }

    /// Every width up to 300, and far ones: 32 to 64 are taken, kept and reported.
    fn widths(&mut self) {
        for width in (0..300).chain([65568, 1 << 31, u32::MAX]) {
            let mut state = vec![0x5a; gateway::STATE_SIZE];
            let given = raw::fresh(&[1; 8], &[2; 20], width, &mut state);
            let told = (raw::width(&state).count, raw::arrived(&state).count);
            let right = match (32..=64).contains(&width) {
                true => given.refusal == 0 && told == (width as usize, 0),
                false => given.refusal == 16 && state == vec![0x5a; gateway::STATE_SIZE],
            };
            self.expect(&format!("fresh with width {width}"), right, given);
        }
        for room in [0, 939, 940, 941] {
            let state = vec![0x5a; room];
            for given in [raw::width(&state), raw::arrived(&state)] {
                let right = (given.refusal, given.written, given.count) == (16, 0, 0);
                self.expect(&format!("width and arrival of {room} bytes"), right, given);
            }
        }
    }

    /// A sound datagram, with everything else that is lent at its limits: 16, then 6.
    fn receive(&mut self, link: &Link) {
        let report = link.record(Content::Data, 19, b"report");
        for state in [0, 1, 939, 940, 941] {
            for tally in [0, 1, 15, 16, 17] {
                for answers in [0, 1, 24, 191, 192, 193] {
                    for random in [0, 1, 15, 16, 17] {
                        for room in [0, 1, 127, 128, 129] {
                            let mut lent = Lent::new(link.connection.save());
                            lent.state.resize(state, 0);
                            lent.tally.resize(tally, 1);
                            lent.answers.resize(answers, 0x5a);
                            lent.out.resize(room, 0xa5);
                            let before = lent.clone();
                            let given = lent.receive(&report, &vec![0x80; random]);
                            let sizes = (state, tally, answers, random) == (940, 16, 192, 16);
                            let right = match (sizes, room < 128) {
                                (false, _) => given.refusal == 16 && lent == before,
                                (true, true) => given.refusal == 6 && lent == before,
                                (true, false) => {
                                    (given.refusal, given.count) == (0, 1)
                                        && lent.answers[0] == 6
                                        && lent.out == before.out
                                }
                            };
                            let what = format!(
                                "receive with {state}, {tally}, {random}, {room}, {answers} bytes"
                            );
                            self.expect(&what, right, given);
                        }
                    }
                }
            }
        }
    }

    /// Datagrams of 0, 1, 1,400 and 1,401 bytes, and of eight and nine records: 1 to 5, and their offsets.
    fn framing(&mut self, link: &Link) {
        let long = |size: usize| {
            let mut datagram = vec![0x44, 0, 0];
            datagram.resize(size, 7);
            datagram
        };
        let record = [0xc4, 0, 0, 0, 1, 7];
        let cases: [(&str, Vec<u8>, (u32, usize)); 12] = [
            ("no bytes", vec![], (1, 0)),
            ("1,401 bytes", long(1401), (1, 0)),
            ("1,400 bytes", long(1400), (0, 1)),
            ("one byte", vec![0x44], (2, 0)),
            ("one byte of no type", vec![0], (3, 0)),
            ("a header alone", vec![0x44, 0, 0], (4, 0)),
            ("four bytes", long(4), (0, 1)),
            ("a length past the end", vec![0xc4, 0, 0, 0, 2, 7], (4, 0)),
            ("a length of 0", vec![0xc4, 0, 0, 0, 0, 7], (4, 0)),
            ("a cut second header", [&record[..], &[0xc4, 0]].concat(), (2, 6)),
            ("eight records", record.repeat(8), (0, 8)),
            ("nine records", record.repeat(9), (5, 48)),
        ];
        for (what, datagram, expected) in cases {
            let mut lent = Lent::new(link.connection.save());
            let before = lent.clone();
            let given = lent.receive(&datagram, &RANDOM);
            let touched = lent != before;
            let right = (given.refusal, given.count) == expected && touched == (given.refusal == 0);
            self.expect(&format!("receive of {what}"), right, given);
        }
    }

    fn send_data(&mut self, link: &Link, code: usize) {
        for size in [0, 1, 2, 1299, 1300, 1301, 1400, 70_000] {
            let needed = 3 + size + code;
            for room in [0, 1, needed - 1, needed, needed + 1] {
                let (mut state, mut out) = (link.connection.save().to_vec(), vec![0xa5; room]);
                let given = raw::send_data(&mut state, &vec![9; size], &mut out);
                let refusal = match size {
                    0 | 1301.. => 16,
                    _ if room < needed => 6,
                    _ => 0,
                };
                let right = self.sent(link, given, refusal, needed, &state, &out);
                self.expect(&format!("send of {size} bytes with room {room}"), right, given);
            }
        }
    }

    fn send_alert(&mut self, link: &Link, protected: u32, code: usize) {
        let needed = 9 + code;
        let most = u32::MAX;
        for sense in [protected, 2, 256, 257, most] {
            for level in [0, 1, 3, 4, 255, 256, 257, most] {
                for description in [0, 2, 40, 41, 100, 101, 255, 256, 296, most] {
                    for answered in [0, 1, 1400, 1401] {
                        for room in [0, 1, needed - 1, needed, needed + 1] {
                            let mut state = link.connection.save().to_vec();
                            let mut out = vec![0xa5; room];
                            let record = vec![9; answered];
                            let given = raw::send_alert(
                                &mut state,
                                sense,
                                level,
                                description,
                                &record,
                                &mut out,
                            );
                            let known = sense < 2
                                && (1..=3).contains(&level)
                                && [0, 40, 100].contains(&description)
                                && answered <= 1400;
                            let refusal = match known {
                                false => 16,
                                true if room < needed => 6,
                                true => 0,
                            };
                            let right = self.sent(link, given, refusal, needed, &state, &out);
                            let what = format!(
                                "alert {sense} {level} {description} for {answered} bytes, room {room}"
                            );
                            self.expect(&what, right, given);
                        }
                    }
                }
            }
        }
    }

    /// Whether a send did what it must: refused, and nothing touched; or so many bytes, and the state changed.
    fn sent(
        &self,
        link: &Link,
        given: Raw,
        refusal: u32,
        needed: usize,
        state: &[u8],
        out: &[u8],
    ) -> bool {
        let blank = |part: &[u8]| part.iter().all(|byte| *byte == 0xa5);
        match refusal {
            0 => {
                given == (Raw { refusal: 0, written: needed, count: 0 })
                    && blank(&out[needed..])
                    && state != link.connection.save()
            }
            _ => {
                given == (Raw { refusal, written: 0, count: 0 })
                    && blank(out)
                    && state == link.connection.save()
            }
        }
    }

    /// Close, start again and the state itself, in each state.
    fn states(&mut self, kind: Kind) {
        use State::*;
        for (number, state) in [Idle, Replied, Spec, Open, Closed, Barred].into_iter().enumerate() {
            let link = Link::in_state(state, kind);
            let saved = link.connection.save().to_vec();
            let told = raw::state(&saved);
            self.expect("state", (told.refusal, told.count) == (0, number), told);
            let (mut closed, mut started) = (saved.clone(), saved.clone());
            let close = raw::close(&mut closed);
            let after = raw::state(&closed).count;
            let right = match state {
                Barred => close.refusal == 7 && closed == saved,
                _ => close.refusal == 0 && after == 4,
            };
            self.expect(&format!("close in {state:?}"), right, close);
            let start = raw::start(&mut started);
            let after = raw::state(&started).count;
            let right = match state {
                Closed => start.refusal == 0 && after == 0,
                Barred => start.refusal == 7 && started == saved,
                _ => start.refusal == 8 && started == saved,
            };
            self.expect(&format!("start again in {state:?}"), right, start);
        }
    }
}

/// The refusal, the name and the sizes as the header has them in one count.
fn mac_expected(edition: u32, number: u32, room: usize) -> (u32, &'static str, usize) {
    let (Ok(edition), Ok(number)) = (u8::try_from(edition), u8::try_from(number)) else {
        return (16, "", 0);
    };
    match macs::kind(edition, number) {
        Err(macs::UnknownEdition) => (16, "", 0),
        Ok(_) if room < 10 => (6, "", 0),
        Ok(None) => (0, "", 0),
        Ok(Some(kind)) => (
            0,
            kind.name,
            kind.sizes.map_or(0, |(key, code)| 0x8000 + usize::from(key) * 256 + usize::from(code)),
        ),
    }
}
