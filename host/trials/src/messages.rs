//! The calls for short messages with each lent slice at its limits, and on the bytes of a saved gatherer damaged one at a time.
//! Each refusal but 22 must leave every lent byte as it was.

use gateway::raw::{self, Result as Raw};
use gateway::{State, ASSEMBLY_ROOM, GATHERER_SIZE, SAID_SIZE};
use peer::keys::Kind;
use peer::short::Gathering;
use peer::wire::Content;

use crate::open::{Lent, Link, RANDOM};

const REFUSED: Raw = Raw { refusal: 16, written: 0, count: 0 };

/// All that a message is lent besides its bytes and the random.
#[derive(Clone, PartialEq, Eq)]
struct Lend {
    receive: Lent,
    gatherer: Vec<u8>,
    assembly: Vec<u8>,
    said: Vec<u8>,
}

impl Lend {
    fn new(link: &Link, gatherer: &[u8]) -> Lend {
        let (assembly, said) = (vec![0xa5; ASSEMBLY_ROOM], vec![0x5a; SAID_SIZE]);
        let receive = Lent::new(link.connection.save());
        Lend { receive, gatherer: gatherer.to_vec(), assembly, said }
    }

    fn message(&mut self, message: &[u8], random: &[u8]) -> Raw {
        let Lent { state, tally, out, answers } = &mut self.receive;
        let (gatherer, assembly, said) = (&mut self.gatherer, &mut self.assembly, &mut self.said);
        raw::message(state, tally, gatherer, message, assembly, random, said, out, answers)
    }

    fn gather(&mut self, message: &[u8]) -> Raw {
        raw::gather(&mut self.gatherer, message, &mut self.assembly, &mut self.said)
    }
}

pub fn run() -> Result<String, String> {
    let link = Link::in_state(State::Open, Kind::Sha80);
    let (limits, slots) = (limits(&link)?, slots()?);
    let damaged = damaged(&link)?;
    Ok(format!(
        "trials: {limits} short messages at the limits, {slots} calls on a gatherer, {damaged} damaged gatherers"
    ))
}

fn empty() -> Vec<u8> {
    let mut gatherer = vec![0; GATHERER_SIZE];
    assert_eq!(raw::gatherer(&mut gatherer).refusal, 0);
    gatherer
}

fn part(reference: u8, total: u8, place: u8, bytes: &[u8]) -> Vec<u8> {
    [&[11, 5, 4, 0x23, 0xf2, 0xc0, 1, 0, 3, reference, total, place], bytes].concat()
}

/// A message that is a datagram by itself, with everything that is lent at its limits: 16, then 6.
fn limits(link: &Link) -> Result<u64, String> {
    let report = link.record(Content::Data, 19, b"report");
    let message = [&[6, 5, 4, 0, 1, 0, 2], &report[..]].concat();
    let mut tried = 0;
    let state = gateway::STATE_SIZE;
    let sizes = [
        [state, 0, state - 1, state + 1],
        [16, 0, 15, 17],
        [192, 0, 191, 193],
        [GATHERER_SIZE, 0, GATHERER_SIZE - 1, GATHERER_SIZE + 1],
        [SAID_SIZE, 0, SAID_SIZE - 1, SAID_SIZE + 1],
        [16, 0, 15, 17],
    ];
    for places in 0..4_usize.pow(6) {
        let place = |which: usize| places / 4_usize.pow(which as u32) % 4;
        for (room, assembly) in [(128, 1400), (127, 1400), (128, 1399), (0, 0), (129, 1401)] {
            let mut lend = Lend::new(link, &empty());
            lend.receive.state.resize(sizes[0][place(0)], 0);
            lend.receive.tally.resize(sizes[1][place(1)], 1);
            lend.receive.answers.resize(sizes[2][place(2)], 0x5a);
            lend.gatherer.resize(sizes[3][place(3)], 0);
            lend.said.resize(sizes[4][place(4)], 0x5a);
            lend.receive.out.resize(room, 0xa5);
            lend.assembly.resize(assembly, 0xa5);
            let before = lend.clone();
            let given = lend.message(&message, &RANDOM.repeat(2)[..sizes[5][place(5)]]);
            let expected = match (places, room, assembly) {
                (1.., _, _) => 16,
                (_, 128.., 1400..) => 0,
                _ => 6,
            };
            if given.refusal != expected || (expected != 0) != (lend == before) {
                return Err(format!("trials: message {places} {room} {assembly}: {given:?}"));
            }
            tried += 1;
            let mut lend = before.clone();
            let given = lend.gather(&message);
            let expected = match (place(3), place(4), assembly) {
                (0, 0, 1400..) => 0,
                (0, 0, _) => 6,
                _ => 16,
            };
            if given.refusal != expected || (expected != 0) != (lend == before) {
                return Err(format!("trials: gather {places} {assembly}: {given:?}"));
            }
            tried += 1;
        }
    }
    Ok(tried)
}

/// Each reference dropped, each slot told, against the second implementation.
fn slots() -> Result<u64, String> {
    let (mut tried, mut lend) = (0, Lend::new(&Link::new(), &empty()));
    let mut second = Gathering::default();
    for (reference, total, place) in [(0, 2, 1), (255, 11, 11), (7, 3, 2), (8, 5, 5), (7, 3, 1)] {
        let message = part(reference, total, place, &[reference; 100]);
        lend.gather(&message);
        second.message(&message);
    }
    for reference in (0..300).chain([u32::MAX]) {
        let (mut gatherer, mut rest) = (lend.gatherer.clone(), second.clone());
        let given = raw::drop(&mut gatherer, reference);
        if let Ok(reference) = u8::try_from(reference) {
            rest.drop_reference(reference);
        }
        let right = given.refusal == if reference < 256 { 0 } else { 16 };
        let untouched = rest == second && gatherer == lend.gatherer;
        if !right || held(&gatherer) != rest.waiting() || (rest == second) != untouched {
            return Err(format!("trials: drop {reference}: {given:?}"));
        }
        tried += 1;
    }
    for slot in (4..300).chain([u32::MAX]) {
        if raw::held(&lend.gatherer, slot) != REFUSED {
            return Err(format!("trials: slot {slot} is told"));
        }
        tried += 1;
    }
    for room in [0, 1, GATHERER_SIZE - 1, GATHERER_SIZE, GATHERER_SIZE + 1] {
        let mut bytes = vec![0x5a; room];
        let refused = raw::held(&bytes, 0) == REFUSED && raw::drop(&mut bytes, 0) == REFUSED;
        let made = raw::gatherer(&mut bytes);
        let right = match room == GATHERER_SIZE {
            true => {
                made.refusal == 0 && held(&bytes).is_empty() && bytes[100..] == vec![0x5a; 5600]
            }
            false => made == REFUSED && bytes == vec![0x5a; room],
        };
        if !refused || !right {
            return Err(format!("trials: {room} bytes for a gatherer: {made:?}"));
        }
        tried += 1;
    }
    Ok(tried)
}

fn held(gatherer: &[u8]) -> Vec<(u8, usize, u8)> {
    let slots = (0..4).map(|slot| raw::held(gatherer, slot));
    let mut held: Vec<(u8, usize, u8)> = slots
        .filter(|slot| slot.count >> 8 != 0)
        .map(|slot| ((slot.count & 0xff) as u8, slot.written, (slot.count >> 8) as u8))
        .collect();
    held.sort_unstable();
    held
}

/// Each byte before the store set to each value: refused with 16 by every call where it is one of the mark, and else a saved
/// gatherer, which takes any message and stays one.
fn damaged(link: &Link) -> Result<u64, String> {
    let mut lend = Lend::new(link, &empty());
    for (reference, place) in [(1, 1), (2, 2), (3, 3), (1, 3)] {
        lend.gather(&part(reference, 3, place, &[place; 90]));
    }
    let (saved, mut tried) = (lend.gatherer, 0);
    let message = part(1, 3, 2, &link.record(Content::Data, 19, b"report"));
    for place in 0..100 {
        for byte in 0..=255 {
            let mut bytes = saved.clone();
            bytes[place] = byte;
            let right = place >= 4 || byte == saved[place];
            let before = Lend::new(link, &bytes);
            let mut lend = before.clone();
            let given = lend.message(&message, &RANDOM);
            let (told, dropped) = (raw::held(&bytes, 0), raw::drop(&mut bytes, 1));
            let well = match right {
                true => given != REFUSED && told != REFUSED && dropped.refusal == 0,
                false => {
                    given == REFUSED && told == REFUSED && dropped == REFUSED && lend == before
                }
            };
            let still = (raw::held(&lend.gatherer, 3) == REFUSED) != right;
            if !well || !still || bytes[100..] != saved[100..] {
                return Err(format!("trials: byte {place} set to {byte}: {given:?}"));
            }
            tried += 1;
        }
    }
    Ok(tried)
}
