//! The laws of the test bench (02, P12) over random traffic, through the exported calls alone: the bench joins stretches and
//! swaps arrivals. They are proved of the definitions (crates/record/specs/Bench.antt); here they can be seen.

use gateway::{Answer, Connection, Sense, State, Tally};
use peer::keys::Kind;
use peer::rng::Rng;
use peer::wire::Content;

use crate::open::{Link, RANDOM};

/// How far below and above the highest number the bench draws numbers; the window is 32 wide.
const REACH: usize = 40;

#[derive(Default)]
struct Seen {
    joined: u64,
    /// Stretches whose first length four does not divide, and of these the sums that differ.
    uneven: u64,
    apart: u64,
    swapped: u64,
    /// Pairs of which one order accepts both and the other does not.
    one_order: u64,
}

/// So many rounds of each law.
pub fn run(rounds: u64, seed: u64) -> Result<String, String> {
    let mut rng = Rng::new(seed);
    let mut seen = Seen::default();
    for round in 1..=rounds {
        let told = |wrong| format!("trials: laws: seed {seed}, round {round}: {wrong}");
        join(&mut rng, &mut seen).map_err(told)?;
        swap(&mut rng, &mut seen).map_err(told)?;
    }
    if seen.joined == 0 || seen.apart == 0 || seen.swapped == 0 || seen.one_order == 0 {
        return Err(format!("trials: laws: seed {seed}: {rounds} rounds did not meet every case"));
    }
    Ok(format!(
        "trials: laws: {} joined stretches have the XOR of their checksums; of {} whose first length four does not divide, {} have not\n\
         trials: laws: {} pairs of numbers accepted in either order leave one window; of {} more only one order accepts both",
        seen.joined, seen.uneven, seen.apart, seen.swapped, seen.one_order
    ))
}

/// "The checksum of two stretches joined is the XOR of their checksums, provided that the first has a length divisible by four."
fn join(rng: &mut Rng, seen: &mut Seen) -> Result<(), String> {
    let (first, second) = (rng.under(200), rng.under(200));
    let (first, second) = (rng.bytes(first), rng.bytes(second));
    let whole = checksum(&[&first[..], &second[..]].concat());
    let (a, b) = (checksum(&first), checksum(&second));
    let is_xor = (0..4).all(|i| whole[i] == a[i] ^ b[i]);
    if first.len() % 4 != 0 {
        seen.uneven += 1;
        seen.apart += u64::from(!is_xor);
    } else if is_xor {
        seen.joined += 1;
    } else {
        return Err(format!(
            "{first:02x?} and {second:02x?}: joined {whole:02x?}, apart {a:02x?} and {b:02x?}"
        ));
    }
    Ok(())
}

/// The checksum of a stretch, which a clear alert that answers it carries.
fn checksum(stretch: &[u8]) -> [u8; 4] {
    let mut link = Link::in_state(State::Replied, Kind::Sha80);
    let mut out = [0; gateway::SEND_ROOM];
    let alert = link
        .connection
        .send_alert(Sense::Clear, 1, 0, stretch, &mut out)
        .expect("an alert can be sent");
    alert[alert.len() - 4..].try_into().expect("four bytes")
}

/// "Two different numbers that are both accepted in either order leave the same window."
fn swap(rng: &mut Rng, seen: &mut Seen) -> Result<(), String> {
    let mut link = Link::in_state(State::Open, Kind::Sha80);
    let mut highest = 0;
    for _ in 0..rng.under(12) {
        let number = near(rng, highest);
        let datagram = data(&link, number);
        if arrive(&mut link.connection, &datagram) {
            highest = highest.max(number);
        }
    }
    let (a, b) = (near(rng, highest), near(rng, highest));
    if a == b {
        return Ok(());
    }
    let (first, second) = (data(&link, a), data(&link, b));
    let (mut one, mut other) = (link.connection.clone(), link.connection);
    let in_order = arrive(&mut one, &first) & arrive(&mut one, &second);
    let swapped = arrive(&mut other, &second) & arrive(&mut other, &first);
    match (in_order, swapped) {
        (true, true) if window(&one) != window(&other) => {
            return Err(format!(
                "{a} then {b}: {:02x?}, swapped {:02x?}",
                window(&one),
                window(&other)
            ))
        }
        (true, true) => seen.swapped += 1,
        (true, false) | (false, true) => seen.one_order += 1,
        (false, false) => {}
    }
    Ok(())
}

/// A number near the highest, or now and then any.
fn near(rng: &mut Rng, highest: u16) -> u16 {
    if rng.percent(5) {
        return rng.draw() as u16;
    }
    let least = usize::from(highest).saturating_sub(REACH);
    rng.between(least, (usize::from(highest) + REACH).min(65535)) as u16
}

/// A data record of the unit's, as a datagram.
fn data(link: &Link, number: u16) -> Vec<u8> {
    link.record(Content::Data, number, b"transfer")
}

/// Whether the datagram's one record was handed out.
fn arrive(connection: &mut Connection, datagram: &[u8]) -> bool {
    let (mut out, mut tally) = ([0; gateway::REPLY_ROOM], Tally::default());
    let received =
        connection.receive(&mut tally, datagram, &RANDOM, &mut out).expect("it is soundly framed");
    let handed_out = matches!(received.answers().next(), Some(Answer::Data { .. }));
    handed_out
}

/// The window among the saved bytes: highest number, marks and width (crates/lent/specs/Saved.antt has the places).
fn window(connection: &Connection) -> Vec<u8> {
    let saved = connection.save();
    saved[471..482].to_vec()
}
