//! What a link and a stranger can do to a datagram.

use crate::rng::Rng;
use crate::wire;

/// A damaged copy; `other` is a second datagram for splicing.
pub fn damaged(rng: &mut Rng, datagram: &[u8], other: &[u8]) -> Vec<u8> {
    let mut copy = datagram.to_vec();
    if copy.is_empty() {
        return copy;
    }
    match rng.under(10) {
        0..=2 => flip(rng, &mut copy),
        3 => (0..rng.between(2, 6)).for_each(|_| flip(rng, &mut copy)),
        4 => copy.truncate(rng.under(datagram.len())),
        5 => {
            let extra = rng.between(1, 12);
            copy.extend(rng.bytes(extra));
        }
        6 => copy.extend(other),
        7 => return spliced(rng, datagram, other),
        8 => other_number(rng, &mut copy),
        _ => other_type(rng, &mut copy),
    }
    copy
}

fn flip(rng: &mut Rng, datagram: &mut [u8]) {
    let place = rng.under(datagram.len());
    datagram[place] ^= 1 << rng.under(8);
}

fn spliced(rng: &mut Rng, front: &[u8], back: &[u8]) -> Vec<u8> {
    let taken = rng.between(0, front.len());
    let skipped = rng.between(0, back.len());
    [&front[..taken], &back[skipped..]].concat()
}

/// Another number on a record that is else untouched.
fn other_number(rng: &mut Rng, datagram: &mut [u8]) {
    if datagram.len() > 2 {
        let any = rng.draw() as u16;
        let number = rng.weigh(&[(3, 65535), (3, 0), (4, any)]);
        datagram[1..3].copy_from_slice(&number.to_be_bytes());
    }
}

/// Another type byte: one of its bits, or another content.
fn other_type(rng: &mut Rng, datagram: &mut [u8]) {
    datagram[0] = match rng.under(4) {
        0 => datagram[0] ^ wire::PROTECTED,
        1 => datagram[0] ^ wire::LENGTH,
        2 => datagram[0] / 16 * 16 + rng.under(6) as u8,
        _ => datagram[0] ^ rng.pick(&[wire::NUMBER, wire::RESERVED]),
    };
}

/// Bytes that were never a datagram; half of them begin with a sound type byte.
pub fn garbage(rng: &mut Rng) -> Vec<u8> {
    let length = match rng.under(10) {
        0 => rng.pick(&[0, 1, 2, 3, 4, 5]),
        1 => rng.pick(&[1399, 1400, 1401, 2000]),
        _ => rng.between(1, 60),
    };
    let mut bytes = rng.bytes(length);
    if length > 0 && rng.percent(60) {
        bytes[0] = rng.pick(&[0x41, 0x42, 0x43, 0x44, 0x61, 0x62, 0x63, 0x64]);
        bytes[0] |= rng.pick(&[0, wire::LENGTH]);
    }
    if length > 6 && rng.percent(40) {
        bytes[3..5].copy_from_slice(&((length - 5) as u16).to_be_bytes());
    }
    bytes
}
