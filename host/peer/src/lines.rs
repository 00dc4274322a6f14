//! Lines that the console cannot read, or only just can.

use crate::rng::Rng;

/// A line for the console, wrong in one way or nearly so; `good` is a line that it can read.
pub fn odd(rng: &mut Rng, good: &[u8]) -> Vec<u8> {
    match rng.under(4) {
        0 => rng.pick(&FIXED).as_bytes().to_vec(),
        1 => at_the_limit(rng),
        2 => with_number(rng),
        _ => spoiled(rng, good),
    }
}

const FIXED: [&str; 44] = [
    "",
    " ",
    "-",
    "close ",
    " close",
    "close\r",
    "CLOSE",
    "closes",
    "clos",
    "close -",
    "start start",
    "start 0",
    "fresh",
    "fresh -",
    "fresh - -",
    "fresh - - -",
    "fresh - - 32 -",
    "fresh  - - 32",
    "fresh -- - 32",
    "fresh 0 - 32",
    "fresh 0A - 32",
    "fresh 00 0g 32",
    "fresh - - ",
    "fresh - - 032",
    "fresh - - 1000000000",
    "fresh - - 20 ",
    "fresh - -  32",
    "send 00",
    "send 00 14 14",
    "send  14",
    "send 0x00 14",
    "receive 43 -",
    "receive 43 - 128 0",
    "alert clear 1 0 -",
    "alert Clear 1 0 - 9",
    "alert both 1 0 - 9",
    "record clear 1 0 - 9",
    "message 00 -",
    "message 00 - 128 0",
    "messages 00 - 128",
    "message  - 128",
    "drop",
    "drop 1 1",
    "drop -",
];

/// Lines of about 8,192 bytes, and such that say nothing.
fn at_the_limit(rng: &mut Rng) -> Vec<u8> {
    let length = rng.pick(&[8190, 8191, 8192, 8193, 8194, 9000]);
    let (front, back) = match rng.under(4) {
        0 => ("receive ", " 808182838485868788898a8b8c8d8e8f 128"),
        1 => ("receive ", " 808182838485868788898a8b8c8d8e8f 2048"),
        2 => ("fresh ", " - 32"),
        _ => ("send ", " 2048"),
    };
    let middle = "0".repeat(length - front.len() - back.len());
    [front, &middle, back].concat().into_bytes()
}

/// A number at the edge of what may be written.
fn with_number(rng: &mut Rng) -> Vec<u8> {
    let number = rng.pick(&[
        "0",
        "00",
        "01",
        "007",
        "+1",
        "-1",
        "-0",
        "1.",
        "1e3",
        "255",
        "256",
        "2047",
        "2048",
        "2049",
        "999999999",
        "1000000000",
        "4294967296",
        "4294967424",
        "18446744073709551744",
        "0128",
        "000000128",
        "0000000128",
        "",
    ]);
    match rng.under(8) {
        0 => format!("send 00 {number}"),
        5 => format!("message 06050400010002 808182838485868788898a8b8c8d8e8f {number}"),
        6 => format!("drop {number}"),
        1 => format!("receive 44 808182838485868788898a8b8c8d8e8f {number}"),
        2 => format!("alert clear {number} 0 - 9"),
        3 => format!("alert protected 1 {number} - 30"),
        4 => format!("fresh - - {number}"),
        _ => format!("alert protected 2 40 - {number}"),
    }
    .into_bytes()
}

/// A good line with one byte changed, taken out or put in.
pub(crate) fn spoiled(rng: &mut Rng, good: &[u8]) -> Vec<u8> {
    let mut line = good.to_vec();
    if line.is_empty() {
        return line;
    }
    let place = rng.under(line.len());
    let byte = loop {
        let byte = match rng.percent(50) {
            true => rng.pick(b" -0aAfFgG9\r\t"),
            false => rng.byte(),
        };
        if byte != b'\n' {
            break byte;
        }
    };
    match rng.under(4) {
        0 => line[place] = byte,
        1 => line.insert(place, byte),
        2 => line.truncate(place),
        _ => {
            line.remove(place);
        }
    }
    line
}
