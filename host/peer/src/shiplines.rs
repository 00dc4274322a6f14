//! Lines that the ship's console cannot read, or only just can.

use crate::lines;
use crate::rng::Rng;

/// A line for the ship's console, wrong in one way or nearly so; `good` is a line that it can read.
pub fn odd(rng: &mut Rng, good: &[u8]) -> Vec<u8> {
    match rng.under(4) {
        0 => rng.pick(&FIXED).as_bytes().to_vec(),
        1 => at_the_limit(rng),
        2 => with_number(rng),
        _ => lines::spoiled(rng, good),
    }
}

const RANDOM: &str = "101112131415161718191a1b1c1d1e1f";

const FIXED: [&str; 50] = [
    "",
    " ",
    "-",
    "close ",
    " close",
    "close\r",
    "CLOSE",
    "close -",
    "start start",
    "start 0",
    "fresh",
    "fresh - -",
    "fresh - - -",
    "fresh - - 32 -",
    "fresh  - - 32",
    "fresh 0A - 32",
    "fresh - - 032",
    "fresh - - 1000000000",
    "hello",
    "hello - - 0",
    "hello - - 0 100 0",
    "hello - - - 100",
    "hello - - 00 100",
    "hello - 2 0 100",
    "hello - 0203 0",
    "hello - 0G 0 100",
    "hello  - 02 0 100",
    "Hello - 02 0 100",
    "hello - 02 0 2049",
    "hello - 02 1000000000 100",
    "again",
    "again -",
    "again 0100",
    "again 100 100",
    "again 2049",
    "agains 100",
    "Again 100",
    "send 00",
    "send 00 14 14",
    "send 0x00 14",
    "receive 43",
    "receive 43 -",
    "receive 43 128 0",
    "receive 43 808182838485868788898a8b8c8d8e8f 128",
    "alert clear 1 0 -",
    "alert Clear 1 0 - 9",
    "message 00 128",
    "drop 1",
    "mac 1 2",
    "set 2 -",
];

/// Lines of about 8,192 bytes, and such that say nothing.
fn at_the_limit(rng: &mut Rng) -> Vec<u8> {
    let length = rng.pick(&[8190, 8191, 8192, 8193, 8194, 9000]);
    let (front, back) = match rng.under(5) {
        0 => ("receive ", " 128"),
        1 => ("receive ", " 2048"),
        2 => ("fresh ", " - 32"),
        3 => ("hello ", " 02 3 2048"),
        _ => ("send ", " 2048"),
    };
    let middle = "0".repeat(length - front.len() - back.len());
    [front, &middle, back].concat().into_bytes()
}

/// A number at the edge of what may be written.
fn with_number(rng: &mut Rng) -> Vec<u8> {
    let number = rng.pick(&[
        "0",
        "00",
        "01",
        "+1",
        "-1",
        "1.",
        "1e3",
        "255",
        "256",
        "511",
        "2047",
        "2048",
        "2049",
        "65536",
        "999999999",
        "1000000000",
        "4294967296",
        "4294967424",
        "18446744073709551744",
        "0128",
        "",
    ]);
    match rng.under(9) {
        0 => format!("send 00 {number}"),
        1 => format!("receive 44 {number}"),
        2 => format!("alert clear {number} 0 - 9"),
        3 => format!("alert protected 1 {number} - 30"),
        4 => format!("fresh - - {number}"),
        5 => format!("hello {RANDOM} 0203 {number} 10"),
        6 => format!("hello {RANDOM} 0302 3 {number}"),
        7 => format!("again {number}"),
        _ => format!("alert protected 2 40 - {number}"),
    }
    .into_bytes()
}
