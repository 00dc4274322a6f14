//! Lines for the day console: lists that are written, and files that are read, sound and damaged.

use crate::dayfile::{self, Report};
use crate::hex;
use crate::rng::Rng;

/// The bytes that one line may carry beside its words.
const PIECE: usize = 4000;

/// The lines of one list or one damaged file.
pub fn lines(rng: &mut Rng) -> String {
    if rng.percent(50) {
        written(rng)
    } else {
        let file = damaged(rng);
        read(rng, &file)
    }
}

/// A list, written with room that is enough, just enough, or just not.
fn written(rng: &mut Rng) -> String {
    let list = list(rng);
    let mut text = "clear\n".to_string();
    for report in &list {
        text += &format!("report {} {}\n", report.number, string(&report.bytes));
    }
    let size: usize = list.iter().map(|report| report.bytes.len() + 7).sum::<usize>() + 3;
    let room = match rng.under(4) {
        0 => size,
        1 => size.saturating_sub(1),
        2 => rng.under(size + 2),
        _ => 70_000,
    };
    text + &format!("write {}\n", room.min(70_000))
}

fn read(rng: &mut Rng, file: &[u8]) -> String {
    let mut text = if rng.percent(98) { "clear\n".to_string() } else { String::new() };
    if file.is_empty() {
        text += "file -\n";
    }
    for piece in file.chunks(PIECE) {
        text += &format!("file {}\n", hex::write(piece));
    }
    text += "read\n";
    let room = match rng.under(4) {
        0 => file.len(),
        1 => rng.under(file.len() + 8),
        _ => 70_000,
    };
    text + &format!("mend {}\n", room.min(70_000))
}

/// The file of a list, as it is or spoiled in one way.
pub fn damaged(rng: &mut Rng) -> Vec<u8> {
    let list = list(rng);
    let mut file = dayfile::file(&list);
    let size = file.len();
    match rng.under(9) {
        0 => {}
        1 => file.truncate(rng.under(size + 1)),
        2 => {
            let at = rng.under(size);
            file[at] ^= 1 << rng.under(8);
        }
        3 => {
            // in the trailer
            let at = size - 1 - rng.under((2 * list.len() + 3).min(size));
            file[at] = file[at].wrapping_add(1);
        }
        4 => {
            let more = rng.between(1, 4);
            let more = rng.bytes(more);
            file.extend(more);
        }
        5 => {
            // a length of a report
            if size > 8 {
                file[4] = file[4].wrapping_sub(1);
            }
        }
        6 => {
            // another count
            let last = size - 1;
            file[last] = file[last].wrapping_sub(1);
        }
        7 => {
            let at = rng.under(size);
            file.remove(at);
        }
        _ => {
            let size = rng.under(40);
            file = rng.bytes(size);
        }
    }
    file
}

/// Mostly short lists; now and then one at a limit.
pub fn list(rng: &mut Rng) -> Vec<Report> {
    if rng.under(2000) == 0 {
        return at_a_limit(rng);
    }
    let count = if rng.percent(90) { rng.under(6) } else { rng.under(40) };
    (0..count).map(|_| report(rng)).collect()
}

fn report(rng: &mut Rng) -> Report {
    let size = match rng.under(40) {
        0 => 0,
        1 => 1,
        2 => 1400,
        3 => 1401,
        4 => rng.between(1, 1500),
        _ => rng.between(1, 24),
    };
    let number = if rng.percent(30) { rng.under(4) } else { rng.under(65_536) };
    Report { number: number as u16, bytes: rng.bytes(size) }
}

/// 4,096 reports or 65,536 bytes, or one more of either.
fn at_a_limit(rng: &mut Rng) -> Vec<Report> {
    let report = |size| Report { number: 7, bytes: vec![0xd1; size] };
    match rng.under(4) {
        0 => vec![report(8); 4096],
        1 => vec![report(1); 4097],
        2 => limit_of_bytes(0),
        _ => limit_of_bytes(1),
    }
}

/// 46 reports of 1,400 bytes, and one that makes the file 65,536 bytes long, or as many more.
fn limit_of_bytes(over: usize) -> Vec<Report> {
    let mut list = vec![Report { number: 1, bytes: vec![0xd2; 1400] }; 46];
    let left = dayfile::MOST_BYTES - 46 * 1407 - 3 - 7;
    list.push(Report { number: 2, bytes: vec![0; left + over] });
    list
}

fn string(bytes: &[u8]) -> String {
    if bytes.is_empty() {
        "-".to_string()
    } else {
        hex::write(bytes)
    }
}

/// Every cut of the file of a random list, mended.
pub fn cuts(rng: &mut Rng) -> String {
    let count = rng.between(1, 8);
    let list: Vec<Report> = (0..count)
        .map(|_| {
            let size = rng.between(1, 30);
            Report { number: rng.draw() as u16, bytes: rng.bytes(size) }
        })
        .collect();
    let file = dayfile::file(&list);
    (0..=file.len())
        .map(|cut| format!("clear\nfile {}\nmend 70000\n", string(&file[..cut])))
        .collect()
}
