//! Random datagrams through a frame lister, which reads one datagram and prints its records.

use std::io::Write;
use std::process::{Command, Stdio};

use crate::damage;
use crate::hex;
use crate::rng::Rng;
use crate::wire::{self, Content};

/// Runs the program once for each datagram; gives the first difference.
pub fn run(seed: u64, count: u64, program: &[&str]) -> Result<String, String> {
    let mut rng = Rng::new(seed);
    for turn in 1..=count {
        let datagram = datagram(&mut rng);
        let expected = wire::list(&datagram);
        let got = listed(program, &datagram).map_err(|error| format!("peer: {error}\n"))?;
        if got != expected {
            return Err(format!(
                "peer: seed {seed}, datagram {turn}: difference\ninput    {}\nexpected\n{expected}got\n{got}",
                hex::write(&datagram)
            ));
        }
    }
    Ok(format!("peer: seed {seed}, {count} datagrams listed, no difference\n"))
}

fn listed(program: &[&str], datagram: &[u8]) -> std::io::Result<String> {
    let mut child = Command::new(program[0])
        .args(&program[1..])
        .stdin(Stdio::piped())
        .stdout(Stdio::piped())
        .spawn()?;
    if let Some(mut stdin) = child.stdin.take() {
        // A lister may stop reading at 1,401 bytes.
        let _ = stdin.write_all(datagram);
    }
    let output = child.wait_with_output()?;
    Ok(String::from_utf8_lossy(&output.stdout).into_owned())
}

/// Up to ten records, sound, damaged or no records at all.
fn datagram(rng: &mut Rng) -> Vec<u8> {
    let (one, other) = (sound(rng), sound(rng));
    match rng.under(5) {
        0 => damage::garbage(rng),
        1 | 2 => damage::damaged(rng, &one, &other),
        3 => {
            let once = damage::damaged(rng, &one, &other);
            damage::damaged(rng, &once, &other)
        }
        _ => one,
    }
}

fn sound(rng: &mut Rng) -> Vec<u8> {
    let contents = [Content::ChangeCipherSpec, Content::Alert, Content::Handshake, Content::Data];
    let count = rng.between(1, 10);
    let mut datagram = Vec::new();
    for place in 1..=count {
        let with_length = place < count || rng.percent(50);
        let type_byte = wire::type_byte(rng.pick(&contents), rng.percent(50), with_length);
        let length = rng.weigh(&[(8, 12), (2, 140), (1, 300)]);
        let length = rng.between(1, length);
        datagram.extend(wire::write(type_byte, rng.draw() as u16, &rng.bytes(length)));
    }
    datagram
}
