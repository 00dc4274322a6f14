//! Random short messages, sound and damaged, through a program that reads their headers and gathers them.

use std::collections::BTreeMap;
use std::fmt::Write as _;
use std::io::{self, Write};
use std::process::{Command, Stdio};

use crate::damage;
use crate::hex;
use crate::rng::Rng;
use crate::short::{self, Answer, Gathering, Ports};

/// What the program can read at once.
const MOST_INPUT: usize = 60_000;

/// One item of the input: a message, or a reference to drop.
enum Item {
    Message(Vec<u8>),
    Drop(u8),
}

/// Runs the program on `count` messages, some thousands at a time; gives the first difference.
pub fn run(seed: u64, count: u64, program: &[&str]) -> Result<String, String> {
    let mut rng = Rng::new(seed);
    let mut seen = BTreeMap::new();
    let mut done = 0;
    while done < count {
        let (items, messages) = batch(&mut rng, count - done);
        done += messages;
        let expected = expected(&items, &mut seen);
        let got = ran(program, &input(&items)).map_err(|error| format!("peer: {error}\n"))?;
        if let Some(difference) = difference(&items, &expected, &got) {
            return Err(format!("peer: seed {seed}, parts: difference\n{difference}"));
        }
    }
    let mut report = format!("peer: seed {seed}, {count} short messages, no difference\n");
    for (kind, times) in seen {
        let _ = writeln!(report, "  {kind}: {times}");
    }
    Ok(report)
}

fn batch(rng: &mut Rng, most: u64) -> (Vec<Item>, u64) {
    let (mut items, mut messages, mut size) = (Vec::new(), 0, 0);
    let mut earlier: Vec<Vec<u8>> = Vec::new();
    while messages < most && size < MOST_INPUT - 3000 {
        if rng.percent(4) {
            items.push(Item::Drop(reference(rng)));
            size += 3;
            continue;
        }
        let message = message(rng, &earlier);
        size += 2 + message.len();
        messages += 1;
        earlier.push(message.clone());
        if earlier.len() > 12 {
            earlier.remove(0);
        }
        items.push(Item::Message(message));
    }
    (items, messages)
}

/// A message: an earlier one again, a damaged one, garbage, or a new one.
fn message(rng: &mut Rng, earlier: &[Vec<u8>]) -> Vec<u8> {
    let (one, other) = (sound(rng), sound(rng));
    match rng.under(10) {
        0 if !earlier.is_empty() => rng.pick(earlier),
        1 => damage::damaged(rng, &one, &other),
        2 => in_header(rng, one),
        3 if rng.percent(30) => {
            let length = rng.under(40);
            rng.bytes(length)
        }
        _ => one,
    }
}

/// One byte of the header changed; the message has one.
pub fn in_header(rng: &mut Rng, mut message: Vec<u8>) -> Vec<u8> {
    let place = rng.under(usize::from(message[0]) + 1);
    message[place] = match rng.under(4) {
        0 => rng.byte(),
        1 => message[place].wrapping_add(1),
        2 => message[place].wrapping_sub(1),
        _ => rng.under(14) as u8,
    };
    message
}

/// Few references, so that they meet, and all four places fill.
fn reference(rng: &mut Rng) -> u8 {
    rng.pick(&[1, 2, 3, 4, 5, 255])
}

/// The total that a reference mostly has.
fn usual_total(reference: u8) -> u8 {
    [2, 2, 3, 3, 4, 11][usize::from(reference % 6)]
}

/// The bytes that a place of a reference mostly has: of reference 4 and 5 so many that they pass 1,400 together.
fn usual_part(reference: u8, place: u8) -> Vec<u8> {
    let length = if matches!(reference, 4 | 5) { 480 } else { usize::from(place % 4) * 9 };
    vec![place ^ reference; length]
}

/// A header with elements in any order, some alike, and a part.
fn sound(rng: &mut Rng) -> Vec<u8> {
    let reference = reference(rng);
    let any = rng.under(14) as u8;
    let total = rng.weigh(&[(40, usual_total(reference)), (1, any), (1, 1)]);
    let above = usize::from(rng.percent(3));
    let place = rng.between(usize::from(total > 0), usize::from(total) + above) as u8;
    let mut elements: Vec<Vec<u8>> = Vec::new();
    for _ in 0..rng.weigh(&[(20, 1), (2, 2), (1, 0)]) {
        elements.push([vec![5, 4], rng.bytes(4)].concat());
    }
    for _ in 0..rng.weigh(&[(4, 0), (1, 2)]) {
        elements.push(vec![0, 3, rng.byte(), rng.under(14) as u8, rng.under(14) as u8]);
    }
    for _ in 0..rng.weigh(&[(8, 0), (2, 1), (1, 3)]) {
        let number = rng.pick(&[1, 4, 8, 9, 0x20, 0xff]);
        let length = rng.under(6);
        elements.push([vec![number, length as u8], rng.bytes(length)].concat());
    }
    for i in (1..elements.len()).rev() {
        let j = rng.under(i + 1);
        elements.swap(i, j);
    }
    if rng.percent(88) {
        elements.push(vec![0, 3, reference, total, place]);
    }
    let header = elements.concat();
    let length = rng.weigh(&[(8, 20), (1, 700), (1, 1500)]);
    let length = rng.under(length + 1);
    let part = if rng.percent(92) { usual_part(reference, place) } else { rng.bytes(length) };
    [vec![header.len() as u8], header, part].concat()
}

fn input(items: &[Item]) -> Vec<u8> {
    let mut input = Vec::new();
    for item in items {
        match item {
            Item::Drop(reference) => input.extend([0xff, 0xff, *reference]),
            Item::Message(message) => {
                input.extend((message.len() as u16).to_be_bytes());
                input.extend(message);
            }
        }
    }
    input
}

/// The lines of each item.
fn expected(items: &[Item], seen: &mut BTreeMap<String, u64>) -> Vec<String> {
    let mut gathering = Gathering::default();
    let mut lines = Vec::new();
    for item in items {
        match item {
            Item::Drop(reference) => {
                gathering.drop_reference(*reference);
                lines.push("dropped\n".to_string());
            }
            Item::Message(message) => {
                let answer = gathering.message(message);
                let line = answered(&answer, message);
                let words = if line.starts_with("refused") { 2 } else { 1 };
                let kind: Vec<&str> = line.split(' ').take(words).collect();
                *seen.entry(kind.join(" ")).or_insert(0) += 1;
                lines.push(format!("{}{line}", heading(message)));
            }
        }
    }
    lines
}

fn both(ports: Ports) -> String {
    format!("{} {}", ports.destination, ports.originator)
}

fn heading(message: &[u8]) -> String {
    match short::header(message) {
        None => "no\n".to_string(),
        Some(header) => match header.concatenation {
            None => format!("alone {} {} \n", both(header.ports), header.start),
            Some(c) => {
                let (ports, start) = (both(header.ports), header.start);
                format!("part {ports} {start} {} {} {} \n", c.reference, c.total, c.place)
            }
        },
    }
}

fn answered(answer: &Answer, message: &[u8]) -> String {
    match answer {
        Answer::Refused(number) => format!("refused {number} \n"),
        Answer::Waiting { ports, reference, have, total } => {
            format!("waiting {} {reference} {have} {total} \n", both(*ports))
        }
        Answer::Received { ports, start } => {
            format!("received {} {start} {}\n", both(*ports), hex::write(&message[*start..]))
        }
        Answer::Gathered { ports, datagram } => {
            format!("gathered {} {} {}\n", both(*ports), datagram.len(), hex::write(datagram))
        }
    }
}

fn ran(program: &[&str], input: &[u8]) -> io::Result<String> {
    let mut child = Command::new(program[0])
        .args(&program[1..])
        .stdin(Stdio::piped())
        .stdout(Stdio::piped())
        .spawn()?;
    let Some(mut stdin) = child.stdin.take() else { return Ok(String::new()) };
    // The program reads all of its input before it writes.
    let _ = stdin.write_all(input);
    drop(stdin);
    let output = child.wait_with_output()?;
    Ok(String::from_utf8_lossy(&output.stdout).into_owned())
}

fn difference(items: &[Item], expected: &[String], got: &str) -> Option<String> {
    let mut left = got;
    for (turn, (item, lines)) in items.iter().zip(expected).enumerate() {
        match left.strip_prefix(lines.as_str()) {
            Some(rest) => left = rest,
            None => {
                let shown = match item {
                    Item::Drop(reference) => format!("drop {reference}"),
                    Item::Message(message) => hex::write(message),
                };
                let got: Vec<&str> = left.lines().take(2).collect();
                return Some(format!(
                    "item {turn}: {shown}\nexpected\n{lines}got\n{}\n",
                    got.join("\n")
                ));
            }
        }
    }
    (!left.is_empty()).then(|| format!("more lines than items: {left}\n"))
}
