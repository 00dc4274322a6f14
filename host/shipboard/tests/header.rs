//! The wrapper beside the C header: the same sizes, and the same refusals by name, number and meaning.

use shipboard::Refusal;

const HEADER: &str = include_str!("../../../include/unit.h");

/// The size of a name in the header.
fn size(name: &str) -> usize {
    let start = format!("#define UNIT_{name} ");
    let line = HEADER.lines().find(|line| line.starts_with(&start)).expect(name);
    line[start.len()..].split(' ').next().unwrap().parse().expect(name)
}

/// The names of the header's refusals, each with the number and the comment beside it.
fn refusals() -> Vec<(String, u32, String)> {
    let lines = HEADER.lines().skip_while(|line| !line.starts_with("enum unit_refusal {"));
    let lines = lines.skip(1).take_while(|line| !line.starts_with('}'));
    let read = |line: &str| {
        let (name, rest) = line.trim().split_once(" = ").expect("a name and a number");
        let number = rest.split(|c: char| !c.is_ascii_digit()).next().unwrap().parse().unwrap();
        let comment = rest.split_once("/* ").map_or("", |(_, comment)| comment);
        (name.to_string(), number, comment.trim_end_matches(" */").to_string())
    };
    lines.map(read).collect()
}

#[test]
fn sizes() {
    assert_eq!(size("STATE_SIZE"), shipboard::STATE_SIZE);
    assert_eq!(size("TALLY_SIZE"), shipboard::TALLY_SIZE);
    assert_eq!(size("ANSWERS_SIZE"), shipboard::ANSWERS_SIZE);
    assert_eq!(size("ANSWER_SIZE"), shipboard::ANSWER_SIZE);
    assert_eq!(size("ID_SIZE"), shipboard::ID_SIZE);
    assert_eq!(size("SECRET_SIZE"), shipboard::SECRET_SIZE);
    assert_eq!(size("RANDOM_SIZE"), shipboard::RANDOM_SIZE);
    assert_eq!(size("FLIGHT_ROOM"), shipboard::FLIGHT_ROOM);
    assert_eq!(size("DATAGRAM_MOST"), shipboard::DATAGRAM_MOST);
    assert_eq!(size("DATA_MOST"), shipboard::DATA_MOST);
    assert_eq!(size("SEND_ROOM"), shipboard::SEND_ROOM);
    assert_eq!(size("AGAIN_ROOM"), shipboard::AGAIN_ROOM);
}

/// `NotAllowed` is UNIT_NOT_ALLOWED, and prints as `refused 8: ` and the words of the header; so all seventeen.
#[test]
fn refusals_by_name_number_and_meaning() {
    let refusals = refusals();
    assert_eq!(refusals[0], ("UNIT_DONE".to_string(), 0, String::new()));
    assert_eq!(refusals.len(), 18);
    for ((name, number, comment), place) in refusals.iter().skip(1).zip(1..=17) {
        let refusal = Refusal::numbered(*number).expect(name);
        assert_eq!((usize::from(refusal.number()), *number as usize), (place, place));
        let mut shouted = "UNIT".to_string();
        for letter in format!("{refusal:?}").chars() {
            shouted += if letter.is_uppercase() { "_" } else { "" };
            shouted.push(letter.to_ascii_uppercase());
        }
        assert_eq!(shouted, *name);
        assert_eq!(refusal.to_string(), format!("refused {number}: {}", refusal.meaning()));
        assert_eq!(refusal.meaning(), comment);
    }
    assert_eq!(Refusal::numbered(0), None);
    assert_eq!(Refusal::numbered(18), None);
}
