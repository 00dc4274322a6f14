//! The wrapper beside the C header: the same sizes, and the same refusals by name, number and meaning.

use gateway::Refusal;

const HEADER: &str = include_str!("../../../include/gateway.h");

/// The size of a name in the header.
fn size(name: &str) -> usize {
    let start = format!("#define GATEWAY_{name} ");
    let line = HEADER.lines().find(|line| line.starts_with(&start)).expect(name);
    line[start.len()..].split(' ').next().unwrap().parse().expect(name)
}

/// The names of the header's refusals, each with the number and the comment beside it.
fn refusals() -> Vec<(String, u32, String)> {
    let lines = HEADER.lines().skip_while(|line| !line.starts_with("enum gateway_refusal {"));
    let lines = lines.skip(1).take_while(|line| !line.starts_with('}'));
    let read = |line: &str| {
        let (name, rest) = line.trim().split_once(" = ").expect("a name and a number");
        let number = rest.split(|c: char| !c.is_ascii_digit()).next().unwrap().parse().unwrap();
        let comment = rest.split_once("/* ").map_or("", |(_, comment)| comment);
        (name.to_string(), number, comment.trim_end_matches(" */").to_string())
    };
    lines.map(read).collect()
}

#[test]
fn sizes() {
    assert_eq!(size("STATE_SIZE"), gateway::STATE_SIZE);
    assert_eq!(size("TALLY_SIZE"), gateway::TALLY_SIZE);
    assert_eq!(size("ANSWERS_SIZE"), gateway::ANSWERS_SIZE);
    assert_eq!(size("ANSWER_SIZE"), gateway::ANSWER_SIZE);
    assert_eq!(size("ID_SIZE"), gateway::ID_SIZE);
    assert_eq!(size("SECRET_SIZE"), gateway::SECRET_SIZE);
    assert_eq!(size("RANDOM_SIZE"), gateway::RANDOM_SIZE);
    assert_eq!(size("REPLY_ROOM"), gateway::REPLY_ROOM);
    assert_eq!(size("DATAGRAM_MOST"), gateway::DATAGRAM_MOST);
    assert_eq!(size("DATA_MOST"), gateway::DATA_MOST);
    assert_eq!(size("SEND_ROOM"), gateway::SEND_ROOM);
    assert_eq!(size("NAME_ROOM"), gateway::NAME_ROOM);
    assert_eq!(size("GATHERER_SIZE"), gateway::GATHERER_SIZE);
    assert_eq!(size("ASSEMBLY_ROOM"), gateway::ASSEMBLY_ROOM);
    assert_eq!(size("SAID_SIZE"), gateway::SAID_SIZE);
    assert_eq!(size("REFERENCES_MOST"), gateway::REFERENCES_MOST);
}

/// `NotAllowed` is GATEWAY_NOT_ALLOWED, and prints as `refused 8: ` and the words of the header; so all twenty-one. 18 is reserved.
#[test]
fn refusals_by_name_number_and_meaning() {
    let refusals = refusals();
    assert_eq!(refusals[0], ("GATEWAY_DONE".to_string(), 0, String::new()));
    assert_eq!(refusals.len(), 22);
    for ((name, number, comment), place) in refusals.iter().skip(1).zip((1..=17).chain(19..=22)) {
        let refusal = Refusal::numbered(*number).expect(name);
        assert_eq!((usize::from(refusal.number()), *number as usize), (place, place));
        let mut shouted = "GATEWAY".to_string();
        for letter in format!("{refusal:?}").chars() {
            shouted += if letter.is_uppercase() { "_" } else { "" };
            shouted.push(letter.to_ascii_uppercase());
        }
        assert_eq!(shouted, *name);
        assert_eq!(refusal.to_string(), format!("refused {number}: {}", refusal.meaning()));
        assert_eq!(refusal.meaning(), comment);
    }
    assert_eq!(Refusal::numbered(0), None);
    assert_eq!((Refusal::numbered(18), Refusal::numbered(23)), (None, None));
}
