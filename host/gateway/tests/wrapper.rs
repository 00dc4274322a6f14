//! The wrapper: what its errors print, what it refuses to load, and that its numbers are those of the header.

use gateway::{Answer, Connection, Refusal, State, Tally};

#[test]
fn refusals_print_their_number_and_meaning() {
    for number in (1..=17).chain(19..=22) {
        let refusal = Refusal::numbered(number).expect("the list has it");
        assert_eq!(u32::from(refusal.number()), number);
        assert_eq!(refusal.to_string(), format!("refused {number}: {}", refusal.meaning()));
    }
    assert_eq!(Refusal::numbered(0), None);
    assert_eq!((Refusal::numbered(18), Refusal::numbered(23)), (None, None));
    assert_eq!(Refusal::Forged.to_string(), "refused 9: code not right");
}

#[test]
fn a_framing_fault_prints_its_offset() {
    let mut connection = Connection::fresh(&[1; 8], &[2; 20], 32).unwrap();
    let (mut tally, mut out) = (Tally::default(), [0; 128]);
    let datagram = [0xc4, 0, 0, 0, 1, 7, 0x64, 0, 1];
    let refused = connection.receive(&mut tally, &datagram, &[3; 16], &mut out).unwrap_err();
    assert_eq!(refused.to_string(), "refused 4 at 6: length past the end, or empty fragment");
    let refused = connection.receive(&mut tally, &datagram, &[3; 15], &mut out).unwrap_err();
    assert_eq!(
        refused.to_string(),
        "refused 16: argument out of range; also: the bytes lent are no saved connection"
    );
}

#[test]
fn what_is_no_saved_connection_does_not_load() {
    assert_eq!(Connection::load(&[0; gateway::STATE_SIZE]), Err(Refusal::Argument));
    assert_eq!(Connection::load(&[]), Err(Refusal::Argument));
    let mut connection = Connection::fresh(&[1; 8], &[2; 20], 32).unwrap();
    connection.close().unwrap();
    let loaded = Connection::load(connection.save()).unwrap();
    assert_eq!((loaded.state(), &loaded), (State::Closed, &connection));
    assert_eq!(format!("{loaded:?}"), "Connection(Closed)");
    assert_eq!(Connection::load(&connection.save()[..456]), Err(Refusal::Argument));
}

#[test]
fn answers_come_in_order() {
    let mut connection = Connection::fresh(&[1; 8], &[2; 20], 32).unwrap();
    let (mut tally, mut out) = (Tally::default(), [0; 128]);
    let datagram = [0xc1, 0, 0, 0, 1, 1].repeat(3);
    let received = connection.receive(&mut tally, &datagram, &[3; 16], &mut out).unwrap();
    let answers: Vec<Answer> = received.answers().collect();
    assert_eq!(answers, [Answer::Refused(Refusal::NotAllowed); 3]);
    assert_eq!(received.answers().len(), 3);
    assert_eq!((received.reports().count(), received.to_send()), (0, &b""[..]));
}

#[test]
fn the_numbers_are_those_of_the_header() {
    let header = include_str!("../../../include/gateway.h");
    let defined = |name: &str| {
        let start = format!("#define GATEWAY_{name} ");
        let line = header.lines().find_map(|line| line.strip_prefix(&start));
        let word = line.and_then(|rest| rest.split(' ').next());
        word.and_then(|word| word.parse::<usize>().ok())
    };
    for (name, size) in [
        ("STATE_SIZE", gateway::STATE_SIZE),
        ("TALLY_SIZE", gateway::TALLY_SIZE),
        ("ANSWERS_SIZE", gateway::ANSWERS_SIZE),
        ("ANSWER_SIZE", gateway::ANSWER_SIZE),
        ("ID_SIZE", gateway::ID_SIZE),
        ("SECRET_SIZE", gateway::SECRET_SIZE),
        ("RANDOM_SIZE", gateway::RANDOM_SIZE),
        ("REPLY_ROOM", gateway::REPLY_ROOM),
        ("DATAGRAM_MOST", gateway::DATAGRAM_MOST),
        ("DATA_MOST", gateway::DATA_MOST),
        ("SEND_ROOM", gateway::SEND_ROOM),
    ] {
        assert_eq!(defined(name), Some(size), "{name}");
    }
    for (number, name) in [(7, "ENDED"), (9, "FORGED"), (16, "ARGUMENT"), (17, "WRONG_FINISHED")] {
        assert!(header.contains(&format!("GATEWAY_{name} = {number}")), "{name}");
    }
}
