//! The wrapper at the limits, and what a refused call leaves.

use dayfile::{raw, Refusal, Report};

fn report(number: u16, size: usize) -> Report {
    Report { number, bytes: vec![0xd1; size] }
}

#[test]
fn what_was_written_is_read() {
    let list = vec![report(1, 2), report(9, 1), report(9, 1400), report(65_535, 7)];
    let file = dayfile::write(&list).unwrap();
    assert_eq!(file.len(), dayfile::size(&list));
    assert_eq!(dayfile::read(&file).unwrap(), list);
    assert_eq!(dayfile::write(&[]).unwrap(), [0xd2, 0, 0]);
    assert_eq!(dayfile::read(&[0xd2, 0, 0]).unwrap(), []);
}

#[test]
fn refusals() {
    assert_eq!(dayfile::write(&[report(1, 0)]), Err(Refusal::Argument));
    assert_eq!(dayfile::write(&[report(1, 1401)]), Err(Refusal::Argument));
    assert_eq!(dayfile::write(&vec![report(1, 1); 4097]), Err(Refusal::Limit));
    assert!(dayfile::write(&vec![report(1, 9); 4096]).is_err());
    assert!(dayfile::write(&vec![report(1, 8); 4096]).is_ok());
    assert_eq!(dayfile::read(&vec![0; 65_537]), Err(Refusal::Limit));
    assert_eq!(dayfile::read(&[]), Err(Refusal::NoFile));
}

#[test]
fn a_refused_call_leaves_the_room_as_it_was() {
    let mut out = [0x5a; 40];
    for (numbers, sizes, bytes) in [
        (&[1u16][..], &[2usize][..], &[1u8][..]),
        (&[1, 2], &[1], &[1]),
        (&[1], &[1], &[1, 2]),
        (&[1], &[usize::MAX], &[1]),
        (&[1, 2], &[usize::MAX, 2], &[1]),
        (&[1], &[39], &[7; 39]),
    ] {
        assert_ne!(raw::write(numbers, sizes, bytes, &mut out) >> 32, 0);
        assert_eq!(out, [0x5a; 40]);
    }
    assert_eq!(raw::write(&[1], &[1], &[9], &mut out), 11);
    assert_eq!(out[..11], [0xd1, 0, 1, 0, 1, 9, 0xd2, 0, 6, 0, 1]);
    assert!(out[11..].iter().all(|byte| *byte == 0x5a));
}
