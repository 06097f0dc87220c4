//! Each answer that a call can give, what it writes, and what it leaves as it was.

use std::thread;

use virdzeba::{ABSENT, Answer, Cause, Picture, RECORD, RESULT, Refusal, Room, STACK, entry, length, on_thread, sink, sink_into};

fn record(kind: u32, slots: &[u32], payload: &[u32]) -> [u32; RECORD] {
    let mut words = [0; RECORD];
    words[0] = kind;
    words[2..7].fill(ABSENT);
    words[2..2 + slots.len()].copy_from_slice(slots);
    words[9..9 + payload.len()].copy_from_slice(payload);
    words
}

/// That of examples/listing.txt: ten instructions, of which eight move into block 1, with three new registers.
fn listing() -> Picture {
    let mut records = vec![record(0, &[1], &[8]), record(6, &[2, 1], &[]), record(26, &[3, 1, 1], &[])];
    records.extend((4..=8).map(|r| record(26, &[r, 1, r - 1], &[])));
    records.extend([record(39, &[2, 1, 1], &[]), record(53, &[0], &[1, 2])]);
    records.extend([record(96, &[2, 1], &[]), record(55, &[], &[]), record(55, &[], &[])]);
    Picture {
        bounds: vec![0, 10, 10, 12, 12, 13],
        locs: (0..13).collect(),
        records: records.concat(),
        types: vec![0, 0, 1, 0, 0, 0, 0, 0, 0],
        ..Picture::default()
    }
}

fn refused(picture: &Picture) -> Result<(Answer, Vec<u8>), Refusal> {
    sink(&picture.to_bytes(), Room::MOST)
}

#[test]
fn accepted() {
    let (answer, after) = sink(&listing().to_bytes(), Room::MOST).expect("a picture");
    assert_eq!(answer, Answer::Done { rounds: 1 });
    let after = Picture::from_bytes(&after).expect("as long as its counts say");
    assert_eq!(after.bounds, [0, 2, 2, 12, 12, 13]);
    assert_eq!(after.locs, [0, 9, 1, 2, 3, 4, 5, 6, 7, 8, 10, 11, 12]);
    assert_eq!(after.types.len(), 12);
    // What is sunk has no move left.
    let again = sink(&after.to_bytes(), Room::MOST).expect("a picture");
    assert_eq!(again, (Answer::Done { rounds: 0 }, after.to_bytes()));
}

#[test]
fn short() {
    let before = listing().to_bytes();
    let room = Room { registers: 11, operands: 0 };
    assert_eq!(sink(&before, room), Ok((Answer::Short { rounds: 0 }, before.clone())));
    assert_eq!(sink(&before, Room { registers: 12, ..room }).map(|done| done.0), Ok(Answer::Done { rounds: 1 }));
}

#[test]
fn refused_by_its_cause() {
    type Change = fn(&mut Picture);
    let changes: [(Cause, Change); 8] = [
        (Cause::Uneven, |p| p.vias = vec![0]),
        (Cause::Blocks, |p| p.bounds[1] = 9),
        (Cause::Kind, |p| p.records[0] = 101),
        (Cause::Slot, |p| p.records[2] = 9),
        (Cause::List, |p| p.records[8] = 1),
        (Cause::Branch, |p| p.records[9 * RECORD + 9] = 3),
        (Cause::Cat, |p| (p.records[8 * RECORD + 8], p.operands) = (34, vec![0; 34])),
        (Cause::Type, |p| p.types[0] = 8),
    ];
    for (cause, change) in changes {
        let mut picture = listing();
        change(&mut picture);
        assert_eq!(refused(&picture), Err(Refusal::Refused(cause)));
    }
    let few = Room { registers: 8, operands: 0 };
    assert_eq!(sink(&listing().to_bytes(), few), Err(Refusal::Refused(Cause::Room)));
}

#[test]
fn unread() {
    let before = listing().to_bytes();
    let unread = |bytes: &[u8], room: Room| assert_eq!(sink(bytes, room), Err(Refusal::Unread));
    unread(&[], Room::MOST);
    unread(&before[4..], Room::MOST);
    unread(&[&before[..], &[0; 4]].concat(), Room::MOST);
    unread(&before, Room { registers: 513, ..Room::MOST });
    unread(&before, Room { operands: 2049, ..Room::MOST });
    let large = Picture { bounds: vec![0; 130], ..Picture::default() };
    unread(&large.to_bytes(), Room::MOST);
}

#[test]
fn a_lent_buffer_keeps_what_is_not_written() {
    let before = listing().to_bytes();
    let wanted = sink(&before, Room::MOST).expect("a picture");
    let mut result = vec![0xA5; RESULT + 7];
    let (answer, after) = sink_into(&before, &mut result, Room::MOST).expect("a picture");
    assert_eq!((answer, after.to_vec()), wanted);
    assert!(result[wanted.1.len()..].iter().all(|&byte| byte == 0xA5));

    result.fill(0xA5);
    let few = Room { registers: 8, operands: 0 };
    assert_eq!(sink_into(&before, &mut result, few), Err(Refusal::Refused(Cause::Room)));
    assert_eq!(sink_into(&before[1..], &mut result, Room::MOST), Err(Refusal::Unread));
    assert_eq!(sink_into(&before, &mut result[..RESULT - 1], Room::MOST), Err(Refusal::Unread));
    assert!(result.iter().all(|&byte| byte == 0xA5));
}

#[test]
fn the_entry_gives_its_number() {
    let before = listing().to_bytes();
    let mut result = vec![0; RESULT];
    let numbers = [(512, 2048), (11, 0), (8, 0), (513, 0)].map(|(k, u)| entry(&before, &mut result, k, u));
    assert_eq!(numbers, [1, 100, 201, 300]);
}

#[test]
fn causes_have_numbers_and_words() {
    for (k, cause) in (1..).zip(Cause::ALL) {
        assert_eq!((cause.number(), Cause::of_number(k)), (k, Some(cause)));
        let shown = Refusal::Refused(cause).to_string();
        assert_eq!(shown, format!("refused: {} (cause {k})", cause.words()));
    }
    assert_eq!([Cause::of_number(0), Cause::of_number(10)], [None, None]);
    // The same words as `make run` has.
    let lines: Vec<_> = Cause::ALL.iter().map(|cause| format!("{} {}\n", cause.number(), cause.words())).collect();
    assert_eq!(lines.concat(), include_str!("../../../tools/causes.txt"));
}

#[test]
fn bytes_and_lists() {
    let picture = Picture { vias: vec![7; 13], operands: vec![1, 2], pairs: vec![0, 1], targets: vec![2], replay: vec![1], ..listing() };
    let bytes = picture.to_bytes();
    assert_eq!(length(&bytes[..32]), Some(bytes.len()));
    assert_eq!(Picture::from_bytes(&bytes), Some(picture));
    assert_eq!(Picture::from_bytes(&bytes[..bytes.len() - 4]), None);
    assert_eq!((length(&bytes[..31]), length(&[0xFF; 32])), (None, Some(4 * (8 + 25 * 0xFFFF_FFFF))));
}

#[test]
fn threads_with_enough_stack() {
    let before = listing().to_bytes();
    let called = on_thread(|| sink(&before, Room::MOST)).expect("a thread");
    assert_eq!(called, sink(&before, Room::MOST));
    let bare = move || sink(&before, Room::MOST);
    let thread = thread::Builder::new().stack_size(STACK).spawn(bare).expect("a thread");
    assert_eq!(thread.join().expect("the stack is enough"), called);
}
