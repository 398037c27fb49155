//! What the proved operations do with a list, a pairing or room for answers that is cut short, and with a code that names
//! no operation.
mod drive;

use drive::State;
use pairings::operation::{numbers, Operation, IDS, NONE};

const NO: u64 = NONE as u64;

/// Numbers that no answer has, so that those that were not written are seen.
fn room(length: usize) -> Vec<u64> {
    vec![u64::MAX; length]
}

#[test]
fn unknown_code_is_taken_for_an_operation() {
    let (mut state, mut answers) = (State::fresh(), room(8));
    assert_eq!(state.drive(&[6, 1, 3, 0, 0], &mut answers), 2);
    assert_eq!(answers, [NO, 6, 0, 0, 0, 0, 0, 0]);
    assert!(state == State::fresh());
}

#[test]
fn missing_ids_are_taken_for_zero() {
    // a pair of one id; a path that says more ids than there are; a code alone
    for (list, reply) in [(&[2, 1, 4][..], [14, 1, NO, 0]), (&[4, 9, 1, 2, 3], [13, 3, 0, 0]), (&[5], [14, 0, NO, 0])] {
        let (mut state, mut answers) = (State::fresh(), room(4));
        assert_eq!(state.drive(list, &mut answers), 1, "{list:?}");
        assert_eq!(answers, reply, "{list:?}");
    }
}

#[test]
fn answers_without_room_are_written() {
    let list = numbers(&[Operation::Pair(1, 2), Operation::Edges, Operation::Order]);
    for length in 0..14 {
        let (mut state, mut answers) = (State::fresh(), room(length));
        assert_eq!(state.drive(&list, &mut answers), 3);
        assert_eq!(answers, [0, 0, 0, 0, 0, 0, 0, 1, 1, 2, 0, 0, 0, 2][..length]);
        assert_eq!((state.number(1), state.number(2), state.count()), (2, 1, 2));
    }
    let (mut state, mut answers) = (State::fresh(), room(15));
    state.drive(&list, &mut answers);
    assert_eq!(answers[14], u64::MAX, "a number past the answers");
}

#[test]
fn short_pairing_is_taken_for_a_sound_one() {
    // without its last byte it has no count, and its operations are refused; nothing is changed
    let mut whole = State::fresh().0;
    whole.pop();
    let (mut state, mut answers) = (State(whole.clone()), room(4));
    assert_eq!(state.drive(&Operation::Pair(1, 2).numbers(), &mut answers), 1);
    assert_eq!(answers, [10, IDS.into(), NO, 0]);
    assert!(state.0 == whole);
    // bytes behind the count stay as they are
    let mut state = State([State::fresh().0, vec![7; 5]].concat());
    state.drive(&Operation::Pair(1, 2).numbers(), &mut answers);
    assert_eq!((state.number(1), &state.0[4 * 513..]), (2, &[7; 5][..]));
}
