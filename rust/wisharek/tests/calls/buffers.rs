//! The answer buffer at wrong lengths, and every buffer without a byte.
use crate::support::{make, refused, told, Buffers, Call};
use sheets::layouts::claw;

fn sound() -> Buffers {
    Buffers::of(&claw(), &[(0, 1)], &[0])
}

/// The claw in all its buffers, with one thing wrong or nothing.
pub fn good_and_bad() -> Vec<(&'static str, Buffers)> {
    let lent = |change: fn(&mut Buffers)| {
        let mut lent = sound();
        change(&mut lent);
        lent
    };
    vec![
        ("sound", sound()),
        ("no sheet", lent(|lent| lent.sheet.clear())),
        ("sheet of one byte", lent(|lent| lent.sheet.truncate(1))),
        ("too many routes", lent(|lent| lent.sheet[1] = 9)),
        ("edge of one side", lent(|lent| lent.sheet[24] = 0)),
        ("pairing too short", lent(|lent| lent.pairing.truncate(15))),
        ("witness too short", lent(|lent| lent.witness.truncate(3))),
        ("parts too short", lent(|lent| lent.parts.truncate(15))),
        ("partner that is no route", lent(|lent| lent.pairing[0] = 9)),
        ("witness byte above 1", lent(|lent| lent.witness[0] = 2)),
        ("bound not met", lent(|lent| lent.witness[0] = 0)),
    ]
}

#[test]
fn answer_of_a_wrong_length_is_written_or_comes_late() {
    for call in Call::ALL {
        let right = 8 * call.numbers();
        let lengths = [0, 1, 8, right - 8, right - 1, right + 1, right + 8, 24, 32, 40, 56];
        for bytes in lengths.into_iter().filter(|&bytes| bytes != right) {
            for (what, lent) in good_and_bad() {
                let lent = lent.answering(bytes);
                let made = make(call, &lent, bytes);
                assert_eq!(made.number, 9, "{call:?}, {what}, answer of {bytes} bytes");
                assert_eq!(made.left, lent, "{call:?}, {what}, answer of {bytes} bytes");
            }
        }
    }
}

#[test]
fn stale_bytes_stay_in_the_answer() {
    // whatever the answer held before, it holds the same afterwards
    for call in Call::ALL {
        for (what, lent) in good_and_bad() {
            let answers: Vec<Vec<u8>> = [0, 1, 0x80, 0xff]
                .iter()
                .map(|&stale| {
                    let answer = vec![stale; 8 * call.numbers()];
                    make(call, &Buffers { answer, ..lent.clone() }, 0).left.answer
                })
                .collect();
            assert!(answers.windows(2).all(|two| two[0] == two[1]), "{call:?}, {what}: {answers:?}");
        }
    }
}

#[test]
fn stale_bytes_stay_in_the_parts() {
    for stale in [0, 1, 0xff] {
        let lent = Buffers { parts: vec![stale; 16], ..sound() };
        assert_eq!(told(Call::Parts, &lent).parts(), [wisharek::NONE, 1, 2, 3]);
    }
}

#[test]
fn buffer_without_a_byte_is_taken() {
    let empty = Vec::new;
    let cases = [
        (Call::Check, Buffers { sheet: empty(), ..sound() }, 1),
        (Call::Check, Buffers { pairing: empty(), ..sound() }, 8),
        (Call::Check, Buffers { witness: empty(), ..sound() }, 9),
        (Call::Surplus, Buffers { sheet: empty(), ..sound() }, 1),
        (Call::Surplus, Buffers { witness: empty(), ..sound() }, 9),
        (Call::Parts, Buffers { sheet: empty(), ..sound() }, 1),
        (Call::Parts, Buffers { witness: empty(), ..sound() }, 9),
        (Call::Parts, Buffers { parts: empty(), ..sound() }, 9),
    ];
    for (call, lent, number) in cases {
        assert_eq!(told(call, &lent).numbers(), refused(call, number, 0, 0), "{call:?}");
    }
}

#[test]
fn nothing_at_all_is_taken() {
    let nothing = Buffers { sheet: vec![], ..Buffers::new(&[], &[], &[]) };
    for call in Call::ALL {
        assert_eq!(make(call, &nothing, 0).number, 9, "{call:?}: no byte in any buffer");
        assert_eq!(told(call, &nothing).numbers(), refused(call, 1, 0, 0), "{call:?}: no byte but in the answer");
    }
}

#[test]
fn no_routes_are_refused() {
    let lent = Buffers::new(&[], &[], &[]);
    for call in Call::ALL {
        assert!(told(call, &lent).numbers().iter().all(|&number| number == 0), "{call:?}");
    }
    // and a byte more is
    assert_eq!(told(Call::Check, &Buffers { pairing: vec![0], ..lent.clone() }).number, 8);
    assert_eq!(told(Call::Parts, &Buffers { parts: vec![0], ..lent.clone() }).number, 9);
    for call in Call::ALL {
        assert_eq!(told(call, &Buffers { witness: vec![0], ..lent.clone() }).number, 9, "{call:?}");
    }
}

/// The wrapper on slices that have no memory at all.
#[test]
fn empty_slices_are_not_answered() {
    let refusal = wisharek::Refusal { number: 1, a: 0, b: 0 };
    assert_eq!(wisharek::check(&[], &[], &[]), Err(refusal));
    assert_eq!(wisharek::surplus(&[], &[]), Err(refusal));
    assert_eq!(wisharek::parts(&[], &[], &mut []), Err(refusal));
    let no_routes = [0; 8];
    assert_eq!(wisharek::check(&no_routes, &[], &[]), Ok(()));
    assert_eq!(wisharek::surplus(&no_routes, &[]), Ok(0));
    assert_eq!(wisharek::parts(&no_routes, &[], &mut []), Ok(wisharek::Parts { odd: 0, set: 0 }));
}
