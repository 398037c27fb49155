//! Every refusal of `improve` with its details, and which one is given where several are due; the answer buffer at
//! wrong lengths, and buffers without a byte. That a refusal leaves pairing and witness as they were is held with each
//! of them.
use super::held::{one_and_two, told, Known, NUMBERS};
use crate::buffers::good_and_bad;
use crate::refusals::{bad_partners, bad_sheets, Reply};
use crate::support::Buffers;
use sheets::layouts::{claw, path};
use sheets::{bytes, write};
use wisharek::{Refusal, NONE};

/// The claw with 0 and 1 paired.
fn sound() -> Buffers {
    Buffers::of(&claw(), &[(0, 1)], &[])
}

/// The reply to a call, compared with the one that is due. The budget has no part in it.
fn due(lent: &Buffers, (number, a, b): Reply) {
    for budget in [0, 1, u32::MAX] {
        let made = told(lent, budget);
        assert_eq!(made.number, number as u32);
        assert_eq!(made.numbers(), [number, a, b, 0, 0, 0, 0]);
        assert_eq!(made.left, Buffers { answer: made.left.answer.clone(), ..lent.clone() }, "bytes left");
    }
}

#[test]
fn bad_sheet_is_not_refused() {
    for (sheet, reply) in bad_sheets() {
        due(&Buffers { sheet, ..sound() }, reply);
    }
}

#[test]
fn refusal_of_the_sheet_waits_for_other_buffers() {
    for (sheet, reply) in bad_sheets() {
        due(&Buffers { sheet: sheet.clone(), pairing: vec![1; 3], witness: vec![9; 7], ..sound() }, reply);
        due(&Buffers { sheet, pairing: vec![], witness: vec![], ..sound() }, reply);
    }
}

#[test]
fn sheet_of_513_routes_is_refused_otherwise() {
    // from 8 bytes on, whatever follows them
    for sheet in [bytes(&[513, 0]), [bytes(&[513, 0]), vec![0; 9]].concat(), write(&vec![vec![]; 513])] {
        let whole = Buffers { sheet: sheet.clone(), pairing: vec![255; 4 * 513], witness: vec![0; 513], ..sound() };
        due(&whole, (2, 513, 512));
        due(&Buffers { sheet: sheet[..8].to_vec(), ..whole.clone() }, (2, 513, 512));
        due(&Buffers { sheet: sheet[..7].to_vec(), ..whole }, (1, 0, 0));
    }
}

#[test]
fn wrong_length_is_not_refused() {
    for length in [0, 1, 4, 12, 15, 17, 20, 64] {
        let mut pairing = sound().pairing;
        pairing.resize(length, 255);
        due(&Buffers { pairing, ..sound() }, (8, 0, 0));
    }
    for length in [0, 1, 3, 5, 16] {
        due(&Buffers { witness: vec![0; length], ..sound() }, (9, 0, 0));
    }
}

#[test]
fn bad_partner_is_not_refused() {
    for (what, partners, (a, b)) in bad_partners() {
        println!("{what}");
        due(&Buffers { pairing: bytes(&partners), ..sound() }, (10, a, b));
    }
}

#[test]
fn bad_partner_of_the_last_route_is_not_refused() {
    let pairs: Vec<(u32, u32)> = (0..255).map(|k| (2 * k, 2 * k + 1)).collect();
    for partner in [511u32, 512, 510, 509, 0] {
        let mut lent = Buffers::of(&path(512), &pairs, &[]);
        lent.pairing[4 * 511..].copy_from_slice(&partner.to_le_bytes());
        due(&lent, (10, 511, partner.into()));
    }
}

#[test]
fn witness_byte_above_one_is_refused() {
    // the witness is written only, so what it holds is asked by nobody
    for witness in [vec![2; 4], vec![7; 4], vec![255; 4], vec![0, 1, 2, 3]] {
        let lent = Buffers { witness, ..Buffers::of(&claw(), &[], &[]) };
        let made = told(&lent, 0);
        assert_eq!((made.number, &made.left.witness), (0, &lent.witness), "not finished, so its bytes stay");
        let made = told(&lent, 1);
        assert_eq!((made.number, &made.left.witness[..]), (0, &[1, 0, 0, 0][..]), "finished, so it is written");
    }
}

#[test]
fn refusals_come_in_another_order() {
    let mut rows = claw();
    rows[0].push(0);
    let mut lent = Buffers { sheet: write(&rows), pairing: vec![0; 15], witness: vec![2; 5], ..sound() };
    due(&lent, (7, 0, 0));
    lent.sheet = write(&claw());
    due(&lent, (8, 0, 0));
    lent.pairing = bytes(&[NONE, 1, NONE, NONE]);
    due(&lent, (9, 0, 0));
    lent.witness = vec![2; 4];
    due(&lent, (10, 1, 1));
    lent.pairing = bytes(&[1, 0, NONE, NONE]);
    assert_eq!(told(&lent, 0).number, 0);
}

#[test]
fn answer_of_a_wrong_length_is_written_or_comes_late() {
    for bytes in [0, 1, 8, 24, 32, 40, 48, 55, 57, 64] {
        for (what, lent) in good_and_bad() {
            let lent = lent.answering(bytes);
            let made = one_and_two(&Known::of(&lent), &lent, (1, 1), bytes);
            assert_eq!(made.number, 9, "{what}, answer of {bytes} bytes");
            assert_eq!(made.left, lent, "{what}, answer of {bytes} bytes");
        }
    }
}

#[test]
fn stale_bytes_stay_in_the_answer() {
    // whatever the answer held before, it holds the same afterwards
    for (what, lent) in good_and_bad() {
        let left = [0, 1, 0x80, 0xff].map(|stale| {
            let lent = Buffers { answer: vec![stale; 8 * NUMBERS], ..lent.clone() };
            one_and_two(&Known::of(&lent), &lent, (1, 1), 0).left
        });
        assert!(left.windows(2).all(|two| two[0] == two[1]), "{what}: {left:?}");
    }
}

#[test]
fn buffer_without_a_byte_is_taken() {
    due(&Buffers { sheet: vec![], ..sound() }, (1, 0, 0));
    due(&Buffers { pairing: vec![], ..sound() }, (8, 0, 0));
    due(&Buffers { witness: vec![], ..sound() }, (9, 0, 0));
    // no routes have no bytes, and a byte more is refused
    let nothing = Buffers::new(&[], &[], &[]);
    assert_eq!(told(&nothing, 1).numbers(), [0, 0, 0, 0, 0, 1, 0]);
    due(&Buffers { pairing: vec![0], ..nothing.clone() }, (8, 0, 0));
    due(&Buffers { witness: vec![0], ..nothing }, (9, 0, 0));
}

/// The wrapper on slices that have no memory at all.
#[test]
fn empty_slices_are_not_answered() {
    assert_eq!(wisharek::improve(&[], &mut [], &mut [], 1), Err(Refusal { number: 1, a: 0, b: 0 }));
    let done = wisharek::improve(&[0; 8], &mut [], &mut [], 1).expect("no routes are accepted");
    assert_eq!((done.added, done.size, done.finished, done.sessions), (0, 0, true, 0));
}
