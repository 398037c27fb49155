//! Every refusal of every call, with its details, and which one is given where several are due. That a refusal leaves
//! pairing, witness and parts as they were, and writes all of the answer, is compared with each of them.
use crate::support::{refused, told, Buffers, Call};
use sheets::layouts::{claw, path};
use sheets::{bytes, write};
use wisharek::NONE;

/// Number, A and B.
pub type Reply = (u64, u64, u64);

/// A refusal that is due, and what sets right the thing refused.
type Turn = (Reply, fn(&mut Buffers));

/// The claw, 0 and 1 paired, over {0}: all calls accept it.
fn sound() -> Buffers {
    Buffers::of(&claw(), &[(0, 1)], &[0])
}

fn with_partners(partners: &[u32]) -> Buffers {
    Buffers { pairing: bytes(partners), ..sound() }
}

/// The reply to a call, compared with the one that is due.
fn due(call: Call, lent: &Buffers, reply: Reply) {
    let (number, a, b) = reply;
    let made = told(call, lent);
    let answer_and_number = (made.numbers(), made.number);
    assert_eq!(answer_and_number, (refused(call, number, a, b), number as u32), "{call:?}");
    assert_eq!(made.left, Buffers { answer: made.left.answer.clone(), ..lent.clone() }, "{call:?}: bytes left");
}

/// Sheets that are refused, in the order of the checks.
pub fn bad_sheets() -> Vec<(Vec<u8>, Reply)> {
    let joined = write(&[vec![1], vec![0]]);
    let longer = [joined.clone(), vec![0; 4]].concat();
    vec![
        (vec![], (1, 0, 0)),
        (vec![0; 7], (1, 0, 0)),
        (vec![255; 7], (1, 0, 0)),
        (bytes(&[513, 0]), (2, 513, 512)),
        (bytes(&[u32::MAX, 0]), (2, u32::MAX.into(), 512)),
        (bytes(&[512, 0]), (3, 0, 0)),
        (joined[..23].to_vec(), (3, 0, 0)),
        (longer, (3, 0, 0)),
        (bytes(&[2, 1, 1, 2, 1, 0]), (3, 0, 0)),
        (bytes(&[2, 0, 2, 1, 1]), (3, 0, 0)),
        (bytes(&[2, 0, 1, 3, 1, 0]), (3, 0, 0)),
        (write(&[vec![2], vec![0]]), (4, 2, 0)),
        (write(&[vec![1], vec![0, u32::MAX]]), (4, u32::MAX.into(), 0)),
        (write(&[vec![0, 0]]), (5, 0, 0)),
        (write(&[vec![1, 2], vec![0], vec![0, 0]]), (5, 2, 0)),
        (write(&[vec![1], vec![]]), (6, 1, 0)),
        (write(&[vec![], vec![], vec![1]]), (6, 1, 2)),
        (write(&[vec![0]]), (7, 0, 0)),
        (write(&[vec![1], vec![0, 1], vec![2]]), (7, 1, 0)),
    ]
}

#[test]
fn bad_sheet_is_not_refused() {
    for (sheet, reply) in bad_sheets() {
        for call in Call::ALL {
            due(call, &Buffers { sheet: sheet.clone(), ..sound() }, reply);
        }
    }
}

#[test]
fn refusal_of_the_sheet_waits_for_other_buffers() {
    // every other buffer is wrong, in its length or in what it holds
    let lengths = Buffers { pairing: vec![1; 3], witness: vec![9; 7], parts: vec![3; 5], ..sound() };
    let nothing = Buffers { pairing: vec![], witness: vec![], parts: vec![], ..sound() };
    for (sheet, reply) in bad_sheets() {
        for call in Call::ALL {
            due(call, &Buffers { sheet: sheet.clone(), ..lengths.clone() }, reply);
            due(call, &Buffers { sheet: sheet.clone(), ..nothing.clone() }, reply);
        }
    }
}

#[test]
fn pairing_of_a_wrong_length_is_not_refused() {
    let pairing = sound().pairing;
    for length in [0, 1, 4, 12, 15, 17, 20, 64] {
        let mut pairing = pairing.clone();
        pairing.resize(length, 255);
        due(Call::Check, &Buffers { pairing, ..sound() }, (8, 0, 0));
    }
}

#[test]
fn pairing_is_asked_of_calls_that_are_not_lent_it() {
    for call in [Call::Surplus, Call::Parts] {
        let lent = Buffers { pairing: vec![3; 5], ..sound() };
        assert_eq!(told(call, &lent).number, 0, "{call:?}");
    }
}

#[test]
fn witness_of_a_wrong_length_is_not_refused() {
    for length in [0, 1, 3, 5, 16] {
        for call in Call::ALL {
            due(call, &Buffers { witness: vec![0; length], ..sound() }, (9, 0, 0));
        }
    }
}

#[test]
fn parts_of_a_wrong_length_are_not_refused() {
    for length in [0, 4, 15, 17, 20, 64] {
        due(Call::Parts, &Buffers { parts: vec![7; length], ..sound() }, (9, 0, 0));
    }
}

/// Partners for the claw of which one is refused: what is wrong, the partners, and A and B.
pub fn bad_partners() -> Vec<(&'static str, [u32; 4], (u64, u64))> {
    let none = NONE;
    let wide = 1 | 1 << 16;
    vec![
        ("the first number that is no route", [none, 4, none, none], (1, 4)),
        ("the number before none", [none - 1, none, none, none], (0, u64::from(none) - 1)),
        ("more than 16 bits", [wide, 0, none, none], (0, wide.into())),
        ("the last route", [1, 0, none, 1 << 24], (3, 1 << 24)),
        ("the route itself", [none, 1, none, none], (1, 1)),
        ("zero for none", [0, 0, 0, 0], (0, 0)),
        ("not a neighbour, both ways", [none, 2, 1, none], (1, 2)),
        ("names a route that is paired elsewhere", [1, 0, 0, none], (2, 0)),
        ("names a route that has no partner", [none, 0, none, none], (1, 0)),
        ("is named by nobody it names", [3, 0, none, none], (0, 3)),
        ("two of them, the lowest", [none, none, 2, 3], (2, 2)),
    ]
}

#[test]
fn bad_partner_is_not_refused() {
    for (what, partners, (a, b)) in bad_partners() {
        println!("{what}");
        due(Call::Check, &with_partners(&partners), (10, a, b));
    }
}

#[test]
fn witness_byte_above_one_is_not_refused() {
    for (witness, reply) in [
        ([1, 0, 2, 0], (11, 2, 2)),
        ([255, 0, 0, 0], (11, 0, 255)),
        ([1, 0, 0, 128], (11, 3, 128)),
        ([1, 3, 2, 9], (11, 1, 3)),
    ] {
        for call in Call::ALL {
            due(call, &Buffers { witness: witness.to_vec(), ..sound() }, reply);
        }
    }
}

#[test]
fn bound_that_is_not_met_is_not_refused() {
    due(Call::Check, &Buffers { witness: vec![0; 4], ..sound() }, (12, 2, 0));
    due(Call::Check, &with_partners(&[NONE; 4]), (12, 4, 0));
}

#[test]
fn last_of_512_routes_is_not_looked_at() {
    let pairs: Vec<(u32, u32)> = (0..256).map(|k| (2 * k, 2 * k + 1)).collect();
    let whole = Buffers::of(&path(512), &pairs, &[]);
    assert_eq!(told(Call::Check, &whole).number, 0);
    // 510 and 511 without partners, and then a partner for 511 alone
    let two_left = Buffers::of(&path(512), &pairs[..255], &[]);
    due(Call::Check, &two_left, (12, 2, 0));
    for partner in [511u32, 512, 510, 509, 0] {
        let mut lent = two_left.clone();
        lent.pairing[4 * 511..].copy_from_slice(&partner.to_le_bytes());
        due(Call::Check, &lent, (10, 511, partner.into()));
    }
    for call in Call::ALL {
        let mut lent = whole.clone();
        lent.witness[511] = 2;
        due(call, &lent, (11, 511, 2));
        lent.witness[511] = 1;
        assert_eq!(told(call, &lent).number, 0, "{call:?}");
    }
    let mut rows = path(512);
    rows[511].push(511);
    for call in Call::ALL {
        due(call, &Buffers { sheet: write(&rows), ..whole.clone() }, (7, 511, 0));
    }
}

/// What is wrong is set right, one after the other, and the next refusal is given each time.
fn in_turn(call: Call, mut lent: Buffers, turns: &[Turn]) {
    for &(reply, mend) in turns {
        due(call, &lent, reply);
        mend(&mut lent);
    }
    assert_eq!(told(call, &lent).number, 0, "{call:?}");
}

/// The claw with 0 its own neighbour, and everything else wrong too.
fn all_wrong() -> Buffers {
    let mut rows = claw();
    rows[0].push(0);
    Buffers { sheet: write(&rows), pairing: vec![0; 15], witness: vec![2; 5], parts: vec![7; 17], ..sound() }
}

#[test]
fn check_refuses_in_another_order() {
    in_turn(
        Call::Check,
        all_wrong(),
        &[
            ((7, 0, 0), |lent| lent.sheet = write(&claw())),
            ((8, 0, 0), |lent| lent.pairing = bytes(&[NONE, 1, NONE, NONE])),
            ((9, 0, 0), |lent| lent.witness = vec![0, 0, 0, 2]),
            ((10, 1, 1), |lent| lent.pairing = bytes(&[1, 0, NONE, NONE])),
            ((11, 3, 2), |lent| lent.witness = vec![0; 4]),
            ((12, 2, 0), |lent| lent.witness[0] = 1),
        ],
    );
}

#[test]
fn surplus_refuses_in_another_order() {
    in_turn(
        Call::Surplus,
        all_wrong(),
        &[
            ((7, 0, 0), |lent| lent.sheet = write(&claw())),
            ((9, 0, 0), |lent| lent.witness = vec![0, 0, 0, 2]),
            ((11, 3, 2), |lent| lent.witness = vec![0; 4]),
        ],
    );
}

#[test]
fn parts_refuses_in_another_order() {
    in_turn(
        Call::Parts,
        all_wrong(),
        &[
            ((7, 0, 0), |lent| lent.sheet = write(&claw())),
            ((9, 0, 0), |lent| lent.witness = vec![0, 0, 0, 2]),
            ((9, 0, 0), |lent| lent.parts = vec![7; 16]),
            ((11, 3, 2), |lent| lent.witness = vec![0; 4]),
        ],
    );
}

#[test]
fn two_faults_give_the_later_refusal() {
    let bad_partner = bytes(&[NONE, 1, NONE, NONE]);
    let bad_mark = vec![0, 0, 0, 2];
    let cases: [(&str, Buffers, Reply); 5] = [
        ("8 and 9", Buffers { pairing: vec![], witness: vec![], ..sound() }, (8, 0, 0)),
        ("8 and 11", Buffers { pairing: vec![], witness: bad_mark.clone(), ..sound() }, (8, 0, 0)),
        ("9 and 10", Buffers { pairing: bad_partner.clone(), witness: vec![0; 5], ..sound() }, (9, 0, 0)),
        ("10 and 11", Buffers { pairing: bad_partner, witness: bad_mark.clone(), ..sound() }, (10, 1, 1)),
        ("11 and 12", Buffers { pairing: bytes(&[NONE; 4]), witness: bad_mark, ..sound() }, (11, 3, 2)),
    ];
    for (what, lent, reply) in cases {
        println!("{what}");
        due(Call::Check, &lent, reply);
    }
}
