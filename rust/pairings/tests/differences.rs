//! Where the proved operations and gamma's `Pairing` differ, as docs/DIFFERENCES.md lists it: each input, run on both.
mod drive;

use drive::{answer, Answer, State};
use pairings::operation::{numbers, Operation, NONE};

/// A fresh pairing, some operations, and the answer to the last of them.
fn ours(operations: &[Operation]) -> (State, Answer) {
    let (last, before) = operations.split_last().unwrap();
    let mut state = State::fresh();
    let mut answers = vec![0; 2000];
    state.drive(&numbers(before), &mut answers);
    let was = state.clone();
    state.drive(&last.numbers(), &mut answers);
    let (said, _) = answer(&answers, last.code());
    assert!(said.reply.0 == 0 || state == was, "a refused operation changed the pairing");
    (state, said)
}

fn refused(operations: &[Operation], reply: (u64, u64, u64)) {
    let (_, said) = ours(operations);
    println!("here: {} is refused with {:?}", operations.last().unwrap(), said.reply);
    assert_eq!(said, Answer { reply, value: 0, pairs: vec![] });
}

fn augment(path: &[u32]) -> Operation {
    Operation::Augment(path.to_vec())
}

#[test]
fn refusals_differ_from_those_listed() {
    refused(&[augment(&[1, 2, 3])], (13, 3, 0));
    refused(&[Operation::Mate(7)], (16, 7, 0));
    refused(&[Operation::Pair(5, 5)], (15, 0, 5));
    refused(&[augment(&[1, 2, 3, 3])], (15, 2, 3));
    refused(&[Operation::Pair(1, 600)], (14, 1, 600));
    refused(&[augment(&[1, 2, 600, 601])], (14, 2, 600));
    refused(&[Operation::Mate(600)], (14, 0, 600));
    refused(&[Operation::HasNode(600)], (14, 0, 600));
}

#[test]
fn refused_operation_leaves_something() {
    let (state, said) = ours(&[Operation::Pair(5, 5), Operation::Pair(5, 6)]);
    assert_eq!(said.reply, (0, 0, 0));
    assert_eq!((state.number(5), state.number(6), state.count()), (6, 5, 2));
}

#[test]
fn repeated_ids_differ_from_those_listed() {
    // the second pair takes 2 from 1, which is free then
    let (state, said) = ours(&[augment(&[1, 2, 2, 3])]);
    assert_eq!(said.reply, (0, 0, 0));
    assert_eq!((state.number(1), state.number(2), state.number(3), state.count()), (NONE, 3, 2, 2));
}

#[test]
fn edges_do_not_rise() {
    let (_, said) = ours(&[augment(&[9, 4, 7, 0, 1, 8]), Operation::Edges]);
    assert_eq!(said.pairs, [(0, 7), (1, 8), (4, 9)]);
}

#[cfg(gamma)]
mod gamma {
    use pairings::gamma::{asked, Pairing};

    /// Order, the edges sorted, and the mates of these ids; `None` where `has_node` says no.
    fn seen(gamma: &Pairing, ids: &[usize]) -> (usize, Vec<(usize, usize)>, Vec<Option<usize>>) {
        let mut edges: Vec<(usize, usize)> = gamma.edges().collect();
        edges.sort();
        let mates = ids.iter().map(|&id| gamma.has_node(id).then(|| gamma.mate(id))).collect();
        (gamma.order(), edges, mates)
    }

    #[test]
    fn gamma_does_not_panic() {
        assert!(asked(|| Pairing::new().augment(vec![1, 2, 3])).is_none(), "augment([1, 2, 3])");
        assert!(asked(|| Pairing::new().mate(7)).is_none(), "mate(7)");
        println!("gamma: augment([1, 2, 3]) and mate(7) of a fresh pairing panic");
    }

    #[test]
    fn gamma_refuses_an_id_paired_with_itself() {
        let mut gamma = Pairing::new();
        gamma.pair(5, 5);
        println!("gamma: after pair(5, 5) order, edges and the mate of 5 are {:?}", seen(&gamma, &[5]));
        assert_eq!(seen(&gamma, &[5]), (1, vec![], vec![Some(5)]));
        gamma.pair(5, 6);
        println!("gamma: after pair(5, 6) order, edges and the mates of 5 and 6 are {:?}", seen(&gamma, &[5, 6]));
        assert_eq!(seen(&gamma, &[5, 6]), (1, vec![], vec![None, Some(5)]));
        let mut gamma = Pairing::new();
        gamma.augment(vec![1, 2, 3, 3]);
        println!("gamma: after augment([1, 2, 3, 3]) order, edges and mates are {:?}", seen(&gamma, &[1, 2, 3]));
        assert_eq!(seen(&gamma, &[1, 2, 3]), (3, vec![(1, 2)], vec![Some(2), Some(1), Some(3)]));
    }

    #[test]
    fn gamma_refuses_ids_past_the_limit() {
        let mut gamma = Pairing::new();
        assert!(!gamma.has_node(600), "has_node(600) of a fresh pairing");
        assert!(asked(|| gamma.mate(600)).is_none(), "mate(600) of a fresh pairing");
        gamma.pair(1, 600);
        println!("gamma: after pair(1, 600) order, edges and the mate of 600 are {:?}", seen(&gamma, &[600]));
        assert_eq!(seen(&gamma, &[600]), (2, vec![(1, 600)], vec![Some(1)]));
        let mut gamma = Pairing::new();
        gamma.augment(vec![1, 2, 600, 601]);
        println!(
            "gamma: after augment([1, 2, 600, 601]) order, edges and the mate of 600 are {:?}",
            seen(&gamma, &[600])
        );
        assert_eq!(seen(&gamma, &[600]), (4, vec![(1, 2), (600, 601)], vec![Some(601)]));
    }

    #[test]
    fn gamma_has_the_edges_in_one_order() {
        let order = || {
            let mut gamma = Pairing::new();
            gamma.augment((0..20).collect());
            gamma.edges().collect::<Vec<_>>()
        };
        let first = order();
        assert!((0..100).any(|_| order() != first), "the same pairing has its edges in the same order a hundred times");
        println!("gamma: the edges of one pairing come in another order where it is built again");
    }

    #[test]
    fn gamma_frees_no_old_partner() {
        let mut gamma = Pairing::new();
        gamma.augment(vec![1, 2, 2, 3]);
        assert_eq!(seen(&gamma, &[1, 2, 3]), (2, vec![(2, 3)], vec![None, Some(3), Some(2)]));
    }
}
