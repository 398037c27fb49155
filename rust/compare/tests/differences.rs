//! Where the proved calls and gamma differ in a search, as docs/DIFFERENCES.md lists it: each input, run on both.
use compare::ours::{finished, partners, Pairs};
use compare::Rows;
use wisharek::Refusal;

/// Rows, as the document writes them.
fn rows(text: &str) -> Rows {
    let row = |row: &str| row.split(',').map(|entry| entry.parse().expect("a route")).collect();
    text.trim_matches(['[', ']']).split("], [").map(row).collect()
}

/// The ten routes, and their start.
fn ten() -> (Rows, Pairs) {
    (sheets::layouts::ten(), vec![(1, 2), (3, 4), (5, 6), (7, 8)])
}

/// gamma panics at its third step.
fn panic() -> Rows {
    rows("[1,2], [0,2], [0,1,3,4], [2,4,5], [2,3,5], [3,4]")
}

/// gamma's third step adds nothing.
fn no_growth() -> Rows {
    rows("[1,2], [0,2], [0,1,3,4,5], [2,4], [2,3], [2]")
}

/// gamma never ends.
fn endless() -> Rows {
    rows("[1,2], [0,2], [0,1,3,4], [2,5,7], [2,5,6], [3,4,6,7], [4,5], [3,5]")
}

#[test]
fn sizes_differ_from_those_listed() {
    let (ten, start) = ten();
    let inputs = [(ten, start, 5), (panic(), vec![], 3), (no_growth(), vec![], 3), (endless(), vec![], 4)];
    for (rows, start, size) in inputs {
        let pairs = finished(&rows, &partners(rows.len(), &start)).expect("a sound input");
        println!("here: {} routes, {} pairs: {pairs:?}", rows.len(), pairs.len());
        assert_eq!(pairs.len(), size);
    }
}

#[test]
fn refusals_differ_from_those_listed() {
    let improve = |rows: &Rows, start: &Pairs| {
        let mut pairing = sheets::bytes(&partners(rows.len(), start));
        wisharek::improve(&sheets::write(rows), &mut pairing, &mut vec![0; rows.len()], u32::MAX)
    };
    let no_edge = improve(&vec![vec![], vec![]], &vec![(0, 1)]);
    assert_eq!(no_edge, Err(Refusal { number: 10, a: 0, b: 1 }));
    let own_neighbour = improve(&vec![vec![0]], &vec![]);
    assert_eq!(own_neighbour, Err(Refusal { number: 7, a: 0, b: 0 }));
}

#[cfg(gamma)]
mod gamma {
    use ::gamma::graph::{DefaultGraph, Graph};
    use ::gamma::steps::{run, End, Run};
    use compare::ours::Pairs;
    use compare::worker::graph;
    use compare::Rows;

    fn told(what: &str, rows: &Rows, start: &Pairs) -> Run {
        let run = run(&graph(rows), start, 1000);
        println!("gamma, {what}: {run:?}");
        run
    }

    #[test]
    fn gamma_does_not_panic() {
        let even = End::Panicked("even path augmentation".to_string());
        let (ten, start) = super::ten();
        let ten = told("ten routes", &ten, &start);
        assert_eq!((ten.pairs.len(), &ten.end), (1, &even));
        let six = told("six routes", &super::panic(), &vec![]);
        assert_eq!((six.last(), &six.end), (&[(0, 1), (2, 3)][..], &even));
    }

    #[test]
    fn gamma_grows_with_every_step() {
        let run = told("no growth", &super::no_growth(), &vec![]);
        assert_eq!(run.stood_still(), Some(2));
        assert_eq!((&run.pairs[2], &run.pairs[3]), (&vec![(0, 1), (2, 3)], &vec![(0, 1), (2, 5)]));
        assert_eq!((run.last().len(), run.end), (3, End::Finished));
    }

    #[test]
    fn gamma_ends() {
        let run = told("never ends", &super::endless(), &vec![]);
        assert_eq!((run.last().len(), run.end), (3, End::Endless));
    }

    #[test]
    fn gamma_refuses_a_start_that_is_no_edge() {
        let run = told("no edge", &vec![vec![], vec![]], &vec![(0, 1)]);
        assert_eq!((run.last(), &run.end), (&[(0, 1)][..], &End::Finished));
    }

    #[test]
    fn gamma_refuses_a_route_that_is_its_own_neighbour() {
        let run = told("its own neighbour", &vec![vec![0]], &vec![]);
        assert_eq!((run.last().len(), run.end), (0, End::Finished));
        assert_eq!(graph(&vec![vec![0]]).size(), 0);
    }

    /// A triangle with the highest id that there is, and route 0. No rows bring it: their ids are below their number.
    #[test]
    fn gamma_has_an_id_above_the_highest() {
        const TOP: usize = usize::MAX;
        let mut graph = DefaultGraph::new();
        for id in [0, 1, 2, TOP] {
            graph.add_node(id).expect("a new id");
        }
        for (v, w) in [(1, 2), (1, TOP), (2, TOP)] {
            graph.add_edge(v, w).expect("a new edge");
        }
        let run = run(&graph, &[], 1000);
        println!("gamma, an id at the top of usize: {run:?}");
        // with and without a check of overflow
        let words = ["bad graph: DuplicateId(0)", "attempt to add with overflow"];
        assert!(words.iter().any(|words| run.end == End::Panicked(words.to_string())));
    }
}

#[cfg(not(gamma))]
#[test]
fn comparison_with_gamma_was_left_out() {
    println!("the inputs of docs/DIFFERENCES.md on gamma: {}", ::gamma::LEFT_OUT);
}
