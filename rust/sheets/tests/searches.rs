//! The file that the gate holds the program `searches` to is what the plain model of a search says; and what the model
//! says is right by the plain reading of the checker, which knows of no search.
use sheets::plain::NONE;
use sheets::search::{search, Outcome};
use sheets::searches::{cases, stdout, Case};
use sheets::{bytes, calls, write};
use std::{fs, path::Path};

/// The checker's number for these partners and the witness of these routes.
fn checked(case: &Case, partners: &[Option<usize>], witness: &[usize]) -> u32 {
    let pairing: Vec<u32> = partners.iter().map(|w| w.map_or(NONE, |w| w as u32)).collect();
    let marks: Vec<u8> = (0..partners.len()).map(|v| u8::from(witness.contains(&v))).collect();
    calls::check(&write(&case.rows), &bytes(&pairing), &marks, &mut [0; 24])
}

fn named(name: &str) -> Case {
    cases().into_iter().find(|case| case.name == name).expect(name)
}

#[test]
fn expected_lines_are_not_the_plain_models() {
    let file = Path::new(env!("CARGO_MANIFEST_DIR")).join("../../crates/searches/stdout");
    let committed = fs::read_to_string(&file).expect("crates/searches/stdout");
    let said = stdout();
    for (committed, said) in committed.lines().zip(said.lines()) {
        assert_eq!(committed, said, "a line of crates/searches/stdout, and what it should be");
    }
    assert_eq!(committed, said);
}

#[test]
fn a_search_of_the_model_is_wrong() {
    for case in cases() {
        let mut partners = case.partners();
        loop {
            match search(&case.rows, &partners).outcome {
                Outcome::Found(new) => {
                    let paired = |all: &[Option<usize>]| all.iter().flatten().count();
                    assert_eq!(paired(&new), paired(&partners) + 2, "{}", case.name);
                    assert!([0, 12].contains(&checked(&case, &new, &[])), "{}: {new:?}", case.name);
                    partners = new;
                }
                Outcome::Stuck(witness) => {
                    assert_eq!(checked(&case, &partners, &witness), 0, "{}: {witness:?}", case.name);
                    break;
                }
            }
        }
    }
}

#[test]
fn nested_rings_are_not_three_deep_or_the_path_goes_round_them() {
    let case = named("three rings nested");
    let searched = search(&case.rows, &case.partners());
    assert_eq!(searched.depth, 3);
    let Outcome::Found(new) = searched.outcome else { panic!("nothing was found") };
    for (inner, outer) in [(1, 2), (3, 4), (5, 6)] {
        assert_ne!(new[inner], Some(outer), "the pair of a ring is as it was");
    }
}

#[test]
fn routes_inner_before_a_contraction_are_in_the_witness() {
    let case = named("three triangles on a hub");
    let Outcome::Stuck(witness) = search(&case.rows, &case.partners()).outcome else { panic!("a pair was found") };
    assert_eq!(witness, [0]);
}
