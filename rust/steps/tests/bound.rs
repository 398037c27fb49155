//! No search on the benchmark sheets takes more than 8 · (E + n · contractions + n) steps, from nothing to the end.
use steps::yards::{self, Yard};
use steps::{functions, improved};

#[test]
fn a_search_takes_more_steps_than_the_bound() {
    for Yard { name, rows, start } in yards::all() {
        let (pairs, counts) = improved(&rows, &start);
        assert_eq!(counts.len() as u64, pairs + 1, "{name}: searches, and one more than pairs");
        let mut worst = (0.0, 0, 0, "");
        for count in &counts {
            let (steps, bound) = (count.steps(), count.bound(&rows));
            assert!(steps <= bound, "{name}: {steps} steps, bound {bound}, most in {:?}", count.heaviest());
            let ratio = 8.0 * steps as f64 / bound as f64;
            if worst.0 < ratio {
                worst = (ratio, steps, count.contractions, count.heaviest().0);
            }
        }
        let (ratio, steps, contractions, most) = worst;
        let all: u64 = counts.iter().map(|count| count.contractions).sum();
        println!(
            "{name}: {} searches, {all} contractions; at worst {ratio:.2} of 8 ({steps} steps, {contractions} contractions, most in {most})",
            counts.len()
        );
    }
}

#[test]
fn a_loop_of_the_search_is_not_counted() {
    let mut counted = functions();
    counted.sort();
    let crates = [
        "search", "queue", "scan", "look", "touch", "contract", "blossom", "linked", "walks", "forest", "expose",
        "partners", "tables",
    ];
    let written: usize = crates.iter().map(|name| loops(name)).sum();
    assert_eq!(counted.len(), written, "{counted:?}");
}

/// How many loops the source of a crate has.
fn loops(name: &str) -> usize {
    let file = format!("{}/../../crates/{name}/src/lib.rt", env!("CARGO_MANIFEST_DIR"));
    let source = std::fs::read_to_string(&file).expect(&file);
    let begins = |line: &&str| ["while ", "for ", "loop "].iter().any(|word| line.trim_start().starts_with(word));
    source.lines().filter(begins).count()
}

#[test]
fn rings_are_not_counted() {
    let (pairs, counts) = improved(&sheets::all_joined(257), &[]);
    assert_eq!(pairs, 128);
    assert_eq!(counts[128].contractions, 128, "the last search makes one group of all");
}
