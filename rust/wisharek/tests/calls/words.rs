//! A refusal prints what it means, with its routes.
use std::error::Error;
use wisharek::Refusal;

fn words(number: u32, a: u64, b: u64) -> String {
    Refusal { number, a, b }.to_string()
}

#[test]
fn refusal_says_the_wrong_routes() {
    assert_eq!(words(2, 513, 512), "refusal 2: the sheet has 513 routes, and no more than 512 are taken");
    assert_eq!(words(4, 17, 0), "refusal 4: the sheet names 17 as a neighbour, and there is no such route");
    assert_eq!(words(5, 3, 8), "refusal 5: route 3 names its neighbour 8 more than once");
    assert_eq!(words(6, 3, 8), "refusal 6: route 8 names 3 as its neighbour, and the row of 3 lacks 8");
    assert_eq!(words(7, 5, 0), "refusal 7: route 5 is its own neighbour");
    assert!(words(10, 5, 9).starts_with("refusal 10: route 5 has the partner 9, which is no route, or 5 itself"));
    assert_eq!(words(11, 5, 255), "refusal 11: the witness has 255 for route 5, and only 0 and 1 are taken");
    assert!(words(12, 6, 0).contains("it leaves 6 unpaired"));
}

#[test]
fn two_refusals_have_the_same_words() {
    let mut all: Vec<String> = (0..=17).map(|number| words(number, 1, 2)).collect();
    all.sort();
    all.dedup();
    assert_eq!(all.len(), 18);
    assert!((1..=12).all(|number| !words(number, 1, 2).contains("another kind")));
    assert!(words(13, 1, 2).ends_with("of another kind, with 1 and 2"));
}

#[test]
fn refusal_is_no_error() {
    let error: Box<dyn Error + Send + Sync> = wisharek::check(&[], &[], &[]).unwrap_err().into();
    assert_eq!(error.to_string(), "refusal 1: the sheet has fewer than 8 bytes");
}
