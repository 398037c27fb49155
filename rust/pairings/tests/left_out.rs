//! Says what could not be run where gamma's source was not found. The recorded answers are compared all the same.
#![cfg(not(gamma))]

#[test]
fn comparison_with_gamma_was_left_out() {
    println!("the runs beside gamma: {}", pairings::LEFT_OUT);
}
