//! Bars on time.
use std::sync::Mutex;
use std::time::{Duration, Instant};

/// One measurement at a time.
static ALONE: Mutex<()> = Mutex::new(());

/// Runs five times and prints the times. The quickest run, the one that the machine disturbed least, is held to the bar.
pub fn hold(what: &str, bar: Duration, mut run: impl FnMut()) {
    let _alone = ALONE.lock().unwrap_or_else(|broken| broken.into_inner());
    let mut time = || {
        let begun = Instant::now();
        run();
        begun.elapsed()
    };
    let mut times: Vec<Duration> = (0..5).map(|_| time()).collect();
    times.sort();
    println!("{what}, {:.3?} to {:.3?}", times[0], times[4]);
    assert!(times[0] < bar, "{what}: {:?} is over the bar of {bar:?}", times[0]);
}
