//! gamma's recorded answers, replayed: where gamma's source is not at hand, this is the comparison.
use compare::ours::{self, finished, partners};
use compare::recorded::{self, Line, Said, FILES};
use std::fs;

fn file(name: &str) -> String {
    let place = recorded::place(name);
    fs::read_to_string(&place).unwrap_or_else(|_| panic!("{}", place.display()))
}

#[cfg(gamma)]
#[test]
fn recorded_answers_are_not_gammas() {
    for (name, rising) in FILES {
        let lines = recorded::make(rising);
        assert!(file(name) == recorded::write(&lines), "crates/replay/data/{name} is not what gamma says");
        println!("recorded answers in {name} made anew: {} lines, the same", lines.len());
    }
}

/// What the proved calls say of a line, in its form.
fn said(line: &Line) -> Said {
    let start = partners(line.rows.len(), &line.start);
    match &line.said {
        Said::Refused(_) => Said::Refused(ours::reading(&line.rows)),
        Said::Pairs(_) => Said::Pairs(finished(&line.rows, &start).expect("a sound input")),
        Said::Size(_) => Said::Size(finished(&line.rows, &start).expect("a sound input").len()),
    }
}

#[test]
fn proved_calls_differ_from_recorded_answers() {
    for (name, rising) in FILES {
        let lines = recorded::read(&file(name));
        let rises = |line: &Line| line.rows.iter().all(|row| row.is_sorted());
        assert_eq!(lines.iter().all(rises), rising, "{name}: whether every row rises");
        let mut counts = [0; 3];
        for (k, line) in lines.iter().enumerate() {
            assert_eq!(said(line), line.said, "line {} of {name}: proved, recorded", k + 2);
            counts[match line.said {
                Said::Refused(_) => 0,
                Said::Pairs(_) => 1,
                Said::Size(_) => 2,
            }] += 1;
        }
        println!("recorded answers in {name}: refused, exact pairs, size alone: {counts:?}, no difference");
        let [refused, pairs, sizes] = counts;
        let line = format!(
            "{name}: {refused} refused alike, {pairs} with the same pairs, {sizes} with as many pairs, 0 differences"
        );
        assert!(recorded::expected().lines().any(|said| said == line), "crates/replay/stdout lacks: {line}");
        assert!(counts.iter().all(|&count| count >= 40), "{name}: a kind with few answers: {counts:?}");
    }
}
