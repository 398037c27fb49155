//! Runs from the same start: wherever gamma finishes, both have the same number of pairs; where no cycle is odd, the same
//! pairs. How gamma's other runs end is counted.
use crate::graphs::has_odd_cycle;
use crate::ours::{self, Pairs};
use crate::seen::Seen;
use crate::worker::{Answer, Worker};
use crate::{text, Partners, Rows};
use gamma::steps::{End, Run};

/// Both, and what was counted.
#[derive(Default)]
pub struct Beside {
    gamma: Worker,
    pub seen: Seen,
}

impl Beside {
    /// Runs both. A difference ends the comparison, and is told with its input.
    pub fn compare(&mut self, rows: &Rows, start: &Partners) -> Result<(), String> {
        self.seen.runs += 1;
        self.compared(rows, start).map_err(|what| format!("{what}\n{}", text::input(rows, start)))
    }

    /// As `compare`, and gamma is asked a second time: its tables then have another hash order.
    pub fn compare_twice(&mut self, rows: &Rows, start: &Partners) -> Result<(), String> {
        self.compare(rows, start)?;
        let (Answer::Run(one), Answer::Run(other)) = (self.ask(rows, start), self.ask(rows, start)) else {
            return Ok(());
        };
        if one != other {
            return Err(format!("gamma has two answers, {one:?} and {other:?}\n{}", text::input(rows, start)));
        }
        self.seen.twice += 1;
        Ok(())
    }

    fn ask(&mut self, rows: &Rows, start: &Partners) -> Answer {
        self.gamma.run(rows, ours::pairs(start))
    }

    fn compared(&mut self, rows: &Rows, start: &Partners) -> Result<(), String> {
        let ours = ours::finished(rows, start)?;
        match self.ask(rows, start) {
            Answer::Run(run) => self.held(rows, start, &ours, run),
            Answer::Unlike(run, pairs) => Err(format!("gamma step by step: {run:?}; whole: {pairs:?}")),
            Answer::TimeOut => {
                self.seen.keep("past the limit of time", rows, start, String::new());
                Ok(())
            }
        }
    }

    /// What gamma made, held to the rows and to our pairs.
    fn held(&mut self, rows: &Rows, start: &Partners, ours: &Pairs, run: Run) -> Result<(), String> {
        for pairs in &run.pairs {
            sound(rows, pairs).map_err(|what| format!("gamma has no pairing: {what}"))?;
            if pairs.len() > ours.len() {
                return Err(format!("gamma has {} pairs, and {} are the most", pairs.len(), ours.len()));
            }
        }
        if let Some(step) = run.stood_still() {
            let said = format!("step {} leads from {:?} to {:?}", step + 1, run.pairs[step], run.pairs[step + 1]);
            self.seen.keep("a step without growth", rows, start, said);
        }
        let even = !has_odd_cycle(rows);
        match &run.end {
            End::Finished => self.finished(even, ours, &run),
            other if even => Err(format!("gamma ends with {other:?}, and no cycle is odd")),
            other => {
                let said =
                    format!("after {} steps, with {} pairs of {}", run.pairs.len() - 1, run.last().len(), ours.len());
                self.seen.keep(&kind(other), rows, start, said);
                Ok(())
            }
        }
    }

    fn finished(&mut self, even: bool, ours: &Pairs, run: &Run) -> Result<(), String> {
        if run.last().len() != ours.len() {
            return Err(format!("gamma finishes with {} pairs, and {} are the most", run.last().len(), ours.len()));
        }
        if even && run.last() != ours {
            return Err(format!("no cycle is odd, and gamma has the pairs {:?}, here are {ours:?}", run.last()));
        }
        self.seen.finished += 1;
        self.seen.exact += u64::from(even);
        self.seen.added += (ours.len() - run.pairs[0].len()) as u64;
        Ok(())
    }
}

/// The kind of an end, without the ids.
fn kind(end: &End) -> String {
    match end {
        End::Finished => "finished".into(),
        End::Endless => "never ends: pairs come back".into(),
        End::TooLong => "past the limit of steps".into(),
        End::Panicked(words) => format!("panic: {}", words.replace(|c: char| c.is_ascii_digit(), "#")),
    }
}

/// Whether these are edges of the rows, no two with a route in common.
fn sound(rows: &Rows, pairs: &Pairs) -> Result<(), String> {
    let mut paired = vec![false; rows.len()];
    for &(v, w) in pairs {
        if v >= rows.len() || !rows[v].contains(&(w as u32)) {
            return Err(format!("{v}-{w} is no edge"));
        }
        if paired[v] || paired[w] {
            return Err(format!("{v}-{w} has a route that is paired twice"));
        }
        paired[v] = true;
        paired[w] = true;
    }
    Ok(())
}
