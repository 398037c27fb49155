//! How many comparisons of which kind.
use crate::graphs::{every_graph, every_pairing, general, most_pairs, nothing, rising, some_pairs, two_sides};
use crate::reading::Read;
use crate::runs::Beside;
use crate::seen::Seen;
use crate::{ours, text, Rows};
use sheets::random::Random;
use std::thread;
use std::time::Instant;

/// How much is compared.
#[derive(Clone, Copy)]
pub struct Plan {
    pub seed: u64,
    /// Random rows for the reader.
    pub rows: u64,
    /// Random graphs of up to ten routes, and those of them without an odd cycle. Of larger ones fewer are made, of smaller
    /// ones more.
    pub graphs: usize,
    pub even: usize,
    /// The most routes of a random graph: each of these in turn.
    pub most: &'static [usize],
    /// All graphs of up to so many routes from every start, and of up to so many from nothing.
    pub every_start: usize,
    pub from_nothing: usize,
}

impl Plan {
    /// For every run of the tests: about a minute.
    pub fn gate(seed: u64) -> Plan {
        let most = &[6, 7, 8, 10, 14, 20, 30, 60];
        Plan { seed, rows: 500_000, graphs: 12_000, even: 10_000, most, every_start: 5, from_nothing: 6 }
    }

    /// At length: less than an hour.
    pub fn long(seed: u64) -> Plan {
        let most = &[6, 7, 8, 9, 10, 12, 14, 17, 20, 30, 45, 60, 100];
        Plan { seed, rows: 5_000_000, graphs: 120_000, even: 60_000, most, every_start: 6, from_nothing: 7 }
    }

    /// All of it, to the first difference: each part in a thread of its own, and what they counted in this order.
    pub fn run(self) -> Result<(), String> {
        let begun = Instant::now();
        let parts: [fn(&Plan) -> Result<String, String>; 5] =
            [Plan::reading, Plan::all_from_every_start, Plan::all_from_nothing, Plan::even, Plan::general];
        for part in parts.map(|part| thread::spawn(move || part(&self))) {
            print!("{}", part.join().expect("a part of the comparison")?);
        }
        println!("{:.1?} in all", begun.elapsed());
        Ok(())
    }

    fn reading(&self) -> Result<String, String> {
        let (mut random, mut read) = (Random::new(self.seed), Read::default());
        read.small()?;
        let small: u64 = read.0.iter().sum();
        for _ in 0..self.rows {
            read.random(&mut random)?;
        }
        let what = format!("rows accepted or refused: {small} small ones, {} random ones", self.rows);
        Ok(format!("{what} from seed {}\n  by number 0 to 7: {:?}\n  no difference\n", self.seed, read.0))
    }

    fn all_from_every_start(&self) -> Result<String, String> {
        let what = format!("all graphs of up to {} routes from every start", self.every_start);
        beside(&what, |beside| {
            let mut graphs = (0..=self.every_start).flat_map(every_graph);
            graphs.try_for_each(|rows| every_pairing(&rows, &mut |start| beside.compare(&rows, start)))
        })
    }

    fn all_from_nothing(&self) -> Result<String, String> {
        let what = format!("all graphs of up to {} routes from nothing", self.from_nothing);
        beside(&what, |beside| {
            let mut graphs = (0..=self.from_nothing).flat_map(every_graph);
            graphs.try_for_each(|rows| {
                tried(&rows)?;
                beside.compare(&rows, &nothing(&rows))
            })
        })
    }

    fn even(&self) -> Result<String, String> {
        let what = format!("no odd cycle, up to {:?} routes, seed {}", self.most, self.seed);
        let mut random = Random::new(self.seed);
        beside(&what, |beside| {
            for most in sizes(self.even, self.most) {
                let rows = two_sides(&mut random, most);
                let start = some_pairs(&mut random, &rows);
                beside.compare(&rows, &start)?;
                beside.compare(&rows, &nothing(&rows))?;
            }
            Ok(())
        })
    }

    /// In two shares, beside each other.
    fn general(&self) -> Result<String, String> {
        let what = format!("general graphs, up to {:?} routes, seed {}", self.most, self.seed);
        let mut seen = Seen::default();
        thread::scope(|scope| {
            for share in [0, 1].map(|share| scope.spawn(move || self.share(share))) {
                seen.add(share.join().expect("a share of the comparison")?);
            }
            Ok::<(), String>(())
        })?;
        Ok(format!("{what}: {seen}  no difference\n"))
    }

    /// Every second general graph. Each share draws all of them, so that the two together are one run from the seed.
    fn share(&self, share: usize) -> Result<Seen, String> {
        let mut random = Random::new(self.seed);
        let mut beside = Beside::default();
        for (k, most) in sizes(self.graphs, self.most).enumerate() {
            let mut rows = general(&mut random, most);
            if random.below(2) == 0 {
                rows = rising(rows);
            }
            let start = some_pairs(&mut random, &rows);
            let again = random.below(4) == 0;
            if k % 2 != share {
                continue;
            }
            match again {
                true => beside.compare_twice(&rows, &start)?,
                false => beside.compare(&rows, &start)?,
            }
            beside.compare(&rows, &nothing(&rows))?;
        }
        Ok(beside.seen)
    }
}

/// Each of these numbers of routes, as often as its graphs are to be made.
fn sizes(graphs: usize, most: &[usize]) -> impl Iterator<Item = usize> + '_ {
    most.iter().flat_map(move |&most| std::iter::repeat_n(most, 10 * graphs / most))
}

/// A comparison, and what it counted.
fn beside(what: &str, compare: impl FnOnce(&mut Beside) -> Result<(), String>) -> Result<String, String> {
    let mut beside = Beside::default();
    compare(&mut beside)?;
    Ok(format!("{what}: {}  no difference\n", beside.seen))
}

/// The most pairs by trying all, beside those that improvement reaches from nothing.
fn tried(rows: &Rows) -> Result<(), String> {
    let (most, ours) = (most_pairs(rows), ours::finished(rows, &nothing(rows))?.len());
    if most != ours {
        return Err(format!("by trying {most} pairs, by improvement {ours}\nrows {}", text::of_rows(rows)));
    }
    Ok(())
}
