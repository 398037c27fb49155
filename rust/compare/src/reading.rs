//! Rows accepted or refused: gamma's `TryFrom<Vec<Vec<usize>>>` beside the proved reader. Kind and ids have to be the same;
//! a route that is its own neighbour alone is refused here, with 7, where gamma accepts it.
use crate::{ours, text, Rows};
use gamma::graph::{DefaultGraph, Error, Graph};
use sheets::plain::Reply;
use sheets::random::Random;

/// Rows compared, by the number of our reply.
#[derive(Default)]
pub struct Read(pub [u64; 8]);

impl Read {
    /// Reads the rows both ways.
    pub fn compare(&mut self, rows: &Rows) -> Result<(), String> {
        let (ours, theirs) = (ours::reading(rows), theirs(rows)?);
        let expected = match theirs {
            (0, _, _) => own_neighbour(rows).unwrap_or((0, 0, 0)),
            refused => refused,
        };
        if ours != expected {
            return Err(format!("gamma says {theirs:?}, the reader {ours:?}\nrows {}", text::of_rows(rows)));
        }
        self.0[ours.0 as usize] += 1;
        Ok(())
    }

    /// Random rows, most of them damaged in one place or more, and some of them numbers without any order.
    pub fn random(&mut self, random: &mut Random) -> Result<(), String> {
        let mut rows = if random.below(4) == 0 { any_numbers(random) } else { random.rows() };
        for _ in 0..random.below(4) {
            random.damage_rows(&mut rows);
        }
        self.compare(&rows)
    }

    /// All rows of up to two routes with up to three entries from 0 to 2, and of three routes with up to two from 0 to 3.
    pub fn small(&mut self) -> Result<(), String> {
        for (routes, entries, longest) in [(0, 0, 0), (1, 3, 3), (2, 3, 3), (3, 4, 2)] {
            let lists = lists(entries, longest);
            for number in 0..lists.len().pow(routes) {
                let row = |k| lists[number / lists.len().pow(k) % lists.len()].clone();
                self.compare(&(0..routes).map(row).collect())?;
            }
        }
        Ok(())
    }
}

/// gamma's reply, with the number of the refusal that has its kind. What it accepts has the order and size of the rows.
pub fn theirs(rows: &Rows) -> Result<Reply, String> {
    let rows_of_gamma: Vec<Vec<usize>> = rows.iter().map(|row| row.iter().map(|&w| w as usize).collect()).collect();
    let wide = |id: usize| id as u64;
    Ok(match DefaultGraph::try_from(rows_of_gamma) {
        Err(Error::UnknownId(id)) => (4, wide(id), 0),
        Err(Error::DuplicateEdge(row, entry)) => (5, wide(row), wide(entry)),
        Err(Error::MissingEdge(entry, row)) => (6, wide(entry), wide(row)),
        Err(Error::DuplicateId(id)) => return Err(format!("gamma says DuplicateId({id}), which rows cannot bring")),
        Ok(graph) => {
            let own = (0..rows.len()).filter(|&v| rows[v].contains(&(v as u32))).count();
            let entries = rows.iter().map(Vec::len).sum::<usize>() - own;
            if (graph.order(), 2 * graph.size()) != (rows.len(), entries) {
                return Err(format!("gamma has order {} and size {}", graph.order(), graph.size()));
            }
            (0, 0, 0)
        }
    })
}

/// 7: the lowest route that is its own neighbour.
fn own_neighbour(rows: &Rows) -> Option<Reply> {
    let route = (0..rows.len()).find(|&v| rows[v].contains(&(v as u32)))?;
    Some((7, route as u64, 0))
}

/// Few routes, and numbers without any order in their rows.
fn any_numbers(random: &mut Random) -> Rows {
    let n = 1 + random.index(4);
    (0..n).map(|_| (0..random.index(4)).map(|_| random.below(n as u64 + 1) as u32).collect()).collect()
}

/// All lists of up to so many numbers below `end`.
fn lists(end: u32, longest: usize) -> Vec<Vec<u32>> {
    let mut lists = vec![vec![]];
    let mut from = 0;
    for _ in 0..longest {
        let to = lists.len();
        for k in from..to {
            for x in 0..end {
                lists.push([&lists[k][..], &[x]].concat());
            }
        }
        from = to;
    }
    lists
}
