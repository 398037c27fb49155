//! Graphs of the kinds on which a search for one more pair goes different ways.
use crate::random::{around_a_set, Layout};
use sheets::random::Random;

/// Makes a graph of n routes, with pairs to start with or none.
type Kind = fn(&mut Random, usize) -> Layout;

/// The kinds by name.
pub const KINDS: [(&str, Kind); 13] = [
    ("any", any),
    ("sparse", sparse),
    ("all joined", all_joined),
    ("no edges", |_, n| Layout::new(n)),
    ("path", |_, n| path(n)),
    ("ring", ring),
    ("tree", tree),
    ("star", star),
    ("two sides", two_sides),
    ("odd parts", odd_parts),
    ("rings in rings", rings_in_rings),
    ("flowers", flowers),
    ("triangles on hubs", triangles_on_hubs),
];

/// A graph of some kind, with its name. In half of them the routes have other numbers and rows are in any order.
pub fn graph(random: &mut Random, n: usize) -> (&'static str, Layout) {
    let choice = random.index(KINDS.len() + 2);
    let Some(&(name, kind)) = KINDS.get(choice) else { return ("around a set", fewer_pairs(random, n)) };
    let layout = kind(random, n);
    (name, if random.below(2) == 0 { layout } else { renumbered(random, &layout) })
}

/// A graph with a largest pairing by the way it is made, less some pairs: nothing, a few or all of them are taken away.
fn fewer_pairs(random: &mut Random, n: usize) -> Layout {
    let mut layout = around_a_set(random, n);
    let kept = [1, 2, 8, 1 + n as u64][random.index(4)];
    for v in 0..n {
        if layout.partners[v] != wisharek::NONE && random.below(kept) == 0 {
            let partner = layout.partners[v] as usize;
            layout.partners[v] = wisharek::NONE;
            layout.partners[partner] = wisharek::NONE;
        }
    }
    layout
}

/// The same graph with other numbers for its routes, and its rows in any order.
fn renumbered(random: &mut Random, layout: &Layout) -> Layout {
    let n = layout.rows.len();
    let mut number: Vec<usize> = (0..n).collect();
    random.shuffle(&mut number);
    let mut other = Layout::new(n);
    for (v, row) in layout.rows.iter().enumerate() {
        other.rows[number[v]] = row.iter().map(|&w| number[w as usize] as u32).collect();
    }
    other.rows.iter_mut().for_each(|row| random.shuffle(row));
    other
}

/// One in so many of the possible edges, from all to a few.
fn any(random: &mut Random, n: usize) -> Layout {
    let parts = 1 + random.below(4);
    Layout { rows: random.rows_of(n, parts), ..Layout::new(n) }
}

/// One to three edges for each route.
fn sparse(random: &mut Random, n: usize) -> Layout {
    let parts = 1 + (n as u64) / (1 + random.below(3));
    Layout { rows: random.rows_of(n, parts), ..Layout::new(n) }
}

fn all_joined(_: &mut Random, n: usize) -> Layout {
    Layout { rows: sheets::all_joined(n as u32), ..Layout::new(n) }
}

fn path(n: usize) -> Layout {
    let mut layout = Layout::new(n);
    (1..n).for_each(|v| layout.join(v - 1, v));
    layout
}

/// An odd ring where n is odd, and else one with a route on a stem.
fn ring(random: &mut Random, n: usize) -> Layout {
    let around = if n % 2 == 1 { n } else { n.saturating_sub(1) };
    let mut layout = Layout::new(n);
    (0..around).for_each(|v| layout.join(v, (v + 1) % around));
    if around < n {
        layout.join(around, random.index(around));
    }
    layout
}

/// Each route on one before it: any, or one of the last three, which makes long branches.
fn tree(random: &mut Random, n: usize) -> Layout {
    let mut layout = Layout::new(n);
    let near = random.below(2) == 0;
    for v in 1..n {
        let back = if near { v.min(3) } else { v };
        layout.join(v, v - 1 - random.index(back));
    }
    layout
}

fn star(random: &mut Random, n: usize) -> Layout {
    let mut layout = Layout::new(n);
    if n > 0 {
        let centre = random.index(n);
        (0..n).for_each(|v| layout.join(centre, v));
    }
    layout
}

/// Edges only between one side and the other.
fn two_sides(random: &mut Random, n: usize) -> Layout {
    let mut layout = Layout::new(n);
    let (side, parts) = (random.index(n + 1), 1 + random.below(5 + n as u64 / 4));
    for v in 0..side {
        for w in side..n {
            if random.below(parts) == 0 {
                layout.join(v, w);
            }
        }
    }
    layout
}

/// Odd rings and odd parts with all joined, side by side.
fn odd_parts(random: &mut Random, n: usize) -> Layout {
    let mut layout = Layout::new(n);
    let mut begin = 0;
    while begin < n {
        let routes = (1 + 2 * random.index(5)).min(n - begin);
        let all = random.below(2) == 0;
        for v in 0..routes {
            layout.join(begin + v, begin + (v + 1) % routes);
            (0..v).filter(|_| all).for_each(|w| layout.join(begin + v, begin + w));
        }
        begin += routes;
    }
    layout
}

/// Grows routes `begin` to `end` - 1 into rings upon rings, from route `begin`. Each ear goes from a route that is
/// there to another, or back to the same, over an even number of new ones. So the whole is a ring of rings, which a
/// search contracts one by one. A route that is left over hangs on.
fn grow_rings(random: &mut Random, layout: &mut Layout, begin: usize, end: usize) {
    let mut there = begin + 1;
    while there + 2 <= end {
        let ear = (2 + 2 * random.index(3)).min((end - there) / 2 * 2);
        let (from, to) = (begin + random.index(there - begin), begin + random.index(there - begin));
        layout.join(from, there);
        (1..ear).for_each(|k| layout.join(there + k - 1, there + k));
        layout.join(there + ear - 1, to);
        there += ear;
    }
    if there < end {
        layout.join(there, begin + random.index(there - begin));
    }
}

fn rings_in_rings(random: &mut Random, n: usize) -> Layout {
    let mut layout = Layout::new(n);
    if n > 0 {
        grow_rings(random, &mut layout, 0, n);
    }
    layout
}

/// Stems with rings upon rings at their ends, and some edges from one to another.
fn flowers(random: &mut Random, n: usize) -> Layout {
    let mut layout = Layout::new(n);
    let mut begin = 0;
    while begin < n {
        let end = begin + (5 + random.index(n / 2 + 1)).min(n - begin);
        let tip = begin + random.index((end - begin).div_ceil(2));
        (begin..tip).for_each(|v| layout.join(v, v + 1));
        grow_rings(random, &mut layout, tip, end);
        begin = end;
    }
    for _ in 0..random.index(4).min(n) {
        layout.join(random.index(n), random.index(n));
    }
    layout
}

/// Triangles, each joined to some of a few hubs by some of its routes.
fn triangles_on_hubs(random: &mut Random, n: usize) -> Layout {
    let mut layout = Layout::new(n);
    let hubs = random.index(n / 3 + 1);
    for v in hubs..n {
        // the routes of its triangle that come before it
        (v - (v - hubs) % 3..v).for_each(|w| layout.join(v, w));
        if hubs > 0 && random.below(2) == 0 {
            layout.join(v, random.index(hubs));
        }
    }
    layout
}
