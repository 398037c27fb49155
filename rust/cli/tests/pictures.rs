//! The pictures of proof sheets, read again: no two boxes or labels meet, nothing leaves the frame, no label is cut by
//! an edge or a line, and each thick line leads from one route of a pair to the other. Of the examples as committed,
//! and of random layouts; and a picture with one thing moved does not pass.
mod support;
use sheets::random::Random;
use std::collections::BTreeSet;
use std::fs;
use support::{example, run, sessions, Folder, EXAMPLES};

/// An upright rectangle: left, top, right, bottom.
#[derive(Clone, Copy, Debug, PartialEq)]
struct Area {
    left: f64,
    top: f64,
    right: f64,
    bottom: f64,
}

impl Area {
    fn meets(&self, other: &Area) -> bool {
        self.left < other.right && other.left < self.right && self.top < other.bottom && other.top < self.bottom
    }

    fn holds(&self, other: &Area) -> bool {
        self.left <= other.left && other.right <= self.right && self.top <= other.top && other.bottom <= self.bottom
    }

    /// Whether this point is on its edge.
    fn edge(&self, (x, y): (f64, f64)) -> bool {
        let inside = Area { left: x, top: y, right: x, bottom: y };
        self.holds(&inside) && (x == self.left || x == self.right || y == self.top || y == self.bottom)
    }
}

/// A thing in the picture: what it is, where, and the words of a text.
#[derive(Clone, Debug)]
struct Thing {
    class: String,
    area: Area,
    words: String,
}

/// The picture as it reads.
struct Picture {
    frame: Area,
    rects: Vec<Thing>,
    texts: Vec<Thing>,
    lines: Vec<Thing>,
}

/// An attribute of the one element that stands in a line.
fn attribute<'a>(line: &'a str, name: &str) -> &'a str {
    let begin = format!(" {name}=\"");
    let from = line.find(&begin).unwrap_or_else(|| panic!("no {name} in {line}")) + begin.len();
    &line[from..from + line[from..].find('"').unwrap()]
}

fn number(line: &str, name: &str) -> f64 {
    attribute(line, name).parse().unwrap_or_else(|_| panic!("{name} is no number in {line}"))
}

fn read_rect(line: &str) -> Thing {
    let (left, top) = (number(line, "x"), number(line, "y"));
    let area = Area { left, top, right: left + number(line, "width"), bottom: top + number(line, "height") };
    Thing { class: attribute(line, "class").to_string(), area, words: String::new() }
}

/// A text reaches as far as it is told to fit, or as 0.6 of its size for each letter, whichever is more.
fn read_text(line: &str) -> Thing {
    let (left, base, size) = (number(line, "x"), number(line, "y"), number(line, "font-size"));
    let words = &line[line.find('>').unwrap() + 1..line.rfind('<').unwrap()];
    let words = words.replace("&lt;", "<").replace("&gt;", ">").replace("&amp;", "&");
    let width = number(line, "textLength").max(0.6 * size * words.chars().count() as f64);
    let area = Area { left, top: base - 0.8 * size, right: left + width, bottom: base + 0.25 * size };
    Thing { class: attribute(line, "class").to_string(), area, words }
}

/// A line with half its thickness to both sides.
fn read_line(line: &str) -> Thing {
    let (x1, y1, x2, y2) = (number(line, "x1"), number(line, "y1"), number(line, "x2"), number(line, "y2"));
    assert!(x1 == x2 || y1 == y2, "a slanted line: {line}");
    let (across, down) = if x1 == x2 { (3.0, 0.0) } else { (0.0, 3.0) };
    let area = Area {
        left: x1.min(x2) - across,
        top: y1.min(y2) - down,
        right: x1.max(x2) + across,
        bottom: y1.max(y2) + down,
    };
    Thing { class: attribute(line, "class").to_string(), area, words: String::new() }
}

fn read(svg: &str) -> Picture {
    let begins = |begin: &'static str| svg.lines().filter(move |line| line.starts_with(begin));
    let mut rects: Vec<Thing> = begins("<rect ").map(read_rect).collect();
    assert_eq!(rects[0].class, "frame");
    let frame = rects.remove(0).area;
    let root = svg.lines().next().unwrap();
    assert_eq!((number(root, "width"), number(root, "height")), (frame.right, frame.bottom));
    assert_eq!(attribute(root, "viewBox"), format!("0 0 {} {}", frame.right, frame.bottom));
    let texts = begins("<text ").map(read_text).collect();
    Picture { frame, rects, texts, lines: begins("<line ").map(read_line).collect() }
}

fn is(thing: &Thing, class: &str) -> bool {
    thing.class.split(' ').any(|one| one == class)
}

/// What is wrong with the boxes and labels, if something is.
fn crowded(picture: &Picture) -> Option<String> {
    let Picture { frame, rects, texts, lines } = picture;
    let all = rects.iter().chain(texts).chain(lines);
    if let Some(out) = all.clone().find(|thing| !frame.holds(&thing.area)) {
        return Some(format!("leaves the frame: {out:?}"));
    }
    for (place, text) in texts.iter().enumerate() {
        if let Some(other) = texts[place + 1..].iter().find(|other| other.area.meets(&text.area)) {
            return Some(format!("two labels meet: {text:?} {other:?}"));
        }
        if let Some(rect) = rects.iter().find(|rect| rect.area.meets(&text.area) && !rect.area.holds(&text.area)) {
            return Some(format!("a label is cut: {text:?} {rect:?}"));
        }
        if let Some(line) = lines.iter().find(|line| line.area.meets(&text.area)) {
            return Some(format!("a line runs through a label: {text:?} {line:?}"));
        }
    }
    for (place, rect) in rects.iter().enumerate() {
        for other in &rects[place + 1..] {
            let nested = is(other, "chip") && !is(rect, "chip") && rect.area.holds(&other.area);
            if rect.area.meets(&other.area) && !nested {
                return Some(format!("two boxes meet: {rect:?} {other:?}"));
            }
        }
    }
    None
}

/// The name in a chip.
fn name_in<'a>(picture: &'a Picture, chip: &Thing) -> &'a str {
    let inside: Vec<&Thing> = picture.texts.iter().filter(|text| chip.area.holds(&text.area)).collect();
    assert_eq!(inside.len(), 1, "{chip:?} {inside:?}");
    &inside[0].words
}

/// The pairs that the thick lines draw. Each line begins and ends at the edge of a chip, and runs through no other.
fn drawn_pairs(picture: &Picture) -> BTreeSet<BTreeSet<String>> {
    let chips: Vec<&Thing> = picture.rects.iter().filter(|rect| is(rect, "chip")).collect();
    let of_line = |line: &Thing| {
        let Area { left, top, right, bottom } = line.area;
        let upright = right - left == 6.0;
        let ends = match upright {
            true => [(left + 3.0, top), (left + 3.0, bottom)],
            false => [(left, top + 3.0), (right, top + 3.0)],
        };
        assert!(!chips.iter().any(|chip| chip.area.meets(&line.area)), "a line runs through a route: {line:?}");
        let met = ends.map(|end| chips.iter().find(|chip| chip.area.edge(end)).expect("a line that ends nowhere"));
        met.map(|chip| name_in(picture, chip).to_string()).into_iter().collect()
    };
    picture.lines.iter().filter(|line| !is(line, "sample")).map(of_line).collect()
}

/// Holds a picture to itself and to the proof sheet in words.
fn hold(svg: &str, told: &str) {
    let picture = read(svg);
    assert_eq!(crowded(&picture), None);
    let sessions = sessions(told);
    let (pairs, singles): (Vec<_>, Vec<_>) = sessions.into_iter().partition(|session| session.len() == 2);
    assert_eq!(drawn_pairs(&picture), pairs.iter().map(|pair| pair.iter().cloned().collect()).collect());
    let chips = |class: &'static str| picture.rects.iter().filter(move |rect| is(rect, class));
    let over: BTreeSet<&str> = chips("over").map(|chip| name_in(&picture, chip)).collect();
    assert_eq!(over, singles.iter().map(|single| single[0].as_str()).collect());
    assert_eq!(chips("chip").count(), 2 * pairs.len() + singles.len());
    assert_eq!(chips("odd").count(), told.matches("[x] odd ").count());
    assert_eq!(chips("even").count(), told.matches("[ ] even, ").count());
    for chip in chips("chip") {
        let home = if is(chip, "set") { "band" } else { "piece" };
        assert_eq!(chips(home).filter(|rect| rect.area.holds(&chip.area)).count(), 1, "{chip:?} is in no {home}");
    }
}

#[test]
fn picture_of_an_example_is_crowded() {
    for name in EXAMPLES {
        let read = |end: &str| fs::read_to_string(example(&format!("{name}.{end}"))).unwrap();
        hold(&read("svg"), &read("proof.txt"));
    }
}

#[test]
fn crowded_picture_passes() {
    let svg = fs::read_to_string(example("yard.svg")).unwrap();
    let wrong = |was: &str, now: &str| {
        assert!(svg.contains(was), "{was}");
        crowded(&read(&svg.replacen(was, now, 1))).unwrap_or_else(|| panic!("{was} -> {now} is not noticed"))
    };
    let line = |holds: &str| svg.lines().find(|line| line.contains(holds)).unwrap().to_string();
    let set_to = |line: &str, name: &str, now: f64| {
        line.replace(&format!(" {name}=\"{}\"", attribute(line, name)), &format!(" {name}=\"{now}\""))
    };
    let odd = line("piece odd");
    assert!(wrong(&odd, &set_to(&odd, "width", number(&odd, "width") + 30.0)).contains("boxes meet"));
    assert!(wrong(&odd, &set_to(&odd, "height", 9000.0)).contains("leaves the frame"));
    assert!(wrong(&odd, &set_to(&odd, "width", number(&odd, "width") - 90.0)).contains("is cut"));
    let label = line(">Wash<");
    assert!(wrong(&label, &label.replace("Wash", "Wash and wait for it")).contains("labels meet"));
    let pair = svg.lines().find(|line| line.contains("class=\"pair\"") && number(line, "x1") == number(line, "x2"));
    let pair = pair.unwrap();
    assert!(wrong(pair, &set_to(pair, "y2", number(pair, "y2") + 20.0)).contains("through a label"));
}

/// A table of a random layout, with names of any length.
fn random_table(random: &mut Random, routes: usize) -> String {
    let parts = 1 + random.below(30);
    let rows = random.rows_of(routes, parts);
    let long = 1 + random.index(40);
    let name = |route: u32| format!("{route}{}", "&x".repeat(1 + route as usize * 7 % long / 2));
    let mut table = String::new();
    for (one, row) in rows.iter().enumerate() {
        if row.is_empty() {
            table += &format!("{}\n", name(one as u32));
        }
        for &other in row.iter().filter(|&&other| (one as u32) < other) {
            table += &format!("{},{}\n", name(one as u32), name(other));
        }
    }
    table
}

#[test]
fn picture_of_a_random_layout_is_crowded() {
    let (folder, mut random) = (Folder::new("random-pictures"), Random::new(8));
    let mut drawn = 0;
    for round in 0..400 {
        let routes = if round % 40 == 0 { 200 } else { random.index(30) };
        let table = folder.file("table", random_table(&mut random, routes));
        let ran = run(&["explain", &table, "--svg", &folder.gone("svg")]);
        assert_eq!(ran.status, 0, "{ran:?}");
        hold(&folder.read("svg"), &ran.out);
        drawn += routes;
    }
    println!("{drawn} routes drawn in 400 pictures");
}
