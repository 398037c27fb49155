//! The proof sheet as a picture (SVG), for grey print. The routes of the set stand in a grey band. Under each of them
//! is the odd piece from which it takes a route, so that a pair between the two is one upright line. Then come the odd
//! pieces with a route left over, which is black, and the even pieces with a broken frame.
//!
//! All measures are whole numbers. A text is reckoned as wide as its widest likely font, and is told to fit.
use crate::proof::{Piece, Proof};
use crate::told::count;
use std::fmt::Write;

const MARGIN: usize = 24;
/// Rows of pieces are broken at this width, unless one piece is wider.
const WIDEST: usize = 960;
const GAP: usize = 24;
const PAD: usize = 12;
const CHIP: usize = 28;
/// The length of a pair's line between two chips of one piece.
const LINK: usize = 30;
/// Room over the odd route of a piece, for the line to the set or for the words "left over".
const ABOVE: usize = 26;
const TITLE: usize = 26;
/// A tick and the room behind it.
const TICK: usize = 20;
const BAND: usize = 70;
/// Between the band and the pieces under it.
const FALL: usize = 34;
const SMALL: usize = 13;
const PLAIN: usize = 14;
const LARGE: usize = 20;

const STYLE: &str = "\
text{font-family:'DejaVu Sans Mono',Consolas,Menlo,'Courier New',monospace;fill:#000}
.large{font-weight:bold}.frame{fill:#fff}.band{fill:#ccc}.piece{fill:#fff;stroke:#000;stroke-width:2}
.even{stroke-dasharray:7 5}.chip{fill:#fff;stroke:#000;stroke-width:1.5}.over{fill:#000}
text.white{fill:#fff;font-weight:bold}.pair{stroke:#000;stroke-width:6}.tick{fill:none;stroke:#000;stroke-width:3}";

/// The picture of a proof sheet.
pub fn draw(proof: &Proof) -> String {
    let units: Vec<Unit> =
        proof.pieces.iter().enumerate().map(|(before, piece)| Unit::new(piece, before + 1)).collect();
    let mut canvas = Canvas::default();
    let mut bottom = heading(&mut canvas, proof);
    for (before, row) in rows(&units).into_iter().enumerate() {
        let label = if before == 0 { "the set" } else { "the set, continued" };
        bottom = draw_row(&mut canvas, row, label, bottom + GAP);
    }
    footing(&mut canvas, proof, bottom + GAP);
    canvas.finish(&format!("Proof sheet of {}", proof.title))
}

/// Things by layer, so that lines lie over boxes, chips over lines, and texts over all; and how far they reach.
#[derive(Default)]
struct Canvas {
    boxes: String,
    lines: String,
    chips: String,
    texts: String,
    right: usize,
    bottom: usize,
}

impl Canvas {
    fn reach(&mut self, right: usize, bottom: usize) {
        self.right = self.right.max(right);
        self.bottom = self.bottom.max(bottom);
    }

    /// A box of a piece, or the band of the set.
    fn rect(&mut self, class: &str, (x, y): (usize, usize), (width, height): (usize, usize)) {
        let _ = writeln!(self.boxes, r#"<rect class="{class}" x="{x}" y="{y}" width="{width}" height="{height}"/>"#);
        self.reach(x + width, y + height);
    }

    /// A route: its name in a small box.
    fn chip(&mut self, class: &str, (x, y): (usize, usize), width: usize, name: &str) {
        let _ =
            writeln!(self.chips, r#"<rect class="{class}" x="{x}" y="{y}" width="{width}" height="{CHIP}" rx="4"/>"#);
        self.reach(x + width, y + CHIP);
        let white = if class.contains("over") { "plain white" } else { "plain" };
        let start = x + (width - measure(name, PLAIN)) / 2;
        self.text(white, (start, y + CHIP - 9), PLAIN, name);
    }

    /// A text from here to the right, on this line.
    fn text(&mut self, class: &str, (x, y): (usize, usize), size: usize, words: &str) {
        let (length, escaped) = (measure(words, size), escape(words));
        let fit = format!(r#"textLength="{length}" lengthAdjust="spacingAndGlyphs""#);
        let _ =
            writeln!(self.texts, r#"<text class="{class}" x="{x}" y="{y}" font-size="{size}" {fit}>{escaped}</text>"#);
        self.reach(x + length, y + size / 3);
    }

    /// A pair, as a thick line.
    fn pair(&mut self, class: &str, (x1, y1): (usize, usize), (x2, y2): (usize, usize)) {
        let _ = writeln!(self.lines, r#"<line class="{class}" x1="{x1}" y1="{y1}" x2="{x2}" y2="{y2}"/>"#);
        self.reach(x1.max(x2), y1.max(y2));
    }

    /// A tick, in a square of 14.
    fn tick(&mut self, (x, y): (usize, usize)) {
        let points = format!("{},{} {},{} {},{}", x, y + 8, x + 5, y + 13, x + 14, y + 1);
        let _ = writeln!(self.lines, r#"<polyline class="tick" points="{points}"/>"#);
    }

    fn finish(self, title: &str) -> String {
        let (width, height) = (self.right + MARGIN, self.bottom + MARGIN);
        let size = format!(r#"width="{width}" height="{height}" viewBox="0 0 {width} {height}""#);
        let frame = format!(r#"<rect class="frame" x="0" y="0" width="{width}" height="{height}"/>"#);
        let Canvas { boxes, lines, chips, texts, .. } = self;
        format!(
            "<svg xmlns=\"http://www.w3.org/2000/svg\" {size}>\n<title>{}</title>\n<style>{STYLE}</style>\n{frame}\n\
             {boxes}{lines}{chips}{texts}</svg>\n",
            escape(title)
        )
    }
}

/// How wide a text is at most, in a font whose letters are all of one width.
fn measure(words: &str, size: usize) -> usize {
    let hundredths: usize = words.chars().map(|c| if (c as u32) < 0x1100 { 61 } else { 110 }).sum();
    (hundredths * size).div_ceil(100)
}

/// A text as it stands in the file.
fn escape(words: &str) -> String {
    words.replace('&', "&amp;").replace('<', "&lt;").replace('>', "&gt;")
}

/// A piece with its measures: the width of its chips, the columns of its pairs, its own width and height.
struct Unit<'a> {
    piece: &'a Piece,
    title: String,
    chip: usize,
    columns: usize,
    width: usize,
    height: usize,
}

impl<'a> Unit<'a> {
    fn new(piece: &'a Piece, number: usize) -> Unit<'a> {
        let kind = if piece.odd() { format!("odd {number}") } else { "even".to_string() };
        let title = format!("{kind}: {}", count(piece.routes.len(), "route"));
        let longest = piece.routes.iter().map(|name| measure(name, PLAIN)).max().unwrap_or(0);
        let chip = (longest + 2 * 8).max(measure("left over", SMALL));
        let pairs = piece.pairs.len();
        let columns = (1..=pairs.max(1)).find(|&columns| tall(pairs, columns) <= wide(chip, columns)).unwrap_or(1);
        let top = if piece.odd() { ABOVE + CHIP + PAD } else { PAD };
        let inner = [chip, if pairs > 0 { wide(chip, columns) } else { 0 }, TICK + measure(&title, SMALL)];
        Unit {
            width: 2 * PAD + inner.into_iter().max().unwrap_or(0),
            height: top + tall(pairs, columns) + TITLE,
            piece,
            title,
            chip,
            columns,
        }
    }

    /// The chip of the set that takes a route of this piece.
    fn set_chip(&self) -> usize {
        self.piece.taken.as_ref().map_or(0, |(_, by)| measure(by, PLAIN) + 2 * 8)
    }

    /// The width of the piece and of the set's route over it.
    fn full(&self) -> usize {
        self.width.max(self.set_chip() + 2 * PAD)
    }
}

/// The height of the pairs of a piece in so many columns.
fn tall(pairs: usize, columns: usize) -> usize {
    pairs.div_ceil(columns) * (CHIP + PAD)
}

/// The width of so many columns of pairs.
fn wide(chip: usize, columns: usize) -> usize {
    columns * (2 * chip + LINK) + (columns - 1) * GAP
}

/// The pieces in rows that are not too wide.
fn rows<'u, 'p>(units: &'u [Unit<'p>]) -> Vec<&'u [Unit<'p>]> {
    let (mut rows, mut first, mut width) = (Vec::new(), 0, 0);
    for (place, unit) in units.iter().enumerate() {
        if place > first && width + unit.full() > WIDEST {
            rows.push(&units[first..place]);
            (first, width) = (place, 0);
        }
        width += unit.full() + GAP;
    }
    if first < units.len() {
        rows.push(&units[first..]);
    }
    rows
}

/// Draws one row of pieces, with the set's routes in a band over those that have one. Answers how far down it reaches.
fn draw_row(canvas: &mut Canvas, row: &[Unit], label: &str, y: usize) -> usize {
    let taken: usize = row.iter().filter(|unit| unit.piece.taken.is_some()).map(|unit| unit.full() + GAP).sum();
    let top = if taken > 0 { y + BAND + FALL } else { y };
    if taken > 0 {
        let width = (taken - GAP).max(measure(label, SMALL) + 2 * PAD);
        canvas.rect("band", (MARGIN, y), (width, BAND));
        canvas.text("small", (MARGIN + PAD, y + 18), SMALL, label);
    }
    let (mut x, mut bottom) = (MARGIN, top);
    for unit in row {
        let middle = x + unit.full() / 2;
        draw_unit(canvas, unit, middle, top);
        if let Some((_, by)) = &unit.piece.taken {
            let under = y + BAND - PAD;
            canvas.pair("pair", (middle, under), (middle, top + ABOVE));
            canvas.chip("chip set", (middle - unit.set_chip() / 2, under - CHIP), unit.set_chip(), by);
        }
        x += unit.full() + GAP;
        bottom = bottom.max(top + unit.height);
    }
    bottom
}

/// Draws a piece around this middle.
fn draw_unit(canvas: &mut Canvas, unit: &Unit, middle: usize, y: usize) {
    let (left, piece) = (middle - unit.width / 2, unit.piece);
    canvas.rect(if piece.odd() { "piece odd" } else { "piece even" }, (left, y), (unit.width, unit.height));
    let chip_left = middle - unit.chip / 2;
    if let Some((route, _)) = &piece.taken {
        canvas.chip("chip", (chip_left, y + ABOVE), unit.chip, route);
    }
    if let Some(route) = &piece.over {
        let words = "left over";
        canvas.text("small", (middle - measure(words, SMALL) / 2, y + ABOVE - 8), SMALL, words);
        canvas.chip("chip over", (chip_left, y + ABOVE), unit.chip, route);
    }
    draw_pairs(canvas, unit, middle, if piece.odd() { y + ABOVE + CHIP + PAD } else { y + PAD });
    let base = y + unit.height - 9;
    let mut title_left = left + PAD;
    if piece.odd() {
        canvas.tick((title_left, base - 12));
        title_left += TICK;
    }
    canvas.text("small", (title_left, base), SMALL, &unit.title);
}

/// The pairs within a piece, in columns around this middle: two routes and the line between them.
fn draw_pairs(canvas: &mut Canvas, unit: &Unit, middle: usize, top: usize) {
    let chip = unit.chip;
    for (place, (one, other)) in unit.piece.pairs.iter().enumerate() {
        let left = middle - wide(chip, unit.columns) / 2 + place % unit.columns * (2 * chip + LINK + GAP);
        let (right, y) = (left + chip + LINK, top + place / unit.columns * (CHIP + PAD));
        canvas.pair("pair", (left + chip, y + CHIP / 2), (right, y + CHIP / 2));
        canvas.chip("chip", (left, y), chip, one);
        canvas.chip("chip", (right, y), chip, other);
    }
}

/// The title, the counts and what the signs mean. Answers how far down it reaches.
fn heading(canvas: &mut Canvas, proof: &Proof) -> usize {
    let y = MARGIN + LARGE;
    canvas.text("large", (MARGIN, y), LARGE, &format!("Proof sheet: {}", proof.title));
    let plan = &proof.plan;
    let counts = format!(
        "{}: {}, {} left over, so {}",
        count(proof.routes, "route"),
        count(plan.pairs.len(), "pair"),
        plan.singles.len(),
        count(plan.sessions(), "session")
    );
    canvas.text("plain", (MARGIN, y + 26), PLAIN, &counts);
    canvas.pair("pair sample", (MARGIN, y + 48), (MARGIN + 40, y + 48));
    canvas.text("small", (MARGIN + 50, y + 52), SMALL, "a pair of the plan");
    let x = MARGIN + 50 + measure("a pair of the plan", SMALL) + GAP;
    canvas.tick((x, y + 41));
    canvas.text("small", (x + TICK, y + 52), SMALL, "an odd piece");
    y + 56
}

/// The sum, and why no plan can do better.
fn footing(canvas: &mut Canvas, proof: &Proof, y: usize) {
    let (odd, set, over) = (proof.odd(), proof.set.len(), proof.plan.singles.len());
    let sum = format!("{} - {} in the set = {over} left over", count(odd, "odd piece"), count(set, "route"));
    canvas.text("plain", (MARGIN, y + PLAIN), PLAIN, &sum);
    let words = [
        "A route may stand with its own piece and with the set, and with no other piece.",
        "Each odd piece leaves one route over, unless one of the set's routes takes it.",
        "Compatible pairs that the plan does not use are not drawn: the table has them.",
    ];
    for (line, words) in words.into_iter().enumerate() {
        canvas.text("small", (MARGIN, y + 2 * PLAIN + 12 + 18 * line), SMALL, words);
    }
}
