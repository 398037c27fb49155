//! The proved reader beside the plain one: the bad input, every short sheet over a few bytes, every short sheet over a
//! few numbers, and random sheets, good ones and ones damaged in every way that the format knows.
mod probe;

use sheets::plain::{self, LIMIT};
use sheets::random::Random;

/// Sheets compared, counted by the number of the reply.
#[derive(Default)]
struct Seen([u64; 8]);

impl Seen {
    fn compare(&mut self, sheet: &[u8], what: &str) {
        let plain = plain::reply(sheet, LIMIT);
        assert_eq!(probe::reply(sheet), plain, "{what}: proved reader, plain reading; the sheet is {sheet:?}");
        self.0[plain.0 as usize] += 1;
    }

    fn print(&self, what: &str) {
        let total: u64 = self.0.iter().sum();
        println!("{what}: {total} sheets, by number 0 to 7: {:?}", self.0);
    }
}

#[test]
fn reader_differs_on_bad_input() {
    let mut seen = Seen::default();
    for case in sheets::bad_input::cases() {
        seen.compare(&case.sheet, &case.label);
    }
    seen.print("bad input");
    assert!(seen.0.iter().all(|&times| times > 0), "a reply that no case asks for");
}

/// Hands on every list of up to `longest` things.
fn every_list<T: Copy>(things: &[T], longest: usize, each: &mut impl FnMut(&[T])) {
    fn grow<T: Copy>(list: &mut Vec<T>, things: &[T], longest: usize, each: &mut impl FnMut(&[T])) {
        each(list);
        if list.len() < longest {
            for &thing in things {
                list.push(thing);
                grow(list, things, longest, each);
                list.pop();
            }
        }
    }
    grow(&mut Vec::new(), things, longest, each);
}

#[test]
fn reader_differs_on_few_bytes() {
    let mut seen = Seen::default();
    every_list(&[0, 1, 2, 255], 9, &mut |sheet| seen.compare(sheet, "few bytes"));
    seen.print("every sheet of 0 to 9 bytes, each 0, 1, 2 or 255");
}

#[test]
fn reader_differs_on_few_numbers() {
    let mut seen = Seen::default();
    every_list(&[0, 1, 2, 3], 9, &mut |numbers| seen.compare(&sheets::bytes(numbers), "few numbers"));
    seen.print("every sheet of 0 to 9 numbers, each 0, 1, 2 or 3");
}

#[test]
fn reader_differs_on_random_sheets() {
    let mut random = Random::new(20);
    let mut seen = Seen::default();
    for _ in 0..400_000 {
        // a third of the sheets is sound but for its bytes, a third has sound bytes, and a ninth is sound
        let mut rows = random.rows();
        for _ in 0..random.below(3) {
            random.damage_rows(&mut rows);
        }
        let mut sheet = sheets::write(&rows);
        for _ in 0..random.below(3) {
            random.damage_bytes(&mut sheet);
        }
        seen.compare(&sheet, "random");
    }
    seen.print("random sheets");
    assert!(seen.0.iter().all(|&times| times >= 100), "a reply that too few sheets ask for");
}
