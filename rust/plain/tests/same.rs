//! The proved improvement and this program: the same pairs, the same witness, the same numbers, from the same start with
//! the same budget.
use plain::{improve, Improved, NONE};
use sheets::random::Random;

const SEED: u64 = 15;

/// The proved improvement, in this program's form.
fn proved(rows: &[Vec<u32>], start: &[u32], budget: u32) -> Improved {
    let sheet = sheets::write(rows);
    let mut pairing = sheets::bytes(start);
    let mut witness = vec![7; rows.len()];
    let said = wisharek::improve(&sheet, &mut pairing, &mut witness, budget).expect("a sound sheet and start");
    let partners = sheets::plain::numbers(&pairing);
    let size = partners.iter().filter(|&&partner| partner != NONE).count() / 2;
    assert_eq!((said.size, said.sessions), (size as u64, (rows.len() - size) as u64), "rows {rows:?}");
    if said.finished {
        assert_eq!(wisharek::check(&sheet, &pairing, &witness), Ok(()), "rows {rows:?}");
    } else {
        assert_eq!(witness, vec![7; rows.len()], "a witness that is not due: rows {rows:?}");
    }
    Improved { pairing: partners, witness: said.finished.then_some(witness), added: said.added as u32 }
}

fn compare(rows: &[Vec<u32>], start: &[u32], budget: u32) -> Improved {
    let plain = improve(rows, start, budget);
    assert_eq!(proved(rows, start, budget), plain, "proved and plain: rows {rows:?}, start {start:?}, budget {budget}");
    plain
}

/// Some of the edges, no two with a route in common.
fn some_pairs(random: &mut Random, rows: &[Vec<u32>]) -> Vec<u32> {
    let mut start = vec![NONE; rows.len()];
    let in_parts = 1 + random.below(8);
    for v in 0..rows.len() {
        for &w in &rows[v] {
            if start[v] == NONE && start[w as usize] == NONE && random.below(in_parts) == 0 {
                start[v] = w;
                start[w as usize] = v as u32;
            }
        }
    }
    start
}

#[test]
fn proved_improvement_differs_from_the_plain_one() {
    let mut random = Random::new(SEED);
    let (mut runs, mut finished, mut added) = (0, 0, 0);
    for most in [5, 8, 12, 20, 40, 100] {
        for _ in 0..60_000 / most {
            let n = random.index(most + 1);
            // from one neighbour on average to six
            let parts = 1 + n as u64 / (1 + random.below(6));
            let rows = random.rows_of(n, parts);
            let start = some_pairs(&mut random, &rows);
            let budget = [0, 1, 2, 3, 10][random.index(5)];
            let nothing = vec![NONE; n];
            for (start, budget) in [(&start, budget), (&start, u32::MAX), (&nothing, budget), (&nothing, u32::MAX)] {
                let improved = compare(&rows, start, budget);
                runs += 1;
                finished += u64::from(improved.finished());
                added += u64::from(improved.added);
            }
        }
    }
    println!(
        "proved beside plain: {runs} runs from seed {SEED}, {finished} finished, {added} pairs added, no difference"
    );
    assert!(finished + 10_000 < runs && added > runs, "runs that say too little");
}

#[test]
fn proved_improvement_differs_from_the_plain_one_on_many_routes() {
    let mut random = Random::new(SEED);
    for (n, parts) in [(257, 1), (300, 100), (511, 150), (512, 255), (512, 300), (512, 40)] {
        let rows = random.rows_of(n, parts);
        let start = some_pairs(&mut random, &rows);
        compare(&rows, &start, u32::MAX);
        let improved = compare(&rows, &vec![NONE; n], u32::MAX);
        println!("{n} routes, one edge in {parts}: {} pairs", improved.added);
    }
}

#[test]
fn reading_differs_from_the_plain_one() {
    let mut random = Random::new(SEED);
    let (mut taken, mut refused) = (0, 0);
    for _ in 0..50_000 {
        let mut rows = random.rows();
        if random.below(2) == 0 {
            random.damage_rows(&mut rows);
        }
        let mut sheet = sheets::write(&rows);
        if random.below(3) == 0 {
            random.damage_bytes(&mut sheet);
        }
        let (number, _, _) = sheets::plain::reply(&sheet, 512);
        let read = plain::rows(&sheet);
        assert_eq!(read.is_ok(), number == 0, "sheet {sheet:?}");
        match read {
            Ok(read) => assert_eq!(Some(read), sheets::plain::rows(&sheet)),
            Err(_) => refused += 1,
        }
        taken += u64::from(number == 0);
    }
    assert!(taken > 10_000 && refused > 10_000, "{taken} taken, {refused} refused");
}
