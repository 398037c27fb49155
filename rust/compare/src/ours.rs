//! What the proved calls say.
use crate::{Partners, Rows};
use sheets::plain::{numbers, Reply};
use wisharek::NONE;

/// The pairs, by lower id and rising.
pub type Pairs = Vec<(usize, usize)>;

/// Number, A and B of the reader's reply: the refusals 1 to 7 of `wisharek_surplus` with the empty set.
pub fn reading(rows: &Rows) -> Reply {
    match wisharek::surplus(&sheets::write(rows), &vec![0; rows.len()]) {
        Ok(_) => (0, 0, 0),
        Err(refusal) => (refusal.number, refusal.a, refusal.b),
    }
}

/// The pairs after improvement without limit. Its witness has to be accepted, so their number is the largest.
pub fn finished(rows: &Rows, start: &Partners) -> Result<Pairs, String> {
    let (sheet, mut pairing, mut witness) = (sheets::write(rows), sheets::bytes(start), vec![0; rows.len()]);
    let said = wisharek::improve(&sheet, &mut pairing, &mut witness, u32::MAX)
        .map_err(|refusal| format!("wisharek_improve refuses a sound input: {refusal}"))?;
    wisharek::check(&sheet, &pairing, &witness)
        .map_err(|refusal| format!("wisharek_check refuses what wisharek_improve left: {refusal}"))?;
    let pairs = pairs(&numbers(&pairing));
    if !said.finished || said.size != pairs.len() as u64 {
        return Err(format!("wisharek_improve without limit says {said:?} and leaves {} pairs", pairs.len()));
    }
    Ok(pairs)
}

/// The pairs of these partners.
pub fn pairs(partners: &[u32]) -> Pairs {
    let lower = |&(v, &w): &(usize, &u32)| w != NONE && v < w as usize;
    partners.iter().enumerate().filter(lower).map(|(v, &w)| (v, w as usize)).collect()
}

/// The partners of these pairs.
pub fn partners(n: usize, pairs: &[(usize, usize)]) -> Partners {
    let mut partners = vec![NONE; n];
    for &(v, w) in pairs {
        partners[v] = w as u32;
        partners[w] = v as u32;
    }
    partners
}
