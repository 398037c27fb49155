//! A plain reading of what the calls do (docs/BOUNDARY.md): each function takes the buffers of its namesake, leaves in
//! them what that has to leave, and answers its number. It is the measure for the proved calls and shares no code with
//! them. Checks are made one after the other, and parts are found by walking from route to route.
use crate::plain::{self, Reply, LIMIT, NONE};

/// The checks of `wisharek_improve`, 1 to 10: the rows and the partners that it starts from. Which of the largest
/// pairings it leaves is open, so there is no plain reading of the rest.
pub fn start(sheet: &[u8], pairing: &[u8], witness: &[u8]) -> Result<(Vec<Vec<u32>>, Vec<u32>), Reply> {
    let rows = accepted(sheet)?;
    length(8, pairing, 4 * rows.len())?;
    length(9, witness, rows.len())?;
    let partners = plain::numbers(pairing);
    paired(&rows, &partners)?;
    Ok((rows, partners))
}

/// `wisharek_check`.
pub fn check(sheet: &[u8], pairing: &[u8], witness: &[u8], answer: &mut [u8]) -> u32 {
    answered(answer, 3, || {
        let (rows, partners) = start(sheet, pairing, witness)?;
        marked(witness)?;
        let unpaired = partners.iter().filter(|&&partner| partner == NONE).count();
        if unpaired as i64 != left(&rows, witness).surplus() {
            return Err((12, unpaired as u64, 0));
        }
        Ok(vec![])
    })
}

/// `wisharek_surplus`.
pub fn surplus(sheet: &[u8], witness: &[u8], answer: &mut [u8]) -> u32 {
    answered(answer, 4, || {
        let rows = accepted(sheet)?;
        length(9, witness, rows.len())?;
        marked(witness)?;
        Ok(vec![left(&rows, witness).surplus() as u64])
    })
}

/// `wisharek_parts`.
pub fn parts(sheet: &[u8], witness: &[u8], parts: &mut [u8], answer: &mut [u8]) -> u32 {
    answered(answer, 5, || {
        let rows = accepted(sheet)?;
        length(9, witness, rows.len())?;
        length(9, parts, 4 * rows.len())?;
        marked(witness)?;
        let left = left(&rows, witness);
        parts.copy_from_slice(&crate::bytes(&left.least));
        Ok(vec![left.odd, left.set])
    })
}

/// The answer's numbers: those of the reply, then those that the call gives where it accepts, and 0 where it does not.
/// An answer of another length stays as it is, and the call is not made.
fn answered(answer: &mut [u8], numbers: usize, call: impl FnOnce() -> Result<Vec<u64>, Reply>) -> u32 {
    if answer.len() != 8 * numbers {
        return 9;
    }
    let ((number, a, b), after) = match call() {
        Ok(after) => ((0, 0, 0), after),
        Err(reply) => (reply, vec![]),
    };
    let mut told = vec![number.into(), a, b];
    told.extend(after);
    told.resize(numbers, 0);
    let bytes: Vec<u8> = told.iter().flat_map(|x| x.to_le_bytes()).collect();
    answer.copy_from_slice(&bytes);
    number
}

/// 1 to 7: the rows of an accepted sheet.
fn accepted(sheet: &[u8]) -> Result<Vec<Vec<u32>>, Reply> {
    match plain::reply(sheet, LIMIT) {
        (0, _, _) => Ok(plain::rows(sheet).expect("an accepted sheet has rows")),
        refusal => Err(refusal),
    }
}

/// 8 and 9: a buffer that does not have this many bytes.
fn length(number: u32, buffer: &[u8], bytes: usize) -> Result<(), Reply> {
    if buffer.len() == bytes {
        Ok(())
    } else {
        Err((number, 0, 0))
    }
}

/// 10: the lowest route whose partner is neither none nor a route, or is the route itself, or not a neighbour, or does
/// not name the route back.
pub fn paired(rows: &[Vec<u32>], partners: &[u32]) -> Result<(), Reply> {
    for (route, &partner) in partners.iter().enumerate() {
        if partner == NONE {
            continue;
        }
        let other = partner as usize;
        let wrong = other >= rows.len()
            || other == route
            || !rows[route].contains(&partner)
            || partners[other] as usize != route;
        if wrong {
            return Err((10, route as u64, partner.into()));
        }
    }
    Ok(())
}

/// 11: the lowest witness byte above 1.
fn marked(witness: &[u8]) -> Result<(), Reply> {
    match witness.iter().position(|&byte| byte > 1) {
        Some(place) => Err((11, place as u64, witness[place].into())),
        None => Ok(()),
    }
}

/// What is left when the set is taken away.
struct Left {
    /// For each route the least route of its part, or none for a route of the set.
    least: Vec<u32>,
    /// The parts with an odd number of routes.
    odd: u64,
    /// The routes in the set.
    set: u64,
}

impl Left {
    fn surplus(&self) -> i64 {
        self.odd as i64 - self.set as i64
    }
}

/// The parts, each walked from its least route.
fn left(rows: &[Vec<u32>], witness: &[u8]) -> Left {
    let set = witness.iter().filter(|&&byte| byte == 1).count() as u64;
    let mut left = Left { least: vec![NONE; rows.len()], odd: 0, set };
    for route in 0..rows.len() {
        if witness[route] == 1 || left.least[route] != NONE {
            continue;
        }
        left.least[route] = route as u32;
        let mut part = vec![route];
        let mut walked = 0;
        while walked < part.len() {
            for &neighbour in &rows[part[walked]] {
                let neighbour = neighbour as usize;
                if witness[neighbour] == 0 && left.least[neighbour] == NONE {
                    left.least[neighbour] = route as u32;
                    part.push(neighbour);
                }
            }
            walked += 1;
        }
        left.odd += part.len() as u64 % 2;
    }
    left
}
