//! A plain reading of the refusals, as their table words them. It is the measure for the proved operations where gamma
//! has nothing to say, and shares no code with them.
use crate::operation::{Operation, IDS, NONE};

/// Number, A and B.
pub type Reply = (u64, u64, u64);

/// What refuses an operation on a pairing with these partners and this kept count, if anything does.
pub fn refusal(partners: &[u32], count: u32, operation: &Operation) -> Option<Reply> {
    bad_pairing(partners, count).or_else(|| match operation {
        Operation::Order | Operation::Edges => None,
        Operation::HasNode(id) => no_such_id(&[*id]),
        Operation::Pair(a, b) => no_such_id(&[*a, *b]).or_else(|| self_pair(&[*a, *b])),
        Operation::Augment(path) => odd(path).or_else(|| no_such_id(path)).or_else(|| self_pair(path)),
        Operation::Mate(id) => no_such_id(&[*id]).or_else(|| unpaired(partners, *id)),
    })
}

/// 10: the lowest id whose partner does not fit, or else a count that is not the number of paired ids.
pub fn bad_pairing(partners: &[u32], count: u32) -> Option<Reply> {
    let fits = |id: u32| {
        let partner = partners[id as usize];
        partner == NONE || (partner < IDS && partner != id && partners[partner as usize] == id)
    };
    if let Some(id) = (0..IDS).find(|&id| !fits(id)) {
        return Some((10, id.into(), partners[id as usize].into()));
    }
    let paired = partners.iter().filter(|&&partner| partner != NONE).count();
    (count as usize != paired).then_some((10, IDS.into(), count.into()))
}

/// 13.
fn odd(path: &[u32]) -> Option<Reply> {
    (path.len() % 2 == 1).then_some((13, path.len() as u64, 0))
}

/// 14, with the lowest position.
fn no_such_id(ids: &[u32]) -> Option<Reply> {
    let position = ids.iter().position(|&id| id >= IDS)?;
    Some((14, position as u64, ids[position].into()))
}

/// 15, with the position of the first id of the first such pair.
fn self_pair(path: &[u32]) -> Option<Reply> {
    let pair = path.chunks_exact(2).position(|pair| pair[0] == pair[1])?;
    Some((15, 2 * pair as u64, path[2 * pair].into()))
}

/// 16.
fn unpaired(partners: &[u32], id: u32) -> Option<Reply> {
    (partners[id as usize] == NONE).then_some((16, id.into(), 0))
}
