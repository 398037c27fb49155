//! A plan by route name, and its bytes for one call of the library.
use crate::table::Table;
use wisharek::NONE;

/// Test sessions: pairs of routes that stand together, and single routes. Where it is known, the set of routes that
/// shows that no plan has fewer.
#[derive(Clone, Debug, PartialEq, Eq)]
pub struct Plan {
    pub pairs: Vec<(String, String)>,
    pub singles: Vec<String>,
    pub set: Option<Vec<String>>,
}

impl Plan {
    /// The plan of these bytes. Pairs come by their first route, in the table's order. `None` where the bytes hold a
    /// number that is no route, which a call that accepts does not leave behind.
    pub fn from_bytes(table: &Table, pairing: &[u8], witness: Option<&[u8]>) -> Option<Plan> {
        let names = table.names();
        let (mut pairs, mut singles) = (Vec::new(), Vec::new());
        for (route, four) in pairing.chunks_exact(4).enumerate() {
            let partner = u32::from_le_bytes(four.try_into().ok()?);
            if partner == NONE {
                singles.push(names.get(route)?.clone());
            } else if route < partner as usize {
                pairs.push((names.get(route)?.clone(), names.get(partner as usize)?.clone()));
            }
        }
        let in_set = |witness: &[u8]| {
            names.iter().zip(witness).filter(|(_, &byte)| byte == 1).map(|(name, _)| name.clone()).collect()
        };
        Some(Plan { pairs, singles, set: witness.map(in_set) })
    }

    /// The partners of the plan in bytes. `None` where a name is not the table's.
    pub fn pairing(&self, table: &Table) -> Option<Vec<u8>> {
        let mut partners = vec![NONE; table.routes()];
        for (one, other) in &self.pairs {
            let (one, other) = (table.number(one)?, table.number(other)?);
            partners[one] = other as u32;
            partners[other] = one as u32;
        }
        Some(partners.iter().flat_map(|partner| partner.to_le_bytes()).collect())
    }

    /// How many sessions there are.
    pub fn sessions(&self) -> usize {
        self.pairs.len() + self.singles.len()
    }
}

/// A set of routes in bytes. `None` where a name is not the table's.
pub fn witness(table: &Table, set: &[String]) -> Option<Vec<u8>> {
    let mut witness = vec![0; table.routes()];
    for name in set {
        witness[table.number(name)?] = 1;
    }
    Some(witness)
}
