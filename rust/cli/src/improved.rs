//! Plans from the library, and its verdict on plans. What the verdict is asked about is the plan by name, mapped
//! through the table anew: what is printed is what was checked.
use crate::plan::{self, Plan};
use crate::recount;
use crate::table::Table;
use crate::trouble::Trouble;

/// A plan that the library has made.
pub struct Improved {
    pub plan: Plan,
    /// The pairs that it has more than the start.
    pub added: u64,
}

/// What the library's checker says of a plan and its set.
#[derive(Debug, PartialEq, Eq)]
pub enum Verdict {
    /// No plan has fewer sessions.
    Shown,
    /// The set does not show it.
    NotShown,
}

/// Adds at most `budget` pairs to the start, or to nothing. A plan that is finished has been checked, and every plan
/// has been looked up in the table's text.
pub fn improve(table: &Table, start: Option<&Plan>, budget: u32) -> Result<Improved, Trouble> {
    let mut pairing = match start {
        Some(plan) => {
            plan.pairing(table).ok_or_else(|| fault("the start names a route that the table does not have"))?
        }
        None => vec![0xff; 4 * table.routes()],
    };
    let mut witness = vec![0; table.routes()];
    let done =
        wisharek::improve(&table.sheet, &mut pairing, &mut witness, budget).map_err(|r| fault(&r.to_string()))?;
    let plan = Plan::from_bytes(table, &pairing, done.finished.then_some(&witness[..]))
        .ok_or_else(|| fault("the library's pairing names a number that is no route"))?;
    if (plan.pairs.len() as u64, plan.sessions() as u64) != (done.size, done.sessions) {
        return Err(fault("the sessions do not add up to the library's count"));
    }
    if done.finished && verdict(table, &plan)? != Verdict::Shown {
        return Err(fault("the library's checker does not accept its plan"));
    }
    recount::plan(table, &plan).map_err(|words| fault(&words))?;
    Ok(Improved { plan, added: done.added })
}

/// Asks the library's checker. A plan without a set is not shown.
pub fn verdict(table: &Table, plan: &Plan) -> Result<Verdict, Trouble> {
    let Some(set) = &plan.set else { return Ok(Verdict::NotShown) };
    let (Some(pairing), Some(witness)) = (plan.pairing(table), plan::witness(table, set)) else {
        return Err(fault("the plan names a route that the table does not have"));
    };
    match wisharek::check(&table.sheet, &pairing, &witness) {
        Ok(()) => Ok(Verdict::Shown),
        Err(refusal) if refusal.number == 12 => Ok(Verdict::NotShown),
        Err(refusal) => Err(fault(&refusal.to_string())),
    }
}

/// A fault of this program.
pub fn fault(words: &str) -> Trouble {
    Trouble::Fault(words.to_string())
}
