//! The three commands: read the files, ask the library, look again, and only then say it.
use crate::filed::{self, Filed};
use crate::improved::{self, fault, Verdict};
use crate::options::Asked;
use crate::plan::{self, Plan};
use crate::proof::Proof;
use crate::table::Table;
use crate::trouble::Trouble;
use crate::{files, picture, recount, told, Said, DONE, NOT_SHOWN};
use std::ffi::OsStr;

/// `wisharek plan`.
pub fn plan(asked: &Asked) -> Result<Said, Trouble> {
    let table = read_table(asked)?;
    let start = asked.start.as_deref().map(|file| read_plan(&table, file)).transpose()?;
    let budget = asked.budget.unwrap_or(u32::MAX);
    let improved = improved::improve(&table, start.as_ref().map(|filed| &filed.plan), budget)?;
    if let Some(out) = &asked.out {
        files::write(out, &filed::write(&table, &improved.plan), &inputs(asked))?;
    }
    let mut text = told::plan(&files::short_name(&asked.table), &table, &improved);
    note_change(&mut text, start.is_some_and(|start| start.changed));
    let status = if improved.plan.set.is_some() { DONE } else { NOT_SHOWN };
    Ok(Said { status, text })
}

/// `wisharek check`.
pub fn check(asked: &Asked) -> Result<Said, Trouble> {
    let table = read_table(asked)?;
    let file = asked.plan.as_deref().unwrap_or_default();
    let Filed { plan, changed } = read_plan(&table, file)?;
    let mut said = judged(asked, &table, &plan, file)?;
    note_change(&mut said.text, changed);
    Ok(said)
}

/// `wisharek explain`.
pub fn explain(asked: &Asked) -> Result<Said, Trouble> {
    let table = read_table(asked)?;
    let (plan, changed) = match &asked.plan {
        None => (improved::improve(&table, None, u32::MAX)?.plan, false),
        Some(file) => {
            let Filed { plan, changed } = read_plan(&table, file)?;
            let mut said = judged(asked, &table, &plan, file)?;
            if said.status != DONE {
                note_change(&mut said.text, changed);
                return Ok(said);
            }
            (plan, changed)
        }
    };
    let proof = Proof::new(files::short_name(&asked.table), &table, &plan)?;
    recount::proof(&table, &proof).map_err(|words| fault(&words))?;
    if let Some(svg) = &asked.svg {
        files::write(svg, &picture::draw(&proof), &inputs(asked))?;
    }
    let mut text = told::proof(&proof);
    note_change(&mut text, changed);
    Ok(Said { status: DONE, text })
}

/// The library's verdict on a plan from a file, in words.
fn judged(asked: &Asked, table: &Table, plan: &Plan, file: &OsStr) -> Result<Said, Trouble> {
    recount::plan(table, plan).map_err(|words| fault(&words))?;
    let verdict = improved::verdict(table, plan)?;
    let surplus = match &plan.set {
        None => None,
        Some(set) => {
            let witness = plan::witness(table, set).ok_or_else(|| fault("the set names no route of the table"))?;
            Some(wisharek::surplus(&table.sheet, &witness).map_err(|refusal| fault(&refusal.to_string()))?)
        }
    };
    let status = if verdict == Verdict::Shown { DONE } else { NOT_SHOWN };
    let what = format!("{} is a plan for {}", files::short_name(file), files::short_name(&asked.table));
    Ok(Said { status, text: told::verdict(&what, plan, &verdict, surplus) })
}

/// Reads the table, as text or as a sheet.
fn read_table(asked: &Asked) -> Result<Table, Trouble> {
    let bytes = files::read(&asked.table)?;
    let file = asked.table.to_string_lossy();
    let table = if asked.sheet { Table::read_sheet(&file, bytes) } else { Table::read(&file, &bytes) };
    Ok(table?)
}

/// Reads a plan file for the table.
fn read_plan(table: &Table, file: &OsStr) -> Result<Filed, Trouble> {
    Ok(filed::read(table, &file.to_string_lossy(), &files::read(file)?)?)
}

/// The files that a command reads.
fn inputs(asked: &Asked) -> Vec<&OsStr> {
    [Some(&asked.table), asked.start.as_ref(), asked.plan.as_ref()]
        .into_iter()
        .flatten()
        .map(|file| file.as_os_str())
        .collect()
}

/// Says that the table is not the one from which the plan file was made.
fn note_change(text: &mut String, changed: bool) {
    if changed {
        text.push_str("\nNote: the table has changed since the plan file was written.\n");
        text.push_str("All that is said here is about the table as it is now.\n");
    }
}
