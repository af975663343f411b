//! What demands 2 and 3 promise of a table that turns made from a start.

use crate::model::Verdict;
use crate::orders::Skip;
use crate::table::Table;

pub fn ensure(holds: bool, fault: &str) -> Result<(), String> {
    if holds {
        Ok(())
    } else {
        Err(fault.to_string())
    }
}

/// Every complete claim has the model's value, and every answer given is it.
pub fn check_values(table: &Table, model: &[Verdict]) -> Result<(), String> {
    let agrees = |claim: u32| table.value(claim).map_or(true, |value| value == model[claim as usize]);
    ensure(table.claims().all(agrees), "a complete claim hasn't the model's value")?;
    for worker in table.workers() {
        let asked = &table.job.asked[worker as usize];
        for (k, &question) in asked.iter().enumerate() {
            let value = model[table.job.questions[question].1 as usize] as u32;
            let expected = if k < table.answered(worker) { value } else { 0 };
            ensure(table.answer(question) == expected, "a question's word isn't its answer")?;
        }
    }
    Ok(())
}

/// The claim's literals: each is complete or stands behind a complete false one
/// in its rule (without order 5: is complete).
fn literals_settled(table: &Table, claim: u32) -> bool {
    table.job.rules_of(claim).iter().all(|rule| {
        let body = table.job.body(rule);
        let failed = body.iter().position(|literal| table.fails(literal)).unwrap_or(body.len());
        let bound = if table.orders.skip == Skip::Off { body.len() } else { failed };
        body[..bound].iter().all(|literal| table.complete(literal.claim))
    })
}

/// What demand 3 promises of the complete claims when all is answered.
pub fn check_end(table: &Table, closure: &[bool]) -> Result<(), String> {
    for claim in table.claims() {
        let led_to = closure[claim as usize];
        ensure(table.owner(claim).is_none(), "a claim is open though all is answered")?;
        ensure(!table.complete(claim) || led_to, "a complete claim isn't led to")?;
        ensure(!table.complete(claim) || literals_settled(table, claim), "a complete claim's literal isn't settled")?;
        ensure(table.orders.skip != Skip::Off || table.complete(claim) == led_to, "a claim led to isn't complete")?;
    }
    for &(_, claim) in &table.job.questions {
        ensure(table.complete(claim), "a claim asked isn't complete")?;
    }
    Ok(())
}
