//! Blocking, demand and margin of a subsystem ("Admission").

use crate::plan::Plan;
use crate::read::{read_unadmitted, Refusal};

/// B: the longest section on a global resource that a task of this row or of a later one declares.
///
/// Local lengths are all 0, so they need not be left out.
pub fn blocking(plan: &Plan, row: usize) -> i64 {
    plan.tasks()
        .iter()
        .filter(|task| task.owner >= row)
        .flat_map(|task| task.uses.values())
        .map(|&length| i64::from(length))
        .max()
        .unwrap_or(0)
}

/// The own budget, B, and what each row before this one can be charged in one period of this one.
pub fn demand(plan: &Plan, row: usize) -> i64 {
    let own = plan.subsystems()[row];
    let before: i64 = plan.subsystems()[..row]
        .iter()
        .map(|other| i64::from(other.budget) * i64::from(own.period.div_ceil(other.period)))
        .sum();
    i64::from(own.budget) + blocking(plan, row) + before
}

pub fn margin_of_row(plan: &Plan, row: usize) -> i64 {
    i64::from(plan.subsystems()[row].period) - demand(plan, row)
}

/// The first row with a negative margin; a plan without one is admitted.
pub fn first_negative(plan: &Plan) -> Option<usize> {
    (0..plan.subsystems().len()).find(|&row| margin_of_row(plan, row) < 0)
}

/// The margin of a row of a plan text. A plan refused with 30 has margins; a row that the plan lacks gives 24 and 0.
pub fn margin(text: &[u8], row: u32) -> Result<i64, Refusal> {
    let plan = read_unadmitted(text)?;
    let row = row as usize;
    if row < plan.subsystems().len() {
        Ok(margin_of_row(&plan, row))
    } else {
        Err(Refusal {
            number: 24,
            beside: 0,
        })
    }
}
