//! When a state is legal for a plan ("State"). Nothing is assumed of the state: rows that the plan lacks make it illegal.

use crate::plan::Plan;
use crate::state::{Job, State, MOST_HELD};
use std::collections::BTreeSet;

pub fn legal(plan: &Plan, state: &State) -> bool {
    state.supplies.len() == plan.subsystems().len()
        && state.jobs.len() == plan.tasks().len()
        && supplies_in_range(plan, state)
        && (0..state.jobs.len()).all(|task| job_in_order(plan, task, &state.jobs[task]))
        && sections_covered(plan, state)
        && (0..plan.subsystems().len()).all(|row| levels_kept(plan, state, row))
        && sections_apart(plan, state)
}

/// Budget left at most the budget, ticks to refill from 1 to the period.
fn supplies_in_range(plan: &Plan, state: &State) -> bool {
    plan.subsystems()
        .iter()
        .zip(&state.supplies)
        .all(|(subsystem, supply)| {
            supply.left <= subsystem.budget && (1..=subsystem.period).contains(&supply.refill)
        })
}

/// What one task holds and waits for, taken by itself. That idle and ready tasks hold nothing is in the type.
fn job_in_order(plan: &Plan, task: usize, job: &Job) -> bool {
    let uses = &plan.tasks()[task].uses;
    let held = job.held();
    let declared = held.iter().all(|resource| uses.contains_key(resource));
    let distinct = held.iter().collect::<BTreeSet<_>>().len() == held.len();
    // A global only in the last place is never more than one.
    let global_only_last = declared
        && held
            .iter()
            .rev()
            .skip(1)
            .all(|&resource| !plan.is_global(resource));
    let wait_in_order = match job {
        Job::Waiting { held, resource } => {
            uses.contains_key(resource)
                && plan.is_global(*resource)
                && declared
                && held.iter().all(|&other| !plan.is_global(other))
                && held.len() < MOST_HELD
        }
        Job::Idle | Job::Ready | Job::Started { .. } => true,
    };
    declared && distinct && global_only_last && held.len() <= MOST_HELD && wait_in_order
}

/// Used is 0 without a section; inside one it is at most the length, and the budget left covers what is left of it.
fn sections_covered(plan: &Plan, state: &State) -> bool {
    (0..plan.subsystems().len()).all(|row| {
        let supply = state.supplies[row];
        let mut lengths = plan
            .members(row)
            .iter()
            .filter_map(|&task| {
                let resource = state.global_held(plan, task)?;
                plan.length(task, resource)
            })
            .peekable();
        if lengths.peek().is_none() {
            return supply.used == 0;
        }
        lengths.all(|length| supply.used <= length && supply.left >= length - supply.used)
    })
}

/// Within a subsystem: a task under way that comes before a holder lies below the ceilings of the holder's locals, and
/// none comes before a task that waits or holds a global.
fn levels_kept(plan: &Plan, state: &State, row: usize) -> bool {
    let members = plan.members(row);
    members.iter().enumerate().all(|(place, &task)| {
        let job = &state.jobs[task];
        let mut before = members[..place]
            .iter()
            .filter(|&&other| state.jobs[other].is_under_way());
        if job.waits_for().is_some() || state.global_held(plan, task).is_some() {
            return before.next().is_none();
        }
        let lowest = job
            .held()
            .iter()
            .filter_map(|&resource| plan.ceiling(resource))
            .min();
        match lowest {
            Some(ceiling) => before.all(|&other| other < ceiling),
            None => true,
        }
    })
}

/// Of two subsystems that hold globals, one lies below the ceiling of what the other holds.
fn sections_apart(plan: &Plan, state: &State) -> bool {
    let sections: Vec<(usize, usize)> = (0..state.jobs.len())
        .filter_map(|task| {
            let resource = state.global_held(plan, task)?;
            Some((plan.owner(task), plan.ceiling(resource)?))
        })
        .collect();
    sections
        .iter()
        .enumerate()
        .all(|(place, &(one, one_ceiling))| {
            sections[place + 1..].iter().all(|&(other, other_ceiling)| {
                one == other || one < other_ceiling || other < one_ceiling
            })
        })
}
