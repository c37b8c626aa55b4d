//! Who is chosen ("Who is chosen").

use crate::plan::Plan;
use crate::state::{Job, State};

/// The subsystem and the task that are chosen, with no regard to whether the task can run.
#[derive(Clone, Copy, Debug, PartialEq, Eq)]
pub struct Choice {
    pub subsystem: Option<usize>,
    pub task: Option<usize>,
}

impl Choice {
    /// The task that runs: the chosen one, unless it waits, for then nothing runs.
    pub fn running(&self, state: &State) -> Option<usize> {
        self.task
            .filter(|&task| state.jobs[task].waits_for().is_none())
    }
}

pub fn choose(plan: &Plan, state: &State) -> Choice {
    let subsystem = chosen_subsystem(plan, state);
    Choice {
        subsystem,
        task: subsystem.and_then(|row| chosen_task(plan, state, row)),
    }
}

/// The first row with budget left. While globals are held it has to lie below the smallest of their ceilings, and when no
/// row does, the holder of that one is chosen, with budget left or without.
fn chosen_subsystem(plan: &Plan, state: &State) -> Option<usize> {
    let system_ceiling = (0..state.jobs.len())
        .filter_map(|task| {
            let resource = state.global_held(plan, task)?;
            Some((plan.ceiling(resource)?, plan.owner(task)))
        })
        .min();
    let mut with_budget = (0..state.supplies.len()).filter(|&row| state.supplies[row].left > 0);
    match system_ceiling {
        None => with_budget.next(),
        Some((ceiling, holder)) => with_budget
            .next()
            .filter(|&row| row < ceiling)
            .or(Some(holder)),
    }
}

/// The first task of the subsystem that is under way, or is ready and below the ceilings of all locals held there. A task
/// that waits or holds a global keeps every ready one out.
fn chosen_task(plan: &Plan, state: &State, subsystem: usize) -> Option<usize> {
    let members = plan.members(subsystem);
    let ready_kept_out = members.iter().any(|&task| {
        state.jobs[task].waits_for().is_some() || state.global_held(plan, task).is_some()
    });
    let local_ceiling = members
        .iter()
        .flat_map(|&task| state.jobs[task].held())
        .filter(|&&resource| !plan.is_global(resource))
        .filter_map(|&resource| plan.ceiling(resource))
        .min();
    members
        .iter()
        .copied()
        .find(|&task| match state.jobs[task] {
            Job::Idle => false,
            Job::Ready => !ready_kept_out && local_ceiling.is_none_or(|ceiling| task < ceiling),
            Job::Started { .. } | Job::Waiting { .. } => true,
        })
}
