//! Random steps from one legal state to another that no event need make.

use super::random::Random;
use second::legal::legal;
use second::plan::Plan;
use second::state::{Job, State};

/// Alters one thing after another and keeps what leaves the state legal.
pub fn wander(random: &mut Random, plan: &Plan, state: &mut State, tries: usize) {
    for _ in 0..tries {
        let mut altered = state.clone();
        for _ in 0..random.within(1..=3) {
            alter(random, plan, &mut altered);
        }
        if legal(plan, &altered) {
            *state = altered;
        }
    }
}

fn alter(random: &mut Random, plan: &Plan, state: &mut State) {
    let row = random.below(plan.subsystems().len());
    let subsystem = plan.subsystems()[row];
    let supply = &mut state.supplies[row];
    match random.below(6) {
        0 => supply.left = random.within(0..=u32::from(subsystem.budget)) as u16,
        1 => supply.refill = random.within(1..=u32::from(subsystem.period)) as u16,
        2 => supply.used = random.within(0..=4.min(u32::from(subsystem.budget))) as u16,
        _ if state.jobs.is_empty() => supply.left = 0,
        _ => {
            let task = random.below(state.jobs.len());
            state.jobs[task] = job(random, plan, task, &state.jobs[task]);
        }
    }
}

fn job(random: &mut Random, plan: &Plan, task: usize, before: &Job) -> Job {
    let declared: Vec<usize> = plan.tasks()[task].uses.keys().copied().collect();
    let mut held = before.held().to_vec();
    if random.percent(40) {
        held.pop();
    } else if let Some(resource) = random.pick(&declared) {
        held.push(resource);
    }
    match (random.below(6), random.pick(&declared)) {
        (0, _) => Job::Idle,
        (1, _) => Job::Ready,
        (2, Some(resource)) => Job::Waiting { held, resource },
        _ => Job::Started { held },
    }
}
