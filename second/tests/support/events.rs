//! Random events, biased towards those that a state gives an interesting answer to.

use super::random::Random;
use second::choice::choose;
use second::event::Event;
use second::plan::Plan;
use second::state::{Job, State};
use std::ops::RangeInclusive;

/// How often each thing happens in one run, as parts of their sum.
#[derive(Clone, Copy)]
pub struct Mood {
    parts: [usize; 7],
}

impl Mood {
    /// Some runs hardly ever unlock, so that sections outstay their lengths; some hardly ever tick, so that locks nest.
    pub fn random(random: &mut Random) -> Mood {
        let parts = match random.below(4) {
            0 => [30, 15, 20, 10, 5, 10, 2],
            1 => [40, 20, 30, 1, 1, 3, 1],
            2 => [6, 25, 40, 6, 4, 6, 1],
            _ => [60, 10, 10, 8, 6, 5, 1],
        };
        Mood { parts }
    }
}

pub fn event(random: &mut Random, plan: &Plan, state: &State, mood: Mood) -> Event {
    let mut left = random.below(mood.parts.iter().sum());
    let mut kind = 0;
    while left >= mood.parts[kind] {
        left -= mood.parts[kind];
        kind += 1;
    }
    let running = choose(plan, state).running(state);
    match (kind, running) {
        (0, _) => Event::Tick,
        (1, _) => release(random, plan, state),
        (2, Some(task)) => lock(random, plan, task),
        (3, Some(task)) => unlock(random, plan, state, task),
        (4, Some(task)) => Event::End { task: task as u32 },
        (2..=4, None) if random.percent(70) => Event::Tick,
        (6, _) => any_event(random, plan, 5..=40),
        _ => any_event(random, plan, 0..=4),
    }
}

fn any_event(random: &mut Random, plan: &Plan, kinds: RangeInclusive<u32>) -> Event {
    let kind = random.within(kinds);
    let task = any_row(random, plan.tasks().len());
    let resource = any_row(random, plan.resources().len());
    Event::from_numbers(kind, task, resource)
}

/// An idle task if there is one.
fn release(random: &mut Random, plan: &Plan, state: &State) -> Event {
    let idle: Vec<usize> = (0..state.jobs.len())
        .filter(|&task| state.jobs[task] == Job::Idle)
        .collect();
    let task = match random.pick(&idle) {
        Some(task) => task as u32,
        None => any_row(random, plan.tasks().len()),
    };
    Event::Release { task }
}

/// A declared resource, mostly.
fn lock(random: &mut Random, plan: &Plan, task: usize) -> Event {
    let declared: Vec<usize> = plan.tasks()[task].uses.keys().copied().collect();
    let resource = match random.pick(&declared) {
        Some(resource) if random.percent(95) => resource as u32,
        _ => any_row(random, plan.resources().len()),
    };
    Event::Lock {
        task: task as u32,
        resource,
    }
}

/// The resource taken last, mostly.
fn unlock(random: &mut Random, plan: &Plan, state: &State, task: usize) -> Event {
    let resource = match state.jobs[task].held().last() {
        Some(&last) if random.percent(90) => last as u32,
        _ => any_row(random, plan.resources().len()),
    };
    Event::Unlock {
        task: task as u32,
        resource,
    }
}

/// A row that exists, mostly; else one that never does, or any number at all.
pub fn any_row(random: &mut Random, count: usize) -> u32 {
    match random.below(30) {
        0 => random.next() as u32,
        1 => random
            .pick(&[8, 16, 32, 255, 256, 65_536, u32::MAX])
            .unwrap(),
        2 => count as u32,
        _ => random.below(count.max(1)) as u32,
    }
}
