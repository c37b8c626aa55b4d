//! The events one by one ("Events"). The refusals of each kind are tried in the order of its row in the order table.

use crate::choice::choose;
use crate::event::{Answer, Event, Outcome};
use crate::plan::Plan;
use crate::state::{Job, State, MOST_HELD};
use std::collections::BTreeSet;

/// One event on a legal state.
pub fn step(plan: &Plan, state: &mut State, event: Event) -> Outcome {
    let answer = match event {
        Event::Release { task } => release(plan, state, task),
        Event::Lock { task, resource } => lock(plan, state, task, resource),
        Event::Unlock { task, resource } => unlock(plan, state, task, resource),
        Event::End { task } => end(plan, state, task),
        Event::Tick => return tick(plan, state),
        Event::Unknown => Err(Answer::UnknownEvent),
    };
    let choice = choose(plan, state);
    Outcome {
        answer: answer.unwrap_or_else(|refusal| refusal),
        subsystem: choice.subsystem,
        task: choice.running(state),
        ended: BTreeSet::new(),
    }
}

/// Either side is an answer; on the side of the refusals nothing was altered.
type Answered = Result<Answer, Answer>;

/// 2 3, then an idle task becomes ready.
fn release(plan: &Plan, state: &mut State, task: u32) -> Answered {
    let task = existing(task, plan.tasks().len())?;
    refuse_if(state.jobs[task] != Job::Idle, Answer::NotIdle)?;
    state.jobs[task] = Job::Ready;
    Ok(Answer::Done)
}

/// 2 4 5 6 9, then a local is taken, and a global too if the budget left covers its whole length.
fn lock(plan: &Plan, state: &mut State, task: u32, resource: u32) -> Answered {
    let task = existing(task, plan.tasks().len())?;
    let resource = existing(resource, plan.resources().len())?;
    refuse_unless_running(plan, state, task)?;
    let length = plan.length(task, resource).ok_or(Answer::NotDeclared)?;
    let held = state.jobs[task].held();
    let barred = state.global_held(plan, task).is_some() || held.contains(&resource);
    refuse_if(barred, Answer::HoldsGlobalOrThis)?;
    refuse_if(held.len() == MOST_HELD, Answer::FifthHeld)?;
    if plan.is_global(resource) && length > state.supplies[plan.owner(task)].left {
        state.jobs[task].wait(resource);
        Ok(Answer::WaitsForBudget)
    } else {
        state.jobs[task].take(resource);
        Ok(Answer::Done)
    }
}

/// 2 4 7, then the resource taken last is given back; with a global its section is over.
fn unlock(plan: &Plan, state: &mut State, task: u32, resource: u32) -> Answered {
    let task = existing(task, plan.tasks().len())?;
    let resource = existing(resource, plan.resources().len())?;
    refuse_unless_running(plan, state, task)?;
    let taken_last = state.jobs[task].held().last();
    refuse_if(taken_last != Some(&resource), Answer::NotTakenLast)?;
    state.jobs[task].give_back();
    if plan.is_global(resource) {
        state.supplies[plan.owner(task)].used = 0;
    }
    Ok(Answer::Done)
}

/// 2 4 8, then the task becomes idle.
fn end(plan: &Plan, state: &mut State, task: u32) -> Answered {
    let task = existing(task, plan.tasks().len())?;
    refuse_unless_running(plan, state, task)?;
    refuse_if(!state.jobs[task].held().is_empty(), Answer::EndWhileHolding)?;
    state.jobs[task] = Job::Idle;
    Ok(Answer::Done)
}

/// Shuts used-up sections, lets a waiting task in, charges, and moves the clocks on. No refusal.
fn tick(plan: &Plan, state: &mut State) -> Outcome {
    let mut ended = BTreeSet::new();
    let mut choice = choose(plan, state);
    // (a) The choice is made again after each, for the ceiling may have gone up, or another section may be due.
    while let Some(task) = choice
        .task
        .filter(|&task| section_used_up(plan, state, task))
    {
        state.jobs[task] = Job::Idle;
        state.supplies[plan.owner(task)].used = 0;
        ended.insert(task);
        choice = choose(plan, state);
    }
    if let Some(task) = choice.task {
        let_in(plan, state, task);
    }
    let running = choice.running(state);
    if let Some(row) = choice.subsystem {
        charge(plan, state, row, running);
    }
    move_clocks(plan, state);
    Outcome {
        answer: if ended.is_empty() {
            Answer::Done
        } else {
            Answer::SectionShut
        },
        subsystem: choice.subsystem,
        task: running,
        ended,
    }
}

/// Whether the task holds a global and has used its whole length. The tick that uses the last unit leaves it held.
fn section_used_up(plan: &Plan, state: &State, task: usize) -> bool {
    match state.global_held(plan, task) {
        Some(resource) => {
            plan.length(task, resource) == Some(state.supplies[plan.owner(task)].used)
        }
        None => false,
    }
}

/// (b) A chosen task that waits takes its resource once the budget left covers the length.
fn let_in(plan: &Plan, state: &mut State, task: usize) {
    let left = state.supplies[plan.owner(task)].left;
    if let Some(resource) = state.jobs[task].waits_for() {
        if plan
            .length(task, resource)
            .is_some_and(|length| length <= left)
        {
            state.jobs[task].take(resource);
        }
    }
}

/// (c) The chosen subsystem pays, whether one of its tasks runs or not.
fn charge(plan: &Plan, state: &mut State, row: usize, running: Option<usize>) {
    let supply = &mut state.supplies[row];
    // Only a holder is chosen without budget. In a legal state it has used up its section then, so (a) has shut it.
    supply.left = supply
        .left
        .checked_sub(1)
        .expect("the chosen subsystem of a legal state has budget left after (a)");
    if let Some(task) = running {
        state.jobs[task].start();
        if state.global_held(plan, task).is_some() {
            state.supplies[row].used += 1;
        }
    }
}

/// (d) All clocks move on; where a period is over, budget and period are full again.
fn move_clocks(plan: &Plan, state: &mut State) {
    for (subsystem, supply) in plan.subsystems().iter().zip(&mut state.supplies) {
        supply.refill -= 1;
        if supply.refill == 0 {
            supply.left = subsystem.budget;
            supply.refill = subsystem.period;
        }
    }
}

fn refuse_if(wrong: bool, refusal: Answer) -> Result<(), Answer> {
    if wrong {
        Err(refusal)
    } else {
        Ok(())
    }
}

fn refuse_unless_running(plan: &Plan, state: &State, task: usize) -> Result<(), Answer> {
    let running = choose(plan, state).running(state);
    refuse_if(running != Some(task), Answer::NotRunning)
}

fn existing(row: u32, count: usize) -> Result<usize, Answer> {
    let row = row as usize;
    if row < count {
        Ok(row)
    } else {
        Err(Answer::NoSuchRow)
    }
}
