//! What has to hold around every single step, and of charges over a whole run.

use second::event::{Answer, Event, Outcome};
use second::legal::legal;
use second::plan::Plan;
use second::state::{Job, State};
use second::step::step;
use std::collections::BTreeMap;

/// One step with everything that has to hold around it.
pub fn judged_step(plan: &Plan, state: &mut State, event: Event) -> Outcome {
    let before = state.clone();
    let outcome = step(plan, state, event);
    let told = || format!("{event:?}, {outcome:?}, on\n{before:?}\nleft\n{state:?}");
    assert!(legal(plan, state), "not legal: {}", told());
    holders(state);
    if outcome.answer.is_refusal() {
        assert_eq!(*state, before, "refused, yet altered: {}", told());
    }
    let shut = outcome.answer == Answer::SectionShut;
    assert_eq!(shut, !outcome.ended.is_empty(), "{}", told());
    if let Event::Lock { task, resource } = event {
        judge_lock(plan, &before, &outcome, task as usize, resource as usize);
    }
    assert!(
        clocks_fit(plan, &before, state, event, &outcome),
        "{}",
        told()
    );
    assert!(
        sections_fit(plan, &before, state, event, &outcome),
        "{}",
        told()
    );
    assert!(jobs_fit(&before, state, event, &outcome), "{}", told());
    assert!(waits_fit(plan, &before, event, &outcome), "{}", told());
    outcome
}

/// Who holds each resource; fails when two do.
pub fn holders(state: &State) -> BTreeMap<usize, usize> {
    let mut holders = BTreeMap::new();
    for (task, job) in state.jobs.iter().enumerate() {
        for &resource in job.held() {
            let other = holders.insert(resource, task);
            assert_eq!(
                other, None,
                "resource {resource} is held twice in\n{state:?}"
            );
        }
    }
    holders
}

/// A lock that is not refused finds its resource free, and waits exactly when a global's length is above the budget left.
fn judge_lock(plan: &Plan, before: &State, outcome: &Outcome, task: usize, resource: usize) {
    if outcome.answer.is_refusal() {
        return;
    }
    let holder = holders(before).get(&resource).copied();
    assert_eq!(holder, None, "resource {resource} was held in\n{before:?}");
    let left = before.supplies[plan.owner(task)].left;
    let waits = plan.length(task, resource).unwrap() > left;
    assert_eq!(
        waits,
        outcome.answer == Answer::WaitsForBudget,
        "{before:?}"
    );
}

/// Only ticks move clocks and charge, and what they charge is what they say.
fn clocks_fit(plan: &Plan, before: &State, after: &State, event: Event, outcome: &Outcome) -> bool {
    plan.subsystems()
        .iter()
        .enumerate()
        .all(|(row, subsystem)| {
            let (before, after) = (before.supplies[row], after.supplies[row]);
            let charge = u16::from(outcome.subsystem == Some(row));
            let expected = match event {
                Event::Tick if before.refill == 1 => (subsystem.budget, subsystem.period),
                Event::Tick => (before.left - charge, before.refill - 1),
                _ => (before.left, before.refill),
            };
            (after.left, after.refill) == expected
        })
}

/// A section counts the ticks that its task runs, through a refill too; it is shut when used up and never runs on.
fn sections_fit(
    plan: &Plan,
    before: &State,
    after: &State,
    event: Event,
    outcome: &Outcome,
) -> bool {
    (0..plan.tasks().len()).all(|task| {
        let row = plan.owner(task);
        let (used, used_after) = (before.supplies[row].used, after.supplies[row].used);
        let ran = u16::from(event == Event::Tick && outcome.task == Some(task));
        let ended = outcome.ended.contains(&task);
        let section = before.global_held(plan, task);
        match (section, after.global_held(plan, task)) {
            (None, None) => !ended,
            (None, Some(_)) => !ended && used_after == ran,
            (Some(held), None) => {
                let used_up = plan.length(task, held) == Some(used);
                used_after == 0 && ended == (event == Event::Tick) && (used_up || !ended)
            }
            (Some(held), Some(still)) => held == still && !ended && used_after == used + ran,
        }
    })
}

/// An event touches its own task only, a tick those it ended and the one it ran, which is under way from then on.
fn jobs_fit(before: &State, after: &State, event: Event, outcome: &Outcome) -> bool {
    (0..before.jobs.len()).all(|task| {
        let (was, is) = (&before.jobs[task], &after.jobs[task]);
        match event {
            Event::Tick if outcome.ended.contains(&task) => *is == Job::Idle,
            Event::Tick if outcome.task == Some(task) => match was.waits_for() {
                Some(resource) => is.waits_for().is_none() && is.held().last() == Some(&resource),
                None => matches!(is, Job::Started { held } if held == was.held()),
            },
            Event::Release { task: own }
            | Event::Lock { task: own, .. }
            | Event::Unlock { task: own, .. }
            | Event::End { task: own }
                if own == task as u32 =>
            {
                outcome.answer.is_refusal() || is != was
            }
            _ => is == was,
        }
    })
}

/// A tick that charges a subsystem with a waiting task runs that task or nothing, by the budget left before the charge.
fn waits_fit(plan: &Plan, before: &State, event: Event, outcome: &Outcome) -> bool {
    let (Event::Tick, Some(row)) = (event, outcome.subsystem) else {
        return true;
    };
    plan.members(row).iter().all(|&task| {
        let Some(resource) = before.jobs[task].waits_for() else {
            return true;
        };
        let granted = plan.length(task, resource).unwrap() <= before.supplies[row].left;
        outcome.task == granted.then_some(task)
    })
}

/// Charges counted from the answers of ticks alone, never from a state.
pub struct Ledger {
    charged: Vec<u16>,
    ticks: Vec<u16>,
}

impl Ledger {
    pub fn new(plan: &Plan) -> Ledger {
        let rows = plan.subsystems().len();
        Ledger {
            charged: vec![0; rows],
            ticks: vec![0; rows],
        }
    }

    pub fn tick(&mut self, plan: &Plan, charged: Option<usize>) {
        if let Some(row) = charged {
            self.charged[row] += 1;
        }
        for (row, subsystem) in plan.subsystems().iter().enumerate() {
            assert!(
                self.charged[row] <= subsystem.budget,
                "subsystem {row} was charged more than its budget in one period"
            );
            self.ticks[row] += 1;
            if self.ticks[row] == subsystem.period {
                assert_eq!(
                    self.charged[row], subsystem.budget,
                    "charges of subsystem {row} in a complete period"
                );
                self.charged[row] = 0;
                self.ticks[row] = 0;
            }
        }
    }

    /// How many periods the latest tick completed.
    pub fn just_completed(&self) -> usize {
        self.ticks.iter().filter(|&&ticks| ticks == 0).count()
    }
}
