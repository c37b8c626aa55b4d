//! Demand 3 as a hunt: tight plans, greedy events, charges counted from the answers of ticks alone.

#[path = "../../second/tests/support/mod.rs"]
mod support;

use second::block::to_block;
use second::choice::choose;
use second::event::Event;
use second::image::from_image;
use second::plan::Plan;
use second::state::{Job, State};
use second::step::step;
use std::collections::BTreeSet;
use support::laws::Ledger;
use support::plans::{plan, Sketch};
use support::random::{each_case, Random};

/// Ticks of each run.
const TICKS: u32 = 250;

/// A plan in which some row has a margin of 0 or 1.
fn tight_plan(random: &mut Random) -> (Sketch, Plan) {
    loop {
        let (sketch, plan) = plan(random);
        if (0..plan.subsystems().len()).any(|row| sketch.margin(row) <= 1) {
            return (sketch, plan);
        }
    }
}

/// Jobs that want everything: all are released at once, the one that runs locks what it may, and nothing is given back.
fn greedy(random: &mut Random, plan: &Plan, state: &State) -> Event {
    if random.percent(45) {
        return Event::Tick;
    }
    let running = choose(plan, state).running(state);
    if let Some(task) = running {
        let declared: Vec<usize> = plan.tasks()[task].uses.keys().copied().collect();
        if let (Some(resource), true) = (random.pick(&declared), random.percent(85)) {
            let (task, resource) = (task as u32, resource as u32);
            return Event::Lock { task, resource };
        }
    }
    let idle: Vec<usize> = (0..state.jobs.len())
        .filter(|&task| state.jobs[task] == Job::Idle)
        .collect();
    match random.pick(&idle) {
        Some(task) => Event::Release { task: task as u32 },
        None => Event::Tick,
    }
}

fn numbers(event: Event) -> [u32; 3] {
    match event {
        Event::Release { task } => [0, task, 0],
        Event::Lock { task, resource } => [1, task, resource],
        Event::Unlock { task, resource } => [2, task, resource],
        Event::End { task } => [3, task, 0],
        Event::Tick => [4, 0, 0],
        Event::Unknown => [5, 0, 0],
    }
}

/// The proved library, through its bytes.
#[test]
fn the_proved_library_charges_each_budget() {
    let (mut periods, mut margins, mut shut) = (0, BTreeSet::new(), 0_u64);
    each_case(1_200, |random| {
        let (sketch, plan) = tight_plan(random);
        for row in 0..plan.subsystems().len() {
            margins.insert(sketch.margin(row).min(2));
        }
        let block = to_block(&plan);
        let mut image = vec![0; 320];
        assert_eq!(compare::fresh(&block, &mut image), 0);
        let mut ledger = Ledger::new(&plan);
        let mut ticks = 0;
        while ticks < TICKS {
            let state = from_image(&plan, &image).expect("a run stays legal");
            let event = greedy(random, &plan, &state);
            let [kind, task, resource] = numbers(event);
            let (mut subsystem, mut running, mut ended) = (77, 77, 77);
            let answer = compare::step(
                &block,
                &mut image,
                kind,
                task,
                resource,
                &mut subsystem,
                &mut running,
                &mut ended,
            );
            assert!(answer <= 11, "answer {answer}");
            shut += u64::from(answer == 10);
            if kind == 4 {
                ticks += 1;
                ledger.tick(&plan, (subsystem != 255).then_some(subsystem as usize));
                periods += ledger.just_completed();
            }
        }
    });
    println!(
        "proved library: {periods} complete periods, {shut} sections shut, margins {margins:?}"
    );
    assert!(margins.contains(&0) && margins.contains(&1), "tight plans");
    assert!(
        periods > 10_000 && shut > 1_000,
        "periods and shut sections"
    );
}

/// The second program, which is quicker to ask, for longer.
#[test]
fn the_second_program_charges_each_budget() {
    let mut periods = 0;
    each_case(3_000, |random| {
        let (_, plan) = tight_plan(random);
        let mut state = State::fresh(&plan);
        let mut ledger = Ledger::new(&plan);
        let mut ticks = 0;
        while ticks < TICKS {
            let event = greedy(random, &plan, &state);
            let outcome = step(&plan, &mut state, event);
            if event == Event::Tick {
                ticks += 1;
                ledger.tick(&plan, outcome.subsystem);
                periods += ledger.just_completed();
            }
        }
    });
    println!("second program: {periods} complete periods");
    assert!(periods > 20_000);
}
