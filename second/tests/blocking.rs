//! What B is for: plans that only a demand without B would admit, and runs of theirs in which a period falls short.

mod support;

use second::admission::{blocking, demand};
use second::event::Event;
use second::plan::Plan;
use second::read::{read, read_unadmitted};
use second::state::State;
use second::step::step;
use support::plans::Sketch;
use support::random::{each_case, Random};

/// The example of docs/DRIVES.md.
const PLAN: &str = "S\t2\t1\nS\t9\t4\nT\t0\nT\t1\nR\tG\nU\t0\t0\t1\nU\t1\t0\t3\n";

/// The subsystem that each tick charges.
fn charges(plan: &Plan, events: &[Event]) -> Vec<Option<usize>> {
    let mut state = State::fresh(plan);
    let mut charges = Vec::new();
    for &event in events {
        let outcome = step(plan, &mut state, event);
        if event == Event::Tick {
            charges.push(outcome.subsystem);
        }
    }
    charges
}

/// The first complete period in which a row gets less than its budget: the row, and how much it gets.
fn short(plan: &Plan, charges: &[Option<usize>]) -> Option<(usize, usize)> {
    (0..plan.subsystems().len()).find_map(|row| {
        let subsystem = plan.subsystems()[row];
        charges
            .chunks_exact(usize::from(subsystem.period))
            .map(|period| {
                period
                    .iter()
                    .filter(|&&charged| charged == Some(row))
                    .count()
            })
            .find(|&got| got < usize::from(subsystem.budget))
            .map(|got| (row, got))
    })
}

fn admitted_without_blocking(plan: &Plan) -> bool {
    plan.subsystems()
        .iter()
        .enumerate()
        .all(|(row, subsystem)| {
            demand(plan, row) - blocking(plan, row) <= i64::from(subsystem.period)
        })
}

#[test]
fn the_example_falls_short() {
    assert_eq!(read(PLAN.as_bytes()).unwrap_err().number, 30);
    let plan = read_unadmitted(PLAN.as_bytes()).unwrap();
    assert!(admitted_without_blocking(&plan));
    let task = 1;
    let events = [
        Event::Tick,
        Event::Release { task },
        Event::Lock { task, resource: 0 },
        Event::Tick,
        Event::Tick,
        Event::Tick,
    ];
    let charges = charges(&plan, &events);
    assert_eq!(charges, [Some(0), Some(1), Some(1), Some(1)]);
    assert_eq!(short(&plan, &charges), Some((0, 0)));
}

/// Two rows, a task in each, one global resource that both use.
fn small_plan(random: &mut Random) -> Sketch {
    let budgets = [1, random.within(1..=4)];
    Sketch {
        subsystems: vec![
            (random.within(2..=4), budgets[0]),
            (random.within(6..=12), budgets[1]),
        ],
        owners: vec![0, 1],
        globals: vec![true],
        uses: vec![(0, 0, 1), (1, 0, random.within(1..=budgets[1]))],
    }
}

fn any_event(random: &mut Random) -> Event {
    let task = random.below(2) as u32;
    match random.below(5) {
        0 => Event::Release { task },
        1 => Event::Lock { task, resource: 0 },
        _ => Event::Tick,
    }
}

/// The search that found the example: it finds some wherever B alone refuses, and none among admitted plans.
#[test]
fn a_search_finds_short_periods_only_without_blocking() {
    let (mut found, mut admitted) = (0, 0);
    each_case(20_000, |random| {
        let text = small_plan(random).text();
        let Ok(plan) = read_unadmitted(text.as_bytes()) else {
            return;
        };
        if !admitted_without_blocking(&plan) {
            return;
        }
        let events: Vec<Event> = (0..60).map(|_| any_event(random)).collect();
        let charges = charges(&plan, &events);
        if read(text.as_bytes()).is_ok() {
            assert_eq!(short(&plan, &charges), None, "{text}");
            admitted += 1;
        } else if short(&plan, &charges).is_some() {
            found += 1;
        }
    });
    println!("short periods in {found} plans without B; none in {admitted} admitted plans");
    assert!(found > 50 && admitted > 500);
}
