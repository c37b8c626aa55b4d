//! What has to hold on every input, tried on random plans, states and events.

mod support;

use second::admission::{blocking, demand, first_negative, margin, margin_of_row};
use second::block::{from_block, to_block};
use second::event::Event;
use second::image::{from_image, to_image};
use second::legal::legal;
use second::read::read;
use second::state::State;
use std::collections::{BTreeMap, BTreeSet};
use support::damage::{damage_byte, damage_in_place};
use support::events::{event, Mood};
use support::laws::{holders, judged_step, Ledger};
use support::plans::{plan, Sketch};
use support::random::{each_case, Random};
use support::states::wander;

/// Runs from the fresh state, and at the end that every answer has been given.
#[test]
fn runs_keep_every_promise() {
    let mut answers = BTreeMap::new();
    let mut periods = 0;
    let mut tight = BTreeSet::new();
    each_case(10_000, |random| {
        let (sketch, plan) = plan(random);
        for row in 0..plan.subsystems().len() {
            tight.insert(sketch.margin(row).min(2));
        }
        let mut state = State::fresh(&plan);
        assert!(legal(&plan, &state), "the fresh state is legal");
        let mut ledger = Ledger::new(&plan);
        let mut mood = Mood::random(random);
        for _ in 0..random.within(50..=1_500) {
            if random.percent(1) {
                mood = Mood::random(random);
            }
            let event = event(random, &plan, &state, mood);
            let outcome = judged_step(&plan, &mut state, event);
            *answers.entry(outcome.answer.number()).or_insert(0_u64) += 1;
            if event == Event::Tick {
                ledger.tick(&plan, outcome.subsystem);
                periods += ledger.just_completed();
            }
        }
        let image = to_image(&state);
        assert_eq!(from_image(&plan, &image).as_ref(), Ok(&state));
    });
    println!("answers {answers:?}, complete periods {periods}, margins {tight:?}");
    let given: Vec<u32> = answers.keys().copied().collect();
    assert_eq!(given, (0..=11).collect::<Vec<_>>(), "every answer is given");
    assert_eq!(tight, BTreeSet::from([0, 1, 2]), "tight plans are tried");
    assert!(periods > 1_000, "complete periods are counted");
}

/// Legal states that no run need reach: each event keeps them legal all the same.
#[test]
fn legal_states_off_the_path_stay_legal() {
    let mut answers = BTreeSet::new();
    let mut two_sections = 0;
    each_case(2_500, |random| {
        let (_, plan) = plan(random);
        let mut state = State::fresh(&plan);
        for _ in 0..60 {
            wander(random, &plan, &mut state, 12);
            let mood = Mood::random(random);
            holders(&state);
            let sections = (0..state.jobs.len())
                .filter(|&task| state.global_held(&plan, task).is_some())
                .count();
            two_sections += u32::from(sections > 1);
            for _ in 0..4 {
                let event = event(random, &plan, &state, mood);
                answers.insert(judged_step(&plan, &mut state, event).answer.number());
            }
            assert_eq!(from_image(&plan, &to_image(&state)).as_ref(), Ok(&state));
        }
    });
    assert_eq!(answers, (0..=11).collect(), "every answer is given");
    assert!(two_sections > 100, "states with several sections are tried");
}

/// A damaged image is either refused or is the image of the legal state read from it.
#[test]
fn damaged_images_are_judged_exactly() {
    let (mut kept, mut refused) = (0, 0);
    each_case(2_500, |random| {
        let (_, plan) = plan(random);
        let mut state = State::fresh(&plan);
        wander(random, &plan, &mut state, 60);
        let image = to_image(&state);
        for _ in 0..60 {
            let mut damaged = image.clone();
            for _ in 0..random.within(1..=3) {
                damage_in_place(random, &mut damaged);
            }
            match from_image(&plan, &damaged) {
                Ok(mut state) => {
                    kept += 1;
                    assert_eq!(to_image(&state), damaged);
                    judged_step(&plan, &mut state, Event::Tick);
                }
                Err(number) => {
                    refused += 1;
                    assert_eq!(number, 32);
                }
            }
        }
        let short = random.below(320);
        assert_eq!(from_image(&plan, &image[..short]), Err(34));
    });
    assert!(kept > 1_000 && refused > 1_000, "{kept} and {refused}");
}

/// A block stands for a plan exactly when the text of what it says reads back to it.
#[test]
fn damaged_blocks_are_judged_exactly() {
    let (mut kept, mut refused) = (0, 0);
    each_case(2_000, |random| {
        let (sketch, plan) = plan(random);
        let block = to_block(&plan);
        assert_eq!(from_block(&block).as_ref(), Ok(&plan));
        for _ in 0..40 {
            let mut damaged = block.clone();
            for _ in 0..random.within(1..=2) {
                damage_block(random, &sketch, &mut damaged);
            }
            let accepted = read(text_of_block(&damaged).as_bytes())
                .ok()
                .filter(|plan| to_block(plan) == damaged);
            match &accepted {
                Some(_) => kept += 1,
                None => refused += 1,
            }
            assert_eq!(from_block(&damaged), accepted.ok_or(31));
        }
        let short = random.below(1108);
        assert_eq!(from_block(&block[..short]), Err(34));
    });
    assert!(kept > 1_000 && refused > 1_000, "{kept} and {refused}");
}

/// Bytes that matter are few, so most of the damage goes there.
fn damage_block(random: &mut Random, sketch: &Sketch, block: &mut [u8]) {
    let tasks = sketch.owners.len();
    let resources = sketch.globals.len();
    let place = match random.below(6) {
        0 => random.below(4),
        1 => 4 + random.below(4 * sketch.subsystems.len()),
        2 => 36 + random.below(tasks.max(1)),
        3 => 68 + random.below(resources.max(1)),
        4 => 84 + 32 * random.below(tasks.max(1)) + random.below(2 * resources.max(1)),
        _ => random.below(block.len()),
    };
    damage_byte(random, &mut block[place]);
    // A length of two bytes turns into "undeclared" or back only when both change.
    if place >= 84 && random.percent(50) {
        let start = place - place % 2;
        let length = random.pick(&[65_535_u16, 0, 1, 2]).unwrap();
        block[start..start + 2].copy_from_slice(&length.to_le_bytes());
    }
}

/// The lines that the counts of a block announce, whatever they say.
fn text_of_block(block: &[u8]) -> String {
    let word = |place: usize| u32::from(u16::from_le_bytes([block[place], block[place + 1]]));
    let counts = [0, 1, 2].map(|place| usize::from(block[place]));
    let [subsystems, tasks, resources] = [counts[0].min(8), counts[1].min(32), counts[2].min(16)];
    let mut sketch = Sketch {
        subsystems: (0..subsystems)
            .map(|row| (word(4 + 4 * row), word(6 + 4 * row)))
            .collect(),
        owners: (0..tasks).map(|row| usize::from(block[36 + row])).collect(),
        globals: (0..resources).map(|row| block[68 + row] == 1).collect(),
        uses: Vec::new(),
    };
    for task in 0..tasks {
        for resource in 0..resources {
            let length = word(84 + 2 * (16 * task + resource));
            if length != 65_535 {
                sketch.uses.push((task, resource, length));
            }
        }
    }
    sketch.text()
}

/// The reader's admission is that of the sketch, which adds up in another way, and is exact at the edge.
#[test]
fn margins_are_those_of_the_lines() {
    let (mut admitted, mut refused) = (0, 0);
    each_case(4_000, |random| {
        let (mut sketch, plan) = plan(random);
        let text = Sketch::of(&plan).text();
        assert_eq!(read(text.as_bytes()).as_ref(), Ok(&plan));
        let row = random.below(sketch.subsystems.len());
        let spare = sketch.margin(row) as u32;
        sketch.subsystems[row].1 += spare + random.within(0..=1);
        if sketch.subsystems[row].1 > sketch.subsystems[row].0 {
            sketch.subsystems[row].1 = sketch.subsystems[row].0;
        }
        let text = sketch.text();
        let negative = (0..sketch.subsystems.len()).find(|&row| sketch.margin(row) < 0);
        match (read(text.as_bytes()), negative) {
            (Ok(plan), None) => {
                admitted += 1;
                assert_eq!(first_negative(&plan), None);
                for row in 0..sketch.subsystems.len() {
                    let period = sketch.subsystems[row].0;
                    assert_eq!(blocking(&plan, row), i64::from(sketch.blocking(row)));
                    assert_eq!(demand(&plan, row), i64::from(sketch.demand(row, period)));
                    assert_eq!(margin_of_row(&plan, row), sketch.margin(row));
                }
            }
            (Err(refusal), Some(row)) => {
                refused += 1;
                assert_eq!((refusal.number, refusal.beside), (30, row as u32));
            }
            (result, negative) => panic!("{result:?} with first negative {negative:?}:\n{text}"),
        }
        for row in 0..sketch.subsystems.len() {
            assert_eq!(margin(text.as_bytes(), row as u32), Ok(sketch.margin(row)));
        }
        let absent = sketch.subsystems.len() as u32 + random.within(0..=9);
        let refusal = margin(text.as_bytes(), absent).unwrap_err();
        assert_eq!((refusal.number, refusal.beside), (24, 0));
    });
    assert!(admitted > 100 && refused > 100, "{admitted} and {refused}");
}
