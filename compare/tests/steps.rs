//! Blocks, images and events: the proved calls beside the second program, every byte lent and every number.

#[path = "../../second/tests/support/mod.rs"]
mod support;

use second::block::{from_block, to_block};
use second::event::Event;
use second::host::{c_fresh, c_step};
use second::image::{from_image, to_image};
use second::state::State;
use std::collections::{BTreeMap, BTreeSet};
use support::damage::damage_in_place;
use support::events::{any_row, event, Mood};
use support::plans::plan;
use support::random::{each_case, Random};
use support::states::wander;
use support::vectors::{bytes, check, number, rows, same, same_bytes};

/// What a buffer and a number hold before the call, so that one that was not to be written shows.
const BEFORE: u8 = 0xa5;
const NUMBER: u32 = 4_000_000_000;

/// A call of the step: the number, the image then, and the three numbers behind pointers.
type Left = (u32, Vec<u8>, [u32; 3]);

fn proved_step(block: &[u8], image: &[u8], [kind, task, resource]: [u32; 3]) -> Left {
    let (mut lent, mut numbers) = (image.to_vec(), [NUMBER; 3]);
    let [subsystem, running, ended] = &mut numbers;
    let number = compare::step(
        block, &mut lent, kind, task, resource, subsystem, running, ended,
    );
    (number, lent, numbers)
}

fn second_step(block: &[u8], image: &[u8], [kind, task, resource]: [u32; 3]) -> Left {
    let (mut lent, mut numbers) = (image.to_vec(), [NUMBER; 3]);
    let [subsystem, running, ended] = &mut numbers;
    let number = c_step(
        block, &mut lent, kind, task, resource, subsystem, running, ended,
    );
    (number, lent, numbers)
}

/// Both on one event, alike to the byte.
fn both_step(block: &[u8], image: &[u8], event: [u32; 3]) -> Left {
    let (got, expected) = (
        proved_step(block, image, event),
        second_step(block, image, event),
    );
    assert_eq!(
        got,
        expected,
        "event {event:?} on\n{:?}\n{:?}",
        from_block(block),
        from_block(block).map(|plan| from_image(&plan, image))
    );
    got
}

fn both_fresh(block: &[u8], length: usize) -> (u32, Vec<u8>) {
    let (mut image, mut expected_image) = (vec![BEFORE; length], vec![BEFORE; length]);
    let number = compare::fresh(block, &mut image);
    let expected = c_fresh(block, &mut expected_image);
    assert_eq!((number, &image), (expected, &expected_image), "{block:?}");
    (number, image)
}

#[test]
fn block_vectors() {
    check("block.tsv", &rows("block.tsv", 2, 300), |row| {
        let block = bytes(&row[0]);
        let (got, image) = both_fresh(&block, 320);
        same("number", got, number(&row[1]))?;
        match from_block(&block) {
            Ok(plan) => same_bytes("image", &image, &to_image(&State::fresh(&plan))),
            Err(_) => same_bytes("image", &image, &[BEFORE; 320]),
        }
    });
}

/// An event of no kind shows whether the image is taken for a legal state's, and changes nothing.
#[test]
fn image_vectors() {
    check("image.tsv", &rows("image.tsv", 3, 480), |row| {
        let (block, image) = (bytes(&row[0]), bytes(&row[1]));
        let (got, lent, _) = proved_step(&block, &image, [5, 0, 0]);
        let expected: u32 = number(&row[2]);
        same("number", got, if expected == 0 { 11 } else { expected })?;
        same_bytes("image", &lent, &image)
    });
}

#[test]
fn step_vectors() {
    check("step.tsv", &rows("step.tsv", 10, 900), |row| {
        let (block, image) = (bytes(&row[0]), bytes(&row[1]));
        let event = [2, 3, 4].map(|place| number(&row[place]));
        let (got, lent, numbers) = proved_step(&block, &image, event);
        same("answer", got, number(&row[5]))?;
        same(
            "subsystem, task, ended",
            numbers,
            [6, 7, 8].map(|place| number(&row[place])),
        )?;
        same_bytes("image after", &lent, &bytes(&row[9]))
    });
}

/// The numbers of an event; rows that its kind does not use are any numbers at all.
fn numbers(random: &mut Random, event: Event) -> [u32; 3] {
    let mut any = || match random.below(3) {
        0 => u32::MAX,
        1 => random.next() as u32,
        _ => random.below(40) as u32,
    };
    match event {
        Event::Release { task } => [0, task, any()],
        Event::Lock { task, resource } => [1, task, resource],
        Event::Unlock { task, resource } => [2, task, resource],
        Event::End { task } => [3, task, any()],
        Event::Tick => [4, any(), any()],
        Event::Unknown => [any().max(5), any(), any()],
    }
}

/// A kind, a task row and a resource row of any size.
fn any_numbers(random: &mut Random) -> [u32; 3] {
    let kind = match random.below(4) {
        0 => random.next() as u32,
        1 => random
            .pick(&[5, 255, 256, 257, 260, 65_536, 65_540, u32::MAX])
            .unwrap(),
        _ => random.below(6) as u32,
    };
    [kind, any_row(random, 33), any_row(random, 17)]
}

/// Long runs from the fresh image. The state is kept in bytes alone: what one call leaves, the next one takes.
#[test]
fn runs_are_alike() {
    let mut answers = BTreeMap::new();
    each_case(600, |random| {
        let (_, plan) = plan(random);
        let block = to_block(&plan);
        let (number, mut image) = both_fresh(&block, 320);
        assert_eq!(number, 0);
        let mut mood = Mood::random(random);
        for _ in 0..random.within(50..=1_000) {
            if random.percent(1) {
                mood = Mood::random(random);
            }
            let state = from_image(&plan, &image).expect("a run stays legal");
            let event = match random.below(30) {
                0 => any_numbers(random),
                _ => {
                    let event = event(random, &plan, &state, mood);
                    numbers(random, event)
                }
            };
            let (answer, after, _) = both_step(&block, &image, event);
            *answers.entry(answer).or_insert(0_u64) += 1;
            image = after;
        }
    });
    println!("answers {answers:?}");
    let given: Vec<u32> = answers.keys().copied().collect();
    assert_eq!(given, (0..=11).collect::<Vec<_>>(), "every answer is given");
}

/// Legal states that no run need reach, several events on each.
#[test]
fn legal_states_off_the_path_are_stepped_alike() {
    let mut answers = BTreeSet::new();
    each_case(1_500, |random| {
        let (_, plan) = plan(random);
        let block = to_block(&plan);
        let mut state = State::fresh(&plan);
        for _ in 0..25 {
            wander(random, &plan, &mut state, 12);
            let mut image = to_image(&state);
            let mood = Mood::random(random);
            for _ in 0..4 {
                let state = from_image(&plan, &image).expect("a legal state stays legal");
                let event = event(random, &plan, &state, mood);
                let event = numbers(random, event);
                let (answer, after, _) = both_step(&block, &image, event);
                answers.insert(answer);
                image = after;
            }
        }
    });
    assert_eq!(answers, (0..=11).collect(), "every answer is given");
}

/// Damaged blocks and images, and buffers of other lengths: 34, 31 and 32 keep every byte, in this order.
#[test]
fn damaged_bytes_are_refused_alike() {
    let mut numbers_given = BTreeSet::new();
    each_case(20_000, |random| {
        let (_, plan) = plan(random);
        let (mut block, mut state) = (to_block(&plan), State::fresh(&plan));
        wander(random, &plan, &mut state, 20);
        let mut image = to_image(&state);
        for _ in 0..random.below(3) {
            damage_in_place(random, &mut image);
        }
        if random.percent(40) {
            for _ in 0..random.within(1..=2) {
                damage_in_place(random, &mut block);
            }
        }
        match random.below(40) {
            0 => block.truncate(random.below(1108)),
            1 => block.push(0),
            2 => image.truncate(random.below(320)),
            3 => image.push(0),
            _ => {}
        }
        let event = any_numbers(random);
        let (number, after, left) = both_step(&block, &image, event);
        if number > 11 {
            assert_eq!((&after, left), (&image, [NUMBER; 3]), "a refusal keeps all");
        }
        numbers_given.insert(number);
        let length = if random.percent(95) {
            320
        } else {
            random.below(400)
        };
        numbers_given.insert(both_fresh(&block, length).0);
    });
    for number in [31, 32, 34] {
        assert!(numbers_given.contains(&number), "{number} turns up");
    }
}

/// Every byte of a block and of an image, changed one at a time.
#[test]
fn every_byte_counts_alike() {
    each_case(12, |random| {
        let (_, plan) = plan(random);
        let (block, mut state) = (to_block(&plan), State::fresh(&plan));
        wander(random, &plan, &mut state, 40);
        let image = to_image(&state);
        for place in 0..block.len() {
            let mut damaged = block.clone();
            damaged[place] ^= 1 << random.below(8);
            both_fresh(&damaged, 320);
        }
        for place in 0..image.len() {
            let mut damaged = image.clone();
            damaged[place] ^= 1 << random.below(8);
            both_step(&block, &damaged, [4, 0, 0]);
        }
    });
}
