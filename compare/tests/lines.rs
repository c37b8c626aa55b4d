//! Event lines: the proved call beside the second program, every byte lent, the fill and the number.

#[path = "../../second/tests/support/mod.rs"]
mod support;

use second::block::to_block;
use second::host::{c_fresh, c_line};
use second::image::{from_image, to_image};
use second::sample;
use second::state::State;
use std::collections::BTreeSet;
use support::damage::{damage_in_place, damage_text};
use support::events::{event, Mood};
use support::plans::plan;
use support::random::{each_case, Random};
use support::states::wander;
use support::vectors::file;

const BEFORE: u8 = 0xa5;

/// What the call leaves: the number, the image, the buffer and the fill.
type Left = (u32, Vec<u8>, Vec<u8>, usize);

fn both_line(
    block: &[u8],
    image: &[u8],
    number: u32,
    line: &[u8],
    room: usize,
    fill: usize,
) -> Left {
    let (mut lent, mut out, mut at) = (image.to_vec(), vec![BEFORE; room], fill);
    let answer = compare::line(block, &mut lent, number, line, &mut out, &mut at);
    let got = (answer, lent, out, at);
    let (mut lent, mut out, mut at) = (image.to_vec(), vec![BEFORE; room], fill);
    let answer = c_line(block, &mut lent, number, line, &mut out, &mut at);
    let expected = (answer, lent, out, at);
    assert_eq!(
        got,
        expected,
        "line {:?}, number {number}",
        String::from_utf8_lossy(line)
    );
    got
}

/// The line of an event, mostly as it should be.
fn any_line(random: &mut Random, line: String) -> Vec<u8> {
    let mut line = line.into_bytes();
    match random.below(20) {
        0 => line.clear(),
        1 => line.extend(vec![b'x'; random.below(100)]),
        2..=5 => damage_text(random, &mut line),
        6 => line = vec![random.pick(b"\t\n0tick").unwrap(); random.below(40)],
        _ => {}
    }
    line
}

fn written(event: second::event::Event) -> String {
    use second::event::Event::*;
    match event {
        Release { task } => format!("release\t{task}\n"),
        Lock { task, resource } => format!("lock\t{task}\t{resource}\n"),
        Unlock { task, resource } => format!("unlock\t{task}\t{resource}\n"),
        End { task } => format!("end\t{task}\n"),
        Tick => "tick\n".to_owned(),
        Unknown => "tock\n".to_owned(),
    }
}

#[test]
fn lines_are_alike() {
    let mut numbers = BTreeSet::new();
    each_case(1_200, |random| {
        let (_, plan) = plan(random);
        let block = to_block(&plan);
        let mut state = State::fresh(&plan);
        wander(random, &plan, &mut state, 20);
        let mut image = to_image(&state);
        let mood = Mood::random(random);
        for turn in 0..40_u32 {
            let state = from_image(&plan, &image).expect("a run stays legal");
            let event = event(random, &plan, &state, mood);
            let line = any_line(random, written(event));
            let number = match random.below(4) {
                0 => random.next() as u32,
                _ => turn + 1,
            };
            let room = random.below(140);
            let fill = match random.below(10) {
                0 => usize::MAX - random.below(3),
                1 => room + random.below(3),
                _ => random.below(room + 1),
            };
            let (answer, after, ..) = both_line(&block, &image, number, &line, room, fill);
            numbers.insert(answer);
            image = after;
        }
        let mut damaged = block.clone();
        damage_in_place(random, &mut damaged);
        numbers.insert(both_line(&damaged, &image, 1, b"tick\n", 60, 0).0);
        damage_in_place(random, &mut image);
        numbers.insert(both_line(&block, &image, 1, b"tick\n", 60, 0).0);
        image.pop();
        numbers.insert(both_line(&block, &image, 1, b"tick\n", 60, 0).0);
    });
    let expected: BTreeSet<u32> = (0..=11).chain([31, 32, 33, 34]).collect();
    assert_eq!(numbers, expected, "every number turns up");
}

/// The run of document 01, line by line: its 19 lines, and with each too short a buffer 33 and nothing done.
#[test]
fn the_documents_run() {
    let (mut block, mut beside) = (vec![0; 1108], 0);
    assert_eq!(
        compare::read(sample::PLAN.as_bytes(), &mut block, &mut beside),
        0
    );
    let mut image = vec![0; 320];
    assert_eq!(compare::fresh(&block, &mut image), 0);
    let mut expected_image = vec![0; 320];
    assert_eq!(c_fresh(&block, &mut expected_image), 0);
    assert_eq!(image, expected_image);
    let expected = file("runs/document-01.out");
    let mut printed = Vec::new();
    for (line, number) in sample::EVENTS
        .as_bytes()
        .split_inclusive(|&byte| byte == b'\n')
        .zip(1..)
    {
        let mut room = 0;
        let (_, after, out, _) = loop {
            let left = both_line(&block, &image, number, line, room, 0);
            if left.0 != 33 {
                break left;
            }
            assert_eq!(
                (&left.1, &left.2),
                (&image, &vec![BEFORE; room]),
                "33 keeps all"
            );
            room += 1;
        };
        printed.extend(out);
        image = after;
    }
    assert_eq!(
        String::from_utf8_lossy(&printed),
        String::from_utf8_lossy(&expected)
    );
}
