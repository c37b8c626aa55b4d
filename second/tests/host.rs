//! The calls over byte buffers: which refusal comes first, and what is kept.

mod support;

use second::block::to_block;
use second::event::Event;
use second::host::{c_fresh, c_line, c_margin, c_read, c_step, record_step};
use second::image::to_image;
use second::line;
use second::read::{read, read_unadmitted};
use second::sample;
use second::state::{Job, State};
use second::step::step;
use support::events::{event, Mood};
use support::plans::plan;
use support::random::each_case;

/// What a buffer or a number holds before a call, to see what it kept.
const BEFORE: u8 = 0xa5;
const NUMBER: u32 = 4_000_000_000;

fn block() -> Vec<u8> {
    to_block(&read(sample::PLAN.as_bytes()).unwrap())
}

fn image() -> Vec<u8> {
    to_image(&State::fresh(&read(sample::PLAN.as_bytes()).unwrap()))
}

#[test]
fn read_keeps_the_block_on_every_refusal() {
    for length in [0, 1107, 1109] {
        let (mut block, mut beside) = (vec![BEFORE; length], NUMBER);
        assert_eq!(c_read(b"no plan", &mut block, &mut beside), 34);
        assert_eq!((block, beside), (vec![BEFORE; length], NUMBER));
    }
    let (mut block, mut beside) = (vec![BEFORE; 1108], NUMBER);
    assert_eq!(c_read(b"S\t1\t1\nT\t7\n", &mut block, &mut beside), 24);
    assert_eq!((block, beside), (vec![BEFORE; 1108], 2));
}

#[test]
fn margin_gives_the_number_beside_a_refusal() {
    let mut margin = -7;
    assert_eq!(c_margin(b"S\t9\t1\nT\t7\n", 0, &mut margin), 24);
    assert_eq!(margin, 2);
    assert_eq!(c_margin(b"S\t9\t1\n", 1, &mut margin), 24);
    assert_eq!(margin, 0);
    assert_eq!(c_margin(b"S\t9\t1\n", u32::MAX, &mut margin), 24);
    assert_eq!(margin, 0);
    assert_eq!(c_margin(b"S\t5\t3\nS\t9\t9\n", 1, &mut margin), 0);
    assert_eq!(margin, -6);
}

#[test]
fn fresh_judges_both_lengths_first() {
    let mut bad_block = block();
    bad_block[3] = 1;
    for (block, length, number) in [
        (&block()[..], 320, 0),
        (&bad_block[..], 319, 34),
        (&bad_block[1..], 320, 34),
        (&bad_block[..], 320, 31),
    ] {
        let mut lent = vec![BEFORE; length];
        assert_eq!(c_fresh(block, &mut lent), number);
        if number == 0 {
            assert_eq!(lent, image());
        } else {
            assert_eq!(lent, vec![BEFORE; length]);
        }
    }
}

/// Bad block, image and event in every mixture: the first in the order decides, and everything is kept.
#[test]
fn step_and_line_refuse_in_order() {
    let mut bad_block = block();
    bad_block[0] = 9;
    let mut bad_image = image();
    bad_image[6] = 1;
    let long = [block(), vec![0]].concat();
    let blocks = [(block(), 0), (bad_block, 31), (long, 34)];
    let images = [(image(), 0), (bad_image, 32), (image()[1..].to_vec(), 34)];
    for (block, block_number) in &blocks {
        for (image, image_number) in &images {
            let expected = match (*block_number, *image_number) {
                (34, _) | (_, 34) => 34,
                (31, _) => 31,
                (_, 32) => 32,
                _ => 11,
            };
            let mut lent = image.clone();
            let mut numbers = [NUMBER; 3];
            let [subsystem, running, ended] = &mut numbers;
            let number = c_step(block, &mut lent, 5, 99, 99, subsystem, running, ended);
            assert_eq!(number, expected);
            assert_eq!(lent, *image);
            let written = if expected == 11 {
                [0, 255, 0]
            } else {
                [NUMBER; 3]
            };
            assert_eq!(numbers, written);

            // With no room for the printed line, 33 takes the place of 11 but not of those before it.
            for (room, fill_before) in [(100, 40), (48, 40), (49, 40), (40, 40), (40, 41)] {
                let (mut lent, mut out, mut fill) =
                    (image.clone(), vec![BEFORE; room], fill_before);
                let number = c_line(block, &mut lent, 7, b"no event", &mut out, &mut fill);
                let printed = b"7 11 0 - -\n";
                let fits = fill_before + printed.len() <= room;
                assert_eq!(lent, *image);
                if expected == 11 && fits {
                    assert_eq!((number, fill), (11, fill_before + printed.len()));
                    assert_eq!(out[fill_before..fill], printed[..]);
                    out[fill_before..fill].fill(BEFORE);
                } else {
                    let expected = if expected == 11 { 33 } else { expected };
                    assert_eq!((number, fill), (expected, fill_before));
                }
                assert_eq!(out, vec![BEFORE; room], "bytes outside the line");
            }
        }
    }
}

#[test]
fn line_that_does_not_fit_has_not_happened() {
    let block = block();
    let mut lent = image();
    let printed = b"4294967295 0 0 - -\n";
    for room in 0..printed.len() {
        let (mut out, mut fill) = (vec![BEFORE; room], 0);
        let number = c_line(&block, &mut lent, u32::MAX, b"tick\n", &mut out, &mut fill);
        assert_eq!((number, fill), (33, 0));
        assert_eq!((&lent, out), (&image(), vec![BEFORE; room]));
    }
    let (mut out, mut fill) = (vec![BEFORE; printed.len()], 0);
    let number = c_line(&block, &mut lent, u32::MAX, b"tick\n", &mut out, &mut fill);
    assert_eq!((number, fill), (0, printed.len()));
    assert_eq!(out, printed);
    assert_ne!(lent, image());
    let mut fill = usize::MAX;
    assert_eq!(
        c_line(&block, &mut lent, 1, b"tick\n", &mut out, &mut fill),
        33
    );
    assert_eq!(fill, usize::MAX);
}

#[test]
fn lines_that_are_no_events() {
    let bad: [&[u8]; 18] = [
        b"",
        b"\n",
        b"tick",
        b"tick\n\n",
        b"tick\r\n",
        b"\ntick\n",
        b"tick\t\n",
        b"tick\t0\n",
        b"tick \n",
        b"Tick\n",
        b"release\n",
        b"release\t\n",
        b"release\t00\n",
        b"release\t100000\n",
        b"release\t0\t0\n",
        b"lock\t0\n",
        b"lock\t0\t0\t0\n",
        b"unlock\t0 0\n",
    ];
    for line in bad {
        assert_eq!(line::event(line), Event::Unknown, "{line:?}");
    }
    assert_eq!(
        line::event(b"unlock\t99999\t0\n"),
        Event::Unlock {
            task: 99_999,
            resource: 0
        }
    );
}

#[test]
fn records_are_judged_like_bytes() {
    let plan = read(sample::PLAN.as_bytes()).unwrap();
    let fresh = State::fresh(&plan);
    let full = read_unadmitted(b"S\t5\t3\nS\t9\t9\n").unwrap();
    let mut state = State::fresh(&full);
    assert_eq!(record_step(&full, &mut state, Event::Tick), Err(31));
    assert_eq!(state, State::fresh(&full));

    let mut strange = fresh.clone();
    strange.jobs[1] = Job::Started { held: vec![99] };
    let mut few = fresh.clone();
    few.jobs.pop();
    let mut late = fresh.clone();
    late.supplies[0].refill = 0;
    for illegal in [strange, few, late] {
        let mut state = illegal.clone();
        assert_eq!(record_step(&full, &mut state, Event::Tick), Err(31));
        assert_eq!(record_step(&plan, &mut state, Event::Unknown), Err(32));
        assert_eq!(state, illegal);
    }
    let (mut one, mut other) = (fresh.clone(), fresh);
    let outcome = record_step(&plan, &mut one, Event::Tick);
    assert_eq!(outcome, Ok(step(&plan, &mut other, Event::Tick)));
    assert_eq!(one, other);
}

/// Along random runs the call over bytes does what the library does.
#[test]
fn step_over_bytes_is_the_step() {
    each_case(150, |random| {
        let (_, plan) = plan(random);
        let block = to_block(&plan);
        let mut state = State::fresh(&plan);
        let mut lent = vec![0; 320];
        assert_eq!(c_fresh(&block, &mut lent), 0);
        let mood = Mood::random(random);
        for _ in 0..100 {
            let event = event(random, &plan, &state, mood);
            let (kind, task, resource) = numbers(event);
            let outcome = step(&plan, &mut state, event);
            let mut given = [NUMBER; 3];
            let [subsystem, running, ended] = &mut given;
            let answer = c_step(
                &block, &mut lent, kind, task, resource, subsystem, running, ended,
            );
            assert_eq!(answer, outcome.answer.number());
            assert_eq!(given[0], outcome.subsystem.map_or(255, |row| row as u32));
            assert_eq!(given[1], outcome.task.map_or(255, |row| row as u32));
            let ended: u32 = outcome.ended.iter().map(|row| 1 << row).sum();
            assert_eq!(given[2], ended);
            assert_eq!(lent, to_image(&state));
        }
    });
}

/// Fields that a kind does not use are given numbers that no row has.
fn numbers(event: Event) -> (u32, u32, u32) {
    match event {
        Event::Release { task } => (0, task, u32::MAX),
        Event::Lock { task, resource } => (1, task, resource),
        Event::Unlock { task, resource } => (2, task, resource),
        Event::End { task } => (3, task, u32::MAX),
        Event::Tick => (4, u32::MAX, u32::MAX),
        Event::Unknown => (5, 0, 0),
    }
}
