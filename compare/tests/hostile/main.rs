//! Hostile input: the five calls on any mixture of bytes, lengths and numbers, beside the second program.

mod arena;
mod calls;
mod hand;
mod input;
#[path = "../../../second/tests/support/mod.rs"]
mod support;

use arena::Arena;
use hand::Hand;
use input::{any_text, Output};
use second::sample;
use std::collections::{BTreeMap, BTreeSet};
use support::events::Mood;
use support::random::{each_case, Random};

const BLOCK: usize = 1108;
const IMAGE: usize = 320;

/// What each call is named, and the numbers that it can return and has to.
fn expected() -> BTreeMap<&'static str, BTreeSet<u32>> {
    let answers = 0..=11;
    BTreeMap::from([
        ("read", [0, 34].into_iter().chain(20..=30).collect()),
        ("margin", [0].into_iter().chain(20..=29).collect()),
        ("fresh", BTreeSet::from([0, 31, 34])),
        ("step", answers.clone().chain([31, 32, 34]).collect()),
        ("line", answers.chain(31..=34).collect()),
    ])
}

/// Hosts that do as they like: calls in any sequence, each on what the ones before left or on something else.
#[test]
fn any_calls_in_any_sequence() {
    let mut arena = Arena::new();
    each_case(4_000, |random| {
        let mut hand = Hand::any(random);
        if random.percent(95) {
            hand.begin(random, &mut arena);
        }
        let mut mood = Mood::random(random);
        for number in 1..=random.within(20..=300) {
            match random.below(100) {
                0 => mood = Mood::random(random),
                1 => hand.text = any_text(random),
                2 => hand.wander(random),
                3 if hand.lost => hand.begin(random, &mut arena),
                _ => {}
            }
            hand.call(random, &mut arena, mood, number);
        }
    });
    arena.report("calls in any sequence");
    let given: BTreeMap<&str, BTreeSet<u32>> = arena
        .tally
        .iter()
        .map(|(&name, numbers)| (name, numbers.keys().copied().collect()))
        .collect();
    assert_eq!(given, expected(), "every number comes back");
}

/// Good bytes of every length around the right one, and every room and fill around a printed line.
#[test]
fn every_length() {
    let mut arena = Arena::new();
    let random = &mut Random::new(2, 2);
    let text = sample::PLAN.as_bytes();
    let (number, block) = arena.read(random, text, &[7; BLOCK]);
    assert_eq!(number, 0);
    let (number, image) = arena.fresh(random, &block, &[7; IMAGE]);
    assert_eq!(number, 0);
    let of_length = |bytes: &[u8], length: usize| -> Vec<u8> {
        bytes.iter().copied().cycle().take(length).collect()
    };

    for length in 0..=text.len() {
        let mut left = of_length(&block, BLOCK);
        left.fill(9);
        arena.read(random, &text[..length], &left);
        for row in 0..4 {
            arena.margin(random, &text[..length], row);
        }
    }
    for length in 16_370..=16_390 {
        for byte in [b'\n', b'S', b'1', 0] {
            let long = vec![byte; length];
            arena.read(random, &long, &block);
            arena.margin(random, &long, 0);
        }
        let long = of_length(text, length);
        arena.read(random, &long, &block);
    }
    for length in (0..=2 * BLOCK).filter(|&length| length != BLOCK) {
        let other = of_length(&block, length);
        assert_eq!(arena.read(random, text, &other).0, 34);
        assert_eq!(arena.fresh(random, &other, &image).0, 34);
        assert_eq!(arena.step(random, &other, &image, [4, 0, 0]).0, 34);
        let mut output = Output {
            bytes: vec![0; 40],
            fill: 0,
        };
        let (number, _) = arena.line(random, &other, &image, 1, b"tick\n", &mut output);
        assert_eq!(number, 34);
    }
    for length in (0..=2 * IMAGE).filter(|&length| length != IMAGE) {
        let other = of_length(&image, length);
        assert_eq!(arena.fresh(random, &block, &other).0, 34);
        assert_eq!(arena.step(random, &block, &other, [4, 0, 0]).0, 34);
        let mut output = Output {
            bytes: vec![0; 40],
            fill: 0,
        };
        let (number, _) = arena.line(random, &block, &other, 1, b"tick\n", &mut output);
        assert_eq!(number, 34);
    }
    for room in 0..=40 {
        for fill in (0..=room + 2).chain([usize::MAX - 1, usize::MAX, usize::MAX / 2 + 1]) {
            for number in [1, 99, 1_000_000_000, u32::MAX] {
                let mut output = Output {
                    bytes: vec![3; room],
                    fill,
                };
                let line = if room % 2 == 0 {
                    &b"tick\n"[..]
                } else {
                    b"no event"
                };
                arena.line(random, &block, &image, number, line, &mut output);
            }
        }
    }
    arena.report("every length");
}
