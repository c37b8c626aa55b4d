//! What a hostile host hands over: plan texts, blocks, images, events, lines and buffers, some good, most not.

use crate::support::damage::{damage_in_place, damage_text};
use crate::support::events::{any_row, event, Mood};
use crate::support::plans::plan;
use crate::support::random::Random;
use second::block::from_block;
use second::event::Event;
use second::image::from_image;

/// An output buffer with its fill, which may be past its end.
#[derive(Clone)]
pub struct Output {
    pub bytes: Vec<u8>,
    pub fill: usize,
}

impl Output {
    pub fn any(random: &mut Random) -> Output {
        let room = match random.below(6) {
            0 => random.below(20),
            1 => 4096,
            _ => random.below(300),
        };
        let fill = match random.below(12) {
            0 => usize::MAX - random.below(130),
            1 => room + random.below(3),
            2 => random.next() as usize,
            3..=5 => random.below(room + 1),
            _ => 0,
        };
        Output {
            bytes: any_bytes(random, room),
            fill,
        }
    }
}

pub fn any_bytes(random: &mut Random, length: usize) -> Vec<u8> {
    (0..length).map(|_| random.next() as u8).collect()
}

/// A text that is accepted, damaged a little, or hardly a plan at all.
pub fn any_text(random: &mut Random) -> Vec<u8> {
    let mut text = plan(random).0.text().into_bytes();
    match random.below(24) {
        0 => text.truncate(random.below(text.len() + 1)),
        1 => {
            text = (0..random.below(60))
                .map(|_| random.pick(b"\t\n01259STRULG").unwrap())
                .collect()
        }
        2 => {
            // Around the limit of length, to the byte.
            text = text.repeat(16_400 / text.len() + 1);
            text.truncate(16_380 + random.below(10));
        }
        3 => text.clear(),
        4 => {
            let length = random.below(400);
            text = any_bytes(random, length);
        }
        5 => text = any_rows(random),
        6..=11 => {}
        _ => {
            for _ in 0..random.within(1..=3) {
                damage_text(random, &mut text);
            }
        }
    }
    text
}

/// Lines of the grammar with numbers from end to end of their ranges and a little past them: the largest demands there are.
pub fn any_rows(random: &mut Random) -> Vec<u8> {
    let mut text = String::new();
    let any = |random: &mut Random, most: u32| match random.below(12) {
        0..=3 => 1,
        4..=7 => most,
        8 => random.pick(&[0, most + 1, 65_535, 65_536, 99_999]).unwrap(),
        _ => random.within(1..=most),
    };
    for _ in 0..random.within(1..=9) {
        let period = any(random, 10_000);
        let budget = any(random, period.clamp(1, 10_000));
        text += &format!("S\t{period}\t{budget}\n");
    }
    if random.percent(50) {
        text += &format!("T\t{}\nR\tG\n", random.below(8));
        text += &format!("U\t0\t0\t{}\n", any(random, 10_000));
    }
    text.into_bytes()
}

/// Bytes of one kind made into bytes of another length, of another kind, or of none.
pub fn spoil(random: &mut Random, bytes: &mut Vec<u8>, other: &[u8]) {
    let length = bytes.len();
    match random.below(10) {
        0 => bytes.clear(),
        1 => bytes.truncate(random.below(length + 1)),
        2 => {
            bytes.pop();
        }
        3 => bytes.push(random.next() as u8),
        4 => {
            let more = random.below(2000);
            bytes.extend(any_bytes(random, more));
        }
        5 => *bytes = any_bytes(random, length),
        6 => bytes.fill(random.pick(&[0, 1, 0x7f, 0x80, 0xff]).unwrap()),
        7 => {
            // Another kind's bytes, as many as there were.
            *bytes = other
                .iter()
                .copied()
                .chain(std::iter::repeat(0))
                .take(length)
                .collect();
        }
        8 => *bytes = other.to_vec(),
        _ => {
            let place = random.below(length + 1);
            bytes.rotate_left(place);
        }
    }
}

/// A few bytes changed, or the whole spoilt, or mostly nothing.
pub fn perhaps_damaged(random: &mut Random, bytes: &[u8], other: &[u8]) -> Vec<u8> {
    let mut bytes = bytes.to_vec();
    match random.below(100) {
        0..=3 => spoil(random, &mut bytes, other),
        4..=11 if !bytes.is_empty() => {
            for _ in 0..random.within(1..=3) {
                damage_in_place(random, &mut bytes);
            }
        }
        _ => {}
    }
    bytes
}

pub fn any_number(random: &mut Random) -> u32 {
    match random.below(3) {
        0 => u32::MAX - random.below(3) as u32,
        1 => random.next() as u32,
        _ => random.below(40) as u32,
    }
}

/// An event that suits the state if block and image have one, with any numbers in the places that its kind does not use; else any.
pub fn any_event(random: &mut Random, block: &[u8], image: &[u8], mood: Mood) -> [u32; 3] {
    let found = match random.below(12) {
        0 => None,
        _ => from_block(block)
            .ok()
            .and_then(|plan| Some((from_image(&plan, image).ok()?, plan))),
    };
    match found.map(|(state, plan)| event(random, &plan, &state, mood)) {
        Some(Event::Release { task }) => [0, task, any_number(random)],
        Some(Event::Lock { task, resource }) => [1, task, resource],
        Some(Event::Unlock { task, resource }) => [2, task, resource],
        Some(Event::End { task }) => [3, task, any_number(random)],
        Some(Event::Tick) => [4, any_number(random), any_number(random)],
        Some(Event::Unknown) | None => {
            let kind = match random.below(3) {
                0 => any_number(random),
                1 => random
                    .pick(&[5, 255, 256, 260, 65_536, 65_540, u32::MAX])
                    .unwrap(),
                _ => random.below(6) as u32,
            };
            [kind, any_row(random, 33), any_row(random, 17)]
        }
    }
}

/// The line of an event, mostly as it should be.
pub fn any_line(random: &mut Random, [kind, task, resource]: [u32; 3], other: &[u8]) -> Vec<u8> {
    let mut line = match kind {
        0 => format!("release\t{task}\n"),
        1 => format!("lock\t{task}\t{resource}\n"),
        2 => format!("unlock\t{task}\t{resource}\n"),
        3 => format!("end\t{task}\n"),
        4 => "tick\n".to_owned(),
        _ => format!("kind{kind}\t{task}\n"),
    }
    .into_bytes();
    match random.below(40) {
        0 => spoil(random, &mut line, other),
        1..=4 => damage_text(random, &mut line),
        5 => line = line.repeat(random.within(2..=200) as usize),
        _ => {}
    }
    line
}
