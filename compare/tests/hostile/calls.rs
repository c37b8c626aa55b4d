//! The five calls on the arena. A refusal is judged by itself too: it keeps what it is lent.

use crate::arena::Arena;
use crate::input::Output;
use crate::support::random::Random;
use compare::c;
use second::host::{c_fresh, c_line, c_margin, c_read, c_step};
use std::ops::Range;

impl Arena {
    /// The number and the block left.
    pub fn read(&mut self, random: &mut Random, text: &[u8], block: &[u8]) -> (u32, Vec<u8>) {
        self.clear();
        let text = self.lend(random, text);
        let block = self.lend(random, block);
        let beside = self.lend_number(random, 4);
        // SAFETY, here and below: every place was lent out of this arena with its own length, and none overlaps another.
        let number = self.call(
            "read",
            |base| unsafe {
                c::skrzypolot_read(
                    base.add(text.start),
                    text.len(),
                    base.add(block.start),
                    block.len(),
                    base.add(beside.start).cast(),
                )
            },
            |arena| {
                let (mut lent, mut told) = (arena[block.clone()].to_vec(), u32_at(arena, &beside));
                let number = c_read(&arena[text.clone()], &mut lent, &mut told);
                arena[block.clone()].copy_from_slice(&lent);
                arena[beside.clone()].copy_from_slice(&told.to_ne_bytes());
                number
            },
        );
        match number {
            0 => {}
            34 => self.all_kept(),
            _ => self.kept(&block),
        }
        (number, self.left(&block))
    }

    pub fn margin(&mut self, random: &mut Random, text: &[u8], row: u32) {
        self.clear();
        let text = self.lend(random, text);
        let margin = self.lend_number(random, 8);
        self.call(
            "margin",
            |base| unsafe {
                c::skrzypolot_margin(
                    base.add(text.start),
                    text.len(),
                    row,
                    base.add(margin.start).cast(),
                )
            },
            |arena| {
                let mut told = i64::from_ne_bytes(arena[margin.clone()].try_into().unwrap());
                let number = c_margin(&arena[text.clone()], row, &mut told);
                arena[margin.clone()].copy_from_slice(&told.to_ne_bytes());
                number
            },
        );
    }

    /// The number and the image left.
    pub fn fresh(&mut self, random: &mut Random, block: &[u8], image: &[u8]) -> (u32, Vec<u8>) {
        self.clear();
        let block = self.lend(random, block);
        let image = self.lend(random, image);
        let number = self.call(
            "fresh",
            |base| unsafe {
                c::skrzypolot_fresh(
                    base.add(block.start),
                    block.len(),
                    base.add(image.start),
                    image.len(),
                )
            },
            |arena| {
                let mut lent = arena[image.clone()].to_vec();
                let number = c_fresh(&arena[block.clone()], &mut lent);
                arena[image.clone()].copy_from_slice(&lent);
                number
            },
        );
        if number != 0 {
            self.all_kept();
        }
        (number, self.left(&image))
    }

    /// The number and the image left.
    pub fn step(
        &mut self,
        random: &mut Random,
        block: &[u8],
        image: &[u8],
        [kind, task, resource]: [u32; 3],
    ) -> (u32, Vec<u8>) {
        self.clear();
        let image = self.lend(random, image);
        let subsystem = self.lend_number(random, 4);
        let block = self.lend(random, block);
        let ended = self.lend_number(random, 4);
        let running = self.lend_number(random, 4);
        let number = self.call(
            "step",
            |base| unsafe {
                c::skrzypolot_step(
                    base.add(block.start),
                    block.len(),
                    base.add(image.start),
                    image.len(),
                    kind,
                    task,
                    resource,
                    base.add(subsystem.start).cast(),
                    base.add(running.start).cast(),
                    base.add(ended.start).cast(),
                )
            },
            |arena| {
                let mut lent = arena[image.clone()].to_vec();
                let places = [&subsystem, &running, &ended];
                let mut told = places.map(|place| u32_at(arena, place));
                let [subsystem, running, ended] = &mut told;
                let number = c_step(
                    &arena[block.clone()],
                    &mut lent,
                    kind,
                    task,
                    resource,
                    subsystem,
                    running,
                    ended,
                );
                arena[image.clone()].copy_from_slice(&lent);
                for (place, number) in places.into_iter().zip(told) {
                    arena[place.clone()].copy_from_slice(&number.to_ne_bytes());
                }
                number
            },
        );
        match number {
            31.. => self.all_kept(),
            2..=9 | 11 => self.kept(&image),
            _ => {}
        }
        (number, self.left(&image))
    }

    /// The number and the image left; the buffer and its fill are moved on.
    pub fn line(
        &mut self,
        random: &mut Random,
        block: &[u8],
        image: &[u8],
        number: u32,
        line: &[u8],
        output: &mut Output,
    ) -> (u32, Vec<u8>) {
        self.clear();
        let out = self.lend(random, &output.bytes);
        let line = self.lend(random, line);
        let block = self.lend(random, block);
        let image = self.lend(random, image);
        let fill = self.lend_number(random, size_of::<usize>());
        self.proved[fill.clone()].copy_from_slice(&output.fill.to_ne_bytes());
        let answer = self.call(
            "line",
            |base| unsafe {
                c::skrzypolot_line(
                    base.add(block.start),
                    block.len(),
                    base.add(image.start),
                    image.len(),
                    number,
                    base.add(line.start),
                    line.len(),
                    base.add(out.start),
                    out.len(),
                    base.add(fill.start).cast(),
                )
            },
            |arena| {
                let mut lent = arena[image.clone()].to_vec();
                let mut written = arena[out.clone()].to_vec();
                let mut told = usize_at(arena, &fill);
                let answer = c_line(
                    &arena[block.clone()],
                    &mut lent,
                    number,
                    &arena[line.clone()],
                    &mut written,
                    &mut told,
                );
                arena[image.clone()].copy_from_slice(&lent);
                arena[out.clone()].copy_from_slice(&written);
                arena[fill.clone()].copy_from_slice(&told.to_ne_bytes());
                answer
            },
        );
        match answer {
            31.. => self.all_kept(),
            2..=9 | 11 => self.kept(&image),
            _ => {}
        }
        let fill_after = usize_at(&self.proved, &fill);
        if answer <= 11 {
            let printed = fill_after - output.fill;
            assert!(
                (1..=128).contains(&printed),
                "a printed line of {printed} bytes"
            );
        }
        *output = Output {
            bytes: self.left(&out),
            fill: fill_after,
        };
        (answer, self.left(&image))
    }
}

fn u32_at(arena: &[u8], place: &Range<usize>) -> u32 {
    u32::from_ne_bytes(arena[place.clone()].try_into().unwrap())
}

fn usize_at(arena: &[u8], place: &Range<usize>) -> usize {
    usize::from_ne_bytes(arena[place.clone()].try_into().unwrap())
}
