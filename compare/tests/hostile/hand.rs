//! A host that does as it likes.

use crate::arena::Arena;
use crate::input::{any_bytes, any_event, any_line, any_number, any_text, perhaps_damaged, Output};
use crate::support::events::Mood;
use crate::support::plans::plan;
use crate::support::random::Random;
use crate::support::states::wander;
use crate::{BLOCK, IMAGE};
use second::block::{from_block, to_block};
use second::image::{from_image, to_image};
use second::state::State;

/// What a host has in hand. Each call goes on from what the calls before left, unless it is given something else.
pub struct Hand {
    pub text: Vec<u8>,
    pub block: Vec<u8>,
    pub image: Vec<u8>,
    pub output: Output,
    /// The latest image was refused.
    pub lost: bool,
}

impl Hand {
    pub fn any(random: &mut Random) -> Hand {
        Hand {
            text: any_text(random),
            block: to_block(&plan(random).1),
            image: any_bytes(random, IMAGE),
            output: Output::any(random),
            lost: true,
        }
    }

    /// Another text, its block if it has one, and the fresh image of the block in hand.
    pub fn begin(&mut self, random: &mut Random, arena: &mut Arena) {
        let block = any_bytes(random, BLOCK);
        let (number, left) = arena.read(random, &self.text, &block);
        if number == 0 {
            self.block = left;
        }
        let image = any_bytes(random, IMAGE);
        let (number, left) = arena.fresh(random, &self.block, &image);
        (self.image, self.lost) = (left, number != 0);
    }

    /// A legal state that no run need reach.
    pub fn wander(&mut self, random: &mut Random) {
        if let Ok(plan) = from_block(&self.block) {
            let mut state = from_image(&plan, &self.image).unwrap_or(State::fresh(&plan));
            wander(random, &plan, &mut state, 40);
            self.image = to_image(&state);
        }
    }

    /// What a call accepts is gone on from, what it refuses mostly is not.
    pub fn go_on(&mut self, random: &mut Random, number: u32, block: Vec<u8>, image: Vec<u8>) {
        if number <= 11 || random.percent(1) {
            (self.block, self.image) = (block, image);
            self.lost = number > 11;
        }
    }

    /// One call, of any kind.
    pub fn call(&mut self, random: &mut Random, arena: &mut Arena, mood: Mood, number: u32) {
        match random.below(40) {
            0..=1 => {
                let text = perhaps_damaged(random, &self.text, &self.block);
                let block = perhaps_damaged(random, &self.block, &self.image);
                let (number, left) = arena.read(random, &text, &block);
                if number == 0 && random.percent(10) {
                    (self.text, self.block) = (text, left);
                }
            }
            2..=3 => {
                let text = perhaps_damaged(random, &self.text, &self.image);
                let row = match random.below(8) {
                    0 => any_number(random),
                    _ => random.below(9) as u32,
                };
                arena.margin(random, &text, row);
            }
            4..=5 => {
                let block = perhaps_damaged(random, &self.block, &self.text);
                let image = perhaps_damaged(random, &self.image, &self.block);
                let (number, left) = arena.fresh(random, &block, &image);
                if number == 0 && (self.lost || random.percent(5)) {
                    (self.block, self.image, self.lost) = (block, left, false);
                }
            }
            6..=22 => {
                let block = perhaps_damaged(random, &self.block, &self.image);
                let image = perhaps_damaged(random, &self.image, &self.block);
                let event = any_event(random, &block, &image, mood);
                let (number, left) = arena.step(random, &block, &image, event);
                self.go_on(random, number, block, left);
            }
            _ => {
                let block = perhaps_damaged(random, &self.block, &self.image);
                let image = perhaps_damaged(random, &self.image, &self.block);
                let event = any_event(random, &block, &image, mood);
                let line = any_line(random, event, &self.text);
                let number = match random.below(4) {
                    0 => any_number(random),
                    _ => number,
                };
                let (mut answer, mut left) =
                    arena.line(random, &block, &image, number, &line, &mut self.output);
                if answer == 33 {
                    // As a host does: the same line again, here with room or with none.
                    self.output = Output::any(random);
                    (answer, left) =
                        arena.line(random, &block, &image, number, &line, &mut self.output);
                }
                self.go_on(random, answer, block, left);
            }
        }
    }
}
