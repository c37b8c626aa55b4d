//! The calls for a host over byte buffers and numbers, as the C header has them ("Calls from C").
//!
//! Refusals come in the order 34, 31, 32, 11, then the event's own. On 31 to 34 everything lent is kept, the numbers too;
//! an event that is refused keeps the state and still says who is chosen and running.

use crate::admission;
use crate::block::{from_block, to_block, BLOCK_BYTES, NO_PLAN, WRONG_LENGTH};
use crate::event::{Event, Outcome};
use crate::image::{from_image, to_image, IMAGE_BYTES, NO_STATE};
use crate::legal::legal;
use crate::line;
use crate::plan::Plan;
use crate::read::{read, Refusal};
use crate::state::State;
use crate::step::step;

/// The printed line is longer than the rest of the buffer.
const NO_ROOM: u32 = 33;

/// Stands for no row.
const NONE: u32 = 255;

/// 0, the block, and 0 beside; or 34, or a plan's refusal with the number beside it and the block kept.
pub fn c_read(text: &[u8], block: &mut [u8], beside: &mut u32) -> u32 {
    if block.len() != BLOCK_BYTES {
        return WRONG_LENGTH;
    }
    match read(text) {
        Ok(plan) => {
            block.copy_from_slice(&to_block(&plan));
            *beside = 0;
            0
        }
        Err(refusal) => {
            *beside = refusal.beside;
            refusal.number
        }
    }
}

/// 0 and the margin; or a refusal with the number beside it in the margin's place.
pub fn c_margin(text: &[u8], row: u32, margin: &mut i64) -> u32 {
    match admission::margin(text, row) {
        Ok(found) => {
            *margin = found;
            0
        }
        Err(Refusal { number, beside }) => {
            *margin = i64::from(beside);
            number
        }
    }
}

/// 0 and the image of the fresh state; or 34, 31.
pub fn c_fresh(block: &[u8], image: &mut [u8]) -> u32 {
    if block.len() != BLOCK_BYTES || image.len() != IMAGE_BYTES {
        return WRONG_LENGTH;
    }
    match from_block(block) {
        Ok(plan) => {
            image.copy_from_slice(&to_image(&State::fresh(&plan)));
            0
        }
        Err(refusal) => refusal,
    }
}

/// The answer with the image after, the subsystem, the task and the set of ended tasks (2 to the power of each row,
/// added up); or 34, 31, 32.
#[allow(clippy::too_many_arguments)] // The list is that of the C call.
pub fn c_step(
    block: &[u8],
    image: &mut [u8],
    kind: u32,
    task: u32,
    resource: u32,
    subsystem: &mut u32,
    running: &mut u32,
    ended: &mut u32,
) -> u32 {
    let (plan, mut state) = match plan_and_state(block, image) {
        Ok(found) => found,
        Err(refusal) => return refusal,
    };
    let event = Event::from_numbers(kind, task, resource);
    let outcome = step(&plan, &mut state, event);
    image.copy_from_slice(&to_image(&state));
    *subsystem = row_number(outcome.subsystem);
    *running = row_number(outcome.task);
    *ended = set_number(&outcome);
    outcome.answer.number()
}

/// Steps one event line and writes its printed line at the fill, which moves on; or 34, 31, 32, and 33 when the printed
/// line is longer than the rest of the buffer. With 33 the step has not happened.
pub fn c_line(
    block: &[u8],
    image: &mut [u8],
    number: u32,
    line: &[u8],
    out: &mut [u8],
    fill: &mut usize,
) -> u32 {
    let (plan, mut state) = match plan_and_state(block, image) {
        Ok(found) => found,
        Err(refusal) => return refusal,
    };
    let outcome = step(&plan, &mut state, line::event(line));
    let mut printed = Vec::new();
    line::print(&mut printed, number, &outcome);
    let rest = out.get_mut(*fill..).unwrap_or(&mut []);
    match rest.get_mut(..printed.len()) {
        Some(place) => place.copy_from_slice(&printed),
        None => return NO_ROOM,
    }
    *fill += printed.len();
    image.copy_from_slice(&to_image(&state));
    outcome.answer.number()
}

/// The step on a plan and a state lent as records: 31 for a plan that is not admitted, then 32 for a state that is not
/// legal, both kept.
///
/// A plan in hand meets every other condition already, by the way plans are made.
pub fn record_step(plan: &Plan, state: &mut State, event: Event) -> Result<Outcome, u32> {
    if admission::first_negative(plan).is_some() {
        return Err(NO_PLAN);
    }
    if !legal(plan, state) {
        return Err(NO_STATE);
    }
    Ok(step(plan, state, event))
}

/// Both lengths are judged before what is in either.
fn plan_and_state(block: &[u8], image: &[u8]) -> Result<(Plan, State), u32> {
    if block.len() != BLOCK_BYTES || image.len() != IMAGE_BYTES {
        return Err(WRONG_LENGTH);
    }
    let plan = from_block(block)?;
    let state = from_image(&plan, image)?;
    Ok((plan, state))
}

fn row_number(row: Option<usize>) -> u32 {
    row.map_or(NONE, |row| row as u32)
}

fn set_number(outcome: &Outcome) -> u32 {
    outcome.ended.iter().map(|&row| 2_u32.pow(row as u32)).sum()
}
