//! The state image, both ways ("Calls from C").

use crate::block::WRONG_LENGTH;
use crate::legal::legal;
use crate::plan::{Plan, MOST_SUBSYSTEMS, MOST_TASKS};
use crate::state::{Job, State, Supply, MOST_HELD};

const SUPPLY_BYTES: usize = 8;
const JOB_BYTES: usize = 8;
pub const IMAGE_BYTES: usize = SUPPLY_BYTES * MOST_SUBSYSTEMS + JOB_BYTES * MOST_TASKS;

/// The image is not that of a legal state.
pub const NO_STATE: u32 = 32;

/// Stands for "no resource".
const NONE: u8 = 255;

/// Writes a state down; absent subsystems are zeros, absent tasks look idle.
pub fn to_image(state: &State) -> Vec<u8> {
    let mut image = Vec::with_capacity(IMAGE_BYTES);
    for row in 0..MOST_SUBSYSTEMS {
        let counts = state.supplies.get(row).map_or([0; 4], |supply| {
            [supply.left, supply.refill, supply.used, 0]
        });
        image.extend(counts.iter().flat_map(|count| count.to_le_bytes()));
    }
    for row in 0..MOST_TASKS {
        image.extend(job_bytes(state.jobs.get(row).unwrap_or(&Job::Idle)));
    }
    image
}

fn job_bytes(job: &Job) -> [u8; JOB_BYTES] {
    let condition = match job {
        Job::Idle => 0,
        Job::Ready => 1,
        Job::Started { .. } => 2,
        Job::Waiting { .. } => 3,
    };
    let waited_for = job.waits_for().map_or(NONE, |resource| resource as u8);
    let mut held = [NONE; MOST_HELD];
    for (place, &resource) in held.iter_mut().zip(job.held()) {
        *place = resource as u8;
    }
    let [first, second, third, fourth] = held;
    [
        condition,
        waited_for,
        job.held().len() as u8,
        first,
        second,
        third,
        fourth,
        0,
    ]
}

/// The legal state of an image; 34 for a wrong length, 32 when no legal state of this plan has this image.
///
/// What a legal state could have written is taken out, and the rest (bytes that are always 0, unused places, absent rows)
/// is right exactly when the state written down again gives the same bytes.
pub fn from_image(plan: &Plan, image: &[u8]) -> Result<State, u32> {
    if image.len() != IMAGE_BYTES {
        return Err(WRONG_LENGTH);
    }
    let (supplies, jobs) = image.split_at(SUPPLY_BYTES * MOST_SUBSYSTEMS);
    let state = State {
        supplies: supplies
            .chunks_exact(SUPPLY_BYTES)
            .take(plan.subsystems().len())
            .map(supply)
            .collect(),
        jobs: jobs
            .chunks_exact(JOB_BYTES)
            .take(plan.tasks().len())
            .map(job)
            .collect::<Option<Vec<_>>>()
            .ok_or(NO_STATE)?,
    };
    if legal(plan, &state) && to_image(&state) == image {
        Ok(state)
    } else {
        Err(NO_STATE)
    }
}

fn supply(bytes: &[u8]) -> Supply {
    let count = |place: usize| u16::from_le_bytes([bytes[2 * place], bytes[2 * place + 1]]);
    Supply {
        left: count(0),
        refill: count(1),
        used: count(2),
    }
}

fn job(bytes: &[u8]) -> Option<Job> {
    let held = || {
        let places = bytes[3..].get(..usize::from(bytes[2]))?;
        Some(
            places
                .iter()
                .map(|&resource| usize::from(resource))
                .collect(),
        )
    };
    match bytes[0] {
        0 => Some(Job::Idle),
        1 => Some(Job::Ready),
        2 => Some(Job::Started { held: held()? }),
        3 => Some(Job::Waiting {
            held: held()?,
            resource: usize::from(bytes[1]),
        }),
        _ => None,
    }
}
