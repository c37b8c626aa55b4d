//! The plan block, both ways ("Calls from C").

use crate::admission;
use crate::plan::{
    Plan, Scope, Subsystem, Task, LONGEST, MOST_RESOURCES, MOST_SUBSYSTEMS, MOST_TASKS,
};
use std::collections::BTreeMap;

pub const BLOCK_BYTES: usize =
    4 + 4 * MOST_SUBSYSTEMS + MOST_TASKS + MOST_RESOURCES + 2 * MOST_TASKS * MOST_RESOURCES;

/// A buffer has the wrong length.
pub const WRONG_LENGTH: u32 = 34;

/// No accepted plan has the block.
pub const NO_PLAN: u32 = 31;

/// Stands for "this task does not declare this resource".
const UNDECLARED: u16 = 65_535;

/// Writes a plan down, section by section in the order of the layout.
pub fn to_block(plan: &Plan) -> Vec<u8> {
    let (subsystems, tasks, resources) = (plan.subsystems(), plan.tasks(), plan.resources());
    let mut block = Vec::with_capacity(BLOCK_BYTES);
    block.extend([subsystems.len(), tasks.len(), resources.len(), 0].map(|count| count as u8));
    for row in 0..MOST_SUBSYSTEMS {
        let (period, budget) = subsystems
            .get(row)
            .map_or((0, 0), |found| (found.period, found.budget));
        block.extend(period.to_le_bytes());
        block.extend(budget.to_le_bytes());
    }
    for row in 0..MOST_TASKS {
        block.push(tasks.get(row).map_or(0, |task| task.owner as u8));
    }
    for row in 0..MOST_RESOURCES {
        block.push(match resources.get(row) {
            Some(Scope::Global) => 1,
            Some(Scope::Local) | None => 0,
        });
    }
    for row in 0..MOST_TASKS {
        for resource in 0..MOST_RESOURCES {
            let length = match tasks.get(row) {
                Some(task) if resource < resources.len() => {
                    task.uses.get(&resource).copied().unwrap_or(UNDECLARED)
                }
                _ => 0,
            };
            block.extend(length.to_le_bytes());
        }
    }
    block
}

/// The accepted plan of a block; 34 for a wrong length, 31 when no accepted plan text has this block.
///
/// What the block says of its present rows is taken out and judged by the conditions of the plan text. Everything else
/// (absent rows, the fourth byte) is right exactly when the plan written down again gives the same bytes.
pub fn from_block(block: &[u8]) -> Result<Plan, u32> {
    if block.len() != BLOCK_BYTES {
        return Err(WRONG_LENGTH);
    }
    let plan = present_rows(block).ok_or(NO_PLAN)?;
    if admission::first_negative(&plan).is_none() && to_block(&plan) == block {
        Ok(plan)
    } else {
        Err(NO_PLAN)
    }
}

/// The plan of the present rows, if they meet the conditions that lines of a plan text have to meet.
fn present_rows(block: &[u8]) -> Option<Plan> {
    let (counts, rest) = block.split_at(4);
    let (supplies, rest) = rest.split_at(4 * MOST_SUBSYSTEMS);
    let (owners, rest) = rest.split_at(MOST_TASKS);
    let (scopes, lengths) = rest.split_at(MOST_RESOURCES);
    let [subsystem_count, task_count, resource_count] =
        [counts[0], counts[1], counts[2]].map(usize::from);
    let counts_fit = (1..=MOST_SUBSYSTEMS).contains(&subsystem_count)
        && task_count <= MOST_TASKS
        && resource_count <= MOST_RESOURCES;
    if !counts_fit {
        return None;
    }

    let subsystems = supplies
        .chunks_exact(4)
        .take(subsystem_count)
        .map(|supply| subsystem(word(&supply[..2]), word(&supply[2..])))
        .collect::<Option<Vec<_>>>()?;
    let resources = scopes[..resource_count]
        .iter()
        .map(|scope| match scope {
            0 => Some(Scope::Local),
            1 => Some(Scope::Global),
            _ => None,
        })
        .collect::<Option<Vec<_>>>()?;
    let tasks = owners[..task_count]
        .iter()
        .zip(lengths.chunks_exact(2 * MOST_RESOURCES))
        .map(|(&owner, lengths)| task(owner, lengths, &subsystems, &resources))
        .collect::<Option<Vec<_>>>()?;
    locals_have_one_home(&tasks, &resources).then(|| Plan::new(subsystems, tasks, resources))
}

/// The condition behind 25 for an S line.
fn subsystem(period: u16, budget: u16) -> Option<Subsystem> {
    let in_range = (1..=LONGEST).contains(&u32::from(period)) && (1..=period).contains(&budget);
    in_range.then_some(Subsystem { period, budget })
}

/// The conditions behind 24 for a T line, and 25 and 28 for the U lines of one task.
fn task(owner: u8, lengths: &[u8], subsystems: &[Subsystem], resources: &[Scope]) -> Option<Task> {
    let owner = usize::from(owner);
    let budget = subsystems.get(owner)?.budget;
    let mut uses = BTreeMap::new();
    for (resource, scope) in resources.iter().enumerate() {
        let length = word(&lengths[2 * resource..2 * resource + 2]);
        if length == UNDECLARED {
            continue;
        }
        let fits = match scope {
            Scope::Local => length == 0,
            Scope::Global => (1..=LONGEST).contains(&u32::from(length)) && length <= budget,
        };
        if !fits {
            return None;
        }
        uses.insert(resource, length);
    }
    Some(Task { owner, uses })
}

/// The condition behind 27.
fn locals_have_one_home(tasks: &[Task], resources: &[Scope]) -> bool {
    let mut homes = BTreeMap::new();
    tasks.iter().all(|task| {
        task.uses
            .keys()
            .filter(|&&resource| resources[resource] == Scope::Local)
            .all(|&resource| *homes.entry(resource).or_insert(task.owner) == task.owner)
    })
}

/// Two bytes, the smaller end first.
fn word(bytes: &[u8]) -> u16 {
    u16::from_le_bytes([bytes[0], bytes[1]])
}
