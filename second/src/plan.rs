//! The plan: subsystems, tasks, resources and who declares what ("The plan text", "Ceilings").

use std::collections::BTreeMap;

/// At most so many rows of a kind.
pub const MOST_SUBSYSTEMS: usize = 8;
pub const MOST_TASKS: usize = 32;
pub const MOST_RESOURCES: usize = 16;

/// Periods and lengths of global sections go up to this.
pub const LONGEST: u32 = 10_000;

#[derive(Clone, Copy, Debug, PartialEq, Eq)]
pub struct Subsystem {
    pub period: u16,
    pub budget: u16,
}

#[derive(Clone, Debug, PartialEq, Eq)]
pub struct Task {
    /// The row of its subsystem.
    pub owner: usize,
    /// The resources it declares, each with the length of the section; 0 for a local one.
    pub uses: BTreeMap<usize, u16>,
}

#[derive(Clone, Copy, Debug, PartialEq, Eq)]
pub enum Scope {
    Local,
    Global,
}

/// A plan that meets every condition on its lines. Whether it is admitted too is asked in `admission`.
///
/// The fields are closed, so that a plan in hand always came from the reader of texts or the reader of blocks.
#[derive(Clone, Debug, PartialEq, Eq)]
pub struct Plan {
    subsystems: Vec<Subsystem>,
    tasks: Vec<Task>,
    resources: Vec<Scope>,
    /// By resource; what follows is worked out once, as it depends on the plan only.
    ceilings: Vec<Option<usize>>,
    /// By subsystem: its task rows, rising.
    members: Vec<Vec<usize>>,
}

impl Plan {
    pub(crate) fn new(subsystems: Vec<Subsystem>, tasks: Vec<Task>, resources: Vec<Scope>) -> Plan {
        let ceilings = (0..resources.len())
            .map(|resource| ceiling(&tasks, resource, resources[resource]))
            .collect();
        let members = (0..subsystems.len())
            .map(|row| {
                (0..tasks.len())
                    .filter(|&task| tasks[task].owner == row)
                    .collect()
            })
            .collect();
        Plan {
            subsystems,
            tasks,
            resources,
            ceilings,
            members,
        }
    }

    pub fn subsystems(&self) -> &[Subsystem] {
        &self.subsystems
    }

    pub fn tasks(&self) -> &[Task] {
        &self.tasks
    }

    pub fn resources(&self) -> &[Scope] {
        &self.resources
    }

    /// The task rows of a subsystem, rising.
    pub fn members(&self, subsystem: usize) -> &[usize] {
        &self.members[subsystem]
    }

    pub fn owner(&self, task: usize) -> usize {
        self.tasks[task].owner
    }

    /// The declared length, or nothing when the task does not declare the resource.
    pub fn length(&self, task: usize, resource: usize) -> Option<u16> {
        self.tasks[task].uses.get(&resource).copied()
    }

    pub fn is_global(&self, resource: usize) -> bool {
        self.resources[resource] == Scope::Global
    }

    /// A task row for a local resource, a subsystem row for a global one; nothing when no task declares it.
    pub fn ceiling(&self, resource: usize) -> Option<usize> {
        self.ceilings[resource]
    }
}

/// Local: the first task that declares the resource. Global: the first subsystem with such a task.
fn ceiling(tasks: &[Task], resource: usize, scope: Scope) -> Option<usize> {
    let declaring = (0..tasks.len()).filter(|&task| tasks[task].uses.contains_key(&resource));
    match scope {
        Scope::Local => declaring.min(),
        Scope::Global => declaring.map(|task| tasks[task].owner).min(),
    }
}
