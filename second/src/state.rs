//! The state of a run, and the fresh one ("State").

use crate::plan::Plan;

/// A task holds at most so many resources.
pub const MOST_HELD: usize = 4;

/// What a subsystem has: two counts that never stand for each other, and the clock of its period.
#[derive(Clone, Copy, Debug, PartialEq, Eq)]
pub struct Supply {
    /// Budget left in this period.
    pub left: u16,
    /// Ticks to the next refill.
    pub refill: u16,
    /// Ticks used of its global section, 0 without one.
    pub used: u16,
}

/// What a task is doing. Only those under way can hold something, so only they carry it.
#[derive(Clone, Debug, Default, PartialEq, Eq)]
pub enum Job {
    #[default]
    Idle,
    Ready,
    Started {
        /// In the order taken.
        held: Vec<usize>,
    },
    Waiting {
        held: Vec<usize>,
        resource: usize,
    },
}

impl Job {
    pub fn held(&self) -> &[usize] {
        match self {
            Job::Idle | Job::Ready => &[],
            Job::Started { held } | Job::Waiting { held, .. } => held,
        }
    }

    /// Started or waiting.
    pub fn is_under_way(&self) -> bool {
        matches!(self, Job::Started { .. } | Job::Waiting { .. })
    }

    pub fn waits_for(&self) -> Option<usize> {
        match self {
            Job::Waiting { resource, .. } => Some(*resource),
            _ => None,
        }
    }

    /// From ready to started; a task under way stays as it is.
    pub fn start(&mut self) {
        if *self == Job::Ready {
            *self = Job::Started { held: Vec::new() };
        }
    }

    /// Takes a resource, which starts the task or ends its wait.
    pub fn take(&mut self, resource: usize) {
        let mut held = std::mem::take(self).into_held();
        held.push(resource);
        *self = Job::Started { held };
    }

    /// Waits for a resource and keeps what it holds.
    pub fn wait(&mut self, resource: usize) {
        let held = std::mem::take(self).into_held();
        *self = Job::Waiting { held, resource };
    }

    /// Gives back the resource taken last.
    pub fn give_back(&mut self) -> Option<usize> {
        match self {
            Job::Idle | Job::Ready => None,
            Job::Started { held } | Job::Waiting { held, .. } => held.pop(),
        }
    }

    fn into_held(self) -> Vec<usize> {
        match self {
            Job::Idle | Job::Ready => Vec::new(),
            Job::Started { held } | Job::Waiting { held, .. } => held,
        }
    }
}

#[derive(Clone, Debug, PartialEq, Eq)]
pub struct State {
    /// By subsystem.
    pub supplies: Vec<Supply>,
    /// By task.
    pub jobs: Vec<Job>,
}

impl State {
    /// Idle tasks, full budgets, whole periods to go.
    pub fn fresh(plan: &Plan) -> State {
        State {
            supplies: plan
                .subsystems()
                .iter()
                .map(|subsystem| Supply {
                    left: subsystem.budget,
                    refill: subsystem.period,
                    used: 0,
                })
                .collect(),
            jobs: vec![Job::Idle; plan.tasks().len()],
        }
    }

    /// The global resource that a task of a legal state holds: it can only be the one taken last.
    pub fn global_held(&self, plan: &Plan, task: usize) -> Option<usize> {
        self.jobs[task]
            .held()
            .last()
            .copied()
            .filter(|&resource| plan.is_global(resource))
    }
}
