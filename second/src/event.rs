//! Events, answers and what a step comes back with ("Events").

use std::collections::BTreeSet;

/// An event. The rows are as the host gave them and need not exist.
#[derive(Clone, Copy, Debug, PartialEq, Eq)]
pub enum Event {
    Release {
        task: u32,
    },
    Lock {
        task: u32,
        resource: u32,
    },
    Unlock {
        task: u32,
        resource: u32,
    },
    End {
        task: u32,
    },
    Tick,
    /// A kind that does not exist, or an event line that is not of the grammar.
    Unknown,
}

impl Event {
    /// From the three numbers of a host. What the kind does not use is not read.
    pub fn from_numbers(kind: u32, task: u32, resource: u32) -> Event {
        match kind {
            0 => Event::Release { task },
            1 => Event::Lock { task, resource },
            2 => Event::Unlock { task, resource },
            3 => Event::End { task },
            4 => Event::Tick,
            _ => Event::Unknown,
        }
    }
}

#[derive(Clone, Copy, Debug, PartialEq, Eq, PartialOrd, Ord)]
pub enum Answer {
    Done,
    WaitsForBudget,
    NoSuchRow,
    NotIdle,
    NotRunning,
    NotDeclared,
    HoldsGlobalOrThis,
    NotTakenLast,
    EndWhileHolding,
    FifthHeld,
    SectionShut,
    UnknownEvent,
}

impl Answer {
    /// The number in the table of answers.
    pub fn number(self) -> u32 {
        match self {
            Answer::Done => 0,
            Answer::WaitsForBudget => 1,
            Answer::NoSuchRow => 2,
            Answer::NotIdle => 3,
            Answer::NotRunning => 4,
            Answer::NotDeclared => 5,
            Answer::HoldsGlobalOrThis => 6,
            Answer::NotTakenLast => 7,
            Answer::EndWhileHolding => 8,
            Answer::FifthHeld => 9,
            Answer::SectionShut => 10,
            Answer::UnknownEvent => 11,
        }
    }

    /// 2 to 9 and 11: the state is kept.
    pub fn is_refusal(self) -> bool {
        !matches!(
            self,
            Answer::Done | Answer::WaitsForBudget | Answer::SectionShut
        )
    }
}

/// The answer, then for a tick whom it charged and ran, else who is chosen and running after the event.
#[derive(Clone, Debug, PartialEq, Eq)]
pub struct Outcome {
    pub answer: Answer,
    pub subsystem: Option<usize>,
    pub task: Option<usize>,
    /// The tasks whose sections a tick shut.
    pub ended: BTreeSet<usize>,
}
