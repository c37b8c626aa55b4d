//! Plan text to plan, or the refusal and the number beside it ("The plan text" and its table of refusals).

use crate::admission;
use crate::plan::{
    Plan, Scope, Subsystem, Task, LONGEST, MOST_RESOURCES, MOST_SUBSYSTEMS, MOST_TASKS,
};
use crate::text;
use std::collections::BTreeMap;

/// The longest text that is read at all.
pub const MOST_BYTES: usize = 16_384;

#[derive(Clone, Copy, Debug, PartialEq, Eq)]
pub struct Refusal {
    pub number: u32,
    pub beside: u32,
}

/// An accepted plan: no refusal at all.
pub fn read(text: &[u8]) -> Result<Plan, Refusal> {
    let plan = read_unadmitted(text)?;
    match admission::first_negative(&plan) {
        Some(row) => Err(Refusal {
            number: 30,
            beside: row as u32,
        }),
        None => Ok(plan),
    }
}

/// A plan that meets no refusal but 30, perhaps: margins can be asked of it.
pub fn read_unadmitted(text: &[u8]) -> Result<Plan, Refusal> {
    if text.len() > MOST_BYTES {
        return Err(Refusal {
            number: 20,
            beside: 0,
        });
    }
    let mut draft = Draft::default();
    for (line, place) in text.split_inclusive(|&byte| byte == b'\n').zip(1..) {
        Record::parse(line)
            .ok_or(21)
            .and_then(|record| draft.add(record))
            .map_err(|number| Refusal {
                number,
                beside: place,
            })?;
    }
    if draft.subsystems.is_empty() {
        return Err(Refusal {
            number: 29,
            beside: 0,
        });
    }
    Ok(Plan::new(draft.subsystems, draft.tasks, draft.resources))
}

/// One line of the grammar. The numbers are as written: rows and ranges are judged later.
enum Record {
    Subsystem {
        period: u32,
        budget: u32,
    },
    Task {
        owner: u32,
    },
    Resource(Scope),
    Use {
        task: u32,
        resource: u32,
        length: u32,
    },
}

/// The kinds in the order in which they have to come.
#[derive(Clone, Copy, Default, PartialEq, Eq, PartialOrd, Ord)]
enum Kind {
    #[default]
    Subsystem,
    Task,
    Resource,
    Use,
}

impl Record {
    fn parse(line: &[u8]) -> Option<Record> {
        let mut fields = text::fields(line)?;
        match fields.next()? {
            b"S" => {
                text::numbers(fields).map(|[period, budget]| Record::Subsystem { period, budget })
            }
            b"T" => text::numbers(fields).map(|[owner]| Record::Task { owner }),
            b"R" => {
                let scope = match fields.next()? {
                    b"L" => Scope::Local,
                    b"G" => Scope::Global,
                    _ => return None,
                };
                fields.next().is_none().then_some(Record::Resource(scope))
            }
            b"U" => text::numbers(fields).map(|[task, resource, length]| Record::Use {
                task,
                resource,
                length,
            }),
            _ => None,
        }
    }

    fn kind(&self) -> Kind {
        match self {
            Record::Subsystem { .. } => Kind::Subsystem,
            Record::Task { .. } => Kind::Task,
            Record::Resource(_) => Kind::Resource,
            Record::Use { .. } => Kind::Use,
        }
    }
}

/// The plan of the lines read so far.
#[derive(Default)]
struct Draft {
    latest: Kind,
    subsystems: Vec<Subsystem>,
    tasks: Vec<Task>,
    resources: Vec<Scope>,
    /// The subsystem from which a local resource is used.
    homes: BTreeMap<usize, usize>,
}

impl Draft {
    /// Takes one line in, or gives the first of 22 to 28 that it meets.
    fn add(&mut self, record: Record) -> Result<(), u32> {
        refuse_if(record.kind() < self.latest, 22)?;
        self.latest = record.kind();
        match record {
            Record::Subsystem { period, budget } => self.add_subsystem(period, budget),
            Record::Task { owner } => self.add_task(owner),
            Record::Resource(scope) => self.add_resource(scope),
            Record::Use {
                task,
                resource,
                length,
            } => self.add_use(task, resource, length),
        }
    }

    fn add_subsystem(&mut self, period: u32, budget: u32) -> Result<(), u32> {
        refuse_if(self.subsystems.len() == MOST_SUBSYSTEMS, 23)?;
        let in_range = (1..=LONGEST).contains(&period) && (1..=period).contains(&budget);
        refuse_if(!in_range, 25)?;
        self.subsystems.push(Subsystem {
            period: period as u16,
            budget: budget as u16,
        });
        Ok(())
    }

    fn add_task(&mut self, owner: u32) -> Result<(), u32> {
        refuse_if(self.tasks.len() == MOST_TASKS, 23)?;
        let owner = existing(owner, self.subsystems.len())?;
        self.tasks.push(Task {
            owner,
            uses: BTreeMap::new(),
        });
        Ok(())
    }

    fn add_resource(&mut self, scope: Scope) -> Result<(), u32> {
        refuse_if(self.resources.len() == MOST_RESOURCES, 23)?;
        self.resources.push(scope);
        Ok(())
    }

    fn add_use(&mut self, task: u32, resource: u32, length: u32) -> Result<(), u32> {
        let task = existing(task, self.tasks.len())?;
        let resource = existing(resource, self.resources.len())?;
        let owner = self.tasks[task].owner;
        let scope = self.resources[resource];
        let in_range = match scope {
            Scope::Local => length == 0,
            Scope::Global => (1..=LONGEST).contains(&length),
        };
        refuse_if(!in_range, 25)?;
        let length = length as u16;
        refuse_if(self.tasks[task].uses.contains_key(&resource), 26)?;
        if scope == Scope::Local {
            refuse_if(*self.homes.entry(resource).or_insert(owner) != owner, 27)?;
        }
        refuse_if(length > self.subsystems[owner].budget, 28)?;
        self.tasks[task].uses.insert(resource, length);
        Ok(())
    }
}

fn refuse_if(wrong: bool, number: u32) -> Result<(), u32> {
    if wrong {
        Err(number)
    } else {
        Ok(())
    }
}

/// A row that the plan has up to this line, else 24.
fn existing(row: u32, count: usize) -> Result<usize, u32> {
    let row = row as usize;
    if row < count {
        Ok(row)
    } else {
        Err(24)
    }
}
