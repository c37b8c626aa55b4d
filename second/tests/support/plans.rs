//! Random plans, with an admission of their own to judge the reader's by.

use super::random::Random;
use second::plan::Plan;
use second::read::read;
use std::fmt::Write;

/// A plan as a list of lines to be written.
#[derive(Clone, Debug, Default)]
pub struct Sketch {
    /// Period and budget.
    pub subsystems: Vec<(u32, u32)>,
    pub owners: Vec<usize>,
    /// Whether it is global.
    pub globals: Vec<bool>,
    /// Task, resource, length; in the order of their lines.
    pub uses: Vec<(usize, usize, u32)>,
}

impl Sketch {
    pub fn text(&self) -> String {
        let mut text = String::new();
        for (period, budget) in &self.subsystems {
            writeln!(text, "S\t{period}\t{budget}").unwrap();
        }
        for owner in &self.owners {
            writeln!(text, "T\t{owner}").unwrap();
        }
        for &global in &self.globals {
            writeln!(text, "R\t{}", if global { 'G' } else { 'L' }).unwrap();
        }
        for (task, resource, length) in &self.uses {
            writeln!(text, "U\t{task}\t{resource}\t{length}").unwrap();
        }
        text
    }

    /// The lines of a plan in hand, uses by task, then resource.
    pub fn of(plan: &Plan) -> Sketch {
        Sketch {
            subsystems: plan
                .subsystems()
                .iter()
                .map(|found| (u32::from(found.period), u32::from(found.budget)))
                .collect(),
            owners: plan.tasks().iter().map(|task| task.owner).collect(),
            globals: (0..plan.resources().len())
                .map(|resource| plan.is_global(resource))
                .collect(),
            uses: (0..plan.tasks().len())
                .flat_map(|task| {
                    plan.tasks()[task]
                        .uses
                        .iter()
                        .map(move |(&resource, &length)| (task, resource, u32::from(length)))
                })
                .collect(),
        }
    }

    /// Blocking by a plain walk over the U lines.
    pub fn blocking(&self, row: usize) -> u32 {
        let mut longest = 0;
        for &(task, _, length) in &self.uses {
            if self.owners[task] >= row && length > longest {
                longest = length;
            }
        }
        longest
    }

    /// What a row of this period would need, the rows before it being settled.
    pub fn demand(&self, row: usize, period: u32) -> u32 {
        let mut sum = self.subsystems[row].1 + self.blocking(row);
        for &(before, budget) in &self.subsystems[..row] {
            let mut begun = 0;
            while begun * before < period {
                begun += 1;
            }
            sum += budget * begun;
        }
        sum
    }

    pub fn margin(&self, row: usize) -> i64 {
        let period = self.subsystems[row].0;
        i64::from(period) - i64::from(self.demand(row, period))
    }
}

/// How far above the least possible a period is put: nothing, one tick, or some room.
fn room(random: &mut Random, row: usize, budget: u32) -> u32 {
    match random.below(4) {
        // Without room in the first row there is often none for the rows after it.
        0 if row > 0 => 0,
        1 => 1,
        2 => random.within(1..=2 * budget),
        _ => random.within(budget..=8 * budget),
    }
}

/// An accepted plan. Periods are settled row by row, each from the least one with a margin of 0 upwards.
pub fn sketch(random: &mut Random) -> Sketch {
    loop {
        let mut sketch = outline(random);
        if settle_periods(random, &mut sketch) {
            return sketch;
        }
    }
}

pub fn plan(random: &mut Random) -> (Sketch, Plan) {
    let sketch = sketch(random);
    let text = sketch.text();
    let plan = read(text.as_bytes())
        .unwrap_or_else(|refusal| panic!("{refusal:?} for a plan that is to be accepted:\n{text}"));
    (sketch, plan)
}

/// Everything but the periods.
fn outline(random: &mut Random) -> Sketch {
    let most_subsystems = if random.percent(20) { 8 } else { 4 };
    let subsystem_count = random.within(1..=most_subsystems) as usize;
    let most_budget = if random.percent(10) { 60 } else { 7 };
    let task_count = match random.below(30) {
        0 => 0,
        1..=5 => 32,
        _ => random.within(1..=12) as usize,
    };
    let resource_count = match random.below(30) {
        0 => 0,
        1..=5 => 16,
        _ => random.within(1..=10) as usize,
    };
    let globals_in_percent = random.pick(&[0, 20, 50, 80, 100]).unwrap();
    let uses_in_percent = random.pick(&[15, 40, 70, 95]).unwrap();
    let mut sketch = Sketch {
        subsystems: (0..subsystem_count)
            .map(|_| (0, random.within(1..=most_budget)))
            .collect(),
        owners: (0..task_count)
            .map(|_| random.below(subsystem_count))
            .collect(),
        globals: (0..resource_count)
            .map(|_| random.percent(globals_in_percent))
            .collect(),
        uses: Vec::new(),
    };
    // A local belongs to one subsystem, and few lengths above 1 keep blocking small enough to be admitted.
    let homes: Vec<usize> = (0..resource_count)
        .map(|_| random.below(subsystem_count))
        .collect();
    for task in 0..task_count {
        let owner = sketch.owners[task];
        let budget = sketch.subsystems[owner].1;
        for (resource, &home) in homes.iter().enumerate() {
            if !random.percent(uses_in_percent) {
                continue;
            }
            if sketch.globals[resource] {
                let most = if random.percent(30) {
                    budget
                } else {
                    budget.min(3)
                };
                sketch.uses.push((task, resource, random.within(1..=most)));
            } else if home == owner {
                sketch.uses.push((task, resource, 0));
            }
        }
    }
    random.shuffle(&mut sketch.uses);
    sketch
}

/// The least period at which a row's margin is not negative, plus room; false when the processor is too full.
fn settle_periods(random: &mut Random, sketch: &mut Sketch) -> bool {
    for row in 0..sketch.subsystems.len() {
        let mut period = 1;
        while sketch.demand(row, period) > period {
            period = sketch.demand(row, period);
            if period > 2_000 {
                return false;
            }
        }
        let budget = sketch.subsystems[row].1;
        let roomy = period + room(random, row, budget);
        // More room can begin another period of a row before this one, and then be too little.
        let fits = sketch.demand(row, roomy) <= roomy;
        sketch.subsystems[row].0 = if fits { roomy } else { period };
    }
    true
}
