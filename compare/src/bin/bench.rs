//! The proved library beside the second program on the same bytes, in one run: nanoseconds a call and their ratio.
//!
//! Each line is the quickest of several rounds, the two taking turns, so that a busy moment of the machine hits both. A ratio below 1 means
//! that the proved code is quicker. It needs the static library and the programs of `tools/built`, and the second program built for release.

use second::block::to_block;
use second::event::Event;
use second::host::{c_fresh, c_line, c_margin, c_read, c_step};
use second::image::to_image;
use second::legal::legal;
use second::plan::Plan;
use second::read::read;
use second::sample;
use second::state::{Job, State};
use second::step::step;
use std::fmt::Write as _;
use std::hint::black_box;
use std::io::Write as _;
use std::path::{Path, PathBuf};
use std::process::{Command, Stdio};
use std::time::{Duration, Instant};

const ROUNDS: usize = 15;

/// Events of a run that is timed as a whole.
const EVENTS: u32 = 1_000_000;

/// How long a round should take.
const ROUND: Duration = Duration::from_millis(40);

fn main() {
    println!("| call | proved, ns | second, ns | ratio |");
    println!("|---|---|---|---|");
    let plan_p = sample::PLAN.to_owned();
    for (name, text) in [
        ("plan P", &plan_p),
        ("1 row", &plan_of(1, 1, 0)),
        ("8 rows", &plan_of(8, 8, 0)),
        ("8 rows, 32 tasks", &plan_of(8, 32, 0)),
        ("8 rows, 32 tasks, 16 resources", &plan_of(8, 32, 16)),
    ] {
        bench_plan(name, text);
    }
    println!();
    println!("| program | proved | second | ratio |");
    println!("|---|---|---|---|");
    for (name, text) in [
        ("plan P", &plan_p),
        ("8 rows, 32 tasks, 16 resources", &plan_of(8, 32, 16)),
    ] {
        bench_pace(name, text);
        bench_run(name, text);
        bench_margins(name, text);
    }
}

/// Nanoseconds an event of the step alone, without the tests of plan and state: the program `pace` beside the same events here.
fn bench_pace(name: &str, text: &str) {
    let file = temporary("pace.plan", text.as_bytes());
    let plan = read(text.as_bytes()).expect("a plan to measure is accepted");
    let (mut proved, mut second) = (f64::MAX, f64::MAX);
    for _ in 0..ROUNDS {
        let began = Instant::now();
        let output = Command::new(program("pace")).arg(&file).output().unwrap();
        proved = proved.min(began.elapsed().as_secs_f64() * 1e9 / f64::from(EVENTS));
        let began = Instant::now();
        let sum = paced(&plan);
        second = second.min(began.elapsed().as_secs_f64() * 1e9 / f64::from(EVENTS));
        assert_eq!(output.stdout, format!("{sum}\n").as_bytes());
    }
    println!(
        "| step alone, {name}, ns an event | {proved:.0} | {second:.0} | {:.2} |",
        proved / second
    );
}

/// The events of the program `pace`, and its sum over the answers.
fn paced(plan: &Plan) -> u64 {
    const KINDS: [u32; 16] = [4, 4, 4, 4, 4, 4, 4, 0, 0, 0, 1, 1, 1, 2, 2, 3];
    let (mut state, mut x, mut sum) = (State::fresh(plan), 1_u64, 0_u64);
    for _ in 0..EVENTS {
        x = (x * 1_664_525 + 1_013_904_223) % (1 << 32);
        let kind = KINDS[(x / 65_536 % 16) as usize];
        let task = (x / 1_048_576 % 32) as u32;
        let resource = (x / 4_096 % 16) as u32;
        let outcome = step(plan, &mut state, Event::from_numbers(kind, task, resource));
        let row = |row: Option<usize>| row.map_or(255, |row| row as u64);
        sum = (sum * 31
            + u64::from(outcome.answer.number()) * 65_536
            + row(outcome.subsystem) * 256
            + row(outcome.task))
            % (1 << 32);
    }
    sum
}

/// Events a second of the run program on a long file, output thrown away, beside the second program on the same file.
fn bench_run(name: &str, text: &str) {
    let plan = temporary("run.plan", text.as_bytes());
    let mut events = Vec::new();
    let mut x = 1_u64;
    for _ in 0..EVENTS {
        x = (x * 1_664_525 + 1_013_904_223) % (1 << 32);
        let (task, resource) = (x / 1_048_576 % 32, x / 4_096 % 16);
        match x / 65_536 % 16 {
            0..=6 => writeln!(events, "tick"),
            7..=9 => writeln!(events, "release\t{task}"),
            10..=12 => writeln!(events, "lock\t{task}\t{resource}"),
            13..=14 => writeln!(events, "unlock\t{task}\t{resource}"),
            _ => writeln!(events, "end\t{task}"),
        }
        .unwrap();
    }
    let events = temporary("run.events", &events);
    let time = |command: &mut Command| {
        let began = Instant::now();
        let status = command.stdout(Stdio::null()).status().unwrap();
        assert!(status.success());
        f64::from(EVENTS) / began.elapsed().as_secs_f64()
    };
    let (mut proved, mut other) = (0.0_f64, 0.0_f64);
    for _ in 0..ROUNDS {
        proved = proved.max(time(
            Command::new(program("skrzypolot")).args([&plan, &events]),
        ));
        other = other.max(time(
            Command::new(second_program())
                .arg("run")
                .args([&plan, &events]),
        ));
    }
    println!(
        "| run program, {name}, events a second | {proved:.0} | {other:.0} | {:.2} |",
        other / proved
    );
}

/// Microseconds of the admission program from its start to its end, beside the second program on the same file.
fn bench_margins(name: &str, text: &str) {
    let plan = temporary("margins.plan", text.as_bytes());
    let time = |command: &mut Command| {
        let began = Instant::now();
        let output = command.output().unwrap();
        (began.elapsed().as_secs_f64() * 1e6, output.stdout)
    };
    let (mut proved, mut other) = (f64::MAX, f64::MAX);
    for _ in 0..10 * ROUNDS {
        let (took, printed) = time(Command::new(program("margins")).arg(&plan));
        proved = proved.min(took);
        let (took, also_printed) = time(Command::new(second_program()).arg("margins").arg(&plan));
        other = other.min(took);
        assert_eq!(printed, also_printed);
    }
    println!(
        "| admission program, {name}, microseconds a run | {proved:.0} | {other:.0} | {:.2} |",
        proved / other
    );
}

/// A program that `tools/built` has written.
fn program(name: &str) -> PathBuf {
    Path::new(env!("CARGO_MANIFEST_DIR"))
        .join("../target/bin")
        .join(name)
}

/// The second program, built for release.
fn second_program() -> PathBuf {
    Path::new(env!("CARGO_MANIFEST_DIR")).join("../second/target/release/second")
}

fn temporary(name: &str, bytes: &[u8]) -> PathBuf {
    let path = std::env::temp_dir().join(format!("skrzypolot-bench-{name}"));
    std::fs::write(&path, bytes).unwrap();
    path
}

/// Every task declares every resource, all of them global.
fn plan_of(rows: usize, tasks: usize, resources: usize) -> String {
    let mut text = String::new();
    for _ in 0..rows {
        text += "S\t10000\t1000\n";
    }
    for task in 0..tasks {
        writeln!(text, "T\t{}", task * rows / tasks).unwrap();
    }
    text += &"R\tG\n".repeat(resources);
    for task in 0..tasks {
        for resource in 0..resources {
            writeln!(text, "U\t{task}\t{resource}\t{}", 1 + resource).unwrap();
        }
    }
    text
}

fn bench_plan(name: &str, text: &str) {
    let text = text.as_bytes();
    let (mut block, mut beside) = (vec![0; 1108], 0);
    row(
        &format!("read, {name}"),
        || {
            compare::read(text, &mut block, &mut beside);
        },
        || {
            c_read(text, &mut vec![0; 1108], &mut 0);
        },
    );
    let mut margin = 0;
    row(
        &format!("margin, {name}"),
        || {
            compare::margin(text, 0, &mut margin);
        },
        || {
            c_margin(text, 0, &mut 0);
        },
    );
    let plan = read(text).expect("a plan to measure is accepted");
    assert_eq!(block, to_block(&plan));
    let (mut image, mut other) = (vec![0; 320], vec![0; 320]);
    row(
        &format!("fresh, {name}"),
        || {
            compare::fresh(&block, &mut image);
        },
        || {
            c_fresh(&block, &mut other);
        },
    );
    // Every task is under way, and the first one holds the first resource if there is one.
    let mut state = State::fresh(&plan);
    for job in &mut state.jobs {
        *job = Job::Started { held: vec![] };
    }
    if !plan.resources().is_empty() {
        state.jobs[0] = Job::Started { held: vec![0] };
    }
    assert!(legal(&plan, &state));
    let active = to_image(&state);
    for (what, kind) in [("tick", 4), ("refused end", 3)] {
        let (mut numbers, mut others) = ([0; 3], [0; 3]);
        row(
            &format!("step, {what}, {name}"),
            || {
                image.copy_from_slice(&active);
                let [a, b, c] = &mut numbers;
                compare::step(&block, &mut image, kind, 31, 0, a, b, c);
            },
            || {
                other.copy_from_slice(&active);
                let [a, b, c] = &mut others;
                c_step(&block, &mut other, kind, 31, 0, a, b, c);
            },
        );
        assert_eq!((&image, numbers), (&other, others));
    }
    let (mut out, mut other_out) = (vec![0; 128], vec![0; 128]);
    row(
        &format!("line, {name}"),
        || {
            image.copy_from_slice(&active);
            compare::line(&block, &mut image, 1, b"tick\n", &mut out, &mut 0);
        },
        || {
            other.copy_from_slice(&active);
            c_line(&block, &mut other, 1, b"tick\n", &mut other_out, &mut 0);
        },
    );
    assert_eq!((image, out), (other, other_out));
}

/// One line of the table.
fn row(name: &str, mut proved: impl FnMut(), mut second: impl FnMut()) {
    let (turns_proved, turns_second) = (turns(&mut proved), turns(&mut second));
    let (mut quickest_proved, mut quickest_second) = (f64::MAX, f64::MAX);
    for _ in 0..ROUNDS {
        quickest_proved = quickest_proved.min(nanoseconds(turns_proved, &mut proved));
        quickest_second = quickest_second.min(nanoseconds(turns_second, &mut second));
    }
    println!(
        "| {name} | {quickest_proved:.0} | {quickest_second:.0} | {:.2} |",
        quickest_proved / quickest_second
    );
}

/// So many calls fill a round.
fn turns(call: &mut impl FnMut()) -> u32 {
    let mut turns = 1;
    loop {
        let began = Instant::now();
        for _ in 0..turns {
            call();
        }
        if began.elapsed() * 4 > ROUND {
            return (turns * 4).max(1);
        }
        turns *= 2;
    }
}

fn nanoseconds(turns: u32, call: &mut impl FnMut()) -> f64 {
    let began = Instant::now();
    for _ in 0..turns {
        black_box(&mut *call)();
    }
    began.elapsed().as_secs_f64() * 1e9 / f64::from(turns)
}
