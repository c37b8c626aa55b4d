//! The proved programs as they are called, beside the second program: whole files in, every byte printed.

#[path = "../../second/tests/support/mod.rs"]
mod support;

use second::run::{margins, run};
use second::sample;
use std::fs::{self, File};
use std::io::{BufWriter, Write};
use std::path::{Path, PathBuf};
use std::process::{Command, Output, Stdio};
use std::time::Duration;
use support::damage::damage_text;
use support::events::{event, Mood};
use support::plans::plan;
use support::random::{cases, each_case, Random};
use support::vectors::file as vector;

/// A program that `tools/built` has written.
fn program(name: &str) -> PathBuf {
    let path = Path::new(env!("CARGO_MANIFEST_DIR"))
        .join("../target/bin")
        .join(name);
    assert!(path.exists(), "no {}: run `tools/built` first", path.display());
    path
}

fn called(name: &str, arguments: &[&Path]) -> Output {
    Command::new(program(name))
        .args(arguments)
        .output()
        .expect("the program starts")
}

/// A file of this test run with the given bytes.
fn file(name: &str, bytes: &[u8]) -> PathBuf {
    let path = Path::new(env!("CARGO_TARGET_TMPDIR")).join(name);
    fs::write(&path, bytes).unwrap();
    path
}

/// What the program prints of a plan and events is what the second program prints.
fn runs_alike(name: &str, plan: &[u8], events: &[u8]) {
    let (plan_file, events_file) = (
        file(&format!("{name}.plan"), plan),
        file(&format!("{name}.events"), events),
    );
    let output = called("skrzypolot", &[&plan_file, &events_file]);
    let expected = run(plan, events);
    if output.stdout != expected {
        let lines = |bytes: &[u8]| String::from_utf8_lossy(bytes).into_owned();
        let (got, expected) = (lines(&output.stdout), lines(&expected));
        let first = got.lines().zip(expected.lines()).find(|(a, b)| a != b);
        panic!(
            "{name}: printed {} bytes, expected {}; first difference {first:?}",
            got.len(),
            expected.len()
        );
    }
    assert!(output.stderr.is_empty(), "{name}");
}

#[test]
fn without_arguments_it_runs_plan_p() {
    let output = called("skrzypolot", &[]);
    assert_eq!(output.stdout, vector("runs/document-01.out"));
    assert_eq!(output.stdout.split(|&byte| byte == b'\n').count(), 20);
}

#[test]
fn run_vectors() {
    let folder = Path::new(env!("CARGO_MANIFEST_DIR")).join("../vectors/runs");
    let mut count = 0;
    for entry in fs::read_dir(folder).expect("the folder of runs") {
        let path = entry.unwrap().path();
        if path.extension().is_some_and(|ending| ending == "plan") {
            let output = called("skrzypolot", &[&path, &path.with_extension("events")]);
            let expected = fs::read(path.with_extension("out")).unwrap();
            assert_eq!(output.stdout, expected, "{}", path.display());
            count += 1;
        }
    }
    assert_eq!(count, 11, "every run is tried");
}

/// The worked run of docs/DRIVES.md.
#[test]
fn the_drives_get_their_ticks() {
    let folder = Path::new(env!("CARGO_MANIFEST_DIR")).join("../examples/bed");
    let output = called(
        "skrzypolot",
        &[&folder.join("bed.plan"), &folder.join("bed.events")],
    );
    assert_eq!(output.stdout, fs::read(folder.join("bed.out")).unwrap());
}

#[test]
fn margins_of_files() {
    for (name, text) in [
        ("plan-p", sample::PLAN.to_owned()),
        ("negative", "S\t5\t3\nS\t9\t9\n".to_owned()),
        ("refused", "S\t5\t3\nS\t9\t10\n".to_owned()),
        ("empty", String::new()),
        ("long", "S\t5\t3\n".repeat(3000)),
    ] {
        let path = file(&format!("{name}.margins"), text.as_bytes());
        let mut expected = Vec::new();
        margins(text.as_bytes(), &mut expected).unwrap();
        assert_eq!(called("margins", &[&path]).stdout, expected, "{name}");
    }
    each_case(200, |random| {
        let mut text = plan(random).0.text().into_bytes();
        for _ in 0..random.below(3) {
            damage_text(random, &mut text);
        }
        let path = file("any.margins", &text);
        let mut expected = Vec::new();
        margins(&text, &mut expected).unwrap();
        assert_eq!(called("margins", &[&path]).stdout, expected);
    });
}

/// Events as text, mostly well written.
fn event_text(random: &mut Random, plan: &second::plan::Plan, count: usize) -> Vec<u8> {
    let mut state = second::state::State::fresh(plan);
    let mood = Mood::random(random);
    let mut text = Vec::new();
    for _ in 0..count {
        use second::event::Event::*;
        let event = event(random, plan, &state, mood);
        second::step::step(plan, &mut state, event);
        match event {
            Release { task } => writeln!(text, "release\t{task}"),
            Lock { task, resource } => writeln!(text, "lock\t{task}\t{resource}"),
            Unlock { task, resource } => writeln!(text, "unlock\t{task}\t{resource}"),
            End { task } => writeln!(text, "end\t{task}"),
            Tick => writeln!(text, "tick"),
            Unknown => writeln!(text, "tock"),
        }
        .unwrap();
    }
    text
}

#[test]
fn any_files_are_run_alike() {
    each_case(150, |random| {
        let (sketch, plan) = plan(random);
        let count = random.below(800);
        let mut events = event_text(random, &plan, count);
        for _ in 0..random.below(4) {
            damage_text(random, &mut events);
        }
        let mut text = sketch.text().into_bytes();
        if random.percent(15) {
            damage_text(random, &mut text);
        }
        runs_alike("any", &text, &events);
    });
}

/// Lines longer than any buffer, no lines, empty lines, lines of another system, a last line without its line feed.
#[test]
fn strange_files_are_run_alike() {
    let plan = sample::PLAN.as_bytes();
    let long = [vec![b'x'; 1 << 20], b"\ntick\n".to_vec()].concat();
    let twice = [&long[..], &long[..]].concat();
    let almost = [b"tick".to_vec(), vec![b'\t'; 1 << 20]].concat();
    for (name, events) in [
        ("long", &long[..]),
        ("twice", &twice),
        ("almost", &almost),
        ("empty", b""),
        ("feeds", &[b'\n'; 100_000]),
        ("returns", &b"tick\r\n".repeat(50_000)),
        ("unended", b"tick\ntick"),
        ("zeros", &[0; 70_000]),
    ] {
        runs_alike(name, plan, events);
    }
    // Pieces of 65,536 bytes end inside a line, right behind one, and right before its line feed.
    for front in 0..24 {
        let events = [
            vec![b'\n'; front],
            b"release\t0\nlock\t0\t0\ntick\nunlock\t0\t0\n".repeat(4_000),
        ]
        .concat();
        runs_alike("cut", plan, &events);
    }
}

#[test]
fn files_that_cannot_be_read_are_named() {
    let plan = file("named.plan", sample::PLAN.as_bytes());
    let refused = file("named-refused.plan", b"\n");
    let events = file("named.events", b"tick\n");
    let folder = Path::new(env!("CARGO_TARGET_TMPDIR"));
    for missing in [Path::new("no-such-file"), folder] {
        for (name, arguments) in [
            ("skrzypolot", &[missing, &events][..]),
            ("skrzypolot", &[&plan, missing]),
            ("skrzypolot", &[&refused, missing]),
            ("margins", &[missing]),
        ] {
            let output = called(name, arguments);
            assert!(output.stdout.is_empty(), "{name} {arguments:?}");
            let message = String::from_utf8_lossy(&output.stderr);
            assert!(
                message.contains(missing.to_str().unwrap()),
                "{name} {arguments:?}: {message}"
            );
        }
    }
    for (name, arguments) in [
        ("skrzypolot", &[&plan][..]),
        ("skrzypolot", &[&plan, &events, &events]),
        ("margins", &[]),
    ] {
        let arguments: Vec<&Path> = arguments.iter().map(|path| path.as_path()).collect();
        let output = called(name, &arguments);
        assert!(output.stdout.is_empty());
        assert!(!output.stderr.is_empty());
    }
}

/// A day's worth of lines, or a fiftieth of it: one line an event, none past 9,999,999, and memory that does not grow.
#[test]
fn long_files_take_no_memory() {
    let lines = if cases(1) > 1 {
        vec![9_999_999, 10_000_001]
    } else {
        vec![200_000]
    };
    let plan = file("day.plan", sample::PLAN.as_bytes());
    for lines in lines {
        let events = Path::new(env!("CARGO_TARGET_TMPDIR")).join("day.events");
        let mut out = BufWriter::new(File::create(&events).unwrap());
        for number in 0..lines {
            let line: &[u8] = match number % 7 {
                0 => b"release\t0\n",
                2 => b"lock\t0\t1\n",
                4 => b"unlock\t0\t1\n",
                6 => b"end\t0\n",
                _ => b"tick\n",
            };
            out.write_all(line).unwrap();
        }
        out.flush().unwrap();
        let printed = Path::new(env!("CARGO_TARGET_TMPDIR")).join("day.out");
        let peak = peak_memory(
            Command::new(program("skrzypolot"))
                .args([&plan, &events])
                .stdout(File::create(&printed).unwrap()),
        );
        println!("{lines} lines: peak memory {peak} KiB");
        let text = fs::read(&printed).unwrap();
        assert_eq!(
            text,
            run(&fs::read(&plan).unwrap(), &fs::read(&events).unwrap())
        );
        let count = text.iter().filter(|&&byte| byte == b'\n').count();
        assert_eq!(count, lines.min(9_999_999));
        assert!(peak < 16 * 1024, "{peak} KiB");
    }
}

/// The most memory that a child process was seen to hold, in KiB.
fn peak_memory(command: &mut Command) -> u64 {
    let mut child = command
        .stdin(Stdio::null())
        .spawn()
        .expect("the program starts");
    let status = format!("/proc/{}/status", child.id());
    let mut peak = 0;
    while child.try_wait().unwrap().is_none() {
        let text = fs::read_to_string(&status).unwrap_or_default();
        let seen = text
            .lines()
            .find_map(|line| line.strip_prefix("VmHWM:"))
            .and_then(|rest| rest.trim().strip_suffix(" kB"))
            .and_then(|number| number.trim().parse().ok());
        peak = peak.max(seen.unwrap_or(0));
        std::thread::sleep(Duration::from_millis(1));
    }
    peak
}
