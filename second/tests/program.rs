//! The program as it is called: modes, printed text, and files that cannot be read.

use second::sample;
use std::fs;
use std::path::{Path, PathBuf};
use std::process::{Command, Output};

fn second(arguments: &[&str]) -> Output {
    Command::new(env!("CARGO_BIN_EXE_second"))
        .args(arguments)
        .output()
        .expect("the program starts")
}

fn printed(output: &Output) -> &str {
    std::str::from_utf8(&output.stdout).unwrap()
}

/// A file of this test run with the given bytes.
fn file(name: &str, bytes: &[u8]) -> PathBuf {
    let path = Path::new(env!("CARGO_TARGET_TMPDIR")).join(name);
    fs::write(&path, bytes).unwrap();
    path
}

fn name(path: &Path) -> &str {
    path.to_str().unwrap()
}

#[test]
fn without_arguments_it_runs_plan_p() {
    let output = second(&[]);
    assert!(output.status.success());
    let expected = second::run::run(sample::PLAN.as_bytes(), sample::EVENTS.as_bytes());
    assert_eq!(output.stdout, expected);
    assert_eq!(printed(&output).lines().count(), 19);
}

#[test]
fn it_runs_files() {
    let plan = file("runs.plan", sample::PLAN.as_bytes());
    let events = file("runs.events", sample::EVENTS.as_bytes());
    let output = second(&["run", name(&plan), name(&events)]);
    assert!(output.status.success());
    assert_eq!(output.stdout, second(&[]).stdout);

    let none = file("none.events", b"");
    let output = second(&["run", name(&plan), name(&none)]);
    assert!(output.status.success());
    assert_eq!(printed(&output), "");
}

#[test]
fn it_prints_a_refused_plan_alone() {
    let events = file("refused.events", b"tick\n");
    for (text, expected) in [
        (&b"S\t10\t4\nT\t0\n\n"[..], "plan 21 3\n"),
        (&[b'x'; 20_000][..], "plan 20 0\n"),
        (&b"S\t5\t3\nS\t9\t9\n"[..], "plan 30 1\n"),
    ] {
        let plan = file("refused.plan", text);
        let output = second(&["run", name(&plan), name(&events)]);
        assert!(output.status.success());
        assert_eq!(printed(&output), expected);
    }
}

#[test]
fn it_prints_margins() {
    for (text, expected) in [
        (sample::PLAN, "0 10 4 3 7 3\n1 20 6 3 17 3\n"),
        ("S\t5\t3\nS\t9\t9\n", "0 5 3 0 3 2\n1 9 9 0 15 -6\n"),
        ("S\t5\t3\nS\t9\t10\n", "plan 25 2\n"),
    ] {
        let plan = file("margins.plan", text.as_bytes());
        let output = second(&["margins", name(&plan)]);
        assert!(output.status.success());
        assert_eq!(printed(&output), expected);
    }
}

/// A file that is not there, and a folder, which opens but cannot be read.
#[test]
fn it_names_files_that_cannot_be_read() {
    let plan = file("good.plan", sample::PLAN.as_bytes());
    let refused = file("bad.plan", b"\n");
    let events = file("good.events", b"tick\n");
    let folder = env!("CARGO_TARGET_TMPDIR");
    for missing in ["no-such-file", folder] {
        for arguments in [
            &["run", missing, name(&events)][..],
            &["run", name(&plan), missing],
            &["run", name(&refused), missing],
            &["margins", missing],
        ] {
            let output = second(arguments);
            assert_eq!(output.status.code(), Some(1), "{arguments:?}");
            assert_eq!(printed(&output), "", "{arguments:?}");
            let message = String::from_utf8_lossy(&output.stderr);
            assert!(message.contains(missing), "{arguments:?}: {message}");
        }
    }
}

#[test]
fn it_says_how_it_is_called() {
    for arguments in [&["run"][..], &["run", "one"], &["margins"], &["other"]] {
        let output = second(arguments);
        assert_eq!(output.status.code(), Some(2));
        assert_eq!(printed(&output), "");
        assert!(!output.stderr.is_empty());
    }
}
