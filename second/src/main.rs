//! The second program: `second run PLAN EVENTS`, `second margins PLAN`, or plan P with no arguments.

use second::read::MOST_BYTES;
use second::run::{margins, run_stream, Failure};
use second::sample;
use std::ffi::{OsStr, OsString};
use std::fs::File;
use std::io::{self, BufReader, BufWriter, Read};
use std::path::Path;
use std::process::ExitCode;

/// Read and written in pieces of this size.
const PIECE: usize = 64 * 1024;

fn main() -> ExitCode {
    let arguments: Vec<OsString> = std::env::args_os().skip(1).collect();
    let mode = arguments.first().map(|first| first.to_string_lossy());
    let result = match (mode.as_deref(), &arguments[..]) {
        (None, _) => run_sample(),
        (Some("run"), [_, plan, events]) => run_files(plan, events),
        (Some("margins"), [_, plan]) => margins_of_file(plan),
        _ => {
            eprintln!("usage: second [run PLAN EVENTS | margins PLAN]");
            return ExitCode::from(2);
        }
    };
    match result {
        Ok(()) => ExitCode::SUCCESS,
        Err(message) => {
            eprintln!("{message}");
            ExitCode::FAILURE
        }
    }
}

fn run_sample() -> Result<(), String> {
    let result = run_stream(
        sample::PLAN.as_bytes(),
        sample::EVENTS.as_bytes(),
        standard_output(),
    );
    result.map_err(|failure| message(failure, Path::new("events of document 01")))
}

fn run_files(plan: &OsStr, events: &OsStr) -> Result<(), String> {
    let (plan, events) = (Path::new(plan), Path::new(events));
    let text = plan_text(plan)?;
    let file = File::open(events).map_err(|error| named(events, &error))?;
    let pieces = BufReader::with_capacity(PIECE, file);
    run_stream(&text, pieces, standard_output()).map_err(|failure| message(failure, events))
}

fn margins_of_file(plan: &OsStr) -> Result<(), String> {
    let text = plan_text(Path::new(plan))?;
    margins(&text, standard_output()).map_err(|error| named(Path::new("output"), &error))
}

/// The plan file, up to the one byte past the limit that makes it too long.
fn plan_text(path: &Path) -> Result<Vec<u8>, String> {
    let mut text = Vec::new();
    File::open(path)
        .and_then(|file| file.take(MOST_BYTES as u64 + 1).read_to_end(&mut text))
        .map_err(|error| named(path, &error))?;
    Ok(text)
}

fn standard_output() -> impl io::Write {
    BufWriter::with_capacity(PIECE, io::stdout().lock())
}

fn message(failure: Failure, events: &Path) -> String {
    match failure {
        Failure::Events(error) => named(events, &error),
        Failure::Output(error) => named(Path::new("output"), &error),
    }
}

fn named(path: &Path, error: &io::Error) -> String {
    format!("{}: {error}", path.display())
}
