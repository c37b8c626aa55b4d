//! A plan text and an event text to the text that the run program prints ("The run program and one whole run").

use crate::admission;
use crate::event::Event;
use crate::line::{self, MOST_LINE_BYTES};
use crate::plan::Plan;
use crate::read::{read, read_unadmitted, Refusal};
use crate::state::State;
use crate::step::step;
use std::io::{self, BufRead, Write};

/// So many event lines are answered, then the run stops.
pub const MOST_LINES: u32 = 9_999_999;

/// A run could not go on: which side of it failed, and how.
#[derive(Debug)]
pub enum Failure {
    Events(io::Error),
    Output(io::Error),
}

/// The whole run in memory.
pub fn run(plan: &[u8], events: &[u8]) -> Vec<u8> {
    let mut out = Vec::new();
    run_stream(plan, events, &mut out).expect("bytes in memory can be read and written");
    out
}

/// The run as a stream: neither the events nor the output are ever held whole.
pub fn run_stream(
    plan: &[u8],
    mut events: impl BufRead,
    mut out: impl Write,
) -> Result<(), Failure> {
    // Read before anything is printed, so that events that cannot be read leave the output empty.
    events.fill_buf().map_err(Failure::Events)?;
    let plan = match read(plan) {
        Ok(plan) => plan,
        Err(refusal) => return print_refusal(out, refusal).map_err(Failure::Output),
    };
    let mut state = State::fresh(&plan);
    let mut printed = Vec::new();
    for number in 1..=MOST_LINES {
        let Some(event) = next_event(&mut events).map_err(Failure::Events)? else {
            break;
        };
        printed.clear();
        line::print(&mut printed, number, &step(&plan, &mut state, event));
        out.write_all(&printed).map_err(Failure::Output)?;
    }
    out.flush().map_err(Failure::Output)
}

/// The event of the next line, or nothing at the end of the file. A last line without its line feed is a line.
fn next_event(events: &mut impl BufRead) -> io::Result<Option<Event>> {
    let piece = events.fill_buf()?;
    if let Some(end) = piece.iter().position(|&byte| byte == b'\n') {
        let event = line::event(&piece[..=end]);
        events.consume(end + 1);
        return Ok(Some(event));
    }
    next_event_in_pieces(events)
}

/// A line that goes on past the piece in hand. Of a line too long for the grammar only the front is kept: it stays too
/// long with what is kept, so it is unknown all the same.
fn next_event_in_pieces(events: &mut impl BufRead) -> io::Result<Option<Event>> {
    let mut kept = Vec::with_capacity(MOST_LINE_BYTES + 1);
    let mut begun = false;
    loop {
        let piece = events.fill_buf()?;
        if piece.is_empty() {
            return Ok(begun.then(|| line::event(&kept)));
        }
        begun = true;
        let end = piece.iter().position(|&byte| byte == b'\n');
        let taken = end.map_or(piece.len(), |end| end + 1);
        let room = MOST_LINE_BYTES + 1 - kept.len();
        kept.extend_from_slice(&piece[..taken.min(room)]);
        events.consume(taken);
        if end.is_some() {
            return Ok(Some(line::event(&kept)));
        }
    }
}

/// A line a row: row, period, budget, blocking, demand, margin; or the refusal of a plan that has no margins.
pub fn margins(plan: &[u8], mut out: impl Write) -> io::Result<()> {
    match read_unadmitted(plan) {
        Ok(plan) => print_margins(&plan, &mut out)?,
        Err(refusal) => print_refusal(&mut out, refusal)?,
    }
    out.flush()
}

fn print_margins(plan: &Plan, mut out: impl Write) -> io::Result<()> {
    for (row, subsystem) in plan.subsystems().iter().enumerate() {
        writeln!(
            out,
            "{row} {} {} {} {} {}",
            subsystem.period,
            subsystem.budget,
            admission::blocking(plan, row),
            admission::demand(plan, row),
            admission::margin_of_row(plan, row)
        )?;
    }
    Ok(())
}

fn print_refusal(mut out: impl Write, refusal: Refusal) -> io::Result<()> {
    writeln!(out, "plan {} {}", refusal.number, refusal.beside)?;
    out.flush()
}
