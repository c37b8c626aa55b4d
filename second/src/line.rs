//! Event lines in, printed lines out ("The run program and one whole run").

use crate::event::{Event, Outcome};
use crate::text;

/// The longest event line of the grammar, its line feed counted: the longest name that takes two numbers, or the longest
/// that takes one, whichever is more.
pub const MOST_LINE_BYTES: usize = "unlock\t99999\t99999\n".len();

/// The event of one line with its line feed; anything not of the grammar is unknown, which answers 11.
pub fn event(line: &[u8]) -> Event {
    known_event(line).unwrap_or(Event::Unknown)
}

fn known_event(line: &[u8]) -> Option<Event> {
    let mut fields = text::fields(line)?;
    match fields.next()? {
        b"release" => text::numbers(fields).map(|[task]| Event::Release { task }),
        b"lock" => text::numbers(fields).map(|[task, resource]| Event::Lock { task, resource }),
        b"unlock" => text::numbers(fields).map(|[task, resource]| Event::Unlock { task, resource }),
        b"end" => text::numbers(fields).map(|[task]| Event::End { task }),
        b"tick" => text::numbers(fields).map(|[]| Event::Tick),
        _ => None,
    }
}

/// Appends the printed line: event number, answer, subsystem, task, tasks ended; `-` is none.
pub fn print(out: &mut Vec<u8>, number: u32, outcome: &Outcome) {
    text::push_number(out, u64::from(number));
    out.push(b' ');
    text::push_number(out, u64::from(outcome.answer.number()));
    out.push(b' ');
    print_rows(out, outcome.subsystem.iter());
    out.push(b' ');
    print_rows(out, outcome.task.iter());
    out.push(b' ');
    print_rows(out, outcome.ended.iter());
    out.push(b'\n');
}

fn print_rows<'a>(out: &mut Vec<u8>, mut rows: impl Iterator<Item = &'a usize>) {
    match rows.next() {
        Some(&first) => text::push_number(out, first as u64),
        None => out.push(b'-'),
    }
    for &row in rows {
        out.push(b',');
        text::push_number(out, row as u64);
    }
}
