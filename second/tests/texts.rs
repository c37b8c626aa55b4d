//! Plan and event texts of every kind: damaged, cut, long, and longer than memory should hold.

mod support;

use second::read::{read, read_unadmitted, Refusal};
use second::run::{run, run_stream, MOST_LINES};
use second::sample;
use std::collections::BTreeSet;
use std::io::{self, BufReader, Read, Write};
use support::damage::damage_text;
use support::events::any_row;
use support::plans::plan;
use support::random::each_case;

/// Each refusal comes with a number beside it that can be, and each has to turn up.
#[test]
fn damaged_plans_are_judged() {
    let mut numbers = BTreeSet::new();
    each_case(60_000, |random| {
        let mut text = plan(random).0.text().into_bytes();
        if random.percent(1) {
            text = text.repeat(16_400 / text.len() + 1);
        }
        for _ in 0..random.within(1..=3) {
            damage_text(random, &mut text);
        }
        let lines = text.split_inclusive(|&byte| byte == b'\n').count() as u32;
        match read(&text) {
            Ok(_) => {
                numbers.insert(0);
            }
            Err(Refusal { number, beside }) => {
                numbers.insert(number);
                match number {
                    20 | 29 => assert_eq!(beside, 0),
                    21..=28 => assert!((1..=lines).contains(&beside)),
                    30 => assert!(beside < 8 && read_unadmitted(&text).is_ok()),
                    _ => panic!("no refusal of a plan: {number}"),
                }
                if let 21..=28 = number {
                    first_bad_line(&text, number, beside);
                }
            }
        }
    });
    let expected: BTreeSet<u32> = [0].into_iter().chain(20..=30).collect();
    assert_eq!(numbers, expected, "every refusal turns up");
}

/// The lines before the bad one are good by themselves, and what comes after it does not matter.
fn first_bad_line(text: &[u8], number: u32, place: u32) {
    let lines: Vec<&[u8]> = text.split_inclusive(|&byte| byte == b'\n').collect();
    let before = lines[..place as usize - 1].concat();
    if let Err(refusal) = read_unadmitted(&before) {
        assert_eq!((refusal.number, refusal.beside), (29, 0));
    }
    let to_it = lines[..place as usize].concat();
    let refusal = read_unadmitted(&to_it).unwrap_err();
    assert_eq!((refusal.number, refusal.beside), (number, place));
}

/// Damaged event lines: as many printed lines as lines, and never anything but an answer.
#[test]
fn damaged_events_are_answered() {
    each_case(3_000, |random| {
        let text = plan(random).0.text();
        let mut events = Vec::new();
        for _ in 0..random.within(0..=60) {
            let (task, resource) = (any_row(random, 12) % 99_999, any_row(random, 12) % 99_999);
            let line = match random.below(6) {
                0 => format!("release\t{task}\n"),
                1 => format!("lock\t{task}\t{resource}\n"),
                2 => format!("unlock\t{task}\t{resource}\n"),
                3 => format!("end\t{task}\n"),
                _ => "tick\n".to_owned(),
            };
            events.extend(line.into_bytes());
        }
        for _ in 0..random.within(0..=9) {
            damage_text(random, &mut events);
        }
        let printed = run(text.as_bytes(), &events);
        let lines = events.split_inclusive(|&byte| byte == b'\n').count();
        assert_eq!(printed.iter().filter(|&&byte| byte == b'\n').count(), lines);

        // However small the pieces in which the events come, the output is the same.
        let pieces = BufReader::with_capacity(random.within(1..=40) as usize, &events[..]);
        let mut again = Vec::new();
        run_stream(text.as_bytes(), pieces, &mut again).unwrap();
        assert_eq!(printed, again);
    });
}

#[test]
fn ends_of_event_texts() {
    let printed =
        |events: &str| String::from_utf8(run(sample::PLAN.as_bytes(), events.as_bytes())).unwrap();
    assert_eq!(printed(""), "");
    assert_eq!(printed("tick"), "1 11 0 - -\n");
    assert_eq!(printed("\n"), "1 11 0 - -\n");
    assert_eq!(
        printed("tick\n\ntick"),
        "1 0 0 - -\n2 11 0 - -\n3 11 0 - -\n"
    );
}

/// One line far longer than any piece is one 11, and the line after it is read as usual.
#[test]
fn a_very_long_line_is_one_line() {
    let long = 50_000_000;
    let events = io::repeat(b'x').take(long).chain(&b"\nrelease\t0\n"[..]);
    let mut out = Vec::new();
    run_stream(sample::PLAN.as_bytes(), BufReader::new(events), &mut out).unwrap();
    assert_eq!(String::from_utf8(out).unwrap(), "1 11 0 - -\n2 0 0 0 -\n");

    // The same with an event in front of it, so that the part that is kept would be one.
    let events = (&b"tick"[..])
        .chain(io::repeat(b'\t').take(long))
        .chain(&b"\n"[..]);
    let mut out = Vec::new();
    run_stream(sample::PLAN.as_bytes(), BufReader::new(events), &mut out).unwrap();
    assert_eq!(String::from_utf8(out).unwrap(), "1 11 0 - -\n");
}

/// Ticks without end.
struct Ticks {
    place: usize,
}

impl Read for Ticks {
    fn read(&mut self, buffer: &mut [u8]) -> io::Result<usize> {
        for byte in &mut *buffer {
            *byte = b"tick\n"[self.place];
            self.place = (self.place + 1) % 5;
        }
        Ok(buffer.len())
    }
}

/// Counts the lines and keeps the last bytes only.
#[derive(Default)]
struct Tail {
    lines: u32,
    kept: Vec<u8>,
}

impl Write for &mut Tail {
    fn write(&mut self, piece: &[u8]) -> io::Result<usize> {
        self.lines += piece.iter().filter(|&&byte| byte == b'\n').count() as u32;
        self.kept.clear();
        self.kept.extend(&piece[piece.len().saturating_sub(40)..]);
        Ok(piece.len())
    }

    fn flush(&mut self) -> io::Result<()> {
        Ok(())
    }
}

/// Events that never end are answered up to the limit, and then the run stops.
#[test]
fn a_run_stops_after_its_last_line() {
    let mut tail = Tail::default();
    let events = BufReader::with_capacity(1 << 16, Ticks { place: 0 });
    run_stream(sample::PLAN.as_bytes(), events, &mut tail).unwrap();
    assert_eq!(tail.lines, MOST_LINES);
    let last = String::from_utf8(tail.kept).unwrap();
    assert!(last.starts_with("9999999 0 "), "{last}");
}
