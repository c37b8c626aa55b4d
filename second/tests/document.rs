//! The run, the margins and the places that are easy to get wrong, all from document 01 itself.

use second::admission::margin;
use second::event::{Answer, Event};
use second::read::{read, Refusal};
use second::run::{margins, run};
use second::sample;
use second::state::{Job, State};
use second::step::step;

/// Plan P with another budget in its second row.
fn plan_with(budget: u32) -> String {
    sample::PLAN.replace("S\t20\t6\n", &format!("S\t20\t{budget}\n"))
}

fn refused(text: &str) -> (u32, u32) {
    match read(text.as_bytes()) {
        Ok(_) => (0, 0),
        Err(Refusal { number, beside }) => (number, beside),
    }
}

#[test]
fn the_whole_run() {
    let expected = "1 0 0 - -\n2 0 0 - -\n3 0 0 1 -\n4 0 0 1 -\n5 0 0 1 -\n6 0 0 1 -\n7 0 0 1 -\n\
8 0 0 0 -\n9 1 0 - -\n10 0 0 - -\n11 0 1 2 -\n12 0 1 2 -\n13 0 1 2 -\n14 0 1 2 -\n15 10 1 - 2\n\
16 4 1 - -\n17 0 1 - -\n18 0 1 - -\n19 0 0 0 -\n";
    let got = run(sample::PLAN.as_bytes(), sample::EVENTS.as_bytes());
    assert_eq!(String::from_utf8(got).unwrap(), expected);
}

#[test]
fn the_margins() {
    let of = |text: &str, row| margin(text.as_bytes(), row);
    assert_eq!(of(sample::PLAN, 0), Ok(3));
    assert_eq!(of(sample::PLAN, 1), Ok(3));
    assert_eq!(of(&plan_with(9), 1), Ok(0));
    assert_eq!(refused(&plan_with(9)), (0, 0));
    assert_eq!(of(&plan_with(10), 1), Ok(-1));
    assert_eq!(refused(&plan_with(10)), (30, 1));
}

#[test]
fn the_margins_as_printed() {
    let printed = |text: &str| {
        let mut out = Vec::new();
        margins(text.as_bytes(), &mut out).unwrap();
        String::from_utf8(out).unwrap()
    };
    assert_eq!(printed(sample::PLAN), "0 10 4 3 7 3\n1 20 6 3 17 3\n");
    assert_eq!(printed(&plan_with(10)), "0 10 4 3 7 3\n1 20 10 3 21 -1\n");
    assert_eq!(printed("S\t10\t4\n\n"), "plan 21 2\n");
    assert_eq!(printed(""), "plan 29 0\n");
}

#[test]
fn refusals_of_texts() {
    let nine = "S\t10\t1\n".repeat(9);
    let many_tasks = format!("S\t10\t1\n{}", "T\t0\n".repeat(33));
    let many_resources = format!("S\t10\t1\n{}", "R\tL\n".repeat(17));
    let two_homes = "S\t10\t1\nS\t10\t1\nT\t0\nT\t1\nR\tL\nU\t0\t0\t0\nU\t1\t0\t0\n";
    let uses = |line: &str| format!("{}{line}", sample::PLAN);
    let expected = [
        ("", 29, 0),
        ("R\tL\n", 29, 0),
        ("T\t0\n", 24, 1),
        ("\n", 21, 1),
        ("S\t10\t4", 21, 1),
        ("S\t10\t4\nT\t0", 21, 2),
        ("S\t10\t4\r\n", 21, 1),
        ("S\t010\t4\n", 21, 1),
        ("S\t100000\t4\n", 21, 1),
        ("S\t10\t\n", 21, 1),
        ("S\t10\t4\t\n", 21, 1),
        ("S\t\t10\t4\n", 21, 1),
        ("S 10 4\n", 21, 1),
        ("s\t10\t4\n", 21, 1),
        ("S\t10\t4\nR\tX\n", 21, 2),
        ("S\t10\t4\nR\tG\tG\n", 21, 2),
        ("S\t10\t+4\n", 21, 1),
        ("S\t99999\t4\n", 25, 1),
        ("S\t0\t0\n", 25, 1),
        ("S\t10\t11\n", 25, 1),
        ("S\t10000\t10000\n", 0, 0),
        ("S\t10001\t1\n", 25, 1),
        ("S\t10\t4\nT\t0\nS\t0\t0\n", 22, 3),
        ("S\t10\t4\nT\t1\n", 24, 2),
        ("S\t10\t4\nT\t00\n", 21, 2),
        (nine.as_str(), 23, 9),
        (many_tasks.as_str(), 23, 34),
        (many_resources.as_str(), 23, 18),
        (two_homes, 27, 7),
        (&uses("T\t9\n"), 22, 12),
        (&uses("U\t3\t0\t0\n"), 24, 12),
        (&uses("U\t0\t2\t0\n"), 24, 12),
        (&uses("U\t0\t0\t0\n"), 25, 12),
        (&uses("U\t0\t0\t99\n"), 26, 12),
        (&uses("U\t1\t0\t10001\n"), 25, 12),
        (&uses("U\t1\t1\t1\n"), 25, 12),
        (&uses("U\t2\t1\t0\n"), 27, 12),
        (&uses("U\t1\t0\t5\n"), 28, 12),
        (&uses("U\t1\t0\t4\n"), 0, 0),
        (&uses("U\t1\t0\t4\nU\t1\t0\t4\n"), 26, 13),
    ];
    for (text, number, beside) in expected {
        assert_eq!(refused(text), (number, beside), "{text:?}");
    }
}

/// The limit itself is short enough, and the length is judged before any line.
#[test]
fn the_longest_text() {
    let longest = "x\n".repeat(8_192);
    assert_eq!(refused(&longest), (21, 1));
    assert_eq!(refused(&format!("{longest}x")), (20, 0));
}

/// A length equal to the budget left is granted; one more waits.
#[test]
fn a_length_equal_to_the_budget_left_is_granted() {
    let plan = read(sample::PLAN.as_bytes()).unwrap();
    for (left, answer) in [
        (3, Answer::Done),
        (2, Answer::Done),
        (1, Answer::WaitsForBudget),
    ] {
        let mut state = State::fresh(&plan);
        state.supplies[0].left = left;
        state.jobs[0] = Job::Ready;
        let lock = Event::Lock {
            task: 0,
            resource: 0,
        };
        assert_eq!(step(&plan, &mut state, lock).answer, answer, "{left} left");
    }
}

/// The tick that uses the last unit leaves the section held, and an unlock after it is in time.
#[test]
fn a_section_is_shut_by_the_tick_after_its_last_unit() {
    let plan = read(sample::PLAN.as_bytes()).unwrap();
    let mut state = State::fresh(&plan);
    let events = "release\t0\nlock\t0\t0\ntick\ntick\n";
    for line in events.split_inclusive('\n') {
        let event = second::line::event(line.as_bytes());
        assert_eq!(step(&plan, &mut state, event).answer, Answer::Done);
    }
    assert_eq!(state.supplies[0].used, 2);
    let mut late = state.clone();
    let unlock = Event::Unlock {
        task: 0,
        resource: 0,
    };
    assert_eq!(step(&plan, &mut state, unlock).answer, Answer::Done);
    assert_eq!(state.supplies[0].used, 0);
    let shut = step(&plan, &mut late, Event::Tick);
    assert_eq!(shut.answer, Answer::SectionShut);
    assert_eq!(shut.ended, [0].into());
    assert_eq!((shut.subsystem, shut.task), (Some(0), None));
}

/// One tick can shut several sections: each time the choice is made again.
#[test]
fn one_tick_shuts_every_section_that_comes_up() {
    // Three rows, each with a section of its own that is used up, and no budget left anywhere.
    let text = "S\t40\t2\nS\t40\t2\nS\t40\t2\nT\t0\nT\t1\nT\t2\nR\tG\nR\tG\nR\tG\n\
U\t0\t0\t1\nU\t1\t1\t1\nU\t2\t2\t1\n";
    let plan = read(text.as_bytes()).unwrap();
    let mut state = State::fresh(&plan);
    for row in 0..3 {
        state.supplies[row].left = 0;
        state.supplies[row].used = 1;
        state.jobs[row] = Job::Started { held: vec![row] };
    }
    assert!(second::legal::legal(&plan, &state));
    let outcome = step(&plan, &mut state, Event::Tick);
    assert_eq!(outcome.answer, Answer::SectionShut);
    assert_eq!(outcome.ended, [0, 1, 2].into());
    assert_eq!((outcome.subsystem, outcome.task), (None, None));
    assert!(state.jobs.iter().all(|job| *job == Job::Idle));
    assert!(state.supplies.iter().all(|supply| supply.refill == 39));
}
